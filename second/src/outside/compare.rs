//! The comparison: the same batches to both programs, byte for byte.

use std::time::Instant;

use super::arguments::Arguments;
use super::broken;
use super::command;
use super::parallel::each_of;
use super::tally::Tally;
use crate::batch::{answer_bytes, case_bytes};
use crate::calls::TABLE;
use crate::case::{Case, PRESET};
use crate::describe::{answer_text, case_text};
use crate::examples;
use crate::fresh::{self, whole_book, Fresh};
use crate::random::Random;

/// So many fresh cases for each call, unless it is said otherwise.
const CASES_A_CALL: u64 = 1000;
/// More cases than that are drawn and asked in several rounds, so that no more are held at once.
const ROUND: usize = 29_000;
/// This many differences are described in full.
const SHOWN: usize = 5;

/// A case with the answer that is expected.
struct Question {
    case: Case,
    tags: Vec<String>,
    expected: Vec<u8>,
}

/// Questions that are asked in one run, and what lent bytes hold before.
struct Batch {
    preset: u8,
    questions: Vec<Question>,
}

impl Batch {
    /// What the command is told: nothing where lent bytes hold what they do anyway.
    fn words(&self) -> Vec<String> {
        match self.preset {
            PRESET => Vec::new(),
            other => vec!["--preset".to_string(), format!("{other:02X}")],
        }
    }
}

pub fn compare(arguments: &Arguments) -> Result<(), String> {
    let wanted = arguments.wanted_command()?;
    let seed = arguments.seed()?;
    let count = arguments.number("--cases", CASES_A_CALL * TABLE.len() as u64)? as usize;
    println!("comparison: seed {seed}, {count} fresh cases");
    let mut random = Random::new(seed);
    let mut tally = Tally::default();
    let mut differences = Vec::new();
    let (mut all, mut faults) = (0, 0);
    for done in (0..count.max(1)).step_by(ROUND) {
        let mut batches = batches(&mut random, done, ROUND.min(count - done))?;
        if arguments.flag("--fault") && done == 0 {
            faults = plant_faults(&mut random, &mut batches);
        }
        for batch in &batches {
            differences.extend(ask(wanted, batch, &mut tally)?);
            all += batch.questions.len();
        }
        if !differences.is_empty() {
            break;
        }
    }
    tally.print();
    if faults > 0 && differences.len() == faults {
        return Err(format!("every planted fault was seen: {}", first_of(&differences)));
    }
    if !differences.is_empty() {
        return Err(first_of(&differences));
    }
    let broken = broken::compare(&mut random, wanted)?;
    println!("batches that break off: {broken} passed");
    let missing = tally.too_seldom();
    if !missing.is_empty() {
        return Err(format!("the cases cover too little:\n  {}", missing.join("\n  ")));
    }
    println!("all {all} cases passed");
    Ok(())
}

/// The document's examples and half of the fresh cases and of the whole book as
/// lent bytes are preset anyway, the others with two other values: a stray write of a preset value
/// would not be seen in its own batch. A later round has fresh cases of the calls in turn alone.
fn batches(random: &mut Random, done: usize, count: usize) -> Result<Vec<Batch>, String> {
    let start = Instant::now();
    let (mut first, mut fresh) = (Vec::new(), Vec::new());
    if done == 0 {
        first = document_questions()?;
        fresh = fresh::cases(random, count);
        fresh.extend(whole_book::cases());
    } else {
        fresh.extend(fresh::in_turn(random, count));
    }
    random.shuffle(&mut fresh);
    let third = fresh.split_off(fresh.len() * 3 / 4);
    let second = fresh.split_off(fresh.len() * 2 / 3);
    first.extend(ask_ourselves(fresh, PRESET));
    let any = random.between(1, 255) as u8;
    let list = vec![
        Batch { preset: PRESET, questions: first },
        Batch { preset: !PRESET, questions: ask_ourselves(second, !PRESET) },
        Batch { preset: any, questions: ask_ourselves(third, any) },
    ];
    println!("the second program: {:.1} s", start.elapsed().as_secs_f64());
    Ok(list)
}

/// The document's examples: our own answers must be the document's.
fn document_questions() -> Result<Vec<Question>, String> {
    let mut list = Vec::new();
    for example in examples::all() {
        let ours = answer_bytes(&example.case, PRESET);
        let tags = vec![format!("document example {:>2}", example.name)];
        let question = Question { case: example.case, tags, expected: example.expected };
        if ours != question.expected {
            let text = difference(&question, &ours);
            return Err(format!("the second program itself differs from the document:\n{text}"));
        }
        list.push(question);
    }
    Ok(list)
}

fn ask_ourselves(list: Vec<Fresh>, preset: u8) -> Vec<Question> {
    let answers = each_of(&list, |fresh| answer_bytes(&fresh.case, preset));
    let pairs = list.into_iter().zip(answers);
    pairs.map(|(Fresh { case, tags }, expected)| Question { case, tags, expected }).collect()
}

/// Flips one bit of one expected answer to each call, to show that none goes
/// unseen. Says how many that are.
fn plant_faults(random: &mut Random, batches: &mut [Batch]) -> usize {
    for call in TABLE {
        let questions = batches.iter_mut().flat_map(|batch| &mut batch.questions);
        let mut asked: Vec<&mut Question> =
            questions.filter(|question| question.case.call.code == call.code).collect();
        let at = random.below(asked.len());
        let bit = random.below(asked[at].expected.len() * 8);
        asked[at].expected[bit / 8] ^= 1 << (bit % 8);
        println!("a fault: bit {bit} of our answer to a case of {} is flipped", call.name);
    }
    TABLE.len()
}

/// Runs the command on a batch; what differs.
fn ask(wanted: &[String], batch: &Batch, tally: &mut Tally) -> Result<Vec<String>, String> {
    let questions = &batch.questions;
    let input: Vec<u8> = questions.iter().flat_map(|question| case_bytes(&question.case)).collect();
    let ran = command::run(wanted, &batch.words(), &input)?;
    let (preset, seconds) = (batch.preset, ran.seconds);
    let (read, written) = (input.len(), ran.output.len());
    println!(
        "the command, lent bytes {preset:02X}: {seconds:.1} s, {read} bytes in, {written} out"
    );
    let mut differences = judge(questions, &ran.output, tally);
    if !ran.status.success() {
        differences.push(format!("the command ended with {}\n{}", ran.status, ran.said));
    }
    Ok(differences)
}

/// Goes through the answers; the length of each is known beforehand. Counts
/// what passed and describes what did not.
fn judge(questions: &[Question], output: &[u8], tally: &mut Tally) -> Vec<String> {
    let mut differences = Vec::new();
    let mut left = output;
    for (at, question) in questions.iter().enumerate() {
        let (got, rest) = left.split_at(question.expected.len().min(left.len()));
        left = rest;
        if got == question.expected {
            tally.count(question.case.call, got, &question.tags);
        } else {
            differences.push(format!("case {at}: {}", difference(question, got)));
        }
        if got.len() < question.expected.len() {
            differences.push(format!("the output ends in case {at} of {}", questions.len()));
            break;
        }
    }
    if !left.is_empty() {
        differences.push(format!("the output is {} bytes too long", left.len()));
    }
    differences
}

/// How many differences there are, and a few of them.
pub fn first_of(differences: &[String]) -> String {
    let shown = &differences[..differences.len().min(SHOWN)];
    format!("{} differences, the first of them:\n{}", differences.len(), shown.join("\n"))
}

fn difference(question: &Question, got: &[u8]) -> String {
    let case = &question.case;
    let mut pairs = question.expected.iter().zip(got);
    let byte = pairs.position(|(ours, theirs)| ours != theirs).unwrap_or(got.len());
    format!(
        "{}\n  ({})\n  expected: {}\n  got:      {}\n  first difference at byte {byte} of the answer",
        case_text(case),
        question.tags.join("; "),
        answer_text(case, &question.expected),
        answer_text(case, got),
    )
}
