//! Measuring: tables to measure with, and the time that passes inside each call.

use std::io::Write;

use super::arguments::Arguments;
use super::command;
use super::subjects::{subjects, table_of_kind, Subject};
use crate::batch::{answer_length, case_bytes};
use crate::best::candidates;
use crate::case::Case;
use crate::cell::MOST_READS;
use crate::random::Random;
use crate::refusals::NO_SPLIT;

/// A measurement is repeated with more cases until they take this long together.
const LONG_ENOUGH: f64 = 500.0;
/// After this long a single case will do.
const VERY_LONG: f64 = 2000.0;
const MOST_CASES: usize = 16_384;

/// Writes a stream of tables to standard output.
pub fn tables(arguments: &Arguments) -> Result<(), String> {
    let mut random = Random::new(arguments.seed()?);
    let n = arguments.number("--n", 8)? as usize;
    let count = arguments.number("--count", 1)?;
    let kind = arguments.text("--kind", "random");
    if !(4..=16).contains(&n) {
        return Err("--n must be 4 to 16".to_string());
    }
    let mut output = std::io::stdout().lock();
    for _ in 0..count {
        let table = table_of_kind(&mut random, &kind, n)?;
        output.write_all(&table.to_bytes()).map_err(|error| error.to_string())?;
    }
    Ok(())
}

/// Prints the time for one case of each subject whose name has the wanted words
/// in it, and how it grows with n. The command is told to say its times.
pub fn measure(arguments: &Arguments) -> Result<(), String> {
    let wanted = arguments.wanted_command()?;
    let seed = arguments.seed()?;
    let only = arguments.text("--only", "");
    println!("measured with seed {seed}; milliseconds inside the call");
    println!("| what | n | candidates | cases | as expected | each | the slowest | times the row above |");
    println!("|---|---|---|---|---|---|---|---|");
    for subject in subjects().iter().filter(|subject| subject.name.contains(&only)) {
        // Each subject starts afresh, so that it is the same alone as among the others.
        let mut random = Random::new(seed);
        let mut above: Option<f64> = None;
        for &n in subject.sizes {
            let Measured { cases, right, each, slowest } =
                measure_one(&mut random, wanted, subject, n)?;
            let ratio = above.map_or(String::new(), |above| format!("{:.1}", each / above));
            let pairs = match subject.expected {
                NO_SPLIT => candidates(n, MOST_READS).len().to_string(),
                _ => String::new(),
            };
            let name = subject.name;
            println!("| {name} | {n} | {pairs} | {cases} | {right} | {each:.4} | {slowest:.4} | {ratio} |");
            above = Some(each);
        }
    }
    Ok(())
}

struct Measured {
    cases: usize,
    /// How many were answered with the number that was expected.
    right: usize,
    /// Milliseconds: the mean, and the most of any case (which on a busy
    /// machine tells of the machine).
    each: f64,
    slowest: f64,
}

/// Four times as many cases until they take long enough.
fn measure_one(
    random: &mut Random,
    wanted: &[String],
    subject: &Subject,
    n: usize,
) -> Result<Measured, String> {
    let mut cases: Vec<Case> = vec![(subject.draw)(random, n)];
    loop {
        let batch: Vec<u8> = cases.iter().flat_map(case_bytes).collect();
        let ran = command::run(wanted, &["--times".to_string()], &batch)?;
        let times = milliseconds(&ran.said, &cases)?;
        let total: f64 = times.iter().sum();
        // One case alone may bear costs that come once in a run.
        let enough = total >= LONG_ENOUGH && (cases.len() > 1 || total >= VERY_LONG);
        if enough || cases.len() >= MOST_CASES {
            let right = count_right(&cases, &ran.output, subject.expected);
            let each = total / cases.len() as f64;
            let slowest = times.into_iter().fold(0.0, f64::max);
            return Ok(Measured { cases: cases.len(), right, each, slowest });
        }
        for _ in 0..cases.len() * 3 {
            cases.push((subject.draw)(random, n));
        }
    }
}

/// The lines of `--times`: a code and the nanoseconds, one for each case.
fn milliseconds(said: &str, cases: &[Case]) -> Result<Vec<f64>, String> {
    let mut list = Vec::new();
    for (line, case) in said.lines().zip(cases) {
        let (code, time) = line.split_once(' ').unwrap_or((line, ""));
        match time.parse::<f64>() {
            Ok(time) if code == format!("{:02X}", case.call.code) => list.push(time / 1e6),
            _ => return Err(format!("{line} is no code and time")),
        }
    }
    if list.len() != cases.len() {
        return Err(format!("{} cases, but {} times", cases.len(), list.len()));
    }
    Ok(list)
}

fn count_right(cases: &[Case], output: &[u8], expected: u8) -> usize {
    let mut start = 0;
    let mut right = 0;
    for case in cases {
        let number = output.get(start + case.call.number_at());
        right += usize::from(number == Some(&expected));
        start += answer_length(case);
    }
    right
}
