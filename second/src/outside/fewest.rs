//! Demand 3 from outside: make's count against networks of one and two cells.
//! The sheets are then handed back to the command, which must accept each.

use super::arguments::Arguments;
use super::asking::{ask, carried_count, check_case, make_case, next_answer, nothing_left, seen};
use super::parallel::each_of;
use crate::batch::{answer_length, case_bytes};
use crate::carry::Networks;
use crate::case::Case;
use crate::cell::{MOST_READS, SECOND};
use crate::describe::{answer_text, case_text, hex};
use crate::fresh::networks::two_cells;
use crate::fresh::tables::{any, flip_bits, spread, KINDS};
use crate::random::Random;
use crate::refusals::{DONE, NO_SPLIT};
use crate::sets::{all, size};
use crate::table::Table;

/// A table, and whether it was made up as two cells.
struct Asked {
    table: Table,
    made_of_two: bool,
}

/// All tables asked about for one n and K.
struct Group {
    n: usize,
    k: usize,
    tables: Vec<Asked>,
    /// All of them were made up as two cells, and are too large to be wired in every way.
    planted: bool,
}

/// How many sheets of one, two, three and more cells make wrote, and how many
/// tables it refused. Those of up to three cells have the fewest.
#[derive(Default)]
struct Counts {
    one: usize,
    two: usize,
    three: usize,
    more: usize,
    refused: usize,
}

pub fn fewest(arguments: &Arguments) -> Result<(), String> {
    let wanted = arguments.wanted_command()?;
    let seed = arguments.seed()?;
    let sample = arguments.number("--cases", 2000)? as usize;
    println!("fewest cells: seed {seed}, {sample} sampled tables for each n and K");
    let mut groups = groups(&mut Random::new(seed), sample);
    if arguments.flag("--all-of-4") {
        groups.extend([2, 3].map(|k| Group { n: 4, k, tables: all_tables(4), planted: false }));
    }
    let batch: Vec<u8> = groups.iter().flat_map(group_bytes).collect();
    let mut output = ask(wanted, &batch)?;
    if arguments.flag("--fault") {
        let at = plant_fault(&groups, &mut output);
        return seen(judge(&groups, &output), &at);
    }
    accepted(wanted, &judge(&groups, &output)?)
}

/// One more is written into the count of the last answer, which is to a table of
/// many inputs. Says what must be found fault with.
fn plant_fault(groups: &[Group], output: &mut [u8]) -> String {
    let group = groups.last().expect("some groups");
    let asked = group.tables.last().expect("some tables");
    let length = answer_length(&make_case(group.k, &asked.table));
    let count = output.len() - length + 1;
    output[count] += 1;
    println!("a fault: the last count is one more");
    about(group, asked)
}

fn about(group: &Group, asked: &Asked) -> String {
    format!("n={} K={} table {}", group.n, group.k, hex(&asked.table.to_bytes()))
}

/// Judges all answers: the sheets, to be handed back.
fn judge(groups: &[Group], output: &[u8]) -> Result<Vec<Case>, String> {
    println!("  n  K   tables   one cell  two cells      three       more    refused");
    let mut left = output;
    let mut made = Vec::new();
    for group in groups {
        let Counts { one, two, three, more, refused } = judge_group(group, &mut left, &mut made)?;
        let (n, k, tables) = (group.n, group.k, group.tables.len());
        println!("{n:>3}{k:>3}{tables:>9}{one:>11}{two:>11}{three:>11}{more:>11}{refused:>11}");
    }
    nothing_left(left)?;
    println!(
        "make's count is the fewest wherever one or two cells do, and in each sheet of up to three"
    );
    Ok(made)
}

/// Each sheet that make wrote must be accepted: number 0, place 0.
fn accepted(wanted: &[String], made: &[Case]) -> Result<(), String> {
    let batch: Vec<u8> = made.iter().flat_map(case_bytes).collect();
    let output = ask(wanted, &batch)?;
    let mut left = &output[..];
    for case in made {
        let answer = next_answer(case, &mut left)?;
        if answer.iter().any(|&byte| byte != 0) {
            let (case, answer) = (case_text(case), answer_text(case, answer));
            return Err(format!("a sheet that make wrote is not accepted: {case}\n  {answer}"));
        }
    }
    nothing_left(left)?;
    println!("each of the {} sheets is accepted by check", made.len());
    Ok(())
}

fn all_tables(n: usize) -> Vec<Asked> {
    let numbers = 0..1u64 << (1 << n);
    let tables = numbers.map(|number| Table::from_number(n, number));
    tables.map(|table| Asked { table, made_of_two: false }).collect()
}

/// Every table up to 3 inputs; samples at 4 and 5 for K up to 4, and beyond
/// that at each n that two cells of size K can read, up to 9; for K = 7 and 8 up to
/// 10. Beyond that only tables that were made up as two cells.
fn groups(random: &mut Random, sample: usize) -> Vec<Group> {
    let mut list = Vec::new();
    for n in 1..=3 {
        let group = |k| Group { n, k, tables: all_tables(n), planted: false };
        list.extend((2..=MOST_READS).map(group));
    }
    let small = (4..=5).flat_map(|n| (2..=4).map(move |k| (n, k, sample)));
    let large = (4..=MOST_READS)
        .flat_map(|k| (6.max(k + 1)..=9.min(2 * k - 1)).map(move |n| (n, k, sample / 4)));
    // Two cells of the second edition read more, and it takes longer to wire them.
    let second = (MOST_READS + 1..=SECOND.most_reads)
        .flat_map(|k| (k + 1..=10).map(move |n| (n, k, sample / 8)));
    for (n, k, count) in small.chain(large).chain(second) {
        let tables = (0..count).map(|i| sampled(random, n, k, i)).collect();
        list.push(Group { n, k, tables, planted: false });
    }
    for k in MOST_READS..=SECOND.most_reads {
        for n in 11..2 * k {
            let tables = (0..sample / 100 + 1).map(|i| planted(random, n, k, i)).collect();
            list.push(Group { n, k, tables, planted: true });
        }
    }
    list
}

/// Two cells wired in any way; in every third table they read not all of the inputs.
fn planted(random: &mut Random, n: usize, k: usize, i: usize) -> Asked {
    let inputs = if i % 3 == 2 { random.between(k + 1, n) } else { n };
    let set = random.part_of(all(n), inputs);
    Asked { table: spread(&two_cells(random, inputs, k), n, set), made_of_two: true }
}

/// In every third table only some of the n inputs count, in any places.
fn sampled(random: &mut Random, n: usize, k: usize, i: usize) -> Asked {
    let inputs = if random.one_in(3) { random.between(1, n) } else { n };
    let Asked { table, made_of_two } = sampled_over_all(random, inputs, k, i);
    let set = random.part_of(all(n), inputs);
    Asked { table: spread(&table, n, set), made_of_two }
}

/// By turns two cells wired in any way, the same with a bit or two flipped, a
/// table of a structured kind, and a random one.
fn sampled_over_all(random: &mut Random, n: usize, k: usize, i: usize) -> Asked {
    if i % 2 == 0 && n < 2 * k {
        let mut table = two_cells(random, n, k);
        let made_of_two = i % 4 == 0;
        if !made_of_two {
            flip_bits(random, &mut table);
        }
        return Asked { table, made_of_two };
    }
    let structured = random.pick(&KINDS).draw(random, n).table;
    // Some kinds need more inputs than n; those give way to a random table.
    let taken = i % 4 != 3 && structured.inputs == n;
    Asked { table: if taken { structured } else { any(random, n) }, made_of_two: false }
}

fn group_bytes(group: &Group) -> Vec<u8> {
    group.tables.iter().flat_map(|asked| case_bytes(&make_case(group.k, &asked.table))).collect()
}

/// Judges the answers to a group; its sheets go to those to be checked.
fn judge_group(group: &Group, left: &mut &[u8], sheets: &mut Vec<Case>) -> Result<Counts, String> {
    let fewest = fewest_of(group);
    let mut counts = Counts::default();
    for (asked, fewest) in group.tables.iter().zip(fewest) {
        let answer = next_answer(&make_case(group.k, &asked.table), left)?;
        judge_one(group.k, asked, fewest, answer, &mut counts).map_err(|what| {
            format!("{}: {what}\n  make answered {}", about(group, asked), hex(answer))
        })?;
        if answer[0] == DONE {
            let count = usize::from(answer[1]);
            sheets.push(check_case(group.k, &asked.table, count, &answer[2..]));
        }
    }
    Ok(counts)
}

/// By networks. What was made up as two cells needs just those, unless one can
/// read every input that counts.
fn fewest_of(group: &Group) -> Vec<Option<usize>> {
    if group.planted {
        let one = |asked: &Asked| size(asked.table.counting()) <= group.k;
        return group.tables.iter().map(|asked| Some(if one(asked) { 1 } else { 2 })).collect();
    }
    let networks = Networks::new(group.n, group.k);
    each_of(&group.tables, |asked| networks.fewest(&asked.table))
}

/// Where one cell carries the table make must give one, where two do it must
/// give two. Where neither do it may give three, which are then the fewest, or
/// more, or refuse.
fn judge_one(
    k: usize,
    asked: &Asked,
    fewest: Option<usize>,
    answer: &[u8],
    counts: &mut Counts,
) -> Result<(), String> {
    if asked.made_of_two && fewest.is_none() {
        return Err("made of two cells, and the second program itself says more".to_string());
    }
    let made = match (answer[0], answer[1] as usize) {
        (DONE, count) => Some(carried_count(k, &asked.table, count, &answer[2..])?),
        (NO_SPLIT, 0) => None,
        (number, count) => return Err(format!("number {number}, count {count}")),
    };
    match (fewest, made) {
        (Some(1), Some(1)) => counts.one += 1,
        (Some(2), Some(2)) => counts.two += 1,
        (None, Some(3)) => counts.three += 1,
        (None, Some(count)) if count > 3 => counts.more += 1,
        (None, None) => counts.refused += 1,
        _ => return Err(format!("fewest by networks {fewest:?}, by make {made:?}")),
    }
    Ok(())
}
