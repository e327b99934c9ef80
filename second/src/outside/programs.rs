//! The comparison for a program that reads standard input and writes one
//! answer: one run for each input.

use std::collections::BTreeMap;

use super::arguments::Arguments;
use super::command;
use super::compare::first_of;
use crate::describe::hex;
use crate::random::Random;

/// An input and the output that is expected.
pub type Run = (Vec<u8>, Vec<u8>);

/// A program as the second program knows it.
pub struct Program {
    pub name: &'static str,
    pub ours: fn(&[u8]) -> Vec<u8>,
    /// What the documents themselves say.
    pub documented: fn() -> Vec<Run>,
    /// A fresh input, the i-th.
    pub fresh: fn(&mut Random, usize) -> Vec<u8>,
    /// The answer number at the front of an output.
    pub number: fn(&[u8]) -> u8,
}

pub fn compare(program: &Program, arguments: &Arguments) -> Result<(), String> {
    let wanted = arguments.wanted_command()?;
    let seed = arguments.seed()?;
    let count = arguments.number("--cases", 60)? as usize;
    println!("comparison of the {} program: seed {seed}, {count} fresh inputs", program.name);
    let mut random = Random::new(seed);
    let mut runs = runs(program, &mut random, count)?;
    let fault = arguments.flag("--fault");
    if fault {
        plant_fault(&mut random, &mut runs);
    }
    let mut numbers: BTreeMap<u8, usize> = BTreeMap::new();
    let mut differences = Vec::new();
    for run in &runs {
        match difference(wanted, run)? {
            Some(text) => differences.push(text),
            None => *numbers.entry((program.number)(&run.1)).or_default() += 1,
        }
    }
    if fault && differences.len() == 1 {
        return Err(format!("every planted fault was seen: {}", first_of(&differences)));
    }
    if !differences.is_empty() {
        return Err(first_of(&differences));
    }
    let counts: Vec<String> = numbers.iter().map(|(number, n)| format!("{number}: {n}")).collect();
    println!("passed, by answer number: {}", counts.join(", "));
    println!("all {} runs passed", runs.len());
    Ok(())
}

/// The documents' runs, to which our own answers must be theirs, and fresh ones.
fn runs(program: &Program, random: &mut Random, count: usize) -> Result<Vec<Run>, String> {
    let mut runs = (program.documented)();
    for (input, expected) in &runs {
        if (program.ours)(input) != *expected {
            return Err(format!("the second program itself differs on {}", hex(input)));
        }
    }
    for i in 0..count {
        let input = (program.fresh)(random, i);
        let expected = (program.ours)(&input);
        runs.push((input, expected));
    }
    Ok(runs)
}

/// Flips one bit of one output that is expected, to show that it doesn't go unseen.
fn plant_fault(random: &mut Random, runs: &mut [Run]) {
    let at = random.below(runs.len());
    let expected = &mut runs[at].1;
    let bit = random.below(expected.len() * 8);
    expected[bit / 8] ^= 1 << (bit % 8);
}

/// Runs the command on an input, which it must take to its end; what differs, if something does.
fn difference(wanted: &[String], (input, expected): &Run) -> Result<Option<String>, String> {
    let ran = command::run(wanted, &[], input)?;
    if ran.output == *expected && ran.status.success() && ran.took_all {
        return Ok(None);
    }
    let (input, expected, got) = (hex(input), hex(expected), hex(&ran.output));
    let taken = if ran.took_all { "" } else { "; the input was not taken to its end" };
    let (ended, said) = (ran.status, ran.said);
    let text = format!("input {input}\n  expected {expected}\n  got {got}; {ended}{taken}\n{said}");
    Ok(Some(text))
}
