//! The second program's commands.

use std::io::{Read, Write};
use std::process::ExitCode;

use second::batch::{answer_batch, case_bytes};
use second::bench::bench;
use second::case::PRESET;
use second::fresh;
use second::inspect::inspect;
use second::outside::arguments::Arguments;
use second::outside::{
    bound, cards, compare, compare_bench, compare_inspect, fewest, gates, measure, programs, trees,
};
use second::random::Random;

/// So many cases in a batch, unless it is said otherwise.
const CASES_A_BATCH: u64 = 1000;

const USAGE: &str =
    "second answer [--preset XX]   a batch on standard input, its answers on standard output
second batch [--seed S] [--cases N]   a batch of fresh cases on standard output
second bench   n, K and a table on standard input, number and sheet on standard output
second inspect n, a table and a sheet on standard input, number and place on standard output
second compare [--seed S] [--cases N] [--fault] -- COMMAND ARGS..
second compare-bench [--seed S] [--cases N] [--fault] -- COMMAND ARGS..
second compare-inspect [--seed S] [--cases N] [--fault] -- COMMAND ARGS..
second fewest [--seed S] [--cases N] [--all-of-4] [--fault] -- COMMAND ARGS..
second bound [--seed S] [--cases N] [--fault] -- COMMAND ARGS..
second gates [--few] [--fault] -- COMMAND ARGS..
second trees [--seed S] [--cases N] -- COMMAND ARGS..
second cards [--seed S] [--cases N] -- COMMAND ARGS..
second measure [--seed S] [--only WORDS] -- COMMAND ARGS..
second tables --kind random|near|split|sparse --n N --count C [--seed S]";

fn main() -> ExitCode {
    let words: Vec<String> = std::env::args().skip(1).collect();
    match obey(&words) {
        Ok(()) => ExitCode::SUCCESS,
        Err(message) => {
            eprintln!("FAILED: {message}");
            ExitCode::FAILURE
        }
    }
}

fn obey(words: &[String]) -> Result<(), String> {
    let (command, rest) = words.split_first().ok_or(USAGE)?;
    let options = |values: &[&str], flags: &[&str]| Arguments::read(rest, values, flags);
    let comparison = || options(&["--seed", "--cases"], &["--fault"]);
    let compare_program = |program| programs::compare(program, &comparison()?);
    match command.as_str() {
        "answer" => {
            let preset = options(&["--preset"], &[])?.byte("--preset", PRESET)?;
            filter(|batch| answer_batch(batch, preset))
        }
        "batch" => batch(&options(&["--seed", "--cases"], &[])?),
        "bench" => filter(bench),
        "inspect" => filter(inspect),
        "compare" => compare::compare(&comparison()?),
        "compare-bench" => compare_program(&compare_bench::PROGRAM),
        "compare-inspect" => compare_program(&compare_inspect::PROGRAM),
        "fewest" => fewest::fewest(&options(&["--seed", "--cases"], &["--all-of-4", "--fault"])?),
        "bound" => bound::bound(&options(&["--seed", "--cases"], &["--fault"])?),
        "gates" => gates::gates(&options(&["--seed"], &["--few", "--fault"])?),
        "trees" => trees::trees(&options(&["--seed", "--cases"], &[])?),
        "cards" => cards::cards(&options(&["--seed", "--cases"], &[])?),
        "measure" => measure::measure(&options(&["--seed", "--only"], &[])?),
        "tables" => measure::tables(&options(&["--kind", "--n", "--count", "--seed"], &[])?),
        _ => Err(format!("{command} is not a command\n{USAGE}")),
    }
}

/// Standard input through a function to standard output.
fn filter(work: impl Fn(&[u8]) -> Vec<u8>) -> Result<(), String> {
    let mut input = Vec::new();
    std::io::stdin().read_to_end(&mut input).map_err(|error| error.to_string())?;
    write(&work(&input))
}

/// Fresh cases, the calls in turn.
fn batch(arguments: &Arguments) -> Result<(), String> {
    let count = arguments.number("--cases", CASES_A_BATCH)? as usize;
    let list = fresh::in_turn(&mut Random::new(arguments.seed()?), count);
    write(&list.iter().flat_map(|fresh| case_bytes(&fresh.case)).collect::<Vec<u8>>())
}

fn write(output: &[u8]) -> Result<(), String> {
    std::io::stdout().write_all(output).map_err(|error| error.to_string())
}
