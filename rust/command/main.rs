//! gate: the bench's calls for a person. It reads, names, draws and prints; every decision is the
//! proved library's.

mod asked;
mod blif;
mod drawing;
mod editions;
mod exports;
mod files;
mod gates;
mod handed;
mod json;
mod listed;
mod listing;
mod looks;
mod names;
mod pla;
mod rows;
mod sheets;
mod short;
mod shown;
mod tables;
mod times;
mod trouble;
mod view;
mod words;

use asked::{Asked, ALL};
use std::io::{self, Write};
use std::process::exit;
use trouble::Trouble;
use words::Words;

const HELP: &str = include_str!("help/gate.txt");

fn main() {
    let args: Vec<String> =
        std::env::args_os().skip(1).map(|arg| arg.to_string_lossy().into()).collect();
    let json = args.iter().any(|arg| arg == "--json");
    let status = match answer(&args).and_then(|text| print(&text)) {
        Ok(()) => 0,
        Err(trouble) => {
            if json {
                // Nobody is left to be told where this fails too.
                let _ = print(&format!("{}\n", trouble.json()));
            }
            let _ = writeln!(io::stderr(), "gate: {}", trouble.said());
            trouble.status()
        }
    };
    exit(status.into())
}

/// What is printed for a command line.
fn answer(args: &[String]) -> Result<String, Trouble> {
    let asked = || Trouble::line("what is asked? ./gate --help lists it");
    let (name, rest) = args.split_first().ok_or_else(asked)?;
    if name == "--help" || name == "-h" || name == "help" {
        return Ok(HELP.to_string());
    }
    let Asked { help, known, answer, .. } = ALL
        .iter()
        .find(|asked| asked.name == name)
        .ok_or_else(|| Trouble::line(format!("no subcommand {name}: ./gate --help lists them")))?;
    if rest.iter().any(|arg| arg == "--help" || arg == "-h") {
        return Ok(help.to_string());
    }
    answer(&Words::read(rest, known)?)
}

/// Prints; that a reader has gone away is no fault.
fn print(text: &str) -> Result<(), Trouble> {
    let mut out = io::stdout().lock();
    match out.write_all(text.as_bytes()).and_then(|()| out.flush()) {
        Err(error) if error.kind() != io::ErrorKind::BrokenPipe => {
            Err(Trouble::Machine(format!("standard output: {error}")))
        }
        _ => Ok(()),
    }
}
