//! In which form an answer is printed.

use crate::drawing;
use crate::exports::{blif, dot, report, verilog};
use crate::files;
use crate::listing;
use crate::shown::Shown;
use crate::trouble::Trouble;
use crate::words::Words;

/// The options that choose a form; without one it is a list for people.
pub const OPTIONS: [&str; 6] = ["--json", "--blif", "--verilog", "--dot", "--svg", "--report"];

/// The sheet in the form that was asked for.
pub fn view(shown: &Shown, words: &Words) -> Result<String, Trouble> {
    let chosen: Vec<&str> = OPTIONS.into_iter().filter(|option| words.has(option)).collect();
    Ok(match chosen[..] {
        [] => listing::write(shown),
        ["--json"] => format!("{}\n", shown.json()),
        ["--blif"] => blif::write(shown),
        ["--verilog"] => verilog::write(shown),
        ["--dot"] => dot::write(shown),
        ["--svg"] => drawing::svg(shown, &shown.summary()),
        ["--report"] => report::write(shown),
        _ => return Err(Trouble::line(format!("only one of {}", chosen.join(" and ")))),
    })
}

/// The sheet in the form that was asked for; -o writes its records, to standard output alone.
pub fn with_records(shown: &Shown, words: &Words) -> Result<String, Trouble> {
    let view = view(shown, words)?;
    match words.value("-o") {
        None => Ok(view),
        Some("-") => files::write("-", &shown.sheet.bytes).map(|()| String::new()),
        Some(path) => files::write(path, &shown.sheet.bytes).map(|()| view),
    }
}
