//! gate settle: when a gate's output settles, and at each cell on the way.

use super::show::shown;
use super::Asked;
use crate::drawing;
use crate::exports::{dot, report};
use crate::handed::{self, Handed};
use crate::json::Json;
use crate::listed::{Listed, Times};
use crate::listing;
use crate::shown::asked;
use crate::times;
use crate::trouble::Trouble;
use crate::words::{Known, Words};
use pelzurivan::{settle, slack, InputTime, Refusal, Settled, INPUTS};

pub static ASKED: Asked = Asked {
    name: "settle",
    help: include_str!("../help/settle.txt"),
    known: Known {
        alone: &["--json", "--svg", "--dot", "--report"],
        valued: &["--delay", "--deadline", "--n", "--names"],
    },
    answer,
};

fn answer(words: &Words) -> Result<String, Trouble> {
    let (path, list) =
        words.plain.split_first().ok_or_else(|| Trouble::line("which sheet? see --help"))?;
    let handed = handed::sheet(path, words, None)?;
    let inputs = times::read(list, &handed.names)?;
    let delay: f64 = words.number("--delay")?.unwrap_or(0.0);
    let settled = each(&handed, delay, &inputs)?;
    let slack = match words.value("--deadline") {
        Some(deadline) => Some(slack_of(&handed, delay, &inputs, deadline)?),
        None => None,
    };
    if words.has("--json") {
        return Ok(format!("{}\n", json(&settled, slack)));
    }
    let cells: Vec<String> = settled.iter().map(|at| times::span(at.earliest, at.latest)).collect();
    let last = cells.last().cloned().unwrap_or_default();
    let spare = slack.map(spare);
    let and_spare = spare.iter().map(|spare| format!("; {spare}")).collect::<String>();
    let output = format!("{} settles at {last}{and_spare}.", handed.names.output);
    let times = Times { output, inputs: inputs.iter().map(times::said).collect(), cells };
    if words.has("--report") {
        return page(words, &handed, times, spare);
    }
    view(words, &handed, times)
}

/// The slack in words.
fn spare(slack: i64) -> String {
    let time = slack.unsigned_abs() as f64 / 16.0;
    format!("{time} ns {}", if slack < 0 { "too late" } else { "to spare" })
}

fn view(words: &Words, handed: &Handed, times: Times) -> Result<String, Trouble> {
    let title = times.output.clone();
    let listed = Listed::new(handed.listed(), handed.names.clone(), times);
    match (words.has("--svg"), words.has("--dot")) {
        (true, true) => Err(Trouble::line("only one of --svg and --dot")),
        (true, _) => Ok(drawing::svg(&listed, &title)),
        (_, true) => Ok(dot::write(&listed)),
        _ => Ok(format!("{title}\n{}", listing::cells(&listed))),
    }
}

/// The inspector's page: with the calls that gave the times, and the line that asks for them again.
fn page(
    words: &Words,
    handed: &Handed,
    times: Times,
    spare: Option<String>,
) -> Result<String, Trouble> {
    let last = times.cells.last().cloned().unwrap_or_default();
    let mut shown = shown(&handed.path, words, times)?;
    shown.asked.push(asked("settle", format!("0: the output settles at {last}")));
    shown.asked.extend(spare.map(|spare| asked("slack", format!("0: {spare}"))));
    let mut again = format!("./gate settle {}", handed.again(None));
    for time in &words.plain[1..] {
        again.push_str(&format!(" '{time}'"));
    }
    for option in ["--delay", "--deadline"] {
        let value = words.value(option).map(|value| format!(" {option} {value}"));
        again.push_str(&value.unwrap_or_default());
    }
    shown.again = again;
    Ok(report::write(&shown))
}

/// The times of each cell: when the sheet of the first records settles.
fn each(
    handed: &Handed,
    delay: f64,
    inputs: &[InputTime; INPUTS],
) -> Result<Vec<Settled>, Trouble> {
    let n = handed.n as u64;
    // The whole sheet first, so that what it is refused for is what is said.
    let whole = settle(n, &handed.bytes, delay, inputs);
    let whole = whole.map_err(|refusal| missing(handed, inputs, refusal))?;
    let records = handed.bytes.len() / handed.edition.record;
    let mut list = Vec::new();
    for count in 1..records {
        list.push(settle(n, &handed.bytes[..count * handed.edition.record], delay, inputs)?);
    }
    list.push(whole);
    Ok(list)
}

/// 13 where a time is missing names the input.
fn missing(handed: &Handed, inputs: &[InputTime; INPUTS], refusal: Refusal) -> Trouble {
    if refusal != Refusal::Times {
        return handed.look(None).at(refusal);
    }
    let sheet = handed.listed();
    let unread = (0..handed.n).find(|&j| inputs[j] == InputTime::NotRead && sheet.reads(j));
    let look_at = match unread {
        Some(j) => format!("no time for {}", handed.names.inputs[j]),
        None => "times are from 0 to 4,096 ns, the earliest first".to_string(),
    };
    Trouble::look_at(refusal, look_at)
}

/// The slack in sixteenths for a deadline in nanoseconds.
fn slack_of(
    handed: &Handed,
    delay: f64,
    inputs: &[InputTime; INPUTS],
    deadline: &str,
) -> Result<i64, Trouble> {
    let sixteenths = times::sixteenths(deadline).ok_or_else(|| {
        Trouble::line(format!("--deadline {deadline} isn't a whole number of sixteenths"))
    })?;
    let wrong = "the deadline is from -65,536 to 65,536 ns, every time in sixteenths";
    slack(handed.n as u64, &handed.bytes, delay, inputs, sixteenths).map_err(
        |refusal| match refusal {
            Refusal::Sixteenths => Trouble::look_at(refusal, wrong.to_string()),
            _ => handed.look(None).at(refusal),
        },
    )
}

fn json(settled: &[Settled], slack: Option<i64>) -> Json {
    let pair = |at: &Settled| {
        Json::object(vec![("earliest", at.earliest.into()), ("latest", at.latest.into())])
    };
    let mut fields = vec![("number", 0usize.into())];
    if let Some(last) = settled.last() {
        fields.push(("earliest", last.earliest.into()));
        fields.push(("latest", last.latest.into()));
    }
    fields.extend(slack.map(|slack| ("slack_sixteenths", slack.into())));
    fields.push(("cells", Json::List(settled.iter().map(pair).collect())));
    Json::object(fields)
}
