//! Times as people write them: `a=1.5 b=2..3.25`, in nanoseconds.

use crate::names::Names;
use crate::trouble::Trouble;
use pelzurivan::{InputTime, INPUTS};

/// The time of each input; not read where none is told.
pub fn read(list: &[String], names: &Names) -> Result<[InputTime; INPUTS], Trouble> {
    let mut times = [InputTime::NotRead; INPUTS];
    for pair in list {
        let wrong =
            || Trouble::line(format!("{pair} gives no input a time: NAME=1.5 or NAME=2..3.25"));
        let (name, time) = pair.split_once('=').ok_or_else(wrong)?;
        let j = names.position(name).ok_or_else(wrong)?;
        if times[j] != InputTime::NotRead {
            return Err(Trouble::line(format!("{} has two times", names.inputs[j])));
        }
        let number = |text: &str| text.parse::<f64>().map_err(|_| wrong());
        times[j] = match time.split_once("..") {
            Some((earliest, latest)) => InputTime::Between(number(earliest)?, number(latest)?),
            None => InputTime::At(number(time)?),
        };
    }
    Ok(times)
}

/// An input's time in words, nothing where none is told.
pub fn said(time: &InputTime) -> String {
    match time {
        InputTime::NotRead => String::new(),
        InputTime::At(time) => format!("{time} ns"),
        InputTime::Between(earliest, latest) => span(*earliest, *latest),
    }
}

pub fn span(earliest: f64, latest: f64) -> String {
    if earliest == latest {
        return format!("{latest} ns");
    }
    format!("{earliest} to {latest} ns")
}

/// A number of sixteenths as a whole number of them: exact, or none.
pub fn sixteenths(text: &str) -> Option<i64> {
    let number: f64 = text.parse().ok()?;
    let sixteenths = number * 16.0;
    let whole = sixteenths.is_finite() && sixteenths.fract() == 0.0 && sixteenths.abs() < 9e15;
    whole.then_some(sixteenths as i64)
}

#[cfg(test)]
mod tests {
    use super::*;

    #[test]
    fn one_time_or_two() {
        let names = Names::given("key,permit,open").ok().unwrap();
        let list = ["key=1.5", "b=2..3.25"].map(String::from);
        let times = read(&list, &names).ok().unwrap();
        assert_eq!(
            times[..3],
            [InputTime::At(1.5), InputTime::Between(2.0, 3.25), InputTime::NotRead]
        );
        for wrong in ["key", "lock=1", "key=x", "key=1..", "key=..2"] {
            assert!(read(&[wrong.to_string()], &names).is_err(), "{wrong}");
        }
        assert!(read(&["key=1", "a=2"].map(String::from), &names).is_err());
        assert_eq!(
            (sixteenths("3.25"), sixteenths("0.3"), sixteenths("nan")),
            (Some(52), None, None)
        );
    }
}
