//! When a gate settles, and how much slack it has.

use crate::raw::{self, Times};
use crate::refusal::{answer, Refusal};
use crate::INPUTS;

/// When an input's signal comes, in nanoseconds from 0 to 4,096.
#[derive(Clone, Copy, Debug, PartialEq)]
pub enum InputTime {
    NotRead,
    At(f64),
    Between(f64, f64),
}

/// The earliest and the latest time of a gate's output.
#[derive(Clone, Copy, Debug, PartialEq)]
pub struct Settled {
    pub earliest: f64,
    pub latest: f64,
}

fn times_of(inputs: &[InputTime; INPUTS]) -> Times {
    let mut times = Times { kind: [0; INPUTS], first: [0.0; INPUTS], second: [0.0; INPUTS] };
    for (j, input) in inputs.iter().enumerate() {
        (times.kind[j], times.first[j], times.second[j]) = match *input {
            InputTime::NotRead => (0, 0.0, 0.0),
            InputTime::At(time) => (1, time, 0.0),
            InputTime::Between(earliest, latest) => (2, earliest, latest),
        };
    }
    times
}

/// When the output settles, where each cell takes the same delay. Only the times of the n inputs are
/// looked at. It may refuse as 1, 9, 10 and 13.
///
/// ```
/// use pelzurivan::{settle, InputTime, Refusal, Settled};
///
/// let sheet = [2, 0, 1, 255, 255, 255, 255, 0, 8, 0, 0, 0, 0, 0, 0, 0];
/// let mut inputs = [InputTime::NotRead; 16];
/// inputs[0] = InputTime::At(1.5);
/// assert_eq!(settle(2, &sheet, 0.25, &inputs), Err(Refusal::Times));
/// inputs[1] = InputTime::Between(0.5, 2.0);
/// assert_eq!(settle(2, &sheet, 0.25, &inputs), Ok(Settled { earliest: 0.75, latest: 2.25 }));
/// ```
pub fn settle(
    n: u64,
    sheet: &[u8],
    delay: f64,
    inputs: &[InputTime; INPUTS],
) -> Result<Settled, Refusal> {
    let times = times_of(inputs);
    let settled = unsafe { raw::pelzurivan_settle(n, sheet.as_ptr(), sheet.len(), delay, times) };
    let (earliest, latest) = (settled.earliest, settled.latest);
    answer(settled.number, settled.index, Settled { earliest, latest })
}

/// The slack: a deadline in sixteenths of a nanosecond less the output's latest time; below zero is
/// an answer. It may refuse as 1, 9, 10, 13 and 14.
///
/// ```
/// use pelzurivan::{slack, InputTime, Refusal};
///
/// let sheet = [1, 0, 255, 255, 255, 255, 255, 0, 2, 0, 0, 0, 0, 0, 0, 0];
/// let inputs = [InputTime::At(1.0); 16];
/// assert_eq!(slack(1, &sheet, 0.5, &inputs, 32), Ok(8));
/// assert_eq!(slack(1, &sheet, 0.5, &inputs, 16), Ok(-8));
/// assert_eq!(slack(1, &sheet, 0.3, &inputs, 16), Err(Refusal::Sixteenths));
/// ```
pub fn slack(
    n: u64,
    sheet: &[u8],
    delay: f64,
    inputs: &[InputTime; INPUTS],
    deadline: i64,
) -> Result<i64, Refusal> {
    let times = times_of(inputs);
    let slack =
        unsafe { raw::pelzurivan_slack(n, sheet.as_ptr(), sheet.len(), delay, times, deadline) };
    answer(slack.number, slack.index, slack.slack)
}
