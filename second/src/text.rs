//! Formulas as text, read byte by byte from the left with a stack of what is still open.

pub const MOST_TEXT: usize = 1_024;
pub const MOST_LEVELS: usize = 32;

/// What waits for the factor that comes next, or for its end.
#[derive(Clone, Copy, PartialEq, Eq)]
enum Open {
    Flip,
    Bracket,
    Mark(u8),
}

#[derive(Default)]
struct Reading {
    /// The formula so far, each mark and `!` after what it works on.
    steps: Vec<u8>,
    open: Vec<Open>,
    /// A factor has just ended.
    whole: bool,
}

/// How loosely a mark binds.
fn looseness(mark: u8) -> u8 {
    match mark {
        b'&' => 0,
        b'^' => 1,
        _ => 2,
    }
}

impl Reading {
    fn levels(&self) -> usize {
        self.open.iter().filter(|open| !matches!(open, Open::Mark(_))).count()
    }

    /// A factor ends, and with it every `!` right before it.
    fn end_factor(&mut self) {
        while self.open.last() == Some(&Open::Flip) {
            self.open.pop();
            self.steps.push(b'!');
        }
        self.whole = true;
    }

    /// The marks on top that bind no looser than that have both their sides.
    fn join(&mut self, most: u8) {
        while let Some(&Open::Mark(mark)) = self.open.last() {
            if looseness(mark) > most {
                return;
            }
            self.open.pop();
            self.steps.push(mark);
        }
    }

    /// Takes the next byte; false if no formula goes on with it.
    fn take(&mut self, n: usize, byte: u8) -> bool {
        match (self.whole, byte) {
            (false, b'!') if self.levels() < MOST_LEVELS => self.open.push(Open::Flip),
            (false, b'(') if self.levels() < MOST_LEVELS => self.open.push(Open::Bracket),
            (false, b'0' | b'1') => {
                self.steps.push(byte);
                self.end_factor();
            }
            (false, b'a'..=b'p') if usize::from(byte - b'a') < n => {
                self.steps.push(byte);
                self.end_factor();
            }
            (true, b'&' | b'^' | b'|') => {
                self.join(looseness(byte));
                self.open.push(Open::Mark(byte));
                self.whole = false;
            }
            (true, b')') if self.levels() > 0 => {
                self.join(2);
                self.open.pop();
                self.end_factor();
            }
            _ => return false,
        }
        true
    }
}

/// The formula with each mark after its sides, or the place at which the text can't be continued.
pub fn read(n: usize, text: &[u8]) -> Result<Vec<u8>, usize> {
    if text.len() > MOST_TEXT {
        return Err(text.len());
    }
    let mut reading = Reading::default();
    if let Some(place) = text.iter().position(|&byte| !reading.take(n, byte)) {
        return Err(place);
    }
    if !reading.whole || reading.levels() > 0 {
        return Err(text.len());
    }
    reading.join(2);
    Ok(reading.steps)
}

/// The value at the assignment x of what was read.
pub fn value(steps: &[u8], x: usize) -> bool {
    let mut stack = Vec::new();
    for &step in steps {
        let value = match step {
            b'0' | b'1' => step == b'1',
            b'!' => !pop(&mut stack),
            b'&' => pop(&mut stack) & pop(&mut stack),
            b'^' => pop(&mut stack) ^ pop(&mut stack),
            b'|' => pop(&mut stack) | pop(&mut stack),
            letter => x >> (letter - b'a') & 1 == 1,
        };
        stack.push(value);
    }
    pop(&mut stack)
}

fn pop(stack: &mut Vec<bool>) -> bool {
    stack.pop().expect("a value for each side")
}
