//! What the signals are called: the inputs by the user's names or by letters, the cells by number.

use crate::trouble::Trouble;
use pelzurivan::INPUTS;

/// The longest name.
const MOST: usize = 64;
/// What no name may hold, so that it stands in every kind of file.
const BARRED: &[char] = &['"', '\'', '\\', '#', '=', ',', '`', ';', '&', '|', '^', '!'];

#[derive(Clone, Debug)]
pub struct Names {
    pub inputs: Vec<String>,
    pub output: String,
    /// The user's own, and not the letters.
    pub own: bool,
}

impl Names {
    pub fn letters(n: usize) -> Names {
        let letters = (b'a'..=b'z').take(n.min(INPUTS)).map(|c| char::from(c).to_string());
        Names { inputs: letters.collect(), output: "gate".to_string(), own: false }
    }

    /// The names that --names gives; there are n of them if n is known.
    pub fn given(list: &str) -> Result<Names, Trouble> {
        let inputs: Vec<String> = list.split(',').map(|name| name.trim().to_string()).collect();
        let output = "gate".to_string();
        Names::of(inputs, output).map_err(Trouble::line)
    }

    /// The names of a file; in words why they can't be.
    pub fn of(inputs: Vec<String>, output: String) -> Result<Names, String> {
        for (at, name) in inputs.iter().enumerate() {
            lawful(name).map_err(|why| format!("name {} {why}", at + 1))?;
            if inputs[..at].contains(name) {
                return Err(format!("two inputs are called {name}"));
            }
        }
        lawful(&output).map_err(|why| format!("the output's name {why}"))?;
        Ok(Names { inputs, output, own: true })
    }

    pub fn count(&self) -> usize {
        self.inputs.len()
    }

    /// An input by its name, a cell by its number in brackets.
    pub fn of_signal(&self, signal: usize) -> String {
        match self.inputs.get(signal) {
            Some(name) => name.clone(),
            None => format!("[{signal}]"),
        }
    }

    /// The input that a person names, by its name, else by its letter.
    pub fn position(&self, name: &str) -> Option<usize> {
        let named = self.inputs.iter().position(|input| input == name);
        named.or_else(|| Names::letters(self.count()).inputs.iter().position(|l| l == name))
    }

    /// An assignment as bits with the names: key=1 permit=0.
    pub fn assignment(&self, x: u64) -> String {
        let bits = self.inputs.iter().enumerate();
        let bits = bits.map(|(j, name)| format!("{name}={}", x >> j.min(63) & 1));
        bits.collect::<Vec<_>>().join(" ")
    }

    /// A set of inputs, or of none, by its mask.
    pub fn set(&self, mask: u64) -> String {
        let members = (0..self.count()).filter(|j| mask >> j & 1 == 1);
        let members: Vec<String> = members.map(|j| self.inputs[j].clone()).collect();
        if members.is_empty() {
            return "none".to_string();
        }
        members.join(", ")
    }

    /// A name that no input has, for a signal of an exported file.
    pub fn fresh(&self, wanted: &str) -> String {
        let mut name = wanted.to_string();
        while self.inputs.contains(&name) {
            name.push('_');
        }
        name
    }
}

/// Why a name can't stand in every kind of file.
fn lawful(name: &str) -> Result<(), String> {
    if name.is_empty() {
        return Err("is empty".to_string());
    }
    if name.chars().count() > MOST {
        return Err(format!("is longer than {MOST} characters"));
    }
    match name.chars().find(|c| c.is_whitespace() || c.is_control() || BARRED.contains(c)) {
        Some(c) => Err(format!("holds {c:?}, which no name may")),
        None => Ok(()),
    }
}

#[cfg(test)]
mod tests {
    use super::*;

    #[test]
    fn names_that_no_file_could_hold_are_refused() {
        for list in ["a,a", "a,", "a\"b", "a b,c", "x\ny", "a=b", &"n".repeat(65)] {
            assert!(Names::given(list).is_err(), "{list:?}");
        }
        assert!(Names::given("key, permit[0], $abc$3.x").is_ok());
    }

    #[test]
    fn signals_by_name_letter_and_number() {
        let names = Names::given("key,b,a").ok().unwrap();
        assert_eq!((names.of_signal(0), names.of_signal(3)), ("key".into(), "[3]".into()));
        assert_eq!(["key", "a", "b", "c"].map(|n| names.position(n).unwrap_or(9)), [0, 2, 1, 2]);
        assert_eq!((names.assignment(5), names.set(6)), ("key=1 b=0 a=1".into(), "b, a".into()));
    }
}
