//! The words after a subcommand: options with values, flags, and a command after `--`.

use std::collections::BTreeMap;

use crate::random::Random;

pub struct Arguments {
    values: BTreeMap<String, String>,
    flags: Vec<String>,
    /// The command to be questioned, with its arguments.
    pub command: Vec<String>,
}

impl Arguments {
    /// Takes the words apart; an option that is not known is refused.
    pub fn read(words: &[String], values: &[&str], flags: &[&str]) -> Result<Arguments, String> {
        let mut read =
            Arguments { values: BTreeMap::new(), flags: Vec::new(), command: Vec::new() };
        let mut words = words.iter();
        while let Some(word) = words.next() {
            if word == "--" {
                read.command = words.cloned().collect();
                break;
            } else if flags.contains(&word.as_str()) {
                read.flags.push(word.clone());
            } else if values.contains(&word.as_str()) {
                let value = words.next().ok_or(format!("{word} needs a value"))?;
                read.values.insert(word.clone(), value.clone());
            } else {
                return Err(format!("{word} is not an option here"));
            }
        }
        Ok(read)
    }

    pub fn flag(&self, name: &str) -> bool {
        self.flags.iter().any(|flag| flag == name)
    }

    pub fn text(&self, name: &str, otherwise: &str) -> String {
        self.values.get(name).cloned().unwrap_or(otherwise.to_string())
    }

    pub fn number(&self, name: &str, otherwise: u64) -> Result<u64, String> {
        match self.values.get(name) {
            None => Ok(otherwise),
            Some(text) => text.parse().map_err(|_| format!("{name}: {text} is not a number")),
        }
    }

    /// Two hexadecimal digits.
    pub fn byte(&self, name: &str, otherwise: u8) -> Result<u8, String> {
        match self.values.get(name) {
            None => Ok(otherwise),
            Some(text) => u8::from_str_radix(text, 16)
                .map_err(|_| format!("{name}: {text} is not a byte in hexadecimal")),
        }
    }

    /// The given seed, or one from the clock.
    pub fn seed(&self) -> Result<u64, String> {
        self.number("--seed", Random::clock_seed())
    }

    /// The command, which must be there.
    pub fn wanted_command(&self) -> Result<&[String], String> {
        if self.command.is_empty() {
            return Err("a command is missing after --".to_string());
        }
        Ok(&self.command)
    }
}
