//! The command line after the subcommand: words, and options that start with a dash.

use crate::trouble::Trouble;
use std::str::FromStr;

/// Options that stand alone, and options that take the next word (or what follows `=`).
pub struct Known {
    pub alone: &'static [&'static str],
    pub valued: &'static [&'static str],
}

pub struct Words {
    pub plain: Vec<String>,
    options: Vec<(String, String)>,
}

impl Words {
    pub fn read(args: &[String], known: &Known) -> Result<Words, Trouble> {
        let mut words = Words { plain: Vec::new(), options: Vec::new() };
        let mut args = args.iter();
        while let Some(arg) = args.next() {
            if arg == "-" || !arg.starts_with('-') {
                words.plain.push(arg.clone());
                continue;
            }
            let (name, value) = match arg.split_once('=') {
                Some((name, value)) => (name, Some(value.to_string())),
                None => (arg.as_str(), None),
            };
            let value = match (known.alone.contains(&name), known.valued.contains(&name)) {
                (true, _) if value.is_none() => String::new(),
                (true, _) => return Err(Trouble::line(format!("{name} takes no value"))),
                (_, true) => value
                    .or_else(|| args.next().cloned())
                    .ok_or_else(|| Trouble::line(format!("{name} asks for a value")))?,
                _ => return Err(Trouble::line(format!("no option {arg}: see --help"))),
            };
            if words.has(name) {
                return Err(Trouble::line(format!("{name} is given twice")));
            }
            words.options.push((name.to_string(), value));
        }
        Ok(words)
    }

    pub fn has(&self, name: &str) -> bool {
        self.options.iter().any(|(given, _)| given == name)
    }

    pub fn value(&self, name: &str) -> Option<&str> {
        self.options.iter().find(|(given, _)| given == name).map(|(_, value)| value.as_str())
    }

    pub fn number<T: FromStr>(&self, name: &str) -> Result<Option<T>, Trouble> {
        self.value(name)
            .map(|value| {
                value.parse().map_err(|_| Trouble::line(format!("{name} {value} is no number")))
            })
            .transpose()
    }

    /// The plain words, if there are as many as asked for.
    pub fn exactly<const N: usize>(&self, what: [&str; N]) -> Result<[&str; N], Trouble> {
        let given: Vec<&str> = self.plain.iter().map(String::as_str).collect();
        given.try_into().map_err(|given: Vec<&str>| {
            let wanted = what.join(" ");
            Trouble::line(format!("{} words where {wanted} is asked for: see --help", given.len()))
        })
    }
}

#[cfg(test)]
mod tests {
    use super::*;

    const KNOWN: Known = Known { alone: &["--json"], valued: &["--k", "-o"] };

    fn read(args: &[&str]) -> Result<Words, Trouble> {
        Words::read(&args.iter().map(|arg| arg.to_string()).collect::<Vec<_>>(), &KNOWN)
    }

    #[test]
    fn words_and_options_in_any_order() {
        let words = read(&["--k=3", "a&b", "-o", "-", "--json"]).ok().unwrap();
        assert_eq!(words.exactly(["GATE"]).ok(), Some(["a&b"]));
        assert_eq!(words.number::<u64>("--k").ok().flatten(), Some(3));
        assert_eq!((words.value("-o"), words.has("--json")), (Some("-"), true));
    }

    #[test]
    fn wrong_lines_are_refused() {
        for args in [&["--x"][..], &["--k"], &["--k", "2", "--k", "3"], &["--json=1"]] {
            assert_eq!(read(args).err().map(|trouble| trouble.status()), Some(64), "{args:?}");
        }
        assert!(read(&["--k", "two"]).ok().unwrap().number::<u64>("--k").is_err());
    }
}
