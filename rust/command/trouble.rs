//! Why the command ends without an answer: a refusal of the library, whose number is the exit
//! status, or a wrong command line or file, 64 and above.

use crate::json::Json;
use pelzurivan::Refusal;

/// The exit status of a wrong command line, of a wrong file, and of a machine that can't.
const LINE: u8 = 64;
const FILE: u8 = 66;
const MACHINE: u8 = 70;

pub enum Trouble {
    Refused(Refused),
    Line(String),
    File(String),
    Machine(String),
}

/// A refusal and what to look at: in words, and for a text its place.
pub struct Refused {
    pub refusal: Refusal,
    pub look_at: String,
    pub caret: Option<Caret>,
}

/// A text on one line and the column of a place in it.
pub struct Caret {
    pub text: String,
    pub column: usize,
}

impl From<Refusal> for Trouble {
    fn from(refusal: Refusal) -> Trouble {
        Trouble::look_at(refusal, String::new())
    }
}

impl Trouble {
    pub fn look_at(refusal: Refusal, look_at: String) -> Trouble {
        Trouble::Refused(Refused { refusal, look_at, caret: None })
    }

    pub fn line(why: impl Into<String>) -> Trouble {
        Trouble::Line(why.into())
    }

    pub fn file(why: impl Into<String>) -> Trouble {
        Trouble::File(why.into())
    }

    pub fn status(&self) -> u8 {
        match self {
            Trouble::Refused(refused) => refused.refusal.number(),
            Trouble::Line(_) => LINE,
            Trouble::File(_) => FILE,
            Trouble::Machine(_) => MACHINE,
        }
    }

    /// What a person reads: one line, and under it a text with a caret if there is one.
    pub fn said(&self) -> String {
        match self {
            Trouble::Refused(refused) => refused.said(),
            Trouble::Line(why) | Trouble::File(why) | Trouble::Machine(why) => one_line(why),
        }
    }

    pub fn json(&self) -> Json {
        let number = Json::from(usize::from(self.status()));
        match self {
            Trouble::Refused(Refused { refusal, look_at, caret }) => {
                let mut fields = vec![("number", number), ("words", refusal.words().into())];
                fields.push(("look_at", look_at.as_str().into()));
                fields.extend(caret.as_ref().map(|caret| ("column", caret.column.into())));
                Json::object(fields)
            }
            _ => Json::object(vec![("number", number), ("words", self.said().into())]),
        }
    }
}

impl Refused {
    fn said(&self) -> String {
        let mut said = self.refusal.to_string();
        if !self.look_at.is_empty() {
            said = format!("{said}: {}", self.look_at);
        }
        let mut said = one_line(&said);
        if let Some(Caret { text, column }) = &self.caret {
            said = format!("{said}\n  {text}\n  {}^", " ".repeat(*column));
        }
        said
    }
}

/// Names and paths may hold anything; what is said is one line.
pub fn one_line(text: &str) -> String {
    text.chars().map(|c| if c.is_control() { '?' } else { c }).collect()
}
