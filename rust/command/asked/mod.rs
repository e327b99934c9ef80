//! What the command can be asked, one file for each subcommand.

pub mod book;
pub mod card;
pub mod check;
pub mod find;
pub mod make;
pub mod rebuild;
pub mod run;
pub mod settle;
pub mod shorter;
pub mod show;
pub mod split;
pub mod turn;

use crate::trouble::Trouble;
use crate::words::{Known, Words};

/// A subcommand: its name, its page of help, its options and how it is answered. The answer is what
/// is printed.
pub struct Asked {
    pub name: &'static str,
    pub help: &'static str,
    pub known: Known,
    pub answer: fn(&Words) -> Result<String, Trouble>,
}

pub static ALL: &[&Asked] = &[
    &make::ASKED,
    &show::ASKED,
    &check::ASKED,
    &rebuild::ASKED,
    &run::ASKED,
    &find::ASKED,
    &split::ASKED,
    &shorter::ASKED,
    &settle::ASKED,
    &card::ASKED,
    &turn::ASKED,
    &book::ASKED,
];
