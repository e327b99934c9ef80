//! Questioning another program from outside.

pub mod arguments;
mod asking;
pub mod bound;
mod broken;
pub mod cards;
pub mod command;
pub mod compare;
pub mod compare_bench;
pub mod compare_inspect;
pub mod counts;
pub mod family;
pub mod fewest;
pub mod gates;
pub mod measure;
mod parallel;
pub mod programs;
mod subjects;
pub mod tally;
pub mod trees;
