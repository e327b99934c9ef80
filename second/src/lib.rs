//! The second program: documents 01 and 02 once more, in ordinary Rust, by brute force.
//!
//! The first group of modules is the bench itself, the second the formats it
//! speaks, the third what is needed to question another program.

pub mod best;
pub mod book;
pub mod calls;
pub mod card;
pub mod cell;
pub mod chain;
pub mod least;
pub mod network;
pub mod printing;
pub mod refusals;
pub mod sets;
pub mod several;
pub mod split;
pub mod table;
pub mod text;
pub mod times;

pub mod batch;
pub mod bench;
pub mod case;
pub mod describe;
pub mod inspect;

pub mod brute;
pub mod carry;
pub mod examples;
pub mod fresh;
pub mod outside;
pub mod random;
pub mod trees;
