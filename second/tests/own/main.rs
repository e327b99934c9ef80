//! The tests of the second program itself, in one program: a file a matter.

mod any;
mod aside;
mod book;
mod bound;
mod cards;
mod check;
mod editions;
mod examples;
mod format;
mod fresh;
mod gates;
mod laws;
mod least;
mod printing;
mod several;
mod shorter;
mod texts;
mod times;
mod trees;
