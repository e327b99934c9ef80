//! The search of the bench in ordinary safe Rust: the plain one, and the quick one, step for step as the proved one
//! goes from six inputs that count on.
#![forbid(unsafe_code)]

pub mod kinds;
pub mod plain;
pub mod quick;
pub mod table;
