//! A drawing of a sheet from left to right: the inputs, the cells by their depth, the output.

mod bands;
mod layout;
mod svg;

use crate::listed::Listed;

pub fn svg(shown: &Listed, title: &str) -> String {
    svg::write(shown, &layout::Layout::of(shown), title)
}

/// The same for a page, in as many parts as it has bands.
pub fn parts(shown: &Listed, title: &str) -> String {
    svg::parts(shown, &layout::Layout::of(shown), title)
}
