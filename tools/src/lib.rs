//! Sheets: the text form of bench files. docs/SHEETS.md describes it.
//! The tree, its reader and the numbers are the second interpreter's. Nothing here judges a file.

pub mod explain;
pub mod make;
pub mod names;
pub mod operators;
pub mod paint;
pub mod show;
pub mod source;
pub mod verdict;
