//! The second interpreter: judge and runner of bench files over a tree of its own.
//! It is written from the scope page alone, so that a difference from the verified rules is news.

pub mod answer;
pub mod ceiling;
pub mod census;
pub mod cut;
pub mod example;
pub mod generate;
pub mod inputs;
pub mod judge;
#[cfg(feature = "library")]
pub mod library;
pub mod numbers;
pub mod run;
pub mod shape;
pub mod stored;
pub mod tree;
pub mod unjudged;
pub mod value;
