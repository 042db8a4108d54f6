//! The independent referee of Dreichnook, written from documents 01 and 02 alone.
#![forbid(unsafe_code)]

pub mod automaton;
mod cds;
pub mod coding;
pub mod generate;
pub mod hand;
mod index;
pub mod layout;
mod listing;
pub mod location;
pub mod regex;
pub mod text;
mod tree;
mod values;
pub mod vocabulary;

pub use coding::{codon_letter, translate, StopInside};
pub use layout::layout;
pub use listing::{
    broken, verdict_lines, Counts, FeatureAnswer, Listing, QualifierAnswer, Refusal, SequenceAnswer,
};
pub use location::{location, Location, Operator, Span};
pub use text::Part;
pub use values::{value_rules, Broken, Kind};
