//! A refusal, and the words for each.

use std::error::Error;
use std::fmt;

const WORDS: &str = include_str!("../../words/refusals.txt");

/// Why a question wasn't answered.
#[derive(Clone, Copy, Debug, PartialEq, Eq)]
pub struct Refusal {
    /// 1, 2, 10 to 29, 40 to 42: the broken rule. 30 to 37: the listing is accepted, but has no such answer. 50: it is
    /// accepted, but the index beside it isn't its own.
    pub number: u32,
    /// The place of the fault in the listing, from 0: for 18 the residue's own; 0 for 30 to 37. For 50 it counts in the
    /// index: the first byte that differs, or the shorter length.
    pub place: u64,
}

impl Refusal {
    pub const TOO_LONG: u32 = 1;
    pub const NOT_THE_LAYOUT: u32 = 2;
    pub const NOT_A_SYMBOL: u32 = 18;
    pub const NO_SEQUENCE: u32 = 30;
    pub const SKIPPED: u32 = 31;
    pub const NO_FEATURE: u32 = 32;
    pub const NO_QUALIFIER: u32 = 33;
    pub const NO_ROOM: u32 = 34;
    pub const NOT_A_CDS: u32 = 35;
    pub const UNJUDGED: u32 = 36;
    pub const STOP_INSIDE: u32 = 37;
    pub const UNKNOWN_KEY: u32 = 40;
    pub const NOT_ALLOWED: u32 = 41;
    pub const REQUIRED_MISSING: u32 = 42;
    pub const INDEX_DIFFERS: u32 = 50;

    /// Whether the listing itself is refused, not only this question or the index.
    pub fn is_of_listing(&self) -> bool {
        !(Refusal::NO_SEQUENCE..=Refusal::STOP_INSIDE).contains(&self.number) && !self.is_of_index()
    }

    /// Whether the index is refused.
    pub fn is_of_index(&self) -> bool {
        self.number == Refusal::INDEX_DIFFERS
    }

    /// When the rule is broken, in the words of documents 01 and 02.
    pub fn words(&self) -> &'static str {
        let mut words = WORDS.lines().filter_map(|line| line.split_once('\t'));
        words
            .find(|(number, _)| number.parse() == Ok(self.number))
            .map_or("a rule that this version doesn't know", |(_, words)| words)
    }
}

impl fmt::Display for Refusal {
    fn fmt(&self, f: &mut fmt::Formatter<'_>) -> fmt::Result {
        let Refusal { number, place } = self;
        if self.is_of_listing() {
            write!(f, "refused by rule {number} at byte {place}")?;
        } else if self.is_of_index() {
            write!(f, "refused with {number} at byte {place} of the index")?;
        } else {
            write!(f, "refused with {number}")?;
        }
        write!(f, ": {}", self.words())
    }
}

impl Error for Refusal {}
