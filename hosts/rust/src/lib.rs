//! Dreichnook from Rust: a proved reader of WIPO ST.26 sequence listings, edition 1.2.
//!
//! A [`Listing`] is some bytes, of any content; each question about it checks it whole and then answers from those same
//! bytes. Sequences, features and qualifiers count from 1. What the calls promise stands in `hosts/include/dreichnook.h`.
//!
//! ```
//! let refusal = dreichnook::Listing::new(b"<?xml?>").check().unwrap_err();
//! assert_eq!((refusal.number, refusal.place), (2, 5));
//! assert_eq!(refusal.to_string(), "refused by rule 2 at byte 5: not of the layout");
//! ```
//!
//! One call makes the [`Index`] of a listing, and the places of all its sequences and features are read off that. An index
//! that came with the listing is checked with each question ([`Listing::with_index`]).

mod c;
mod explain;
mod index;
mod listing;
mod lookups;
mod refusal;
mod text;

pub use index::Index;
pub use listing::Listing;
pub use lookups::Lookups;
pub use refusal::Refusal;
pub use text::{short, visible};

use std::fmt;

/// The longest listing, in bytes.
pub const LIMIT: usize = 16_777_216;

/// What an accepted listing holds.
#[derive(Clone, Copy, Debug, Default, PartialEq, Eq)]
pub struct Counts {
    /// All sequences, skipped ones too.
    pub total: u64,
    pub skipped: u64,
    pub features: u64,
    /// The CDS features of DNA and RNA whose translation is judged.
    pub judged: u64,
    /// The others.
    pub unjudged: u64,
}

/// A text of the listing, raw: `&lt;` stands there as four bytes.
#[derive(Clone, Copy, Debug, PartialEq, Eq)]
pub struct Part<'a> {
    /// The place of its first byte in the listing, from 0.
    pub start: usize,
    pub bytes: &'a [u8],
}

impl<'a> Part<'a> {
    fn of(listing: &'a [u8], start: usize, size: usize) -> Part<'a> {
        let bytes = &listing[start..][..size];
        Part { start, bytes }
    }
}

#[derive(Clone, Copy, Debug, PartialEq, Eq)]
pub enum Kind {
    Dna,
    Rna,
    Aa,
}

impl Kind {
    /// The kind of this number; none for another.
    fn numbered(number: usize) -> Option<Kind> {
        let kinds = [Kind::Dna, Kind::Rna, Kind::Aa];
        kinds.get(number.checked_sub(1)?).copied()
    }
}

impl fmt::Display for Kind {
    fn fmt(&self, f: &mut fmt::Formatter<'_>) -> fmt::Result {
        f.write_str(match self {
            Kind::Dna => "DNA",
            Kind::Rna => "RNA",
            Kind::Aa => "AA",
        })
    }
}

#[derive(Clone, Copy, Debug, PartialEq, Eq)]
pub struct Sequence<'a> {
    pub kind: Kind,
    pub residues: Part<'a>,
}

/// A feature, with what its location says.
#[derive(Clone, Copy, Debug, PartialEq, Eq)]
pub struct Feature<'a, S = Vec<Span>> {
    pub key: Part<'a>,
    pub location: Part<'a>,
    pub operator: Operator,
    /// In reading order from the feature's 5' end; of its own, or in lent room.
    pub spans: S,
}

/// The two parts of a feature, which is all that an [`Index`] has of it. [`Lookups::feature`] gives the operator and the
/// spans too.
#[derive(Clone, Copy, Debug, PartialEq, Eq)]
pub struct FeatureParts<'a> {
    pub key: Part<'a>,
    pub location: Part<'a>,
}

#[derive(Clone, Copy, Debug, PartialEq, Eq)]
pub struct Qualifier<'a> {
    pub name: Part<'a>,
    /// A value may be present and empty.
    pub value: Option<Part<'a>>,
}

/// The operator of a location; that of `complement(join(..))` is join.
#[derive(Clone, Copy, Debug, PartialEq, Eq)]
pub enum Operator {
    None,
    Join,
    Order,
}

impl fmt::Display for Operator {
    fn fmt(&self, f: &mut fmt::Formatter<'_>) -> fmt::Result {
        f.write_str(match self {
            Operator::None => "none",
            Operator::Join => "join",
            Operator::Order => "order",
        })
    }
}

/// One span of a location.
#[derive(Clone, Copy, Debug, Default, PartialEq, Eq)]
#[repr(C)]
pub struct Span {
    pub first: u32,
    pub last: u32,
    /// A sum of [`Span::COMPLEMENT`], [`Span::BEFORE`], [`Span::AFTER`] and [`Span::SITE`].
    pub marks: u32,
}

impl Span {
    pub const COMPLEMENT: u32 = 1;
    /// `<` is written.
    pub const BEFORE: u32 = 2;
    /// `>` is written.
    pub const AFTER: u32 = 4;
    /// It is a site, `x^y`.
    pub const SITE: u32 = 8;
}
