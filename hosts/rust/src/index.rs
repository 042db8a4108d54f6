//! The index of a listing. Its format stands in hosts/include/dreichnook.h, and for Rust in this file alone.

use crate::{FeatureParts, Kind, Part, Refusal, Sequence};
use std::ops::Range;

/// The bytes of a number.
const NUMBER: usize = 4;
/// The numbers of the head: the count of sequences.
const HEAD: [&str; 1] = ["the count of sequences"];
/// Those of a sequence in the table of contents.
const ENTRY: [&str; 2] = ["the start of the body", "the size of the body"];
/// Those of a body before its features.
const BODY: [&str; 3] = [
    "the kind",
    "the place of the residues",
    "the length of the residues",
];
/// Those of a feature.
const FEATURE: [&str; 4] = [
    "the place of the key",
    "the length of the key",
    "the place of the location",
    "the length of the location",
];

/// The index of a listing, with the listing. The proved maker wrote its numbers from those very bytes, which stay
/// borrowed. So what is read off it, without a call, is what [`Lookups`](crate::Lookups) would answer; of features these
/// are the two parts, without operator and spans.
#[derive(Clone, Debug, PartialEq, Eq)]
pub struct Index<'a> {
    listing: &'a [u8],
    bytes: Vec<u8>,
}

impl<'a> Index<'a> {
    pub(crate) fn made(listing: &'a [u8], bytes: Vec<u8>) -> Index<'a> {
        Index { listing, bytes }
    }

    /// The index itself, to be kept beside the listing.
    pub fn as_bytes(&self) -> &[u8] {
        &self.bytes
    }

    /// All sequences, skipped ones too.
    pub fn total(&self) -> u64 {
        self.number(0) as u64
    }

    /// The kind and the residues of a sequence.
    pub fn sequence(&self, sequence: u64) -> Result<Sequence<'a>, Refusal> {
        self.shown(sequence).map(|(_, sequence)| sequence)
    }

    /// The two parts of a feature, its key and its location.
    pub fn feature(&self, sequence: u64, feature: u64) -> Result<FeatureParts<'a>, Refusal> {
        let features = self.numbers_of_features(&self.shown(sequence)?.0);
        if !(1..=(features.len() / FEATURE.len()) as u64).contains(&feature) {
            return Err(refused(Refusal::NO_FEATURE));
        }
        let before = (feature - 1) as usize;
        Ok(self.feature_from(features.start + FEATURE.len() * before))
    }

    /// The sequences in their order; none for one that is skipped.
    pub fn sequences(&self) -> impl Iterator<Item = Option<Sequence<'a>>> + '_ {
        (1..=self.total()).map(|sequence| self.sequence(sequence).ok())
    }

    /// The two parts of each feature of a sequence, in their order.
    pub fn features(
        &self,
        sequence: u64,
    ) -> Result<impl ExactSizeIterator<Item = FeatureParts<'a>> + '_, Refusal> {
        let (body, _) = self.shown(sequence)?;
        let features = self.numbers_of_features(&body).step_by(FEATURE.len());
        Ok(features.map(|feature| self.feature_from(feature)))
    }

    /// What the number is that has the byte at this place.
    pub(crate) fn meaning(&self, place: usize) -> Option<String> {
        let at = place / NUMBER;
        if let Some(head) = HEAD.get(at) {
            return Some(head.to_string());
        }
        (1..=self.total()).find_map(|sequence| {
            let (entry, body) = (entry(sequence), self.body(sequence));
            let features = self.numbers_of_features(&body);
            let what = if (entry..entry + ENTRY.len()).contains(&at) {
                ENTRY[at - entry].into()
            } else if features.contains(&at) {
                let past = at - features.start;
                let feature = past / FEATURE.len() + 1;
                format!("{} of feature {feature}", FEATURE[past % FEATURE.len()])
            } else if body.contains(&at) {
                BODY[at - body.start].into()
            } else {
                return None;
            };
            Some(format!("{what} of sequence {sequence}"))
        })
    }

    /// A sequence that isn't skipped, with the numbers of its body.
    fn shown(&self, sequence: u64) -> Result<(Range<usize>, Sequence<'a>), Refusal> {
        if !(1..=self.total()).contains(&sequence) {
            return Err(refused(Refusal::NO_SEQUENCE));
        }
        let body = self.body(sequence);
        let kind = Kind::numbered(self.number(body.start));
        let kind = kind.ok_or_else(|| refused(Refusal::SKIPPED))?;
        let residues = self.part(body.start + 1);
        Ok((body, Sequence { kind, residues }))
    }

    /// Which numbers the body of a sequence is.
    fn body(&self, sequence: u64) -> Range<usize> {
        let entry = entry(sequence);
        let (start, size) = (self.number(entry), self.number(entry + 1));
        start / NUMBER..(start + size) / NUMBER
    }

    fn numbers_of_features(&self, body: &Range<usize>) -> Range<usize> {
        body.start + BODY.len()..body.end
    }

    fn feature_from(&self, at: usize) -> FeatureParts<'a> {
        FeatureParts {
            key: self.part(at),
            location: self.part(at + 2),
        }
    }

    /// The part of the listing whose place and length are the numbers from this one on.
    fn part(&self, at: usize) -> Part<'a> {
        Part::of(self.listing, self.number(at), self.number(at + 1))
    }

    fn number(&self, at: usize) -> usize {
        let number = number(&self.bytes, at).expect("an index has all its numbers");
        number as usize
    }
}

/// The number of an index that is the `at`-th, from 0; none where it ends before.
pub(crate) fn number(index: &[u8], at: usize) -> Option<u32> {
    let bytes = index.get(at * NUMBER..)?.get(..NUMBER)?;
    Some(u32::from_le_bytes(bytes.try_into().ok()?))
}

/// The number of a byte's place.
pub(crate) fn number_at(index: &[u8], place: usize) -> Option<u32> {
    number(index, place / NUMBER)
}

/// Which number is the first of a sequence in the table of contents.
fn entry(sequence: u64) -> usize {
    HEAD.len() + ENTRY.len() * (sequence - 1) as usize
}

fn refused(number: u32) -> Refusal {
    Refusal { number, place: 0 }
}
