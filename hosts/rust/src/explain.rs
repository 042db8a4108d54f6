//! What exactly breaks rule 18, 40, 41 or 42, and where an index differs, in words for people. hosts/python/dreichnook.py
//! says the same; the tests of both read hosts/words/examples.txt and index-examples.txt.

mod element;
mod index;
mod residue;
mod vocabulary;

use crate::{short, Refusal};

impl Refusal {
    /// What exactly is wrong. For rule 18: the residue, its number, and the symbols of its kind. For 40 to 42: the unknown
    /// key with the nearest known ones, the name that isn't allowed with those that are, the missing names. `listing` is
    /// the one that was refused.
    pub fn explanation(&self, listing: &[u8]) -> Option<String> {
        let place = usize::try_from(self.place).ok()?;
        match self.number {
            Refusal::NOT_A_SYMBOL => residue::explanation(listing, place),
            Refusal::UNKNOWN_KEY..=Refusal::REQUIRED_MISSING => {
                vocabulary::explanation(self.number, listing, place)
            }
            _ => None,
        }
    }

    /// The same where an index was lent. For 50: which number of the index differs first, what it is in the index and what
    /// in the listing; or by how much the index is too short or too long.
    pub fn explanation_with_index(&self, listing: &[u8], index: &[u8]) -> Option<String> {
        if !self.is_of_index() {
            return self.explanation(listing);
        }
        index::explanation(listing, index, self.place.try_into().ok()?)
    }
}

fn quoted(text: &[u8]) -> String {
    if text.is_empty() {
        return "an empty text".into();
    }
    format!("`{}`", short(text))
}

/// The lines of a file of hosts/words that have so many cells; a comment has one.
fn table<const N: usize>(file: &'static str) -> impl Iterator<Item = [&'static str; N]> {
    let cells = |line: &'static str| line.split('\t').collect::<Vec<_>>();
    file.lines()
        .filter_map(move |line| cells(line).try_into().ok())
}
