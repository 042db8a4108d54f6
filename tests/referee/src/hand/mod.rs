//! Hand-made listings with what the check must say of them: document 01's sample sheet, and some for each rule.

pub mod base;
pub mod index;
pub mod layouts;
pub mod letters;
pub mod values;
pub mod vocabulary;

use base::{edited, BASE, SHORTEST};
use index::SMALL;
use layouts::{ACCEPTED, REFUSED};
use letters::LETTERS;
use values::{Case, FEATURES, HEADER, SAMPLES, SEQUENCES};
use vocabulary::VOCABULARY;

/// Those about the rules on values, 01's sample sheet first.
pub fn values() -> impl Iterator<Item = &'static Case> {
    [SAMPLES, HEADER, SEQUENCES, FEATURES, LETTERS, VOCABULARY]
        .into_iter()
        .flatten()
}

/// Every one of them, with its name.
pub fn listings() -> Vec<(String, Vec<u8>)> {
    let mut listings = vec![
        ("the base".to_string(), BASE.into()),
        ("the shortest".to_string(), SHORTEST.into()),
        ("one of each kind".to_string(), SMALL.into()),
    ];
    for case in REFUSED {
        listings.push((case.name.into(), edited(case.edits)));
    }
    for (name, edits) in ACCEPTED {
        listings.push((name.to_string(), edited(edits)));
    }
    for case in values() {
        for (value, bytes) in case.listings() {
            listings.push((format!("{} {value:?}", case.name), bytes));
        }
    }
    listings
}
