//! Where an index differs from the one of the listing, refusal 50.

use crate::index::number_at;
use crate::Listing;
use std::cmp::Ordering;

/// Which number differs first, or by how much the index is too short or too long; none if it doesn't differ there.
pub fn explanation(listing: &[u8], index: &[u8], place: usize) -> Option<String> {
    let made = Listing::new(listing).index().ok()?;
    let (has, needs) = (index.len(), made.as_bytes().len());
    if place == has.min(needs) {
        return match has.cmp(&needs) {
            Ordering::Less => Some(format!(
                "the index is too short by {}: it has {has} of {needs} bytes",
                needs - has
            )),
            Ordering::Greater => Some(format!(
                "the index is too long by {}: it has {has} bytes, the listing gives {needs}",
                has - needs
            )),
            Ordering::Equal => None,
        };
    }
    if index.get(place)? == made.as_bytes().get(place)? {
        return None;
    }
    let number = number_at(index, place);
    let says = number.map_or("ends amid it".into(), |number| format!("has {number}"));
    let right = number_at(made.as_bytes(), place)?;
    let what = made.meaning(place)?;
    Some(format!(
        "{what}: the index {says}, the listing gives {right}"
    ))
}
