//! The residue that breaks rule 18.

use super::element::{characters, last, stretch, text, MOLTYPE, SEQUENCE};
use super::{quoted, table};

/// In a line: a kind, its symbols, how people are told of them.
const SYMBOLS: &str = include_str!("../../../words/symbols.txt");

/// Which residue stands there, and what may; none if no residue starts there, or one that may.
pub fn explanation(listing: &[u8], place: usize) -> Option<String> {
    let moltype = text(listing, last(listing, place, MOLTYPE)?)?;
    let [kind, symbols, words] = table(SYMBOLS).find(|[kind, _, _]| kind.as_bytes() == moltype)?;
    let stretch = stretch(listing, last(listing, place, SEQUENCE)?)?;
    let start = place.checked_sub(stretch.start)?;
    let raw = &listing[stretch];
    let mut residues = (1..).zip(characters(raw));
    let (number, residue) = residues.find(|(_, residue)| residue.stands.start == start)?;
    let total = number + residues.count();
    if symbols.as_bytes().contains(&residue.read) {
        return None;
    }
    let said = said(residue.read, &raw[residue.stands]);
    Some(format!(
        "residue {number} of {total} is {said}; the symbols of {kind} are {words}"
    ))
}

/// The character, and how it is written if that is different.
fn said(read: u8, written: &[u8]) -> String {
    match read {
        b' ' => "a blank".into(),
        _ if written == [read] => quoted(written),
        _ => format!("{}, written {}", quoted(&[read]), quoted(written)),
    }
}
