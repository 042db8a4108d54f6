//! The key or the name that breaks the vocabulary, rules 40 to 42.

use super::element::{last, starts, text, KEY, MOLTYPE, NAME};
use super::{quoted, table};
use crate::Refusal;

/// In a line: a kind, a key, the names that it requires, the others that it allows.
const VOCABULARY: &str = include_str!("../../../words/vocabulary.txt");

const NUCLEOTIDES: &str = "nucleotides";
const AMINO_ACIDS: &str = "AA";

/// The older names, which in AA count as their lower-case ones.
const OLDER: [&[u8]; 4] = [b"SOURCE", b"ORGANISM", b"MOL_TYPE", b"NOTE"];

/// How many near keys are named.
const NEAREST: usize = 3;

/// What breaks rule 40, 41 or 42 there; none if that rule isn't broken.
pub fn explanation(number: u32, listing: &[u8], place: usize) -> Option<String> {
    let kind = match text(listing, last(listing, place, MOLTYPE)?)?.as_slice() {
        b"DNA" | b"RNA" => NUCLEOTIDES,
        b"AA" => AMINO_ACIDS,
        _ => return None,
    };
    let feature = last(listing, place, KEY)?;
    let key = text(listing, feature)?;
    match (number, row(kind, &key)) {
        (Refusal::UNKNOWN_KEY, None) => Some(unknown_key(kind, &key)),
        (Refusal::NOT_ALLOWED, Some(row)) => {
            let name = text(listing, last(listing, place, NAME)?)?;
            Some(not_allowed(&row, &key, &name))
        }
        (Refusal::REQUIRED_MISSING, Some(row)) => {
            Some(required_missing(&row, &key, &listing[feature..]))
        }
        _ => None,
    }
}

fn unknown_key(kind: &str, key: &[u8]) -> String {
    let known: Vec<_> = rows().filter(|row| row.kind == kind).collect();
    let near = |row: &Row| Some((distance(key, row.key)?, row.key));
    let mut near: Vec<_> = known.iter().filter_map(near).collect();
    // Stable: at one distance they stay in the vocabulary's order.
    near.sort_by_key(|&(distance, _)| distance);
    let near: Vec<_> = near.iter().take(NEAREST).map(|&(_, key)| key).collect();
    let near = if near.is_empty() {
        format!("none of the {} keys is near", known.len())
    } else {
        format!("nearest: {}", near.join(", "))
    };
    let other = if kind == AMINO_ACIDS {
        NUCLEOTIDES
    } else {
        AMINO_ACIDS
    };
    let but = row(other, key).map_or(String::new(), |_| format!(", but of {other}"));
    format!("{} isn't a key of {kind}{but}; {near}", quoted(key))
}

fn not_allowed(row: &Row, key: &[u8], name: &[u8]) -> String {
    let required = row.required().map(|name| format!("{name} (required)"));
    let others = row.others.split_whitespace().map(String::from);
    let allowed: Vec<_> = required.chain(others).collect();
    let (key, name) = (quoted(key), quoted(name));
    format!(
        "{key} doesn't allow {name}; allowed: {}",
        allowed.join(", ")
    )
}

/// `feature` is the listing from the key's tag on.
fn required_missing(row: &Row, key: &[u8], feature: &[u8]) -> String {
    let after = &feature[KEY.len()..];
    let own = &after[..starts(after, KEY).next().unwrap_or(after.len())];
    let names = starts(own, NAME).filter_map(|at| text(own, at));
    let names: Vec<_> = names.map(|name| counted(row.kind, &name)).collect();
    let is_missing = |name: &&str| !names.iter().any(|there| there == name.as_bytes());
    let missing: Vec<_> = row.required().filter(is_missing).collect();
    format!("{} lacks: {}", quoted(key), missing.join(", "))
}

/// A row of the vocabulary.
struct Row {
    kind: &'static str,
    key: &'static str,
    required: &'static str,
    others: &'static str,
}

impl Row {
    fn required(&self) -> impl Iterator<Item = &'static str> {
        self.required.split_whitespace()
    }
}

fn rows() -> impl Iterator<Item = Row> {
    table(VOCABULARY).map(|[kind, key, required, others]| Row {
        kind,
        key,
        required,
        others,
    })
}

fn row(kind: &str, key: &[u8]) -> Option<Row> {
    let key = counted(kind, key);
    rows().find(|row| row.kind == kind && row.key.as_bytes() == key)
}

/// The name that it counts as.
fn counted(kind: &str, name: &[u8]) -> Vec<u8> {
    if kind == AMINO_ACIDS && OLDER.contains(&name) {
        name.to_ascii_lowercase()
    } else {
        name.to_vec()
    }
}

/// How many letters must be changed, dropped or added to turn the one into the other, upper and lower case being the
/// same; none if more than half of the key's.
fn distance(key: &[u8], known: &str) -> Option<usize> {
    let (known, half) = (known.as_bytes(), key.len() / 2);
    // Of a long text the length tells it.
    if key.len().abs_diff(known.len()) > half {
        return None;
    }
    // To the beginnings of `known`, from the beginning of `key` that is read so far.
    let mut distances: Vec<_> = (0..=known.len()).collect();
    for letter in key {
        let mut before = distances[0];
        distances[0] += 1;
        for (at, other) in (1..).zip(known) {
            let changed = before + usize::from(!letter.eq_ignore_ascii_case(other));
            before = distances[at];
            distances[at] = changed.min(before + 1).min(distances[at - 1] + 1);
        }
    }
    distances.pop().filter(|&distance| distance <= half)
}
