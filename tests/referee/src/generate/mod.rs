//! The seeded generator of listings; what it expects of them it knows from itself.

pub mod damage;
pub mod model;
mod mutate;
pub mod plain;
pub mod residues;
mod rng;
mod sentences;
pub mod sized;
pub mod valid;
pub mod write;

use crate::{Broken, Counts, Refusal};
use damage::{Breaks, Damage, DAMAGES};
pub use model::Model;
pub use rng::Rng;
pub use sentences::{location_texts, sentences};
pub use write::{escape, Written};

/// A listing, and what the check must say about it, where that is known.
pub struct Case {
    pub name: String,
    pub bytes: Vec<u8>,
    pub expectation: Option<Expectation>,
}

/// What the check must say.
#[derive(Clone, Copy, Debug, PartialEq, Eq)]
pub enum Expectation {
    Accepted(Counts),
    Refused(Refusal),
}

/// A damaged listing with every rule that it breaks, in order.
pub struct Damaged {
    pub bytes: Vec<u8>,
    pub broken: Vec<Broken>,
}

/// The case of this number; equal seeds and numbers give equal cases.
pub fn case(seed: u64, number: u64) -> Case {
    let rng = &mut Rng::new(seed ^ number.wrapping_mul(0xd1b5_4a32_d192_ed03));
    match rng.below(20) {
        0..=5 => {
            let (model, written) = valid_listing(rng);
            Case {
                name: "valid".into(),
                bytes: written.bytes,
                expectation: Some(Expectation::Accepted(model.counts())),
            }
        }
        6..=10 => {
            let (rule, _) = *rng.pick(&DAMAGES);
            damaged_case("one damage", one_damage(rng, rule))
        }
        11..=13 => damaged_case("several damages", several_damages(rng)),
        14..=17 => mutant(rng),
        18 => truncation(rng),
        _ => {
            let mix = *rng.pick(&sized::MIXES);
            let size = rng.between(600, 60_000);
            sized::sized(mix, size, rng.number())
        }
    }
}

fn damaged_case(name: &str, damaged: Damaged) -> Case {
    let least = damaged.broken.first();
    let expectation = least.map(|&Broken { place, rule }| Refusal { rule, place });
    Case {
        name: name.into(),
        bytes: damaged.bytes,
        expectation: expectation.map(Expectation::Refused),
    }
}

fn mutant(rng: &mut Rng) -> Case {
    let mut bytes = if rng.chance(80) {
        valid_listing(rng).1.bytes
    } else {
        several_damages(rng).bytes
    };
    mutate::mutate(&mut bytes, rng);
    Case {
        name: "mutant".into(),
        bytes,
        expectation: None,
    }
}

/// A beginning of a valid listing: rule 2 at its length, unless only blanks are missing.
pub fn truncation(rng: &mut Rng) -> Case {
    let (model, Written { mut bytes, .. }) = valid_listing(rng);
    let is_close = |&byte: &u8| byte == b'>';
    let root_end = bytes
        .iter()
        .rposition(is_close)
        .map_or(0, |close| close + 1);
    bytes.truncate(rng.below(bytes.len()));
    let place = bytes.len();
    let expectation = if place < root_end {
        Expectation::Refused(Refusal { rule: 2, place })
    } else {
        Expectation::Accepted(model.counts())
    };
    Case {
        name: "truncation".into(),
        bytes,
        expectation: Some(expectation),
    }
}

/// How often optional blanks stand: never, seldom or often.
fn blank_percent(rng: &mut Rng) -> usize {
    *rng.pick(&[0, 10, 50])
}

/// Any valid listing with what is known about it.
pub fn valid_listing(rng: &mut Rng) -> (Model, Written) {
    let model = if rng.chance(70) {
        valid::any(rng)
    } else {
        valid::rich(rng)
    };
    let blank_percent = blank_percent(rng);
    let written = write::write(&model, blank_percent, rng);
    (model, written)
}

/// A listing with one damage that is meant to break this rule.
pub fn one_damage(rng: &mut Rng, rule: u32) -> Damaged {
    let fitting: Vec<Damage> = DAMAGES
        .iter()
        .filter(|(meant, _)| *meant == rule)
        .map(|&(_, damage)| damage)
        .collect();
    let mut model = valid::rich(rng);
    let breaks = match *rng.pick(&fitting) {
        Damage::Header(apply) => apply(&mut model.header, rng),
        Damage::Sequence(apply) => loop {
            let k = rng.below(model.sequences.len());
            if let Some(breaks) = apply(&mut model.sequences[k], k, rng) {
                break breaks;
            }
        },
    };
    damaged(rng, &model, &breaks)
}

/// A listing with several damages; no two of them touch the same thing.
pub fn several_damages(rng: &mut Rng) -> Damaged {
    let mut model = valid::rich(rng);
    let mut breaks = Breaks::new();
    for (_, damage) in DAMAGES {
        if let Damage::Header(apply) = damage {
            if rng.chance(5) {
                breaks.extend(apply(&mut model.header, rng));
            }
        }
    }
    for k in 0..model.sequences.len() {
        // A damage that doesn't fit this sequence leaves it as it is.
        if let (_, Damage::Sequence(apply)) = *rng.pick(&DAMAGES) {
            breaks.extend(apply(&mut model.sequences[k], k, rng).unwrap_or_default());
        }
    }
    if breaks.is_empty() {
        return several_damages(rng);
    }
    damaged(rng, &model, &breaks)
}

fn damaged(rng: &mut Rng, model: &Model, breaks: &Breaks) -> Damaged {
    let blank_percent = blank_percent(rng);
    let written = write::write(model, blank_percent, rng);
    let mut broken: Vec<Broken> = breaks
        .iter()
        .map(|&(rule, field)| Broken {
            place: written.place(model, field),
            rule,
        })
        .collect();
    broken.sort_unstable();
    Damaged {
        bytes: written.bytes,
        broken,
    }
}
