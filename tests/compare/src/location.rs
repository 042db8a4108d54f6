//! Locations: what the proved reader says of a text, and its spans, beside the referee.

use crate::proved::{self, Facts, Spans};
use crate::report::Count;
use referee::generate::{location_texts, Rng};
use referee::{Location, Operator};

/// What is said of a location text, for a sequence of some length.
#[derive(Debug, PartialEq, Eq)]
struct Answers {
    facts: Facts,
    /// For each room that was lent.
    spans: Vec<Spans>,
}

/// The words that texts are made of besides the signs: digits that matter, a lone dot, and a byte of none.
const WORDS: [&str; 7] = ["0", "1", "2", "7", "8", ".", "&"];

/// All texts of up to this many words are compared.
const LONGEST: usize = 6;

/// L of the small texts: 7 fits, 8 doesn't.
const RESIDUES: u32 = 7;

/// Compares all short texts and `count` generated ones; whether nothing differs.
pub fn run(count: u64, seed: u64) -> Result<bool, String> {
    let mut tally = Tally::default();
    location_texts(&WORDS, LONGEST, &mut |text| {
        tally.compare(text.as_bytes(), RESIDUES, proved)
    });
    let short = tally.count.cases;
    let rng = &mut Rng::new(seed);
    for _ in 0..count {
        let residues = rng.between(1, 40) as u32;
        let text = generated(rng, residues);
        tally.compare(&text, residues, proved);
    }
    println!(
        "{short} texts of up to {LONGEST} words, {count} generated; {} are locations, {} keep rule 25",
        tally.located, tally.right
    );
    Ok(tally.count.close("location"))
}

#[derive(Default)]
struct Tally {
    count: Count,
    located: usize,
    right: usize,
}

impl Tally {
    /// A reader is asked with the text, the number of residues, and the sizes of room.
    fn compare(
        &mut self,
        text: &[u8],
        residues: u32,
        reader: impl Fn(&[u8], u32, &[usize]) -> Answers,
    ) {
        let location = referee::location(text, residues);
        self.located += usize::from(location.is_some());
        let location = location.as_ref();
        let sizes = match location.and_then(|location| location.spans.as_ref()) {
            None => vec![9],
            Some(spans) => {
                self.right += 1;
                let need = 3 * spans.len();
                vec![need, need - 1, need + 4]
            }
        };
        let said = Answers {
            facts: facts(location),
            spans: sizes.iter().map(|&size| spans(location, size)).collect(),
        };
        let other = reader(text, residues, &sizes);
        self.count.case(other == said, |_| {
            let text = String::from_utf8_lossy(text);
            println!("{text:?} with {residues} residues:\n  referee {said:?}\n  proved {other:?}");
        });
    }
}

/// The proved reader's answers.
fn proved(text: &[u8], residues: u32, sizes: &[usize]) -> Answers {
    let part = proved::raw(text);
    let spans = |&size| proved::spans(&part, residues, size);
    Answers {
        facts: proved::facts(&part, residues),
        spans: sizes.iter().map(spans).collect(),
    }
}

/// The facts by the referee.
fn facts(location: Option<&Location>) -> Facts {
    location.map_or((24, [0; 3]), |location| {
        let order = location.operator == Operator::Order;
        let unjudged = order || location.has_site || location.has_lone_partial;
        let holds = [location.spans.is_none(), location.has_complement, unjudged];
        (0, holds.map(u32::from))
    })
}

/// The spans into room of this size, by the referee: a refusal writes nothing.
fn spans(location: Option<&Location>, size: usize) -> Spans {
    let mut room = proved::room(size);
    let (number, operator, count) = match location.map(|it| (it.operator, &it.spans)) {
        None => (24, 0, 0),
        Some((_, None)) => (25, 0, 0),
        Some((_, Some(spans))) if size < 3 * spans.len() => (34, 0, 0),
        Some((operator, Some(spans))) => {
            for (triple, span) in room.chunks_mut(3).zip(spans) {
                triple.copy_from_slice(&[span.first, span.last, span.marks]);
            }
            (0, operator as u32, spans.len())
        }
    };
    Spans {
        number,
        operator,
        count,
        room,
    }
}

/// A location, or nearly one: of the grammar's shapes, with some positions out of range and some bytes changed.
fn generated(rng: &mut Rng, residues: u32) -> Vec<u8> {
    let mut text = shape(rng, residues);
    if rng.chance(15) {
        let at = rng.below(text.len());
        text[at] = *rng.pick(b"0123456789.^<>,()cjo ");
    }
    text
}

fn shape(rng: &mut Rng, residues: u32) -> Vec<u8> {
    let text = match rng.below(4) {
        0 => member(rng, residues),
        1 => format!("complement({})", listed(rng, residues, false)),
        _ => listed(rng, residues, true),
    };
    text.into_bytes()
}

fn listed(rng: &mut Rng, residues: u32, turned: bool) -> String {
    let count = rng.between(1, 12);
    let members: Vec<String> = (0..count)
        .map(|_| {
            if turned || rng.chance(3) {
                member(rng, residues)
            } else {
                piece(rng, residues)
            }
        })
        .collect();
    format!("{}({})", rng.pick(&["join", "order"]), members.join(","))
}

fn member(rng: &mut Rng, residues: u32) -> String {
    let piece = piece(rng, residues);
    if rng.chance(40) {
        format!("complement({piece})")
    } else {
        piece
    }
}

fn piece(rng: &mut Rng, residues: u32) -> String {
    let x = position(rng, residues);
    let y = if rng.chance(90) {
        x.max(position(rng, residues))
    } else {
        position(rng, residues)
    };
    match rng.below(12) {
        0 => format!("{x}"),
        1 => format!("<{x}"),
        2 => format!(">{x}"),
        3 => format!("{x}^{}", x + 1),
        4 => format!("{residues}^1"),
        5 => format!("<{x}..{y}"),
        6 => format!("{x}..>{y}"),
        7 => format!("<{x}..>{y}"),
        8 if rng.chance(10) => format!("{x}..{y}{y}{y}{y}{y}{y}{y}"),
        _ => format!("{x}..{y}"),
    }
}

fn position(rng: &mut Rng, residues: u32) -> u64 {
    let above = if rng.chance(5) { 2 } else { 0 };
    rng.between(1, residues as usize + above) as u64
}

#[cfg(test)]
mod tests {
    use super::*;

    /// How many of the texts differ if the reader errs so.
    fn differ(texts: &[&str], error: fn(&mut Answers)) -> usize {
        let mut tally = Tally::default();
        for text in texts {
            tally.compare(text.as_bytes(), 7, |text, residues, sizes| {
                let mut answers = proved(text, residues, sizes);
                error(&mut answers);
                answers
            });
        }
        tally.count.differ
    }

    #[test]
    fn a_wrong_answer_is_a_difference() {
        let right = ["2^3", "complement(join(1,2..3))", "order(1..2,<4,6..7)"];
        let other = ["", "join(1)", "order(1,8)", "3..2"];
        assert_eq!(differ(&[right.as_slice(), &other].concat(), |_| ()), 0);
        let of_all: [fn(&mut Answers); 7] = [
            |answers| answers.facts.0 ^= 24,
            |answers| answers.facts.1[0] ^= 1,
            |answers| answers.facts.1[1] ^= 1,
            |answers| answers.facts.1[2] ^= 1,
            |answers| answers.spans[0].number = 34,
            |answers| answers.spans[0].operator ^= 1,
            |answers| answers.spans[0].count += 1,
        ];
        for (i, error) in of_all.into_iter().enumerate() {
            assert_eq!(differ(&right, error), right.len(), "error {i}");
            assert_eq!(differ(&other, error), other.len(), "error {i}");
        }
        // Marks, a write into room that is short, and one past the spans.
        let of_spans: [fn(&mut Answers); 3] = [
            |answers| answers.spans[0].room[2] ^= 1,
            |answers| answers.spans[1].room[0] = 1,
            |answers| *answers.spans[2].room.last_mut().unwrap() = 0,
        ];
        for (i, error) in of_spans.into_iter().enumerate() {
            assert_eq!(differ(&right, error), right.len(), "error {i} of spans");
        }
    }
}
