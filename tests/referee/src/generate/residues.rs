//! Small listings of one sequence about rules 18, 19 and 21: foreign residues at each place of short texts and of longer ones, and
//! about the borders of stretches.

use super::plain::{feature, listing, qualifier, sequence_of, source};
use super::rng::Rng;
use super::write::escape;
use crate::Broken;
use std::collections::BTreeSet;

/// Document 01's symbols of a kind, and some characters that are none.
pub(super) struct Alphabet {
    pub unknown: u8,
    /// All symbols but the unknown one; the common ones stand first.
    pub defined: &'static [u8],
    /// How many of them are common. No amino acid is rarer, so any share will do there.
    common: usize,
    /// How many residues mustn't be unknown.
    pub least: usize,
    /// Some that are no symbols; the last five are written as entities.
    pub foreign: &'static [u8],
}

const NUCLEOTIDES: Alphabet = Alphabet {
    unknown: b'n',
    defined: b"acgtmrwsykvhdb",
    common: 4,
    least: 10,
    foreign: b"uxAN-*0 <>&\"'",
};

const AMINO_ACIDS: Alphabet = Alphabet {
    unknown: b'X',
    defined: b"ABCDEFGHIJKLMNOPQRSTUVWYZ",
    common: 12,
    least: 4,
    foreign: b"ax@[-*0 <>&\"'",
};

impl Alphabet {
    pub fn is_foreign(&self, residue: u8) -> bool {
        residue != self.unknown && !self.defined.contains(&residue)
    }

    /// All characters that a text may have and that are no symbols.
    fn all_foreign(&self) -> Vec<u8> {
        let all = b' '..=b'~';
        all.filter(|&character| self.is_foreign(character))
            .collect()
    }

    /// The two sorts of letters that stretches have: the common ones with the unknown one, and the rarer ones.
    fn sorts(&self) -> [Vec<u8>; 2] {
        let (common, rarer) = self.defined.split_at(self.common);
        [[common, &[self.unknown]].concat(), rarer.into()]
    }
}

pub(super) fn alphabet(moltype: &str) -> &'static Alphabet {
    match moltype {
        "AA" => &AMINO_ACIDS,
        _ => &NUCLEOTIDES,
    }
}

/// The table of a sequence.
#[derive(Clone, Copy, Debug, PartialEq, Eq)]
enum Table {
    /// Rule 21 at the sequence text.
    Absent,
    Source,
    /// With a CDS whose translation is wrong: rule 28, if 18 holds.
    WrongCds,
}

/// AA has no CDS.
const SHAPES: [(&str, Table); 8] = [
    ("DNA", Table::Absent),
    ("DNA", Table::Source),
    ("DNA", Table::WrongCds),
    ("RNA", Table::Absent),
    ("RNA", Table::Source),
    ("RNA", Table::WrongCds),
    ("AA", Table::Absent),
    ("AA", Table::Source),
];

/// A listing with every rule that it breaks, in order; it is accepted if there is none.
pub struct Sample {
    pub name: String,
    pub bytes: Vec<u8>,
    pub broken: Vec<Broken>,
}

/// The listing of a sequence with these residues, and what is known of it from writing it.
fn sample(moltype: &str, table: Table, residues: &[u8]) -> Sample {
    let alphabet = alphabet(moltype);
    let mut written = Vec::new();
    let mut first_foreign = None;
    for &residue in residues {
        if alphabet.is_foreign(residue) {
            first_foreign.get_or_insert(written.len());
        }
        escape(&[residue], &mut written);
    }
    let written = String::from_utf8(written).expect("residues are ASCII");
    let source = source(moltype, residues.len());
    let features = match table {
        Table::Absent => None,
        Table::Source => Some(source),
        Table::WrongCds => Some(source + &feature("CDS", "1", &qualifier("translation", "M"))),
    };
    let sequence = sequence_of(residues.len(), moltype, features.as_deref(), &written);
    let text = listing("", &[sequence]);

    let after = |mark: &str| text.find(mark).map_or(0, |at| at + mark.len());
    let place = after("<INSDSeq_sequence>");
    let translation = after(">translation</INSDQualifier_name><INSDQualifier_value>");
    let is_known = |&&residue: &&u8| residue != alphabet.unknown;
    let known = residues.iter().filter(is_known).count();
    let is_wrong = table == Table::WrongCds && first_foreign.is_none();
    let mut broken: Vec<Broken> = [
        first_foreign.map(|before| (18, place + before)),
        (known < alphabet.least).then_some((19, place)),
        (table == Table::Absent).then_some((21, place)),
        is_wrong.then_some((28, translation)),
    ]
    .into_iter()
    .flatten()
    .map(|(rule, place)| Broken { place, rule })
    .collect();
    broken.sort_unstable();
    Sample {
        name: format!("{moltype} {written}, table {table:?}"),
        bytes: text.into_bytes(),
        broken,
    }
}

/// Whether the residue at this place of a text of this length is unknown, where so many defined ones are too few.
type Ground = fn(usize, usize, usize) -> bool;

/// All are defined; too few are, at the front or at the end; every second one is.
const GROUNDS: [Ground; 4] = [
    |_, _, _| false,
    |at, _, few| at >= few,
    |at, length, few| at + few < length,
    |at, _, _| at % 2 == 1,
];

/// A text without foreign residues.
fn clean(alphabet: &Alphabet, is_unknown: Ground, length: usize) -> Vec<u8> {
    let defined = alphabet.defined.iter().cycle();
    let residues = (0..length).zip(defined).map(|(at, &defined)| {
        if is_unknown(at, length, alphabet.least - 1) {
            alphabet.unknown
        } else {
            defined
        }
    });
    residues.collect()
}

/// The text with these residues in place of its own.
fn exchanged(text: &[u8], exchanges: &[(usize, u8)]) -> Vec<u8> {
    let mut residues = text.to_vec();
    for &(at, residue) in exchanges {
        residues[at] = residue;
    }
    residues
}

/// Texts of this length in every shape and ground: at each place in turn each of its characters.
fn swept(length: usize, characters: impl Fn(&Alphabet, usize) -> Vec<u8>) -> Vec<Sample> {
    let mut samples = Vec::new();
    for (moltype, table) in SHAPES {
        let alphabet = alphabet(moltype);
        for ground in GROUNDS {
            let clean = clean(alphabet, ground, length);
            for at in 0..length {
                for character in characters(alphabet, at) {
                    let residues = exchanged(&clean, &[(at, character)]);
                    samples.push(sample(moltype, table, &residues));
                }
            }
        }
    }
    samples
}

/// Every character that a text may have, at each place of a short one.
pub fn every_character() -> impl Iterator<Item = Sample> {
    swept(12, |_, _| (b' '..=b'~').collect()).into_iter()
}

/// One foreign residue at each place: every second of ours in short texts, one in those about multiples of 64, in turn.
pub fn one_foreign() -> impl Iterator<Item = Sample> {
    let lengths = (1..=24).chain(60..=70).chain(127..=130).chain(190..=194);
    lengths.flat_map(|length| {
        swept(length, |Alphabet { foreign, .. }, at| {
            let step = if length <= 24 { 2 } else { foreign.len() };
            let some = foreign.iter().skip((at + length) % step);
            some.step_by(step).copied().collect()
        })
    })
}

/// Two foreign residues, each a letter or an entity, at any two of some places.
pub fn two_foreign() -> impl Iterator<Item = Sample> {
    let short = (12, (0..12).collect());
    let long = (130, vec![0, 1, 62, 63, 64, 65, 66, 126, 127, 128, 129]);
    let texts: [(usize, Vec<usize>); 2] = [short, long];
    texts.into_iter().flat_map(|(length, places)| {
        let mut samples = Vec::new();
        for (moltype, table) in SHAPES {
            let clean = clean(alphabet(moltype), GROUNDS[1], length);
            for (number, &first) in places.iter().enumerate() {
                for &second in &places[number + 1..] {
                    for [one, other] in [*b"--", *b"-&", *b"<-", *b"'\""] {
                        let residues = exchanged(&clean, &[(first, one), (second, other)]);
                        samples.push(sample(moltype, table, &residues));
                    }
                }
            }
        }
        samples
    })
}

/// A reader may try residues in blocks of so many.
const BLOCK: usize = 64;

/// Each of these places, and the ones before and behind it.
fn about(marks: impl IntoIterator<Item = usize>) -> BTreeSet<usize> {
    let marks = marks.into_iter();
    marks
        .flat_map(|mark| mark.saturating_sub(1)..=mark + 1)
        .collect()
}

/// A reader may change its way at the first rarer letter, and go back behind 256 residues or one block more.
fn back(first: usize) -> impl Iterator<Item = usize> {
    let starts = [first, first - first % BLOCK].into_iter();
    starts.flat_map(|start| [start + 256, start + 256 + BLOCK])
}

/// Which of two sorts of letters stands at this place: they take turns at each border.
fn sort_at(borders: &[usize], at: usize) -> usize {
    borders.iter().filter(|&&border| border <= at).count() % 2
}

/// A text in stretches of these two sorts, without foreign residues.
fn stretched(sorts: [&[u8]; 2], borders: &[usize], length: usize) -> Vec<u8> {
    let letter = |at| {
        let letters = sorts[sort_at(borders, at)];
        letters[at % letters.len()]
    };
    (0..length).map(letter).collect()
}

/// Borders and lengths of texts that begin with common letters.
fn layouts() -> Vec<(Vec<usize>, usize)> {
    let lengths = about((2 * BLOCK..=11 * BLOCK).step_by(BLOCK));
    // One sort alone; the shorter lengths leave over every number of residues.
    let alone = (12..2 * BLOCK).chain(lengths.iter().copied());
    let mut layouts: Vec<(Vec<usize>, usize)> = alone
        .flat_map(|length| [(vec![], length), (vec![0], length)])
        .collect();
    // A lone rarer letter.
    let lone = about((0..600).step_by(BLOCK)).into_iter();
    layouts.extend(lone.map(|at| (vec![at, at + 1], 600)));
    // A rarer stretch, and another like it where a reader may go back, or behind the end.
    let mut twice = Vec::new();
    for first in [0, 63, 64, 65, 128] {
        for size in about([64, 256]).into_iter().chain([1, 320]) {
            let seconds = about(back(first)).into_iter().chain([1000]);
            for second in seconds.filter(|&second| second > first + size) {
                twice.push(vec![first, first + size, second, second + size]);
            }
        }
    }
    let long = lengths.iter().copied().filter(|&length| length > 500);
    layouts.extend(twice.into_iter().zip(long.cycle()));
    layouts
}

/// Texts of stretches without foreign residues, each with its borders.
fn stretched_texts(alphabet: &Alphabet) -> Vec<(Vec<usize>, Vec<u8>)> {
    let [common, rarer] = &alphabet.sorts();
    let mut texts = Vec::new();
    for (borders, length) in layouts() {
        let text = stretched([common, rarer], &borders, length);
        texts.push((borders, text));
    }
    // Unknown residues but for one too few or just enough: all of these but one together, and that one near the end.
    for known in [alphabet.defined, rarer] {
        for size in [alphabet.least - 2, alphabet.least - 1] {
            for first in [0, 60, 64, 250, 320] {
                let borders = vec![first, first + size, 590, 591];
                let text = stretched([&[alphabet.unknown], known], &borders, 600);
                texts.push((borders, text));
            }
        }
    }
    texts
}

/// The places of a text that matter: about blocks and borders, where a reader may go back, and the last.
fn places(borders: &[usize], length: usize) -> Vec<usize> {
    let blocks = (0..=length).step_by(BLOCK);
    let back = borders.iter().take(1).flat_map(|&first| back(first));
    let marks = blocks.chain(borders.iter().copied()).chain(back);
    let places = about(marks.chain([length])).into_iter();
    places.filter(|&at| at < length).collect()
}

/// A text with these foreign residues; it has a table, since rule 21 would hide their place.
fn with_foreign(moltype: &str, text: &[u8], foreign: &[(usize, u8)]) -> Sample {
    sample(moltype, Table::Source, &exchanged(text, foreign))
}

/// A text as it is in every shape; with any foreign residue at each place that matters, and with another one behind it.
fn about_borders(moltype: &str, borders: &[usize], text: &[u8], rng: &mut Rng) -> Vec<Sample> {
    let foreign = alphabet(moltype).all_foreign();
    let shapes = SHAPES.iter().filter(|shape| shape.0 == moltype);
    let mut samples: Vec<Sample> = shapes
        .map(|&(_, table)| sample(moltype, table, text))
        .collect();
    let places = places(borders, text.len());
    for (number, &at) in places.iter().enumerate() {
        let one = (at, *rng.pick(&foreign));
        samples.push(with_foreign(moltype, text, &[one]));
        let later = &places[number + 1..];
        if !later.is_empty() {
            let other = (*rng.pick(later), *rng.pick(&foreign));
            samples.push(with_foreign(moltype, text, &[one, other]));
        }
    }
    samples
}

/// Each foreign character at a few places of each block and behind the last.
fn in_each_block(moltype: &'static str) -> impl Iterator<Item = Sample> {
    let alphabet = alphabet(moltype);
    let [common, rarer] = alphabet.sorts();
    // Two blocks of common letters, one of rarer ones, seven of common ones; behind them 20 residues of either sort.
    let front = vec![2 * BLOCK, 3 * BLOCK];
    let last = [front.as_slice(), &[10 * BLOCK]].concat();
    [front, last].into_iter().flat_map(move |borders| {
        let text = stretched([&common, &rarer], &borders, 10 * BLOCK + 20);
        let mut samples = Vec::new();
        // Odd, so that in time each place has its turn, and less than 20.
        let step = 17;
        for (number, character) in alphabet.all_foreign().into_iter().enumerate() {
            for at in (number % step..text.len()).step_by(step) {
                samples.push(with_foreign(moltype, &text, &[(at, character)]));
            }
        }
        samples
    })
}

/// Stretches of common letters and of rarer ones: none, one and two foreign residues, above all about borders.
pub fn stretches() -> impl Iterator<Item = Sample> {
    let moltypes = ["DNA", "RNA", "AA"].into_iter();
    moltypes.flat_map(|moltype| {
        let mut rng = Rng::new(1);
        let texts = stretched_texts(alphabet(moltype)).into_iter();
        let about_borders = texts
            .flat_map(move |(borders, text)| about_borders(moltype, &borders, &text, &mut rng));
        about_borders.chain(in_each_block(moltype))
    })
}

/// Any text of four residues or more, so that none is `000`; some are longer, in stretches, with few foreign residues.
pub fn any_residues(rng: &mut Rng) -> Sample {
    let (moltype, table) = *rng.pick(&SHAPES);
    let alphabet = alphabet(moltype);
    let [common, rarer] = &alphabet.sorts();
    let (most, foreign_shares, sorts) = if rng.chance(25) {
        (700, [0, 1, 2, 5], [common.as_slice(), rarer])
    } else {
        let most = *rng.pick(&[20, 80, 200]);
        (most, [0, 10, 50, 400], [alphabet.defined; 2])
    };
    let foreign_per_thousand = *rng.pick(&foreign_shares);
    let unknown_percent = *rng.pick(&[0, 50, 90, 97]);
    let length = rng.between(4, most);
    let borders: Vec<usize> = (0..rng.below(6)).map(|_| rng.below(length)).collect();
    let residues: Vec<u8> = (0..length)
        .map(|at| {
            if rng.below(1000) < foreign_per_thousand {
                *rng.pick(alphabet.foreign)
            } else if rng.chance(unknown_percent) {
                alphabet.unknown
            } else {
                *rng.pick(sorts[sort_at(&borders, at)])
            }
        })
        .collect();
    sample(moltype, table, &residues)
}
