//! Translation of coding residues by genetic code 1.

use crate::location::{Span, COMPLEMENT, SITE};
use std::ops::Range;

/// The letters of code 1 "for bases in order t, c, a, g, first base slowest".
const CODE_1: &[u8; 64] = b"FFLLSSSSYY**CC*WLLLLPPPPHHQQRRRRIIIMTTTTNNKKSSRRVVVVAAAADDEEGGGG";

/// The symbols of DNA and RNA, each with its plain bases.
const SYMBOLS: [(u8, &str); 15] = [
    (b'a', "a"),
    (b'c', "c"),
    (b'g', "g"),
    (b't', "t"),
    (b'm', "ac"),
    (b'r', "ag"),
    (b'w', "at"),
    (b's', "cg"),
    (b'y', "ct"),
    (b'k', "gt"),
    (b'v', "acg"),
    (b'h', "act"),
    (b'd', "agt"),
    (b'b', "cgt"),
    (b'n', "acgt"),
];

/// The letters that stand for either of two, with these two.
const PAIRS: [(u8, &[u8; 2]); 3] = [(b'B', b"ND"), (b'Z', b"QE"), (b'J', b"IL")];

/// The letter of a codon: the most restrictive one for all that its plain codons give.
/// A letter outside the symbols has no plain base, so that such a codon gives nothing.
pub fn codon_letter(codon: [u8; 3]) -> u8 {
    let [first, second, third] = codon.map(plain_bases);
    let mut given = 0;
    for &a in first {
        for &b in second {
            for &c in third {
                given |= set(&[CODE_1[16 * base_number(a) + 4 * base_number(b) + base_number(c)]]);
            }
        }
    }
    most_restrictive(given)
}

/// A set of letters, `*` too: one bit for each.
fn set(letters: &[u8]) -> u64 {
    letters
        .iter()
        .fold(0, |set, letter| set | 1 << (letter - b'*'))
}

/// The only letter of the set, the one of a pair if it has exactly these two, else `X`.
fn most_restrictive(given: u64) -> u8 {
    if given.is_power_of_two() {
        return b'*' + given.trailing_zeros() as u8;
    }
    let pair = PAIRS.iter().find(|&&(_, pair)| set(pair) == given);
    pair.map_or(b'X', |&(letter, _)| letter)
}

/// Whether the letter is a symbol of DNA and RNA.
pub fn is_symbol(letter: u8) -> bool {
    !plain_bases(letter).is_empty()
}

fn plain_bases(letter: u8) -> &'static [u8] {
    SYMBOLS
        .iter()
        .find(|&&(symbol, _)| symbol == letter)
        .map_or(b"", |(_, bases)| bases.as_bytes())
}

/// The base's number in the order of `CODE_1`.
fn base_number(base: u8) -> usize {
    match base {
        b't' => 0,
        b'c' => 1,
        b'a' => 2,
        _ => 3,
    }
}

/// The symbol that pairs with this one.
pub fn complement(symbol: u8) -> u8 {
    match symbol {
        b'a' => b't',
        b't' => b'a',
        b'c' => b'g',
        b'g' => b'c',
        b'm' => b'k',
        b'k' => b'm',
        b'r' => b'y',
        b'y' => b'r',
        b'v' => b'b',
        b'b' => b'v',
        b'h' => b'd',
        b'd' => b'h',
        own => own,
    }
}

/// Why there is no translation: a stop that isn't the last whole codon.
#[derive(Clone, Copy, Debug, PartialEq, Eq)]
pub struct StopInside;

/// The translation of a coding text from its first residue on.
pub fn translate(text: &[u8]) -> Result<Vec<u8>, StopInside> {
    let whole = Span {
        first: 1,
        // A coding text is part of a listing, so its length is below 2^32.
        last: text.len() as u32,
        marks: 0,
    };
    Coding::new(text, vec![whole], 1).letters().collect()
}

/// The coding residues of a feature, not yet read.
pub struct Coding<'a> {
    residues: &'a [u8],
    spans: Vec<Span>,
    codon_start: usize,
    codon_count: u64,
}

impl<'a> Coding<'a> {
    /// The residues of these spans, to be read from `codon_start` (1, 2 or 3) on.
    pub fn new(residues: &'a [u8], spans: Vec<Span>, codon_start: usize) -> Coding<'a> {
        let residue_count: u64 = spans.iter().map(|&span| indices(span).len() as u64).sum();
        Coding {
            residues,
            spans,
            codon_start,
            codon_count: residue_count.saturating_sub(codon_start as u64 - 1) / 3,
        }
    }

    /// The letters of the translation, read only as far as they are taken.
    pub fn letters(&self) -> impl Iterator<Item = Result<u8, StopInside>> + '_ {
        let residues = self.residues;
        let mut coding = self
            .spans
            .iter()
            .flat_map(move |&span| residues_of(residues, span))
            .skip(self.codon_start - 1);
        let mut codons_left = self.codon_count;
        std::iter::from_fn(move || {
            codons_left = codons_left.checked_sub(1)?;
            let codon = [coding.next()?, coding.next()?, coding.next()?];
            match codon_letter(codon) {
                b'*' if codons_left == 0 => None,
                b'*' => Some(Err(StopInside)),
                letter => Some(Ok(letter)),
            }
        })
    }

    /// The number of letters of the translation.
    pub fn length(&self) -> Result<u64, StopInside> {
        self.letters()
            .try_fold(0, |count, letter| letter.map(|_| count + 1))
    }

    /// Whether there is a translation and these are its letters.
    pub fn reads_as(&self, value: impl Iterator<Item = u8>) -> bool {
        self.letters().eq(value.map(Ok))
    }
}

/// Where the residues of one span stand. A site lies between two of them, `L^1` between the last and the first, and has none.
fn indices(span: Span) -> Range<usize> {
    if span.marks & SITE == 0 {
        span.first as usize - 1..span.last as usize
    } else {
        0..0
    }
}

/// The residues of one span, backwards and complemented if its mark says so.
fn residues_of(residues: &[u8], span: Span) -> impl Iterator<Item = u8> + '_ {
    let Range { start, end } = indices(span);
    (start..end).map(move |index| {
        if span.marks & COMPLEMENT == 0 {
            residues[index]
        } else {
            complement(residues[start + (end - 1 - index)])
        }
    })
}
