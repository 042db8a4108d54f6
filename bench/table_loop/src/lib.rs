//! The table loop alone: three base sets, one letter and one store for each codon.
//! It doesn't look for stops, and it reads no location: the caller says which residues, and on which strand.

use std::slice::{from_raw_parts, from_raw_parts_mut};

/// The letters of code 1 for bases in order t, c, a, g, first base slowest.
const CODE_1: &[u8; 64] = b"FFLLSSSSYY**CC*WLLLLPPPPHHQQRRRRIIIMTTTTNNKKSSRRVVVVAAAADDEEGGGG";

/// Each letter with its plain bases, and its complement.
const SYMBOLS: [(u8, &str, u8); 15] = [
    (b'a', "a", b't'),
    (b'c', "c", b'g'),
    (b'g', "g", b'c'),
    (b't', "t", b'a'),
    (b'm', "ac", b'k'),
    (b'r', "ag", b'y'),
    (b'w', "at", b'w'),
    (b's', "cg", b's'),
    (b'y', "ct", b'r'),
    (b'k', "gt", b'm'),
    (b'v', "acg", b'b'),
    (b'h', "act", b'd'),
    (b'd', "agt", b'h'),
    (b'b', "cgt", b'v'),
    (b'n', "acgt", b'n'),
];

/// The base sets of the letters, of their complements, and the answer for three base sets.
pub struct Tables {
    sets: [u8; 256],
    turns: [u8; 256],
    letters: [u8; 4096],
}

impl Tables {
    fn new() -> Tables {
        let mut sets = [0; 256];
        for (symbol, bases, _) in SYMBOLS {
            sets[usize::from(symbol)] = bases.bytes().map(bit).sum();
        }
        let mut turns = [0; 256];
        for (symbol, _, complement) in SYMBOLS {
            turns[usize::from(symbol)] = sets[usize::from(complement)];
        }
        let mut letters = [b'X'; 4096];
        for (index, letter) in letters.iter_mut().enumerate() {
            *letter = most_restrictive(index >> 8, index >> 4 & 15, index & 15);
        }
        Tables {
            sets,
            turns,
            letters,
        }
    }

    fn letter(&self, sets: &[u8; 256], codon: [u8; 3]) -> u8 {
        let [x, y, z] = codon.map(|residue| usize::from(sets[usize::from(residue)]));
        // A set is below 16, so the remainder changes nothing; it spares the check of the index.
        self.letters[(x << 8 | y << 4 | z) % 4096]
    }
}

/// The bit of a base in a set, by its number in the order of `CODE_1`.
fn bit(base: u8) -> u8 {
    let number = b"tcag".iter().position(|&other| other == base);
    number.map_or(0, |number| 1 << number)
}

/// The most restrictive letter for all plain codons of three base sets.
fn most_restrictive(first: usize, second: usize, third: usize) -> u8 {
    let plain = (0..64).filter(|codon| {
        let bases = [
            (first, codon >> 4),
            (second, codon >> 2 & 3),
            (third, codon & 3),
        ];
        bases.iter().all(|(set, base)| set >> base & 1 == 1)
    });
    let mut letters: Vec<u8> = plain.map(|codon| CODE_1[codon]).collect();
    letters.sort_unstable();
    letters.dedup();
    match letters[..] {
        [letter] => letter,
        [b'D', b'N'] => b'B',
        [b'E', b'Q'] => b'Z',
        [b'I', b'L'] => b'J',
        _ => b'X',
    }
}

/// The tables, for the calls below. They are never given back.
#[no_mangle]
pub extern "C" fn table_loop_tables() -> &'static Tables {
    Box::leak(Box::new(Tables::new()))
}

/// The letters of every whole codon of the residues.
///
/// # Safety
///
/// `residues` holds `count` bytes, and `out` has room for a third of them.
#[no_mangle]
pub unsafe extern "C" fn table_loop_forward(
    tables: &Tables,
    residues: *const u8,
    count: usize,
    out: *mut u8,
) {
    let residues = from_raw_parts(residues, count);
    let out = from_raw_parts_mut(out, count / 3);
    for (codon, letter) in residues.chunks_exact(3).zip(out) {
        *letter = tables.letter(&tables.sets, [codon[0], codon[1], codon[2]]);
    }
}

/// The same on the complemented strand: backwards, and through the complements.
///
/// # Safety
///
/// As for `table_loop_forward`.
#[no_mangle]
pub unsafe extern "C" fn table_loop_backward(
    tables: &Tables,
    residues: *const u8,
    count: usize,
    out: *mut u8,
) {
    let residues = from_raw_parts(residues, count);
    let out = from_raw_parts_mut(out, count / 3);
    for (codon, letter) in residues.rchunks_exact(3).zip(out) {
        *letter = tables.letter(&tables.turns, [codon[2], codon[1], codon[0]]);
    }
}
