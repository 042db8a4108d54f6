//! The index of document 02's request 5: what the maker writes, and where another one parts from it.

use crate::text::Part;
use crate::tree::Sequence;
use crate::values::Kind;

/// "All numbers are 32-bit."
const NUMBER: usize = 4;

/// The kind of a skipped sequence, which has no moltype.
const SKIPPED: usize = 0;

/// The numbers of a sequence's body: the kind, then place and length of the residues and of each feature's key and location.
pub fn body(kind: Option<Kind>, sequence: &Sequence) -> Vec<usize> {
    let mut numbers = vec![kind.map_or(SKIPPED, |kind| kind as usize)];
    let mut shown = |Part { start, size }| numbers.extend([start, size]);
    shown(sequence.residues.part);
    for feature in &sequence.features {
        shown(feature.key.part);
        shown(feature.location.part);
    }
    numbers
}

/// The whole index: the count of bodies, where each starts and its size in bytes, then all of them without gaps.
pub fn index(bodies: &[Vec<usize>]) -> Vec<u8> {
    let mut start = NUMBER * (1 + 2 * bodies.len());
    let mut numbers = vec![bodies.len()];
    for body in bodies {
        let size = NUMBER * body.len();
        numbers.extend([start, size]);
        start += size;
    }
    numbers.extend(bodies.concat());
    numbers.into_iter().flat_map(little_endian).collect()
}

fn little_endian(number: usize) -> [u8; NUMBER] {
    // A feature's tags are longer than its numbers, so the index is shorter than the listing.
    let number = u32::try_from(number).expect("no more than the longest listing");
    number.to_le_bytes()
}

/// Where the two differ first; if one is a beginning of the other, the shorter length. Nothing if they are the same.
pub fn parting(index: &[u8], other: &[u8]) -> Option<usize> {
    let pairs = index.iter().zip(other);
    let alike = pairs.take_while(|(byte, other)| byte == other).count();
    (index != other).then_some(alike)
}
