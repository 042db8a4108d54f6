//! Byte mutants of a listing, about which nothing is known beforehand.

use super::rng::Rng;

/// Changes the bytes in one to three random ways.
pub fn mutate(bytes: &mut Vec<u8>, rng: &mut Rng) {
    let count = *rng.pick(&[1, 1, 1, 2, 3]);
    for _ in 0..count {
        if bytes.is_empty() {
            return;
        }
        match rng.below(9) {
            0 => replace(bytes, rng),
            1 => insert(bytes, rng),
            2 => delete(bytes, rng),
            3 => swap(bytes, rng),
            4 => flip_bit(bytes, rng),
            5 => duplicate(bytes, rng),
            6 => duplicate_tag(bytes, rng),
            7 => delete_tag(bytes, rng),
            _ => truncate(bytes, rng),
        }
    }
}

/// Cuts off the end.
fn truncate(bytes: &mut Vec<u8>, rng: &mut Rng) {
    bytes.truncate(rng.below(bytes.len()));
}

/// Any byte, one with a meaning, or one that the listing has already.
fn byte(bytes: &[u8], rng: &mut Rng) -> u8 {
    match rng.below(3) {
        0 => rng.below(256) as u8,
        1 => *rng.pick(b"<>/&\"'=; \t\r\n019acgntXMK.,^()"),
        _ => *rng.pick(bytes),
    }
}

fn replace(bytes: &mut [u8], rng: &mut Rng) {
    let at = rng.below(bytes.len());
    bytes[at] = byte(bytes, rng);
}

fn insert(bytes: &mut Vec<u8>, rng: &mut Rng) {
    let new = byte(bytes, rng);
    bytes.insert(rng.below(bytes.len() + 1), new);
}

fn delete(bytes: &mut Vec<u8>, rng: &mut Rng) {
    let from = rng.below(bytes.len());
    let count = *rng.pick(&[1, 1, 2, 10]);
    let to = bytes.len().min(from + count);
    bytes.drain(from..to);
}

fn swap(bytes: &mut [u8], rng: &mut Rng) {
    let one = rng.below(bytes.len());
    let other = (one + rng.between(1, 3)) % bytes.len();
    bytes.swap(one, other);
}

fn flip_bit(bytes: &mut [u8], rng: &mut Rng) {
    let at = rng.below(bytes.len());
    bytes[at] ^= 1 << rng.below(8);
}

/// Writes a stretch once more, somewhere.
fn duplicate(bytes: &mut Vec<u8>, rng: &mut Rng) {
    let from = rng.below(bytes.len());
    let to = bytes.len().min(from + rng.between(1, 40));
    put(bytes, from, to, rng);
}

/// Writes a whole tag, or all from one tag to another, once more, after some tag.
fn duplicate_tag(bytes: &mut Vec<u8>, rng: &mut Rng) {
    if let Some((from, to)) = tag(bytes, rng) {
        put(bytes, from, to, rng);
    }
}

fn delete_tag(bytes: &mut Vec<u8>, rng: &mut Rng) {
    if let Some((from, to)) = tag(bytes, rng) {
        bytes.drain(from..to);
    }
}

fn put(bytes: &mut Vec<u8>, from: usize, to: usize, rng: &mut Rng) {
    let copy = bytes[from..to].to_vec();
    let ends = ends(bytes);
    let at = match ends[..] {
        [] => to,
        _ if rng.chance(30) => rng.below(bytes.len() + 1),
        _ => *rng.pick(&ends),
    };
    bytes.splice(at..at, copy);
}

/// The stretch from one `<` to some later `>`.
fn tag(bytes: &[u8], rng: &mut Rng) -> Option<(usize, usize)> {
    let starts: Vec<usize> = (0..bytes.len()).filter(|&at| bytes[at] == b'<').collect();
    if starts.is_empty() {
        return None;
    }
    let from = *rng.pick(&starts);
    let later: Vec<usize> = ends(bytes).into_iter().filter(|&end| end > from).collect();
    let to = later.get(rng.below(4))?;
    Some((from, *to))
}

/// The offsets after each `>`.
fn ends(bytes: &[u8]) -> Vec<usize> {
    (1..=bytes.len())
        .filter(|&end| bytes[end - 1] == b'>')
        .collect()
}
