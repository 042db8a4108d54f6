//! The inner calls of the proved code, as the crate `trial` lends them. Unsafe lines stand here and in boundary.rs only.

use crate::translation::Region;
use referee::generate::escape;
use referee::Refusal;

extern "C" {
    /// 0, or the number of the broken rule; `place` then holds its place, else 0.
    fn trial_layout(listing: *const u8, length: usize, place: *mut usize) -> usize;

    /// 0 with the facts of a location, or 24; each fact is 1 where it holds.
    fn trial_location(
        part: *const u8,
        length: usize,
        residues: u32,
        wrong: *mut u32,
        complemented: *mut u32,
        unjudged: *mut u32,
    ) -> u32;

    /// 0 with the spans written, or 24, 25, 34.
    fn trial_spans(
        part: *const u8,
        length: usize,
        residues: u32,
        out: *mut u32,
        room: usize,
        operator: *mut u32,
        count: *mut usize,
    ) -> u32;

    /// 0 with the translation written and its length, or 37, 34.
    fn trial_translation(
        residues: *const u8,
        residue_count: usize,
        location: *const u8,
        location_length: usize,
        top: u32,
        codon_start: usize,
        out: *mut u8,
        room: usize,
        size: *mut usize,
    ) -> u32;

    /// 1 where the value is the translation, else 0.
    fn trial_is_right(
        residues: *const u8,
        residue_count: usize,
        location: *const u8,
        location_length: usize,
        top: u32,
        codon_start: usize,
        value: *const u8,
        value_length: usize,
    ) -> u32;
}

/// The text as it is written in a listing.
pub fn raw(text: &[u8]) -> Vec<u8> {
    let mut written = Vec::with_capacity(text.len());
    escape(text, &mut written);
    written
}

/// A number that no call leaves where it was.
const UNSET: u32 = 0xdead_beef;

/// 0 or 24; and, 1 or 0: it breaks rule 25, it has a complement, it leaves its region unjudged.
pub type Facts = (u32, [u32; 3]);

/// What is said of a location's spans into lent room.
#[derive(Debug, PartialEq, Eq)]
pub struct Spans {
    pub number: u32,
    pub operator: u32,
    pub count: usize,
    /// The room afterwards.
    pub room: Vec<u32>,
}

/// Room before it is lent.
pub fn room(size: usize) -> Vec<u32> {
    vec![UNSET; size]
}

/// What the proved reader says of a location that is written so.
pub fn facts(part: &[u8], residues: u32) -> Facts {
    let (mut wrong, mut complemented, mut unjudged) = (UNSET, UNSET, UNSET);
    // SAFETY: the call reads `length` bytes from `part` and writes one number through each pointer.
    let number = unsafe {
        trial_location(
            part.as_ptr(),
            part.len(),
            residues,
            &mut wrong,
            &mut complemented,
            &mut unjudged,
        )
    };
    (number, [wrong, complemented, unjudged])
}

/// What it says of its spans.
pub fn spans(part: &[u8], residues: u32, size: usize) -> Spans {
    let mut said = Spans {
        number: UNSET,
        operator: UNSET,
        count: usize::MAX,
        room: room(size),
    };
    // SAFETY: the call reads `length` bytes from `part`, writes within `room` numbers of `out` and one through each pointer.
    said.number = unsafe {
        trial_spans(
            part.as_ptr(),
            part.len(),
            residues,
            said.room.as_mut_ptr(),
            said.room.len(),
            &mut said.operator,
            &mut said.count,
        )
    };
    said
}

/// Rules 1 and 2 by the proved reader, in the referee's form.
pub fn layout(input: &[u8]) -> Result<(), Refusal> {
    // A place that the call forgets to write is a difference.
    let mut place = usize::MAX;
    // SAFETY: the call reads `length` bytes from `listing` and writes one number through `place`.
    let rule = unsafe { trial_layout(input.as_ptr(), input.len(), &mut place) };
    match (rule, place) {
        (0, 0) => Ok(()),
        _ => Err(Refusal {
            rule: u32::try_from(rule).unwrap_or(u32::MAX),
            place,
        }),
    }
}

/// What the proved code says of a translation into lent room: the number, the length and the room afterwards.
pub fn translation(region: &Region, mut room: Vec<u8>) -> (u32, usize, Vec<u8>) {
    // A length that the call forgets to write is a difference.
    let mut size = usize::MAX;
    let location = raw(&region.location);
    // SAFETY: the call reads the two texts by their lengths, writes within `room` and one number through `size`.
    let number = unsafe {
        trial_translation(
            region.residues.as_ptr(),
            region.residues.len(),
            location.as_ptr(),
            location.len(),
            region.residues.len() as u32,
            region.codon_start,
            room.as_mut_ptr(),
            room.len(),
            &mut size,
        )
    };
    (number, size, room)
}

/// What the proved code says of a translation qualifier's value: 1 where it is right, else 0.
pub fn is_right(region: &Region, value: &[u8]) -> u32 {
    let location = raw(&region.location);
    let value = raw(value);
    // SAFETY: the call reads the three texts by their lengths.
    unsafe {
        trial_is_right(
            region.residues.as_ptr(),
            region.residues.len(),
            location.as_ptr(),
            location.len(),
            region.residues.len() as u32,
            region.codon_start,
            value.as_ptr(),
            value.len(),
        )
    }
}
