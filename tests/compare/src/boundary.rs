//! The public calls, as libdreichnook.a gives them to other programs.

use crate::lookups::{shown, Answer, Lent, Question, Room};
use referee::{Counts, Refusal};

extern "C" {
    fn dreichnook_check(
        listing: *const u8,
        length: usize,
        place: *mut u64,
        total: *mut u64,
        skipped: *mut u64,
        features: *mut u64,
        judged: *mut u64,
        unjudged: *mut u64,
    ) -> u32;

    fn dreichnook_index(
        listing: *const u8,
        length: usize,
        out: *mut u8,
        room: usize,
        place: *mut u64,
        size: *mut u64,
    ) -> u32;

    fn dreichnook_index_check(
        listing: *const u8,
        length: usize,
        index: *const u8,
        index_length: usize,
        place: *mut u64,
    ) -> u32;
}

/// Declares each lookup without an index and with one, and gives the function that asks the one or the other.
/// Both have the same arguments from `sequence` on.
macro_rules! lookups {
    ($($name:ident: $plain:ident, $indexed:ident($($argument:ident: $type:ty),*);)*) => {
        extern "C" {
            $(
                fn $plain(listing: *const u8, length: usize, $($argument: $type),*) -> u32;

                fn $indexed(
                    listing: *const u8,
                    length: usize,
                    index: *const u8,
                    index_length: usize,
                    $($argument: $type),*
                ) -> u32;
            )*
        }

        $(
            #[allow(clippy::too_many_arguments)]
            unsafe fn $name(lent: Lent, $($argument: $type),*) -> u32 {
                let (listing, length) = (lent.listing.as_ptr(), lent.listing.len());
                match lent.index {
                    None => $plain(listing, length, $($argument),*),
                    Some(index) => {
                        $indexed(listing, length, index.as_ptr(), index.len(), $($argument),*)
                    }
                }
            }
        )*
    };
}

lookups! {
    sequence: dreichnook_sequence, dreichnook_indexed_sequence(
        sequence: u64, place: *mut u64, kind: *mut u8, start: *mut u64, size: *mut u64
    );
    feature: dreichnook_feature, dreichnook_indexed_feature(
        sequence: u64, feature: u64, out: *mut u32, room: usize, place: *mut u64,
        key_start: *mut u64, key_size: *mut u64, location_start: *mut u64,
        location_size: *mut u64, operator: *mut u8, count: *mut u64
    );
    qualifier: dreichnook_qualifier, dreichnook_indexed_qualifier(
        sequence: u64, feature: u64, qualifier: u64, place: *mut u64, name_start: *mut u64,
        name_size: *mut u64, present: *mut u8, value_start: *mut u64, value_size: *mut u64
    );
    translation: dreichnook_translation, dreichnook_indexed_translation(
        sequence: u64, feature: u64, out: *mut u8, room: usize, place: *mut u64, size: *mut u64
    );
    translations: dreichnook_translations, dreichnook_indexed_translations(
        sequence: u64, out: *mut u8, room: usize, place: *mut u64, size: *mut u64
    );
}

/// What the numbers hold before a call. No answer has them, so one that a call forgets to set is a difference.
const UNSET: u64 = 0xdead_beef_dead_beef;
const UNSET_BYTE: u8 = 0xee;

/// The whole check by the proved reader, in the referee's form.
/// Counts with a refusal, or a place without one, are told as a rule that the referee never gives.
pub fn check(input: &[u8]) -> Result<Counts, Refusal> {
    // A number that the call forgets to write is a difference.
    let mut place = UNSET;
    let mut counts = [UNSET; 5];
    let [total, skipped, features, judged, unjudged] = &mut counts;
    // SAFETY: the call reads `length` bytes from `listing` and writes one number through each pointer.
    let rule = unsafe {
        dreichnook_check(
            input.as_ptr(),
            input.len(),
            &mut place,
            total,
            skipped,
            features,
            judged,
            unjudged,
        )
    };
    checked(rule, place, counts)
}

/// The numbers of a check in the referee's form.
fn checked(rule: u32, place: u64, counts: [u64; 5]) -> Result<Counts, Refusal> {
    let [total, skipped, features, judged, unjudged] = counts;
    let at = usize::try_from(place).unwrap_or(usize::MAX);
    match (rule, place, counts) {
        (0, 0, _) => Ok(Counts {
            total,
            skipped,
            features,
            judged,
            unjudged,
        }),
        (1.., _, [0, 0, 0, 0, 0]) => Err(Refusal { rule, place: at }),
        _ => Err(Refusal {
            rule: u32::MAX,
            place: at,
        }),
    }
}

/// The first item of a lent room, and how many there are.
fn raw<T>(room: &mut [T]) -> (*mut T, usize) {
    (room.as_mut_ptr(), room.len())
}

/// Asks the archive. What it writes into the room is seen there.
pub fn ask(lent: Lent, question: Question, room: &mut Room) -> Answer {
    let (listing, length) = (lent.listing.as_ptr(), lent.listing.len());
    let mut place = UNSET;
    let at = &mut place;
    let (mut a, mut b, mut c, mut d, mut e) = (UNSET, UNSET, UNSET, UNSET, UNSET);
    let mut byte = UNSET_BYTE;
    // SAFETY: each call reads the bytes of the listing and of the index by their lengths, writes within the lent room, whose
    // size it is told, and one number through each other pointer.
    let (number, shown) = unsafe {
        match question {
            Question::Check => {
                let number =
                    dreichnook_check(listing, length, at, &mut a, &mut b, &mut c, &mut d, &mut e);
                (number, shown([a, b, c, d, e]))
            }
            Question::Index => {
                let (out, size) = raw(room.bytes());
                let number = dreichnook_index(listing, length, out, size, at, &mut a);
                (number, shown([a]))
            }
            Question::IndexCheck => {
                let index = lent.index.unwrap_or_default();
                let (index, index_length) = (index.as_ptr(), index.len());
                let number = dreichnook_index_check(listing, length, index, index_length, at);
                (number, shown([]))
            }
            Question::Sequence(k) => {
                let number = sequence(lent, k, at, &mut byte, &mut a, &mut b);
                (number, shown([u64::from(byte), a, b]))
            }
            Question::Feature(k, f) => {
                let (out, size) = raw(room.numbers());
                let number = feature(
                    lent, k, f, out, size, at, &mut a, &mut b, &mut c, &mut d, &mut byte, &mut e,
                );
                (number, shown([a, b, c, d, u64::from(byte), e]))
            }
            Question::Qualifier(k, f, q) => {
                let number =
                    qualifier(lent, k, f, q, at, &mut a, &mut b, &mut byte, &mut c, &mut d);
                (number, shown([a, b, u64::from(byte), c, d]))
            }
            Question::Translation(k, f) => {
                let (out, size) = raw(room.bytes());
                let number = translation(lent, k, f, out, size, at, &mut a);
                (number, shown([a]))
            }
            Question::Translations(k) => {
                let (out, size) = raw(room.bytes());
                let number = translations(lent, k, out, size, at, &mut a);
                (number, shown([a]))
            }
        }
    };
    Answer {
        number,
        place,
        shown,
    }
}

#[cfg(test)]
mod tests {
    use super::*;

    #[test]
    fn contradicting_numbers_are_no_verdict() {
        let refused = |rule, place| Err(Refusal { rule, place });
        let counts = Counts {
            total: 1,
            skipped: 2,
            features: 3,
            judged: 4,
            unjudged: 5,
        };
        assert_eq!(checked(0, 0, [1, 2, 3, 4, 5]), Ok(counts));
        assert_eq!(checked(18, 7, [0; 5]), refused(18, 7));
        assert_eq!(checked(18, 7, [0, 0, 0, 0, 1]), refused(u32::MAX, 7));
        assert_eq!(checked(0, 7, [1, 2, 3, 4, 5]), refused(u32::MAX, 7));
    }
}
