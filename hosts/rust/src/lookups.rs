//! The lookups, each in one piece for a listing alone and for one with an index beside it.

use crate::c;
use crate::{Feature, Kind, Operator, Part, Qualifier, Refusal, Sequence, Span, LIMIT};

/// A listing to look things up in, alone ([`Listing`](crate::Listing)) or with an index beside it
/// ([`Listing::with_index`](crate::Listing::with_index)). What is shown is part of the listing, never of the index.
#[derive(Clone, Copy, Debug)]
pub struct Lookups<'a, 'i> {
    pub(crate) listing: &'a [u8],
    pub(crate) index: Option<&'i [u8]>,
}

/// Asks the function of this name, or that of the second name, which takes an index behind the listing.
macro_rules! ask {
    ($lookups:ident, $alone:ident | $indexed:ident, $($argument:expr),*) => {{
        let Lookups { listing, index } = *$lookups;
        // SAFETY: a slice gives a pointer that isn't null, also when it is empty, with its exact length. The functions
        // read the listing and the index, write into `out` no further than its room and one number through each
        // reference, and keep no pointer. Rust's borrows see to it that nothing overlaps.
        unsafe {
            let (at, length) = (listing.as_ptr(), listing.len());
            match index {
                None => c::$alone(at, length, $($argument),*),
                Some(index) => c::$indexed(at, length, index.as_ptr(), index.len(), $($argument),*),
            }
        }
    }};
}

impl<'a> Lookups<'a, '_> {
    /// The kind and the residues of a sequence.
    pub fn sequence(&self, sequence: u64) -> Result<Sequence<'a>, Refusal> {
        let (mut place, mut kind, mut start, mut size) = (0, 0, 0, 0);
        let number = ask!(
            self,
            dreichnook_sequence | dreichnook_indexed_sequence,
            sequence,
            &mut place,
            &mut kind,
            &mut start,
            &mut size
        );
        answered(number, place)?;
        let kind = Kind::numbered(kind.into()).expect("the library answers with a kind");
        let residues = self.part(start, size);
        Ok(Sequence { kind, residues })
    }

    /// The key, the location, its operator and its spans, all of one feature.
    pub fn feature(&self, sequence: u64, feature: u64) -> Result<Feature<'a>, Refusal> {
        let mut shown = None;
        let spans = grown(|out| {
            let lent = self.feature_into(sequence, feature, out)?;
            shown = Some((lent.key, lent.location, lent.operator));
            Ok(lent.spans.len())
        })?;
        let (key, location, operator) = shown.expect("spans come with the parts");
        Ok(Feature {
            key,
            location,
            operator,
            spans,
        })
    }

    /// The same, with the spans written to the front of `out`; the rest stays as it was. A location of n bytes has at most
    /// n / 2 + 1 of them. Where they don't fit, all is refused with 34: no part is shown, and nothing is written.
    pub fn feature_into<'o>(
        &self,
        sequence: u64,
        feature: u64,
        out: &'o mut [Span],
    ) -> Result<Feature<'a, &'o [Span]>, Refusal> {
        let (mut place, mut key_start, mut key_size) = (0, 0, 0);
        let (mut location_start, mut location_size) = (0, 0);
        let (mut operator, mut count) = (0, 0);
        // A `Span` is three u32 one after another.
        let number = ask!(
            self,
            dreichnook_feature | dreichnook_indexed_feature,
            sequence,
            feature,
            out.as_mut_ptr().cast(),
            3 * out.len(),
            &mut place,
            &mut key_start,
            &mut key_size,
            &mut location_start,
            &mut location_size,
            &mut operator,
            &mut count
        );
        answered(number, place)?;
        let operator = match operator {
            0 => Operator::None,
            1 => Operator::Join,
            2 => Operator::Order,
            other => panic!("the library answered with operator {other}"),
        };
        Ok(Feature {
            key: self.part(key_start, key_size),
            location: self.part(location_start, location_size),
            operator,
            spans: &out[..in_memory(count)],
        })
    }

    /// The name and the value of a qualifier.
    pub fn qualifier(
        &self,
        sequence: u64,
        feature: u64,
        qualifier: u64,
    ) -> Result<Qualifier<'a>, Refusal> {
        let (mut place, mut name_start, mut name_size) = (0, 0, 0);
        let (mut present, mut value_start, mut value_size) = (0, 0, 0);
        let number = ask!(
            self,
            dreichnook_qualifier | dreichnook_indexed_qualifier,
            sequence,
            feature,
            qualifier,
            &mut place,
            &mut name_start,
            &mut name_size,
            &mut present,
            &mut value_start,
            &mut value_size
        );
        answered(number, place)?;
        let name = self.part(name_start, name_size);
        let value = (present == 1).then(|| self.part(value_start, value_size));
        Ok(Qualifier { name, value })
    }

    /// The translation of a judged CDS. One of more than [`LIMIT`] letters, which only a join with repeated members has,
    /// is refused with 34; [`Lookups::translation_into`] takes it into larger room.
    pub fn translation(&self, sequence: u64, feature: u64) -> Result<Vec<u8>, Refusal> {
        grown(|out| Ok(self.translation_into(sequence, feature, out)?.len()))
    }

    /// The same, written to the front of `out`; the rest stays as it was.
    pub fn translation_into<'o>(
        &self,
        sequence: u64,
        feature: u64,
        out: &'o mut [u8],
    ) -> Result<&'o [u8], Refusal> {
        let (mut place, mut size) = (0, 0);
        let number = ask!(
            self,
            dreichnook_translation | dreichnook_indexed_translation,
            sequence,
            feature,
            out.as_mut_ptr(),
            out.len(),
            &mut place,
            &mut size
        );
        answered(number, place)?;
        Ok(&out[..in_memory(size)])
    }

    /// The translations of all CDS features of a sequence, each closed by byte 10; `-` stands for one that is unjudged or
    /// has a stop inside. More than [`LIMIT`] bytes are refused with 34; [`Lookups::translations_into`] takes them.
    pub fn translations(&self, sequence: u64) -> Result<Vec<u8>, Refusal> {
        grown(|out| Ok(self.translations_into(sequence, out)?.len()))
    }

    /// The same, written to the front of `out`; the rest stays as it was.
    pub fn translations_into<'o>(
        &self,
        sequence: u64,
        out: &'o mut [u8],
    ) -> Result<&'o [u8], Refusal> {
        let (mut place, mut size) = (0, 0);
        let number = ask!(
            self,
            dreichnook_translations | dreichnook_indexed_translations,
            sequence,
            out.as_mut_ptr(),
            out.len(),
            &mut place,
            &mut size
        );
        answered(number, place)?;
        Ok(&out[..in_memory(size)])
    }

    fn part(&self, start: u64, size: u64) -> Part<'a> {
        Part::of(self.listing, in_memory(start), in_memory(size))
    }
}

pub fn answered(number: u32, place: u64) -> Result<(), Refusal> {
    match number {
        0 => Ok(()),
        number => Err(Refusal { number, place }),
    }
}

/// A place or a size within lent memory, which a usize can count.
pub fn in_memory(number: u64) -> usize {
    number as usize
}

/// An answer of unknown size: asks with more room, up to [`LIMIT`] elements, until it suffices. The spans of a location
/// always do, since each takes two bytes of the listing or more.
fn grown<T: Clone + Default>(
    mut ask: impl FnMut(&mut [T]) -> Result<usize, Refusal>,
) -> Result<Vec<T>, Refusal> {
    // Each question costs a whole check, so it starts with enough for most, and grows in few steps.
    let mut room = 4_096;
    loop {
        let mut out = vec![T::default(); room];
        match ask(&mut out) {
            Ok(count) => {
                out.truncate(count);
                return Ok(out);
            }
            Err(refusal) if refusal.number == Refusal::NO_ROOM && room < LIMIT => room *= 16,
            Err(refusal) => return Err(refusal),
        }
    }
}
