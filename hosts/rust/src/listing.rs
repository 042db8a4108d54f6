//! Some bytes to ask about: the verdict on them, and their index.

use crate::c;
use crate::lookups::{answered, in_memory};
use crate::{Counts, Index, Lookups, Refusal, LIMIT};
use std::ops::Deref;

/// Some bytes to ask about. The lookups are those of [`Lookups`].
#[derive(Clone, Copy, Debug)]
pub struct Listing<'a> {
    lookups: Lookups<'a, 'static>,
}

impl<'a> Deref for Listing<'a> {
    type Target = Lookups<'a, 'static>;

    fn deref(&self) -> &Self::Target {
        &self.lookups
    }
}

// SAFETY, for every call below: as for the lookups.
impl<'a> Listing<'a> {
    pub fn new(bytes: &'a [u8]) -> Listing<'a> {
        let lookups = Lookups {
            listing: bytes,
            index: None,
        };
        Listing { lookups }
    }

    /// Whether the listing is accepted, and what it then holds.
    pub fn check(&self) -> Result<Counts, Refusal> {
        let (mut place, mut counts) = (0, Counts::default());
        let number = unsafe {
            c::dreichnook_check(
                self.listing.as_ptr(),
                self.listing.len(),
                &mut place,
                &mut counts.total,
                &mut counts.skipped,
                &mut counts.features,
                &mut counts.judged,
                &mut counts.unjudged,
            )
        };
        answered(number, place)?;
        Ok(counts)
    }

    /// The index of the listing, from which the places of all sequences and features can be read.
    pub fn index(&self) -> Result<Index<'a>, Refusal> {
        // It always fits; see DREICHNOOK_INDEX_ROOM in the header. What is longer than the limit has none.
        let mut out = vec![0; self.listing.len().min(LIMIT) / 4];
        let size = self.index_into(&mut out)?.len();
        out.truncate(size);
        Ok(Index::made(self.listing, out))
    }

    /// Its bytes, written to the front of `out`; the rest stays as it was. Room for a quarter of the listing suffices.
    pub fn index_into<'o>(&self, out: &'o mut [u8]) -> Result<&'o [u8], Refusal> {
        let (mut place, mut size) = (0, 0);
        let number = unsafe {
            c::dreichnook_index(
                self.listing.as_ptr(),
                self.listing.len(),
                out.as_mut_ptr(),
                out.len(),
                &mut place,
                &mut size,
            )
        };
        answered(number, place)?;
        Ok(&out[..in_memory(size)])
    }

    /// Whether these bytes are the listing's index; others are refused with 50.
    pub fn index_check(&self, index: &[u8]) -> Result<(), Refusal> {
        let mut place = 0;
        let number = unsafe {
            c::dreichnook_index_check(
                self.listing.as_ptr(),
                self.listing.len(),
                index.as_ptr(),
                index.len(),
                &mut place,
            )
        };
        answered(number, place)
    }

    /// The lookups with an index beside the listing, of any bytes. Each is refused with 50 where [`Listing::index_check`]
    /// is; else it answers as the one without an index does.
    pub fn with_index<'i>(&self, index: &'i [u8]) -> Lookups<'a, 'i> {
        Lookups {
            listing: self.listing,
            index: Some(index),
        }
    }
}
