//! Everything of an accepted listing, sequence by sequence.

use crate::answer::Answer;
use crate::json::{Fields, Json};
use dreichnook::{Feature, Index, Listing, Part, Qualifier, Refusal, Sequence};

/// A sequence with its features.
pub struct ShownSequence<'a> {
    pub number: u64,
    /// None if it is skipped.
    pub sequence: Option<Sequence<'a>>,
    pub features: Vec<ShownFeature<'a>>,
}

/// A feature with its qualifiers.
pub struct ShownFeature<'a> {
    pub feature: Feature<'a>,
    /// None where it isn't a CDS of DNA or RNA.
    pub translation: Option<Result<Vec<u8>, Refusal>>,
    pub qualifiers: Vec<Qualifier<'a>>,
}

/// The sequences of an accepted listing, from one number to another. They and the keys of their features are read off one
/// index. Each question for a feature, a translation or a qualifier checks the whole listing anew, so the walk has a purse,
/// counted in bytes that are read; when it is empty, the walk stops amid a sequence.
pub struct Walk<'a> {
    listing: Listing<'a>,
    index: Index<'a>,
    next: u64,
    last: u64,
    price: u64,
    /// None: the walk goes to its end, whatever that costs.
    purse: Option<u64>,
    stopped_amid: Option<u64>,
}

/// A few seconds.
const PURSE: u64 = 2 << 30;
/// What the shortest question costs.
const LEAST: u64 = 4_096;

impl<'a> Walk<'a> {
    /// `limit` sequences from `from` on, in full; without a limit, as many as the purse pays for. Refused where there is no
    /// sequence `from`.
    pub fn new(bytes: &'a [u8], from: u64, limit: Option<u64>) -> Result<Walk<'a>, Refusal> {
        let listing = Listing::new(bytes);
        let index = listing.index()?;
        unless(Refusal::SKIPPED, index.sequence(from))?;
        let total = index.total();
        Ok(Walk {
            listing,
            index,
            next: from,
            last: limit.map_or(total, |limit| total.min((from - 1).saturating_add(limit))),
            price: bytes.len() as u64 + LEAST,
            purse: if limit.is_some() { None } else { Some(PURSE) },
            stopped_amid: None,
        })
    }

    /// The sequence that isn't shown to its end.
    pub fn stopped_amid(&self) -> Option<u64> {
        self.stopped_amid
    }

    /// The sequence to go on with, where not all are shown to their end.
    pub fn next_number(&self) -> Option<u64> {
        let next = self.stopped_amid.unwrap_or(self.next);
        Some(next).filter(|&next| next <= self.index.total())
    }

    fn pays(&mut self, questions: u64) -> bool {
        let left = match self.purse {
            Some(purse) => purse.checked_sub(questions * self.price),
            None => return true,
        };
        self.purse = Some(left.unwrap_or(0));
        left.is_some()
    }

    fn sequence(&mut self, k: u64) -> Result<ShownSequence<'a>, Refusal> {
        let sequence = unless(Refusal::SKIPPED, self.index.sequence(k))?;
        let mut features = Vec::new();
        if sequence.is_some() {
            let placed: Vec<_> = self.index.features(k)?.collect();
            for (j, parts) in (1..).zip(placed) {
                // With its translation, so that none is shown without.
                if !self.pays(1 + u64::from(may_have_translation(parts.key))) {
                    self.stopped_amid = Some(k);
                    break;
                }
                features.push(self.feature(k, j)?);
            }
        }
        Ok(ShownSequence {
            number: k,
            sequence,
            features,
        })
    }

    fn feature(&mut self, k: u64, j: u64) -> Result<ShownFeature<'a>, Refusal> {
        let feature = self.listing.feature(k, j)?;
        let translation = if may_have_translation(feature.key) {
            let said = self.listing.translation(k, j);
            Some(said).filter(|said| !refused_with(Refusal::NOT_A_CDS, said))
        } else {
            None
        };
        let mut qualifiers = Vec::new();
        for i in 1.. {
            if !self.pays(1) {
                self.stopped_amid = Some(k);
                break;
            }
            match unless(Refusal::NO_QUALIFIER, self.listing.qualifier(k, j, i))? {
                Some(qualifier) => qualifiers.push(qualifier),
                None => break,
            }
        }
        Ok(ShownFeature {
            feature,
            translation,
            qualifiers,
        })
    }
}

impl<'a> Iterator for Walk<'a> {
    type Item = Result<ShownSequence<'a>, Refusal>;

    fn next(&mut self) -> Option<Self::Item> {
        if self.stopped_amid.is_some() || self.next > self.last {
            return None;
        }
        let k = self.next;
        self.next += 1;
        Some(self.sequence(k))
    }
}

/// The library says whether it is a CDS of DNA or RNA; of other keys that is known.
fn may_have_translation(key: Part) -> bool {
    key.bytes == b"CDS"
}

/// An answer, or nothing where the refusal is the one that ends a list.
fn unless<T>(end: u32, answer: Result<T, Refusal>) -> Result<Option<T>, Refusal> {
    if refused_with(end, &answer) {
        return Ok(None);
    }
    answer.map(Some)
}

fn refused_with<T>(number: u32, answer: &Result<T, Refusal>) -> bool {
    matches!(answer, Err(refusal) if refusal.number == number)
}

impl ShownSequence<'_> {
    pub fn json(&self) -> Json {
        let mut fields: Fields = vec![("sequence", self.number.into())];
        fields.push(("skipped", Json::Bool(self.sequence.is_none())));
        if let Some(sequence) = self.sequence {
            fields.extend(Answer::Sequence(sequence).json());
            let features = self.features.iter().zip(1..);
            let features = features.map(|(feature, j)| feature.json(j)).collect();
            fields.push(("features", Json::List(features)));
        }
        Json::Object(fields)
    }
}

impl ShownFeature<'_> {
    fn json(&self, number: u64) -> Json {
        let mut fields: Fields = vec![("feature", number.into())];
        fields.extend(Answer::Feature(self.feature.clone()).json());
        match &self.translation {
            Some(Ok(letters)) => {
                let letters = String::from_utf8_lossy(letters);
                fields.push(("translation", Json::from(&*letters)));
            }
            Some(Err(refusal)) => {
                fields.push(("translation", Json::Null));
                fields.push(("refused", u64::from(refusal.number).into()));
                fields.push(("words", refusal.words().into()));
            }
            None => {}
        }
        let qualifiers = self.qualifiers.iter().zip(1u64..).map(|(qualifier, i)| {
            let mut fields: Fields = vec![("qualifier", i.into())];
            fields.extend(Answer::Qualifier(*qualifier).json());
            Json::Object(fields)
        });
        fields.push(("qualifiers", Json::List(qualifiers.collect())));
        Json::Object(fields)
    }
}

#[cfg(test)]
mod tests {
    use super::*;

    const ANNEX: &[u8] = include_bytes!("../../../tests/specimens/annex-iii.xml");

    /// The sequences shown with how many features each, where the walk stopped amid one, and what is next.
    fn walked(mut walk: Walk) -> (Vec<(u64, usize)>, Option<u64>, Option<u64>) {
        let shown = (&mut walk).map(Result::unwrap);
        let shown = shown.map(|shown| (shown.number, shown.features.len()));
        (shown.collect(), walk.stopped_amid(), walk.next_number())
    }

    fn with_purse(questions: u64) -> Walk<'static> {
        let mut walk = Walk::new(ANNEX, 3, None).unwrap();
        walk.purse = Some(questions * walk.price);
        walk
    }

    #[test]
    fn all_of_it() {
        let (shown, stopped, next) = walked(Walk::new(ANNEX, 1, None).unwrap());
        let features = shown.iter().map(|(_, features)| features).sum::<usize>();
        assert_eq!((shown.len(), features), (11, 23));
        assert_eq!((stopped, next), (None, None));
    }

    #[test]
    fn a_limit_of_sequences() {
        let limited = |from, limit| walked(Walk::new(ANNEX, from, Some(limit)).unwrap());
        assert_eq!(limited(3, 2), (vec![(3, 2), (4, 1)], None, Some(5)));
        assert_eq!(limited(11, u64::MAX), (vec![(11, 1)], None, None));
        assert_eq!(limited(1, 0), (vec![], None, Some(1)));
    }

    #[test]
    fn a_start_that_is_no_sequence() {
        for from in [0, 12, u64::MAX] {
            let refused = Walk::new(ANNEX, from, None).err().unwrap();
            assert_eq!(refused.number, Refusal::NO_SEQUENCE);
        }
        assert_eq!(walked(Walk::new(ANNEX, 7, Some(1)).unwrap()).0, [(7, 0)]);
    }

    #[test]
    fn an_empty_purse_stops_the_walk() {
        // Sequence 3 costs 1 for each feature, 1 for the CDS's translation, twice 3 for qualifiers; the next one 1 at least.
        let fourth = (vec![(3, 2), (4, 0)], Some(4), Some(4));
        assert_eq!(walked(with_purse(9)), fourth);
        assert_eq!(walked(with_purse(8)), (vec![(3, 2)], Some(3), Some(3)));
        assert_eq!(walked(with_purse(5)), (vec![(3, 1)], Some(3), Some(3)));
        assert_eq!(walked(with_purse(0)), (vec![(3, 0)], Some(3), Some(3)));
    }
}
