//! A listing that was checked once, document 01's "What may be asked", and the index of document 02.

use crate::cds;
use crate::coding::Coding;
use crate::index;
use crate::layout::layout;
use crate::location::{location, Location, Operator};
use crate::text::Part;
use crate::tree::{Feature, Sequence, Tree};
use crate::values::{broken_values, is_skipped, Broken, Kind};

/// A refusal by rule number and place.
#[derive(Clone, Copy, Debug, PartialEq, Eq)]
pub struct Refusal {
    pub rule: u32,
    pub place: usize,
}

impl Refusal {
    /// The refusals of a question carry place 0.
    const fn of_question(rule: u32) -> Refusal {
        Refusal { rule, place: 0 }
    }
}

const NO_SEQUENCE: Refusal = Refusal::of_question(30);
const SKIPPED: Refusal = Refusal::of_question(31);
const NO_FEATURE: Refusal = Refusal::of_question(32);
const NO_QUALIFIER: Refusal = Refusal::of_question(33);
const NO_ROOM: Refusal = Refusal::of_question(34);
const NOT_A_CDS: Refusal = Refusal::of_question(35);
const UNJUDGED: Refusal = Refusal::of_question(36);
const STOP_INSIDE: Refusal = Refusal::of_question(37);
/// The refusal of an index that isn't the listing's; it carries a place.
const OTHER_INDEX: u32 = 50;

/// What the check counts in an accepted listing.
#[derive(Clone, Copy, Debug, Default, PartialEq, Eq)]
pub struct Counts {
    pub total: u64,
    pub skipped: u64,
    pub features: u64,
    pub judged: u64,
    pub unjudged: u64,
}

/// The outcome of a check in the lines of document 01's program.
pub fn verdict_lines(outcome: Result<Counts, Refusal>) -> String {
    match outcome {
        Ok(counts) => format!(
            "verdict accepted\ntotal {}\nskipped {}\nfeatures {}\njudged {}\nunjudged {}\n",
            counts.total, counts.skipped, counts.features, counts.judged, counts.unjudged
        ),
        Err(Refusal { rule, place }) => {
            format!("verdict refused\nrule {rule}\nplace {place}\n")
        }
    }
}

/// The answer about a sequence.
#[derive(Clone, Copy, Debug, PartialEq, Eq)]
pub struct SequenceAnswer {
    pub kind: Kind,
    pub residues: Part,
}

/// The answer about a feature; its spans are written to lent numbers.
#[derive(Clone, Copy, Debug, PartialEq, Eq)]
pub struct FeatureAnswer {
    pub key: Part,
    pub location: Part,
    pub operator: Operator,
    pub count: u64,
}

/// The answer about a qualifier; the value's part is empty if absent.
#[derive(Clone, Copy, Debug, PartialEq, Eq)]
pub struct QualifierAnswer {
    pub name: Part,
    pub has_value: bool,
    pub value: Part,
}

/// Every broken value rule in order, or the refusal by rule 1 or 2.
pub fn broken(listing: &[u8]) -> Result<Vec<Broken>, Refusal> {
    layout(listing)?;
    let tree = Tree::new(listing);
    Ok(broken_values(listing, &tree).into_iter().collect())
}

/// Some bytes with the outcome of their check.
pub struct Listing<'a> {
    bytes: &'a [u8],
    outcome: Result<Accepted, Refusal>,
}

struct Accepted {
    tree: Tree,
    counts: Counts,
}

/// One sequence of an accepted listing that isn't skipped.
#[derive(Clone, Copy)]
struct Known<'a> {
    bytes: &'a [u8],
    kind: Kind,
    sequence: &'a Sequence,
}

impl<'a> Listing<'a> {
    /// Checks the bytes.
    pub fn new(bytes: &'a [u8]) -> Listing<'a> {
        Listing {
            bytes,
            outcome: accept(bytes),
        }
    }

    /// Accepted with its counts, or refused.
    pub fn check(&self) -> Result<Counts, Refusal> {
        self.accepted().map(|accepted| accepted.counts)
    }

    /// The k-th sequence's kind and residues.
    pub fn sequence(&self, k: u64) -> Result<SequenceAnswer, Refusal> {
        let known = self.known(k)?;
        Ok(SequenceAnswer {
            kind: known.kind,
            residues: known.sequence.residues.part,
        })
    }

    /// The k-th sequence's f-th feature, with its spans written as triples to the front of `out`.
    pub fn feature(&self, k: u64, f: u64, out: &mut [u32]) -> Result<FeatureAnswer, Refusal> {
        let known = self.known(k)?;
        let feature = known.feature(f)?;
        let location = known.location(feature);
        let spans = location.spans.expect("rule 25 holds");
        let room = out.get_mut(..3 * spans.len()).ok_or(NO_ROOM)?;
        for (triple, span) in room.chunks_mut(3).zip(&spans) {
            triple.copy_from_slice(&[span.first, span.last, span.marks]);
        }
        Ok(FeatureAnswer {
            key: feature.key.part,
            location: feature.location.part,
            operator: location.operator,
            count: spans.len() as u64,
        })
    }

    /// The name and value of that feature's q-th qualifier.
    pub fn qualifier(&self, k: u64, f: u64, q: u64) -> Result<QualifierAnswer, Refusal> {
        let feature = self.known(k)?.feature(f)?;
        let qualifier = numbered(&feature.qualifiers, q).ok_or(NO_QUALIFIER)?;
        Ok(QualifierAnswer {
            name: qualifier.name.part,
            has_value: qualifier.value.is_some(),
            value: qualifier.value.unwrap_or_default().part,
        })
    }

    /// That feature's translation, written to the front of `out`; gives its length.
    pub fn translation(&self, k: u64, f: u64, out: &mut [u8]) -> Result<u64, Refusal> {
        let known = self.known(k)?;
        let feature = known.feature(f)?;
        if !cds::is_cds(known.bytes, known.kind, feature) {
            return Err(NOT_A_CDS);
        }
        let coding = known.coding(feature).ok_or(UNJUDGED)?;
        let length = coding.length().map_err(|_| STOP_INSIDE)?;
        write(out, length, coding.letters().flatten())
    }

    /// All translations of the k-th sequence, written to the front of `out`.
    pub fn translations(&self, k: u64, out: &mut [u8]) -> Result<u64, Refusal> {
        let known = self.known(k)?;
        let features = known.sequence.features.iter();
        let mut length = 0;
        let mut lines = Vec::new();
        for cds in features.filter(|feature| cds::is_cds(known.bytes, known.kind, feature)) {
            let coding = known.coding(cds);
            let letters = coding.as_ref().and_then(|coding| coding.length().ok());
            // An unjudged CDS and one with a stop inside give `-`.
            length += letters.unwrap_or(1) + 1;
            lines.push(coding.filter(|_| letters.is_some()));
        }
        write(out, length, lines.iter().flat_map(line))
    }

    /// The index, written to the front of `out`; gives its length.
    pub fn index(&self, out: &mut [u8]) -> Result<u64, Refusal> {
        let index = self.made_index()?;
        write(out, index.len() as u64, index.into_iter())
    }

    /// Takes an index only if it is the one that the maker would write.
    pub fn index_check(&self, index: &[u8]) -> Result<(), Refusal> {
        let made = self.made_index()?;
        match index::parting(index, &made) {
            Some(place) => Err(Refusal {
                rule: OTHER_INDEX,
                place,
            }),
            None => Ok(()),
        }
    }

    /// The listing for lookups with an index: "Lookups with an index first run that checker. After it they equal the plain lookups."
    pub fn indexed(&self, index: &[u8]) -> Result<&Listing<'a>, Refusal> {
        self.index_check(index)?;
        Ok(self)
    }

    /// The index that the maker would write, if it had room.
    pub fn made_index(&self) -> Result<Vec<u8>, Refusal> {
        let sequences = self.accepted()?.tree.sequences.iter();
        let bodies: Vec<_> = sequences
            .map(|sequence| index::body(Kind::of(self.bytes, sequence), sequence))
            .collect();
        Ok(index::index(&bodies))
    }

    fn accepted(&self) -> Result<&Accepted, Refusal> {
        self.outcome.as_ref().map_err(|&refusal| refusal)
    }

    /// The k-th sequence, unless there is none or it is skipped.
    fn known(&self, k: u64) -> Result<Known<'_>, Refusal> {
        let sequence = numbered(&self.accepted()?.tree.sequences, k).ok_or(NO_SEQUENCE)?;
        if is_skipped(self.bytes, sequence) {
            return Err(SKIPPED);
        }
        Ok(Known {
            bytes: self.bytes,
            kind: Kind::of(self.bytes, sequence).expect("rule 16 holds"),
            sequence,
        })
    }
}

impl<'a> Known<'a> {
    fn feature(&self, f: u64) -> Result<&'a Feature, Refusal> {
        numbered(&self.sequence.features, f).ok_or(NO_FEATURE)
    }

    fn location(&self, feature: &Feature) -> Location {
        let text: Vec<u8> = feature.location.characters(self.bytes).collect();
        location(&text, self.sequence.residue_count).expect("rule 24 holds")
    }

    /// The coding residues of a CDS, or nothing if it is unjudged.
    fn coding(&self, cds: &Feature) -> Option<Coding<'a>> {
        let location = self.location(cds);
        let is_judged = cds::is_judged(self.bytes, cds, &location);
        is_judged.then(|| {
            Coding::new(
                self.sequence.residues.part.of(self.bytes),
                location.spans.expect("rule 25 holds"),
                cds::codon_start(self.bytes, cds).expect("rule 27 holds"),
            )
        })
    }
}

/// One CDS's part of the answer with all translations.
fn line<'a>(coding: &'a Option<Coding>) -> Box<dyn Iterator<Item = u8> + 'a> {
    match coding {
        Some(coding) => Box::new(coding.letters().flatten().chain([b'\n'])),
        None => Box::new([b'-', b'\n'].into_iter()),
    }
}

/// Writes an answer of this length to the front of `out`, if there is room.
fn write(out: &mut [u8], length: u64, answer: impl Iterator<Item = u8>) -> Result<u64, Refusal> {
    if length > out.len() as u64 {
        return Err(NO_ROOM);
    }
    for (to, byte) in out.iter_mut().zip(answer) {
        *to = byte;
    }
    Ok(length)
}

/// The item of this number; "all numbers count from 1".
fn numbered<T>(items: &[T], number: u64) -> Option<&T> {
    items.get(usize::try_from(number.checked_sub(1)?).ok()?)
}

/// The whole check: the layout, then the least broken rule.
fn accept(bytes: &[u8]) -> Result<Accepted, Refusal> {
    layout(bytes)?;
    let tree = Tree::new(bytes);
    if let Some(&Broken { place, rule }) = broken_values(bytes, &tree).iter().next() {
        return Err(Refusal { rule, place });
    }
    let counts = counts(bytes, &tree);
    Ok(Accepted { tree, counts })
}

/// The counts of a listing that breaks no rule.
fn counts(bytes: &[u8], tree: &Tree) -> Counts {
    let mut counts = Counts::default();
    for sequence in &tree.sequences {
        counts.total += 1;
        counts.skipped += u64::from(is_skipped(bytes, sequence));
        counts.features += sequence.features.len() as u64;
        // A skipped sequence has no moltype, hence no kind.
        if let Some(kind) = Kind::of(bytes, sequence) {
            let known = Known {
                bytes,
                kind,
                sequence,
            };
            let features = sequence.features.iter();
            for cds in features.filter(|feature| cds::is_cds(bytes, kind, feature)) {
                let is_judged = cds::is_judged(bytes, cds, &known.location(cds));
                counts.judged += u64::from(is_judged);
                counts.unjudged += u64::from(!is_judged);
            }
        }
    }
    counts
}
