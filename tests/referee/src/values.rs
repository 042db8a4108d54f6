//! Rules 10 to 29 and 40 to 42: every broken rule of a listing that is of the layout.

use crate::cds;
use crate::coding::{self, Coding};
use crate::location::location;
use crate::text::Text;
use crate::tree::{Feature, Qualifier, Sequence, Tree};
use crate::vocabulary;
use std::collections::BTreeSet;

/// The rules on values.
pub fn value_rules() -> impl Iterator<Item = u32> + Clone {
    (10..=29).chain(40..=42)
}

/// A broken rule; in order of place, and at one place of rule number.
#[derive(Clone, Copy, Debug, PartialEq, Eq, PartialOrd, Ord)]
pub struct Broken {
    pub place: usize,
    pub rule: u32,
}

/// The kind of a sequence, by its moltype.
#[derive(Clone, Copy, Debug, PartialEq, Eq)]
pub enum Kind {
    Dna = 1,
    Rna = 2,
    Aa = 3,
}

impl Kind {
    /// The kind that the sequence's moltype names, if rule 16 holds.
    pub fn of(listing: &[u8], sequence: &Sequence) -> Option<Kind> {
        [("DNA", Kind::Dna), ("RNA", Kind::Rna), ("AA", Kind::Aa)]
            .into_iter()
            .find(|(name, _)| sequence.moltype.is(listing, name))
            .map(|(_, kind)| kind)
    }
}

/// "A sequence is skipped exactly when that text is `000`."
pub fn is_skipped(listing: &[u8], sequence: &Sequence) -> bool {
    sequence.residues.is(listing, "000")
}

/// Collects every broken rule on values: 10 to 29 and 40 to 42.
pub fn broken_values(listing: &[u8], tree: &Tree) -> BTreeSet<Broken> {
    let mut judge = Judge {
        listing,
        broken: BTreeSet::new(),
    };
    judge.header(tree);
    for (number, sequence) in (1..).zip(&tree.sequences) {
        judge.sequence(number, sequence);
    }
    judge.broken
}

struct Judge<'a> {
    listing: &'a [u8],
    broken: BTreeSet<Broken>,
}

impl Judge<'_> {
    /// Notes the rule as broken at the place, unless it holds.
    fn rule(&mut self, rule: u32, place: usize, holds: bool) {
        if !holds {
            self.broken.insert(Broken { place, rule });
        }
    }

    fn is(&self, text: &Text, wanted: impl AsRef<[u8]>) -> bool {
        text.is(self.listing, wanted)
    }

    fn header(&mut self, tree: &Tree) {
        let version = &tree.dtd_version;
        self.rule(10, version.place, self.is(version, "1_2"));
        for date in &tree.dates {
            let characters: Vec<u8> = date.characters(self.listing).collect();
            self.rule(11, date.place, is_date(&characters));
        }
        for code in &tree.office_codes {
            let holds = self.is_two_of(code, |letter| letter.is_ascii_uppercase());
            self.rule(12, code.place, holds);
        }
        for code in &tree.language_codes {
            let holds = self.is_two_of(code, |letter| letter.is_ascii_lowercase());
            self.rule(13, code.place, holds);
        }
        let total = &tree.total_quantity;
        let count = tree.sequences.len().to_string();
        self.rule(14, total.place, self.is(total, count));
    }

    fn is_two_of(&self, text: &Text, belongs: impl Fn(u8) -> bool) -> bool {
        let mut letters = text.characters(self.listing);
        let two = [letters.next(), letters.next()];
        two.into_iter().all(|letter| letter.map_or(false, &belongs)) && letters.next().is_none()
    }

    fn sequence(&mut self, number: usize, sequence: &Sequence) {
        self.rule(
            15,
            sequence.id.place,
            self.is(&sequence.id, number.to_string()),
        );
        if is_skipped(self.listing, sequence) {
            self.skipped(sequence);
            return;
        }
        let kind = Kind::of(self.listing, sequence);
        let length = sequence.residue_count;
        self.rule(16, sequence.moltype.place, kind.is_some());
        self.rule(
            17,
            sequence.division.place,
            self.is(&sequence.division, "PAT"),
        );
        // A number doesn't begin with `0`, so no text is the number 0.
        let length_holds = length > 0 && self.is(&sequence.length, length.to_string());
        self.rule(20, sequence.length.place, length_holds);

        let symbols_hold = kind.map_or(false, |kind| self.residues(kind, sequence));
        if let Some(kind) = kind {
            self.source(kind, sequence);
            for feature in &sequence.features {
                self.vocabulary(kind, feature);
            }
        }
        for feature in &sequence.features {
            self.feature(kind, symbols_hold, sequence, feature);
        }
    }

    /// Rule 29.
    fn skipped(&mut self, sequence: &Sequence) {
        let texts = [&sequence.length, &sequence.moltype, &sequence.division];
        let is_bare = texts.iter().all(|text| self.is(text, ""))
            && !sequence.has_other_seqids
            && sequence.table.is_none();
        self.rule(29, sequence.residues.place, is_bare);
    }

    /// Rules 18 and 19; says whether 18 holds.
    fn residues(&mut self, kind: Kind, sequence: &Sequence) -> bool {
        let text = &sequence.residues;
        let (is_symbol, unknown, least): (fn(u8) -> bool, u8, usize) = match kind {
            Kind::Aa => (|residue| residue.is_ascii_uppercase(), b'X', 4),
            Kind::Dna | Kind::Rna => (coding::is_symbol, b'n', 10),
        };
        let mut placed = text.placed_characters(self.listing);
        let foreign = placed.find(|&(_, residue)| !is_symbol(residue));
        let residues = text.characters(self.listing);
        let known = residues.filter(|&residue| residue != unknown).count();
        if let Some((place, _)) = foreign {
            self.rule(18, place, false);
        }
        self.rule(19, text.place, known >= least);
        foreign.is_none()
    }

    /// Rules 21 to 23.
    fn source(&mut self, kind: Kind, sequence: &Sequence) {
        let [source, organism, mol_type] = match kind {
            Kind::Aa => ["SOURCE", "ORGANISM", "MOL_TYPE"],
            Kind::Dna | Kind::Rna => ["source", "organism", "mol_type"],
        };
        let sources: Vec<&Feature> = sequence
            .features
            .iter()
            .filter(|feature| self.is(&feature.key, source))
            .collect();
        self.rule(
            21,
            sequence.table.unwrap_or(sequence.residues.place),
            sources.len() == 1,
        );
        if let [source] = sources[..] {
            let has_one = |name| cds::named(self.listing, source, name).count() == 1;
            let has_both = has_one(organism) && has_one(mol_type);
            let whole = format!("1..{}", sequence.residue_count);
            self.rule(22, source.key.place, has_both);
            self.rule(23, source.location.place, self.is(&source.location, whole));
        }
    }

    /// Rules 40 to 42.
    fn vocabulary(&mut self, kind: Kind, feature: &Feature) {
        let listing = self.listing;
        let is_named = |text: &Text, name: &str| {
            vocabulary::spellings(kind, name).any(|spelling| text.is(listing, spelling))
        };
        let mut keys = vocabulary::keys(kind).iter();
        let key = keys.find(|key| is_named(&feature.key, key.name));
        self.rule(40, feature.key.place, key.is_some());
        if let Some(key) = key {
            let qualifiers = &feature.qualifiers;
            for Qualifier { name: text, .. } in qualifiers {
                let is_allowed = key.allowed().any(|name| is_named(text, name));
                self.rule(41, text.place, is_allowed);
            }
            let is_there = |name: &str| qualifiers.iter().any(|q| is_named(&q.name, name));
            self.rule(42, feature.key.place, key.required().all(is_there));
        }
    }

    /// Rules 24 to 28.
    fn feature(
        &mut self,
        kind: Option<Kind>,
        symbols_hold: bool,
        sequence: &Sequence,
        feature: &Feature,
    ) {
        let place = feature.location.place;
        let text: Vec<u8> = feature.location.characters(self.listing).collect();
        let location = location(&text, sequence.residue_count);
        self.rule(24, place, location.is_some());
        if let Some(location) = &location {
            self.rule(25, place, location.spans.is_some());
            self.rule(
                26,
                place,
                kind != Some(Kind::Aa) || !location.has_complement,
            );
        }
        let is_cds = kind.map_or(false, |kind| cds::is_cds(self.listing, kind, feature));
        if !is_cds {
            return;
        }
        let codon_start = cds::codon_start(self.listing, feature);
        self.rule(27, feature.key.place, codon_start.is_some());
        if let (true, Some(location), Some(codon_start)) = (symbols_hold, location, codon_start) {
            let is_judged = cds::is_judged(self.listing, feature, &location);
            if let (true, Some(spans)) = (is_judged, location.spans) {
                // Rule 18 holds, so the residues have no entities and read as they stand.
                let residues = sequence.residues.part.of(self.listing);
                self.translations(feature, &Coding::new(residues, spans, codon_start));
            }
        }
    }

    /// Rule 28, where it is judged.
    fn translations(&mut self, cds: &Feature, coding: &Coding) {
        for qualifier in cds::named(self.listing, cds, "translation") {
            let (place, holds) = match qualifier.value {
                Some(value) => (value.place, coding.reads_as(value.characters(self.listing))),
                None => (qualifier.name.place, false),
            };
            self.rule(28, place, holds);
        }
    }
}

/// Whether this is a real Gregorian CCYY-MM-DD of the years 0001 to 9999.
fn is_date(text: &[u8]) -> bool {
    let digits = |range: std::ops::Range<usize>| {
        text[range].iter().try_fold(0, |value, digit| {
            digit
                .is_ascii_digit()
                .then(|| value * 10 + u32::from(digit - b'0'))
        })
    };
    if text.len() != 10 || text[4] != b'-' || text[7] != b'-' {
        return false;
    }
    match (digits(0..4), digits(5..7), digits(8..10)) {
        (Some(year), Some(month), Some(day)) => {
            year >= 1 && day >= 1 && day <= days_of_month(year, month)
        }
        _ => false,
    }
}

/// The days of a month; none for a month that doesn't exist.
fn days_of_month(year: u32, month: u32) -> u32 {
    let is_leap = year % 4 == 0 && (year % 100 != 0 || year % 400 == 0);
    match month {
        1 | 3 | 5 | 7 | 8 | 10 | 12 => 31,
        4 | 6 | 9 | 11 => 30,
        2 if is_leap => 29,
        2 => 28,
        _ => 0,
    }
}
