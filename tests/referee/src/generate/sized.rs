//! Listings of an exact size, and large ones that are traps for a slow reader.

use super::plain::{feature, listing, qualifier, sequence, sequence_of, skipped_sequence, source};
use super::rng::Rng;
use super::valid::CODONS;
use super::{Case, Expectation};
use crate::layout::LONGEST;
use crate::{Counts, Refusal};

/// What a listing of an exact size is mostly made of.
#[derive(Clone, Copy, Debug)]
pub enum Mix {
    Features,
    Sequences,
    Residues,
}

/// All mixes.
pub const MIXES: [Mix; 3] = [Mix::Features, Mix::Sequences, Mix::Residues];

/// Below this size a listing has one skipped sequence only.
pub const SMALLEST: usize = 1500;

/// A listing of exactly this size, at least 600; it is valid unless too long.
pub fn sized(mix: Mix, size: usize, seed: u64) -> Case {
    let rng = &mut Rng::new(seed);
    let mut counts = Counts::default();
    // What the mix may fill beside these sequences.
    let room = |sequences: &[String]| size - listing("", sequences).len();
    let sequences = match mix {
        _ if size < SMALLEST => {
            counts.skipped = 1;
            vec![skipped_sequence()]
        }
        Mix::Features => {
            let residues = open_frame(rng, (size / 16).min(1000));
            let mut table = source("DNA", residues.len());
            counts.features = 1;
            let room = room(&[sequence("DNA", &table, &residues)]);
            table += &filled(room, 0, &mut counts, |counts| any_feature(rng, counts)).concat();
            vec![sequence("DNA", &table, &residues)]
        }
        Mix::Sequences => {
            // The digits of their count come on top.
            let room = room(&[]) - 10;
            filled(room, TAGS, &mut counts, |counts| any_sequence(rng, counts))
        }
        Mix::Residues => {
            let feature = any_feature(rng, &mut counts);
            counts.features += 1;
            let table = |length| source("DNA", length) + &feature;
            // The number of residues has no more digits than the size, in the source and as INSDSeq_length.
            let digits = size.to_string().len();
            let length = room(&[sequence("DNA", &table(size), "")]) - digits;
            let residues = open_frame(rng, length);
            vec![sequence("DNA", &table(length), &residues)]
        }
    };
    counts.total = sequences.len() as u64;
    let title = "t".repeat(room(&sequences));
    let expectation = if size > LONGEST {
        refused(1, 0)
    } else {
        Expectation::Accepted(counts)
    };
    case(
        &format!("{mix:?} {size}"),
        listing(&title, &sequences),
        expectation,
    )
}

/// The tags of SequenceData, with a number of up to six digits.
const TAGS: usize = 60;

/// As many items as have room, each with so many bytes about it, and their counts.
fn filled(
    room: usize,
    about: usize,
    counts: &mut Counts,
    mut make: impl FnMut(&mut Counts) -> String,
) -> Vec<String> {
    let mut items = Vec::new();
    let mut left = room;
    loop {
        let mut with_next = *counts;
        let next = make(&mut with_next);
        left = match left.checked_sub(next.len() + about) {
            Some(left) => left,
            None => return items,
        };
        *counts = with_next;
        items.push(next);
    }
}

/// Every trap: valid or invalid listings of nearly the greatest size.
pub const TRAPS: [fn() -> Case; 21] = [
    right_translations,
    wrong_translations,
    wide_join,
    wide_join_without_value,
    complement_of_wide_join,
    complement_of_long_join,
    single_residue_join,
    open_complements,
    closed_complements,
    many_features,
    many_sequences,
    many_qualifiers,
    many_unknown_names,
    late_required_name,
    long_key,
    long_length,
    long_total,
    long_position,
    long_site,
    entities,
    late_foreign_residue,
];

/// Many right translations of one join with thousands of members.
fn right_translations() -> Case {
    let rng = &mut Rng::new(1);
    let (residues, letters) = codons(rng, 1000);
    let location = join((1..=3000).map(|position| position.to_string()));
    let qualifiers = qualifier("translation", letters.as_str()).repeat(14_700);
    let table = source("DNA", 3000) + &feature("CDS", &location, &qualifiers);
    let text = listing("", &[sequence("DNA", &table, &residues)]);
    case("14,700 right translations", text, one_cds())
}

/// Many translations that are wrong in their last letter.
fn wrong_translations() -> Case {
    let rng = &mut Rng::new(2);
    let (residues, letters) = codons(rng, 1000);
    let location = join((1..=3000).map(|position| position.to_string()));
    let wrong = format!("{}%", &letters[..99]);
    let qualifiers = qualifier("translation", wrong.as_str()).repeat(70_000);
    let table = source("DNA", 3000) + &feature("CDS", &location, &qualifiers);
    let text = listing("", &[sequence("DNA", &table, &residues)]);
    let place = text.find(&wrong).unwrap_or(0);
    case("70,000 wrong translations", text, refused(28, place))
}

/// A join of 700,000 times eight million residues.
fn wide_join_text(qualifiers: &str, operator: &str, close: &str) -> String {
    let residues = "atg".to_string() + &"gcc".repeat(2_666_665);
    let length = residues.len();
    let member = format!("1..{length}");
    let members = vec![member.as_str(); 700_000].join(",");
    let location = format!("{operator}({members}{close}");
    let table = source("DNA", length) + &feature("CDS", &location, qualifiers);
    listing("", &[sequence("DNA", &table, &residues)])
}

/// One letter where 1.9 million million would be right.
fn wide_join() -> Case {
    let text = wide_join_text(&qualifier("translation", "M"), "join", ")");
    let place = text.find(">M<").unwrap_or(0) + 1;
    case("one letter for a wide join", text, refused(28, place))
}

fn wide_join_without_value() -> Case {
    let text = wide_join_text("", "join", ")");
    case("wide join without translation", text, one_cds())
}

fn complement_of_wide_join() -> Case {
    let text = wide_join_text(&qualifier("translation", "G"), "complement(join", "))");
    let place = text.find(">G<").unwrap_or(0) + 1;
    case("complement of a wide join", text, refused(28, place))
}

/// A right translation over the complement of a join of 700,000 members.
fn complement_of_long_join() -> Case {
    let residues = "cataaagggcccttt";
    let members = vec!["1..3,4..6"; 350_000].join(",");
    let location = format!("complement(join({members}))");
    // Backwards and complemented, `4..6` is ttt and `1..3` is atg.
    let translation = qualifier("translation", "FM".repeat(350_000).as_str());
    let table = source("DNA", 15) + &feature("CDS", &location, &translation);
    let text = listing("", &[sequence("DNA", &table, residues)]);
    case("complement of a long join", text, one_cds())
}

/// As many members as a location can hold.
fn single_residue_join() -> Case {
    let location = join(std::iter::repeat("1".to_string()).take(8_000_000));
    let translation = qualifier("translation", "KKK");
    let table = source("RNA", 10) + &feature("CDS", &location, &translation);
    let text = listing("", &[sequence("RNA", &table, "aaaaaccccc")]);
    let place = text.find(">KKK<").unwrap_or(0) + 1;
    case("join of 8,000,000 residues", text, refused(28, place))
}

fn open_complements() -> Case {
    located("open complements", &"complement(".repeat(1_400_000), 24)
}

fn closed_complements() -> Case {
    let (open, close) = ("complement(".repeat(1_300_000), ")".repeat(1_300_000));
    located("closed complements", &format!("{open}1{close}"), 24)
}

fn long_position() -> Case {
    located("position of 16,000,000 digits", &"9".repeat(16_000_000), 25)
}

fn long_site() -> Case {
    let number = "1".repeat(8_000_000);
    located(
        "site of 16,000,000 digits",
        &format!("{number}^{number}"),
        25,
    )
}

/// A listing whose second feature has this location, which breaks the rule.
fn located(name: &str, location: &str, rule: u32) -> Case {
    let table = source("DNA", 12) + &feature("gene", location, "");
    let text = listing("", &[sequence("DNA", &table, "atgaaatgctaa")]);
    let place = text.find(location).unwrap_or(0);
    case(name, text, refused(rule, place))
}

fn many_features() -> Case {
    let mut table = source("DNA", 12);
    table += &feature("CDS", "1..12", "").repeat(140_000);
    let counts = Counts {
        total: 1,
        features: 140_001,
        judged: 140_000,
        ..Counts::default()
    };
    let text = listing("", &[sequence("DNA", &table, "atgaaatgctaa")]);
    case("140,000 features", text, Expectation::Accepted(counts))
}

fn many_sequences() -> Case {
    let table = source("AA", 4);
    let sequences = vec![sequence("AA", &table, "MKCA"); 24_000];
    let counts = Counts {
        total: 24_000,
        features: 24_000,
        ..Counts::default()
    };
    case(
        "24,000 sequences",
        listing("", &sequences),
        Expectation::Accepted(counts),
    )
}

fn many_qualifiers() -> Case {
    let qualifiers = qualifier("map", None).repeat(220_000);
    let table = source("DNA", 12) + &feature("CDS", "1..12", &qualifiers);
    let text = listing("", &[sequence("DNA", &table, "atgaaatgctaa")]);
    case("220,000 qualifiers", text, one_cds())
}

/// Names that share all but their end with an allowed one.
fn many_unknown_names() -> Case {
    let qualifiers = qualifier("gene_synonyms", None).repeat(180_000);
    let table = source("DNA", 12) + &feature("CDS", "1..12", &qualifiers);
    let text = listing("", &[sequence("DNA", &table, "atgaaatgctaa")]);
    let place = text.find("gene_synonyms").unwrap_or(0);
    case("180,000 unknown names", text, refused(41, place))
}

/// The required name comes after all others.
fn late_required_name() -> Case {
    let qualifiers = qualifier("note", None).repeat(210_000) + &qualifier("mod_base", "m5c");
    let table = source("DNA", 12) + &feature("modified_base", "1", &qualifiers);
    let counts = Counts {
        total: 1,
        features: 2,
        ..Counts::default()
    };
    let text = listing("", &[sequence("DNA", &table, "atgaaatgctaa")]);
    case("late required name", text, Expectation::Accepted(counts))
}

fn long_key() -> Case {
    let key = "CDS".to_string() + &"S".repeat(16_000_000);
    let table = source("DNA", 12) + &feature(&key, "1..12", "");
    let text = listing("", &[sequence("DNA", &table, "atgaaatgctaa")]);
    let place = text.find("CDS").unwrap_or(0);
    case("key of 16,000,000 letters", text, refused(40, place))
}

fn long_length() -> Case {
    long_number("length of 16,000,000 digits", "<INSDSeq_length>", "4", 20)
}

fn long_total() -> Case {
    long_number(
        "total of 16,000,000 digits",
        "<SequenceTotalQuantity>",
        "1",
        14,
    )
}

/// A listing with a long number in place of the right one.
fn long_number(name: &str, tag: &str, right: &str, rule: u32) -> Case {
    let digits = "1".repeat(16_000_000);
    let text = listing("", &[sequence("AA", &source("AA", 4), "MKCA")]);
    let text = text.replace(&format!("{tag}{right}<"), &format!("{tag}{digits}<"));
    let place = text.find(&digits).unwrap_or(0);
    case(name, text, refused(rule, place))
}

/// Millions of foreign residues, each written as an entity.
fn entities() -> Case {
    let count = 3_000_000;
    let residues = "&amp;".repeat(count);
    let source = source("AA", count);
    let text = listing("", &[sequence_of(count, "AA", Some(&source), &residues)]);
    let place = text.find("&amp;").unwrap_or(0);
    case("3,000,000 entities", text, refused(18, place))
}

/// One foreign residue behind millions of symbols.
fn late_foreign_residue() -> Case {
    let residues = "acgt".repeat(4_000_000) + "*";
    let source = source("DNA", residues.len());
    let text = listing("", &[sequence("DNA", &source, &residues)]);
    let place = text.find('*').unwrap_or(0);
    case(
        "foreign residue behind 16,000,000",
        text,
        refused(18, place),
    )
}

fn case(name: &str, text: String, expectation: Expectation) -> Case {
    Case {
        name: name.into(),
        bytes: text.into_bytes(),
        expectation: Some(expectation),
    }
}

fn refused(rule: u32, place: usize) -> Expectation {
    Expectation::Refused(Refusal { rule, place })
}

/// One sequence with its source and one judged CDS.
fn one_cds() -> Expectation {
    Expectation::Accepted(Counts {
        total: 1,
        features: 2,
        judged: 1,
        ..Counts::default()
    })
}

fn join(members: impl Iterator<Item = String>) -> String {
    let members: Vec<String> = members.collect();
    format!("join({})", members.join(","))
}

/// Random plain codons that are no stops, with their letters.
fn codons(rng: &mut Rng, count: usize) -> (String, String) {
    let mut residues = String::new();
    let mut letters = String::new();
    for _ in 0..count {
        let (letter, patterns) = CODONS[rng.below(20)];
        residues += &patterns[..3];
        letters.push(letter);
    }
    (residues, letters)
}

/// `atgaaatgctaa`, which gives `MKC`, and random bases up to this length.
fn open_frame(rng: &mut Rng, length: usize) -> String {
    let mut residues = "atgaaatgctaa".to_string();
    while residues.len() < length {
        residues.push(char::from(*rng.pick(b"acgtn")));
    }
    residues
}

/// Some feature of a sequence that begins with the open frame.
fn any_feature(rng: &mut Rng, counts: &mut Counts) -> String {
    counts.features += 1;
    match rng.below(4) {
        0 => {
            counts.judged += 1;
            feature("CDS", "1..12", &qualifier("translation", "MKC"))
        }
        1 => {
            counts.judged += 1;
            let qualifiers = qualifier("codon_start", "3") + &qualifier("translation", "EML");
            feature("CDS", "join(1..5,6..>12)", &qualifiers)
        }
        2 => {
            counts.unjudged += 1;
            feature("CDS", "order(<3,complement(1..12))", "")
        }
        _ => {
            let first = rng.between(1, 11);
            let location = format!("{first}^{}", first + 1);
            feature("misc_feature", &location, &qualifier("note", "a < b"))
        }
    }
}

/// Some short sequence, skipped ones too.
fn any_sequence(rng: &mut Rng, counts: &mut Counts) -> String {
    match rng.below(3) {
        0 => {
            counts.skipped += 1;
            skipped_sequence()
        }
        1 => {
            counts.features += 1;
            sequence("AA", &source("AA", 6), "MKCXXA")
        }
        _ => {
            let residues = open_frame(rng, 30);
            let mut table = source("RNA", residues.len());
            counts.features += 1;
            table += &any_feature(rng, counts);
            sequence("RNA", &table, &residues)
        }
    }
}
