//! Every question of document 01: by hand, and against what the generator knows.

use crate::report::Report;
use referee::generate::model::{Coding, Feature, Field, Sequence};
use referee::generate::{Model, Written};
use referee::hand::base::{edited, BASE};
use referee::hand::values::{GENE, SAMPLES};
use referee::{
    FeatureAnswer, Kind, Listing, Operator, Part, QualifierAnswer, Refusal, SequenceAnswer,
};
use std::fmt::Debug;

pub fn refusal(rule: u32) -> Refusal {
    Refusal { rule, place: 0 }
}

fn part(start: usize, size: usize) -> Part {
    Part { start, size }
}

/// Asks with rooms around the answer's size. A refusal must leave the lent
/// output alone; a success must write the answer to its front and nothing else.
pub fn lent<T, A>(
    report: &mut Report,
    name: &str,
    (filler, answer): (T, &[T]),
    wanted: Result<A, Refusal>,
    ask: impl Fn(&mut [T]) -> Result<A, Refusal>,
) where
    T: Copy + PartialEq,
    A: Copy + PartialEq + Debug,
{
    let size = answer.len();
    for room in [0, size.saturating_sub(1), size, size + 1, size + 9] {
        let mut out = vec![filler; room];
        let wanted = match wanted {
            Ok(_) if room < size => Err(refusal(34)),
            other => other,
        };
        let written = if wanted.is_ok() { answer } else { &[] };
        report.equal(ask(&mut out), wanted, || format!("{name}, room {room}"));
        let (front, tail) = out.split_at(written.len());
        let holds = front == written && tail.iter().all(|&item| item == filler);
        report.check(holds, || format!("{name}, lent output of {room}"));
    }
}

/// Lent bytes that are no letters.
pub const BYTE: u8 = 0xee;
/// Lent numbers that are no positions.
const NUMBER: u32 = 0xdead_beef;

/// A feature of these parts, with its operator and the numbers of its spans.
fn feature(
    [key, location]: [Part; 2],
    operator: Operator,
    numbers: &[u32],
) -> (FeatureAnswer, &[u32]) {
    let answer = FeatureAnswer {
        key,
        location,
        operator,
        count: numbers.len() as u64 / 3,
    };
    (answer, numbers)
}

fn feature_holds(
    report: &mut Report,
    listing: &Listing,
    (k, f): (u64, u64),
    wanted: Result<(FeatureAnswer, &[u32]), Refusal>,
) {
    let numbers = wanted.map_or(&[][..], |(_, numbers)| numbers);
    let answer = wanted.map(|(answer, _)| answer);
    let name = format!("feature {k} {f}");
    lent(report, &name, (NUMBER, numbers), answer, |out| {
        listing.feature(k, f, out)
    });
}

/// Of all that is wrong with a question for a feature, the first in document 01's order refuses it, and nothing is written.
/// The listing's second sequence is skipped. What refuses before the question is looked at comes first.
pub fn refusals_in_order(
    report: &mut Report,
    before: Option<Refusal>,
    ask: impl Fn(u64, u64, &mut [u32]) -> Result<FeatureAnswer, Refusal>,
) {
    for (k, f, rule) in [(0, 0, 30), (2, 0, 31), (1, 0, 32), (1, 1, 34)] {
        for room in 0..3 {
            let mut out = [NUMBER; 2];
            let wanted = Err(before.unwrap_or(refusal(rule)));
            report.equal(ask(k, f, &mut out[..room]), wanted, || {
                format!("{rule} of feature {k} {f}, room {room}")
            });
            report.equal(out, [NUMBER; 2], || format!("lent output with {rule}"));
        }
    }
}

fn translation_holds(
    report: &mut Report,
    listing: &Listing,
    (k, f): (u64, u64),
    wanted: Result<&[u8], Refusal>,
) {
    let letters = wanted.unwrap_or(&[]);
    let answer = wanted.map(|letters| letters.len() as u64);
    let name = format!("translation {k} {f}");
    lent(report, &name, (BYTE, letters), answer, |out| {
        listing.translation(k, f, out)
    });
}

fn translations_hold(
    report: &mut Report,
    listing: &Listing,
    k: u64,
    wanted: Result<&[u8], Refusal>,
) {
    let lines = wanted.unwrap_or(&[]);
    let answer = wanted.map(|lines| lines.len() as u64);
    let name = format!("translations {k}");
    lent(report, &name, (BYTE, lines), answer, |out| {
        listing.translations(k, out)
    });
}

/// No question but the check is answered: each gives this refusal.
pub fn all_refused(report: &mut Report, listing: &Listing, numbers: [u64; 3], wanted: Refusal) {
    let [k, f, q] = numbers;
    report.equal(listing.sequence(k), Err(wanted), || format!("sequence {k}"));
    feature_holds(report, listing, (k, f), Err(wanted));
    let qualifier = listing.qualifier(k, f, q);
    report.equal(qualifier, Err(wanted), || format!("qualifier {k} {f} {q}"));
    translation_holds(report, listing, (k, f), Err(wanted));
    translations_hold(report, listing, k, Err(wanted));
}

/// The base listing, with its parts counted by hand.
pub fn by_hand(report: &mut Report) {
    let listing = Listing::new(BASE.as_bytes());
    let dna = SequenceAnswer {
        kind: Kind::Dna,
        residues: part(2232, 12),
    };
    let aa = SequenceAnswer {
        kind: Kind::Aa,
        residues: part(3214, 5),
    };
    report.equal(listing.sequence(1), Ok(dna), || "first sequence".into());
    report.equal(listing.sequence(3), Ok(aa), || "third sequence".into());
    for (numbers, parts, span) in [
        ((1, 1), [part(1363, 6), part(1409, 5)], [1, 12, 0]),
        ((1, 2), [part(1791, 3), part(1834, 17)], [1, 12, 1]),
        ((3, 1), [part(2694, 6), part(2740, 4)], [1, 5, 0]),
        ((3, 2), [part(3080, 4), part(3124, 8)], [2, 3, 2]),
    ] {
        let wanted = feature(parts, Operator::None, &span);
        feature_holds(report, &listing, numbers, Ok(wanted));
    }
    for ((k, f, q), name, value) in [
        ((1, 1, 1), part(1493, 8), Some(part(1543, 9))),
        ((1, 2, 2), part(2058, 11), Some(part(2111, 3))),
        ((3, 1, 1), part(2823, 8), Some(part(2873, 20))),
        ((3, 1, 2), part(2967, 8), None),
    ] {
        let wanted = Ok(QualifierAnswer {
            name,
            has_value: value.is_some(),
            value: value.unwrap_or_default(),
        });
        report.equal(listing.qualifier(k, f, q), wanted, || {
            format!("qualifier {k} {f} {q}")
        });
    }
    translation_holds(report, &listing, (1, 2), Ok(b"MKC"));
    translations_hold(report, &listing, 1, Ok(b"MKC\n"));
    translations_hold(report, &listing, 3, Ok(b""));
    refusals_by_hand(report, &listing);
    samples(report);
    locations(report);
}

fn refusals_by_hand(report: &mut Report, listing: &Listing) {
    for k in [0, 4, 1 << 32, u64::MAX] {
        all_refused(report, listing, [k, 1, 1], refusal(30));
        all_refused(report, listing, [k, 0, 0], refusal(30));
    }
    for f in [0, 1, u64::MAX] {
        all_refused(report, listing, [2, f, f], refusal(31));
    }
    for f in [0, 3, 1 << 32, u64::MAX] {
        feature_holds(report, listing, (1, f), Err(refusal(32)));
        report.equal(listing.qualifier(1, f, 0), Err(refusal(32)), || {
            "qualifier".into()
        });
        translation_holds(report, listing, (1, f), Err(refusal(32)));
        translation_holds(report, listing, (3, f), Err(refusal(32)));
    }
    for (k, f, q) in [(1, 2, 0), (1, 2, 3), (1, 2, u64::MAX), (3, 2, 1)] {
        report.equal(listing.qualifier(k, f, q), Err(refusal(33)), || {
            "qualifier".into()
        });
    }
    for (k, f) in [(1, 1), (3, 1), (3, 2)] {
        translation_holds(report, listing, (k, f), Err(refusal(35)));
    }
    refusals_in_order(report, None, |k, f, out| listing.feature(k, f, out));
    let refused = Listing::new(b"");
    all_refused(report, &refused, [1, 1, 1], Refusal { rule: 2, place: 0 });
    let damaged = edited(&[("\"1_2\"", "\"\"")]);
    let wanted = Refusal {
        rule: 10,
        place: 181,
    };
    all_refused(report, &Listing::new(&damaged), [0, 0, 0], wanted);
}

/// The translations that the sample sheet names.
fn samples(report: &mut Report) {
    let stop: Result<&[u8], Refusal> = Err(refusal(37));
    for (name, wanted, line) in [
        ("*1..12 on the first", Ok(&b"MKC"[..]), &b"MKC\n"[..]),
        ("*complement(1..12) on the second", Ok(b"MKC"), b"MKC\n"),
        ("*join of complements on the second", Ok(b"MKC"), b"MKC\n"),
        ("*members swapped, no translation", stop, b"-\n"),
        ("*codon_start 3", Ok(b"EML"), b"EML\n"),
        ("*codon_start 2, no translation", stop, b"-\n"),
        ("*ytr", Ok(b"L"), b"L\n"),
        ("*mgr", Ok(b"R"), b"R\n"),
        ("*tra at the end", Ok(b""), b"\n"),
        ("*tgr", Ok(b"X"), b"X\n"),
        ("complement of a join is reversed", Ok(b"MKC"), b"MKC\n"),
    ] {
        let sample = SAMPLES.iter().find(|case| case.name == name);
        let text = edited(sample.expect("a sample of this name").edits);
        let listing = Listing::new(&text);
        translation_holds(report, &listing, (1, 2), wanted);
        translations_hold(report, &listing, 1, Ok(line));
    }
}

/// The second feature, with locations of every form.
fn locations(report: &mut Report) {
    use Operator::{Join, None, Order};
    let cases: [(&'static str, Operator, &[u32]); 20] = [
        ("7", None, &[7, 7, 0]),
        ("3..9", None, &[3, 9, 0]),
        ("5..5", None, &[5, 5, 0]),
        ("&lt;7", None, &[7, 7, 2]),
        ("&gt;7", None, &[7, 7, 4]),
        ("&lt;3..9", None, &[3, 9, 2]),
        ("3..&gt;9", None, &[3, 9, 4]),
        ("&lt;3..&gt;9", None, &[3, 9, 6]),
        ("3^4", None, &[3, 4, 8]),
        ("12^1", None, &[12, 1, 8]),
        ("complement(3)", None, &[3, 3, 1]),
        ("complement(3..9)", None, &[3, 9, 1]),
        ("complement(&lt;3..&gt;9)", None, &[3, 9, 7]),
        ("complement(3^4)", None, &[3, 4, 9]),
        ("join(4..6,1)", Join, &[4, 6, 0, 1, 1, 0]),
        ("order(2,2,&gt;2)", Order, &[2, 2, 0, 2, 2, 0, 2, 2, 4]),
        ("join(complement(1..&gt;2),3)", Join, &[1, 2, 5, 3, 3, 0]),
        ("complement(join(1..2,5..6))", Join, &[5, 6, 1, 1, 2, 1]),
        (
            "complement(order(&lt;1,5,9))",
            Order,
            &[9, 9, 1, 5, 5, 1, 1, 1, 3],
        ),
        (
            "order(complement(9),complement(1..2))",
            Order,
            &[9, 9, 1, 1, 2, 1],
        ),
    ];
    for (location, operator, numbers) in cases {
        let text = edited(&[GENE, ("complement(1..12)", location)]);
        let listing = Listing::new(&text);
        let parts = [part(1791, 4), part(1835, location.len())];
        let wanted = feature(parts, operator, numbers);
        feature_holds(report, &listing, (1, 2), Ok(wanted));
        translation_holds(report, &listing, (1, 2), Err(refusal(35)));
    }
    let text = edited(&[("complement(1..12)", "&lt;1")]);
    translation_holds(report, &Listing::new(&text), (1, 2), Err(refusal(36)));
    translations_hold(report, &Listing::new(&text), 1, Ok(b"-\n"));
}

/// All questions about a listing, against what the generator knows.
pub fn against_model(report: &mut Report, model: &Model, written: &Written) {
    let listing = Listing::new(&written.bytes);
    report.equal(listing.check(), Ok(model.counts()), || "counts".into());
    let beyond = model.sequences.len() as u64 + 1;
    for k in [0, beyond, u64::MAX] {
        all_refused(report, &listing, [k, 1, 1], refusal(30));
    }
    for (k, sequence) in (1..).zip(&model.sequences) {
        if sequence.is_skipped() {
            all_refused(report, &listing, [k, 1, 1], refusal(31));
        } else {
            sequence_holds(report, &listing, written, k, sequence);
        }
    }
}

/// Whether the answer's part is the stretch that was written.
fn is_part(written: &Written, got: Part, field: Field) -> bool {
    let wanted = written.spots[&field].part;
    // Document 01 doesn't say where an empty part starts.
    got == wanted || (got.size == 0 && wanted.size == 0)
}

fn sequence_holds(
    report: &mut Report,
    listing: &Listing,
    written: &Written,
    k: u64,
    sequence: &Sequence,
) {
    let index = k as usize - 1;
    let holds = listing.sequence(k).map_or(false, |answer| {
        answer.kind == sequence.kind() && is_part(written, answer.residues, Field::Residues(index))
    });
    report.check(holds, || format!("sequence {k}"));
    let beyond = sequence.features().len() as u64 + 1;
    for f in [0, beyond, u64::MAX] {
        feature_holds(report, listing, (k, f), Err(refusal(32)));
        report.equal(listing.qualifier(k, f, 1), Err(refusal(32)), || {
            "qualifier".into()
        });
        translation_holds(report, listing, (k, f), Err(refusal(32)));
    }
    let mut lines = Vec::new();
    for (f, feature) in (1..).zip(sequence.features()) {
        modelled_feature_holds(report, listing, written, (k, f), feature);
        match &feature.coding {
            Coding::NotCds => (),
            Coding::Unjudged | Coding::StopInside => lines.push("-\n".to_string()),
            Coding::Letters(letters) => lines.push(format!("{letters}\n")),
        }
    }
    translations_hold(report, listing, k, Ok(lines.concat().as_bytes()));
}

/// The feature, its qualifiers and its translation.
fn modelled_feature_holds(
    report: &mut Report,
    listing: &Listing,
    written: &Written,
    (k, f): (u64, u64),
    modelled: &Feature,
) {
    let (index, feature_index) = (k as usize - 1, f as usize - 1);
    let fields = [Field::Key, Field::Location].map(|field| field(index, feature_index));
    let parts = fields.map(|field| written.spots[&field].part);
    let location = &modelled.location;
    let triples = location.spans.iter().map(|s| [s.first, s.last, s.marks]);
    let numbers: Vec<u32> = triples.flatten().collect();
    let wanted = feature(parts, location.operator, &numbers);
    feature_holds(report, listing, (k, f), Ok(wanted));

    for (q, qualifier) in modelled.qualifiers().iter().enumerate() {
        let name = Field::QualifierName(index, feature_index, q);
        let value = Field::QualifierValue(index, feature_index, q);
        let holds = listing
            .qualifier(k, f, q as u64 + 1)
            .map_or(false, |answer| {
                let value_holds = match &qualifier.value {
                    Some(_) => is_part(written, answer.value, value),
                    None => answer.value.size == 0,
                };
                let presence_holds = answer.has_value == qualifier.value.is_some();
                is_part(written, answer.name, name) && presence_holds && value_holds
            });
        report.check(holds, || format!("qualifier {k} {f} {q}"));
    }
    let beyond = modelled.qualifiers().len() as u64 + 1;
    for q in [0, beyond, u64::MAX] {
        report.equal(listing.qualifier(k, f, q), Err(refusal(33)), || {
            "qualifier".into()
        });
    }

    let translation = match &modelled.coding {
        Coding::NotCds => Err(refusal(35)),
        Coding::Unjudged => Err(refusal(36)),
        Coding::StopInside => Err(refusal(37)),
        Coding::Letters(letters) => Ok(letters.as_bytes()),
    };
    translation_holds(report, listing, (k, f), translation);
}
