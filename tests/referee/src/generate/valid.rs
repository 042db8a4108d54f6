//! Random listings that break no rule, with every shape that document 01 allows.

use super::model::{
    Coding, Feature, Header, Identification, Model, Name, Place, Qualifier, Sequence, Worded,
};
use super::rng::Rng;
use crate::location::{BEFORE, BEYOND, COMPLEMENT, SITE};
use crate::vocabulary::{keys, known, spellings, Key};
use crate::{Kind, Operator, Span};

/// Each letter with codons that give it, written down by hand: the amino acids, the letters of mixed codons, and the stop.
pub const CODONS: [(char, &str); 25] = [
    ('A', "gct gcc gca gcg gcn gcy gcr gcm gcb"),
    ('C', "tgt tgc tgy"),
    ('D', "gat gac gay"),
    ('E', "gaa gag gar"),
    ('F', "ttt ttc tty"),
    ('G', "ggt ggc gga ggg ggn ggs ggd"),
    ('H', "cat cac cay"),
    ('I', "att atc ata ath atm aty atw"),
    ('K', "aaa aag aar"),
    ('L', "tta ttg ctt ctc cta ctg ctn cth ttr ytr yta ytg"),
    ('M', "atg"),
    ('N', "aat aac aay"),
    ('P', "cct ccc cca ccg ccn ccv"),
    ('Q', "caa cag car"),
    ('R', "cgt cgc cga cgg cgn cgk aga agg agr mga mgg mgr"),
    ('S', "tct tcc tca tcg tcn tcw agt agc agy"),
    ('T', "act acc aca acg acn acd"),
    ('V', "gtt gtc gta gtg gtn gth"),
    ('W', "tgg"),
    ('Y', "tat tac tay"),
    // Of these three, every codon.
    ('B', "rat rac ray"),
    ('Z', "saa sag sar"),
    ('J', "mtt mtc mta mty mtm mtw mth wta hta"),
    // The second line has those that nearly give one of the three.
    (
        'X',
        "nnn tgr atr atn ttn agn tgk trr yar tan wsn \
         vay day rak ran raa say var bar san mar mtr mtk mtn mtg wtg wth hth vta nta mka",
    ),
    ('*', "taa tag tga tar tra"),
];

const SYMBOLS: &[u8] = b"acgtmrwsykvhdbn";

/// What kind of CDS to make.
#[derive(Clone, Copy)]
enum Cds {
    Translated,
    Empty,
    StopInside,
    UnjudgedByQualifier,
    UnjudgedByLocation,
}

const EVERY_CDS: [Cds; 5] = [
    Cds::Translated,
    Cds::Empty,
    Cds::StopInside,
    Cds::UnjudgedByQualifier,
    Cds::UnjudgedByLocation,
];

/// Any valid listing.
pub fn any(rng: &mut Rng) -> Model {
    let count = rng.between(1, 4);
    let sequences = (1..=count)
        .map(|number| match rng.below(6) {
            0 => skipped(number),
            1 | 2 => amino(rng, number),
            _ => {
                let cds_count = rng.below(4);
                let plan: Vec<Cds> = (0..cds_count).map(|_| *rng.pick(&EVERY_CDS)).collect();
                nucleic(rng, number, &plan)
            }
        })
        .collect();
    Model {
        header: header(rng, count, 50),
        sequences,
    }
}

/// A valid listing in which every rule has something to break.
pub fn rich(rng: &mut Rng) -> Model {
    let mut makers: [fn(&mut Rng, usize) -> Sequence; 6] = [
        |rng, number| nucleic(rng, number, &EVERY_CDS),
        |rng, number| nucleic(rng, number, &EVERY_CDS),
        amino,
        amino,
        |_, number| skipped(number),
        |_, number| skipped(number),
    ];
    rng.shuffle(&mut makers);
    let sequences = (1..).zip(&makers).map(|(number, make)| make(rng, number));
    let sequences: Vec<Sequence> = sequences.collect();
    Model {
        header: header(rng, sequences.len(), 100),
        sequences,
    }
}

/// A valid header; each optional thing is there this many times in a hundred.
fn header(rng: &mut Rng, count: usize, percent: usize) -> Header {
    let application = optional(rng, percent, |rng| identification(rng, percent));
    let reference_percent = if application.is_some() { percent } else { 100 };
    let title_count = rng.between(1, 3);
    let high = if rng.chance(70) { utf_8 } else { any_high_byte };
    Header {
        dtd_version: "1_2".into(),
        file_name: optional(rng, percent, text),
        software_name: optional(rng, percent, text),
        software_version: optional(rng, percent, text),
        production_date: optional(rng, percent, date),
        file_reference: optional(rng, reference_percent, text),
        application,
        priority: optional(rng, percent, |rng| identification(rng, percent)),
        applicant: optional(rng, percent, |rng| name(rng, percent, high)),
        inventor: optional(rng, percent, |rng| name(rng, percent, high)),
        titles: (0..title_count).map(|_| worded(rng, high)).collect(),
        total: count.to_string(),
    }
}

fn optional<T>(rng: &mut Rng, percent: usize, make: impl Fn(&mut Rng) -> T) -> Option<T> {
    rng.chance(percent).then(|| make(rng))
}

fn identification(rng: &mut Rng, percent: usize) -> Identification {
    let office = |rng: &mut Rng| letters(rng, b'A', 2);
    Identification {
        office: optional(rng, percent, office),
        number: text(rng),
        date: optional(rng, percent, date),
    }
}

fn name(rng: &mut Rng, percent: usize, high: High) -> Name {
    Name {
        name: worded(rng, high),
        latin: optional(rng, percent, text),
    }
}

/// Makes the high bytes of a name or title: any, or in most listings those of UTF-8, as an XML reader wants them.
type High = fn(&mut Rng) -> Vec<u8>;

fn any_high_byte(rng: &mut Rng) -> Vec<u8> {
    vec![rng.between(128, 255) as u8]
}

/// A character of two, three or four bytes that XML has.
fn utf_8(rng: &mut Rng) -> Vec<u8> {
    let (first, last) = *rng.pick(&[
        ('\u{80}', '\u{7ff}'),
        ('\u{800}', '\u{d7ff}'),
        ('\u{e000}', '\u{fffd}'),
        ('\u{10000}', '\u{10ffff}'),
    ]);
    let code = rng.between(first as usize, last as usize) as u32;
    let character = char::from_u32(code).unwrap_or(first);
    character.to_string().into_bytes()
}

fn worded(rng: &mut Rng, high: High) -> Worded {
    let size = rng.below(12);
    Worded {
        language: letters(rng, b'a', 2),
        text: (0..size)
            .flat_map(|_| match rng.below(3) {
                0 => high(rng),
                _ => vec![character(rng)],
            })
            .collect(),
    }
}

/// Letters of the alphabet that begins here.
fn letters(rng: &mut Rng, first: u8, count: usize) -> String {
    (0..count)
        .map(|_| char::from(first + rng.below(26) as u8))
        .collect()
}

fn character(rng: &mut Rng) -> u8 {
    if rng.chance(20) {
        *rng.pick(b"<>&\"' ")
    } else {
        rng.between(32, 126) as u8
    }
}

fn text(rng: &mut Rng) -> String {
    let size = rng.below(12);
    (0..size).map(|_| char::from(character(rng))).collect()
}

fn date(rng: &mut Rng) -> String {
    let known = [
        "0001-01-01",
        "9999-12-31",
        "2000-02-29",
        "0004-02-29",
        "2015-01-31",
    ];
    if rng.chance(30) {
        (*rng.pick(&known)).into()
    } else {
        let (year, month, day) = (rng.between(1, 9999), rng.between(1, 12), rng.between(1, 28));
        format!("{year:04}-{month:02}-{day:02}")
    }
}

fn skipped(number: usize) -> Sequence {
    Sequence {
        id: number.to_string(),
        length: String::new(),
        moltype: String::new(),
        division: String::new(),
        other_seqids: None,
        table: None,
        residues: "000".into(),
    }
}

fn amino(rng: &mut Rng, number: usize) -> Sequence {
    let mut residues = letters(rng, b'A', 8).replace('X', "Y").into_bytes();
    residues.truncate(rng.between(4, 8));
    let more = rng.below(20);
    residues.extend((0..more).map(|_| *rng.pick(b"ACDEFGHIKLMNPQRSTVWYXXBZJOU")));
    rng.shuffle(&mut residues);
    let mut features = Vec::new();
    for _ in 0..rng.between(1, 3) {
        let place = location(rng, residues.len(), false);
        // The lower-case `source` is as ordinary here as any other key.
        let key = rng.pick(keys(Kind::Aa));
        features.push(ordinary(rng, Kind::Aa, key, place));
    }
    sequence(rng, number, "AA", features, residues)
}

fn nucleic(rng: &mut Rng, number: usize, plan: &[Cds]) -> Sequence {
    let mut residues: Vec<u8> = (0..10).map(|_| *rng.pick(&SYMBOLS[..14])).collect();
    let mut features = Vec::new();
    for &cds in plan {
        if let Cds::Translated | Cds::Empty | Cds::StopInside = cds {
            features.push(coding_feature(rng, &mut residues, cds));
        }
    }
    filler(rng, &mut residues, 10);
    let length = residues.len();
    for &cds in plan {
        if let Cds::UnjudgedByQualifier | Cds::UnjudgedByLocation = cds {
            features.push(unjudged_feature(rng, length, cds));
        }
    }
    let is_ordinary = |key: &&Key| !["source", "CDS"].contains(&key.name);
    let keys: Vec<&Key> = keys(Kind::Dna).iter().filter(is_ordinary).collect();
    for _ in 0..rng.between(1, 3) {
        let place = location(rng, length, true);
        let key = *rng.pick(&keys);
        features.push(ordinary(rng, Kind::Dna, key, place));
    }
    let moltype = *rng.pick(&["DNA", "RNA"]);
    sequence(rng, number, moltype, features, residues)
}

/// Puts a sequence together and adds its source.
fn sequence(
    rng: &mut Rng,
    number: usize,
    moltype: &str,
    mut features: Vec<Feature>,
    residues: Vec<u8>,
) -> Sequence {
    let length = residues.len();
    let mut sequence = Sequence {
        id: number.to_string(),
        length: length.to_string(),
        moltype: moltype.into(),
        division: "PAT".into(),
        other_seqids: optional(rng, 40, |rng| optional(rng, 50, text)),
        table: None,
        residues: residues.into_iter().map(char::from).collect(),
    };
    let [source, organism, mol_type] = sequence.source_names();
    let whole = Place {
        text: format!("1..{length}"),
        operator: Operator::None,
        spans: vec![span(1, length, 0)],
        is_unclear: false,
    };
    let key = known(sequence.kind(), source).expect("a known key");
    let mut qualifiers = others(rng, sequence.kind(), key, &[organism, mol_type]);
    qualifiers.push(Qualifier::new(organism, text(rng)));
    qualifiers.push(Qualifier {
        name: mol_type.into(),
        value: optional(rng, 90, text),
    });
    features.push(feature(rng, source, whole, qualifiers, Coding::NotCds));
    rng.shuffle(&mut features);
    sequence.table = Some(features);
    sequence
}

fn feature(
    rng: &mut Rng,
    key: &str,
    location: Place,
    mut qualifiers: Vec<Qualifier>,
    coding: Coding,
) -> Feature {
    rng.shuffle(&mut qualifiers);
    let is_written = !qualifiers.is_empty() || rng.chance(50);
    Feature {
        key: key.into(),
        location,
        qualifiers: is_written.then_some(qualifiers),
        coding,
    }
}

/// A feature of this key that is neither a CDS nor the source.
fn ordinary(rng: &mut Rng, kind: Kind, key: &Key, place: Place) -> Feature {
    let qualifiers = qualifiers(rng, kind, key);
    feature(rng, key.name, place, qualifiers, Coding::NotCds)
}

/// All that the key requires, and some that it allows.
pub fn qualifiers(rng: &mut Rng, kind: Kind, key: &Key) -> Vec<Qualifier> {
    let mut qualifiers = others(rng, kind, key, &[]);
    for name in key.required() {
        let spellings: Vec<&str> = spellings(kind, name).collect();
        qualifiers.push(qualifier(rng, &spellings));
    }
    qualifiers
}

/// Up to three qualifiers that the key allows, in any spelling but these.
fn others(rng: &mut Rng, kind: Kind, key: &Key, left_out: &[&str]) -> Vec<Qualifier> {
    let mut names: Vec<&str> = key.spelled(kind).collect();
    names.retain(|name| !left_out.contains(name));
    let count = rng.below(4);
    (0..count).map(|_| qualifier(rng, &names)).collect()
}

/// A qualifier of one of these names, with any value or none.
fn qualifier(rng: &mut Rng, names: &[&str]) -> Qualifier {
    Qualifier {
        name: (*rng.pick(names)).into(),
        value: optional(rng, 80, text),
    }
}

/// What decides whether a CDS is judged, and how.
const DECIDING: [&str; 7] = [
    "codon_start",
    "exception",
    "pseudo",
    "pseudogene",
    "transl_except",
    "transl_table",
    "translation",
];

/// Qualifiers of a CDS that no rule on coding looks at.
fn idle(rng: &mut Rng) -> Vec<Qualifier> {
    let cds = known(Kind::Dna, "CDS").expect("a known key");
    others(rng, Kind::Dna, cds, &DECIDING)
}

/// A CDS whose translation is known because its codons are laid out here.
fn coding_feature(rng: &mut Rng, residues: &mut Vec<u8>, cds: Cds) -> Feature {
    let codon_start = optional(rng, 60, |rng| rng.between(1, 3));
    let mut coding = Vec::new();
    let mut translation = String::new();
    filler_of(rng, &mut coding, codon_start.unwrap_or(1) - 1);
    let mut must_stop = false;
    match cds {
        Cds::Translated => {
            let most = if rng.chance(10) { 150 } else { 10 };
            let count = rng.between(1, most);
            translation = codons(rng, &mut coding, count);
        }
        Cds::StopInside => {
            let (before, after) = (rng.below(4), rng.below(3));
            codons(rng, &mut coding, before);
            stop(rng, &mut coding);
            codons(rng, &mut coding, after);
            // With nothing after it, only a second stop makes the first stand inside.
            must_stop = after == 0;
        }
        _ => (),
    }
    let has_final_stop = must_stop || rng.chance(50);
    if has_final_stop {
        stop(rng, &mut coding);
    }
    let left_over = rng.below(3);
    filler_of(rng, &mut coding, left_over);
    let is_short = matches!(cds, Cds::Empty) && !has_final_stop;
    if is_short && (coding.is_empty() || rng.chance(50)) {
        // Sometimes codon_start lies beyond the residues.
        coding.resize(rng.between(1, 2), b'a');
    }
    let place = lay_out(rng, residues, &coding);
    let mut qualifiers = idle(rng);
    qualifiers.extend(codon_start.map(|start| Qualifier::new("codon_start", start.to_string())));
    for _ in 0..rng.below(3) {
        qualifiers.push(Qualifier::new("transl_table", "1"));
    }
    let known = if let Cds::StopInside = cds {
        Coding::StopInside
    } else {
        for _ in 0..rng.between(1, 3) {
            qualifiers.push(Qualifier::new("translation", translation.as_str()));
        }
        Coding::Letters(translation)
    };
    feature(rng, "CDS", place, qualifiers, known)
}

/// Adds codons that are no stops and gives their letters. Three of ten are of the four mixed letters.
fn codons(rng: &mut Rng, coding: &mut Vec<u8>, count: usize) -> String {
    let (amino_acids, mixed) = CODONS[..24].split_at(20);
    (0..count)
        .map(|_| {
            let rows = if rng.chance(30) { mixed } else { amino_acids };
            let (letter, patterns) = *rng.pick(rows);
            codon(rng, coding, patterns);
            letter
        })
        .collect()
}

fn stop(rng: &mut Rng, coding: &mut Vec<u8>) {
    codon(rng, coding, CODONS[24].1);
}

fn codon(rng: &mut Rng, coding: &mut Vec<u8>, patterns: &str) {
    let patterns: Vec<&str> = patterns.split(' ').collect();
    coding.extend_from_slice(rng.pick(&patterns).as_bytes());
}

/// Adds fewer than `limit` random symbols.
fn filler(rng: &mut Rng, residues: &mut Vec<u8>, limit: usize) {
    let count = rng.below(limit);
    filler_of(rng, residues, count);
}

fn filler_of(rng: &mut Rng, residues: &mut Vec<u8>, count: usize) {
    residues.extend((0..count).map(|_| *rng.pick(SYMBOLS)));
}

/// Puts the coding text into the sequence piece by piece and says where it is.
fn lay_out(rng: &mut Rng, residues: &mut Vec<u8>, coding: &[u8]) -> Place {
    let mut cuts: Vec<usize> = (1..coding.len()).collect();
    rng.shuffle(&mut cuts);
    cuts.truncate(rng.below(4));
    cuts.extend([0, coding.len()]);
    cuts.sort_unstable();
    let pieces: Vec<&[u8]> = cuts.windows(2).map(|c| &coding[c[0]..c[1]]).collect();

    let one_strand = optional(rng, 60, |rng| rng.chance(50));
    let mut order: Vec<usize> = (0..pieces.len()).collect();
    rng.shuffle(&mut order);
    let mut members = vec![(String::new(), span(1, 1, 0)); pieces.len()];
    for index in order {
        filler(rng, residues, 4);
        let first = residues.len() + 1;
        let is_complement = one_strand.unwrap_or_else(|| rng.chance(50));
        if is_complement {
            residues.extend(pieces[index].iter().rev().map(|&base| pair(base)));
        } else {
            residues.extend_from_slice(pieces[index]);
        }
        let (text, mut span) = range(rng, first, residues.len());
        span.marks |= if is_complement { COMPLEMENT } else { 0 };
        members[index] = (text, span);
    }

    let spans: Vec<Span> = members.iter().map(|&(_, span)| span).collect();
    let all_complement = spans.iter().all(|span| span.marks & COMPLEMENT != 0);
    let is_joined = members.len() > 1;
    let text = if is_joined && all_complement && rng.chance(50) {
        let backwards: Vec<&str> = members
            .iter()
            .rev()
            .map(|(text, _)| text.as_str())
            .collect();
        format!("complement(join({}))", backwards.join(","))
    } else {
        let written: Vec<String> = members
            .iter()
            .map(|(text, span)| match span.marks & COMPLEMENT {
                0 => text.clone(),
                _ => format!("complement({text})"),
            })
            .collect();
        match is_joined {
            true => format!("join({})", written.join(",")),
            false => written.concat(),
        }
    };
    Place {
        text,
        operator: if is_joined {
            Operator::Join
        } else {
            Operator::None
        },
        spans,
        is_unclear: false,
    }
}

/// The base on the other strand.
fn pair(base: u8) -> u8 {
    let index = b"atcgmkryvbhdwwssnn".iter().position(|&b| b == base);
    b"tagckmyrbvdhwwssnn"[index.expect("a symbol")]
}

/// A segment that isn't a lone `<x` or `>x`.
fn range(rng: &mut Rng, first: usize, last: usize) -> (String, Span) {
    if first == last && rng.chance(50) {
        return (first.to_string(), span(first, last, 0));
    }
    match rng.below(8) {
        0 => (format!("<{first}..{last}"), span(first, last, BEFORE)),
        1 => (format!("{first}..>{last}"), span(first, last, BEYOND)),
        2 => (
            format!("<{first}..>{last}"),
            span(first, last, BEFORE | BEYOND),
        ),
        _ => (format!("{first}..{last}"), span(first, last, 0)),
    }
}

fn span(first: usize, last: usize, marks: u32) -> Span {
    Span {
        first: first as u32,
        last: last as u32,
        marks,
    }
}

fn unjudged_feature(rng: &mut Rng, length: usize, cds: Cds) -> Feature {
    let mut qualifiers = idle(rng);
    let place = if let Cds::UnjudgedByLocation = cds {
        unclear_location(rng, length)
    } else {
        let reasons = [
            ("transl_except", Some("(pos:1..3,aa:Sec)")),
            ("exception", Some("RNA editing")),
            ("exception", None),
            ("pseudo", None),
            ("pseudo", Some("")),
            ("pseudogene", Some("unknown")),
            ("transl_table", Some("11")),
            ("transl_table", Some("01")),
            ("transl_table", Some("")),
            ("transl_table", Some("1 ")),
            ("transl_table", None),
        ];
        for _ in 0..rng.between(1, 2) {
            let &(name, value) = rng.pick(&reasons);
            let value = value.map(String::from);
            let name = name.into();
            qualifiers.push(Qualifier { name, value });
        }
        location(rng, length, true)
    };
    if rng.chance(30) {
        qualifiers.push(Qualifier::new("transl_table", "1"));
    }
    if rng.chance(50) {
        let start = rng.between(1, 3).to_string();
        qualifiers.push(Qualifier::new("codon_start", start));
    }
    if rng.chance(50) {
        qualifiers.push(Qualifier::new("translation", "not judged *"));
    }
    if rng.chance(20) {
        qualifiers.push(Qualifier::without_value("translation"));
    }
    feature(rng, "CDS", place, qualifiers, Coding::Unjudged)
}

/// A location that leaves a CDS unjudged.
fn unclear_location(rng: &mut Rng, length: usize) -> Place {
    loop {
        let place = location(rng, length, true);
        if place.is_unclear {
            return place;
        }
    }
}

/// Any location that fits into this length.
fn location(rng: &mut Rng, length: usize, may_complement: bool) -> Place {
    let is_complement = may_complement && rng.chance(40);
    let operator = *rng.pick(&[Operator::None, Operator::Join, Operator::Order]);
    let members: Vec<Member> = match operator {
        Operator::None if rng.chance(30) => vec![site(rng, length)],
        Operator::None => vec![segment(rng, length)],
        Operator::Join | Operator::Order => {
            let count = rng.between(2, 4);
            (0..count)
                .map(|_| {
                    let mut member = segment(rng, length);
                    if may_complement && !is_complement && rng.chance(30) {
                        member.text = format!("complement({})", member.text);
                        member.span.marks |= COMPLEMENT;
                    }
                    member
                })
                .collect()
        }
    };
    let texts: Vec<&str> = members.iter().map(|member| member.text.as_str()).collect();
    let mut text = match operator {
        Operator::None => texts.concat(),
        Operator::Join => format!("join({})", texts.join(",")),
        Operator::Order => format!("order({})", texts.join(",")),
    };
    let mut spans: Vec<Span> = members.iter().map(|member| member.span).collect();
    if is_complement {
        text = format!("complement({text})");
        spans.reverse();
        for span in &mut spans {
            span.marks += COMPLEMENT;
        }
    }
    Place {
        text,
        operator,
        spans,
        is_unclear: operator == Operator::Order || members.iter().any(|m| m.is_unclear),
    }
}

/// A segment or site with its span.
struct Member {
    text: String,
    span: Span,
    is_unclear: bool,
}

fn segment(rng: &mut Rng, length: usize) -> Member {
    let first = rng.between(1, length);
    let (text, span, is_unclear) = match rng.below(6) {
        0 => (format!("<{first}"), span(first, first, BEFORE), true),
        1 => (format!(">{first}"), span(first, first, BEYOND), true),
        2 => (first.to_string(), span(first, first, 0), false),
        _ => {
            let last = rng.between(first, length);
            let (text, span) = range(rng, first, last);
            (text, span, false)
        }
    };
    Member {
        text,
        span,
        is_unclear,
    }
}

fn site(rng: &mut Rng, length: usize) -> Member {
    let first = rng.between(1, length);
    let last = first % length + 1;
    Member {
        text: format!("{first}^{last}"),
        span: span(first, last, SITE),
        is_unclear: true,
    }
}
