//! Damaged values: each way to break a rule, with every rule and value that it breaks.

use super::model::{Coding, Feature, Field, Header, Place, Qualifier, Sequence};
use super::residues::{alphabet, Alphabet};
use super::rng::Rng;
use super::valid;
use crate::vocabulary::{self, keys, spellings, Key};
use crate::{Kind, Operator};

/// The rules that a damage breaks, each with the value whose place counts.
pub type Breaks = Vec<(u32, Field)>;

/// A way to damage a listing.
#[derive(Clone, Copy)]
pub enum Damage {
    Header(fn(&mut Header, &mut Rng) -> Breaks),
    /// Damages the sequence of this number (from 0), if it is of a fitting kind.
    Sequence(fn(&mut Sequence, usize, &mut Rng) -> Option<Breaks>),
}

/// Every damage, with the rule that it is meant to break.
/// They are made for the rich listings, in which everything optional is there.
pub const DAMAGES: [(u32, Damage); 36] = [
    (10, Damage::Header(dtd_version)),
    (11, Damage::Header(production_date)),
    (11, Damage::Header(application_date)),
    (11, Damage::Header(priority_date)),
    (12, Damage::Header(application_office)),
    (12, Damage::Header(priority_office)),
    (13, Damage::Header(applicant_language)),
    (13, Damage::Header(inventor_language)),
    (13, Damage::Header(title_language)),
    (14, Damage::Header(total)),
    (15, Damage::Sequence(id)),
    (16, Damage::Sequence(moltype)),
    (17, Damage::Sequence(division)),
    (18, Damage::Sequence(foreign_residues)),
    (18, Damage::Sequence(few_and_foreign)),
    (19, Damage::Sequence(few_residues)),
    (19, Damage::Sequence(no_residues)),
    (20, Damage::Sequence(length)),
    (21, Damage::Sequence(no_table)),
    (21, Damage::Sequence(no_source)),
    (21, Damage::Sequence(second_source)),
    (22, Damage::Sequence(source_qualifiers)),
    (23, Damage::Sequence(source_location)),
    (24, Damage::Sequence(location_grammar)),
    (25, Damage::Sequence(location_reach)),
    (26, Damage::Sequence(amino_complement)),
    (27, Damage::Sequence(codon_start)),
    (28, Damage::Sequence(mistaken_letter)),
    (28, Damage::Sequence(wrong_translation)),
    (28, Damage::Sequence(absent_translation)),
    (28, Damage::Sequence(stop_inside)),
    (29, Damage::Sequence(skipped_text)),
    (29, Damage::Sequence(skipped_element)),
    (40, Damage::Sequence(unknown_key)),
    (41, Damage::Sequence(unknown_names)),
    (42, Damage::Sequence(missing_names)),
];

fn exchange(text: &mut String, rng: &mut Rng, wrong: &[&str]) {
    *text = (*rng.pick(wrong)).into();
}

/// Exchanges a text that is there in every rich listing.
fn exchange_present(text: Option<&mut String>, rng: &mut Rng, wrong: &[&str]) {
    exchange(text.expect("a rich listing has it"), rng, wrong);
}

/// A text that isn't the number it should be.
fn wrong_number(rng: &mut Rng, right: usize) -> String {
    match rng.below(12) {
        0 => String::new(),
        1 => format!("0{right}"),
        2 => format!(" {right}"),
        3 => format!("{right} "),
        4 => format!("+{right}"),
        5 => format!("{right}0"),
        6 => format!("{}", right + 1),
        7 => format!("{}", right.saturating_sub(1)),
        8 => format!("{}", (1u128 << 32) + right as u128),
        9 => format!("{}", (1u128 << 64) + right as u128),
        10 => format!("{right}<"),
        _ => "9".repeat(40),
    }
}

fn dtd_version(header: &mut Header, rng: &mut Rng) -> Breaks {
    let wrong = ["", "V1_2", "1_3", "1.2", " 1_2", "1_2 ", "1_20", "1_", "&"];
    exchange(&mut header.dtd_version, rng, &wrong);
    vec![(10, Field::DtdVersion)]
}

const WRONG_DATES: [&str; 21] = [
    "",
    "2015-02-29",
    "1900-02-29",
    "1500-02-29",
    "0000-01-01",
    "2015-13-01",
    "2015-00-10",
    "2015-01-32",
    "2015-01-00",
    "2015-04-31",
    "2016-02-30",
    "2015-1-01",
    "15-01-01",
    "10000-01-01",
    "2015/01/01",
    "20150101",
    "2015-01-01 ",
    " 2015-01-01",
    "2015-0a-01",
    "+015-01-01",
    "2015-01-3>",
];

fn production_date(header: &mut Header, rng: &mut Rng) -> Breaks {
    exchange_present(header.production_date.as_mut(), rng, &WRONG_DATES);
    vec![(11, Field::ProductionDate)]
}

fn application_date(header: &mut Header, rng: &mut Rng) -> Breaks {
    let identification = header.application.as_mut();
    exchange_present(
        identification.and_then(|i| i.date.as_mut()),
        rng,
        &WRONG_DATES,
    );
    vec![(11, Field::ApplicationDate)]
}

fn priority_date(header: &mut Header, rng: &mut Rng) -> Breaks {
    let identification = header.priority.as_mut();
    exchange_present(
        identification.and_then(|i| i.date.as_mut()),
        rng,
        &WRONG_DATES,
    );
    vec![(11, Field::PriorityDate)]
}

const WRONG_OFFICES: [&str; 10] = ["", "U", "USA", "us", "Us", "U1", " US", "US ", "U<", "@A"];

fn application_office(header: &mut Header, rng: &mut Rng) -> Breaks {
    let identification = header.application.as_mut();
    exchange_present(
        identification.and_then(|i| i.office.as_mut()),
        rng,
        &WRONG_OFFICES,
    );
    vec![(12, Field::ApplicationOffice)]
}

fn priority_office(header: &mut Header, rng: &mut Rng) -> Breaks {
    let identification = header.priority.as_mut();
    exchange_present(
        identification.and_then(|i| i.office.as_mut()),
        rng,
        &WRONG_OFFICES,
    );
    vec![(12, Field::PriorityOffice)]
}

const WRONG_LANGUAGES: [&str; 10] = ["", "e", "eng", "EN", "En", "e1", " en", "en ", "\"e", "z{"];

fn applicant_language(header: &mut Header, rng: &mut Rng) -> Breaks {
    let name = header.applicant.as_mut();
    exchange_present(name.map(|n| &mut n.name.language), rng, &WRONG_LANGUAGES);
    vec![(13, Field::ApplicantLanguage)]
}

fn inventor_language(header: &mut Header, rng: &mut Rng) -> Breaks {
    let name = header.inventor.as_mut();
    exchange_present(name.map(|n| &mut n.name.language), rng, &WRONG_LANGUAGES);
    vec![(13, Field::InventorLanguage)]
}

fn title_language(header: &mut Header, rng: &mut Rng) -> Breaks {
    let number = rng.below(header.titles.len());
    exchange(&mut header.titles[number].language, rng, &WRONG_LANGUAGES);
    vec![(13, Field::TitleLanguage(number))]
}

fn total(header: &mut Header, rng: &mut Rng) -> Breaks {
    let count = header.total.parse().expect("a rich listing's total holds");
    header.total = wrong_number(rng, count);
    vec![(14, Field::Total)]
}

fn id(sequence: &mut Sequence, k: usize, rng: &mut Rng) -> Option<Breaks> {
    sequence.id = wrong_number(rng, k + 1);
    Some(vec![(15, Field::Id(k))])
}

fn moltype(sequence: &mut Sequence, k: usize, rng: &mut Rng) -> Option<Breaks> {
    known(sequence)?;
    let wrong = ["", "dna", "DNA ", " RNA", "mRNA", "PRT", "AAA", "Aa", "D&A"];
    exchange(&mut sequence.moltype, rng, &wrong);
    Some(vec![(16, Field::Moltype(k))])
}

fn division(sequence: &mut Sequence, k: usize, rng: &mut Rng) -> Option<Breaks> {
    known(sequence)?;
    let wrong = ["", "pat", "PATX", "PA", " PAT", "PAT ", "SYN", "P'T"];
    exchange(&mut sequence.division, rng, &wrong);
    Some(vec![(17, Field::Division(k))])
}

/// Goes on only if the sequence isn't skipped.
fn known(sequence: &Sequence) -> Option<()> {
    (!sequence.is_skipped()).then_some(())
}

fn nucleic(sequence: &Sequence) -> Option<()> {
    sequence.is_nucleic().then_some(())
}

/// Exchanges one residue or some.
fn foreign_residues(sequence: &mut Sequence, k: usize, rng: &mut Rng) -> Option<Breaks> {
    known(sequence)?;
    let foreign = alphabet(&sequence.moltype).foreign;
    let mut residues = sequence.residues.clone().into_bytes();
    let mut first = residues.len();
    for _ in 0..*rng.pick(&[1, 1, 2, 5]) {
        let at = rng.below(residues.len());
        residues[at] = *rng.pick(foreign);
        first = first.min(at);
    }
    sequence.residues = string(&residues);
    Some(vec![(18, Field::Residue(k, first))])
}

fn string(ascii: &[u8]) -> String {
    ascii.iter().copied().map(char::from).collect()
}

/// Exchanges the residues, with a length and a source that fit.
fn exchange_residues(sequence: &mut Sequence, residues: &[u8]) -> Option<()> {
    let source = source(sequence);
    let features = sequence.table.as_mut()?;
    features.swap(0, source);
    features.truncate(1);
    features[0].location.text = format!("1..{}", residues.len());
    sequence.length = residues.len().to_string();
    sequence.residues = string(residues);
    Some(())
}

/// So many defined and foreign residues, and some unknown ones, in any order.
fn mixed(rng: &mut Rng, alphabet: &Alphabet, defined: usize, foreign: usize) -> Vec<u8> {
    let mut residues: Vec<u8> = (0..defined).map(|_| *rng.pick(alphabet.defined)).collect();
    residues.extend((0..foreign).map(|_| *rng.pick(alphabet.foreign)));
    residues.resize(residues.len() + rng.between(1, 10), alphabet.unknown);
    rng.shuffle(&mut residues);
    residues
}

fn few_residues(sequence: &mut Sequence, k: usize, rng: &mut Rng) -> Option<Breaks> {
    known(sequence)?;
    let alphabet = alphabet(&sequence.moltype);
    let most = alphabet.least - 1;
    let fewer = rng.below(most);
    let count = *rng.pick(&[most, most, most, fewer]);
    exchange_residues(sequence, &mixed(rng, alphabet, count, 0))?;
    Some(vec![(19, Field::Residues(k))])
}

/// Foreign residues among so few others that rule 19 may be broken too; perhaps without a table.
fn few_and_foreign(sequence: &mut Sequence, k: usize, rng: &mut Rng) -> Option<Breaks> {
    known(sequence)?;
    let alphabet = alphabet(&sequence.moltype);
    let count = rng.between(alphabet.least - 2, alphabet.least + 1);
    let foreign = rng.between(1, count);
    let residues = mixed(rng, alphabet, count - foreign, foreign);
    let first = residues.iter().position(|&r| alphabet.is_foreign(r))?;
    exchange_residues(sequence, &residues)?;
    let mut breaks = vec![(18, Field::Residue(k, first))];
    breaks.extend((count < alphabet.least).then_some((19, Field::Residues(k))));
    if rng.chance(30) {
        breaks.extend(no_table(sequence, k, rng)?);
    }
    Some(breaks)
}

/// With L = 0 no text is the number L, and `1..0` is no range.
fn no_residues(sequence: &mut Sequence, k: usize, _: &mut Rng) -> Option<Breaks> {
    known(sequence)?;
    exchange_residues(sequence, b"")?;
    Some(vec![
        (20, Field::Length(k)),
        (24, Field::Location(k, 0)),
        (19, Field::Residues(k)),
    ])
}

fn length(sequence: &mut Sequence, k: usize, rng: &mut Rng) -> Option<Breaks> {
    known(sequence)?;
    sequence.length = wrong_number(rng, sequence.residues.len());
    Some(vec![(20, Field::Length(k))])
}

fn no_table(sequence: &mut Sequence, k: usize, _: &mut Rng) -> Option<Breaks> {
    known(sequence)?;
    sequence.table = None;
    Some(vec![(21, Field::Residues(k))])
}

/// The number of the source feature.
fn source(sequence: &Sequence) -> usize {
    let [name, ..] = sequence.source_names();
    let mut features = sequence.features().iter();
    let source = features.position(|feature| feature.key == name);
    source.expect("every table of a rich listing has a source")
}

fn no_source(sequence: &mut Sequence, k: usize, rng: &mut Rng) -> Option<Breaks> {
    known(sequence)?;
    let other_spelling = if sequence.is_nucleic() {
        "SOURCE"
    } else {
        "source"
    };
    let wrong = [
        "",
        "Source",
        "sources",
        " source",
        "source ",
        "'source'",
        other_spelling,
    ];
    let source = source(sequence);
    let key = &mut sequence.table.as_mut()?[source].key;
    exchange(key, rng, &wrong);
    let mut breaks = vec![(21, Field::Table(k))];
    // In AA the lower-case name is a known key, though no source.
    breaks.extend((key != "source").then_some((40, Field::Key(k, source))));
    Some(breaks)
}

fn second_source(sequence: &mut Sequence, k: usize, rng: &mut Rng) -> Option<Breaks> {
    known(sequence)?;
    let mut second = sequence.features()[source(sequence)].clone();
    let at = rng.below(sequence.features().len() + 1);
    let mut breaks = vec![(21, Field::Table(k))];
    if rng.chance(50) {
        // Rules 22 and 23 aren't judged where 21 is broken, but 42 is.
        second.location.text = "2".into();
        second.qualifiers = None;
        breaks.push((42, Field::Key(k, at)));
    }
    sequence.table.as_mut()?.insert(at, second);
    Some(breaks)
}

fn source_qualifiers(sequence: &mut Sequence, k: usize, rng: &mut Rng) -> Option<Breaks> {
    known(sequence)?;
    let kind = sequence.kind();
    let [_, organism, mol_type] = sequence.source_names();
    let f = source(sequence);
    let qualifiers = sequence.table.as_mut()?[f].qualifiers.as_mut()?;
    let name = *rng.pick(&[organism, mol_type]);
    let wrong = match kind {
        Kind::Aa => [format!("{name} "), name.to_lowercase()],
        Kind::Dna | Kind::Rna => [format!("{name} "), name.to_uppercase()],
    };
    match rng.below(6) {
        0 => qualifiers.retain(|qualifier| qualifier.name != name),
        1 => qualifiers.push(Qualifier::new(name, "another")),
        2 => qualifiers.insert(0, Qualifier::without_value(name)),
        3 => qualifiers.clear(),
        _ => {
            let mut named = qualifiers.iter_mut().filter(|q| q.name == name);
            named.next()?.name = rng.pick(&wrong).clone();
        }
    }
    let mut breaks = vec![(22, Field::Key(k, f))];
    breaks.extend(vocabulary_breaks(sequence, k, f));
    Some(breaks)
}

fn source_location(sequence: &mut Sequence, k: usize, rng: &mut Rng) -> Option<Breaks> {
    known(sequence)?;
    let f = source(sequence);
    let length = sequence.residues.len();
    let complement_breaks: &[u32] = if sequence.is_nucleic() {
        &[23]
    } else {
        &[23, 26]
    };
    let choices: [(String, &[u32]); 13] = [
        (String::new(), &[23, 24]),
        (format!(" 1..{length}"), &[23, 24]),
        (format!("1..0{length}"), &[23, 24]),
        (format!("1..{}", length - 1), &[23]),
        (format!("2..{length}"), &[23]),
        (format!("<1..{length}"), &[23]),
        (format!("1..>{length}"), &[23]),
        (format!("{length}"), &[23]),
        ("1^2".into(), &[23]),
        (format!("join(1..2,3..{length})"), &[23]),
        (format!("1..{}", length + 1), &[23, 25]),
        (format!("1..{}", (1u128 << 32) + length as u128), &[23, 25]),
        (format!("complement(1..{length})"), complement_breaks),
    ];
    let (text, rules) = rng.pick(&choices);
    sequence.table.as_mut()?[f].location.text = text.clone();
    let breaks = rules.iter().map(|&rule| (rule, Field::Location(k, f)));
    Some(breaks.collect())
}

/// Any feature but the source, by its number.
fn any_other(sequence: &Sequence, rng: &mut Rng) -> usize {
    let source = source(sequence);
    let others: Vec<usize> = (0..sequence.features().len())
        .filter(|&f| f != source)
        .collect();
    *rng.pick(&others)
}

/// Gives any feature but the source another location.
fn exchange_location(sequence: &mut Sequence, rng: &mut Rng, text: &str) -> Option<usize> {
    let f = any_other(sequence, rng);
    sequence.table.as_mut()?[f].location.text = text.into();
    Some(f)
}

const NOT_LOCATIONS: [&str; 58] = [
    "",
    "0",
    "01",
    "1..",
    "..1",
    "1...2",
    "1.2",
    "1..2..3",
    "0..1",
    "1..0",
    "1..03",
    ">1..2",
    "1..<2",
    "<>1",
    "><1",
    "<",
    "<<1",
    "1<",
    "1^",
    "^1",
    "1^2^3",
    "<1^2",
    "1^>2",
    "1..2^3",
    "join()",
    "join(1)",
    "join(1..3)",
    "join(1,)",
    "join(,1)",
    "join(1,,2)",
    "join(1,2",
    "join1,2)",
    "join(1, 2)",
    "join (1,2)",
    "order(1)",
    "join(1,join(2,3))",
    "join(order(1,2),3)",
    "order(1,join(2,3))",
    "join(1..3,4^5)",
    "order(1^2,3)",
    "join(complement(1^2),3)",
    "complement()",
    "complement(complement(1))",
    "complement(join(complement(1),2))",
    "complement(order(1..2,complement(3)))",
    "complement(join(1))",
    "complement(join(1,2^3))",
    "complement(1,2)",
    "complement(1",
    "complement(1))",
    "join(complement(join(1,2)),3)",
    "join(complement(1),complement(complement(2)))",
    "1,2",
    " 1",
    "1 ",
    "(1)",
    "Join(1,2)",
    "-1",
];

fn location_grammar(sequence: &mut Sequence, k: usize, rng: &mut Rng) -> Option<Breaks> {
    known(sequence)?;
    let text = *rng.pick(&NOT_LOCATIONS);
    let f = exchange_location(sequence, rng, text)?;
    Some(vec![(24, Field::Location(k, f))])
}

/// Locations of the grammar that break rule 25 in a sequence of four or more.
fn out_of_reach(length: usize) -> Vec<String> {
    let over = length + 1;
    let wrap_32 = (1u128 << 32) + 1;
    let wrap_64 = (1u128 << 64) + 1;
    vec![
        format!("{over}"),
        format!("1..{over}"),
        format!("{over}..{over}"),
        format!("<{over}"),
        format!(">{over}"),
        format!("1..>{over}"),
        format!("<{over}..>{over}"),
        format!("{wrap_32}"),
        format!("{wrap_64}"),
        format!("1..{wrap_32}"),
        format!("{wrap_64}..2"),
        format!("{wrap_32}^2"),
        "9".repeat(30),
        format!("1..{}", "9".repeat(300)),
        "3..2".into(),
        format!("{length}..1"),
        "<3..>2".into(),
        "4^3".into(),
        "1^1".into(),
        "1^3".into(),
        format!("1^{length}"),
        format!("{length}^2"),
        format!("{length}^{over}"),
        format!("{over}^1"),
        format!("join(1..2,{over})"),
        format!("join({over},1)"),
        "order(3..1,2)".into(),
        format!("order(1,<{wrap_32})"),
    ]
}

fn location_reach(sequence: &mut Sequence, k: usize, rng: &mut Rng) -> Option<Breaks> {
    known(sequence)?;
    let mut text = rng.pick(&out_of_reach(sequence.residues.len())).clone();
    let is_complement = rng.chance(30);
    if is_complement {
        text = format!("complement({text})");
    }
    let is_broken_too = is_complement && !sequence.is_nucleic();
    let f = exchange_location(sequence, rng, &text)?;
    let mut breaks = vec![(25, Field::Location(k, f))];
    breaks.extend(is_broken_too.then_some((26, Field::Location(k, f))));
    Some(breaks)
}

fn amino_complement(sequence: &mut Sequence, k: usize, rng: &mut Rng) -> Option<Breaks> {
    known(sequence)?;
    if sequence.is_nucleic() {
        return None;
    }
    let wrong = [
        "complement(1)",
        "complement(<1..>3)",
        "complement(1^2)",
        "join(complement(1),2)",
        "order(3,complement(1..2))",
        "complement(join(1,2))",
        "complement(order(2,1))",
    ];
    let text = *rng.pick(&wrong);
    let f = exchange_location(sequence, rng, text)?;
    Some(vec![(26, Field::Location(k, f))])
}

/// Any feature for which `belongs` says yes, by its number.
fn any_feature(
    sequence: &Sequence,
    rng: &mut Rng,
    belongs: impl Fn(&Feature) -> bool,
) -> Option<usize> {
    let features = sequence.features();
    let fitting: Vec<usize> = (0..features.len())
        .filter(|&f| belongs(&features[f]))
        .collect();
    (!fitting.is_empty()).then(|| *rng.pick(&fitting))
}

fn codon_start(sequence: &mut Sequence, k: usize, rng: &mut Rng) -> Option<Breaks> {
    nucleic(sequence)?;
    let f = any_feature(sequence, rng, |feature| feature.coding != Coding::NotCds)?;
    let qualifiers = sequence.table.as_mut()?[f]
        .qualifiers
        .get_or_insert_with(Vec::new);
    qualifiers.retain(|qualifier| qualifier.name != "codon_start");
    let wrong = ["", "0", "4", "01", " 1", "1 ", "-1", "11", "1&"];
    let values = match rng.below(4) {
        0 => vec![None],
        1 => vec![Some("1"), Some("1")],
        2 => vec![Some("2"), None],
        _ => vec![Some(*rng.pick(&wrong))],
    };
    for value in values {
        let at = rng.below(qualifiers.len() + 1);
        let qualifier = Qualifier {
            name: "codon_start".into(),
            value: value.map(String::from),
        };
        qualifiers.insert(at, qualifier);
    }
    Some(vec![(27, Field::Key(k, f))])
}

/// Any translation qualifier of a judged CDS, by feature and qualifier.
fn any_translation(sequence: &Sequence, rng: &mut Rng) -> Option<(usize, usize)> {
    let f = any_feature(sequence, rng, |feature| {
        matches!(feature.coding, Coding::Letters(_))
    })?;
    let qualifiers = sequence.features()[f].qualifiers();
    let translations: Vec<usize> = (0..qualifiers.len())
        .filter(|&q| qualifiers[q].name == "translation")
        .collect();
    Some((f, *rng.pick(&translations)))
}

/// What is easily stored in place of this letter: `X` in place of any; a mixed codon's letter and its two in place of one another
/// and of `X`.
pub fn mistaken_for(letter: u8) -> impl Iterator<Item = u8> {
    let groups = [b"BND", b"ZQE", b"JIL"].into_iter();
    groups
        .filter(move |group| letter == b'X' || group.contains(&letter))
        .flatten()
        .chain(b"X")
        .copied()
        .filter(move |&other| other != letter)
}

fn mistaken_letter(sequence: &mut Sequence, k: usize, rng: &mut Rng) -> Option<Breaks> {
    nucleic(sequence)?;
    let (f, q) = any_translation(sequence, rng)?;
    let value = &mut sequence.table.as_mut()?[f].qualifiers.as_mut()?[q].value;
    let right = value.as_mut()?;
    let letters = right.bytes().enumerate();
    let mistakes: Vec<(usize, u8)> = letters
        .flat_map(|(at, letter)| mistaken_for(letter).map(move |other| (at, other)))
        .collect();
    if mistakes.is_empty() {
        return None;
    }
    let (at, other) = *rng.pick(&mistakes);
    right.replace_range(at..=at, &char::from(other).to_string());
    Some(vec![(28, Field::QualifierValue(k, f, q))])
}

fn wrong_translation(sequence: &mut Sequence, k: usize, rng: &mut Rng) -> Option<Breaks> {
    nucleic(sequence)?;
    let (f, q) = any_translation(sequence, rng)?;
    let qualifier = &mut sequence.table.as_mut()?[f].qualifiers.as_mut()?[q];
    let right = qualifier.value.clone()?;
    let mut wrong = vec![
        format!("{right}*"),
        format!("{right}M"),
        format!("M{right}"),
        format!("{right} "),
        format!("{right}<"),
    ];
    if !right.is_empty() {
        let last = right.len() - 1;
        wrong.extend([
            String::new(),
            right[..last].into(),
            right[1..].into(),
            right.to_lowercase(),
        ]);
    }
    qualifier.value = Some(rng.pick(&wrong).clone());
    Some(vec![(28, Field::QualifierValue(k, f, q))])
}

fn absent_translation(sequence: &mut Sequence, k: usize, rng: &mut Rng) -> Option<Breaks> {
    nucleic(sequence)?;
    let (f, q) = any_translation(sequence, rng)?;
    sequence.table.as_mut()?[f].qualifiers.as_mut()?[q].value = None;
    Some(vec![(28, Field::QualifierName(k, f, q))])
}

fn stop_inside(sequence: &mut Sequence, k: usize, rng: &mut Rng) -> Option<Breaks> {
    nucleic(sequence)?;
    let f = any_feature(sequence, rng, |feature| {
        feature.coding == Coding::StopInside
    })?;
    let qualifiers = sequence.table.as_mut()?[f]
        .qualifiers
        .get_or_insert_with(Vec::new);
    let mut breaks = Vec::new();
    for value in ["M*K", "*", "", "MKC", "-"] {
        if breaks.is_empty() || rng.chance(30) {
            breaks.push((28, Field::QualifierValue(k, f, qualifiers.len())));
            qualifiers.push(Qualifier::new("translation", value));
        }
    }
    if rng.chance(30) {
        breaks.push((28, Field::QualifierName(k, f, qualifiers.len())));
        qualifiers.push(Qualifier::without_value("translation"));
    }
    Some(breaks)
}

fn skipped_text(sequence: &mut Sequence, k: usize, rng: &mut Rng) -> Option<Breaks> {
    if !sequence.is_skipped() {
        return None;
    }
    let (text, wrong): (&mut String, &[&str]) = match rng.below(3) {
        0 => (&mut sequence.length, &["3", " ", "0", "&"]),
        1 => (&mut sequence.moltype, &["DNA", "AA", " ", "none"]),
        _ => (&mut sequence.division, &["PAT", " ", "pat", "\""]),
    };
    exchange(text, rng, wrong);
    Some(vec![(29, Field::Residues(k))])
}

fn skipped_element(sequence: &mut Sequence, k: usize, rng: &mut Rng) -> Option<Breaks> {
    if !sequence.is_skipped() {
        return None;
    }
    let choices = [None, Some("pat|WO|1|A1|1".to_string())];
    if rng.chance(60) {
        sequence.other_seqids = Some(rng.pick(&choices).clone());
    } else {
        // A location that no rule looks at, since the sequence is skipped.
        let place = Place {
            text: "nowhere".into(),
            operator: Operator::None,
            spans: Vec::new(),
            is_unclear: false,
        };
        sequence.table = Some(vec![Feature {
            key: "source".into(),
            location: place,
            qualifiers: None,
            coding: Coding::NotCds,
        }]);
    }
    Some(vec![(29, Field::Residues(k))])
}

/// What a feature breaks of rules 41 and 42 if its key is known.
fn vocabulary_breaks(sequence: &Sequence, k: usize, f: usize) -> Breaks {
    let kind = sequence.kind();
    let feature = &sequence.features()[f];
    let key = vocabulary::known(kind, &feature.key).expect("a known key");
    let names: Vec<&str> = feature
        .qualifiers()
        .iter()
        .map(|q| q.name.as_str())
        .collect();
    let allowed: Vec<&str> = key.spelled(kind).collect();
    let is_missing = |name| !spellings(kind, name).any(|spelling| names.contains(&spelling));
    let mut breaks: Breaks = (0..names.len())
        .filter(|&q| !allowed.contains(&names[q]))
        .map(|q| (41, Field::QualifierName(k, f, q)))
        .collect();
    breaks.extend(
        key.required()
            .any(is_missing)
            .then_some((42, Field::Key(k, f))),
    );
    breaks
}

fn other_kind(kind: Kind) -> Kind {
    match kind {
        Kind::Aa => Kind::Dna,
        Kind::Dna | Kind::Rna => Kind::Aa,
    }
}

/// Nearly this name.
fn misspelled(rng: &mut Rng, name: &str) -> String {
    let last = name.len() - 1;
    let at = rng.below(name.len());
    let (before, after) = name.split_at(at);
    match rng.below(8) {
        // `exonn`, `exo` and `exom`.
        0 => format!("{name}{}", &name[last..]),
        1 => name[..last].into(),
        2 => format!("{}{}", &name[..last], rng.pick(&["m", "E", "_", "'"])),
        3 => name.to_uppercase(),
        4 => name.to_lowercase(),
        5 if after.starts_with(char::is_lowercase) => {
            format!("{before}{}{}", after[..1].to_uppercase(), &after[1..])
        }
        5 => format!("{before}{}{}", after[..1].to_lowercase(), &after[1..]),
        // As an entity, or a blank.
        6 => format!(
            "{before}{}{after}",
            rng.pick(&["<", ">", "&", "\"", "'", " "])
        ),
        _ => format!(
            "{}{}",
            rng.pick(&["", " ", "misc_"]),
            rng.pick(&["", " ", name])
        ),
    }
}

/// The key of any feature becomes one that its kind doesn't know.
fn unknown_key(sequence: &mut Sequence, k: usize, rng: &mut Rng) -> Option<Breaks> {
    known(sequence)?;
    let kind = sequence.kind();
    let source = source(sequence);
    let f = rng.below(sequence.features().len());
    let key = loop {
        let key = if rng.chance(20) {
            rng.pick(keys(other_kind(kind))).name.into()
        } else {
            let near = rng.pick(keys(kind)).name;
            misspelled(rng, near)
        };
        if vocabulary::known(kind, &key).is_none() {
            break key;
        }
    };
    sequence.table.as_mut()?[f].key = key;
    let mut breaks = vec![(40, Field::Key(k, f))];
    breaks.extend((f == source).then_some((21, Field::Table(k))));
    Some(breaks)
}

/// Any feature gets a name or two that its key doesn't allow.
fn unknown_names(sequence: &mut Sequence, k: usize, rng: &mut Rng) -> Option<Breaks> {
    known(sequence)?;
    let kind = sequence.kind();
    let f = rng.below(sequence.features().len());
    let feature = &mut sequence.table.as_mut()?[f];
    let key = vocabulary::known(kind, &feature.key)?;
    let allowed: Vec<&str> = key.spelled(kind).collect();
    let qualifiers = feature.qualifiers.get_or_insert_with(Vec::new);
    for _ in 0..rng.between(1, 2) {
        let name = loop {
            let name = match rng.below(4) {
                0 => (*rng.pick(vocabulary::qualifiers(kind))).into(),
                1 => (*rng.pick(vocabulary::qualifiers(other_kind(kind)))).into(),
                _ => {
                    let near = *rng.pick(&allowed);
                    misspelled(rng, near)
                }
            };
            if !allowed.contains(&name.as_str()) {
                break name;
            }
        };
        let at = rng.below(qualifiers.len() + 1);
        let value = rng.chance(80).then(|| "1".to_string());
        qualifiers.insert(at, Qualifier { name, value });
    }
    Some(vocabulary_breaks(sequence, k, f))
}

/// Any feature but the source gets a key that requires something, and not all of that.
fn missing_names(sequence: &mut Sequence, k: usize, rng: &mut Rng) -> Option<Breaks> {
    known(sequence)?;
    let kind = sequence.kind();
    let f = any_other(sequence, rng);
    let requiring: Vec<&Key> = keys(kind)
        .iter()
        .filter(|key| key.required().next().is_some())
        // A second source would break rule 21.
        .filter(|key| kind == Kind::Aa || key.name != "source")
        .collect();
    let key = *rng.pick(&requiring);
    let required: Vec<&str> = key.required().collect();
    let left_out = if rng.chance(50) {
        required.clone()
    } else {
        vec![*rng.pick(&required)]
    };
    let mut qualifiers = valid::qualifiers(rng, kind, key);
    qualifiers.retain(|qualifier| {
        let mut left_out = left_out.iter().flat_map(|name| spellings(kind, name));
        !left_out.any(|name| name == qualifier.name)
    });
    let feature = &mut sequence.table.as_mut()?[f];
    feature.key = key.name.into();
    feature.qualifiers = Some(qualifiers);
    Some(vec![(42, Field::Key(k, f))])
}
