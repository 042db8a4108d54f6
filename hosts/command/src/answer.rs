//! One question's answer, as lines or as JSON.

use crate::arguments::Question;
use crate::json::{Fields, Json};
use dreichnook::{visible, Counts, Feature, Listing, Part, Qualifier, Refusal, Sequence, Span};
use std::io::{self, Write};

pub enum Answer<'a> {
    /// `indexed`: an index was lent, and is the listing's.
    Counts {
        counts: Counts,
        indexed: bool,
    },
    Sequence(Sequence<'a>),
    Feature(Feature<'a>),
    Qualifier(Qualifier<'a>),
    Translation(Vec<u8>),
    Translations(Vec<u8>),
}

/// What is asked about: a listing, and the index beside it.
#[derive(Clone, Copy)]
pub struct Lent<'a> {
    pub listing: &'a [u8],
    pub index: Option<&'a [u8]>,
}

/// Asks the library; of `show` only the verdict that it starts with.
pub fn ask(lent: Lent<'_>, question: Question) -> Result<Answer<'_>, Refusal> {
    let Lent { listing, index } = lent;
    let listing = Listing::new(listing);
    let lookups = match index {
        Some(index) => listing.with_index(index),
        None => *listing,
    };
    Ok(match question {
        Question::Check | Question::Show { .. } => {
            if let Some(index) = index {
                listing.index_check(index)?;
            }
            Answer::Counts {
                counts: listing.check()?,
                indexed: index.is_some(),
            }
        }
        Question::Sequence(k) => Answer::Sequence(lookups.sequence(k)?),
        Question::Feature(k, j) => Answer::Feature(lookups.feature(k, j)?),
        Question::Qualifier(k, j, i) => Answer::Qualifier(lookups.qualifier(k, j, i)?),
        Question::Translation(k, j) => Answer::Translation(lookups.translation(k, j)?),
        Question::Translations(k) => Answer::Translations(lookups.translations(k)?),
    })
}

impl Answer<'_> {
    /// As lines of a word and what it says; translations as they are.
    pub fn write(&self, out: &mut impl Write) -> io::Result<()> {
        match self {
            Answer::Counts { counts, indexed } => {
                writeln!(out, "verdict accepted")?;
                for (word, count) in figures(counts) {
                    writeln!(out, "{word} {count}")?;
                }
                if *indexed {
                    writeln!(out, "index accepted")?;
                }
                Ok(())
            }
            Answer::Sequence(sequence) => {
                writeln!(out, "kind {}", sequence.kind)?;
                writeln!(out, "size {}", sequence.residues.bytes.len())?;
                writeln!(out, "residues {}", visible(sequence.residues.bytes))
            }
            Answer::Feature(feature) => {
                writeln!(out, "key {}", visible(feature.key.bytes))?;
                writeln!(out, "location {}", visible(feature.location.bytes))?;
                writeln!(out, "operator {}", feature.operator)?;
                writeln!(out, "count {}", feature.spans.len())?;
                for span in &feature.spans {
                    let Span { first, last, marks } = span;
                    write!(out, "span {first} {last} {marks}")?;
                    for word in mark_words(span) {
                        write!(out, " {word}")?;
                    }
                    writeln!(out)?;
                }
                Ok(())
            }
            Answer::Qualifier(qualifier) => {
                writeln!(out, "name {}", visible(qualifier.name.bytes))?;
                match qualifier.value {
                    Some(value) => writeln!(out, "present yes\nvalue {}", visible(value.bytes)),
                    None => writeln!(out, "present no"),
                }
            }
            Answer::Translation(letters) => writeln!(out, "{}", visible(letters)),
            Answer::Translations(lines) => out.write_all(lines),
        }
    }

    pub fn json(&self) -> Fields {
        match self {
            Answer::Counts { counts, indexed } => {
                let accepted = |word| (word, Json::from("accepted"));
                let counts = figures(counts).map(|(word, count)| (word, Json::from(count)));
                let index = indexed.then(|| accepted("index"));
                let verdict = [accepted("verdict")].into_iter();
                verdict.chain(counts).chain(index).collect()
            }
            Answer::Sequence(Sequence { kind, residues }) => vec![
                ("kind", Json::Text(kind.to_string())),
                ("residues", part(residues)),
            ],
            Answer::Feature(feature) => vec![
                ("key", part(&feature.key)),
                ("location", part(&feature.location)),
                ("operator", Json::Text(feature.operator.to_string())),
                ("count", feature.spans.len().into()),
                (
                    "spans",
                    Json::List(feature.spans.iter().map(span).collect()),
                ),
            ],
            Answer::Qualifier(Qualifier { name, value }) => vec![
                ("name", part(name)),
                ("value", value.as_ref().map_or(Json::Null, part)),
            ],
            Answer::Translation(letters) => vec![
                ("size", letters.len().into()),
                ("translation", text(letters)),
            ],
            Answer::Translations(lines) => vec![
                ("size", lines.len().into()),
                ("translations", Json::List(each(lines).collect())),
            ],
        }
    }
}

/// Document 01's figures of an accepted listing, in its order.
pub fn figures(counts: &Counts) -> [(&'static str, u64); 5] {
    [
        ("total", counts.total),
        ("skipped", counts.skipped),
        ("features", counts.features),
        ("judged", counts.judged),
        ("unjudged", counts.unjudged),
    ]
}

/// The marks of a span in words; `<` and `>` as they are written.
pub fn mark_words(span: &Span) -> impl Iterator<Item = &'static str> {
    let marks = span.marks;
    [
        (Span::COMPLEMENT, "complement"),
        (Span::BEFORE, "<"),
        (Span::AFTER, ">"),
        (Span::SITE, "site"),
    ]
    .into_iter()
    .filter(move |(mark, _)| marks & mark != 0)
    .map(|(_, word)| word)
}

fn part(part: &Part) -> Json {
    Json::Object(vec![
        ("start", part.start.into()),
        ("size", part.bytes.len().into()),
        ("text", text(part.bytes)),
    ])
}

fn span(span: &Span) -> Json {
    Json::Object(vec![
        ("first", u64::from(span.first).into()),
        ("last", u64::from(span.last).into()),
        ("marks", u64::from(span.marks).into()),
    ])
}

/// All translations one by one; null for one that is `-`.
fn each(lines: &[u8]) -> impl Iterator<Item = Json> + '_ {
    // Each is closed by byte 10, so nothing stands behind the last.
    lines.split_inclusive(|&byte| byte == b'\n').map(|line| {
        match line.strip_suffix(b"\n").unwrap_or(line) {
            b"-" => Json::Null,
            letters => text(letters),
        }
    })
}

fn text(bytes: &[u8]) -> Json {
    Json::Text(String::from_utf8_lossy(bytes).into())
}
