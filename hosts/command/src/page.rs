//! The page of `show` for an accepted listing.

use crate::answer::mark_words;
use crate::show::{ShownFeature, ShownSequence, Walk};
use dreichnook::{short, visible, Counts, Feature, Operator, Span};
use std::io::{self, Write};

/// A page stays readable: of residues and of spans the first ones are shown.
const LINES: usize = 5;
const SPANS: usize = 8;

/// Residues in a line, in groups of ten.
const LINE: usize = 60;

pub fn write_head(
    name: &str,
    counts: &Counts,
    indexed: bool,
    out: &mut impl Write,
) -> io::Result<()> {
    let Counts {
        total,
        skipped,
        features,
        judged,
        unjudged,
    } = counts;
    writeln!(out, "{name}: accepted")?;
    writeln!(
        out,
        "sequences {total}, of them skipped {skipped}; features {features}"
    )?;
    writeln!(out, "coding sequences judged {judged}, unjudged {unjudged}")?;
    if indexed {
        writeln!(out, "the index beside it is its own")?;
    }
    Ok(())
}

pub fn write_sequence(shown: &ShownSequence, out: &mut impl Write) -> io::Result<()> {
    let number = shown.number;
    let sequence = match shown.sequence {
        Some(sequence) => sequence,
        None => return writeln!(out, "\nsequence {number}: skipped"),
    };
    let residues = sequence.residues.bytes;
    let (kind, size) = (sequence.kind, residues.len());
    writeln!(out, "\nsequence {number}: {kind}, {size} residues")?;
    for (line, first) in residues.chunks(LINE).zip((1..).step_by(LINE)).take(LINES) {
        write!(out, "{first:>8}")?;
        for group in line.chunks(10) {
            write!(out, " {}", visible(group))?;
        }
        writeln!(out)?;
    }
    if size > LINE * LINES {
        writeln!(out, "         ..")?;
    }
    for (feature, j) in shown.features.iter().zip(1u64..) {
        write_feature(j, feature, out)?;
    }
    Ok(())
}

fn write_feature(number: u64, shown: &ShownFeature, out: &mut impl Write) -> io::Result<()> {
    let Feature {
        key,
        location,
        operator,
        spans,
    } = &shown.feature;
    writeln!(
        out,
        "  feature {number}: {}  {}",
        visible(key.bytes),
        short(location.bytes)
    )?;
    let mut shown_spans: Vec<_> = spans.iter().take(SPANS).map(span).collect();
    if spans.len() > SPANS {
        shown_spans.push(format!(".. ({} spans)", spans.len()));
    }
    let operator = match operator {
        Operator::None => String::new(),
        operator => format!("{operator}: "),
    };
    writeln!(out, "    spans {operator}{}", shown_spans.join(", "))?;
    match &shown.translation {
        Some(Ok(letters)) => writeln!(out, "    translation {}", short(letters))?,
        Some(Err(refusal)) => writeln!(out, "    translation {refusal}")?,
        None => {}
    }
    for qualifier in &shown.qualifiers {
        let name = visible(qualifier.name.bytes);
        match qualifier.value {
            Some(value) => writeln!(out, "    /{name}=\"{}\"", short(value.bytes))?,
            None => writeln!(out, "    /{name}")?,
        }
    }
    Ok(())
}

/// What isn't shown, and how to see it.
pub fn write_foot(walk: &Walk, total: u64, out: &mut impl Write) -> io::Result<()> {
    let next = match walk.next_number() {
        Some(next) => next,
        None => return Ok(()),
    };
    if walk.stopped_amid().is_some() {
        writeln!(out, "\nStopped amid sequence {next} of {total}.")?;
        writeln!(
            out,
            "For features, translations and qualifiers the listing is checked each time, and these were many. \
             --limit N shows N sequences to their end, however long it takes."
        )?;
    } else {
        writeln!(out, "\nNot shown: sequences {next} to {total}.")?;
    }
    writeln!(out, "Go on with --from {next}")
}

fn span(span: &Span) -> String {
    let mut text = format!("{} to {}", span.first, span.last);
    for word in mark_words(span) {
        text.push(' ');
        text.push_str(word);
    }
    text
}
