//! A refusal, as lines, in words, or as JSON.

use crate::answer::Lent;
use crate::json::{Fields, Json};
use crate::place::{marked, position, stretch, Position};
use dreichnook::Refusal;
use std::io::{self, Write};

/// A refusal of what it came from.
pub struct Refused<'a> {
    pub lent: Lent<'a>,
    pub refusal: Refusal,
}

impl Refused<'_> {
    /// What document 01's program prints. Told apart are an index, and a question that an accepted listing has no answer
    /// to.
    pub fn write(&self, out: &mut impl Write) -> io::Result<()> {
        let Refusal { number, place } = self.refusal;
        writeln!(out, "{} refused\nrule {number}\nplace {place}", self.what())
    }

    /// One line in words, in the way of compilers, which editors can follow.
    pub fn write_words(&self, name: &str, out: &mut impl Write) -> io::Result<()> {
        write!(out, "{name}")?;
        if let Some(Position { line, column }) = self.position() {
            write!(out, ":{line}:{column}")?;
        }
        let Refusal { number, .. } = self.refusal;
        write!(out, ": rule {number}: {}", self.refusal.words())?;
        if let Some(explanation) = self.explanation() {
            write!(out, ": {explanation}")?;
        }
        writeln!(out)
    }

    /// The page of `show` for a refused listing: the rule in words, the line with a mark, and what can be said of it. For
    /// an index: the rule in words, and where it differs.
    pub fn write_page(&self, name: &str, out: &mut impl Write) -> io::Result<()> {
        let Refusal { number, place } = self.refusal;
        writeln!(out, "{name}: refused")?;
        writeln!(out, "rule {number}: {}", self.refusal.words())?;
        if let Some(Position { line, column }) = self.position() {
            writeln!(out, "byte {place}, line {line}, column {column}:\n")?;
            let [line, mark] = marked(self.lent.listing, place as usize);
            writeln!(out, "    {line}\n    {mark}")?;
            if place as usize == self.lent.listing.len() {
                writeln!(out, "\nThe listing ends there, too soon.")?;
            } else if number == Refusal::NOT_THE_LAYOUT {
                writeln!(
                    out,
                    "\nAll before that byte begins a listing; with it, nothing does."
                )?;
            } else if let Some(explanation) = self.explanation() {
                writeln!(out, "\n{explanation}")?;
            }
        } else if let Some(explanation) = self.explanation() {
            writeln!(out, "byte {place} of the index:\n\n{explanation}")?;
        }
        Ok(())
    }

    pub fn json(&self) -> Fields {
        let Refusal { number, place } = self.refusal;
        let mut fields = vec![
            (self.what(), Json::from("refused")),
            ("rule", u64::from(number).into()),
            ("place", place.into()),
            ("words", self.refusal.words().into()),
        ];
        if let Some(Position { line, column }) = self.position() {
            fields.push(("line", line.into()));
            fields.push(("column", column.into()));
            let stretch = stretch(self.lent.listing, place as usize);
            fields.push(("stretch", Json::Text(stretch)));
        }
        if let Some(explanation) = self.explanation() {
            fields.push(("explanation", Json::Text(explanation)));
        }
        fields
    }

    fn what(&self) -> &'static str {
        if self.refusal.is_of_listing() {
            "verdict"
        } else if self.refusal.is_of_index() {
            "index"
        } else {
            "answer"
        }
    }

    fn explanation(&self) -> Option<String> {
        let Lent { listing, index } = self.lent;
        let index = index.unwrap_or_default();
        self.refusal.explanation_with_index(listing, index)
    }

    /// Where the fault stands in the listing; one that is too long has it nowhere, and neither has a question.
    fn position(&self) -> Option<Position> {
        let Refusal { number, place } = self.refusal;
        let somewhere = self.refusal.is_of_listing() && number != Refusal::TOO_LONG;
        somewhere.then(|| position(self.lent.listing, place as usize))
    }
}
