//! Writes the generator's picture of a listing as bytes and notes the places of its values.

use super::model::{Feature, Field, Identification, Model, Name, Qualifier, Sequence, Worded};
use super::rng::Rng;
use crate::Part;
use std::collections::HashMap;

/// A written listing.
pub struct Written {
    pub bytes: Vec<u8>,
    /// Where each value of interest stands.
    pub spots: HashMap<Field, Spot>,
}

/// Where a value stands: its place by document 01 and its raw stretch.
#[derive(Clone, Copy)]
pub struct Spot {
    pub place: usize,
    pub part: Part,
}

impl Written {
    /// The place of a field of this model; a residue stands behind those before it, each as it is written.
    pub fn place(&self, model: &Model, field: Field) -> usize {
        if let Field::Residue(k, number) = field {
            let residues = model.sequences[k].residues.as_bytes();
            let mut before = Vec::new();
            escape(&residues[..number], &mut before);
            self.spots[&Field::Residues(k)].place + before.len()
        } else {
            self.spots[&field].place
        }
    }
}

/// Writes the listing; optional blanks stand this many times in a hundred.
pub fn write(model: &Model, blank_percent: usize, rng: &mut Rng) -> Written {
    let mut writer = Writer {
        rng,
        blank_percent,
        bytes: Vec::new(),
        spots: HashMap::new(),
    };
    writer.listing(model);
    Written {
        bytes: writer.bytes,
        spots: writer.spots,
    }
}

/// Writes a text with its reserved characters replaced.
pub fn escape(text: &[u8], written: &mut Vec<u8>) {
    for &byte in text {
        match byte {
            b'<' => written.extend_from_slice(b"&lt;"),
            b'>' => written.extend_from_slice(b"&gt;"),
            b'&' => written.extend_from_slice(b"&amp;"),
            b'"' => written.extend_from_slice(b"&quot;"),
            b'\'' => written.extend_from_slice(b"&apos;"),
            _ => written.push(byte),
        }
    }
}

struct Writer<'r> {
    rng: &'r mut Rng,
    blank_percent: usize,
    bytes: Vec<u8>,
    spots: HashMap<Field, Spot>,
}

/// An attribute: its name, its field if of interest, its text.
type Attribute<'m> = (&'static str, Option<Field>, &'m str);

impl Writer<'_> {
    fn raw(&mut self, text: &str) {
        self.bytes.extend_from_slice(text.as_bytes());
    }

    /// Any blanks.
    fn blanks(&mut self) {
        if self.rng.chance(self.blank_percent) {
            self.gap();
        }
    }

    /// One or more blanks.
    fn gap(&mut self) {
        if self.blank_percent == 0 {
            self.raw(" ");
            return;
        }
        for _ in 0..self.rng.between(1, 3) {
            let blank = *self.rng.pick(b" \t\r\n");
            self.bytes.push(blank);
        }
    }

    /// Notes the value that starts at `start` and ends here.
    fn note(&mut self, field: Option<Field>, place: usize, start: usize) {
        let part = Part {
            start,
            size: self.bytes.len() - start,
        };
        if let Some(field) = field {
            self.spots.insert(field, Spot { place, part });
        }
    }

    /// A start tag up to its close.
    fn start(&mut self, name: &str, attributes: &[Attribute]) {
        self.raw("<");
        self.raw(name);
        for &(name, field, text) in attributes {
            self.gap();
            self.raw(name);
            self.raw("=\"");
            let place = self.bytes.len();
            escape(text.as_bytes(), &mut self.bytes);
            self.note(field, place, place);
            self.raw("\"");
        }
        self.blanks();
    }

    fn end(&mut self, name: &str) {
        self.raw("</");
        self.raw(name);
        self.blanks();
        self.raw(">");
    }

    /// An element that holds text.
    fn text(&mut self, name: &str, attributes: &[Attribute], field: Option<Field>, text: &[u8]) {
        let tag = self.bytes.len();
        self.start(name, attributes);
        if text.is_empty() && self.rng.chance(60) {
            self.note(field, tag, self.bytes.len());
            self.raw("/>");
        } else {
            self.raw(">");
            let place = self.bytes.len();
            escape(text, &mut self.bytes);
            self.note(field, place, place);
            self.end(name);
        }
    }

    /// A child element that holds text and has no attribute.
    fn child(&mut self, name: &str, field: Option<Field>, text: &str) {
        self.text(name, &[], field, text.as_bytes());
        self.blanks();
    }

    fn optional_child(&mut self, name: &str, field: Option<Field>, text: &Option<String>) {
        if let Some(text) = text {
            self.child(name, field, text);
        }
    }

    /// An element that holds elements.
    fn holder(&mut self, name: &str, attributes: &[Attribute], children: impl FnOnce(&mut Self)) {
        self.start(name, attributes);
        self.raw(">");
        self.blanks();
        children(self);
        self.end(name);
        self.blanks();
    }

    /// An element that could hold elements and holds none.
    fn empty_holder(&mut self, name: &str) {
        if self.rng.chance(50) {
            self.start(name, &[]);
            self.raw("/>");
            self.blanks();
        } else {
            self.holder(name, &[], |_| ());
        }
    }

    fn listing(&mut self, model: &Model) {
        self.raw(r#"<?xml version="1.0" encoding="UTF-8"?>"#);
        self.blanks();
        let pieces = [
            "<!DOCTYPE",
            "ST26SequenceListing",
            "PUBLIC",
            r#""-//WIPO//DTD Sequence Listing 1.2//EN""#,
        ];
        for piece in pieces {
            self.raw(piece);
            self.gap();
        }
        self.raw(r#""ST26SequenceListing_V1_2.dtd">"#);
        self.blanks();
        let header = &model.header;
        let mut attributes: Vec<Attribute> =
            vec![("dtdVersion", Some(Field::DtdVersion), &header.dtd_version)];
        for (name, field, text) in [
            ("fileName", None, &header.file_name),
            ("softwareName", None, &header.software_name),
            ("softwareVersion", None, &header.software_version),
            (
                "productionDate",
                Some(Field::ProductionDate),
                &header.production_date,
            ),
        ] {
            attributes.extend(text.as_ref().map(|text| (name, field, text.as_str())));
        }
        self.holder("ST26SequenceListing", &attributes, |writer| {
            writer.general_part(model);
            for (k, sequence) in model.sequences.iter().enumerate() {
                writer.sequence_data(k, sequence);
            }
        });
    }

    fn general_part(&mut self, model: &Model) {
        let header = &model.header;
        let application = (Field::ApplicationOffice, Field::ApplicationDate);
        let priority = (Field::PriorityOffice, Field::PriorityDate);
        self.identification(
            "ApplicationIdentification",
            application,
            &header.application,
        );
        self.optional_child("ApplicantFileReference", None, &header.file_reference);
        self.identification(
            "EarliestPriorityApplicationIdentification",
            priority,
            &header.priority,
        );
        self.name("ApplicantName", Field::ApplicantLanguage, &header.applicant);
        self.name("InventorName", Field::InventorLanguage, &header.inventor);
        for (number, title) in header.titles.iter().enumerate() {
            self.worded("InventionTitle", Field::TitleLanguage(number), title);
        }
        self.child("SequenceTotalQuantity", Some(Field::Total), &header.total);
    }

    fn identification(
        &mut self,
        name: &str,
        (office, date): (Field, Field),
        identification: &Option<Identification>,
    ) {
        if let Some(identification) = identification {
            self.holder(name, &[], |writer| {
                writer.optional_child("IPOfficeCode", Some(office), &identification.office);
                writer.child("ApplicationNumberText", None, &identification.number);
                writer.optional_child("FilingDate", Some(date), &identification.date);
            });
        }
    }

    fn name(&mut self, element: &str, language: Field, name: &Option<Name>) {
        if let Some(Name { name, latin }) = name {
            self.worded(element, language, name);
            self.optional_child(&format!("{element}Latin"), None, latin);
        }
    }

    fn worded(&mut self, element: &str, language: Field, worded: &Worded) {
        let attribute = ("languageCode", Some(language), worded.language.as_str());
        self.text(element, &[attribute], None, &worded.text);
        self.blanks();
    }

    fn sequence_data(&mut self, k: usize, sequence: &Sequence) {
        let id = ("sequenceIDNumber", Some(Field::Id(k)), sequence.id.as_str());
        self.holder("SequenceData", &[id], |writer| {
            writer.holder("INSDSeq", &[], |writer| writer.sequence(k, sequence));
        });
    }

    fn sequence(&mut self, k: usize, sequence: &Sequence) {
        self.child("INSDSeq_length", Some(Field::Length(k)), &sequence.length);
        self.child(
            "INSDSeq_moltype",
            Some(Field::Moltype(k)),
            &sequence.moltype,
        );
        self.child(
            "INSDSeq_division",
            Some(Field::Division(k)),
            &sequence.division,
        );
        match &sequence.other_seqids {
            Some(Some(id)) => self.holder("INSDSeq_other-seqids", &[], |writer| {
                writer.child("INSDSeqid", None, id);
            }),
            Some(None) => self.empty_holder("INSDSeq_other-seqids"),
            None => (),
        }
        if let Some(features) = &sequence.table {
            let tag = self.bytes.len();
            self.note(Some(Field::Table(k)), tag, tag);
            self.holder("INSDSeq_feature-table", &[], |writer| {
                for (f, feature) in features.iter().enumerate() {
                    writer.holder("INSDFeature", &[], |writer| writer.feature(k, f, feature));
                }
            });
        }
        self.child(
            "INSDSeq_sequence",
            Some(Field::Residues(k)),
            &sequence.residues,
        );
    }

    fn feature(&mut self, k: usize, f: usize, feature: &Feature) {
        let location = Some(Field::Location(k, f));
        self.child("INSDFeature_key", Some(Field::Key(k, f)), &feature.key);
        self.child("INSDFeature_location", location, &feature.location.text);
        match feature.qualifiers.as_deref() {
            Some([]) => self.empty_holder("INSDFeature_quals"),
            Some(qualifiers) => self.holder("INSDFeature_quals", &[], |writer| {
                for (q, qualifier) in qualifiers.iter().enumerate() {
                    writer.qualifier(k, f, q, qualifier);
                }
            }),
            None => (),
        }
    }

    fn qualifier(&mut self, k: usize, f: usize, q: usize, qualifier: &Qualifier) {
        let name = Some(Field::QualifierName(k, f, q));
        let value = Some(Field::QualifierValue(k, f, q));
        self.holder("INSDQualifier", &[], |writer| {
            writer.child("INSDQualifier_name", name, &qualifier.name);
            writer.optional_child("INSDQualifier_value", value, &qualifier.value);
        });
    }
}
