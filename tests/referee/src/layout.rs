//! Rules 1 and 2: document 01's layout as a regular expression.

use crate::automaton::Automaton;
use crate::regex::{choice, literal, one, optional, plus, sequence, star, Regex};
use crate::Refusal;

/// "16,777,216 bytes is the longest listing."
pub const LONGEST: usize = 16_777_216;

thread_local! {
    static LAYOUT: Automaton = Automaton::new(&grammar());
}

/// Judges rules 1 and 2 alone.
pub fn layout(input: &[u8]) -> Result<(), Refusal> {
    if input.len() > LONGEST {
        return Err(Refusal { rule: 1, place: 0 });
    }
    LAYOUT
        .with(|automaton| automaton.run(input))
        .map_err(|place| Refusal { rule: 2, place })
}

/// The whole layout, one definition for each element, in document 01's order.
pub fn grammar() -> Regex {
    sequence([
        literal(r#"<?xml version="1.0" encoding="UTF-8"?>"#),
        blanks(),
        document_type(),
        blanks(),
        root(),
        blanks(),
    ])
}

fn document_type() -> Regex {
    sequence([
        literal("<!DOCTYPE"),
        gap(),
        literal("ST26SequenceListing"),
        gap(),
        literal("PUBLIC"),
        gap(),
        literal(r#""-//WIPO//DTD Sequence Listing 1.2//EN""#),
        gap(),
        literal(r#""ST26SequenceListing_V1_2.dtd">"#),
    ])
}

fn root() -> Regex {
    let attributes = sequence([
        attribute("dtdVersion"),
        optional(attribute("fileName")),
        optional(attribute("softwareName")),
        optional(attribute("softwareVersion")),
        optional(attribute("productionDate")),
    ]);
    let children = sequence([
        choice([
            child(text_element("ApplicantFileReference")),
            sequence([
                child(identification("ApplicationIdentification")),
                optional(child(text_element("ApplicantFileReference"))),
            ]),
        ]),
        optional(child(identification(
            "EarliestPriorityApplicationIdentification",
        ))),
        optional(sequence([
            child(worded_element("ApplicantName")),
            optional(child(text_element("ApplicantNameLatin"))),
        ])),
        optional(sequence([
            child(worded_element("InventorName")),
            optional(child(text_element("InventorNameLatin"))),
        ])),
        plus(child(worded_element("InventionTitle"))),
        child(text_element("SequenceTotalQuantity")),
        plus(child(sequence_data())),
    ]);
    element("ST26SequenceListing", attributes, within(children))
}

fn identification(name: &str) -> Regex {
    let children = sequence([
        optional(child(text_element("IPOfficeCode"))),
        child(text_element("ApplicationNumberText")),
        optional(child(text_element("FilingDate"))),
    ]);
    element(name, nothing(), within(children))
}

fn sequence_data() -> Regex {
    element(
        "SequenceData",
        attribute("sequenceIDNumber"),
        within(child(insd_seq())),
    )
}

fn insd_seq() -> Regex {
    let children = sequence([
        child(text_element("INSDSeq_length")),
        child(text_element("INSDSeq_moltype")),
        child(text_element("INSDSeq_division")),
        optional(child(other_seqids())),
        optional(child(feature_table())),
        child(text_element("INSDSeq_sequence")),
    ]);
    element("INSDSeq", nothing(), within(children))
}

fn other_seqids() -> Regex {
    let children = optional(child(text_element("INSDSeqid")));
    element_or_empty("INSDSeq_other-seqids", nothing(), within(children))
}

fn feature_table() -> Regex {
    let children = plus(child(feature()));
    element("INSDSeq_feature-table", nothing(), within(children))
}

fn feature() -> Regex {
    let children = sequence([
        child(text_element("INSDFeature_key")),
        child(text_element("INSDFeature_location")),
        optional(child(qualifiers())),
    ]);
    element("INSDFeature", nothing(), within(children))
}

fn qualifiers() -> Regex {
    let children = star(child(qualifier()));
    element_or_empty("INSDFeature_quals", nothing(), within(children))
}

fn qualifier() -> Regex {
    let children = sequence([
        child(text_element("INSDQualifier_name")),
        optional(child(text_element("INSDQualifier_value"))),
    ]);
    element("INSDQualifier", nothing(), within(children))
}

/// An element that holds text and has no attribute.
fn text_element(name: &str) -> Regex {
    element_or_empty(name, nothing(), text())
}

/// One of the three texts in a language, where high bytes may stand.
fn worded_element(name: &str) -> Regex {
    element_or_empty(name, attribute("languageCode"), wide_text())
}

/// A start tag, the content, an end tag.
fn element(name: &str, attributes: Regex, content: Regex) -> Regex {
    sequence([start(name, attributes), body(name, content)])
}

/// An element that may also be written `<X/>`.
fn element_or_empty(name: &str, attributes: Regex, content: Regex) -> Regex {
    sequence([
        start(name, attributes),
        choice([literal("/>"), body(name, content)]),
    ])
}

/// A start tag up to its close.
fn start(name: &str, attributes: Regex) -> Regex {
    sequence([literal("<"), literal(name), attributes, blanks()])
}

/// What follows an open start tag: its close, the content and the end tag.
fn body(name: &str, content: Regex) -> Regex {
    sequence([
        literal(">"),
        content,
        literal("</"),
        literal(name),
        blanks(),
        literal(">"),
    ])
}

/// The blanks before the first child, then the children.
fn within(children: Regex) -> Regex {
    sequence([blanks(), children])
}

/// A child and the blanks after it.
fn child(element: Regex) -> Regex {
    sequence([element, blanks()])
}

/// One attribute and the blanks before it.
fn attribute(name: &str) -> Regex {
    sequence([gap(), literal(name), literal("=\""), text(), literal("\"")])
}

fn text() -> Regex {
    star(character(plain_byte))
}

fn wide_text() -> Regex {
    star(character(|byte| plain_byte(byte) || byte >= 128))
}

fn character(stands_for_itself: impl Fn(u8) -> bool) -> Regex {
    choice([
        one(stands_for_itself),
        literal("&lt;"),
        literal("&gt;"),
        literal("&amp;"),
        literal("&quot;"),
        literal("&apos;"),
    ])
}

fn plain_byte(byte: u8) -> bool {
    (32..=126).contains(&byte) && !b"<>&\"'".contains(&byte)
}

/// One or more blanks.
fn gap() -> Regex {
    plus(one(|byte| b" \t\r\n".contains(&byte)))
}

/// Any blanks.
fn blanks() -> Regex {
    optional(gap())
}

fn nothing() -> Regex {
    sequence([])
}
