//! The tree of a listing, taken from a text that is of the layout.

use crate::text::{Part, Text};

/// What the rules and the lookups need of a listing.
/// The layout sees to it that every text below is filled.
#[derive(Debug, Default)]
pub struct Tree {
    pub dtd_version: Text,
    /// The productionDate and every FilingDate.
    pub dates: Vec<Text>,
    pub office_codes: Vec<Text>,
    pub language_codes: Vec<Text>,
    pub total_quantity: Text,
    pub sequences: Vec<Sequence>,
}

/// One SequenceData with its INSDSeq.
#[derive(Debug, Default)]
pub struct Sequence {
    pub id: Text,
    pub length: Text,
    pub moltype: Text,
    pub division: Text,
    pub has_other_seqids: bool,
    /// The place of the `<` of the feature table's start tag.
    pub table: Option<usize>,
    pub features: Vec<Feature>,
    pub residues: Text,
    /// Document 01's L: the number of characters of the residues as read.
    pub residue_count: u32,
}

/// One INSDFeature.
#[derive(Debug, Default)]
pub struct Feature {
    pub key: Text,
    pub location: Text,
    pub qualifiers: Vec<Qualifier>,
}

/// One INSDQualifier.
#[derive(Debug, Default)]
pub struct Qualifier {
    pub name: Text,
    pub value: Option<Text>,
}

/// A start tag or an `<X/>`.
struct Tag<'a> {
    name: &'a [u8],
    place: usize,
    /// Each attribute's name with its value.
    attributes: Vec<(&'a [u8], Text)>,
    /// What follows the tag up to the next one.
    text: Text,
}

impl Tree {
    /// Takes the tree out of a listing that is of the layout.
    pub fn new(listing: &[u8]) -> Tree {
        let mut tree = Tree::default();
        for tag in tags(listing) {
            tree.take(listing, &tag);
        }
        tree
    }

    fn take(&mut self, listing: &[u8], tag: &Tag) {
        for &(name, value) in &tag.attributes {
            match name {
                b"dtdVersion" => self.dtd_version = value,
                b"productionDate" => self.dates.push(value),
                b"languageCode" => self.language_codes.push(value),
                b"sequenceIDNumber" => self.sequences.push(Sequence {
                    id: value,
                    ..Sequence::default()
                }),
                _ => (),
            }
        }
        match tag.name {
            b"IPOfficeCode" => self.office_codes.push(tag.text),
            b"FilingDate" => self.dates.push(tag.text),
            b"SequenceTotalQuantity" => self.total_quantity = tag.text,
            _ => {
                if let Some(sequence) = self.sequences.last_mut() {
                    sequence.take(listing, tag);
                }
            }
        }
    }
}

impl Sequence {
    fn take(&mut self, listing: &[u8], tag: &Tag) {
        match tag.name {
            b"INSDSeq_length" => self.length = tag.text,
            b"INSDSeq_moltype" => self.moltype = tag.text,
            b"INSDSeq_division" => self.division = tag.text,
            b"INSDSeq_other-seqids" => self.has_other_seqids = true,
            b"INSDSeq_feature-table" => self.table = Some(tag.place),
            b"INSDFeature" => self.features.push(Feature::default()),
            b"INSDSeq_sequence" => {
                self.residues = tag.text;
                // A listing is far shorter than 2^32 bytes.
                self.residue_count = tag.text.characters(listing).count() as u32;
            }
            _ => {
                if let Some(feature) = self.features.last_mut() {
                    feature.take(tag);
                }
            }
        }
    }
}

impl Feature {
    fn take(&mut self, tag: &Tag) {
        match tag.name {
            b"INSDFeature_key" => self.key = tag.text,
            b"INSDFeature_location" => self.location = tag.text,
            b"INSDQualifier_name" => self.qualifiers.push(Qualifier {
                name: tag.text,
                value: None,
            }),
            b"INSDQualifier_value" => {
                if let Some(qualifier) = self.qualifiers.last_mut() {
                    qualifier.value = Some(tag.text);
                }
            }
            _ => (),
        }
    }
}

/// The start tags and empty elements of a listing, in document order.
fn tags(listing: &[u8]) -> impl Iterator<Item = Tag<'_>> {
    let mut at = 0;
    std::iter::from_fn(move || {
        let place = at + listing[at..].iter().position(|&byte| byte == b'<')?;
        // No text holds a bare `>`, so the next one closes the tag.
        let close = place + listing[place..].iter().position(|&byte| byte == b'>')?;
        at = close + 1;
        Some((place, close))
    })
    .filter(|&(place, _)| !b"?!/".contains(&listing[place + 1]))
    .map(|(place, close)| tag(listing, place, close))
}

/// Reads the start tag or empty element from its `<` to its `>`.
fn tag(listing: &[u8], place: usize, close: usize) -> Tag<'_> {
    let is_empty = listing[close - 1] == b'/';
    let inside = &listing[place + 1..close - usize::from(is_empty)];
    let name_size = inside
        .iter()
        .position(u8::is_ascii_whitespace)
        .unwrap_or(inside.len());
    let (name, after_name) = inside.split_at(name_size);

    let mut attributes = Vec::new();
    let mut at = place + 1 + name_size;
    let mut attribute_name: &[u8] = b"";
    // Quotes part the names with their `=` from the values.
    for (index, piece) in after_name.split(|&byte| byte == b'"').enumerate() {
        if index % 2 == 0 {
            let blanks = piece.iter().take_while(|b| b.is_ascii_whitespace()).count();
            attribute_name = piece[blanks..].strip_suffix(b"=").unwrap_or(b"");
        } else {
            let part = Part {
                start: at,
                size: piece.len(),
            };
            attributes.push((attribute_name, Text { part, place: at }));
        }
        at += piece.len() + 1;
    }

    let text_place = if is_empty { place } else { close + 1 };
    let text_size = listing[text_place..]
        .iter()
        .position(|&byte| byte == b'<')
        .unwrap_or(0);
    Tag {
        name,
        place,
        attributes,
        text: Text {
            part: Part {
                start: text_place,
                size: text_size,
            },
            place: text_place,
        },
    }
}
