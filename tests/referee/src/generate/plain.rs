//! Listings and their parts as plain text, with no blank that may be left out.

use super::write::escape;

/// A listing of these sequences, which get their numbers here.
pub fn listing(title: &str, sequences: &[String]) -> String {
    let count = sequences.len();
    let mut text = format!(
        "<?xml version=\"1.0\" encoding=\"UTF-8\"?>\n\
         <!DOCTYPE ST26SequenceListing PUBLIC \"-//WIPO//DTD Sequence Listing 1.2//EN\" \
         \"ST26SequenceListing_V1_2.dtd\">\n\
         <ST26SequenceListing dtdVersion=\"1_2\"><ApplicantFileReference/>\
         <InventionTitle languageCode=\"en\">{title}</InventionTitle>\
         <SequenceTotalQuantity>{count}</SequenceTotalQuantity>\n"
    );
    for (number, sequence) in (1..).zip(sequences) {
        text += &format!("<SequenceData sequenceIDNumber=\"{number}\">");
        text += sequence;
        text += "</SequenceData>\n";
    }
    text + "</ST26SequenceListing>\n"
}

/// A sequence with these features; the residues are written as they stand, one byte for each.
pub fn sequence(moltype: &str, table: &str, residues: &str) -> String {
    sequence_of(residues.len(), moltype, Some(table), residues)
}

/// A sequence of this length with these features or without a table; the residues may have entities.
pub fn sequence_of(length: usize, moltype: &str, table: Option<&str>, residues: &str) -> String {
    let table = table.map_or(String::new(), |table| {
        format!("<INSDSeq_feature-table>{table}</INSDSeq_feature-table>")
    });
    format!(
        "<INSDSeq><INSDSeq_length>{length}</INSDSeq_length>\
         <INSDSeq_moltype>{moltype}</INSDSeq_moltype><INSDSeq_division>PAT</INSDSeq_division>\
         {table}<INSDSeq_sequence>{residues}</INSDSeq_sequence></INSDSeq>"
    )
}

pub fn skipped_sequence() -> String {
    "<INSDSeq><INSDSeq_length/><INSDSeq_moltype/><INSDSeq_division/>\
     <INSDSeq_sequence>000</INSDSeq_sequence></INSDSeq>"
        .into()
}

/// A feature with these qualifiers, or without any.
pub fn feature(key: &str, location: &str, qualifiers: &str) -> String {
    let (key, location) = (escaped(key), escaped(location));
    let qualifiers = match qualifiers {
        "" => String::new(),
        _ => format!("<INSDFeature_quals>{qualifiers}</INSDFeature_quals>"),
    };
    format!(
        "<INSDFeature><INSDFeature_key>{key}</INSDFeature_key>\
         <INSDFeature_location>{location}</INSDFeature_location>{qualifiers}</INSDFeature>"
    )
}

/// A qualifier with this value, or without one.
pub fn qualifier<'a>(name: &str, value: impl Into<Option<&'a str>>) -> String {
    let name = escaped(name);
    let value = value.into().map_or(String::new(), |value| {
        let value = escaped(value);
        format!("<INSDQualifier_value>{value}</INSDQualifier_value>")
    });
    format!("<INSDQualifier><INSDQualifier_name>{name}</INSDQualifier_name>{value}</INSDQualifier>")
}

/// The source of a sequence of this length.
pub fn source(moltype: &str, length: usize) -> String {
    let [key, organism, mol_type] = match moltype {
        "AA" => ["SOURCE", "ORGANISM", "MOL_TYPE"],
        _ => ["source", "organism", "mol_type"],
    };
    let qualifiers = qualifier(organism, "synthetic") + &qualifier(mol_type, "other");
    feature(key, &format!("1..{length}"), &qualifiers)
}

fn escaped(text: &str) -> String {
    let mut written = Vec::new();
    escape(text.as_bytes(), &mut written);
    String::from_utf8(written).expect("the text's own bytes, and entities")
}
