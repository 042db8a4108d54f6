//! Listings of an exact size: the three mixes, and traps for a reader that reads something twice.

use crate::heavy::HEAVY;
use crate::report::Input;
use referee::generate::sized::{sized, Mix};

/// "16,777,216 bytes is the longest listing."
pub const LONGEST: usize = 16_777_216;

/// Makes an input of exactly this size, which is at least 4,000.
pub type Make = fn(usize) -> Vec<u8>;

/// Valid listings, and what they are mostly made of.
pub const MIXES: [(&str, Make); 3] = [
    ("features", |size| mix(Mix::Features, size)),
    ("sequences", |size| mix(Mix::Sequences, size)),
    ("residues", |size| mix(Mix::Residues, size)),
];

/// The traps: long stretches of one thing, in places where much else may follow.
pub const TRAPS: [(&str, Make); 15] = [
    ("blanks", |size| run("", b" ", size)),
    ("blanks-after-first-line", |size| run("?>", b"\n", size)),
    ("blanks-in-doctype", |size| run("PUBLIC", b"\t", size)),
    ("blanks-in-root-tag", |size| run("1_2\"", b" ", size)),
    ("blanks-in-root", |size| {
        run("<ApplicantFileReference/>", b" \r\n", size)
    }),
    ("blanks-in-feature", |size| {
        run("</INSDFeature_location>", b"\n", size)
    }),
    ("blanks-at-end", |size| {
        run("</ST26SequenceListing>", b"\n", size)
    }),
    ("text", |size| run("\"en\">", b"t", size)),
    ("residues-text", |size| {
        run("<INSDSeq_sequence>", b"a", size)
    }),
    ("attribute", |size| run("dtdVersion=\"", b"1", size)),
    ("number-attribute", |size| {
        run("sequenceIDNumber=\"", b"1", size)
    }),
    ("entities", |size| run("\"en\">", b"&lt;", size)),
    ("entities-in-attribute", |size| {
        run("languageCode=\"", b"&lt;", size)
    }),
    ("entities-closed", entities_closed),
    ("one-more", |size| {
        let mut bytes = mix(Mix::Features, size - 1);
        bytes.push(b'x');
        bytes
    }),
];

/// The input of this kind and size, if there is such a kind.
pub fn make(kind: &str, size: usize) -> Option<Vec<u8>> {
    let mut kinds = MIXES.iter().chain(&TRAPS).chain(&HEAVY);
    let (_, make) = kinds.find(|(name, _)| *name == kind)?;
    Some(make(size))
}

/// The inputs of these kinds and this size.
pub fn inputs(kinds: &'static [(&str, Make)], size: usize) -> impl Iterator<Item = Input> {
    kinds.iter().map(move |(name, make)| Input {
        name: format!("compare make {name} {size}"),
        bytes: make(size),
    })
}

fn mix(mix: Mix, size: usize) -> Vec<u8> {
    sized(mix, size, 1).bytes
}

/// A valid listing whose beginnings are the traps' beginnings.
const WHOLE: &str = "<?xml version=\"1.0\" encoding=\"UTF-8\"?>\n\
    <!DOCTYPE ST26SequenceListing PUBLIC \"-//WIPO//DTD Sequence Listing 1.2//EN\" \
    \"ST26SequenceListing_V1_2.dtd\">\n\
    <ST26SequenceListing dtdVersion=\"1_2\"><ApplicantFileReference/>\
    <InventionTitle languageCode=\"en\"></InventionTitle>\
    <SequenceTotalQuantity>1</SequenceTotalQuantity><SequenceData sequenceIDNumber=\"1\">\
    <INSDSeq><INSDSeq_length>4</INSDSeq_length><INSDSeq_moltype>AA</INSDSeq_moltype>\
    <INSDSeq_division>PAT</INSDSeq_division><INSDSeq_feature-table><INSDFeature>\
    <INSDFeature_key>SOURCE</INSDFeature_key><INSDFeature_location>1..4</INSDFeature_location>\
    </INSDFeature></INSDSeq_feature-table><INSDSeq_sequence>MKCA</INSDSeq_sequence></INSDSeq>\
    </SequenceData></ST26SequenceListing>";

/// Where this stretch of the whole listing ends.
fn end_of(stretch: &str) -> usize {
    WHOLE.find(stretch).map_or(0, |start| start + stretch.len())
}

/// The listing up to a stretch, then one thing again and again.
fn run(stretch: &str, thing: &[u8], size: usize) -> Vec<u8> {
    let mut bytes = WHOLE.as_bytes()[..end_of(stretch)].to_vec();
    let missing = size - bytes.len();
    bytes.extend(thing.iter().cycle().take(missing));
    bytes
}

/// A listing with a title of entities; it is laid out.
fn entities_closed(size: usize) -> Vec<u8> {
    let (before, after) = WHOLE.split_at(end_of("\"en\">"));
    let missing = size - WHOLE.len();
    let title = "&lt;".repeat(missing / 4) + &"t".repeat(missing % 4);
    [before, &title, after].concat().into_bytes()
}

#[cfg(test)]
mod tests {
    use super::*;
    use referee::Refusal;

    const SIZE: usize = 5_003;

    #[test]
    fn sizes_are_exact() {
        for (name, make) in MIXES.iter().chain(&TRAPS) {
            assert_eq!(make(SIZE).len(), SIZE, "{name}");
        }
        assert_eq!(make("features", SIZE), Some(mix(Mix::Features, SIZE)));
        assert_eq!(make("nothing", SIZE), None);
    }

    #[test]
    fn the_traps_are_where_they_are_meant_to_be() {
        assert_eq!(referee::layout(WHOLE.as_bytes()), Ok(()));
        for (name, make) in TRAPS {
            let expected = match name {
                "blanks" => Err(Refusal { rule: 2, place: 0 }),
                "blanks-at-end" | "entities-closed" => Ok(()),
                "one-more" => Err(Refusal {
                    rule: 2,
                    place: SIZE - 1,
                }),
                _ => Err(Refusal {
                    rule: 2,
                    place: SIZE,
                }),
            };
            assert_eq!(referee::layout(&make(SIZE)), expected, "{name}");
        }
    }
}
