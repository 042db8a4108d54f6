//! Damaged layouts: valid listings with a change or two to a tag, a name, an attribute, a blank or a character.
//!
//! The referee's own mutants change bytes wherever they stand. These know what a tag is, so that most of them stay near
//! the layout, and the first wrong byte stands deep inside.

use crate::report::Input;
use referee::generate::{valid_listing, Rng};
use std::ops::Range;

/// Every name of the layout, the attributes' names last.
const NAMES: [&str; 36] = [
    "ST26SequenceListing",
    "ApplicantFileReference",
    "ApplicationIdentification",
    "EarliestPriorityApplicationIdentification",
    "IPOfficeCode",
    "ApplicationNumberText",
    "FilingDate",
    "ApplicantName",
    "ApplicantNameLatin",
    "InventorName",
    "InventorNameLatin",
    "InventionTitle",
    "SequenceTotalQuantity",
    "SequenceData",
    "INSDSeq",
    "INSDSeq_length",
    "INSDSeq_moltype",
    "INSDSeq_division",
    "INSDSeq_other-seqids",
    "INSDSeqid",
    "INSDSeq_feature-table",
    "INSDSeq_sequence",
    "INSDFeature",
    "INSDFeature_key",
    "INSDFeature_location",
    "INSDFeature_quals",
    "INSDQualifier",
    "INSDQualifier_name",
    "INSDQualifier_value",
    "dtdVersion",
    "fileName",
    "softwareName",
    "softwareVersion",
    "productionDate",
    "languageCode",
    "sequenceIDNumber",
];

/// What may or may not stand in a text, and what stands nowhere.
const PIECES: [&[u8]; 28] = [
    b"&lt;",
    b"&gt;",
    b"&amp;",
    b"&quot;",
    b"&apos;",
    b"&",
    b"&l",
    b"&lt",
    b"&amp",
    b"&ampos;",
    b"&apo;",
    b"&quote;",
    b"&LT;",
    b"&#60;",
    b"& lt;",
    b"<",
    b">",
    b"\"",
    b"'",
    b"\t",
    b"\x7f",
    b"\x80",
    b"\xc3\xa4",
    b"\xff",
    b"<!-- -->",
    b"<![CDATA[]]>",
    b"<?xml?>",
    b"\xef\xbb\xbf",
];

type Change = fn(&mut Vec<u8>, &mut Rng) -> Option<()>;

const CHANGES: [Change; 13] = [
    cut,
    |bytes, rng| change_byte(bytes, rng),
    put_piece,
    put_blanks,
    drop_blanks,
    rename,
    change_name,
    lead_astray,
    empty,
    drop_element,
    repeat_element,
    |bytes, rng| swap_elements(bytes, rng),
    change_attribute,
];

/// The mutant of this number; equal seeds and numbers give equal mutants.
pub fn mutant(seed: u64, number: u64) -> Input {
    let rng = &mut Rng::new(!seed ^ number.wrapping_mul(0xd1b5_4a32_d192_ed03));
    let mut bytes = valid_listing(rng).1.bytes;
    let count = *rng.pick(&[1, 1, 1, 2]);
    for _ in 0..count {
        // A change that doesn't fit leaves the listing as it is, and another is tried.
        while rng.pick(&CHANGES)(&mut bytes, rng).is_none() {}
    }
    Input {
        name: format!("mutant {number} of seed {seed}"),
        bytes,
    }
}

/// What a text or an attribute's value may get instead of what it has; some of it means something in a value.
const CHARACTERS: &[u8] = b"0123456789acgtmrsynuACGTMKBJXZ .,^()-_jo";

/// A valid listing with a change or two inside its values, so that it stays of the layout: the rules on values judge it.
pub fn value_mutant(seed: u64, number: u64) -> Input {
    let rng = &mut Rng::new(!seed ^ number.wrapping_mul(0x9e6c_63d0_876a_68e5));
    let mut bytes = valid_listing(rng).1.bytes;
    let count = *rng.pick(&[1, 1, 2, 3]);
    for _ in 0..count {
        while change_value(&mut bytes, rng).is_none() {}
    }
    Input {
        name: format!("value mutant {number} of seed {seed}"),
        bytes,
    }
}

/// Changes, drops, adds or exchanges characters of a value, or gives it another value of the listing.
fn change_value(bytes: &mut Vec<u8>, rng: &mut Rng) -> Option<()> {
    let values = values(bytes);
    let value = some(&values, rng)?;
    let at = rng.between(value.start, value.end - 1);
    let character = *rng.pick(CHARACTERS);
    // A character that is written as an entity stays as it is.
    let fixed = bytes[value.clone()].contains(&b'&');
    match rng.below(6) {
        0 if !fixed => bytes[at] = character,
        1 if !fixed => drop(bytes.remove(at)),
        2 if !fixed => bytes.insert(at, character),
        3 if !fixed && at + 1 < value.end => bytes.swap(at, at + 1),
        4 => bytes.insert(value.end, character),
        5 => {
            let other = bytes[some(&values, rng)?].to_vec();
            bytes.splice(value, other);
        }
        _ => return None,
    }
    Some(())
}

/// The values that aren't empty: texts between tags, and attributes' values.
fn values(bytes: &[u8]) -> Vec<Range<usize>> {
    let tags = tags(bytes);
    let texts = tags.windows(2).filter_map(|pair| {
        let (start, end) = (&pair[0], &pair[1]);
        let is_text = bytes[start.name.clone()] == bytes[end.name.clone()]
            && bytes[start.whole.start + 1] != b'/'
            && bytes[end.whole.start + 1] == b'/';
        is_text.then_some(start.whole.end..end.whole.start)
    });
    let attributes = tags.iter().flat_map(|tag| {
        let quotes: Vec<usize> = tag.whole.clone().filter(|&at| bytes[at] == b'"').collect();
        let values: Vec<Range<usize>> = quotes.chunks(2).map(|pair| pair[0] + 1..pair[1]).collect();
        values
    });
    texts
        .chain(attributes)
        .filter(|value| !value.is_empty())
        .collect()
}

/// Keeps a beginning only.
fn cut(bytes: &mut Vec<u8>, rng: &mut Rng) -> Option<()> {
    bytes.truncate(rng.below(bytes.len() + 1));
    Some(())
}

fn change_byte(bytes: &mut [u8], rng: &mut Rng) -> Option<()> {
    let at = place(bytes, rng);
    *bytes.get_mut(at)? = rng.below(256) as u8;
    Some(())
}

fn put_piece(bytes: &mut Vec<u8>, rng: &mut Rng) -> Option<()> {
    let piece = *rng.pick(&PIECES);
    let at = place(bytes, rng);
    bytes.splice(at..at, piece.iter().copied());
    Some(())
}

/// Puts blanks, or what is none, beside a byte with a meaning.
fn put_blanks(bytes: &mut Vec<u8>, rng: &mut Rng) -> Option<()> {
    let marks: Vec<usize> = (0..bytes.len())
        .filter(|&at| b"<>/=\"? ".contains(&bytes[at]))
        .collect();
    let at = some(&marks, rng)? + rng.below(2);
    let blanks = *rng.pick(&[
        b" ".as_slice(),
        b"\t",
        b"\r\n",
        b" \n ",
        b"\x0b",
        b"\xc2\xa0",
    ]);
    bytes.splice(at..at, blanks.iter().copied());
    Some(())
}

fn drop_blanks(bytes: &mut Vec<u8>, rng: &mut Rng) -> Option<()> {
    let blank = |at: usize| b" \t\r\n".contains(&bytes[at]);
    let blanks: Vec<usize> = (0..bytes.len()).filter(|&at| blank(at)).collect();
    let from = some(&blanks, rng)?;
    let count = (from..bytes.len()).take_while(|&at| blank(at)).count();
    bytes.drain(from..from + count);
    Some(())
}

/// Gives a tag another name of the layout.
fn rename(bytes: &mut Vec<u8>, rng: &mut Rng) -> Option<()> {
    let name = any_tag(bytes, rng)?.name;
    bytes.splice(name, rng.pick(&NAMES).bytes());
    Some(())
}

/// Drops, adds or changes one letter of a name.
fn change_name(bytes: &mut Vec<u8>, rng: &mut Rng) -> Option<()> {
    let name = any_tag(bytes, rng)?.name;
    let at = rng.between(name.start, name.end - 1);
    let letter = *rng.pick(b"aeLNT_-x1");
    match rng.below(4) {
        0 => drop(bytes.remove(at)),
        1 => bytes.insert(at, letter),
        2 => bytes[at] = letter,
        _ => bytes[at] ^= 0x20,
    }
    Some(())
}

/// Ends the listing inside a name: with a beginning of some name, and perhaps a letter that ends no name.
fn lead_astray(bytes: &mut Vec<u8>, rng: &mut Rng) -> Option<()> {
    let name = any_tag(bytes, rng)?.name;
    let other = *rng.pick(&NAMES);
    bytes.truncate(name.start);
    bytes.extend(other.bytes().take(rng.between(1, other.len())));
    bytes.extend(*rng.pick(&[b"".as_slice(), b"x", b">", b"/>", b" "]));
    Some(())
}

/// Writes an element as `<X/>`, with what it holds dropped or left behind.
fn empty(bytes: &mut Vec<u8>, rng: &mut Rng) -> Option<()> {
    let tag = any_tag(bytes, rng)?;
    let whole = element(bytes, &tag)?;
    let close = tag.whole.end - 1;
    let end = if rng.chance(70) {
        whole.end
    } else {
        tag.whole.end
    };
    bytes.splice(close..end, *b"/>");
    Some(())
}

fn drop_element(bytes: &mut Vec<u8>, rng: &mut Rng) -> Option<()> {
    let whole = any_element(bytes, rng)?;
    bytes.drain(whole);
    Some(())
}

/// Writes an element once more, after itself or after any tag.
fn repeat_element(bytes: &mut Vec<u8>, rng: &mut Rng) -> Option<()> {
    let whole = any_element(bytes, rng)?;
    let at = if rng.chance(50) {
        whole.end
    } else {
        any_tag(bytes, rng)?.whole.end
    };
    let copy = bytes[whole].to_vec();
    bytes.splice(at..at, copy);
    Some(())
}

/// Changes the order of an element and the one after it.
fn swap_elements(bytes: &mut [u8], rng: &mut Rng) -> Option<()> {
    let first = any_element(bytes, rng)?;
    let after = tags(bytes)
        .into_iter()
        .find(|tag| tag.whole.start >= first.end)?;
    let second = element(bytes, &after)?;
    bytes[first.start..second.end].rotate_left(first.len());
    Some(())
}

/// Drops, repeats, renames or unquotes an attribute.
fn change_attribute(bytes: &mut Vec<u8>, rng: &mut Rng) -> Option<()> {
    let equals: Vec<usize> = (1..bytes.len())
        .filter(|&at| bytes[at - 1..].starts_with(b"=\""))
        .collect();
    let quote = some(&equals, rng)?;
    let end = quote + 2 + bytes[quote + 1..].iter().position(|&byte| byte == b'"')?;
    let start = 1 + bytes[..quote].iter().rposition(|&byte| byte == b' ')?;
    let attribute = bytes[start..end].to_vec();
    match rng.below(5) {
        0 => drop(bytes.drain(start..end)),
        1 => drop(bytes.splice(end..end, [b" ".to_vec(), attribute].concat())),
        2 => {
            let name = rng.pick(&NAMES[29..]);
            bytes.splice(start..quote - 1, name.bytes());
        }
        3 => {
            bytes[quote] = b'\'';
            bytes[end - 1] = b'\'';
        }
        _ => {
            let new = format!(" {}=\"\"", rng.pick(&NAMES[29..]));
            bytes.splice(end..end, new.into_bytes());
        }
    }
    Some(())
}

/// A place of the listing, its end too.
fn place(bytes: &[u8], rng: &mut Rng) -> usize {
    rng.below(bytes.len() + 1)
}

fn some<T: Clone>(items: &[T], rng: &mut Rng) -> Option<T> {
    if items.is_empty() {
        return None;
    }
    Some(rng.pick(items).clone())
}

/// Where a tag stands, from `<` to past `>`, and its name in it.
#[derive(Clone, Debug, PartialEq, Eq)]
struct Tag {
    whole: Range<usize>,
    name: Range<usize>,
}

/// The start and end tags in order, those of the first two lines left out.
fn tags(bytes: &[u8]) -> Vec<Tag> {
    let is_name = |byte: &u8| byte.is_ascii_alphanumeric() || b"_-".contains(byte);
    let mut found = Vec::new();
    for start in (0..bytes.len()).filter(|&at| bytes[at] == b'<') {
        let first = start + 1 + usize::from(bytes[start + 1..].starts_with(b"/"));
        let length = bytes[first..]
            .iter()
            .take_while(|byte| is_name(byte))
            .count();
        let close = bytes[first..].iter().position(|&byte| byte == b'>');
        if let (1.., Some(close)) = (length, close) {
            found.push(Tag {
                whole: start..first + close + 1,
                name: first..first + length,
            });
        }
    }
    found
}

fn any_tag(bytes: &[u8], rng: &mut Rng) -> Option<Tag> {
    some(&tags(bytes), rng)
}

/// The element that this start tag opens. No element holds one of its own name.
fn element(bytes: &[u8], tag: &Tag) -> Option<Range<usize>> {
    let start = tag.whole.start;
    if bytes[start + 1] == b'/' {
        return None;
    }
    if bytes[tag.whole.end - 2] == b'/' {
        return Some(tag.whole.clone());
    }
    let name = &bytes[tag.name.clone()];
    let end = tags(bytes).into_iter().find(|other| {
        other.whole.start > start
            && bytes[other.whole.start + 1] == b'/'
            && &bytes[other.name.clone()] == name
    })?;
    Some(start..end.whole.end)
}

fn any_element(bytes: &[u8], rng: &mut Rng) -> Option<Range<usize>> {
    let tag = any_tag(bytes, rng)?;
    element(bytes, &tag)
}

/// The bytes that the sweep puts at each place.
const SWEPT: [u8; 10] = *b"<>/&\" xS\x80\n";

/// One change at each place of a listing in turn: the listing ends there, lacks that byte, or has another.
pub fn sweep<'a>(name: &'a str, bytes: &'a [u8]) -> impl Iterator<Item = Input> + 'a {
    (0..bytes.len()).flat_map(move |at| {
        let (before, after) = (&bytes[..at], &bytes[at + 1..]);
        let input = move |change: &str, bytes| Input {
            name: format!("{name}, place {at}: {change}"),
            bytes,
        };
        let shorter = [
            input("ends here", before.to_vec()),
            input("byte dropped", [before, after].concat()),
        ];
        let changed = SWEPT.into_iter().map(move |byte| {
            let change = format!("byte {byte} instead");
            input(&change, [before, &[byte], after].concat())
        });
        shorter.into_iter().chain(changed)
    })
}

#[cfg(test)]
mod tests {
    use super::*;

    const LISTING: &[u8] = b"<?xml?>\n<A a=\"1\" b=\"2\"><B>t</B><C /> <D></D ></A>";

    #[test]
    fn tags_and_elements_are_found() {
        let tags = tags(LISTING);
        let names: Vec<&[u8]> = tags.iter().map(|tag| &LISTING[tag.name.clone()]).collect();
        assert_eq!(names, [b"A", b"B", b"B", b"C", b"D", b"D", b"A"]);
        let whole = |number: usize| element(LISTING, &tags[number]).map(|range| &LISTING[range]);
        assert_eq!(whole(0), Some(&LISTING[8..]));
        assert_eq!(whole(1), Some(b"<B>t</B>".as_slice()));
        assert_eq!(whole(2), None);
        assert_eq!(whole(3), Some(b"<C />".as_slice()));
        assert_eq!(whole(4), Some(b"<D></D >".as_slice()));
    }

    #[test]
    fn values_are_found() {
        let values = values(LISTING);
        let values: Vec<&[u8]> = values.into_iter().map(|range| &LISTING[range]).collect();
        assert_eq!(values, [b"t", b"1", b"2"]);
    }

    #[test]
    fn each_change_changes_something() {
        for (number, change) in CHANGES.iter().enumerate() {
            let changed = (0..50).any(|seed| {
                let mut bytes = LISTING.to_vec();
                change(&mut bytes, &mut Rng::new(seed));
                bytes != LISTING
            });
            assert!(changed, "change {number}");
        }
    }

    #[test]
    fn the_sweep_meets_every_place() {
        let inputs: Vec<Input> = sweep("it", b"ab").collect();
        assert_eq!(inputs.len(), 2 * (2 + SWEPT.len()));
        assert_eq!(inputs[0].bytes, b"");
        assert_eq!(inputs[1].bytes, b"b");
        assert_eq!(inputs[2].bytes, b"<b");
        assert_eq!(inputs[2 + SWEPT.len()].bytes, b"a");
    }

    #[test]
    fn names_are_those_of_the_layout() {
        // A name that the layout doesn't know can't stand in it, so a valid listing has only these.
        for seed in 0..200 {
            let bytes = valid_listing(&mut Rng::new(seed)).1.bytes;
            for tag in tags(&bytes) {
                let name = std::str::from_utf8(&bytes[tag.name]).unwrap();
                assert!(NAMES[..29].contains(&name), "{name}");
            }
        }
    }
}
