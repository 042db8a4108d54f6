//! The explanations of rules 18 and 40 to 42, on the examples that Python's test reads too.

use dreichnook::{Listing, Refusal, LIMIT};
use std::fs;

fn file(name: &str) -> Vec<u8> {
    let file = format!("{}/../../{name}", env!("CARGO_MANIFEST_DIR"));
    fs::read(&file).unwrap_or_else(|error| panic!("{file}: {error}"))
}

/// A listing, or a piece of one, with its refusal.
fn refused(number: u32, listing: &str) -> (Vec<u8>, Refusal) {
    match listing.split_once('^') {
        Some((before, after)) => {
            let place = before.len() as u64;
            ([before, after].concat().into(), Refusal { number, place })
        }
        None => {
            let bytes = file(&format!("tests/specimens/{listing}"));
            let refusal = Listing::new(&bytes).check().unwrap_err();
            (bytes, refusal)
        }
    }
}

#[test]
fn every_example() {
    let examples = String::from_utf8(file("hosts/words/examples.txt")).unwrap();
    let mut tried = 0;
    for line in examples.lines().filter(|line| !line.starts_with('#')) {
        let cells: Vec<_> = line.split('\t').collect();
        let number = cells[0].parse().unwrap();
        let (bytes, refusal) = refused(number, cells[1]);
        assert_eq!(refusal.number, number, "{line}");
        let said = refusal.explanation(&bytes);
        assert_eq!(said.as_deref().unwrap_or("-"), cells[2], "{line}");
        tried += 1;
    }
    assert_eq!(tried, 64);
}

#[test]
fn other_refusals_have_none() {
    let (bytes, refusal) = refused(40, "02-1-exonn.xml");
    for number in (1..=39).chain(43..=50) {
        let other = Refusal { number, ..refusal };
        assert_eq!(other.explanation(&bytes), None, "{number}");
    }
}

#[test]
fn bytes_that_were_not_refused_so_have_none() {
    let (bytes, refusal) = refused(40, "02-1-exonn.xml");
    for number in 40..=42 {
        for (bytes, place) in [
            (&b""[..], 0),
            (b"<x>DNA</x><INSDFeature_key>y</x>", u64::MAX),
            (&bytes, 0),
            (&bytes[..2120], 2120),
        ] {
            let other = Refusal { number, place };
            assert_eq!(other.explanation(bytes), None, "{number} {place}");
        }
    }
    let known = String::from_utf8(bytes).unwrap().replace("exonn", "exon");
    assert_eq!(refusal.explanation(known.as_bytes()), None);
}

#[test]
fn what_the_reader_refuses_as_a_residue_is_explained() {
    let proved = String::from_utf8(file("tests/specimens/proved.xml")).unwrap();
    let rna = proved.replacen(">DNA<", ">RNA<", 1);
    let [dna, aa] = [">ttagcatttcat<", ">MKCL<"].map(|text| proved.find(text).unwrap() + 1);
    let mut foreign = 0;
    for (listing, at) in [(&proved, dna), (&rna, dna), (&proved, aa)] {
        // Of entities there are examples.
        for character in (b' '..=b'~').filter(|byte| !b"<>&\"'".contains(byte)) {
            let mut bytes = listing.clone().into_bytes();
            bytes[at] = character;
            let (number, place) = (18, at as u64);
            let is_refused = Listing::new(&bytes).check() == Err(Refusal { number, place });
            let said = Refusal { number, place }.explanation(&bytes);
            assert_eq!(said.is_some(), is_refused, "{at} {}", character as char);
            foreign += u32::from(is_refused);
        }
    }
    // 90 characters, of which 15, 15 and 26 are symbols.
    assert_eq!(foreign, 75 + 75 + 64);
}

#[test]
fn residues_as_long_as_a_listing() {
    let piece = "<INSDSeq_moltype>AA</INSDSeq_moltype><INSDSeq_sequence>TEXT^x</INSDSeq_sequence>";
    let (bytes, refusal) = refused(18, &piece.replace("TEXT", &"K&gt;".repeat(LIMIT / 5)));
    let says = refusal.explanation(&bytes).unwrap();
    let end = "is `x`; the symbols of AA are A to Z, in upper case";
    assert_eq!(says, format!("residue 6710887 of 6710887 {end}"));
}

#[test]
fn a_key_as_long_as_a_listing() {
    let key = "exon".repeat(LIMIT / 4);
    let piece = "<INSDSeq_moltype>DNA</INSDSeq_moltype><INSDFeature_key>^KEY</INSDFeature_key>";
    let (bytes, refusal) = refused(40, &piece.replace("KEY", &key));
    let says = refusal.explanation(&bytes).unwrap();
    let end = ".. (16777216 bytes)` isn't a key of nucleotides; none of the 49 keys is near";
    assert_eq!(says, format!("`{}{end}", &key[..120]));
}
