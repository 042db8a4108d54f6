//! The answers on the published specimens, and on some edits of them.

use dreichnook::{Counts, Kind, Listing, Operator, Part, Refusal, Span, LIMIT};
use std::collections::BTreeSet;
use std::fs;

fn specimen(name: &str) -> Vec<u8> {
    let file = format!(
        "{}/../../tests/specimens/{name}",
        env!("CARGO_MANIFEST_DIR")
    );
    fs::read(&file).unwrap_or_else(|error| panic!("{file}: {error}"))
}

/// Annex III with sequence 3's CDS changed: another location, and no translation qualifier.
fn with_cds(location: &str) -> Vec<u8> {
    let listing = String::from_utf8(specimen("annex-iii.xml")).unwrap();
    let said = "<INSDQualifier_value>MLAPDCPFDPTRIYSSSLC<";
    let (before, after) = listing.split_once(said).unwrap();
    let (before, _) = before.rsplit_once("<INSDQualifier>").unwrap();
    let (_, after) = after.split_once("</INSDQualifier>").unwrap();
    [before, after].concat().replace("3..62", location).into()
}

fn question(number: u32) -> Refusal {
    Refusal { number, place: 0 }
}

fn span(first: u32, last: u32, marks: u32) -> Span {
    Span { first, last, marks }
}

#[test]
fn every_specimen_is_judged_as_expected() {
    let expected = String::from_utf8(specimen("expected.txt")).unwrap();
    let mut judged = 0;
    for line in expected.lines().filter(|line| !line.starts_with('#')) {
        let mut words = line.split(' ');
        let (file, verdict) = (words.next().unwrap(), words.next().unwrap());
        let figures: Vec<u64> = words.map(|word| word.parse().unwrap()).collect();
        let said = match Listing::new(&specimen(file)).check() {
            Ok(counts) => {
                assert_eq!(verdict, "accepted", "{file}");
                let Counts {
                    total,
                    skipped,
                    features,
                    judged,
                    unjudged,
                } = counts;
                vec![total, skipped, features, judged, unjudged]
            }
            Err(Refusal { number, place }) => {
                assert_eq!(verdict, "refused", "{file}");
                vec![number.into(), place]
            }
        };
        assert_eq!(said, figures, "{file}");
        judged += 1;
    }
    assert_eq!(judged, 59);
}

#[test]
fn parts_are_stretches_of_the_listing() {
    let bytes = specimen("annex-iii.xml");
    let listing = Listing::new(&bytes);
    let stands = |part: Part| &bytes[part.start..][..part.bytes.len()] == part.bytes;

    let sequence = listing.sequence(8).unwrap();
    assert_eq!(
        (sequence.kind, sequence.residues.bytes.len()),
        (Kind::Rna, 74)
    );
    assert!(stands(sequence.residues));

    let feature = listing.feature(3, 2).unwrap();
    assert_eq!(
        (feature.key.bytes, feature.location.bytes),
        (&b"CDS"[..], &b"3..62"[..])
    );
    assert!(stands(feature.key) && stands(feature.location));

    let qualifier = listing.qualifier(3, 2, 1).unwrap();
    let value = qualifier.value.unwrap();
    assert_eq!(
        (qualifier.name.bytes, value.bytes),
        (&b"translation"[..], &b"MLAPDCPFDPTRIYSSSLC"[..])
    );
    assert!(stands(qualifier.name) && stands(value));
}

#[test]
fn a_value_may_be_absent_or_empty() {
    let bytes = specimen("003-annex-i-cds-qualifiers.xml");
    let pseudo = Listing::new(&bytes).qualifier(1, 5, 1).unwrap();
    assert_eq!((pseudo.name.bytes, pseudo.value), (&b"pseudo"[..], None));

    let edited = String::from_utf8(bytes).unwrap().replacen(
        "pseudo</INSDQualifier_name>",
        "pseudo</INSDQualifier_name><INSDQualifier_value/>",
        1,
    );
    let pseudo = Listing::new(edited.as_bytes()).qualifier(1, 5, 1).unwrap();
    assert_eq!(pseudo.value.unwrap().bytes, b"");
}

#[test]
fn operator_and_spans_come_with_the_parts() {
    let bytes = specimen("002-p66-location-syntax.xml");
    let listing = Listing::new(&bytes);
    let complemented = vec![
        span(134, 202, Span::COMPLEMENT),
        span(12, 78, Span::COMPLEMENT),
    ];
    let site = vec![span(123, 124, Span::COMPLEMENT + Span::SITE)];
    let open = vec![
        span(134, 202, Span::COMPLEMENT + Span::AFTER),
        span(12, 78, Span::COMPLEMENT + Span::BEFORE),
    ];
    let cases = [
        (
            18,
            "complement(join(12..78,134..202))",
            Operator::Join,
            complemented,
        ),
        (16, "complement(123^124)", Operator::None, site),
        (
            21,
            "order(complement(134..&gt;202),complement(&lt;12..78))",
            Operator::Order,
            open,
        ),
    ];
    for (j, location, operator, spans) in cases {
        let feature = listing.feature(1, j).unwrap();
        assert_eq!(feature.key.bytes, b"misc_feature");
        assert_eq!(feature.location.bytes, location.as_bytes());
        assert_eq!((feature.operator, feature.spans), (operator, spans));
    }
}

#[test]
fn the_spans_are_those_of_the_feature_asked() {
    let bytes = specimen("annex-iii.xml");
    let listing = Listing::new(&bytes);
    for (j, key, first) in [(1, "source", 1), (2, "CDS", 3)] {
        let feature = listing.feature(3, j).unwrap();
        assert_eq!(feature.key.bytes, key.as_bytes());
        assert_eq!(feature.spans, [span(first, 62, 0)]);
    }
    // Whatever feature is asked, the numbers of its spans are those that its location has.
    let bytes = specimen("002-p66-location-syntax.xml");
    let mut locations = BTreeSet::new();
    for j in 1..=21 {
        let feature = Listing::new(&bytes).feature(1, j).unwrap();
        let text = std::str::from_utf8(feature.location.bytes).unwrap();
        let written = text.split(|letter: char| !letter.is_ascii_digit());
        let written: BTreeSet<u32> = written.filter_map(|digits| digits.parse().ok()).collect();
        let given = feature
            .spans
            .iter()
            .flat_map(|span| [span.first, span.last]);
        assert_eq!(given.collect::<BTreeSet<_>>(), written, "{text}");
        locations.insert(text);
    }
    assert_eq!(locations.len(), 21);
}

#[test]
fn lent_room_beyond_the_answer_stays() {
    let bytes = specimen("annex-iii.xml");
    let listing = Listing::new(&bytes);
    let letters = b"MLAPDCPFDPTRIYSSSLC";
    let mut out = [b'.'; 24];
    assert_eq!(listing.translation_into(3, 2, &mut out).unwrap(), letters);
    assert_eq!(&out, b"MLAPDCPFDPTRIYSSSLC.....");

    let mut out = [b'.'; 19];
    assert_eq!(
        listing.translation_into(3, 2, &mut out[..18]),
        Err(question(34))
    );
    assert_eq!(out, [b'.'; 19]);
    assert_eq!(listing.translation_into(3, 2, &mut out).unwrap(), letters);

    let mut out = [b'.'; 20];
    assert_eq!(
        listing.translations_into(3, &mut out[..19]),
        Err(question(34))
    );
    assert_eq!(out, [b'.'; 20]);
    assert_eq!(
        listing.translations_into(3, &mut out).unwrap(),
        b"MLAPDCPFDPTRIYSSSLC\n"
    );
    assert_eq!(listing.translations_into(4, &mut []).unwrap(), b"");

    let mut out = [span(7, 7, 7); 2];
    let feature = listing.feature_into(3, 2, &mut out).unwrap();
    assert_eq!(feature.spans, [span(3, 62, 0)]);
    assert_eq!(out, [span(3, 62, 0), span(7, 7, 7)]);
}

#[test]
fn short_room_shows_nothing_of_a_feature() {
    let bytes = specimen("002-p66-location-syntax.xml");
    let listing = Listing::new(&bytes);
    // Of seven spans. Its key and its location take no room, and yet aren't shown.
    let mut out = [span(7, 7, 7); 8];
    for room in 0..7 {
        let said = listing.feature_into(1, 12, &mut out[..room]);
        assert_eq!(said, Err(question(34)));
        assert_eq!(out, [span(7, 7, 7); 8]);
    }
    let whole = listing.feature(1, 12).unwrap();
    for room in [7, 8] {
        let said = listing.feature_into(1, 12, &mut out[..room]).unwrap();
        assert_eq!((said.key, said.location), (whole.key, whole.location));
        assert_eq!((said.operator, said.spans), (Operator::Join, &*whole.spans));
        assert_eq!(out[7], span(7, 7, 7));
    }
}

#[test]
fn an_answer_may_take_more_room_than_the_first() {
    let members = vec!["3..59"; 5_000].join(",");
    let bytes = with_cds(&format!("join({members})"));
    let listing = Listing::new(&bytes);
    assert_eq!(
        listing.translation(3, 2).unwrap(),
        b"MLAPDCPFDPTRIYSSSLC".repeat(5_000)
    );
    assert_eq!(listing.translations(3).unwrap().len(), 95_001);
    assert_eq!(listing.feature(3, 2).unwrap().spans.len(), 5_000);
}

#[test]
fn an_answer_above_the_limit_is_refused() {
    let members = vec!["3..59"; LIMIT / 19 + 1].join(",");
    let bytes = with_cds(&format!("join({members})"));
    let listing = Listing::new(&bytes);
    assert_eq!(listing.translation(3, 2), Err(question(34)));
    let mut out = vec![0; LIMIT + 19];
    assert_eq!(
        listing.translation_into(3, 2, &mut out).unwrap().len(),
        (LIMIT / 19 + 1) * 19
    );
}

#[test]
fn refusals_of_a_question() {
    let bytes = specimen("annex-iii.xml");
    let listing = Listing::new(&bytes);
    for none in [0, 12, u64::MAX] {
        assert_eq!(listing.sequence(none), Err(question(30)));
        assert_eq!(listing.translations(none), Err(question(30)));
        assert_eq!(listing.feature(3, none), Err(question(32)));
        // The room is the last thing to be refused.
        assert_eq!(listing.feature_into(3, none, &mut []), Err(question(32)));
        assert_eq!(listing.qualifier(3, 2, none), Err(question(33)));
    }
    assert_eq!(listing.sequence(7), Err(question(31)));
    assert_eq!(listing.translation(3, 1), Err(question(35)));
    assert_eq!(listing.translation(10, 2), Err(question(36)));
    assert_eq!(listing.translations(10).unwrap(), b"-\n");

    let stopped = with_cds("1..62");
    assert_eq!(Listing::new(&stopped).translation(3, 2), Err(question(37)));
    assert_eq!(Listing::new(&stopped).translations(3).unwrap(), b"-\n");
}

#[test]
fn a_refused_listing_refuses_every_question() {
    let broken = specimen("002-p10-total-without-skipped.xml");
    let cases = [
        (
            &b""[..],
            Refusal {
                number: 2,
                place: 0,
            },
        ),
        (
            &b"\xef\xbb\xbf<?xml"[..],
            Refusal {
                number: 2,
                place: 0,
            },
        ),
        (
            &broken,
            Refusal {
                number: 14,
                place: 434,
            },
        ),
        (
            &vec![0; LIMIT],
            Refusal {
                number: 2,
                place: 0,
            },
        ),
        (
            &vec![0; LIMIT + 1],
            Refusal {
                number: 1,
                place: 0,
            },
        ),
    ];
    for (bytes, refusal) in cases {
        let listing = Listing::new(bytes);
        assert_eq!(listing.check(), Err(refusal));
        assert_eq!(listing.sequence(1), Err(refusal));
        assert_eq!(listing.feature(1, 1), Err(refusal));
        assert_eq!(listing.qualifier(1, 1, 1), Err(refusal));
        assert_eq!(listing.feature_into(1, 1, &mut []), Err(refusal));
        assert_eq!(listing.translation(1, 1), Err(refusal));
        assert_eq!(listing.translations(1), Err(refusal));
    }
}

#[test]
fn each_refusal_has_its_words() {
    let numbers = (1..=2).chain(10..=37).chain(40..=42).chain([50]);
    let mut words: Vec<_> = numbers.map(|number| question(number).words()).collect();
    words.push(question(99).words());
    words.sort_unstable();
    words.dedup();
    assert_eq!(words.len(), 35);
    assert_eq!(question(32).to_string(), "refused with 32: no such feature");
    let unknown = Refusal {
        number: Refusal::UNKNOWN_KEY,
        place: 2120,
    };
    assert_eq!(
        unknown.to_string(),
        "refused by rule 40 at byte 2120: unknown feature key"
    );
    let differs = Refusal {
        number: Refusal::INDEX_DIFFERS,
        place: 96,
    };
    assert_eq!(
        differs.to_string(),
        "refused with 50 at byte 96 of the index: the index isn't the one of this listing"
    );
}
