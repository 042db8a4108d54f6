//! The index: made, checked, read, and lent with each lookup.

use dreichnook::{
    Feature, FeatureParts, Index, Kind, Listing, Lookups, Refusal, Sequence, Span, LIMIT,
};
use std::fs;

fn file(name: &str) -> Vec<u8> {
    let file = format!("{}/../../{name}", env!("CARGO_MANIFEST_DIR"));
    fs::read(&file).unwrap_or_else(|error| panic!("{file}: {error}"))
}

fn specimen(name: &str) -> Vec<u8> {
    file(&format!("tests/specimens/{name}"))
}

/// The specimens of this verdict.
fn specimens(verdict: &str) -> Vec<(String, Vec<u8>)> {
    let expected = String::from_utf8(specimen("expected.txt")).unwrap();
    let rows = expected.lines().map(|row| row.split(' '));
    let names = rows.filter_map(|mut row| Some((row.next()?, row.next()?)));
    let names: Vec<_> = names.filter(|(_, said)| *said == verdict).collect();
    assert!(names.len() > 15, "{verdict}");
    let specimens = names.into_iter();
    specimens
        .map(|(name, _)| (name.into(), specimen(name)))
        .collect()
}

fn refused(number: u32, place: u64) -> Refusal {
    Refusal { number, place }
}

/// What the format of the header makes of the plain lookups.
fn expected(bytes: &[u8]) -> Vec<u8> {
    let listing = Listing::new(bytes);
    let total = listing.check().unwrap().total;
    let (mut contents, mut bodies) = (vec![total as usize], Vec::new());
    for k in 1..=total {
        let start = 4 + 8 * total as usize + 4 * bodies.len();
        match listing.sequence(k) {
            Ok(Sequence { kind, residues }) => {
                let kind = [Kind::Dna, Kind::Rna, Kind::Aa]
                    .iter()
                    .position(|&one| one == kind);
                bodies.extend([kind.unwrap() + 1, residues.start, residues.bytes.len()]);
                for feature in (1..).map_while(|j| listing.feature(k, j).ok()) {
                    for part in [feature.key, feature.location] {
                        bodies.extend([part.start, part.bytes.len()]);
                    }
                }
            }
            Err(refusal) => {
                assert_eq!(refusal.number, Refusal::SKIPPED);
                bodies.extend([0, skipped(bytes, k), 3]);
            }
        }
        contents.extend([start, 4 + 8 * total as usize + 4 * bodies.len() - start]);
    }
    let numbers = contents.into_iter().chain(bodies);
    numbers.flat_map(|n| (n as u32).to_le_bytes()).collect()
}

/// Where the `000` of the k-th sequence stands.
fn skipped(bytes: &[u8], k: u64) -> usize {
    let text = std::str::from_utf8(bytes).unwrap();
    let tags = text.match_indices("<INSDSeq_sequence>");
    let (tag, found) = tags
        .map(|(at, tag)| (at, tag.len()))
        .nth(k as usize - 1)
        .unwrap();
    assert!(text[tag + found..].starts_with("000<"));
    tag + found
}

#[test]
fn an_index_is_that_of_the_format() {
    for (name, bytes) in specimens("accepted") {
        let listing = Listing::new(&bytes);
        let index = listing.index().unwrap();
        assert_eq!(index.as_bytes(), expected(&bytes), "{name}");
        assert_eq!(listing.index_check(index.as_bytes()), Ok(()), "{name}");
        assert!(4 * index.as_bytes().len() <= bytes.len(), "{name}");
    }
}

/// What an index has of a feature.
fn parts(feature: Feature) -> FeatureParts {
    let Feature { key, location, .. } = feature;
    FeatureParts { key, location }
}

#[test]
fn what_is_read_off_it_is_what_the_lookups_answer() {
    for (name, bytes) in specimens("accepted") {
        let listing = Listing::new(&bytes);
        let index = listing.index().unwrap();
        let total = listing.check().unwrap().total;
        assert_eq!(index.total(), total, "{name}");
        assert_eq!(index.sequences().count() as u64, total, "{name}");
        let each: Vec<_> = (1..).zip(index.sequences()).collect();
        for (k, sequence) in each.into_iter().chain([(0, None), (total + 1, None)]) {
            assert_eq!(index.sequence(k), listing.sequence(k), "{name} {k}");
            assert_eq!(sequence, listing.sequence(k).ok(), "{name} {k}");
            let features = index.features(k).map(|features| features.len());
            assert_eq!(features.err(), index.sequence(k).err(), "{name} {k}");
            let features = features.unwrap_or(0) as u64;
            for j in (0..=features + 1).chain([u64::MAX]) {
                let looked_up = listing.feature(k, j).map(parts);
                assert_eq!(index.feature(k, j), looked_up, "{name} {k} {j}");
            }
            for (j, feature) in (1..).zip(index.features(k).into_iter().flatten()) {
                let looked_up = listing.feature(k, j).map(parts);
                assert_eq!(Ok(feature), looked_up, "{name} {k} {j}");
            }
        }
    }
}

/// The answers of every lookup, of a sequence and of some of its features and qualifiers.
fn answers(lookups: Lookups, k: u64) -> Vec<String> {
    let mut out = [b'.'; 64];
    let mut spans = [Span::default(); 9];
    let mut said = vec![
        format!("{:?}", lookups.sequence(k)),
        format!("{:?}", lookups.translations(k)),
        format!("{:?}", lookups.translations_into(k, &mut out)),
        format!("{out:?}"),
    ];
    for j in [0, 1, 2, 3, u64::MAX] {
        said.push(format!("{:?}", lookups.feature(k, j)));
        said.push(format!("{:?}", lookups.feature_into(k, j, &mut spans)));
        said.push(format!("{:?}", lookups.translation(k, j)));
        said.push(format!("{:?}", lookups.translation_into(k, j, &mut out)));
        said.push(format!("{spans:?} {out:?}"));
        said.extend((0..4).map(|i| format!("{:?}", lookups.qualifier(k, j, i))));
    }
    said
}

#[test]
fn with_its_index_every_lookup_answers_the_same() {
    for (name, bytes) in specimens("accepted") {
        let listing = Listing::new(&bytes);
        let index = listing.index().unwrap();
        for k in 0..=index.total() + 1 {
            let said = answers(listing.with_index(index.as_bytes()), k);
            assert_eq!(said, answers(*listing, k), "{name} {k}");
        }
    }
}

/// What every lookup refuses with.
fn refusals(lookups: Lookups, k: u64) -> Vec<Option<Refusal>> {
    vec![
        lookups.sequence(k).err(),
        lookups.feature(k, 1).err(),
        lookups.feature_into(k, 1, &mut []).err(),
        lookups.qualifier(k, 1, 1).err(),
        lookups.translation(k, 1).err(),
        lookups.translation_into(k, 1, &mut []).err(),
        lookups.translations(k).err(),
        lookups.translations_into(k, &mut []).err(),
    ]
}

#[test]
fn another_index_is_refused_by_every_lookup() {
    let bytes = specimen("annex-iii.xml");
    let other = specimen("004-optional-parts.xml");
    let listing = Listing::new(&bytes);
    let right = listing.index().unwrap().as_bytes().to_vec();
    let last = right.len() - 1;
    let mut longer = right.clone();
    longer.push(0);
    let mut wrong = right.clone();
    wrong[last] ^= 128;
    for (index, place) in [
        (Listing::new(&other).index().unwrap().as_bytes(), 0),
        (&wrong, last),
        (&right[..last], last),
        (&longer, last + 1),
        (&[], 0),
    ] {
        let refusal = refused(50, place as u64);
        assert_eq!(listing.index_check(index), Err(refusal));
        // No question comes before the index.
        for k in [0, 1, 3, 7, 12, u64::MAX] {
            let said = refusals(listing.with_index(index), k);
            assert!(said.iter().all(|&said| said == Some(refusal)), "{said:?}");
        }
    }
    // An old index whose every number still fits.
    let edited = String::from_utf8(bytes.clone()).unwrap();
    let edited = edited.replace("Homo sapiens", "homo Sapiens").into_bytes();
    assert_ne!(edited, bytes);
    assert_eq!(Listing::new(&edited).index_check(&right), Ok(()));
}

#[test]
fn a_refused_listing_has_no_index() {
    let mut cases = specimens("refused");
    cases.extend([
        ("nothing".into(), vec![]),
        ("too long".into(), vec![0; LIMIT + 1]),
    ]);
    let index = Vec::from(
        Listing::new(&specimen("annex-iii.xml"))
            .index()
            .unwrap()
            .as_bytes(),
    );
    for (name, bytes) in cases {
        let listing = Listing::new(&bytes);
        let refusal = listing.check().unwrap_err();
        assert_eq!(listing.index(), Err(refusal), "{name}");
        assert_eq!(listing.index_into(&mut []), Err(refusal), "{name}");
        for index in [&index[..], &[]] {
            assert_eq!(listing.index_check(index), Err(refusal), "{name}");
            let said = refusals(listing.with_index(index), 1);
            assert!(said.iter().all(|&said| said == Some(refusal)), "{name}");
        }
    }
}

#[test]
fn lent_room() {
    let bytes = specimen("annex-iii.xml");
    let listing = Listing::new(&bytes);
    let index = listing.index().unwrap();
    let size = index.as_bytes().len();
    let mut out = vec![b'.'; size + 5];
    for short in [0, size - 1] {
        assert_eq!(listing.index_into(&mut out[..short]), Err(refused(34, 0)));
    }
    assert!(out.iter().all(|&byte| byte == b'.'));
    assert_eq!(listing.index_into(&mut out).unwrap(), index.as_bytes());
    assert_eq!(&out[size..], b".....");
    assert_eq!(listing.index_into(&mut out[..size]).unwrap().len(), size);
}

/// A part lives as long as the listing, not as the index beside it.
fn residues(bytes: &[u8]) -> &[u8] {
    let index = Index::as_bytes(&Listing::new(bytes).index().unwrap()).to_vec();
    let looked_up = Listing::new(bytes).with_index(&index).sequence(4).unwrap();
    let read = Listing::new(bytes).index().unwrap().sequence(4).unwrap();
    assert_eq!(looked_up, read);
    looked_up.residues.bytes
}

#[test]
fn a_part_outlives_the_index() {
    let bytes = specimen("annex-iii.xml");
    assert_eq!(residues(&bytes), b"MLAPDCPFDPTRIYSSSLC");
}

/// The index of a listing, edited: `5=7` makes 7 of its number 5, counted from 0; `-9` drops nine bytes, `+9` adds nine.
fn edited(index: &[u8], edits: &str) -> Vec<u8> {
    let mut index = index.to_vec();
    for edit in edits.split(' ') {
        if let Some((at, number)) = edit.split_once('=') {
            let at = 4 * at.parse::<usize>().unwrap();
            let number = number.parse::<u32>().unwrap();
            index[at..at + 4].copy_from_slice(&number.to_le_bytes());
        } else {
            let size = index.len() as isize + edit.parse::<isize>().unwrap();
            index.resize(size as usize, 0);
        }
    }
    index
}

#[test]
fn every_example_is_explained() {
    let examples = String::from_utf8(file("hosts/words/index-examples.txt")).unwrap();
    let mut tried = 0;
    for line in examples.lines().filter(|line| !line.starts_with('#')) {
        let cells: Vec<_> = line.split('\t').collect();
        let bytes = specimen(cells[0]);
        let listing = Listing::new(&bytes);
        let index = edited(listing.index().unwrap().as_bytes(), cells[1]);
        let refusal = listing.index_check(&index).unwrap_err();
        assert_eq!(refusal, refused(50, cells[2].parse().unwrap()), "{line}");
        let said = refusal.explanation_with_index(&bytes, &index);
        assert_eq!(said.as_deref(), Some(cells[3]), "{line}");
        assert_eq!(refusal.explanation(&bytes), None, "{line}");
        tried += 1;
    }
    assert_eq!(tried, 17);
}

#[test]
fn what_was_not_refused_so_is_not_explained() {
    let bytes = specimen("annex-iii.xml");
    let index = Listing::new(&bytes).index().unwrap().as_bytes().to_vec();
    let wrong = edited(&index, "0=12");
    let size = index.len() as u64;
    for (listing, index, place) in [
        (&bytes, &index, 0),
        (&bytes, &index, size),
        (&bytes, &wrong, 4),
        (&bytes, &wrong, size),
        (&bytes, &wrong, size + 1),
        (&bytes, &wrong, u64::MAX),
        (&wrong, &wrong, 0),
    ] {
        let said = refused(50, place).explanation_with_index(listing, index);
        assert_eq!(said, None, "{place}");
    }
    // Other refusals are explained as without an index.
    let bytes = specimen("02-1-exonn.xml");
    let refusal = Listing::new(&bytes).index_check(&index).unwrap_err();
    let said = refusal.explanation_with_index(&bytes, &index);
    assert!(said.is_some());
    assert_eq!(said, refusal.explanation(&bytes));
}
