//! The index of document 02's request 5: by hand, and against what the generator knows.

use crate::lookups::{all_refused, lent, refusal, refusals_in_order, BYTE};
use crate::report::Report;
use referee::generate::model::Field;
use referee::generate::{Model, Written};
use referee::hand::base::{edited, BASE, SHORTEST};
use referee::hand::index::{NUMBERS, SMALL};
use referee::{Kind, Listing, Refusal};

/// The numbers as they stand in the file.
fn bytes(numbers: &[u32]) -> Vec<u8> {
    numbers.iter().flat_map(|n| n.to_le_bytes()).collect()
}

fn other_index(place: usize) -> Refusal {
    Refusal { rule: 50, place }
}

/// The maker writes these bytes, in any room; the checker takes them, and refuses them changed, cut or with more behind them.
fn index_holds(report: &mut Report, listing: &Listing, index: &[u8]) {
    let wanted = Ok(index.len() as u64);
    lent(report, "index", (BYTE, index), wanted, |out| {
        listing.index(out)
    });
    report.equal(listing.index_check(index), Ok(()), || "its index".into());
    report.check(listing.indexed(index).is_ok(), || "lookups".into());
    for place in 0..index.len() {
        let wrong = Err(other_index(place));
        let cut = listing.index_check(&index[..place]);
        report.equal(cut, wrong, || format!("beginning of {place}"));
        let mut changed = index.to_vec();
        changed[place] ^= 1;
        let changed = listing.index_check(&changed);
        report.equal(changed, wrong, || format!("change at {place}"));
    }
    let longer = [index, b"\0"].concat();
    let wrong = Err(other_index(index.len()));
    let answer = listing.index_check(&longer);
    report.equal(answer, wrong, || "a byte more".into());
}

/// Every call that has to do with an index gives the check's refusal, also without room and without an index.
fn index_refused(report: &mut Report, bytes: &[u8], wanted: Refusal) {
    let listing = Listing::new(bytes);
    lent(report, "index", (BYTE, &[]), Err(wanted), |out| {
        listing.index(out)
    });
    report.equal(listing.index_check(b""), Err(wanted), || "no index".into());
    let indexed = listing.indexed(b"").err();
    report.equal(indexed, Some(wanted), || "lookups".into());
    indexed_refusals(report, &listing, b"", Some(wanted));
}

/// The refusals of a feature with this index, which come after those of the check and the index.
fn indexed_refusals(report: &mut Report, listing: &Listing, index: &[u8], before: Option<Refusal>) {
    refusals_in_order(report, before, |k, f, out| {
        listing.indexed(index)?.feature(k, f, out)
    });
}

/// Listings with every number counted by hand.
pub fn by_hand(report: &mut Report) {
    let small = Listing::new(SMALL.as_bytes());
    let index = bytes(&NUMBERS);
    report.equal(index.len(), 164, || "size of the index".into());
    index_holds(report, &small, &index);
    let shortest = bytes(&[1, 12, 12, 0, 408, 3]);
    index_holds(report, &Listing::new(SHORTEST.as_bytes()), &shortest);
    let base = bytes(&[
        3, 28, 44, 72, 12, 84, 44, // the contents
        1, 2232, 12, 1363, 6, 1409, 5, 1791, 3, 1834, 17, // DNA
        0, 2429, 3, // skipped
        3, 3214, 5, 2694, 6, 2740, 4, 3080, 4, 3124, 8, // AA
    ]);
    index_holds(report, &Listing::new(BASE.as_bytes()), &base);

    // The first of two differences counts, whichever of them stands in the contents.
    let mut wrong = NUMBERS;
    wrong[7] += 4;
    wrong[10] += 1;
    let place = small.index_check(&bytes(&wrong));
    report.equal(place, Err(other_index(28)), || "contents and body".into());
    wrong[7] -= 4;
    let place = small.index_check(&bytes(&wrong));
    report.equal(place, Err(other_index(40)), || "body".into());
    // Of a number, the byte that differs: 1168 is 0x490, and 1424 is 0x590.
    wrong = NUMBERS;
    wrong[21] += 256;
    let place = small.index_check(&bytes(&wrong));
    report.equal(place, Err(other_index(85)), || "second byte".into());

    // An old index whose every number still fits.
    for edit in [
        ("A small listing", "A later listing"),
        ("Dupont<", "Dumont<"),
        ("MKCWX", "CKMXW"),
    ] {
        let text = edited(&[edit]);
        let newer = Listing::new(&text);
        report.equal(newer.index_check(&base), Ok(()), || format!("{edit:?}"));
    }
    // One byte more in the title moves every place; the first of them is that of the residues, 2233 for 2232.
    let moved = edited(&[("A small listing", "A little listing")]);
    let place = Listing::new(&moved).index_check(&base);
    report.equal(place, Err(other_index(32)), || "another title".into());

    index_refused(report, b"", Refusal { rule: 2, place: 0 });
    let damaged = edited(&[("\"1_2\"", "\"\"")]);
    let wanted = Refusal {
        rule: 10,
        place: 181,
    };
    index_refused(report, &damaged, wanted);
    // The index comes before the number, and before the room.
    let lookup = small.indexed(b"").and_then(|small| small.sequence(0));
    report.equal(lookup, Err(other_index(0)), || "number 0".into());
    indexed_refusals(report, &small, b"", Some(other_index(0)));
    indexed_refusals(report, &small, &index, None);
    if let Ok(small) = small.indexed(&index) {
        all_refused(report, small, [0, 0, 0], refusal(30));
        all_refused(report, small, [2, 1, 1], refusal(31));
    }
}

/// The index of a listing against the places that the generator noted while writing.
pub fn against_model(report: &mut Report, model: &Model, written: &Written) {
    let count = model.sequences.len();
    let mut contents = vec![count as u32];
    let mut bodies = Vec::new();
    for (k, sequence) in model.sequences.iter().enumerate() {
        contents.extend([(4 + 8 * count + 4 * bodies.len()) as u32, 0]);
        let before = bodies.len();
        bodies.push(match sequence.kind() {
            _ if sequence.is_skipped() => 0,
            Kind::Dna => 1,
            Kind::Rna => 2,
            Kind::Aa => 3,
        });
        let features = 0..sequence.features().len();
        let shown = features.flat_map(|f| [Field::Key(k, f), Field::Location(k, f)]);
        for field in [Field::Residues(k)].into_iter().chain(shown) {
            let part = written.spots[&field].part;
            bodies.extend([part.start as u32, part.size as u32]);
        }
        contents[2 * k + 2] = 4 * (bodies.len() - before) as u32;
    }
    let index = bytes(&[contents, bodies].concat());
    let listing = Listing::new(&written.bytes);
    let wanted = Ok(index.len() as u64);
    lent(report, "index", (BYTE, &index), wanted, |out| {
        listing.index(out)
    });
    report.equal(listing.index_check(&index), Ok(()), || "its index".into());
}
