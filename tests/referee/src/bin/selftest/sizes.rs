//! Listings of exact sizes up to the limit and beyond, and the traps, with their times.

use crate::generated::expect;
use crate::report::Report;
use referee::generate::sized::{sized, MIXES, SMALLEST, TRAPS};
use referee::generate::Case;
use referee::layout::LONGEST;
use referee::{layout, Listing, Refusal};
use std::time::Instant;

/// No check may take longer than this many seconds: a slow machine may take its time, work that grows with the square of the
/// size would take hours.
const MOST_SECONDS: f64 = 20.0;

/// Exact sizes in each mix, and long inputs that aren't listings.
pub fn sizes(report: &mut Report) {
    for mix in MIXES {
        let small = (600..640).chain(SMALLEST - 1..SMALLEST + 1000);
        let small = small.chain([4096, 60_000, 65_536, 65_537]);
        let large = [LONGEST - 1, LONGEST, LONGEST + 1, LONGEST + 2];
        for size in small.chain(large) {
            let case = sized(mix, size, size as u64);
            report.equal(case.bytes.len(), size, || format!("size of {}", case.name));
            timed(report, &case);
        }
    }
    let too_long = vec![b'<'; LONGEST + 1];
    let rule_1 = Err(Refusal { rule: 1, place: 0 });
    report.equal(layout(&too_long), rule_1, || {
        "too long, not of the layout".into()
    });
    let rule_2 = Err(Refusal { rule: 2, place: 1 });
    report.equal(layout(&too_long[1..]), rule_2, || {
        "longest, not of the layout".into()
    });
    let mut unfinished = br#"<?xml version="1.0" encoding="UTF-8"?>"#.to_vec();
    unfinished.resize(LONGEST, b'\t');
    let at_end = Err(Refusal {
        rule: 2,
        place: LONGEST,
    });
    report.equal(layout(&unfinished), at_end, || "longest, unfinished".into());
}

/// The traps.
pub fn traps(report: &mut Report) {
    for trap in TRAPS {
        let case = trap();
        let seconds = timed(report, &case);
        println!(
            "  {}: {} bytes in {seconds:.2} s",
            case.name,
            case.bytes.len()
        );
        report.check(case.bytes.len() <= LONGEST, || {
            format!("size of {}", case.name)
        });
        if case.name == "complement of a long join" {
            long_answers(report, &case);
        }
    }
}

/// Checks the listing as expected and in time; gives the seconds it took.
fn timed(report: &mut Report, case: &Case) -> f64 {
    let started = Instant::now();
    expect(report, case);
    let seconds = started.elapsed().as_secs_f64();
    report.check(seconds < MOST_SECONDS, || {
        format!("{} took {seconds:.2} s", case.name)
    });
    seconds
}

/// The feature and the translation of 700,000 members.
fn long_answers(report: &mut Report, case: &Case) {
    let listing = Listing::new(&case.bytes);
    let mut spans = vec![9; 2_100_001];
    let count = listing.feature(1, 2, &mut spans).map(|answer| answer.count);
    report.equal(count, Ok(700_000), || "count of long spans".into());
    let all = [4, 6, 1, 1, 3, 1].repeat(350_000);
    let holds = spans[..2_100_000] == all && spans[2_100_000] == 9;
    report.check(holds, || "long spans".into());
    let mut letters = vec![b'.'; 700_001];
    let length = listing.translation(1, 2, &mut letters);
    report.equal(length, Ok(700_000), || {
        "length of a long translation".into()
    });
    let holds = letters[..700_000] == b"FM".repeat(350_000) && letters[700_000] == b'.';
    report.check(holds, || "long translation".into());
}
