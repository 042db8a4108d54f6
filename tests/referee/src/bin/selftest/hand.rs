//! Runs the hand-made cases.

use crate::report::Report;
use referee::hand::base::{bytes, edited, BASE, BASE_COUNTS, SHORTEST};
use referee::hand::layouts::{ACCEPTED, REFUSED};
use referee::hand::values::{Case, Outcome};
use referee::text::characters;
use referee::{broken, layout, verdict_lines, Broken, Counts, Listing, Refusal};

/// The counts in the order of the program's lines.
pub fn counts([total, skipped, features, judged, unjudged]: [u64; 5]) -> Counts {
    Counts {
        total,
        skipped,
        features,
        judged,
        unjudged,
    }
}

/// Rule 2: what it refuses and where, and what it lets pass.
pub fn layouts(report: &mut Report) {
    for case in REFUSED {
        let text = edited(case.edits);
        let refusal = Refusal {
            rule: 2,
            place: case.place,
        };
        let stands_there = text[case.place..].starts_with(&bytes(case.there));
        report.check(stands_there, || format!("marker of {}", case.name));
        report.equal(layout(&text), Err(refusal), || case.name.into());
        report.equal(Listing::new(&text).check(), Err(refusal), || {
            case.name.into()
        });
    }
    for (name, edits) in ACCEPTED {
        let text = edited(edits);
        let wanted = Ok(counts(BASE_COUNTS));
        report.equal(Listing::new(&text).check(), wanted, || (*name).into());
    }
    for (text, place) in [
        ("", 0),
        ("<", 1),
        ("<?", 2),
        ("\u{ef}\u{bb}\u{bf}", 0),
        ("x", 0),
    ] {
        let wanted = Err(Refusal { rule: 2, place });
        report.equal(layout(&bytes(text)), wanted, || format!("input {text:?}"));
    }
    report.equal(SHORTEST.len(), 477, || {
        "size of the shortest listing".into()
    });
    let wanted = Ok(counts([1, 1, 0, 0, 0]));
    let got = Listing::new(SHORTEST.as_bytes()).check();
    report.equal(got, wanted, || "the shortest listing".into());
    report.equal(BASE.len(), 3289, || "size of the base listing".into());
}

/// The program's lines, as document 01 prints them.
pub fn lines(report: &mut Report) {
    let third = BASE.rfind("<SequenceData").zip(BASE.rfind("</ST26"));
    let (from, to) = third.expect("the third sequence and the end");
    let text = format!("{}{}", &BASE[..from], &BASE[to..]);
    let text = text.replace(">3</SequenceTotalQuantity>", ">2</SequenceTotalQuantity>");
    let accepted = "verdict accepted\ntotal 2\nskipped 1\nfeatures 2\njudged 1\nunjudged 0\n";
    let refused = "verdict refused\nrule 2\nplace 0\n";
    for (text, wanted) in [(text.as_str(), accepted), ("", refused)] {
        let got = verdict_lines(Listing::new(text.as_bytes()).check());
        report.equal(got, wanted.into(), || "lines of the program".into());
    }
}

/// Rules 10 to 29 and 40 to 42.
pub fn values(report: &mut Report) {
    let read: Vec<u8> = characters(b"a&lt;&gt;&amp;&quot;&apos;lt; \xff").collect();
    let wanted = b"a<>&\"'lt; \xff".to_vec();
    report.equal(read, wanted, || "entities as read".into());
    for case in referee::hand::values() {
        for (value, text) in case.listings() {
            outcome(report, case, value, &text);
        }
    }
}

fn outcome(report: &mut Report, case: &Case, value: &str, text: &[u8]) {
    let name = || format!("{} {value:?}", case.name);
    let check = Listing::new(text).check();
    let list = match case.outcome {
        Outcome::Accepted(wanted) => {
            report.equal(check, Ok(counts(wanted)), name);
            &[]
        }
        Outcome::Refused(list) => {
            let (rule, place, _) = list[0];
            report.equal(check, Err(Refusal { rule, place }), name);
            list
        }
    };
    let wanted = list.iter().map(|&(rule, place, _)| Broken { place, rule });
    report.equal(broken(text), Ok(wanted.collect()), || {
        format!("all of {}", name())
    });
    for (_, place, there) in list {
        let marker = bytes(&there.replace('@', value));
        report.check(text[*place..].starts_with(&marker), || {
            format!("marker of {}", name())
        });
    }
}
