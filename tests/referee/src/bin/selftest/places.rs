//! Rule 2's place against a slow matcher, on beginnings and on mutants.

use crate::report::Report;
use referee::automaton::Automaton;
use referee::generate::{case, valid_listing, Rng};
use referee::hand::base::{BASE, SHORTEST};
use referee::layout::grammar;
use referee::regex::Regex;
use referee::{broken, layout, Broken, Listing, Refusal};
use std::collections::BTreeSet;
use std::time::Instant;

/// Size, speed and trimming of the automaton.
pub fn automaton(report: &mut Report) {
    let started = Instant::now();
    let automaton = Automaton::new(&grammar());
    let time = started.elapsed();
    println!(
        "layout automaton: {} states in {time:.2?}",
        automaton.states()
    );
    report.check(time.as_secs() < 1, || "time to build the automaton".into());
    let all_end = automaton.can_end().iter().all(|&can_end| can_end);
    report.check(all_end, || "a state that can't reach an end".into());
}

/// Every proper beginning of a listing gives its own length.
pub fn beginnings(report: &mut Report) {
    let rng = &mut Rng::new(3);
    let mut texts = vec![BASE.trim_end().as_bytes().to_vec(), SHORTEST.into()];
    texts.extend((0..10).map(|_| {
        let mut bytes = valid_listing(rng).1.bytes;
        // Blanks after the root would make a beginning complete.
        while bytes.last() != Some(&b'>') {
            bytes.pop();
        }
        bytes
    }));
    for text in texts {
        for place in 0..text.len() {
            let wanted = Err(Refusal { rule: 2, place });
            report.equal(layout(&text[..place]), wanted, || {
                format!("beginning of {place}")
            });
        }
        report.equal(layout(&text), Ok(()), || "the whole text".into());
    }
}

/// Mutants: the automaton against the slow matcher.
pub fn mutants(report: &mut Report) {
    let grammar = grammar();
    let mut refused = 0;
    for number in 0..4000 {
        let mutant = case(4, number);
        if mutant.expectation.is_none() {
            let got = layout(&mutant.bytes).map_err(|refusal| refusal.place);
            report.equal(got, slow(&grammar, &mutant.bytes), || {
                format!("mutant {number}")
            });
            refused += u64::from(got.is_err());
            let first = broken(&mutant.bytes).map(|list| list.first().copied());
            let wanted = match first {
                Ok(None) => None,
                Ok(Some(Broken { place, rule })) => Some(Refusal { rule, place }),
                Err(refusal) => Some(refusal),
            };
            let check = Listing::new(&mutant.bytes).check();
            report.equal(check.err(), wanted, || format!("check of mutant {number}"));
        }
    }
    report.check(refused > 500, || "mutants that rule 2 refuses".into());
    // Near misses in a short text: each byte replaced by each of these.
    for place in 0..SHORTEST.len() {
        for &byte in b"<>/\"= &;x\n\xe9" {
            let mut text = SHORTEST.as_bytes().to_vec();
            text[place] = byte;
            let got = layout(&text).map_err(|refusal| refusal.place);
            report.equal(got, slow(&grammar, &text), || {
                format!("byte {byte} at {place}")
            });
        }
    }
}

/// Rule 2 by trying all ways at once: no part of the layout is without texts,
/// so each byte that some way has read begins some layout text.
fn slow(grammar: &Regex, text: &[u8]) -> Result<(), usize> {
    let mut furthest = 0;
    let ends = ends(grammar, text, BTreeSet::from([0]), &mut furthest);
    if ends.contains(&text.len()) {
        Ok(())
    } else {
        Err(furthest)
    }
}

/// Where a match can end that starts at one of the places.
fn ends(
    regex: &Regex,
    text: &[u8],
    starts: BTreeSet<usize>,
    furthest: &mut usize,
) -> BTreeSet<usize> {
    if starts.is_empty() {
        return starts;
    }
    match regex {
        Regex::One(set) => {
            let read = |&start: &usize| text.get(start).map_or(false, |&byte| set.contains(byte));
            let ends: BTreeSet<usize> = starts.into_iter().filter(read).map(|s| s + 1).collect();
            *furthest = ends.iter().copied().fold(*furthest, usize::max);
            ends
        }
        Regex::Sequence(parts) => parts
            .iter()
            .fold(starts, |starts, part| ends(part, text, starts, furthest)),
        Regex::Choice(parts) => parts
            .iter()
            .flat_map(|part| ends(part, text, starts.clone(), furthest))
            .collect(),
        Regex::Plus(part) => {
            let mut all = BTreeSet::new();
            let mut fresh = starts;
            while !fresh.is_empty() {
                let next = ends(part, text, fresh, furthest);
                fresh = next.difference(&all).copied().collect();
                all.extend(next);
            }
            all
        }
    }
}
