//! Generated listings: damaged ones with known rules and places, and valid ones.

use crate::index;
use crate::lookups::{against_model, all_refused};
use crate::report::Report;
use referee::generate::residues::{
    any_residues, every_character, one_foreign, stretches, two_foreign,
};
use referee::generate::{
    case, one_damage, several_damages, truncation, valid_listing, Case, Damaged, Expectation, Rng,
};
use referee::{broken, value_rules, Broken, Listing, Refusal};

/// One damage for each rule many times, then several at once.
pub fn damages(report: &mut Report) {
    let rng = &mut Rng::new(1);
    for rule in value_rules() {
        let mut hits = 0;
        for _ in 0..150 {
            let damaged = one_damage(rng, rule);
            hits += u64::from(damaged.broken[0].rule == rule);
            damage(report, &damaged, &format!("damage of rule {rule}"));
        }
        report.check(hits >= 5, || {
            format!("rule {rule} was refused {hits} times")
        });
    }
    for _ in 0..3000 {
        damage(report, &several_damages(rng), "several damages");
    }
}

/// Foreign residues at every place of small listings.
pub fn residues(report: &mut Report) {
    let rng = &mut Rng::new(3);
    let any = (0..20_000).map(|_| any_residues(rng));
    let samples = every_character().chain(one_foreign()).chain(two_foreign());
    for sample in samples.chain(stretches()).chain(any) {
        report.equal(broken(&sample.bytes), Ok(sample.broken), || sample.name);
    }
}

fn damage(report: &mut Report, damaged: &Damaged, name: &str) {
    let Broken { place, rule } = damaged.broken[0];
    let wanted = Refusal { rule, place };
    let listing = Listing::new(&damaged.bytes);
    report.equal(listing.check(), Err(wanted), || name.into());
    let got = broken(&damaged.bytes);
    report.equal(got.as_ref(), Ok(&damaged.broken), || {
        format!("all of {name}")
    });
    all_refused(report, &listing, [1, 1, 1], wanted);
}

/// Valid listings with every question, and cases of all sorts by their seed.
pub fn valid(report: &mut Report) {
    let rng = &mut Rng::new(2);
    for _ in 0..1000 {
        let (model, written) = valid_listing(rng);
        against_model(report, &model, &written);
        index::against_model(report, &model, &written);
    }
    for number in 0..3000 {
        expect(report, &case(5, number));
    }
    for _ in 0..1000 {
        expect(report, &truncation(rng));
    }
    let again = || case(6, 7).bytes;
    report.check(again() == again(), || "equal seeds give equal cases".into());
}

/// The check of a case must say what is expected, where that is known.
pub fn expect(report: &mut Report, case: &Case) {
    let got = match Listing::new(&case.bytes).check() {
        Ok(counts) => Expectation::Accepted(counts),
        Err(refusal) => Expectation::Refused(refusal),
    };
    if let Some(wanted) = case.expectation {
        report.equal(got, wanted, || case.name.clone());
    }
}
