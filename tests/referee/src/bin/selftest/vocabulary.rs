//! The vocabulary's tables against each other, and whether generated listings use all of them.

use crate::report::Report;
use referee::generate::{valid_listing, Rng};
use referee::vocabulary::{keys, qualifiers, spellings};
use referee::Kind;
use std::collections::BTreeSet;

/// Each table holds what document 02 and source 003 count, nothing twice, and sections 5 and 7 have the names of 6 and 8.
pub fn tables(report: &mut Report) {
    for (kind, key_count, name_count) in
        [(Kind::Dna, 49, 81), (Kind::Rna, 49, 81), (Kind::Aa, 39, 3)]
    {
        let listed = qualifiers(kind);
        let names: BTreeSet<&str> = listed.iter().copied().collect();
        let distinct: BTreeSet<&str> = keys(kind).iter().map(|key| key.name).collect();
        report.equal(distinct.len(), key_count, || format!("keys of {kind:?}"));
        report.equal(keys(kind).len(), key_count, || format!("rows of {kind:?}"));
        report.equal(names.len(), name_count, || format!("names of {kind:?}"));
        report.equal(listed.len(), name_count, || format!("list of {kind:?}"));
        let used: BTreeSet<&str> = keys(kind).iter().flat_map(|key| key.allowed()).collect();
        report.equal(used, names, || format!("names that keys of {kind:?} allow"));
        for key in keys(kind) {
            let allowed: Vec<&str> = key.allowed().collect();
            let distinct: BTreeSet<&str> = allowed.iter().copied().collect();
            report.equal(allowed.len(), distinct.len(), || {
                format!("row {}", key.name)
            });
        }
    }
}

/// Valid listings have every key with every name that it allows, in every spelling.
pub fn coverage(report: &mut Report) {
    let rng = &mut Rng::new(7);
    let mut made = BTreeSet::new();
    for _ in 0..8000 {
        for sequence in valid_listing(rng).0.sequences {
            for feature in sequence.features() {
                for qualifier in feature.qualifiers() {
                    let names = (feature.key.clone(), qualifier.name.clone());
                    made.insert((sequence.is_nucleic(), names));
                }
            }
        }
    }
    for kind in [Kind::Dna, Kind::Aa] {
        for key in keys(kind) {
            for written in spellings(kind, key.name) {
                for name in key.spelled(kind) {
                    let pair = (kind == Kind::Dna, (written.into(), name.into()));
                    report.check(made.contains(&pair), || {
                        format!("no valid listing of {kind:?} has {written} with {name}")
                    });
                }
            }
        }
    }
}
