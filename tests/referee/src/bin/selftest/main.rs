//! The referee's self-test; its last line is `N passed, 0 failed`.

mod generated;
mod hand;
mod index;
mod locations;
mod lookups;
mod places;
mod report;
mod sizes;
mod translations;
mod vocabulary;

use report::Report;
use std::process::ExitCode;

fn main() -> ExitCode {
    let mut report = Report::new();
    report.section("automaton", places::automaton);
    report.section("layout by hand", hand::layouts);
    report.section("values by hand", hand::values);
    report.section("the program's lines", hand::lines);
    report.section("lookups by hand", lookups::by_hand);
    report.section("the index by hand", index::by_hand);
    report.section("codons and coding texts", translations::all);
    report.section("locations", locations::all);
    report.section("the vocabulary's tables", vocabulary::tables);
    report.section("the vocabulary in valid listings", vocabulary::coverage);
    report.section("beginnings", places::beginnings);
    report.section("damages", generated::damages);
    report.section("mistaken letters", translations::mistakes);
    report.section("foreign residues", generated::residues);
    report.section("valid listings", generated::valid);
    report.section("mutants", places::mutants);
    report.section("sizes", sizes::sizes);
    report.section("traps", sizes::traps);
    if report.close() {
        ExitCode::SUCCESS
    } else {
        ExitCode::FAILURE
    }
}
