//! Counts what passed and what failed, and times the sections.

use std::fmt::Debug;
use std::time::Instant;

/// The running count.
pub struct Report {
    passed: u64,
    failed: u64,
    since: Instant,
}

/// More failures than this aren't printed.
const SHOWN: u64 = 40;

impl Report {
    pub fn new() -> Report {
        Report {
            passed: 0,
            failed: 0,
            since: Instant::now(),
        }
    }

    /// Counts one check.
    pub fn check(&mut self, holds: bool, name: impl FnOnce() -> String) {
        if holds {
            self.passed += 1;
            return;
        }
        self.failed += 1;
        if self.failed <= SHOWN {
            println!("FAILED {}", name());
        }
    }

    /// Counts one check: the two must be equal.
    pub fn equal<T: PartialEq + Debug>(
        &mut self,
        got: T,
        wanted: T,
        name: impl FnOnce() -> String,
    ) {
        let holds = got == wanted;
        self.check(holds, || {
            format!("{}: got {got:?}, wanted {wanted:?}", name())
        });
    }

    /// Runs a section and says how long it took.
    pub fn section(&mut self, name: &str, run: impl FnOnce(&mut Report)) {
        let before = self.passed + self.failed;
        let started = Instant::now();
        run(self);
        let count = self.passed + self.failed - before;
        println!(
            "{name}: {count} checks in {:.2} s",
            started.elapsed().as_secs_f64()
        );
    }

    /// Prints the last line and says whether all is well.
    pub fn close(&self) -> bool {
        println!("{:.2} s in all", self.since.elapsed().as_secs_f64());
        println!("{} passed, {} failed", self.passed, self.failed);
        self.failed == 0
    }
}
