//! `compare check`: the whole check; verdict, rule, place and the five counts.

use crate::report::{Comparison, Input, Verdict};
use crate::xmllint::Xmllint;
use crate::{boundary, large, layout, mutants};
use referee::generate::sized::TRAPS;
use referee::generate::{one_damage, several_damages, Rng};
use referee::{value_rules, Counts, Listing};
use std::collections::BTreeMap;
use std::path::Path;

/// Compares on so many inputs of each kind, and all that doesn't depend on the count.
pub fn run(count: u64, seed: u64, root: &Path) -> Result<bool, String> {
    let specimens = layout::specimens(&root.join("tests/specimens"))?;
    let verdicts = [0, 1, 2].into_iter().chain(value_rules());
    let xmllint = Some(Xmllint::new(root)?);
    let mut check = Check::of_archive("check", verdicts, xmllint, root);
    check.kind("specimens", layout::specimen_inputs(specimens))?;
    check.kind("hand-made", layout::hand_made())?;
    check.kind("generated", layout::generated(count, seed))?;
    check.kind("one damage", damages(count, seed))?;
    check.kind("several damages", combined(count / 2, seed))?;
    let numbers = 0..count / 2;
    let layouts = numbers.clone().map(|number| mutants::mutant(seed, number));
    check.kind("mutants of the layout", layouts)?;
    let values = numbers.map(|number| mutants::value_mutant(seed, number));
    check.kind("mutants of values", values)?;
    check.kind("about the greatest size", sizes())?;
    check.kind("traps for a slow check", traps())?;
    check.close()
}

/// The referee's check.
pub fn judged(input: &[u8]) -> Verdict<Counts> {
    Listing::new(input).check()
}

/// Listings with one damage, each rule in turn.
pub fn damages(count: u64, seed: u64) -> impl Iterator<Item = Input> {
    let rules = value_rules().cycle().zip(0..count);
    rules.map(move |(rule, number)| Input {
        name: format!("damage {number} of seed {seed}, meant for rule {rule}"),
        bytes: one_damage(&mut rng(seed, number), rule).bytes,
    })
}

/// Listings with several damages.
fn combined(count: u64, seed: u64) -> impl Iterator<Item = Input> {
    (0..count).map(move |number| Input {
        name: format!("several damages {number} of seed {seed}"),
        bytes: several_damages(&mut rng(!seed, number)).bytes,
    })
}

pub fn rng(seed: u64, number: u64) -> Rng {
    Rng::new(seed ^ number.wrapping_mul(0xa24b_aed4_963e_e407))
}

/// What `compare layout` has of the greatest size and one byte more, and the mixes with one byte fewer.
fn sizes() -> impl Iterator<Item = Input> {
    large::inputs(&large::MIXES, large::LONGEST - 1).chain(layout::large_inputs())
}

/// The referee's large listings whose values are slow to judge.
fn traps() -> impl Iterator<Item = Input> {
    TRAPS.into_iter().map(|make| {
        let case = make();
        Input {
            name: format!("referee::generate::sized::TRAPS, {}", case.name),
            bytes: case.bytes,
        }
    })
}

/// The comparison, what xmllint says if it is asked, and how often each verdict was the referee's: 0 stands for accepted.
pub struct Check<P, J> {
    name: &'static str,
    comparison: Comparison<P, J>,
    xmllint: Option<Xmllint>,
    verdicts: BTreeMap<u32, usize>,
    /// The verdicts that must be met.
    wanted: Vec<u32>,
}

type Checker = fn(&[u8]) -> Verdict<Counts>;

impl Check<Checker, Checker> {
    /// The comparison of the archive's check with the referee's.
    pub fn of_archive(
        name: &'static str,
        wanted: impl Iterator<Item = u32>,
        xmllint: Option<Xmllint>,
        root: &Path,
    ) -> Self {
        let (proved, referee): (Checker, Checker) = (boundary::check, judged);
        let folder = root.join("target/compare");
        let comparison = Comparison::new(proved, referee, Some(folder));
        Check::new(name, comparison, wanted, xmllint)
    }
}

impl<P: Fn(&[u8]) -> Verdict<Counts>, J: Fn(&[u8]) -> Verdict<Counts>> Check<P, J> {
    fn new(
        name: &'static str,
        comparison: Comparison<P, J>,
        wanted: impl Iterator<Item = u32>,
        xmllint: Option<Xmllint>,
    ) -> Self {
        Check {
            name,
            comparison,
            xmllint,
            verdicts: BTreeMap::new(),
            wanted: wanted.collect(),
        }
    }

    /// Compares all inputs of one kind, and prints a line of their verdicts. What is accepted goes to xmllint.
    pub fn kind(&mut self, kind: &str, inputs: impl Iterator<Item = Input>) -> Result<(), String> {
        let mut verdicts = BTreeMap::new();
        for input in inputs {
            let (proved, referee) = self.comparison.one(&input);
            if let (Ok(_), Some(xmllint)) = (proved, &mut self.xmllint) {
                xmllint.add(&input)?;
            }
            let rule = referee.err().map_or(0, |refusal| refusal.rule);
            *verdicts.entry(rule).or_default() += 1;
        }
        println!("{kind}: {}", line(&verdicts));
        for (rule, count) in verdicts {
            *self.verdicts.entry(rule).or_default() += count;
        }
        Ok(())
    }

    /// The verdicts that were never met.
    fn unmet(&self) -> Vec<u32> {
        let mut unmet = self.wanted.clone();
        unmet.retain(|rule| !self.verdicts.contains_key(rule));
        unmet
    }

    /// Prints the last lines; true if nothing differs, xmllint refuses nothing, and every verdict was met.
    pub fn close(&mut self) -> Result<bool, String> {
        println!("in all: {}", line(&self.verdicts));
        let unmet = self.unmet();
        if !unmet.is_empty() {
            println!("NEVER THE VERDICT (0: accepted): {unmet:?}");
        }
        let is_valid = match &mut self.xmllint {
            Some(xmllint) => xmllint.close()?,
            None => true,
        };
        Ok(self.comparison.count.close(self.name) && is_valid && unmet.is_empty())
    }
}

/// How many cases, how many of them were accepted, and how many each rule refused.
fn line(verdicts: &BTreeMap<u32, usize>) -> String {
    let cases: usize = verdicts.values().sum();
    let accepted = verdicts.get(&0).unwrap_or(&0);
    let refused: Vec<String> = verdicts
        .iter()
        .filter(|(&rule, _)| rule != 0)
        .map(|(rule, count)| format!("{rule}: {count}"))
        .collect();
    format!(
        "{cases} cases; {accepted} accepted; refused by rule {}",
        refused.join(", ")
    )
}

#[cfg(test)]
mod tests {
    use super::*;
    use referee::Refusal;

    /// The comparison of two checks, with every verdict to be met.
    fn check<P, J>(proved: P, referee: J) -> Check<P, J>
    where
        P: Fn(&[u8]) -> Verdict<Counts>,
        J: Fn(&[u8]) -> Verdict<Counts>,
    {
        let comparison = Comparison::new(proved, referee, None);
        let verdicts = [0, 1, 2].into_iter().chain(value_rules());
        let xmllint = Xmllint::new(layout::root()).unwrap();
        Check::new("test", comparison, verdicts, Some(xmllint))
    }

    /// The comparison of an erring check with the referee.
    fn compared(
        wrong: impl Fn(&[u8], Verdict<Counts>) -> Verdict<Counts>,
        inputs: impl Iterator<Item = Input>,
    ) -> (usize, Vec<u32>) {
        let proved = |input: &[u8]| wrong(input, judged(input));
        let mut check = check(proved, judged);
        check.kind("test", inputs).unwrap();
        let differ = check.comparison.count.differ;
        let unmet = check.unmet();
        assert_eq!(check.close(), Ok(differ == 0 && unmet.is_empty()));
        (differ, unmet)
    }

    #[test]
    fn what_is_wrongly_accepted_goes_to_xmllint() {
        let accepts = |_: &[u8]| Ok(Counts::default());
        // Both err in the same way, so that only xmllint can tell.
        let mut check = check(accepts, accepts);
        check.wanted.clear();
        let mutants = (0..100).map(|number| mutants::mutant(1, number));
        check.kind("test", mutants).unwrap();
        assert_eq!(check.close(), Ok(false));
        assert_eq!(check.comparison.count.differ, 0);
        assert!(check.xmllint.unwrap().opinions.refused > 30);
    }

    #[test]
    fn every_rule_on_values_is_met() {
        let (differ, unmet) = compared(|_, verdict| verdict, damages(400, 1));
        assert_eq!((differ, unmet), (0, vec![0, 1, 2]));
    }

    #[test]
    fn a_rule_that_is_never_the_verdict_fails() {
        let inputs = damages(400, 1)
            .filter(|input| !matches!(judged(&input.bytes), Err(Refusal { rule: 26, .. })));
        let (_, unmet) = compared(|_, verdict| verdict, inputs);
        assert_eq!(unmet, [0, 1, 2, 26]);
    }

    #[test]
    fn wrong_refusals_are_found() {
        // Accepts all.
        let accepts = |_: &[u8], _| Ok(Counts::default());
        assert_eq!(compared(accepts, damages(100, 1)).0, 100);
        // Knows all rules but one.
        for blind in value_rules() {
            let wrong = |_: &[u8], verdict: Verdict<Counts>| match verdict {
                Err(refusal) if refusal.rule == blind => Ok(Counts::default()),
                _ => verdict,
            };
            assert!(compared(wrong, damages(400, 1)).0 > 0, "rule {blind}");
        }
        // The right rule at the next place.
        let next = |_: &[u8], verdict: Verdict<Counts>| {
            verdict.map_err(|Refusal { rule, place }| Refusal {
                rule,
                place: place + 1,
            })
        };
        assert_eq!(compared(next, combined(100, 1)).0, 100);
    }

    #[test]
    fn each_wrong_count_is_found() {
        let errors: [fn(&mut Counts); 5] = [
            |counts| counts.total += 1,
            |counts| counts.skipped += 1,
            |counts| counts.features += 1,
            |counts| counts.judged += 1,
            |counts| counts.unjudged += 1,
        ];
        for error in errors {
            let wrong = |_: &[u8], verdict: Verdict<Counts>| {
                verdict.map(|mut counts| {
                    error(&mut counts);
                    counts
                })
            };
            assert!(compared(wrong, layout::generated(100, 1)).0 > 20);
        }
    }

    #[test]
    fn the_proved_check_agrees() {
        let mut check = check(boundary::check, judged);
        check.kind("generated", layout::generated(400, 1)).unwrap();
        check.kind("one damage", damages(400, 1)).unwrap();
        assert_eq!(check.comparison.count.differ, 0);
        let mut xmllint = check.xmllint.unwrap();
        assert_eq!(xmllint.close(), Ok(true));
        let opinions = xmllint.opinions;
        assert!(
            opinions.whole > 80 && opinions.replaced > 10,
            "{opinions:?}"
        );
    }

    #[test]
    fn mutants_of_values_stay_of_the_layout() {
        let mut rules = BTreeMap::<u32, usize>::new();
        for number in 0..1000 {
            let input = mutants::value_mutant(1, number);
            let rule = judged(&input.bytes).err().map_or(0, |refusal| refusal.rule);
            *rules.entry(rule).or_default() += 1;
        }
        assert!(rules.get(&2).unwrap_or(&0) < &50, "{rules:?}");
        assert!(rules.len() > 15, "{rules:?}");
    }
}
