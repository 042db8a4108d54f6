//! Compares answers, counts the verdicts and tells the differences.

use referee::Refusal;
use std::fmt::Debug;
use std::fs;
use std::path::{Path, PathBuf};

/// What a reader says: what it found in a listing that it accepts, or the refusal.
pub type Verdict<T = ()> = Result<T, Refusal>;

/// An input and a name by which it can be made again.
#[derive(Clone)]
pub struct Input {
    pub name: String,
    pub bytes: Vec<u8>,
}

/// How many cases of one kind got which verdict from the referee.
#[derive(Debug, Default, PartialEq, Eq)]
pub struct Tally {
    pub laid_out: usize,
    pub too_long: usize,
    /// Not of the layout, and wrong before the first sequence.
    pub wrong_early: usize,
    /// Not of the layout, and wrong in the sequences or after them.
    pub wrong_late: usize,
}

impl Tally {
    fn add(&mut self, input: &[u8], verdict: Verdict) {
        let counter = match verdict {
            Ok(()) => &mut self.laid_out,
            Err(Refusal { rule: 1, .. }) => &mut self.too_long,
            Err(Refusal { place, .. }) if reaches_a_sequence(input, place) => &mut self.wrong_late,
            Err(_) => &mut self.wrong_early,
        };
        *counter += 1;
    }

    pub fn cases(&self) -> usize {
        self.laid_out + self.too_long + self.wrong_early + self.wrong_late
    }
}

/// Whether the start of a sequence stands before this place.
fn reaches_a_sequence(input: &[u8], place: usize) -> bool {
    let tag = b"<SequenceData";
    input[..place.min(input.len())]
        .windows(tag.len())
        .any(|window| window == tag)
}

/// So many differences are told in detail.
const TOLD: usize = 5;

/// How many cases were compared, and how many differ.
#[derive(Default)]
pub struct Count {
    pub cases: usize,
    pub differ: usize,
}

impl Count {
    /// Counts one case; `tell` prints it with its number, where it is one of the first that differ.
    pub fn case(&mut self, same: bool, tell: impl FnOnce(usize)) {
        self.cases += 1;
        if !same {
            self.differ += 1;
            if self.differ <= TOLD {
                tell(self.differ);
            }
        }
    }

    /// Prints the last line; true if nothing differs.
    pub fn close(&self, name: &str) -> bool {
        println!(
            "compare {name}: {} cases, {} differ",
            self.cases, self.differ
        );
        self.differ == 0
    }
}

/// The comparison of two readers.
pub struct Comparison<P, J> {
    proved: P,
    referee: J,
    /// Where inputs with a difference are kept.
    folder: Option<PathBuf>,
    pub count: Count,
}

impl<T, P, J> Comparison<P, J>
where
    T: Copy + Debug + PartialEq,
    P: Fn(&[u8]) -> Verdict<T>,
    J: Fn(&[u8]) -> Verdict<T>,
{
    pub fn new(proved: P, referee: J, folder: Option<PathBuf>) -> Self {
        Comparison {
            proved,
            referee,
            folder,
            count: Count::default(),
        }
    }

    /// Compares one input; the answers are the proved reader's and the referee's.
    pub fn one(&mut self, input: &Input) -> (Verdict<T>, Verdict<T>) {
        let (proved, referee) = ((self.proved)(&input.bytes), (self.referee)(&input.bytes));
        let folder = self.folder.as_deref();
        self.count.case(proved == referee, |number| {
            println!("DIFFERS: {} ({} bytes)", input.name, input.bytes.len());
            println!("  proved reader: {}", words(&input.bytes, proved));
            println!("  referee:         {}", words(&input.bytes, referee));
            if let Some(folder) = folder {
                keep(folder, number, "xml", &input.bytes);
            }
        });
        (proved, referee)
    }
}

impl<P: Fn(&[u8]) -> Verdict, J: Fn(&[u8]) -> Verdict> Comparison<P, J> {
    /// Compares all inputs of one kind, and prints a line of their verdicts.
    pub fn kind(&mut self, kind: &str, inputs: impl Iterator<Item = Input>) -> Tally {
        let mut tally = Tally::default();
        for input in inputs {
            let (_, referee) = self.one(&input);
            tally.add(&input.bytes, referee);
        }
        println!(
            "{kind}: {} cases; {} laid out, {} too long, {} wrong in the header, {} wrong later",
            tally.cases(),
            tally.laid_out,
            tally.too_long,
            tally.wrong_early,
            tally.wrong_late
        );
        tally
    }
}

/// Keeps an input with a difference, or another of the bytes that were lent with it.
pub fn keep(folder: &Path, number: usize, extension: &str, bytes: &[u8]) {
    let file = folder.join(format!("differs-{number}.{extension}"));
    let kept = fs::create_dir_all(folder).and_then(|()| fs::write(&file, bytes));
    match kept {
        Ok(()) => println!("  kept as {}", file.display()),
        Err(error) => println!("  not kept: {}: {error}", file.display()),
    }
}

/// A verdict in words, with the bytes on both sides of its place.
fn words<T: Debug>(input: &[u8], verdict: Verdict<T>) -> String {
    match verdict {
        Ok(found) => format!("accepted, {found:?}"),
        Err(Refusal { rule, place }) => {
            let at = place.min(input.len());
            let before = &input[at.saturating_sub(30)..at];
            let after = &input[at..input.len().min(at + 30)];
            format!(
                "rule {rule}, place {place}: ..{} HERE {}..",
                before.escape_ascii(),
                after.escape_ascii()
            )
        }
    }
}

#[cfg(test)]
mod tests {
    use super::*;

    const RULE_2: Verdict = Err(Refusal { rule: 2, place: 3 });

    fn inputs(count: usize) -> impl Iterator<Item = Input> {
        (0..count).map(|number| Input {
            name: format!("number {number}"),
            bytes: vec![b'x'; number],
        })
    }

    /// How many of ten inputs differ, where the proved reader errs on those that `wrong` picks.
    fn differ(wrong: impl Fn(&[u8]) -> bool, error: Verdict) -> usize {
        let proved = |input: &[u8]| if wrong(input) { error } else { RULE_2 };
        let mut comparison = Comparison::new(proved, |_: &[u8]| RULE_2, None);
        comparison.kind("test", inputs(10));
        let count = comparison.count;
        assert_eq!(count.cases, 10);
        assert_eq!(count.close("test"), count.differ == 0);
        count.differ
    }

    #[test]
    fn equal_answers_do_not_differ() {
        assert_eq!(differ(|_| false, Ok(())), 0);
    }

    #[test]
    fn every_wrong_answer_differs() {
        assert_eq!(differ(|_| true, Ok(())), 10);
        assert_eq!(differ(|input| input.len() == 7, Ok(())), 1);
        let early = Refusal { rule: 2, place: 2 };
        assert_eq!(differ(|input| input.len() > 4, Err(early)), 5);
        let other = Refusal { rule: 1, place: 3 };
        assert_eq!(differ(|input| input.is_empty(), Err(other)), 1);
    }

    #[test]
    fn verdicts_are_counted_by_kind() {
        let input = b"<SequenceData sequence".as_slice();
        let mut tally = Tally::default();
        tally.add(input, Ok(()));
        tally.add(input, Err(Refusal { rule: 1, place: 0 }));
        tally.add(input, Err(Refusal { rule: 2, place: 12 }));
        tally.add(input, Err(Refusal { rule: 2, place: 13 }));
        tally.add(input, Err(Refusal { rule: 2, place: 14 }));
        let expected = Tally {
            laid_out: 1,
            too_long: 1,
            wrong_early: 1,
            wrong_late: 2,
        };
        assert_eq!(tally, expected);
        assert_eq!(tally.cases(), 5);
    }
}
