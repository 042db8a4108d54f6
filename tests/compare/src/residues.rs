//! `compare residues`: rules 18, 19 and 21 on small listings with foreign residues at every place.

use crate::check::{rng, Check};
use crate::report::Input;
use referee::generate::residues::{
    any_residues, every_character, one_foreign, stretches, two_foreign, Sample,
};
use std::path::Path;

/// The verdicts that must be met: accepted, the three rules, and 28, which waits for 18.
const VERDICTS: [u32; 5] = [0, 18, 19, 21, 28];

/// Compares all that doesn't depend on the count, and so many generated texts.
pub fn run(count: u64, seed: u64, root: &Path) -> Result<bool, String> {
    // The DTD doesn't look into residues, so xmllint isn't asked.
    let mut check = Check::of_archive("residues", VERDICTS.into_iter(), None, root);
    check.kind("every character", every_character().map(input))?;
    check.kind("one foreign residue", one_foreign().map(input))?;
    check.kind("two foreign residues", two_foreign().map(input))?;
    check.kind("stretches", stretches().map(input))?;
    check.kind("generated", generated(count, seed))?;
    check.close()
}

fn input(sample: Sample) -> Input {
    Input {
        name: sample.name,
        bytes: sample.bytes,
    }
}

fn generated(count: u64, seed: u64) -> impl Iterator<Item = Input> {
    (0..count).map(move |number| input(any_residues(&mut rng(seed, number))))
}

#[cfg(test)]
mod tests {
    use super::*;
    use crate::boundary;
    use crate::check::judged;
    use crate::report::{Comparison, Verdict};
    use referee::{broken, Broken, Counts, Refusal};
    use std::collections::BTreeSet;

    /// Shorter texts, most of them with two foreign residues or more.
    fn small() -> Vec<Input> {
        let two = two_foreign().map(input);
        two.chain(generated(1000, 1)).collect()
    }

    /// As many as a test has time for.
    fn some_stretches() -> Vec<Input> {
        stretches().step_by(7).map(input).collect()
    }

    /// How many of these texts tell the referee from this check.
    fn differ(inputs: &[Input], proved: impl Fn(&[u8]) -> Verdict<Counts>) -> usize {
        let mut comparison = Comparison::new(proved, judged, None);
        for input in inputs {
            let _ = comparison.one(input);
        }
        comparison.count.differ
    }

    /// How many find a reader that errs in what is broken, or where.
    fn found(inputs: &[Input], error: impl Fn(&[u8], &mut Vec<Broken>)) -> usize {
        differ(inputs, |input| {
            let mut list = broken(input)?;
            error(input, &mut list);
            match list.into_iter().min() {
                Some(Broken { place, rule }) => Err(Refusal { rule, place }),
                // Where it accepts what the referee refuses, the counts don't matter.
                None => judged(input).or(Ok(Counts::default())),
            }
        })
    }

    /// The same, where it errs in rule 18's place only.
    fn found_place(error: impl Fn(&[u8], usize) -> usize) -> usize {
        found(&small(), |input, list| {
            for broken in list.iter_mut().filter(|broken| broken.rule == 18) {
                broken.place = error(input, broken.place);
            }
        })
    }

    /// The sequence of a sample, each residue as it is written.
    struct Sequence<'a> {
        moltype: &'a str,
        start: usize,
        residues: Vec<&'a str>,
        /// Which of them are foreign.
        foreign: Vec<usize>,
    }

    /// The text behind this mark, up to the next tag, and where it begins.
    fn text_behind<'a>(listing: &'a str, mark: &str) -> (usize, &'a str) {
        let start = listing.find(mark).map_or(0, |at| at + mark.len());
        let text = &listing[start..];
        (start, text.split('<').next().unwrap_or(text))
    }

    fn sequence(input: &[u8]) -> Sequence<'_> {
        let listing = std::str::from_utf8(input).unwrap();
        let (_, moltype) = text_behind(listing, "<INSDSeq_moltype>");
        let (start, mut text) = text_behind(listing, "<INSDSeq_sequence>");
        let symbols = match moltype {
            "AA" => "ABCDEFGHIJKLMNOPQRSTUVWXYZ",
            _ => "acgtmrwsykvhdbn",
        };
        let mut residues = Vec::new();
        while !text.is_empty() {
            let is_entity = text.starts_with('&');
            let size = if is_entity {
                text.find(';').unwrap() + 1
            } else {
                1
            };
            let (residue, rest) = text.split_at(size);
            residues.push(residue);
            text = rest;
        }
        let is_foreign = |&at: &usize| !symbols.contains(residues[at]);
        let foreign = (0..residues.len()).filter(is_foreign).collect();
        Sequence {
            moltype,
            start,
            residues,
            foreign,
        }
    }

    fn is_rarer(residue: &&str) -> bool {
        "mrwsykvhdb".contains(residue)
    }

    /// The residues of a block of 64, or of what is left over.
    fn block_at<'a, 'b>(residues: &'b [&'a str], at: usize) -> &'b [&'a str] {
        residues.chunks(64).nth(at / 64).unwrap_or(&[])
    }

    /// How many find a reader of nucleotides that chooses wrongly which foreign residue to report, if any.
    fn found_choice(inputs: &[Input], choose: impl Fn(&Sequence) -> Option<usize>) -> usize {
        found(inputs, |input, list| {
            let sequence = sequence(input);
            if sequence.moltype != "AA" {
                list.retain(|broken| broken.rule != 18);
                list.extend(choose(&sequence).map(|chosen| {
                    let before = sequence.residues[..chosen].concat();
                    let place = sequence.start + before.len();
                    Broken { place, rule: 18 }
                }));
            }
        })
    }

    #[test]
    fn a_wrong_place_is_found() {
        assert_eq!(found_place(|_, place| place), 0);
        // The start of the text, as it was before document 02.
        let start = |input: &[u8]| sequence(input).start;
        assert!(found_place(|input, _| start(input)) > 3000);
        // The last foreign residue; `two_foreign` has these two bytes.
        let last = |input: &[u8], place| {
            let residues = input[place..].iter().take_while(|&&byte| byte != b'<');
            let foreign = residues
                .enumerate()
                .filter(|(_, byte)| b"-&".contains(byte));
            place + foreign.last().map_or(0, |(at, _)| at)
        };
        assert!(found_place(last) > 2000);
        // The byte behind the `&`.
        let behind = |input: &[u8], place| place + usize::from(input[place] == b'&');
        assert!(found_place(behind) > 1000);
        // The first byte of 64.
        let block = |input: &[u8], place| place - (place - start(input)) % 64;
        assert!(found_place(block) > 3000);
    }

    #[test]
    fn a_wrong_order_is_found() {
        let breaks = |list: &[Broken], rule| list.iter().any(|broken| broken.rule == rule);
        // 18 always before 19, and before 21.
        for later in [19, 21] {
            let order = |_: &[u8], list: &mut Vec<Broken>| {
                if breaks(list, 18) {
                    list.retain(|broken| broken.rule != later);
                }
            };
            assert!(found(&small(), order) > 300, "{later}");
        }
        // 19 before 18 at one place.
        let order = |_: &[u8], list: &mut Vec<Broken>| {
            if breaks(list, 19) {
                list.retain(|broken| broken.rule != 18);
            }
        };
        assert!(found(&small(), order) > 50);
        // 28 though 18 is broken.
        let hasty = |input: &[u8], list: &mut Vec<Broken>| {
            let value = b"M</INSDQualifier_value>";
            let place = input.windows(value.len()).position(|bytes| bytes == value);
            list.extend(place.map(|place| Broken { place, rule: 28 }));
        };
        assert!(found(&small(), hasty) > 500);
    }

    #[test]
    fn a_wrong_scan_of_stretches_is_found() {
        let inputs = &some_stretches();
        let first = |sequence: &Sequence| sequence.foreign.first().copied();
        assert_eq!(found_choice(inputs, first), 0);
        let last = |sequence: &Sequence| sequence.foreign.last().copied();
        assert!(found_choice(inputs, last) > 2000);
        // Readers that overlook some foreign residues and report the first of the others.
        let blind = |overlooks: &dyn Fn(&[&str], usize) -> bool| {
            found_choice(inputs, |sequence| {
                let mut foreign = sequence.foreign.iter().copied();
                foreign.find(|&at| !overlooks(&sequence.residues, at))
            })
        };
        // A letter is taken for a symbol in blocks that have rarer letters, or in those that have none.
        for letter in ["u", "j"] {
            for has_rarer in [true, false] {
                let count = blind(&|residues, at| {
                    residues[at] == letter
                        && block_at(residues, at).iter().any(is_rarer) == has_rarer
                });
                assert!(count > 20, "{letter} {has_rarer} {count}");
            }
        }
        // In the 256 residues behind a rarer letter; behind those.
        let far_and_near = |residues: &[&str], at: usize| {
            let (far, near) = residues[..at].split_at(at.saturating_sub(256));
            [far, near].map(|part| part.iter().any(is_rarer))
        };
        let near = blind(&|residues, at| far_and_near(residues, at)[1]);
        assert!(near > 3000, "{near}");
        let far = blind(&|residues, at| far_and_near(residues, at) == [true, false]);
        assert!(far > 500, "{far}");
        // At one place only, where a reader may go back.
        for behind in [256, 320] {
            let count = blind(&|residues, at| {
                let first = residues.iter().position(is_rarer);
                first.map(|first| first / 64 * 64 + behind) == Some(at)
            });
            assert!(count > 100, "{behind} {count}");
        }
        // In what blocks leave over.
        let left_over = blind(&|residues, at| block_at(residues, at).len() < 64);
        assert!(left_over > 500, "{left_over}");
    }

    #[test]
    fn every_foreign_character_stands_in_each_sort_of_block() {
        // Each kind of sequence, sort of block, and character that is the only foreign one of a text.
        let mut met = BTreeSet::new();
        for sample in stretches() {
            let sequence = sequence(&sample.bytes);
            if let [at] = sequence.foreign[..] {
                let kind = match sequence.moltype {
                    "AA" => "AA",
                    _ => "nucleotides",
                };
                let block = block_at(&sequence.residues, at);
                let sort = match block.iter().filter(|residue| is_rarer(residue)).count() {
                    _ if sequence.residues.len() < 64 => "short text",
                    _ if block.len() < 64 => "left over",
                    _ if kind == "AA" => "any",
                    0 => "common",
                    63 => "rarer",
                    _ => "mixed",
                };
                met.insert((kind, sort, sequence.residues[at].to_string()));
            }
        }
        // A text may have 95 characters, of which 15 and 26 are symbols.
        for (kind, sort, foreign) in [
            ("nucleotides", "common", 80),
            ("nucleotides", "rarer", 80),
            ("nucleotides", "left over", 80),
            ("AA", "any", 69),
            ("AA", "left over", 69),
        ] {
            let those = met.iter().filter(|met| (met.0, met.1) == (kind, sort));
            assert_eq!(those.count(), foreign, "{kind} {sort}");
        }
    }

    #[test]
    fn the_proved_check_agrees() {
        for inputs in [small(), some_stretches()] {
            assert_eq!(differ(&inputs, boundary::check), 0);
        }
    }
}
