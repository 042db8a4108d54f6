//! `compare index`: the maker, the checker and the lookups with an index through libdreichnook.a, beside the referee.

use crate::lookups::{index_calls, Answer, Lent, Lookups, Question, Room};
use crate::report::Input;
use crate::{boundary, check, large, layout};
use referee::generate::{valid_listing, Rng};
use referee::hand::base::{BASE, SHORTEST};
use referee::hand::index::SMALL;
use referee::Listing;
use std::ops::Range;
use std::path::Path;

/// The specimens whose titles differ, and whose indexes don't.
const TITLES: [&str; 2] = ["02-5-old-title.xml", "02-5-new-title.xml"];

/// Compares on so many generated listings, and all that doesn't depend on the count.
pub fn run(count: u64, seed: u64, root: &Path) -> Result<bool, String> {
    let specimens: Vec<Input> =
        layout::specimen_inputs(layout::specimens(&root.join("tests/specimens"))?).collect();
    let titles = titles(&specimens)?;
    let folder = Some(root.join("target/compare"));
    let mut lookups = Lookups::new("index", index_calls(), boundary::ask, folder);
    // The index of the accepted listing before is a wrong one for the next.
    let mut other = Vec::new();
    let mut any = |lookups: &mut Lookups<_>, input: &Input, listing: &Listing| {
        lookups.indexes(input, listing, &mut other);
    };
    lookups.kind("specimens", specimens.into_iter(), &mut any);
    lookups.kind("hand-made", layout::hand_made(), &mut any);
    lookups.kind("generated", layout::generated(count, seed), &mut any);
    lookups.kind("one damage", check::damages(count, seed), &mut any);
    lookups.kind("each byte", small(), Lookups::each_byte);
    lookups.older(
        "older than the listing",
        titles.into_iter().chain(later(count / 3, seed)),
    );
    let longest = large::inputs(&large::MIXES, large::LONGEST);
    lookups.kind("of the greatest size", longest, Lookups::longest);
    let too_long = large::inputs(&large::MIXES, large::LONGEST + 1).take(1);
    lookups.kind("one byte more", too_long, &mut any);
    Ok(lookups.close())
}

/// An index and a listing that may be younger than it.
type Aged = (Vec<u8>, Input);

/// Each of the two specimens with the other's index.
fn titles(specimens: &[Input]) -> Result<Vec<Aged>, String> {
    let [old, new] = TITLES.map(|title| {
        let input = specimens.iter().find(|input| input.name.ends_with(title));
        input.ok_or_else(|| format!("no specimen {title}"))
    });
    let (old, new) = (old?, new?);
    let pairs = [(old, new), (new, old)].into_iter();
    Ok(pairs
        .map(|(older, newer)| (index_of(older), newer.clone()))
        .collect())
}

/// The index by the referee; of a refused listing, an empty one.
fn index_of(input: &Input) -> Vec<u8> {
    Listing::new(&input.bytes).made_index().unwrap_or_default()
}

/// Later versions of so many valid listings, each with the index of the first version.
fn later(count: u64, seed: u64) -> impl Iterator<Item = Aged> {
    (0..count).flat_map(move |number| {
        let rng = &mut check::rng(seed, number);
        let bytes = valid_listing(rng).1.bytes;
        let name = format!("later version of valid listing {number} of seed {seed}");
        let input = Input { name, bytes };
        let index = index_of(&input);
        let versions = versions(&input.bytes, rng).into_iter().map(|bytes| {
            let name = input.name.clone();
            (index.clone(), Input { name, bytes })
        });
        versions.collect::<Vec<_>>()
    })
}

/// Listings with indexes so short that each of their bytes can be changed.
fn small() -> impl Iterator<Item = Input> {
    let listings = [
        ("BASE", BASE),
        ("SHORTEST", SHORTEST),
        ("one of each kind", SMALL),
    ];
    listings.into_iter().map(|(name, text)| Input {
        name: format!("referee::hand, {name}"),
        bytes: text.into(),
    })
}

/// Bytes that are no index.
fn garbage(size: usize) -> Vec<u8> {
    let mut rng = Rng::new(size as u64);
    (0..size).map(|_| rng.below(256) as u8).collect()
}

/// Numbers to ask with where none is looked at: the check or the index refuses before.
const NUMBERS: [u64; 3] = [0, 1, u64::MAX];

impl<A: Fn(Lent, Question, &mut Room) -> Answer> Lookups<A> {
    /// Makes the index, and asks with the right one and with many wrong ones, `other` among them.
    fn indexes(&mut self, input: &Input, listing: &Listing, other: &mut Vec<u8>) {
        self.question(input, listing, None, Question::Index);
        if let Ok(index) = listing.made_index() {
            self.right(input, listing, &index);
            let wrong = wrong_indexes(&index, other).into_iter();
            for (wrong, number) in wrong.zip(NUMBERS.into_iter().cycle()) {
                self.wrong(input, listing, &wrong, &[number]);
            }
            // Both may be read from the same memory.
            self.wrong(input, listing, &input.bytes, &[1]);
            *other = index;
        } else {
            for index in [b"", &other[..]] {
                self.wrong(input, listing, index, &NUMBERS);
            }
        }
    }

    /// Asks the checker, and for every item.
    fn right(&mut self, input: &Input, listing: &Listing, index: &[u8]) {
        self.question(input, listing, Some(index), Question::IndexCheck);
        self.lookups(input, listing, Some(index));
    }

    /// Asks the checker, and each lookup with these numbers.
    fn wrong(&mut self, input: &Input, listing: &Listing, index: &[u8], numbers: &[u64]) {
        self.question(input, listing, Some(index), Question::IndexCheck);
        for &number in numbers {
            for question in [
                Question::Sequence(number),
                Question::Feature(1, number),
                Question::Qualifier(1, 1, number),
                Question::Feature(number, 2),
                Question::Translation(1, number),
                Question::Translations(number),
            ] {
                self.question(input, listing, Some(index), question);
            }
        }
    }

    /// Asks with every beginning of an index, with every byte of it changed, and with more bytes than any index has.
    fn each_byte(&mut self, input: &Input, listing: &Listing) {
        let index = index_of(input);
        for (place, &byte) in index.iter().enumerate() {
            self.wrong(input, listing, &index[..place], &NUMBERS);
            for value in [byte.wrapping_add(1), byte ^ 0x80, 0, 255] {
                let mut changed = index.clone();
                changed[place] = value;
                self.wrong(input, listing, &changed, &NUMBERS);
            }
        }
        self.wrong(input, listing, &garbage(large::LONGEST), &NUMBERS);
    }

    /// Asks about listings with the index of an earlier version.
    fn older(&mut self, kind: &str, aged: impl Iterator<Item = Aged>) {
        let (indexes, inputs): (Vec<_>, Vec<_>) = aged.unzip();
        let mut indexes = indexes.iter();
        self.kind(kind, inputs.into_iter(), |lookups, input, listing| {
            if let Some(index) = indexes.next() {
                lookups.right(input, listing, index);
            }
        });
    }

    /// Asks little about a listing that is slow to check: for the last items, and with few wrong indexes.
    fn longest(&mut self, input: &Input, listing: &Listing) {
        let index = index_of(input);
        self.question(input, listing, None, Question::Index);
        self.right(input, listing, &index);
        let mut changed = index.clone();
        if let Some(last) = changed.last_mut() {
            *last ^= 0x80;
        }
        let longer = [&index[..], &garbage(large::LONGEST)].concat();
        for wrong in [&changed, &longer] {
            self.question(input, listing, Some(wrong), Question::IndexCheck);
            self.question(input, listing, Some(wrong), Question::Sequence(0));
        }
    }
}

/// An index taken apart into its numbers.
#[derive(Clone)]
struct Pieces {
    count: u32,
    /// Start and size of each body.
    contents: Vec<[u32; 2]>,
    bodies: Vec<Vec<u32>>,
}

impl Pieces {
    /// Takes apart an index as the maker writes it.
    fn new(index: &[u8]) -> Pieces {
        let numbers = index.chunks_exact(4);
        let mut numbers =
            numbers.map(|bytes| u32::from_le_bytes([bytes[0], bytes[1], bytes[2], bytes[3]]));
        let count = numbers.next().unwrap_or(0);
        let mut next = || numbers.next().unwrap_or(0);
        let contents: Vec<[u32; 2]> = (0..count).map(|_| [next(), next()]).collect();
        let bodies = contents
            .iter()
            .map(|[_, size]| (0..size / 4).map(|_| next()).collect())
            .collect();
        Pieces {
            count,
            contents,
            bodies,
        }
    }

    fn numbers(&self) -> Vec<u32> {
        [
            vec![self.count],
            self.contents.concat(),
            self.bodies.concat(),
        ]
        .concat()
    }

    fn last_entry(&mut self) -> &mut [u32; 2] {
        self.contents.last_mut().expect("a sequence")
    }

    fn last_body(&mut self) -> &mut Vec<u32> {
        self.bodies.last_mut().expect("a sequence")
    }

    fn last_number(&mut self) -> &mut u32 {
        self.last_body().last_mut().expect("three numbers or more")
    }

    /// Gives each body the start and size that it has now.
    fn lay_out(&mut self) {
        let mut start = 4 + 8 * self.bodies.len() as u32;
        for (entry, body) in self.contents.iter_mut().zip(&self.bodies) {
            let size = 4 * body.len() as u32;
            *entry = [start, size];
            start += size;
        }
    }
}

/// Ways to make a right index wrong. One that has too few sequences for it may stay right.
const CHANGES: [fn(&mut Pieces); 20] = [
    |index| index.count = index.count.wrapping_sub(1),
    |index| index.count = u32::MAX,
    // Bodies in another order; the second way each is found where the contents say.
    |index| index.bodies.reverse(),
    |index| {
        let mut start = 4 + 8 * index.count;
        for entry in index.contents.iter_mut().rev() {
            entry[0] = start;
            start += entry[1];
        }
        index.bodies.reverse();
    },
    // A wrong entry with a wrong body, one before the other and behind.
    |index| {
        index.last_entry()[1] += 4;
        index.bodies[0][0] ^= 1;
    },
    |index| {
        index.contents[0][0] += 4;
        *index.last_number() += 1;
    },
    |index| {
        index.bodies[0][1] += 1;
        *index.last_number() += 1;
    },
    |index| {
        index.count += 1;
        *index.last_number() += 1;
    },
    // A body one number short, by the contents or in truth.
    |index| index.contents[0][1] -= 4,
    |index| index.last_entry()[1] -= 4,
    |index| {
        index.bodies[0].pop();
        index.lay_out();
    },
    |index| {
        index.last_body().pop();
    },
    // A gap.
    |index| {
        index.bodies[0].insert(0, 0);
        for entry in &mut index.contents {
            entry[0] += 4;
        }
    },
    // Starts from the first body on; sizes in numbers.
    |index| {
        let start = index.contents[0][0];
        for entry in &mut index.contents {
            entry[0] -= start;
        }
    },
    |index| {
        for entry in &mut index.contents {
            entry[1] /= 4;
        }
    },
    // Places from 1 on; kinds from 0 on.
    |index| {
        for body in &mut index.bodies {
            for place in body.iter_mut().skip(1).step_by(2) {
                *place += 1;
            }
        }
    },
    |index| {
        for body in &mut index.bodies {
            body[0] = body[0].saturating_sub(1);
        }
    },
    // Length before place; location before key; no features.
    |index| {
        for body in &mut index.bodies {
            for pair in body[1..].chunks_exact_mut(2) {
                pair.swap(0, 1);
            }
        }
    },
    |index| {
        for body in &mut index.bodies {
            for feature in body[3..].chunks_exact_mut(4) {
                feature.rotate_left(2);
            }
        }
    },
    |index| {
        for body in &mut index.bodies {
            body.truncate(3);
        }
        index.lay_out();
    },
];

/// Indexes that are near the right one, or that aren't near it at all.
fn wrong_indexes(index: &[u8], other: &[u8]) -> Vec<Vec<u8>> {
    let mut wrong = vec![
        vec![],
        other.to_vec(),
        garbage(index.len()),
        garbage(5000),
        [index, &[0]].concat(),
        [index, index].concat(),
        [index, &garbage(5000)].concat(),
        index[..index.len().saturating_sub(1)].to_vec(),
    ];
    let pieces = Pieces::new(index);
    let numbers = pieces.numbers();
    wrong.push(
        numbers
            .iter()
            .flat_map(|number| number.to_be_bytes())
            .collect(),
    );
    let wide = numbers
        .iter()
        .flat_map(|&number| u64::from(number).to_le_bytes());
    wrong.push(wide.collect());
    if pieces.count > 0 {
        wrong.extend(CHANGES.iter().map(|change| {
            let mut pieces = pieces.clone();
            change(&mut pieces);
            let numbers = pieces.numbers().into_iter();
            numbers.flat_map(u32::to_le_bytes).collect()
        }));
    }
    wrong
}

/// The texts between tags, each with the name of its tag, in which two letters can be exchanged: without entities.
fn texts(bytes: &[u8]) -> Vec<(&[u8], Range<usize>)> {
    let mut at = 0;
    let mut texts = Vec::new();
    for piece in bytes.split(|&byte| byte == b'<') {
        let end = at + piece.len();
        if let Some(close) = piece.iter().position(|&byte| byte == b'>') {
            let (tag, text) = (&piece[..close], &piece[close + 1..]);
            let differ = text.iter().any(|byte| *byte != text[0]);
            if differ && text[0].is_ascii_graphic() && !text.contains(&b'&') {
                texts.push((tag, at + close + 1..end));
            }
        }
        at = end + 1;
    }
    texts
}

/// The listing with two letters of such a text exchanged.
fn exchanged(bytes: &[u8], text: Range<usize>, rng: &mut Rng) -> Vec<u8> {
    let one = rng.between(text.start, text.end - 1);
    let others: Vec<usize> = text.filter(|&place| bytes[place] != bytes[one]).collect();
    let mut version = bytes.to_vec();
    version.swap(one, *rng.pick(&others));
    version
}

/// Later versions of a listing in which every text stands where it stood: two letters are exchanged in a title, in some
/// residues, in a qualifier's value, in a location, and in any text.
fn versions(bytes: &[u8], rng: &mut Rng) -> Vec<Vec<u8>> {
    let texts = texts(bytes);
    let mut versions = Vec::new();
    for tag in [
        "InventionTitle",
        "INSDSeq_sequence",
        "INSDQualifier_value",
        "INSDFeature_location",
        "",
    ] {
        let named = texts
            .iter()
            .filter(|(name, _)| name.starts_with(tag.as_bytes()));
        let named: Vec<_> = named.collect();
        if !named.is_empty() {
            let (_, text) = *rng.pick(&named);
            versions.push(exchanged(bytes, text.clone(), rng));
        }
    }
    versions
}

#[cfg(test)]
mod tests {
    use super::*;
    use crate::faults::{Error, OF_A_FEATURE};
    use crate::lookups::judged;

    /// How many answers of an erring reader differ, on some short listings.
    fn differ(error: Error) -> usize {
        let ask = |lent: Lent, question: Question, room: &mut Room| {
            error(&Listing::new(lent.listing), lent.index, question, room)
        };
        let mut lookups = Lookups::new("test", index_calls(), ask, None);
        // The small ones have no feature with an operator.
        let joins = layout::hand_made().filter(|input| input.name.contains("join of complements"));
        let inputs = small().chain(joins).chain(check::damages(3, 1));
        let mut other = Vec::new();
        lookups.kind("test", inputs, |lookups, input, listing| {
            lookups.indexes(input, listing, &mut other);
        });
        lookups.count.differ
    }

    fn all_are_found(errors: &[Error]) {
        assert_eq!(differ(judged), 0);
        for (number, &error) in errors.iter().enumerate() {
            assert!(differ(error) > 0, "error {number}");
        }
    }

    /// A checker that errs where it should refuse an index: it says what comes of this index, the right one and the right place.
    fn checker(
        listing: &Listing,
        index: Option<&[u8]>,
        question: Question,
        room: &mut Room,
        error: impl Fn(&[u8], &[u8], usize) -> Option<usize>,
    ) -> Answer {
        let mut answer = judged(listing, index, question, room);
        let (index, made) = (index.unwrap_or_default(), listing.made_index());
        if let (Question::IndexCheck, 50, Ok(made)) = (question, answer.number, made) {
            match error(index, &made, answer.place as usize) {
                Some(place) => answer.place = place as u64,
                None => (answer.number, answer.place) = (0, 0),
            }
        }
        answer
    }

    /// Where the bodies of this index start.
    fn contents(index: &[u8]) -> usize {
        4 + 8 * Pieces::new(index).bodies.len()
    }

    #[test]
    fn a_wrong_checker_is_found() {
        all_are_found(&[
            // Takes everything.
            |listing, index, question, room| {
                checker(listing, index, question, room, |_, _, _| None)
            },
            // Compares the contents only.
            |listing, index, question, room| {
                checker(listing, index, question, room, |_, made, place| {
                    Some(place).filter(|&place| place < contents(made))
                })
            },
            // Compares all but the contents.
            |listing, index, question, room| {
                checker(listing, index, question, room, |_, made, place| {
                    Some(place).filter(|&place| place >= contents(made))
                })
            },
            // Takes a longer index, or a shorter one.
            |listing, index, question, room| {
                checker(listing, index, question, room, |_, made, place| {
                    Some(place).filter(|&place| place < made.len())
                })
            },
            |listing, index, question, room| {
                checker(listing, index, question, room, |index, _, place| {
                    Some(place).filter(|&place| place < index.len())
                })
            },
            // Says where the bodies differ, though the contents do.
            |listing, index, question, room| {
                checker(listing, index, question, room, |index, made, place| {
                    let start = contents(made);
                    let bodies = index.iter().zip(made).skip(start);
                    let body = bodies.into_iter().position(|(byte, made)| byte != made);
                    Some(body.map_or(place, |body| start + body))
                })
            },
            // Says which number differs, or where it starts.
            |listing, index, question, room| {
                checker(listing, index, question, room, |_, _, place| {
                    Some(place / 4)
                })
            },
            |listing, index, question, room| {
                checker(listing, index, question, room, |_, _, place| {
                    Some(place / 4 * 4)
                })
            },
            // Compares the lengths first.
            |listing, index, question, room| {
                checker(listing, index, question, room, |index, made, place| {
                    Some(match index.len() == made.len() {
                        true => place,
                        false => index.len().min(made.len()),
                    })
                })
            },
            // Looks at the index before the listing.
            |listing, index, question, room| {
                let answer = judged(listing, index, question, room);
                match (question, index, listing.check()) {
                    (Question::IndexCheck, Some(b""), Err(_)) => Answer {
                        number: 50,
                        place: 0,
                        ..answer
                    },
                    _ => answer,
                }
            },
        ]);
    }

    #[test]
    fn a_wrong_maker_is_found() {
        all_are_found(&[
            // Writes what there is room for.
            |listing, index, question, room| {
                let answer = judged(listing, index, question, room);
                if let (Question::Index, 34, Ok(made)) =
                    (question, answer.number, listing.made_index())
                {
                    let size = room.bytes().len();
                    room.bytes().copy_from_slice(&made[..size]);
                }
                answer
            },
            // Says how much room it would take.
            |listing, index, question, room| {
                let mut answer = judged(listing, index, question, room);
                if let (Question::Index, 34) = (question, answer.number) {
                    answer.shown[0] = listing.made_index().map_or(0, |made| made.len() as u64);
                }
                answer
            },
            // Wants room before a listing that is accepted.
            |listing, index, question, room| {
                let answer = judged(listing, index, question, room);
                match (question, room.bytes().is_empty()) {
                    (Question::Index, true) => Answer {
                        number: 34,
                        place: 0,
                        ..answer
                    },
                    _ => answer,
                }
            },
            // Clears the rest of the room.
            |listing, index, question, room| {
                let answer = judged(listing, index, question, room);
                if let (Question::Index, 0) = (question, answer.number) {
                    room.bytes()[answer.shown[0] as usize..].fill(0);
                }
                answer
            },
            // Turns the last number round.
            |listing, index, question, room| {
                let answer = judged(listing, index, question, room);
                if let (Question::Index, 0) = (question, answer.number) {
                    let end = answer.shown[0] as usize;
                    room.bytes()[end - 4..end].reverse();
                }
                answer
            },
        ]);
    }

    #[test]
    fn a_wrong_lookup_is_found() {
        all_are_found(&[
            // Needs no index.
            |listing, index, question, room| match question {
                Question::IndexCheck => judged(listing, index, question, room),
                _ => judged(listing, None, question, room),
            },
            // Says what isn't there, or that room is short, before it looks at the index.
            |listing, index, question, room| match judged(listing, None, question, room).number {
                30 => judged(listing, None, question, room),
                _ => judged(listing, index, question, room),
            },
            |listing, index, question, room| {
                let size = room.bytes().len();
                let plain = judged(listing, None, question, &mut room.clone());
                match (question, size, plain.number) {
                    (Question::Feature(..), 0, 34) => plain,
                    _ => judged(listing, index, question, room),
                }
            },
            // Shows a part of the index, or of the listing beside a wrong one.
            |listing, index, question, room| {
                let mut answer = judged(listing, index, question, room);
                if let (Question::Sequence(k), 0) = (question, answer.number) {
                    let contents = Pieces::new(index.unwrap_or_default()).contents;
                    answer.shown[1] = u64::from(contents[k as usize - 1][0]);
                }
                answer
            },
            |listing, index, question, room| {
                let mut answer = judged(listing, index, question, room);
                if let (Question::Feature(..), 50) = (question, answer.number) {
                    answer.shown = judged(listing, None, question, &mut room.clone()).shown;
                }
                answer
            },
            // Writes beside a wrong index.
            |listing, index, question, room| match judged(listing, index, question, room) {
                refused @ Answer { number: 50, .. } => {
                    judged(listing, None, question, room);
                    refused
                }
                answer => answer,
            },
            // Looks no further into the index than it needs.
            |listing, index, question, room| {
                let (made, index) = (listing.made_index(), index.unwrap_or_default());
                if let (Question::Sequence(1), Ok(made)) = (question, made) {
                    let [start, size] = Pieces::new(&made).contents[0];
                    let end = (start + size) as usize;
                    if index.get(..end) == made.get(..end) {
                        return judged(listing, None, question, room);
                    }
                }
                judged(listing, Some(index), question, room)
            },
        ]);
    }

    #[test]
    fn a_wrong_feature_is_found() {
        all_are_found(&OF_A_FEATURE);
    }

    #[test]
    fn many_later_versions_are_accepted_and_keep_their_index() {
        let later: Vec<Aged> = later(60, 1).collect();
        let accepted: Vec<_> = later
            .iter()
            .filter(|(_, input)| Listing::new(&input.bytes).check().is_ok())
            .collect();
        let (all, some) = (later.len(), accepted.len());
        assert!(all > 200 && some > 80, "{some} of {all}");
        assert!(accepted
            .iter()
            .all(|(index, input)| index_of(input) == *index));
    }

    #[test]
    fn the_specimens_have_one_index() {
        let folder = layout::root().join("tests/specimens");
        let specimens: Vec<Input> =
            layout::specimen_inputs(layout::specimens(&folder).unwrap()).collect();
        let titles = titles(&specimens).unwrap();
        for (index, input) in &titles {
            assert_eq!(*index, index_of(input));
        }
        let (old, _) = &titles[0];
        assert_eq!(old.len(), 128);
    }

    #[test]
    fn pieces_are_those_of_the_index() {
        let index = index_of(&small().last().unwrap());
        let mut pieces = Pieces::new(&index);
        assert_eq!(pieces.contents, [[36, 44], [80, 12], [92, 28], [120, 44]]);
        let numbers = pieces.numbers();
        assert_eq!(numbers, referee::hand::index::NUMBERS);
        pieces.lay_out();
        assert_eq!(pieces.numbers(), numbers);
        let wrong = wrong_indexes(&index, b"");
        assert!(wrong.iter().all(|wrong| *wrong != index));
    }

    #[test]
    fn a_number_that_is_never_the_answer_fails() {
        let lookups = Lookups::new("test", index_calls(), boundary::ask, None);
        assert!(!lookups.close());
    }

    #[test]
    fn the_archive_agrees() {
        let mut lookups = Lookups::new("test", index_calls(), boundary::ask, None);
        let mut other = Vec::new();
        lookups.kind(
            "generated",
            layout::generated(60, 1),
            |lookups, input, listing| {
                lookups.indexes(input, listing, &mut other);
            },
        );
        lookups.older("older", later(20, 1));
        assert_eq!(lookups.count.differ, 0);
        assert!(lookups.count.cases > 10_000);
    }
}
