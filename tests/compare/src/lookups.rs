//! `compare lookups`: every public call through libdreichnook.a, with any numbers and any room, beside the referee.

use crate::report::{keep, Count, Input};
use crate::{boundary, check, large, layout, mutants};
use referee::{Listing, Part, Refusal};
use std::collections::BTreeMap;
use std::path::{Path, PathBuf};

/// What is lent to be read: a listing, and beside it an index, if one is lent.
#[derive(Clone, Copy)]
pub struct Lent<'a> {
    pub listing: &'a [u8],
    pub index: Option<&'a [u8]>,
}

/// A call with its numbers: the sequence, the feature in it, the qualifier of that. Those with numbers are the lookups, which
/// are asked with an index where one is lent.
#[derive(Clone, Copy, Debug, PartialEq, Eq)]
pub enum Question {
    Check,
    Index,
    IndexCheck,
    Sequence(u64),
    Feature(u64, u64),
    Qualifier(u64, u64, u64),
    Translation(u64, u64),
    Translations(u64),
}

/// What a call returns, and the numbers it sets: the place, then the others in the order of the C interface.
#[derive(Clone, Copy, Debug, PartialEq, Eq)]
pub struct Answer {
    pub number: u32,
    pub place: u64,
    pub shown: Shown,
}

/// As many numbers as any call sets beside the place. Those that a call doesn't have are 0.
pub type Shown = [u64; 6];

/// The numbers that a call sets, with zeros behind them.
pub fn shown<const COUNT: usize>(numbers: [u64; COUNT]) -> Shown {
    let mut shown = Shown::default();
    shown[..COUNT].copy_from_slice(&numbers);
    shown
}

/// Lent output of one size, for spans and for letters. It lies inside more memory, which nobody may touch.
#[derive(Clone, Debug, PartialEq, Eq)]
pub struct Room {
    numbers: Vec<u32>,
    bytes: Vec<u8>,
}

/// So much memory stands on either side of what is lent.
const MARGIN: usize = 8;

impl Room {
    /// Filled so that no item is one of an answer, nor the same as its neighbours.
    pub fn new(size: usize) -> Room {
        let items = 0..size + 2 * MARGIN;
        Room {
            numbers: items.clone().map(|i| 0xdead_0000 + i as u32).collect(),
            bytes: items.map(|i| 128 + (i % 127) as u8).collect(),
        }
    }

    pub fn numbers(&mut self) -> &mut [u32] {
        let end = self.numbers.len() - MARGIN;
        &mut self.numbers[MARGIN..end]
    }

    pub fn bytes(&mut self) -> &mut [u8] {
        let end = self.bytes.len() - MARGIN;
        &mut self.bytes[MARGIN..end]
    }
}

impl Question {
    fn call(self) -> &'static str {
        match self {
            Question::Check => "check",
            Question::Index => "index",
            Question::IndexCheck => "index_check",
            Question::Sequence(..) => "sequence",
            Question::Feature(..) => "feature",
            Question::Qualifier(..) => "qualifier",
            Question::Translation(..) => "translation",
            Question::Translations(..) => "translations",
        }
    }

    /// Whether it is asked with an index where one is lent.
    fn is_lookup(self) -> bool {
        !matches!(
            self,
            Question::Check | Question::Index | Question::IndexCheck
        )
    }

    /// How many items of lent output this answer has, if the call writes any.
    fn written(self, answer: &Answer) -> Option<usize> {
        match self {
            Question::Feature(..) => Some(3 * answer.shown[5] as usize),
            Question::Index | Question::Translation(..) | Question::Translations(..) => {
                Some(answer.shown[0] as usize)
            }
            _ => None,
        }
    }
}

/// Asks the referee.
pub fn judged(
    listing: &Listing,
    index: Option<&[u8]>,
    question: Question,
    room: &mut Room,
) -> Answer {
    let lent = match index {
        Some(index) if question.is_lookup() => listing.indexed(index),
        _ => Ok(listing),
    };
    let size = |size| shown([size]);
    let answer = lent.and_then(|listing| match question {
        Question::Check => listing.check().map(|counts| {
            shown([
                counts.total,
                counts.skipped,
                counts.features,
                counts.judged,
                counts.unjudged,
            ])
        }),
        Question::Index => listing.index(room.bytes()).map(size),
        Question::IndexCheck => listing
            .index_check(index.unwrap_or_default())
            .map(|()| shown([])),
        Question::Sequence(k) => listing.sequence(k).map(|answer| {
            let [start, size] = numbers(answer.residues);
            shown([answer.kind as u64, start, size])
        }),
        Question::Feature(k, f) => listing.feature(k, f, room.numbers()).map(|answer| {
            let [key_start, key_size] = numbers(answer.key);
            let [location_start, location_size] = numbers(answer.location);
            shown([
                key_start,
                key_size,
                location_start,
                location_size,
                answer.operator as u64,
                answer.count,
            ])
        }),
        Question::Qualifier(k, f, q) => listing.qualifier(k, f, q).map(|answer| {
            let [name_start, name_size] = numbers(answer.name);
            let [value_start, value_size] = numbers(answer.value);
            let present = u64::from(answer.has_value);
            shown([name_start, name_size, present, value_start, value_size])
        }),
        Question::Translation(k, f) => listing.translation(k, f, room.bytes()).map(size),
        Question::Translations(k) => listing.translations(k, room.bytes()).map(size),
    });
    match answer {
        Ok(shown) => Answer {
            number: 0,
            place: 0,
            shown,
        },
        Err(Refusal { rule, place }) => Answer {
            number: rule,
            place: place as u64,
            shown: shown([]),
        },
    }
}

fn numbers(part: Part) -> [u64; 2] {
    [part.start as u64, part.size as u64]
}

/// A longer listing is asked for its last items only: each question reads all of it.
const SMALL: usize = 100_000;

/// Numbers that are none of any listing: a reader that takes the lower half of the first for the number finds item 1.
const HUGE: [u64; 2] = [(1 << 32) + 1, u64::MAX];

/// The numbers to ask for among so many items; without a count the question is refused whatever the number.
fn asked_numbers(count: Option<u64>, all: bool) -> Vec<u64> {
    match count {
        None if all => vec![0, 1, u64::MAX],
        None => vec![1],
        Some(count) if all => (0..=count + 1).chain(HUGE).collect(),
        Some(count) => vec![count.max(1), count + 1],
    }
}

/// How many items there are from number 1 on, if what they are part of is there.
fn count_of(has_whole: bool, has_item: impl Fn(u64) -> bool) -> Option<u64> {
    has_whole.then(|| (1..).take_while(|&number| has_item(number)).count() as u64)
}

/// Whether there is such a feature: then a qualifier of number 0 is all that isn't there. This needs no room.
fn has_feature(listing: &Listing, k: u64, f: u64) -> bool {
    matches!(listing.qualifier(k, f, 0), Err(Refusal { rule: 33, .. }))
}

/// Every lookup in a listing: for each item of its tree, for number 0, one too many and huge. Of a long one, the last items.
fn lookups_of(listing: &Listing, all: bool) -> Vec<Question> {
    let mut questions = Vec::new();
    let total = listing.check().ok().map(|counts| counts.total);
    for k in asked_numbers(total, all) {
        questions.extend([Question::Sequence(k), Question::Translations(k)]);
        let has_sequence = listing.sequence(k).is_ok();
        let features = count_of(has_sequence, |f| has_feature(listing, k, f));
        for f in asked_numbers(features, all) {
            questions.extend([Question::Feature(k, f), Question::Translation(k, f)]);
            let qualifiers = count_of(has_feature(listing, k, f), |q| {
                listing.qualifier(k, f, q).is_ok()
            });
            let numbers = asked_numbers(qualifiers, all).into_iter();
            questions.extend(numbers.map(|q| Question::Qualifier(k, f, q)));
        }
    }
    questions
}

/// The sizes of room to ask with: none, one short, exact and larger.
fn rooms(listing: &Listing, index: Option<&[u8]>, question: Question) -> Vec<usize> {
    const NO_ROOM: u32 = 34;
    let mut size = 1 << 6;
    let answer = loop {
        let answer = judged(listing, index, question, &mut Room::new(size));
        if answer.number != NO_ROOM {
            break answer;
        }
        size *= 4;
    };
    match question.written(&answer) {
        None => vec![0],
        Some(0) => vec![0, 5],
        Some(1) => vec![0, 1, 4],
        Some(length) => vec![0, length - 1, length, length + 7],
    }
}

/// The first item of the archive's room that isn't as in the referee's, in words. Items before the room have numbers below 0.
fn first_difference(room: &Room, judge_room: &Room) -> Option<String> {
    let mut numbers = room.numbers.iter().zip(&judge_room.numbers);
    let mut bytes = room.bytes.iter().zip(&judge_room.bytes);
    let number = numbers.position(|(item, referee)| item != referee);
    let byte = bytes.position(|(item, referee)| item != referee);
    let margin = MARGIN as isize;
    match (number, byte) {
        (Some(at), _) => {
            let (item, referee) = (room.numbers[at], judge_room.numbers[at]);
            let at = at as isize - margin;
            Some(format!("number {at} is {item}, by the referee {referee}"))
        }
        (_, Some(at)) => {
            let (item, referee) = (room.bytes[at], judge_room.bytes[at]);
            let at = at as isize - margin;
            Some(format!("byte {at} is {item}, by the referee {referee}"))
        }
        _ => None,
    }
}

/// The number of an answer, with 1 for all of the check's own.
fn by_the_check(number: u32) -> u32 {
    match number {
        1..=29 | 40..=42 => 1,
        _ => number,
    }
}

/// A call: whether it is a lookup with an index, and its name.
type Call = (bool, &'static str);

/// The numbers that each call without an index may answer, as `by_the_check` has them.
const ANSWERS: [(&str, &[u32]); 6] = [
    ("check", &[0, 1]),
    ("sequence", &[0, 1, 30, 31]),
    ("feature", &[0, 1, 30, 31, 32, 34]),
    ("qualifier", &[0, 1, 30, 31, 32, 33]),
    ("translation", &[0, 1, 30, 31, 32, 34, 35, 36, 37]),
    ("translations", &[0, 1, 30, 31, 34]),
];

/// Those calls with their numbers.
fn plain_calls() -> Vec<(Call, Vec<u32>)> {
    let calls = ANSWERS.into_iter();
    calls
        .map(|(name, numbers)| ((false, name), numbers.to_vec()))
        .collect()
}

/// The calls that have to do with an index: maker, checker, and the same lookups, which may find the index wrong.
pub fn index_calls() -> Vec<(Call, Vec<u32>)> {
    let mut calls = vec![
        ((false, "index"), vec![0, 1, 34]),
        ((false, "index_check"), vec![0, 1, 50]),
    ];
    for (name, numbers) in ANSWERS.into_iter().filter(|&(name, _)| name != "check") {
        calls.push(((true, name), [numbers, &[50]].concat()));
    }
    calls
}

/// Compares on so many generated listings, and all that doesn't depend on the count.
pub fn run(count: u64, seed: u64, root: &Path) -> Result<bool, String> {
    let specimens = layout::specimens(&root.join("tests/specimens"))?;
    let folder = Some(root.join("target/compare"));
    let mut lookups = Lookups::new("lookups", plain_calls(), boundary::ask, folder);
    let plain = Lookups::plain;
    lookups.kind("specimens", layout::specimen_inputs(specimens), plain);
    lookups.kind("hand-made", layout::hand_made(), plain);
    lookups.kind("generated", layout::generated(count, seed), plain);
    lookups.kind("one damage", check::damages(count / 5, seed), plain);
    let numbers = 0..count / 5;
    let values = numbers.map(|number| mutants::value_mutant(seed, number));
    lookups.kind("mutants of values", values, plain);
    let sizes = [large::LONGEST, large::LONGEST + 1];
    let sized = sizes.map(|size| large::inputs(&large::MIXES, size));
    let sized = sized.into_iter().flatten();
    lookups.kind("of the greatest size, and one byte more", sized, plain);
    Ok(lookups.close())
}

/// The comparison with the referee, and how often each call was answered by which number.
pub struct Lookups<A> {
    name: &'static str,
    /// The calls with the numbers that must be met.
    calls: Vec<(Call, Vec<u32>)>,
    ask: A,
    pub count: Count,
    answers: BTreeMap<(Call, u32), usize>,
    /// Where listings with a difference are kept.
    folder: Option<PathBuf>,
}

impl<A: Fn(Lent, Question, &mut Room) -> Answer> Lookups<A> {
    pub fn new(
        name: &'static str,
        calls: Vec<(Call, Vec<u32>)>,
        ask: A,
        folder: Option<PathBuf>,
    ) -> Self {
        Lookups {
            name,
            calls,
            ask,
            count: Count::default(),
            answers: BTreeMap::new(),
            folder,
        }
    }

    /// Asks about all inputs of one kind, each as `about` does, and prints how many there were.
    pub fn kind(
        &mut self,
        kind: &str,
        inputs: impl Iterator<Item = Input>,
        mut about: impl FnMut(&mut Self, &Input, &Listing),
    ) {
        let before = self.count.cases;
        let (mut accepted, mut refused) = (0, 0);
        for input in inputs {
            let listing = Listing::new(&input.bytes);
            about(self, &input, &listing);
            if listing.check().is_ok() {
                accepted += 1;
            } else {
                refused += 1;
            }
        }
        let asked = self.count.cases - before;
        println!("{kind}: {accepted} accepted listings, {refused} refused, {asked} questions");
    }

    /// Asks everything that needs no index.
    fn plain(&mut self, input: &Input, listing: &Listing) {
        self.question(input, listing, None, Question::Check);
        self.lookups(input, listing, None);
    }

    /// Asks for every item of a listing, and for some that aren't there.
    pub fn lookups(&mut self, input: &Input, listing: &Listing, index: Option<&[u8]>) {
        for question in lookups_of(listing, input.bytes.len() < SMALL) {
            self.question(input, listing, index, question);
        }
    }

    /// Asks one question with every size of room.
    pub fn question(
        &mut self,
        input: &Input,
        listing: &Listing,
        index: Option<&[u8]>,
        question: Question,
    ) {
        for size in rooms(listing, index, question) {
            self.one(input, listing, index, question, size);
        }
    }

    /// Compares the number, everything that is set, and every item of the room and about it.
    fn one(
        &mut self,
        input: &Input,
        listing: &Listing,
        index: Option<&[u8]>,
        question: Question,
        size: usize,
    ) {
        let lent = Lent {
            listing: &input.bytes,
            index,
        };
        let (mut room, mut judge_room) = (Room::new(size), Room::new(size));
        let answer = (self.ask)(lent, question, &mut room);
        let referee = judged(listing, index, question, &mut judge_room);
        let call = (question.is_lookup() && index.is_some(), question.call());
        let met = (call, by_the_check(referee.number));
        *self.answers.entry(met).or_default() += 1;
        let folder = self.folder.as_deref();
        self.count
            .case((answer, &room) == (referee, &judge_room), |number| {
                println!("DIFFERS: {} ({} bytes)", input.name, input.bytes.len());
                if let Some(index) = index {
                    println!("  with an index of {} bytes", index.len());
                }
                println!("  asked: {question:?}, room for {size}");
                println!("  archive: {answer:?}");
                println!("  referee:   {referee:?}");
                if let Some(item) = first_difference(&room, &judge_room) {
                    println!("  lent output: {item}");
                }
                if let Some(folder) = folder {
                    keep(folder, number, "xml", &input.bytes);
                    if let Some(index) = index {
                        keep(folder, number, "index", index);
                    }
                }
            });
    }

    /// The calls with a number that was never the answer.
    fn unmet(&self) -> Vec<(Call, u32)> {
        let calls = self.calls.iter();
        let all =
            calls.flat_map(|(call, numbers)| numbers.iter().map(move |&number| (*call, number)));
        all.filter(|met| !self.answers.contains_key(met)).collect()
    }

    /// Prints the last lines; true if nothing differs and every number was met.
    pub fn close(&self) -> bool {
        for &((is_indexed, name), ref numbers) in &self.calls {
            let met: Vec<String> = numbers
                .iter()
                .map(|&number| {
                    let met = ((is_indexed, name), number);
                    let count = self.answers.get(&met).unwrap_or(&0);
                    match number {
                        0 => format!("answered {count}"),
                        1 => format!("refused by the check {count}"),
                        _ => format!("{number}: {count}"),
                    }
                })
                .collect();
            let prefix = if is_indexed { "indexed_" } else { "" };
            println!("{prefix}{name}: {}", met.join(", "));
        }
        let unmet = self.unmet();
        if !unmet.is_empty() {
            println!("NEVER THE ANSWER (0: answered, 1: refused by the check): {unmet:?}");
        }
        self.count.close(self.name) && unmet.is_empty()
    }
}

#[cfg(test)]
mod tests {
    use super::*;
    use crate::faults::OF_A_FEATURE;

    /// A reader that errs: the referee's answer, changed by the questioned reader's error.
    type Error = fn(&Listing, Question, &mut Room) -> Answer;

    /// The referee's answer without an index.
    fn judged(listing: &Listing, question: Question, room: &mut Room) -> Answer {
        super::judged(listing, None, question, room)
    }

    /// How many answers of an erring reader differ, on some valid listings and some others.
    fn differ(error: impl Fn(&Listing, Question, &mut Room) -> Answer) -> usize {
        let ask = |lent: Lent, question: Question, room: &mut Room| {
            error(&Listing::new(lent.listing), question, room)
        };
        let mut lookups = Lookups::new("test", plain_calls(), ask, None);
        // The erring reader checks them anew for each question, so they are short.
        let short = layout::generated(400, 1).filter(|input| {
            input.bytes.len() < 5_000 && input.bytes.windows(5).any(|bytes| bytes == b">CDS<")
        });
        lookups.kind("test", short.take(20), Lookups::plain);
        lookups.count.differ
    }

    #[test]
    fn an_item_that_is_not_the_one_asked_for_is_found() {
        assert_eq!(differ(judged), 0);
        let wrong: [Error; 5] = [
            |listing, question, room| match question {
                Question::Sequence(k) if k > 1 => judged(listing, Question::Sequence(1), room),
                _ => judged(listing, question, room),
            },
            |listing, question, room| match question {
                Question::Feature(k, f) if f > 1 => judged(listing, Question::Feature(k, 1), room),
                _ => judged(listing, question, room),
            },
            |listing, question, room| match question {
                Question::Qualifier(k, f, q) if q > 1 => {
                    judged(listing, Question::Qualifier(k, f, 1), room)
                }
                _ => judged(listing, question, room),
            },
            |listing, question, room| match question {
                Question::Translation(k, 0) => judged(listing, Question::Translation(k, 1), room),
                _ => judged(listing, question, room),
            },
            |listing, question, room| match question {
                Question::Translations(k) => {
                    // The lower half of the number.
                    let k = u64::from(k as u32);
                    judged(listing, Question::Translations(k), room)
                }
                _ => judged(listing, question, room),
            },
        ];
        for (number, error) in wrong.into_iter().enumerate() {
            assert!(differ(error) > 0, "error {number}");
        }
    }

    #[test]
    fn a_wrong_feature_is_found() {
        for (number, error) in OF_A_FEATURE.into_iter().enumerate() {
            let found = differ(|listing, question, room| error(listing, None, question, room));
            assert!(found > 0, "error {number}");
        }
    }

    #[test]
    fn a_number_that_is_not_set_is_found() {
        let refused_place: Error = |listing, question, room| {
            let mut answer = judged(listing, question, room);
            if by_the_check(answer.number) >= 30 {
                answer.place = 7;
            }
            answer
        };
        assert!(differ(refused_place) > 0);
        let kind_of_refused: Error = |listing, question, room| {
            let mut answer = judged(listing, question, room);
            if (question, answer.number) == (Question::Sequence(0), 30) {
                answer.shown[0] = 1;
            }
            answer
        };
        assert!(differ(kind_of_refused) > 0);
    }

    #[test]
    fn refusals_in_another_order_are_found() {
        let no_room_first: Error = |listing, question, room| {
            let answer = judged(listing, question, room);
            let is_bare = room.bytes().is_empty();
            match (question, answer.number) {
                (Question::Translation(..), 35..=37) if is_bare => Answer {
                    number: 34,
                    ..answer
                },
                _ => answer,
            }
        };
        assert!(differ(no_room_first) > 0);
    }

    #[test]
    fn every_wrong_write_is_found() {
        let wrong: [Error; 6] = [
            // Nothing.
            |listing, question, room| judged(listing, question, &mut Room::new(room.bytes().len())),
            // Past the answer.
            |listing, question, room| {
                let answer = judged(listing, question, room);
                if let Question::Translation(..) = question {
                    if let Some(next) = room.bytes().get_mut(answer.shown[0] as usize) {
                        *next = 0;
                    }
                }
                answer
            },
            |listing, question, room| {
                let answer = judged(listing, question, room);
                if let (Question::Feature(..), 0) = (question, answer.number) {
                    if let Some(last) = room.numbers().last_mut() {
                        *last = 0;
                    }
                }
                answer
            },
            // Past the room.
            |listing, question, room| {
                let answer = judged(listing, question, room);
                if let (Question::Translations(_), 34) = (question, answer.number) {
                    let end = room.bytes.len() - MARGIN;
                    room.bytes[end] = b'\n';
                }
                answer
            },
            // Though it refuses.
            |listing, question, room| {
                let answer = judged(listing, question, room);
                if answer.number == 37 {
                    if let Some(first) = room.bytes().first_mut() {
                        *first = b'M';
                    }
                }
                answer
            },
            |listing, question, room| {
                let answer = judged(listing, question, room);
                if let (Question::Feature(..), 34) = (question, answer.number) {
                    if let Some(first) = room.numbers().first_mut() {
                        *first = 1;
                    }
                }
                answer
            },
        ];
        for (number, error) in wrong.into_iter().enumerate() {
            assert!(differ(error) > 0, "error {number}");
        }
    }

    #[test]
    fn a_number_that_is_never_the_answer_fails() {
        let mut lookups = Lookups::new("test", plain_calls(), boundary::ask, None);
        lookups.kind("none", std::iter::empty(), Lookups::plain);
        assert_eq!(lookups.unmet().len(), 32);
        assert!(!lookups.close());
    }

    #[test]
    fn first_differences_are_told_from_the_start_of_the_room() {
        let (mut room, other) = (Room::new(3), Room::new(3));
        assert_eq!(first_difference(&room, &other), None);
        room.bytes()[2] = 7;
        let told = first_difference(&room, &other);
        assert_eq!(told.as_deref(), Some("byte 2 is 7, by the referee 138"));
        room.numbers[MARGIN - 1] = 5;
        let told = first_difference(&room, &other);
        let said = "number -1 is 5, by the referee 3735879687";
        assert_eq!(told.as_deref(), Some(said));
    }

    #[test]
    fn the_archive_agrees() {
        let mut lookups = Lookups::new("test", plain_calls(), boundary::ask, None);
        lookups.kind("generated", layout::generated(60, 1), Lookups::plain);
        assert_eq!(lookups.count.differ, 0);
        assert!(lookups.count.cases > 1000);
    }
}
