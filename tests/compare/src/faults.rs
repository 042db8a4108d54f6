//! Readers that err about a feature, for the tests: each must be found, without an index and with one.

use crate::lookups::{judged, Answer, Question, Room};
use referee::Listing;

/// A reader that errs: the referee's answer, changed by the reader's error.
pub type Error = fn(&Listing, Option<&[u8]>, Question, &mut Room) -> Answer;

/// What is shown of the feature before the one asked for, and what a room like this one then holds. None where it is refused.
fn before(
    listing: &Listing,
    index: Option<&[u8]>,
    question: Question,
    room: &Room,
) -> Option<(Answer, Room)> {
    match question {
        Question::Feature(k, f) if f > 1 => {
            let mut room = room.clone();
            let answer = judged(listing, index, Question::Feature(k, f - 1), &mut room);
            (answer.number == 0).then_some((answer, room))
        }
        _ => None,
    }
}

/// A feature shows the start and size of its key and of its location, then its operator and the count of its spans.
pub const OF_A_FEATURE: [Error; 6] = [
    // The spans of the feature before with the parts of this one. Where their count and operator agree, only lent numbers differ.
    |listing, index, question, room| {
        let other = before(listing, index, question, room);
        let answer = judged(listing, index, question, room);
        if let Some((other, written)) = other {
            if (answer.number, &answer.shown[4..]) == (0, &other.shown[4..]) {
                *room = written;
            }
        }
        answer
    },
    // The operator of the feature before.
    |listing, index, question, room| {
        let other = before(listing, index, question, room);
        let mut answer = judged(listing, index, question, room);
        if let (0, Some((other, _))) = (answer.number, other) {
            answer.shown[4] = other.shown[4];
        }
        answer
    },
    // The parts though room is short.
    |listing, index, question, room| {
        let mut answer = judged(listing, index, question, room);
        if let (Question::Feature(..), 34) = (question, answer.number) {
            let larger = judged(listing, index, question, &mut Room::new(1000));
            answer.shown[..4].copy_from_slice(&larger.shown[..4]);
        }
        answer
    },
    // The count, and no spans written.
    |listing, index, question, room| match question {
        Question::Feature(..) => judged(listing, index, question, &mut room.clone()),
        _ => judged(listing, index, question, room),
    },
    // The key for the location.
    |listing, index, question, room| {
        let mut answer = judged(listing, index, question, room);
        if let Question::Feature(..) = question {
            answer.shown[..4].rotate_left(2);
        }
        answer
    },
    // Short room before what isn't there.
    |listing, index, question, room| {
        let answer = judged(listing, index, question, room);
        match (question, answer.number, room.numbers()) {
            (Question::Feature(..), 30..=32, []) => Answer {
                number: 34,
                ..answer
            },
            _ => answer,
        }
    },
];
