//! Compares what a call returned and left behind with what it must.

use crate::library::Given;
use crate::listing;
use crate::oracle::answer::Answer;
use crate::oracle::call::{Call, Expected};
use crate::oracle::readings::literal::{is_reading, Triple};
use crate::oracle::readings::world::World;

/// What is wrong with the result, if anything is, with the call as a listing.
pub fn difference(call: &Call, expected: &Expected, given: &Given) -> Option<String> {
    let wrong = if given.spilled {
        "a word is changed that was not lent for writing".to_string()
    } else {
        match expected {
            Expected::Exactly { answer, lent } => exact(*answer, lent, given)?,
            Expected::Reading { world, decision } => reading(call, world, decision.count(), given)?,
        }
    };
    Some(format!("{wrong}\n{}{} gave {:?}", listing::lists(call), call.name(), given.answer))
}

fn exact(answer: Answer, lent: &[Vec<u32>], given: &Given) -> Option<String> {
    if given.answer != answer {
        return Some(format!("the answer must be {answer:?}"));
    }
    let lists = lent.iter().zip(&given.lent).enumerate();
    let other = lists.filter_map(|(list, (right, words))| Some((list, first_other(right, words)?))).next();
    other.map(|(list, place)| format!("word {place} of lent list {list} is wrong"))
}

fn first_other(right: &[u32], words: &[u32]) -> Option<usize> {
    (0..right.len()).find(|&place| right[place] != words[place])
}

/// The first words are a reading of the root from 0 to n, and the others are as they were.
fn reading(call: &Call, world: &World, count: usize, given: &Given) -> Option<String> {
    let (buffer, before) = (&given.lent[0], &call.lent()[0]);
    let length = given.answer.length;
    let root = Triple { node: world.root(), begin: 0, end: world.last() };
    match length {
        _ if given.answer != Answer::success(length, count) => {
            Some(format!("the root reads, and the count is {count}"))
        }
        _ if length > buffer.len() => Some("the reading is longer than the buffer".to_string()),
        _ if buffer[length..] != before[length..] => Some("a word after the reading is changed".to_string()),
        _ if !is_reading(world, &buffer[..length], root) => Some(format!("no reading: {:08x?}", &buffer[..length])),
        _ => None,
    }
}
