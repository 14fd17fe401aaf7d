//! The calls of the listings, held against the listings and against the oracle.

use conformance::judge::difference;
use conformance::library;
use conformance::listing::{self, Entry};
use conformance::oracle::answer::Answer;
use conformance::oracle::call::{expected, Expected};
use conformance::oracle::readings::literal::{is_reading, Triple};

/// What the entry says of the lent list after the call, if it says all of it.
fn lent_after(entry: &Entry, words: &[u32]) -> Vec<Vec<u32>> {
    let mut lent = entry.call.lent();
    if let Some(list) = lent.first_mut() {
        list[..words.len()].copy_from_slice(words);
    }
    lent
}

/// Whether the answer and the lent list are as the entry says; a reading that it leaves open is left to the oracle.
fn is_as_listed(entry: &Entry, answer: Answer, lent: &[Vec<u32>]) -> bool {
    let open = entry.written.is_empty() && entry.answer.number == 0 && entry.call.name() == "find";
    let length = if open || entry.written.len() > 1 { answer.length } else { entry.answer.length };
    let none = vec![vec![]];
    let written = if entry.written.is_empty() { &none } else { &entry.written };
    answer == Answer { length, ..entry.answer }
        && (open || written.iter().any(|words| lent == lent_after(entry, words)))
}

#[test]
fn the_calls_answer_as_listed() {
    let entries = listing::all();
    println!("{} calls", entries.len());
    assert!(entries.len() > 3_000, "the listings are there");
    for entry in &entries {
        let given = library::ask(&entry.call);
        let told = || format!("{}: {}\n{:?}, not {:?}", entry.place, entry.why, given.answer, entry.answer);
        assert!(is_as_listed(entry, given.answer, &given.lent), "{}", told());
        let expected = expected(&entry.call).expect("few placements");
        assert_eq!(difference(&entry.call, &expected, &given), None, "{}", told());
    }
}

/// The listings were written by hand from the documents, and so was the oracle, by others.
#[test]
fn the_oracle_answers_as_listed() {
    for entry in listing::all() {
        let right = match expected(&entry.call).expect("few placements") {
            Expected::Exactly { answer, lent } => is_as_listed(&entry, answer, &lent),
            Expected::Reading { world, decision } => {
                let root = Triple { node: world.root(), begin: 0, end: world.last() };
                let lawful = entry.written.iter().all(|words| is_reading(&world, words, root));
                lawful && entry.answer.number == 0 && entry.answer.count == decision.count()
            }
        };
        assert!(right, "{}: {}: not {:?} by the oracle", entry.place, entry.why, entry.answer);
    }
}
