//! Climbing toward slower sets: a change is kept if find takes no less time.
use super::draws::{self, Random};
use super::set::Set;
use crate::library::{facts, find, FIND_WORDS};
use std::time::{Duration, Instant};

/// How many draws a climb begins with, and after how many changes without a gain it ends.
const DRAWS: usize = 60;
const IDLE: usize = 500;

/// A time is the least of so many.
const RUNS: usize = 3;

pub struct Slow {
    /// What find takes.
    pub microseconds: u128,
    pub set: Set,
}

fn measured(set: Set) -> Slow {
    let (job, starts) = set.words();
    let facts = facts(&job, &starts);
    let time = || {
        let begun = Instant::now();
        find(&job, &starts, &facts, &mut [0; FIND_WORDS]);
        begun.elapsed().as_micros()
    };
    Slow { microseconds: (0..RUNS).map(|_| time()).min().expect("there are runs"), set }
}

/// The slowest set of each climb, the slowest first, at most so many. In the last third of the time the slowest ones are climbed on from.
pub fn slowest(time: Duration, seed: u64, most: usize) -> Vec<Slow> {
    let mut random = Random(seed);
    let mut found: Vec<Slow> = vec![];
    let begun = Instant::now();
    while begun.elapsed() < time {
        let again = begun.elapsed() > time * 2 / 3 && !found.is_empty();
        let first = if again { found.remove(random.below(found.len())) } else { drawn(&mut random) };
        found.push(climbed(&mut random, first, begun + time));
        found.sort_by_key(|slow| std::cmp::Reverse(slow.microseconds));
        found.truncate(most);
    }
    found
}

fn drawn(random: &mut Random) -> Slow {
    let draws = (0..DRAWS).map(|_| measured(draws::set(random)));
    draws.max_by_key(|slow| slow.microseconds).expect("there are draws")
}

fn climbed(random: &mut Random, first: Slow, until: Instant) -> Slow {
    let mut slow = first;
    let mut idle = 0;
    while idle < IDLE && Instant::now() < until {
        let other = measured(draws::changed(random, &slow.set));
        idle = if other.microseconds > slow.microseconds { 0 } else { idle + 1 };
        if other.microseconds >= slow.microseconds {
            slow = other;
        }
    }
    slow
}
