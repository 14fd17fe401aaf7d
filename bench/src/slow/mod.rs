//! Task sets on which find takes long: those of slowest.txt, and a search for more.
mod climb;
mod draws;
mod set;

use crate::plans::{lawful, Plan};
use set::Set;
use std::time::Duration;

const LISTING: &str = include_str!("../../slowest.txt");

/// The numbers of the sets that the gate counts: one of the slowest, and those that take some milliseconds.
const GATE: [usize; 5] = [1, 6, 7, 8, 11];

/// How many sets a search prints.
const MOST: usize = 8;

/// The sets of the listing that the gate counts, and the others, which take it too long.
pub fn plans() -> (Vec<Plan>, Vec<Plan>) {
    let plan = |(number, lines): (usize, &str)| {
        let (job, starts) = Set::read(lines).words();
        (number, lawful(format!("slow set {number}"), job, starts))
    };
    let (gate, long): (Vec<_>, Vec<_>) =
        LISTING.split("\n\n").enumerate().skip(1).map(plan).partition(|(number, _)| GATE.contains(number));
    let without_number = |plans: Vec<(usize, Plan)>| plans.into_iter().map(|(_, plan)| plan).collect();
    (without_number(gate), without_number(long))
}

/// Searches for so many minutes, and prints the slowest sets as slowest.txt has them.
pub fn search(minutes: u64, seed: u64) -> bool {
    for climb::Slow { microseconds, set } in climb::slowest(Duration::from_secs(60 * minutes), seed, MOST) {
        println!("# find took {microseconds} microseconds\n{}\n", set.listing());
    }
    true
}
