//! Document 01, "Job words", with the words of L4 to L7: each kind and form, its fields, its place, and the job's end.

use crate::draw::draft::{Draft, Drawn};
use crate::draw::{damage, jobs, limits};
use crate::features::{damage_starts, nothing_to_add, Feature, Seen};
use crate::random::Random;
use crate::words::{form, kind};

pub const FEATURE: Feature = Feature {
    draw: |random| Drawn { draft: jobs::well_formed(random), starts: vec![] },
    add: nothing_to_add,
    spoil: damage_starts,
    damage: damaged,
    tiny: |draft: &Draft| vec![draft.clone()],
    situations,
    needed: &[
        ("length", &[1]),
        ("kind 1", &[2, 3]),
        ("kind 2", &[2, 3, 4]),
        ("kind 3", &[2, 3]),
        ("kind 4", &[2, 3, 4]),
        ("kind 5", &[2, 3]),
        ("kind 6", &[2, 3]),
        ("kind 7", &[2, 3]),
        ("kind 8", &[2, 3]),
        ("kind 12", &[2, 3]),
        ("kind 13", &[2, 3, 4]),
        ("kind 14", &[2, 3, 4]),
        ("another kind", &[2]),
        ("the job's end", &[3]),
        ("a node's name", &[5]),
        ("every form of a formula", &[0]),
        ("every form of a node", &[0]),
        ("every form of a condition", &[0]),
    ],
};

const KINDS: [&str; 16] = [
    "another kind",
    "kind 1",
    "kind 2",
    "kind 3",
    "kind 4",
    "kind 5",
    "kind 6",
    "kind 7",
    "kind 8",
    "another kind",
    "another kind",
    "another kind",
    "kind 12",
    "kind 13",
    "kind 14",
    "another kind",
];

/// The job with one word damaged, or a job at or beyond a limit, or words that no job writer meant.
fn damaged(random: &mut Random, job: &[u32]) -> Vec<u32> {
    match random.below(12) {
        0..=4 => damage::any(random, job),
        5 => damage::other_child(random, job),
        6 => damage::window(random, job),
        7 | 8 => damage::named_again(random, job),
        9 => limits::any(random),
        10 => limits::noise(random),
        _ => limits::plausible(random),
    }
}

fn situations(seen: &Seen) -> Vec<&'static str> {
    let job = seen.call.list("job");
    match seen.number {
        1 => vec!["length"],
        2..=4 => vec![job.get(seen.position).map_or("the job's end", |&word| KINDS[kind(word)])],
        5 => vec!["a node's name"],
        0 => accepted(job),
        _ => vec![],
    }
}

/// Which kinds of words a well-formed job has in every form.
fn accepted(job: &[u32]) -> Vec<&'static str> {
    let every = |of: usize, forms: usize| {
        (0..forms).all(|number| job.iter().any(|&word| kind(word) == of && form(word) == number))
    };
    let sorts =
        [(5, 6, "every form of a formula"), (6, 9, "every form of a node"), (8, 5, "every form of a condition")];
    sorts.iter().filter(|&&(of, forms, _)| every(of, forms)).map(|&(_, _, name)| name).collect()
}
