//! Document 01, "Starts and known facts": lawful starts, and rows 6 to 11.

use crate::draw::draft::{Draft, Drawn};
use crate::draw::{damage, plans};
use crate::features::{damage_starts, met, nothing_to_add, Feature, Seen};
use crate::oracle::facts::states;
use crate::oracle::job::Job;
use crate::oracle::starts::{clash, Start};
use crate::random::Random;

pub const FEATURE: Feature = Feature {
    draw,
    add: nothing_to_add,
    spoil: damage_starts,
    damage: damage::any,
    tiny: |draft: &Draft| vec![draft.clone()],
    situations,
    needed: &[
        ("the first start", &[6, 7, 10]),
        ("a later start", &[6, 7, 8, 9, 10]),
        ("a finish on n", &[0]),
        ("a finish one after n", &[7]),
        ("an action again at its finish", &[0]),
        ("an action again one moment sooner", &[8]),
        ("a clash without a common finish", &[9]),
        ("a need that is open", &[10]),
        ("a need that is contrary", &[10]),
        ("other facts", &[11]),
        ("60 starts at one moment", &[0]),
    ],
};

/// A plan of any size, or now and then one with nearly 64 starts at one moment.
fn draw(random: &mut Random) -> Drawn {
    match random.chance(2) {
        true => plans::crowd(random),
        false => plans::lawful(random),
    }
}

fn situations(seen: &Seen) -> Vec<&'static str> {
    let Some(job) = seen.job else { return vec![] };
    let starts = seen.starts;
    let again = |gap: usize| {
        let follows = |one: &Start, other: &Start| one.action == other.action && one.moment < other.moment;
        starts.iter().any(|one| {
            starts.iter().any(|other| follows(one, other) && other.moment + gap == one.moment + one.duration)
        })
    };
    let mut names = met(&[
        ("a finish on n", starts.iter().any(|start| start.moment + start.duration == job.last)),
        ("an action again at its finish", again(0)),
        ("other facts", seen.number == 11),
        ("60 starts at one moment", starts.len() >= 60 && starts[59].moment == starts[0].moment),
    ]);
    if matches!(seen.number, 6..=10) && seen.call.list("trial").is_empty() {
        names.push(if seen.position == 0 { "the first start" } else { "a later start" });
    }
    if let (7..=10, Some(start)) = (seen.number, seen.refused_start()) {
        names.extend(refused(seen, job, &start, again(1)));
    }
    names
}

/// The situations of a start that is refused.
fn refused(seen: &Seen, job: &Job, start: &Start, again: bool) -> Vec<&'static str> {
    let own = &job.actions[start.action];
    let apart = seen.starts.iter().all(|other| {
        let clashes = clash(own, &job.actions[other.action]);
        !clashes || other.moment + other.duration != start.moment + start.duration
    });
    let state = |fluent: usize| states(job, seen.starts).get(start.moment).and_then(|state| state[fluent]);
    let needs = |value: fn(Option<bool>) -> bool| own.needs.iter().any(|need| value(state(need.fluent)));
    met(&[
        ("a finish one after n", start.moment + start.duration == job.last + 1),
        ("an action again one moment sooner", again),
        ("a clash without a common finish", seen.number == 9 && apart),
        ("a need that is open", seen.number == 10 && needs(|value| value.is_none())),
        ("a need that is contrary", seen.number == 10 && needs(|value| value.is_some())),
    ])
}
