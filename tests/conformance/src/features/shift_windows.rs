//! Request L4, "Shift windows": "An action with windows may start at u only if one of them has from ≤ u and u + d ≤
//! to."

use crate::draw::damage;
use crate::draw::draft::{Draft, Drawn};
use crate::draw::plans;
use crate::features::{met, Feature, Seen};
use crate::oracle::job::Job;
use crate::oracle::starts::{keeps_windows, Start};
use crate::random::Random;
use crate::words::{field, kind, shift_window};

pub const FEATURE: Feature = Feature {
    draw,
    add,
    spoil,
    damage: |random, job| damage::of_kinds(random, job, &[12]),
    tiny,
    situations,
    needed: &[
        ("a start on from", &[0, 15]),
        ("a start one before from", &[15]),
        ("a finish on to", &[0, 15]),
        ("a finish one after to", &[15]),
        ("two windows that only together hold a start", &[15]),
        ("a free action beside windows", &[0]),
        ("a word of kind 12 refused", &[2, 3]),
        ("15 at a later start", &[15]),
        ("a new start", &[0, 15]),
    ],
};

fn draw(random: &mut Random) -> Drawn {
    let mut drawn = plans::readable(random);
    add(random, &mut drawn);
    drawn
}

/// Windows for three actions of four: some that hold their starts, mostly just so, and others that need not hold
/// anything.
fn add(random: &mut Random, drawn: &mut Drawn) {
    for action in 0..drawn.draft.actions.len() {
        if random.chance(75) {
            let mut own = holding(random, drawn, action);
            for _ in 0..*random.pick(&[0, 0, 1, 1, 2, 3]) {
                own.push(any(random, &drawn.draft, action));
            }
            random.shuffle(&mut own);
            drawn.draft.windows.extend(own);
        }
    }
    if random.chance(50) {
        random.shuffle(&mut drawn.draft.windows);
    }
}

/// For each start of an action a window, or one for several in a row; one for all if they are many.
fn holding(random: &mut Random, drawn: &Drawn, action: usize) -> Vec<u32> {
    let own = drawn.starts.iter().filter(|&&word| field(word, 5, 0) == action);
    let moments: Vec<usize> = own.map(|&word| field(word, 11, 6)).collect();
    let mut windows = vec![];
    let mut rest = &moments[..];
    while !rest.is_empty() {
        let together = match moments.len() {
            0..=6 if random.chance(70) => 1,
            0..=6 => random.between(1, rest.len()),
            _ => rest.len(),
        };
        let from = rest[0].saturating_sub(slack(random));
        let to = rest[together - 1] + drawn.draft.duration(action) + slack(random);
        windows.push(shift_window(action, from, to.min(63)));
        rest = &rest[together..];
    }
    windows
}

/// How far a window goes beyond what it must hold.
fn slack(random: &mut Random) -> usize {
    *random.pick(&[0, 0, 0, 0, 0, 0, 1, 1, 3, 63])
}

/// A window that is empty, too short, as long as the action, above n, or wide.
fn any(random: &mut Random, draft: &Draft, action: usize) -> u32 {
    let from = random.below(draft.last + 1);
    let lasts = draft.duration(action);
    match random.below(6) {
        0 => shift_window(action, from, from),
        1 => shift_window(action, from, (from + lasts - 1).min(63)),
        2 => shift_window(action, from, (from + lasts).min(63)),
        3 => shift_window(action, (draft.last + 1).min(63), 63),
        4 => shift_window(action, from, random.between(from, 63)),
        _ => shift_window(action, 63, 63),
    }
}

/// Changes the windows so that they no longer hold one of the starts; unless another one does.
fn spoil(random: &mut Random, drawn: &mut Drawn) {
    if drawn.starts.is_empty() {
        return;
    }
    let start = *random.pick(&drawn.starts);
    let (u, action) = (field(start, 11, 6), field(start, 5, 0));
    let end = u + drawn.draft.duration(action);
    let holds = |word: u32| field(word, 17, 12) == action && field(word, 11, 6) <= u && end <= field(word, 5, 0);
    let (holding, mut kept): (Vec<u32>, Vec<u32>) = drawn.draft.windows.iter().partition(|&&word| holds(word));
    let way = random.below(7);
    let holding = if holding.is_empty() { vec![shift_window(action, u, end)] } else { holding };
    holding.iter().for_each(|&window| kept.extend(broken(random, window, (u, end), way)));
    drawn.draft.windows = kept;
}

/// What a window that holds u to the end becomes.
fn broken(random: &mut Random, window: u32, (u, end): (usize, usize), way: usize) -> Vec<u32> {
    let (action, from, to) = (field(window, 17, 12), field(window, 11, 6), field(window, 5, 0));
    let inside = random.between(u + 1, end);
    match way {
        0 | 1 => vec![shift_window(action, u + 1, to)],
        2 | 3 => vec![shift_window(action, from, end - 1)],
        4 if inside < end => vec![shift_window(action, from, inside), shift_window(action, inside, to)],
        4 | 5 => vec![shift_window(action, inside, to), shift_window(action, from, inside - 1)],
        _ => vec![shift_window(action, u, u), shift_window(0, from, to)],
    }
}

/// Up to two windows of action 0, to n + 1 at most.
fn tiny(draft: &Draft) -> Vec<Draft> {
    let spans = (0..=draft.last).flat_map(|from| (from..=draft.last + 1).map(move |to| (from, to)));
    let windows: Vec<u32> = spans.map(|(from, to)| shift_window(0, from, to)).collect();
    let one = windows.iter().map(|&window| vec![window]);
    let two = windows.iter().flat_map(|&first| windows.iter().map(move |&second| vec![first, second]));
    let with = |windows: Vec<u32>| Draft { windows, ..draft.clone() };
    one.chain(two).map(with).collect()
}

fn situations(seen: &Seen) -> Vec<&'static str> {
    if let Some(word) = seen.refused_word() {
        return met(&[("a word of kind 12 refused", kind(word) == 12)]);
    }
    let Some(job) = seen.job else { return vec![] };
    let new = seen.new_start().filter(|_| seen.is_own_lawful());
    let looked_at: Vec<&Start> = match seen.number {
        15 => seen.starts.iter().chain(&new).filter(|start| !keeps_windows(job, start)).take(1).collect(),
        0 => seen.starts.iter().chain(&new).collect(),
        _ => vec![],
    };
    let windowed = job.actions.iter().any(|action| !action.shifts.is_empty());
    let mut names: Vec<&'static str> = looked_at.iter().flat_map(|start| edges(job, start)).collect();
    names.extend(met(&[
        (
            "a free action beside windows",
            windowed && looked_at.iter().any(|at| job.actions[at.action].shifts.is_empty()),
        ),
        ("15 at a later start", seen.number == 15 && seen.position > 0),
        ("a new start", windowed && new.is_some()),
    ]));
    names
}

/// Where a start lies at the edges of its windows.
fn edges(job: &Job, start: &Start) -> Vec<&'static str> {
    let shifts = &job.actions[start.action].shifts;
    let (u, end) = (start.moment, start.moment + start.duration);
    let from = shifts.iter().any(|shift| shift.from <= u && u < shift.to && shift.to < end);
    let meets =
        |to: usize| shifts.iter().any(|other| other.from <= to && to < end && end <= other.to && other.from > u);
    met(&[
        ("a start on from", shifts.iter().any(|shift| shift.from == u)),
        ("a start one before from", shifts.iter().any(|shift| shift.from == u + 1 && end <= shift.to)),
        ("a finish on to", shifts.iter().any(|shift| shift.to == end)),
        ("a finish one after to", shifts.iter().any(|shift| shift.to + 1 == end && shift.from <= u)),
        (
            "two windows that only together hold a start",
            from && shifts.iter().any(|shift| shift.from <= u && meets(shift.to)),
        ),
    ])
}
