//! Lawful plans with many starts, for check, fill and the calls on a trial: the largest ones, narrow and wide, one with the most shift
//! windows, some with all groups, and plans by how many starts are in hand.
use crate::words::{
    action, formula, group, group_member, head, initially, law, node, shift_window, start, wide_head, wide_initially,
    wide_law, FLUENTS,
};

/// How many laws an action of the largest plans has.
const LAWS: usize = 29;

/// How many laws the job of the largest wide plans has, and how many fluents its actions need, all known at 0.
const WIDE_LAWS: usize = 1900;
const NEEDED: usize = 20;

/// Fluents of the plans by starts in hand: one that all actions need, and six that they make. So few, so that the walk of the states takes
/// little for the fluents of a start that acts, and it shows how many starts it looks at.
const MADE: usize = 6;

/// Shift windows of the plan that has the most: with 64 known fluents, 64 actions and a node, its job has 2,048 words.
const WINDOWS: usize = 1918;

/// The groups that there may be, and the greatest limit: in the plans that have them, so many of each are in hand.
const GROUPS: usize = 8;
const LIMIT: usize = 63;

#[derive(Clone, Default)]
pub struct Plan {
    pub name: String,
    pub job: Vec<u32>,
    /// They ascend and are lawful.
    pub starts: Vec<u32>,
    /// Number and position of check's answer.
    pub refusal: (usize, usize),
}

/// A lawful plan.
pub fn lawful(name: impl Into<String>, job: Vec<u32>, starts: Vec<u32>) -> Plan {
    Plan { name: name.into(), job, starts, refusal: (0, 0) }
}

pub fn all() -> Vec<Plan> {
    let largest = [largest(1), largest(7), largest_wide(1), largest_wide(7)];
    let windows_and_groups = [windowed(), grouped(), grouped_one(), grouped_durations(), bare()];
    largest.into_iter().chain(windows_and_groups).chain(by_starts_in_hand()).collect()
}

/// Plans of which a trial has 4,000 of the 4,032 starts: at the trial's moment, 62, the higher actions are started, so that action 0 goes in
/// before them.
pub fn trials() -> [Plan; 4] {
    [largest(1), windowed(), grouped(), largest_wide(1)].map(|Plan { name, job, starts, .. }| {
        let starts = [&starts[..62 * 64], &starts[62 * 64 + 32..]].concat();
        lawful(format!("trial of {name}"), job, starts)
    })
}

/// As many shift windows as there is room for, 29 or 30 for each action, side by side from moment 0 to 63: each start is held by one of
/// them alone.
pub fn windowed() -> Plan {
    let window = |i: usize| {
        let (a, place) = (i % 64, i / 64);
        let count = (WINDOWS - a).div_ceil(64);
        shift_window(a, 63 * place / count, 63 * (place + 1) / count)
    };
    let windows = (0..WINDOWS).map(window).collect();
    without_laws(format!("{WINDOWS} shift windows, 4,032 starts"), windows, |_| 1)
}

/// All groups, and the most in hand at a moment, every action: each group has all actions but one of its own, so that 63 of it are in hand.
fn grouped() -> Plan {
    let pairs = members(|group, action| action != group);
    without_laws("8 groups of 63, 4,032 starts", pairs, |_| 1)
}

/// A group of one action: its starts are few, so that what all others cost shows.
fn grouped_one() -> Plan {
    without_laws("a group of one action, 4,032 starts", vec![group(0, LIMIT), group_member(0, 0)], |_| 1)
}

/// The groups of `grouped`, with actions of different durations, each again as soon as it has finished.
fn grouped_durations() -> Plan {
    let pairs = members(|group, action| action != group);
    without_laws("8 groups of 63, durations 2, 7 and 63", pairs, |a| [2, 7, 63][a % 3])
}

/// The plan of `windowed` without its windows, and that of `grouped` without its groups.
fn bare() -> Plan {
    without_laws("no shift windows, no groups, 4,032 starts", vec![], |_| 1)
}

/// 64 fluents, all known from the start; 64 actions of these durations without laws, then words on them. Each starts again and again.
fn without_laws(name: impl Into<String>, words: Vec<u32>, duration: impl Fn(usize) -> usize) -> Plan {
    let known = (0..64).map(|f| initially(f, true));
    let actions = (0..64).map(|a| action(a, duration(a)));
    let job = [head(64, 64, 63)].into_iter().chain(known).chain(actions).chain(words).chain([node(0, 0, 0, 0, 0)]);
    lawful(name, job.collect(), again_and_again(64, duration))
}

/// All groups with the greatest limit, and then the pairs of group and action that there are.
fn members(is_member: impl Fn(usize, usize) -> bool) -> Vec<u32> {
    let pairs: Vec<(usize, usize)> = (0..GROUPS).flat_map(|g| (0..64).map(move |a| (g, a))).collect();
    let pairs = pairs.into_iter().filter(|&(g, a)| is_member(g, a)).map(|(g, a)| group_member(g, a));
    (0..GROUPS).map(|g| group(g, LIMIT)).chain(pairs).collect()
}

/// 64 fluents, all known from the start; 64 actions of duration d, each with 29 laws (12 needs, 17 makes, all true, so that nothing
/// clashes); every action starts at every d-th moment. With d > 1 the needs would be hidden, so the laws all make. With 62 formulas the
/// job has 2,048 words, the most there may be.
pub fn largest(d: usize) -> Plan {
    let mut job = vec![head(64, 64, 63)];
    job.extend((0..64).map(|f| initially(f, true)));
    for a in 0..64 {
        job.push(action(a, d));
        let needs = if d == 1 { 12 } else { 0 };
        job.extend((0..LAWS).map(|i| law(if i < needs { 0 } else { 2 }, (a + i * 3) % 64)));
    }
    job.extend([formula(0, 0, 0); 62]);
    job.push(node(1, 0, 0, 0, 0));
    lawful(format!("the largest, d = {d}"), job, every_action(d))
}

/// Every action at every d-th moment, as long as it finishes by 63.
fn every_action(d: usize) -> Vec<u32> {
    (0..=63 - d).step_by(d).flat_map(|u| (0..64).map(move |a| start(u, a))).collect()
}

/// The same with a wide head, 256 fluents and 1,900 laws. There is room for 81 fluents known at 0; all are known as soon as the first starts
/// have finished.
pub fn largest_wide(d: usize) -> Plan {
    let mut job = wide_before_formulas(d, 2);
    job.extend([formula(0, 0, 0), node(1, 0, 0, 0, 0)]);
    lawful(format!("the largest wide, d = {d}"), job, every_action(d))
}

/// 256 fluents, of which as many are known at 0 as there is room for with so many words after the laws; 64 actions of duration d, 29 or 30
/// laws each, all true: with d = 1 the first 12 need one of 20 fluents. Each fluent is made by some action.
pub fn wide_before_formulas(d: usize, after: usize) -> Vec<u32> {
    let needs = if d == 1 { 12 } else { 0 };
    let mut job = vec![wide_head(FLUENTS, 64, 63)];
    job.extend((0..2048 - 1 - 64 - WIDE_LAWS - after).map(|f| wide_initially(f, true)));
    for a in 0..64 {
        let laws = (WIDE_LAWS - a).div_ceil(64);
        job.push(action(a, d));
        job.extend((0..needs).map(|i| wide_law(0, (a + i) % NEEDED)));
        job.extend((needs..laws).map(|i| wide_law(2, (a * 4 + i * 15) % FLUENTS)));
    }
    job
}

/// With so many starts in hand at each moment, and with 64 of different durations.
fn by_starts_in_hand() -> Vec<Plan> {
    let short = [1, 8, 64].map(|started| in_hand(&format!("{started} in hand"), |_| 1, started));
    short.into_iter().chain([in_hand("64 in hand, durations 2, 7 and 63", |a| [2, 7, 63][a % 3], 64)]).collect()
}

/// A job of 64 actions of these durations, of which so many start at 0 and whenever they have finished, as long as they finish by 63.
/// Fluents 1 to 3 are made true and were false at first, 4 to 6 the other way round; those who make a fluent have the same duration.
fn in_hand(name: &str, duration: impl Fn(usize) -> usize, started: usize) -> Plan {
    let mut job = vec![head(1 + MADE, 64, 63), initially(0, true)];
    job.extend((0..MADE).map(|i| initially(1 + i, i >= MADE / 2)));
    for a in 0..64 {
        let made = a % MADE;
        job.extend([action(a, duration(a)), law(0, 0), law(if made < MADE / 2 { 2 } else { 3 }, 1 + made)]);
    }
    job.extend([formula(0, 0, 0), node(1, 0, 0, 0, 0)]);
    lawful(name, job, again_and_again(started, duration))
}

/// Each of the first actions starts at 0 and whenever it has finished, as long as it finishes by 63.
fn again_and_again(actions: usize, duration: impl Fn(usize) -> usize) -> Vec<u32> {
    let starting = |u: usize, a: usize| u % duration(a) == 0 && u + duration(a) <= 63;
    let pairs = (0..63).flat_map(|u| (0..actions).map(move |a| (u, a)));
    pairs.filter(|&(u, a)| starting(u, a)).map(|(u, a)| start(u, a)).collect()
}
