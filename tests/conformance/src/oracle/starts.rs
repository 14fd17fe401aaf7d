//! Document 01, "Starts and known facts": start words, and rows 6 to 9; then L4's row 15 and L5's row 16. Each row is a
//! pass over all words.

use crate::oracle::answer::{refuse, Refusal};
use crate::oracle::job::{Action, Group, Job};
use crate::words::{bits, field, kind};

/// "the start is in hand at u ≤ t < u + d, hides at u < t < u + d, and finishes at u + d."
#[derive(Clone, Copy, Debug, PartialEq, Eq)]
pub struct Start {
    pub moment: usize,
    pub action: usize,
    pub duration: usize,
}

impl Start {
    pub fn in_hand(&self, t: usize) -> bool {
        self.moment <= t && t < self.moment + self.duration
    }

    pub fn hides(&self, t: usize) -> bool {
        self.moment < t && t < self.moment + self.duration
    }

    pub fn finishes(&self, t: usize) -> bool {
        t == self.moment + self.duration
    }
}

/// Rows 6 to 9, 15 and 16 over all start words.
pub fn read_starts(job: &Job, words: &[u32]) -> Result<Vec<Start>, Refusal> {
    row_6(job, words)?;
    let starts: Vec<Start> = words.iter().map(|&word| start_of(job, word)).collect();
    row_7(job, &starts)?;
    row_8(&starts)?;
    row_9(job, &starts)?;
    row_15(job, &starts)?;
    row_16(job, &starts)?;
    Ok(starts)
}

pub fn start_of(job: &Job, word: u32) -> Start {
    let action = field(word, 5, 0);
    Start { moment: field(word, 11, 6), action, duration: job.actions[action].duration }
}

/// "kind or spare bit wrong, u > n, no such action, or not above the word before"
pub fn row_6(job: &Job, words: &[u32]) -> Result<(), Refusal> {
    for (position, &word) in words.iter().enumerate() {
        let spare = word & !(bits(31, 28) | bits(11, 6) | bits(5, 0));
        let not_above = position > 0 && word <= words[position - 1];
        let late = field(word, 11, 6) > job.last;
        let no_action = field(word, 5, 0) >= job.actions.len();
        if kind(word) != 9 || spare != 0 || late || no_action || not_above {
            return refuse(6, position);
        }
    }
    Ok(())
}

/// "u + d > n"
pub fn row_7(job: &Job, starts: &[Start]) -> Result<(), Refusal> {
    match starts.iter().position(|start| start.moment + start.duration > job.last) {
        Some(position) => refuse(7, position),
        None => Ok(()),
    }
}

/// "an earlier start of it at v with v < u < v + d"
pub fn row_8(starts: &[Start]) -> Result<(), Refusal> {
    for (position, start) in starts.iter().enumerate() {
        let again = |earlier: &Start| {
            earlier.action == start.action
                && earlier.moment < start.moment
                && start.moment < earlier.moment + earlier.duration
        };
        if starts[..position].iter().any(again) {
            return refuse(8, position);
        }
    }
    Ok(())
}

/// "clashes with the start of an earlier word, both in hand at some moment"
pub fn row_9(job: &Job, starts: &[Start]) -> Result<(), Refusal> {
    for (position, start) in starts.iter().enumerate() {
        let clashes = |earlier: &Start| clash(&job.actions[start.action], &job.actions[earlier.action]);
        let both_in_hand = |earlier: &Start| (0..=job.last).any(|t| start.in_hand(t) && earlier.in_hand(t));
        if starts[..position].iter().any(|earlier| clashes(earlier) && both_in_hand(earlier)) {
            return refuse(9, position);
        }
    }
    Ok(())
}

/// "a start outside its windows, position its word, after 9 and before 10"
pub fn row_15(job: &Job, starts: &[Start]) -> Result<(), Refusal> {
    match starts.iter().position(|start| !keeps_windows(job, start)) {
        Some(position) => refuse(15, position),
        None => Ok(()),
    }
}

/// "An action with windows may start at u only if one of them has from ≤ u and u + d ≤ to." "An action without windows
/// is free."
pub fn keeps_windows(job: &Job, start: &Start) -> bool {
    let shifts = &job.actions[start.action].shifts;
    let held = shifts.iter().any(|shift| shift.from <= start.moment && start.moment + start.duration <= shift.to);
    shifts.is_empty() || held
}

/// "the first start word with which, counted with the words before it alone, a group of its action exceeds its limit at
/// that word's moment, after 15 and before 10"
pub fn row_16(job: &Job, starts: &[Start]) -> Result<(), Refusal> {
    match (0..starts.len()).find(|&position| exceeds(job, &starts[..position], &starts[position])) {
        Some(position) => refuse(16, position),
        None => Ok(()),
    }
}

/// Whether a start, counted with others, takes a group of its action over its limit at its own moment.
pub fn exceeds(job: &Job, others: &[Start], start: &Start) -> bool {
    let mut own = job.groups.iter().filter(|group| group.actions.contains(&start.action));
    own.any(|group| in_hand_of(group, others, start.moment) + 1 > group.limit)
}

/// How many of the starts in hand at t are of the group: "the starts in hand whose action is in the group".
fn in_hand_of(group: &Group, starts: &[Start], t: usize) -> usize {
    starts.iter().filter(|start| start.in_hand(t) && group.actions.contains(&start.action)).count()
}

/// "Two actions clash if one makes true what the other makes false."
pub fn clash(one: &Action, other: &Action) -> bool {
    one.makes.iter().any(|a| other.makes.iter().any(|b| a.fluent == b.fluent && a.value != b.value))
}
