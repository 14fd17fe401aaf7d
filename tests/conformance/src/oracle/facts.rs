//! Document 01, "Starts and known facts": the state of each moment, row 10, the list of facts, row 11.

use crate::oracle::answer::{refuse, Refusal};
use crate::oracle::job::{Job, Known};
use crate::oracle::layout::Layout;
use crate::oracle::starts::Start;

/// For each fluent its known value, or none where it is open.
pub type State = Vec<Option<bool>>;

/// The states of the moments 0..n.
pub fn states(job: &Job, starts: &[Start]) -> Vec<State> {
    let mut states = vec![initial_state(job)];
    for t in 1..=job.last {
        states.push(state_at(job, starts, &states[t - 1], t));
    }
    states
}

/// The state of t > 0 by that of t - 1: "At t > 0 a fluent that a hiding start makes true or false is open. Any other
/// fluent takes the value given by a start finishing at t, or else its value at t − 1."
pub fn state_at(job: &Job, starts: &[Start], before: &State, t: usize) -> State {
    let made_by = |test: fn(&Start, usize) -> bool| -> Vec<Known> {
        let looked_at = starts.iter().filter(|start| test(start, t));
        looked_at.flat_map(|start| &job.actions[start.action].makes).copied().collect()
    };
    let mut state = before.clone();
    made_by(Start::finishes).iter().rev().for_each(|made| state[made.fluent] = Some(made.value));
    made_by(Start::hides).iter().for_each(|made| state[made.fluent] = None);
    state
}

/// "Known at 0: the kind 2 words."
pub fn initial_state(job: &Job) -> State {
    let mut state = vec![None; job.fluents];
    for known in &job.initially {
        state[known.fluent] = Some(known.value);
    }
    state
}

/// Row 10, "needs not known": "A start's needs must be known in the state of its own moment."
pub fn row_10(job: &Job, starts: &[Start], states: &[State]) -> Result<(), Refusal> {
    let unmet = |start: &Start| {
        let state = &states[start.moment];
        job.actions[start.action].needs.iter().any(|need| state[need.fluent] != Some(need.value))
    };
    match starts.iter().position(unmet) {
        Some(position) => refuse(10, position),
        None => Ok(()),
    }
}

/// The list of the rules: a fact word for each known fluent of each moment, ascending.
pub fn fact_words(layout: &Layout, states: &[State]) -> Vec<u32> {
    let mut facts = vec![];
    for (moment, state) in states.iter().enumerate() {
        for (fluent, known) in state.iter().enumerate() {
            facts.extend(known.map(|value| fact_word(layout, moment, fluent, value)));
        }
    }
    facts
}

/// "Fact word, kind 10: 12..7 moment, 6..1 fluent, bit 0 (0 true, 1 false)"; L6: "its moment in 14..9, fluent in 8..1,
/// value in bit 0".
fn fact_word(layout: &Layout, moment: usize, fluent: usize, value: bool) -> u32 {
    10 << 28 | (moment as u32) << layout.moment.1 | (fluent as u32) << layout.fact.1 | u32::from(!value)
}

/// Row 11, "not the list of the rules": "first difference; if one list begins the other, the shorter length".
pub fn row_11(right: &[u32], given: &[u32]) -> Result<(), Refusal> {
    if right == given {
        return Ok(());
    }
    let shorter = right.len().min(given.len());
    let difference = (0..shorter).find(|&position| right[position] != given[position]);
    refuse(11, difference.unwrap_or(shorter))
}
