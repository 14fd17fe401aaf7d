//! Document 01: "A formula has three values: holds, fails, open." Document 02, L7, "Has held for a while": a value
//! "depends on the states up to t and no more on one state".

use crate::oracle::facts::State;
use crate::oracle::job::{Formula, Job};

/// "in the order fails < open < holds"
#[derive(Clone, Copy, Debug, PartialEq, Eq, PartialOrd, Ord)]
pub enum Value {
    Fails,
    Open,
    Holds,
}

/// The values of all the job's formulas at the moments of these states: by moment, then by formula number. Those of a
/// moment go by its state and by the values of the moments before it.
pub fn values(job: &Job, states: &[State]) -> Vec<Vec<Value>> {
    let mut past = vec![];
    for state in states {
        let now = values_now(job, state, &past);
        past.push(now);
    }
    past
}

fn values_now(job: &Job, state: &State, past: &[Vec<Value>]) -> Vec<Value> {
    let mut now = vec![];
    for &formula in &job.formulas {
        let value = match formula {
            Formula::Held { x, moments } => held(moments, past.len(), &|t| past.get(t).unwrap_or(&now)[x]),
            of_state => value_of(of_state, state, &now),
        };
        now.push(value);
    }
    now
}

/// "At t its value is 'and' taken over the values of X at t − Y to t, oldest first, counting moments before 0 as open."
fn held(y: usize, t: usize, x_at: &dyn Fn(usize) -> Value) -> Value {
    let ago = |moments: usize| t.checked_sub(moments).map_or(Value::Open, x_at);
    let mut value = ago(y);
    for moments in (0..y).rev() {
        value = value.min(ago(moments));
    }
    value
}

/// The forms of one state. "A fluent holds if known true, fails if known false. Not swaps holds and fails.
/// And is the lesser, or the greater".
pub fn value_of(formula: Formula, state: &State, lower: &[Value]) -> Value {
    match formula {
        Formula::Always => Value::Holds,
        Formula::Fluent(fluent) => match state[fluent] {
            Some(true) => Value::Holds,
            Some(false) => Value::Fails,
            None => Value::Open,
        },
        Formula::Not(x) => match lower[x] {
            Value::Holds => Value::Fails,
            Value::Fails => Value::Holds,
            Value::Open => Value::Open,
        },
        Formula::And(x, y) => lower[x].min(lower[y]),
        Formula::Or(x, y) => lower[x].max(lower[y]),
        Formula::Held { .. } => unreachable!("form 5 has no value by one state"),
    }
}
