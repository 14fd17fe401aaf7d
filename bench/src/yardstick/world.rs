//! What the nodes are read from: the moments at which actions start and at which formulas hold and fail.
use crate::masks::{each, range, upto};
use crate::words::field;
use crate::yardstick::job::{Formula, Job};

pub struct World {
    /// By action.
    pub starts: Vec<u64>,
    /// Of any action.
    pub all_starts: u64,
    /// By formula.
    pub holds: Vec<u64>,
    pub fails: Vec<u64>,
}

/// The moments at which a fluent is hidden, made true and made false by the starts of a plan.
#[derive(Clone, Copy, Default)]
struct Changes {
    hidden: u64,
    made_true: u64,
    made_false: u64,
}

pub fn world(job: &Job, start_words: &[u32]) -> World {
    let mut starts = vec![0; job.actions.len()];
    let mut changes = vec![Changes::default(); job.initially.len()];
    for &word in start_words {
        let (moment, number) = (field(word, 11, 6), field(word, 5, 0));
        starts[number] |= 1 << moment;
        let action = &job.actions[number];
        let end = moment + action.duration;
        for &(fluent, value) in &action.makes {
            let change = &mut changes[fluent];
            change.hidden |= range(moment + 1, end - 1);
            *if value { &mut change.made_true } else { &mut change.made_false } |= 1 << end;
        }
    }
    let known: Vec<(u64, u64)> =
        job.initially.iter().zip(changes).map(|(&first, changes)| known(job.last, first, changes)).collect();
    let (holds, fails) = values(job, &known);
    let all_starts = starts.iter().fold(0, |all, moments| all | moments);
    World { starts, all_starts, holds, fails }
}

/// The moments at which a fluent is known true, and false. Its value changes only where it is hidden or made.
fn known(last: usize, first: Option<bool>, changes: Changes) -> (u64, u64) {
    let (mut trues, mut falses) = (0, 0);
    let mut value = first;
    let mut since = 0;
    for t in each(changes.hidden | changes.made_true | changes.made_false) {
        add(&mut trues, &mut falses, value, since, t - 1);
        since = t;
        value = match () {
            _ if changes.hidden >> t & 1 == 1 => None,
            _ => Some(changes.made_true >> t & 1 == 1),
        };
    }
    add(&mut trues, &mut falses, value, since, last);
    (trues, falses)
}

fn add(trues: &mut u64, falses: &mut u64, value: Option<bool>, since: usize, until: usize) {
    match value {
        Some(true) => *trues |= range(since, until),
        Some(false) => *falses |= range(since, until),
        None => {}
    }
}

/// The moments at which each formula holds, and fails.
fn values(job: &Job, known: &[(u64, u64)]) -> (Vec<u64>, Vec<u64>) {
    let (mut holds, mut fails): (Vec<u64>, Vec<u64>) = (vec![], vec![]);
    for &Formula { form, x, y } in &job.formulas {
        let (held, failed) = match form {
            0 => (upto(job.last), 0),
            1 => known[x],
            2 => (fails[x], holds[x]),
            3 => (holds[x] & holds[y], fails[x] | fails[y]),
            4 => (holds[x] | holds[y], fails[x] & fails[y]),
            _ => held(job.last, holds[x], fails[x], y),
        };
        holds.push(held);
        fails.push(failed);
    }
    (holds, fails)
}

/// The moments at which X has held at all of t - back to t, and at which it fails at one of them. Before 0 it does neither.
fn held(last: usize, holds: u64, fails: u64, back: usize) -> (u64, u64) {
    let both = |(held, failed): (u64, u64), ago: usize| (held & holds << ago, failed | fails << ago);
    let (held, failed) = (0..=back).fold((u64::MAX, 0), both);
    (held, failed & upto(last))
}
