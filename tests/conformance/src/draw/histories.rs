//! Plans by what is known of each fluent at each moment: the actions and starts that make it so.

use crate::draw::draft::{Draft, Drawn};
use crate::oracle::formulas::Value;
use crate::random::Random;
use crate::words;

/// The longest time for which a drawn fluent is open after it was known. Each length takes an action of its own.
const LONGEST_OPEN: usize = 6;

/// A lawful plan up to that moment, without formulas and nodes: one to four fluents with drawn histories, and one to
/// three actions without laws.
pub fn plan(random: &mut Random, last: usize) -> Drawn {
    let mut drawn = Drawn { draft: Draft { last, ..Draft::default() }, starts: vec![] };
    for _ in 0..random.between(1, 3) {
        add_free_action(random, &mut drawn);
    }
    for _ in 0..random.between(1, 4) {
        let history = history(random, last);
        add_fluent(&mut drawn, &history);
    }
    drawn.starts.sort();
    drawn
}

/// An action without laws, started now and then.
fn add_free_action(random: &mut Random, drawn: &mut Drawn) {
    let (number, duration) = (drawn.draft.actions.len(), random.between(1, 3));
    drawn.draft.actions.push(vec![words::action(number, duration)]);
    let eagerness = *random.pick(&[0, 30, 70, 100]);
    let mut next = 0;
    while next + duration <= drawn.draft.last {
        let started = random.chance(eagerness);
        if started {
            drawn.starts.push(words::start(next, number));
        }
        next += if started { duration } else { 1 };
    }
}

/// The values of a fluent at the moments 0 to n, such as a plan can make: what a start hides is known at its finish.
fn history(random: &mut Random, last: usize) -> Vec<Value> {
    let mut history = match random.chance(30) {
        true => one_other(random, last),
        false => runs(random, last),
    };
    let mut open = 0;
    for value in history.iter_mut().skip(1) {
        open = if *value == Value::Open { open + 1 } else { 0 };
        if open > LONGEST_OPEN {
            *value = Value::Holds;
            open = 0;
        }
    }
    if history[last] == Value::Open && history.iter().any(|&value| value != Value::Open) {
        history[last] = Value::Holds;
    }
    history
}

/// One value at all moments but one.
fn one_other(random: &mut Random, last: usize) -> Vec<Value> {
    let mut history = vec![*random.pick(&[Value::Holds, Value::Holds, Value::Fails]); last + 1];
    history[random.below(last + 1)] = *random.pick(&[Value::Holds, Value::Fails, Value::Open]);
    history
}

/// Known for a while, often for long, and open for a few moments between.
fn runs(random: &mut Random, last: usize) -> Vec<Value> {
    let longest = *random.pick(&[2, 3, 6, 12, 64]);
    let mut history = vec![];
    while history.len() <= last {
        let (value, most) = match random.below(7) {
            0..=2 => (Value::Holds, longest),
            3..=5 => (Value::Fails, longest),
            _ => (Value::Open, 3),
        };
        history.extend(vec![value; random.between(1, most)]);
    }
    history.truncate(last + 1);
    history
}

/// One more fluent with this history: a start finishes wherever its value becomes known or turns, and hides it before.
fn add_fluent(drawn: &mut Drawn, history: &[Value]) {
    let fluent = drawn.draft.fluents;
    drawn.draft.fluents += 1;
    if history[0] != Value::Open {
        drawn.draft.initially.push(words::initially(fluent, history[0] == Value::Holds));
    }
    for finish in (1..history.len()).filter(|&t| history[t] != Value::Open && history[t] != history[t - 1]) {
        let known_before = (0..finish).rev().find(|&t| history[t] != Value::Open);
        let duration = known_before.map_or(1, |t| finish - t);
        let law = words::law(2 + usize::from(history[finish] == Value::Fails), fluent);
        let action = action(&mut drawn.draft.actions, duration, law);
        drawn.starts.push(words::start(finish - duration, action));
    }
}

/// The number of the action that lasts so long and has this law alone, which is added unless it is there.
fn action(actions: &mut Vec<Vec<u32>>, duration: usize, law: u32) -> usize {
    let with = |number| vec![words::action(number, duration), law];
    let there = (0..actions.len()).find(|&number| actions[number] == with(number));
    there.unwrap_or_else(|| {
        actions.push(with(actions.len()));
        actions.len() - 1
    })
}
