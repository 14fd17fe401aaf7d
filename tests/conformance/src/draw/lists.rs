//! Damage to lawful starts and right fact lists.

use crate::draw::draft::Draft;
use crate::random::Random;
use crate::words::{self, field};

/// Starts with one or two of these damages: one more start, or one moved, left out, changed, out of order or beyond a
/// limit.
pub fn starts(random: &mut Random, list: &[u32], draft: &Draft) -> Vec<u32> {
    let mut list = one_start(random, list, draft);
    if random.chance(25) {
        list = one_start(random, &list, draft);
    }
    list
}

fn one_start(random: &mut Random, list: &[u32], draft: &Draft) -> Vec<u32> {
    match random.below(12) {
        0..=5 => another_start(random, list, draft),
        6 => restarted(random, list),
        7 => moved(random, list, draft.last),
        8 => without(random, list),
        9 => changed(random, list),
        10 => disordered(random, list),
        _ => beyond_limits(random, list, draft.last, draft.actions.len()),
    }
}

/// The list with one more word, in its order.
pub fn put_in(list: &[u32], word: u32) -> Vec<u32> {
    let mut list = list.to_vec();
    let place = list.iter().position(|&other| other >= word).unwrap_or(list.len());
    list.insert(place, word);
    list
}

/// One more start, in its order: late, too soon, clashing, without its needs, or lawful by luck.
fn another_start(random: &mut Random, list: &[u32], draft: &Draft) -> Vec<u32> {
    let action = random.below(draft.actions.len());
    let duration = field(draft.actions[action][0], 5, 0);
    let latest = match random.chance(80) {
        true => draft.last.saturating_sub(duration),
        false => draft.last,
    };
    let word = words::start(random.below(latest + 1), action);
    if list.contains(&word) && random.chance(80) {
        return list.to_vec();
    }
    put_in(list, word)
}

/// One more start of an action of the plan, a little later than a start of it.
fn restarted(random: &mut Random, list: &[u32]) -> Vec<u32> {
    if list.is_empty() {
        return list.to_vec();
    }
    let word = *random.pick(list);
    let later = field(word, 11, 6) + random.between(1, 4);
    put_in(list, words::start(later.min(63), field(word, 5, 0)))
}

/// A start moved one moment, or to any moment.
fn moved(random: &mut Random, list: &[u32], last: usize) -> Vec<u32> {
    let mut list = list.to_vec();
    if list.is_empty() {
        return list;
    }
    let word = list.remove(random.below(list.len()));
    let moment = field(word, 11, 6);
    let other = match random.below(3) {
        0 => moment + 1,
        1 => moment.saturating_sub(1),
        _ => random.below(last + 1),
    };
    put_in(&list, words::start(other.min(63), field(word, 5, 0)))
}

/// Without one start, or without all but the first ones.
fn without(random: &mut Random, list: &[u32]) -> Vec<u32> {
    let mut list = list.to_vec();
    if !list.is_empty() {
        let place = random.below(list.len());
        match random.below(4) {
            0 => list.truncate(place),
            _ => drop(list.remove(place)),
        }
    }
    list
}

/// A start taken out or moved, the list still ascending.
pub fn changed_order_kept(random: &mut Random, list: &[u32]) -> Vec<u32> {
    match random.below(2) {
        0 => without(random, list),
        _ => moved(random, list, 63),
    }
}

/// One bit of one word flipped, or one word replaced.
pub fn changed(random: &mut Random, list: &[u32]) -> Vec<u32> {
    let mut list = list.to_vec();
    if !list.is_empty() {
        let place = random.below(list.len());
        list[place] = match random.below(4) {
            0 => random.word(),
            _ => list[place] ^ 1 << random.below(32),
        };
    }
    list
}

/// Two words exchanged, or one doubled.
pub fn disordered(random: &mut Random, list: &[u32]) -> Vec<u32> {
    let mut list = list.to_vec();
    if !list.is_empty() {
        let one = random.below(list.len());
        match random.below(3) {
            0 => list.insert(one, list[one]),
            1 => {
                let next = (one + 1) % list.len();
                list.swap(one, next);
            }
            _ => {
                let other = random.below(list.len());
                list.swap(one, other);
            }
        }
    }
    list
}

/// A start just above n, of the first action that isn't there, with a spare bit or of another kind.
fn beyond_limits(random: &mut Random, list: &[u32], last: usize, actions: usize) -> Vec<u32> {
    let moment = random.below(last + 1);
    let action = random.below(actions);
    let word = match random.below(4) {
        0 => words::start((last + 1).min(63), action),
        1 => words::start(moment, actions.min(63)),
        2 => words::start(moment, action) | 1 << random.between(12, 27),
        _ => words::start(moment, action) ^ 1 << random.between(28, 31),
    };
    match random.chance(50) {
        true => put_in(list, word),
        false => [list, &[word]].concat(),
    }
}

/// A fact list wrong in some way: a word missing, extra, changed, out of order; none; or very many.
pub fn facts(random: &mut Random, list: &[u32], draft: &Draft) -> Vec<u32> {
    match random.below(13) {
        0 => vec![],
        1 => without(random, list),
        2 => changed(random, list),
        3 => disordered(random, list),
        4 => other_value(random, list),
        5 => [list, &[any_fact(random, draft)]].concat(),
        6 => [list, &[random.word()]].concat(),
        7 => list[..list.len().saturating_sub(1)].to_vec(),
        8 => random.words(5),
        9 if random.chance(10) => very_long(random, list, 70_000),
        _ => {
            let fact = any_fact(random, draft);
            put_in(list, fact)
        }
    }
}

/// A fact word of the job's layout, of any of its moments and fluents.
fn any_fact(random: &mut Random, draft: &Draft) -> u32 {
    let (moment, value) = (random.below(draft.last + 1), random.chance(50));
    match &draft.wide {
        Some(wide) => words::wide_fact(moment, random.below(wide.fluents), value),
        None => words::fact(moment, random.below(draft.fluents), value),
    }
}

/// One fact turned about.
fn other_value(random: &mut Random, list: &[u32]) -> Vec<u32> {
    let mut list = list.to_vec();
    if !list.is_empty() {
        let place = random.below(list.len());
        list[place] ^= 1;
    }
    list
}

/// A right list followed by very many words, or very many words alone.
fn very_long(random: &mut Random, list: &[u32], length: usize) -> Vec<u32> {
    let mut long = if random.chance(50) { list.to_vec() } else { vec![] };
    let word = long.last().copied().unwrap_or(random.word());
    long.resize(length, word);
    long
}
