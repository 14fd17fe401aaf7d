//! Draws of sets that could be slow, and changes of them.
use super::set::{Condition, Set, Span};
use crate::masks::{from, range, upto};

const LAST: usize = 63;

/// With four members of three spans there are as many fluents as 64 actions can make true and false.
const SPANS: usize = 3;
const FORMULAS: usize = 6;
const CONDITIONS: usize = 8;

/// A seeded generator of numbers (splitmix64): a seed gives the same draws on every machine.
pub struct Random(pub u64);

impl Random {
    fn number(&mut self) -> u64 {
        self.0 = self.0.wrapping_add(0x9e37_79b9_7f4a_7c15);
        let mut z = self.0;
        z = (z ^ (z >> 30)).wrapping_mul(0xbf58_476d_1ce4_e5b9);
        z = (z ^ (z >> 27)).wrapping_mul(0x94d0_49bb_1331_11eb);
        z ^ (z >> 31)
    }

    /// One of 0 .. bound - 1; the bound is above 0.
    pub fn below(&mut self, bound: usize) -> usize {
        (self.number() % bound as u64) as usize
    }

    fn pick<'a, T>(&mut self, of: &'a [T]) -> &'a T {
        &of[self.below(of.len())]
    }
}

pub fn set(random: &mut Random) -> Set {
    let count = *random.pick(&[3, 4, 4, 4, 4]);
    let members = (0..count).map(|_| member(random)).collect();
    let conditions = (0..random.below(CONDITIONS + 1)).map(|_| condition(random, count)).collect();
    let moments = (0..FORMULAS).map(|_| moments(random)).collect();
    Set { members, conditions, moments }
}

fn moments(random: &mut Random) -> u64 {
    let t = random.below(LAST + 1);
    match random.below(14) {
        0..=2 => u64::MAX,
        3 => upto(t),
        4 => from(t),
        5 => random.number(),
        6 => random.number() | random.number(),
        7 => random.number() & random.number(),
        8 => 0x5555_5555_5555_5555 << random.below(2),
        9 => 1 << t,
        10 => 1 << LAST,
        11 => upto(LAST - 1),
        12 => !(1 << t),
        _ => range(t.saturating_sub(random.below(20)), t),
    }
}

/// A number for a window: mostly an edge.
fn number(random: &mut Random) -> usize {
    let t = random.below(LAST + 1);
    *random.pick(&[0, 0, 1, 1, LAST, LAST, t, t, t.min(8)])
}

fn window(random: &mut Random) -> (usize, usize) {
    let (one, other) = (number(random), number(random));
    (one.min(other), one.max(other))
}

fn span(random: &mut Random) -> Span {
    let (least, most) = window(random);
    match random.below(5) {
        0 => Span { begins: moments(random), ends: u64::MAX, least: 0, most: 0 },
        1 => Span { begins: moments(random), ends: moments(random), least, most },
        2 => Span { begins: u64::MAX, ends: moments(random), least: 0, most: LAST },
        3 => Span { begins: moments(random), ends: 1 << LAST, least: 0, most: LAST },
        _ => Span { begins: moments(random), ends: moments(random), least: 0, most: LAST },
    }
}

fn member(random: &mut Random) -> Vec<Span> {
    (0..*random.pick(&[1, 1, 1, 2, 2, SPANS])).map(|_| span(random)).collect()
}

fn condition(random: &mut Random, members: usize) -> Condition {
    let (i, j, formula) = (random.below(members), random.below(members), random.below(FORMULAS));
    let (m, n) = window(random);
    match *random.pick(&[0, 0, 1, 1, 1, 2, 3, 4, 4]) {
        form @ (0 | 1) => [form, 0, i, j, m, n],
        form @ (2 | 3) => [form, formula, i, 0, m, n],
        form => [form, formula, i, j, number(random), number(random)],
    }
}

/// The set with one to three changes.
pub fn changed(random: &mut Random, set: &Set) -> Set {
    let mut set = set.clone();
    for _ in 0..*random.pick(&[1, 1, 1, 2, 2, 3]) {
        change(random, &mut set);
    }
    set
}

fn change(random: &mut Random, Set { members, conditions, moments: held }: &mut Set) {
    let formula = random.below(FORMULAS);
    let i = random.below(members.len());
    match random.below(12) {
        0 => held[formula] = moments(random),
        1 => members[i] = member(random),
        2 => {
            let which = random.below(members[i].len());
            members[i][which] = span(random);
        }
        3 if members[i].len() < SPANS => members[i].push(span(random)),
        4 if members[i].len() > 1 => {
            members[i].pop();
        }
        5 => {
            let j = random.below(members.len());
            members.swap(i, j);
        }
        6 => members[i] = random.pick(members).clone(),
        _ => change_conditions(random, members.len(), conditions),
    }
}

fn change_conditions(random: &mut Random, members: usize, conditions: &mut Vec<Condition>) {
    let drawn = condition(random, members);
    if conditions.len() < CONDITIONS && random.below(100) < 40 || conditions.is_empty() {
        return conditions.push(drawn);
    }
    let which = random.below(conditions.len());
    match random.below(4) {
        0 => {
            conditions.remove(which);
        }
        1 => change_window(random, &mut conditions[which]),
        _ => conditions[which] = drawn,
    }
}

fn change_window(random: &mut Random, condition: &mut Condition) {
    condition[4 + random.below(2)] = number(random);
    if condition[0] < 4 && condition[4] > condition[5] {
        condition.swap(4, 5);
    }
}
