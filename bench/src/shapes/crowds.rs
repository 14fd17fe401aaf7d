//! Task sets of four members that read between many moments, with conditions that could make a search long.
use super::nodes::Nodes;
use crate::plans::{lawful, Plan};
use crate::words::{action, condition, formula, head, node};

type Crowd = (&'static str, usize, Vec<u32>);

/// The place among the crowds of the one that find takes longest on.
const LONGEST: usize = 4;

pub fn plans() -> Vec<Plan> {
    crowds().into_iter().chain(contradictions()).map(|crowd| plan(1, crowd)).collect()
}

/// A job of four sets, of which each is the crowd that takes the longest.
pub fn four_sets() -> Plan {
    plan(4, crowds().swap_remove(LONGEST))
}

/// So many sets of four members, and a choice of them where there is more than one.
fn plan(sets: usize, (name, span, conditions): Crowd) -> Plan {
    let mut nodes = Nodes::after(before_nodes());
    let mut root = add_crowd(&mut nodes, span, &conditions);
    for _ in 1..sets {
        let set = add_crowd(&mut nodes, span, &conditions);
        root = nodes.add(node(3, root, set, 0, 0), &[]);
    }
    let count = if sets == 1 { String::new() } else { format!("{sets} sets of ") };
    lawful(format!("{count}four members, {name}"), nodes.words, vec![])
}

/// Formula 0 holds always, 1 never.
fn before_nodes() -> Vec<u32> {
    vec![head(1, 1, 63), action(0, 1), formula(0, 0, 0), formula(2, 0, 0)]
}

/// A task set of four members, each of which reads from b to e for all b ≤ e ≤ 63 with e ≤ b + span.
fn add_crowd(nodes: &mut Nodes, span: usize, conditions: &[u32]) -> usize {
    let members: Vec<usize> = (0..4).map(|_| nodes.window(0, span)).collect();
    nodes.set(&members, conditions)
}

/// Member i does not end at 63.
fn before_the_end(i: usize) -> u32 {
    condition(3, 0, i, 0, 1, 1)
}

/// Member i ends after the begin of j.
fn after_begin(i: usize, j: usize) -> u32 {
    condition(4, 1, i, j, 0, 0)
}

fn crowds() -> Vec<Crowd> {
    // met always, by an empty range
    let idle: Vec<u32> = (0..8).map(|c| condition(4, 0, c % 4, 3, 63, 63)).collect();
    let none_last = (0..4).map(before_the_end).chain(idle[..4].iter().copied()).collect();
    let last_after = (0..4).map(before_the_end).chain((0..4).map(|j| after_begin(3, j))).collect();
    let upto_first = (1..4).map(|i| condition(1, 0, i, 0, 0, 63)).chain([before_the_end(0)]).collect();
    let ordered =
        vec![condition(0, 0, 3, 0, 0, 63), condition(0, 0, 0, 1, 1, 63), before_the_end(1), before_the_end(2)];
    vec![
        ("all placements", 63, vec![]),
        ("all placements, 8 idle conditions", 63, idle.clone()),
        ("ends up to b + 3", 3, vec![]),
        ("ends up to b + 3, 8 idle conditions", 3, idle.clone()),
        ("ends up to b + 8, 8 idle conditions", 8, idle.clone()),
        ("ends up to b + 15, 8 idle conditions", 15, idle),
        ("no end at 63", 63, none_last),
        ("no end at 63, the last member after all begins", 63, last_after),
        ("the last member after all begins, twice", 63, (0..8).map(|c| after_begin(3, c % 4)).collect()),
        ("each member after the next begins", 63, (0..8).map(|c| after_begin(c % 4, (c + 1 + c / 4) % 4)).collect()),
        ("the others end by the begin of the first", 63, upto_first),
        ("begins in order", 63, ordered),
        ("a begin after itself", 63, vec![condition(0, 0, 3, 3, 5, 63)]),
    ]
}

/// Conditions that no placement meets.
fn contradictions() -> Vec<Crowd> {
    let before = |i: usize, j: usize| condition(0, 0, i, j, 1, 63);
    let by_begin = |i: usize, j: usize| condition(1, 0, i, j, 1, 63);
    vec![
        ("b0 before b3, b3 before b0", 63, vec![before(0, 3), before(3, 0)]),
        ("b0 before b1, b1 before b2, b2 before b0", 63, vec![before(0, 1), before(1, 2), before(2, 0)]),
        ("each begins before the next, in a ring", 63, (0..4).map(|i| before(i, (i + 1) % 4)).collect()),
        ("e0 before b3, e3 before b0", 63, vec![by_begin(0, 3), by_begin(3, 0)]),
        ("each ends before the next begins, in a ring", 63, (0..4).map(|i| by_begin(i, (i + 1) % 4)).collect()),
        ("b0 before b3, b3 before b0, ends up to b + 3", 3, vec![before(0, 3), before(3, 0)]),
    ]
}
