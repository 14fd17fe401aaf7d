//! Sets within sets, and sets within a loop.
use super::nodes::Nodes;
use crate::plans::{lawful, Plan};
use crate::words::{action, condition, formula, head, initially, law, node, start};

/// With eight sets of four there is room for so many spans, which are three nodes each.
const SPANS: usize = 15;

pub fn plans() -> Vec<Plan> {
    let plan = |name: &str, (job, starts): (Vec<u32>, Vec<u32>)| lawful(name, job, starts);
    // the last member begins before the second, ends by the begin of the first, and not at 63
    let bound = [condition(0, 0, 3, 1, 0, 63), condition(3, 0, 3, 0, 1, 1), condition(1, 0, 3, 0, 0, 63)];
    let later = [condition(0, 0, 2, 1, 1, 63), condition(0, 0, 1, 3, 1, 63)];
    let alone: Vec<u32> = (0..8).map(|c| condition(2 + c % 2, 1, c / 2 % 2, 0, 0, 0)).collect();
    let together: Vec<u32> = (0..8).map(|c| condition(4, 1, c % 2, (c + 1) % 2, 0, 0)).collect();
    vec![
        plan("eight nested sets of four, acts", nested(0, 0, &[])),
        plan("eight nested sets of four, ends up to b + 1, begins in order", nested(1, 1, &later)),
        plan("eight nested sets of four, ends up to b + 3", nested(2, 3, &[])),
        plan("eight nested sets of four, all ends, the last member by the first", nested(2, 63, &bound)),
        plan("62 sets of one with 8 conditions", sets_of_one(false)),
        plan("62 sets of one with 8 conditions, in a loop", sets_of_one(true)),
        plan("a set of two in a loop, 8 conditions on one member each", set_of_two(&alone)),
        plan("a set of two in a loop, 8 conditions on both members", set_of_two(&together)),
    ]
}

/// Eight sets of four, each within the next. The other members are spans with ends up to b + span, so many a set while there is room,
/// and acts that start at every moment.
fn nested(spans: usize, span: usize, conditions: &[u32]) -> (Vec<u32>, Vec<u32>) {
    let mut nodes = Nodes::after(vec![head(1, 1, 63), action(0, 1), formula(0, 0, 0)]);
    let mut room = SPANS;
    let mut inside = nodes.act(0);
    for _ in 0..8 {
        let wide = spans.min(room);
        room -= wide;
        let mut members = vec![inside];
        members.extend((0..wide).map(|_| nodes.span(0, span)));
        members.extend((wide..3).map(|_| nodes.act(0)));
        inside = nodes.set(&members, conditions);
    }
    (nodes.words, (0..63).map(|u| start(u, 0)).collect())
}

/// An act within 62 sets, each of which has eight conditions that it meets; alone, or as the body of a loop.
fn sets_of_one(looped: bool) -> (Vec<u32>, Vec<u32>) {
    let (mut nodes, starts) = before_loop();
    let mut conditions = vec![condition(0, 0, 0, 0, 0, 63), condition(2, 1, 0, 0, 0, 0), condition(3, 1, 0, 0, 0, 0)];
    conditions.extend((0..5).map(|c| condition(4, 1, 0, 0, c, c)));
    let mut inside = nodes.act(0);
    for _ in 0..62 {
        inside = nodes.set(&[inside], &conditions);
    }
    if looped {
        nodes.add(node(5, 0, inside, 0, 0), &[]);
    }
    (nodes.words, starts)
}

/// Two acts in a set, as the body of a loop.
fn set_of_two(conditions: &[u32]) -> (Vec<u32>, Vec<u32>) {
    let (mut nodes, starts) = before_loop();
    let members = [nodes.act(0), nodes.act(0)];
    let set = nodes.set(&members, conditions);
    nodes.add(node(5, 0, set, 0, 0), &[]);
    (nodes.words, starts)
}

/// For a loop of 63 passes: action 0 starts at every moment but the last, and formula 0 holds at these; formula 1 holds always.
fn before_loop() -> (Nodes, Vec<u32>) {
    let formulas = [formula(1, 0, 0), formula(0, 0, 0)];
    let actions = [action(0, 1), action(1, 1), law(3, 0)];
    let mut starts: Vec<u32> = (0..63).map(|u| start(u, 0)).collect();
    starts.push(start(62, 1));
    (Nodes::after([&[head(1, 2, 63), initially(0, true)], &actions[..], &formulas].concat()), starts)
}
