//! Ordinary doors, narrow and wide.
use super::nodes::Nodes;
use crate::plans::{lawful, Plan};
use crate::words::{action, condition, formula, head, initially, law, node, start, wide_initially, widened, FLUENTS};

fn doors() -> [(&'static str, (Vec<u32>, Vec<u32>)); 2] {
    [("door, sets after the loop", door()), ("door, sets in the loop", door_of_passes())]
}

pub fn narrow() -> [Plan; 2] {
    doors().map(|(name, (job, starts))| lawful(name, job, starts))
}

pub fn wide() -> Vec<Plan> {
    let plan = |(name, door)| {
        let (job, starts) = wide_door(door);
        lawful(format!("wide {name}"), job, starts)
    };
    doors().map(plan).into()
}

/// The door with a wide head and 256 fluents, its own the last of them; the others are known at 0 and stay. Then checking the job and 16,384
/// facts, which the yardstick does not do, counts most.
fn wide_door((job, starts): (Vec<u32>, Vec<u32>)) -> (Vec<u32>, Vec<u32>) {
    let mut job = widened(&job);
    job.splice(1..1, (0..FLUENTS - 1).map(|f| wide_initially(f, true)));
    (job, starts)
}

/// Fluent 0 is true until action 1 makes it false; formula 0 says that it is, formula 1 always holds. Actions 2 and 3 are those of sets.
fn before_nodes() -> Vec<u32> {
    let actions = [action(0, 1), action(1, 1), law(3, 0), action(2, 2), action(3, 3)];
    let formulas = [formula(1, 0, 0), formula(0, 0, 0)];
    [&[head(1, 4, 63), initially(0, true)], &actions[..], &formulas].concat()
}

/// 40 nodes, n = 63: ten passes while fluent 0 is true, eight task sets of two acts side by side, a wait to the last moment.
fn door() -> (Vec<u32>, Vec<u32>) {
    let mut nodes = Nodes::after(before_nodes());
    let pass = nodes.act(0);
    let mut whole = nodes.add(node(5, 0, pass, 0, 0), &[]);
    for _ in 0..8 {
        let members = [nodes.act(2), nodes.act(3)];
        let set = nodes.set(&members, &[]);
        whole = nodes.sequence(whole, set);
    }
    let wait = nodes.window(1, 63);
    whole = nodes.sequence(whole, wait);
    let other = nodes.act(0);
    nodes.add(node(3, whole, other, 0, 0), &[]);
    let mut starts: Vec<u32> = (0..10).map(|u| start(u, 0)).collect();
    starts.push(start(9, 1));
    starts.extend((0..8).flat_map(|i| [2, 3].map(|a| start(10 + 3 * i, a))));
    (nodes.words, starts)
}

/// 16 nodes, n = 63: twelve passes of five moments while fluent 0 is true, each an act, a set of two acts side by side with a condition,
/// and a set of an act and a test; then a wait to the last moment.
fn door_of_passes() -> (Vec<u32>, Vec<u32>) {
    let mut nodes = Nodes::after(before_nodes());
    let first = nodes.act(0);
    let bends = [nodes.act(2), nodes.act(3)];
    let bent = nodes.set(&bends, &[condition(0, 0, 0, 1, 0, 0)]);
    let measured = [nodes.act(0), nodes.test(1)];
    let measures = nodes.set(&measured, &[condition(1, 0, 0, 1, 0, 0), condition(3, 1, 0, 0, 0, 0)]);
    let half = nodes.sequence(first, bent);
    let pass = nodes.sequence(half, measures);
    let passes = nodes.add(node(5, 0, pass, 0, 0), &[]);
    let wait = nodes.window(1, 63);
    let whole = nodes.sequence(passes, wait);
    let other = nodes.act(0);
    nodes.add(node(3, whole, other, 0, 0), &[]);
    let pass_starts = |u: usize| [start(u, 0), start(u + 1, 2), start(u + 1, 3), start(u + 4, 0)];
    let mut starts: Vec<u32> = (0..12).flat_map(|pass| pass_starts(5 * pass)).collect();
    starts.push(start(59, 1));
    (nodes.words, starts)
}
