//! Request L2, "Waiting means quiet": an end window is read with "no start of any action at k ≤ t < m".

use crate::draw::draft::{Draft, Drawn};
use crate::draw::{damage, waits};
use crate::features::{met, readings, Feature, Seen};
use crate::oracle::job::Node;
use crate::oracle::plan::read_plan;
use crate::oracle::readings::decision::{decide, Decision};
use crate::oracle::readings::world::World;
use crate::random::Random;
use crate::words::{self, form};
use std::collections::BTreeSet;

pub const FEATURE: Feature = Feature {
    draw,
    add,
    spoil,
    damage: damage::any,
    tiny,
    situations,
    needed: &[
        ("a pause of 0, a start at k", &[0, 13]),
        ("a pause of 1, a start at k alone", &[0, 13]),
        ("a pause of 1, a start at m alone", &[0, 13]),
        ("a longer pause, a start at k alone", &[0, 13]),
        ("a longer pause, a start inside alone", &[0, 13]),
        ("a longer pause, a start at m - 1 alone", &[0, 13]),
        ("a longer pause, a start at m alone", &[0, 13]),
        ("a start at k - 1", &[0, 13]),
        ("a start in hand throughout a quiet pause", &[0, 13]),
        ("a pause of 40 moments or more", &[0, 13]),
        ("disturbed by an action that no node names", &[0, 13]),
        ("disturbed by an action of X", &[0, 13]),
        ("disturbed by an action of Y", &[0, 13]),
        ("disturbed by action 63 alone", &[13]),
        ("disturbed before k + M alone", &[0, 13]),
        ("a disturbed pause in a loop", &[0, 13]),
        ("a disturbed pause in an end window", &[0, 13]),
        ("a disturbed pause in a set", &[0, 13]),
        ("a disturbed pause in a branch", &[0, 13]),
    ],
};

fn draw(random: &mut Random) -> Drawn {
    let mut drawn = waits::carried_out(random);
    let more = *random.pick(&[0, 0, 1, 1, 2]);
    (0..more).for_each(|_| disturb(random, &mut drawn));
    drawn
}

/// Some start windows become end windows, and starts are added at the edges of pauses.
fn add(random: &mut Random, drawn: &mut Drawn) {
    for node in &mut drawn.draft.nodes {
        if form(node[0]) == 6 && random.chance(50) {
            node[0] += 1 << 24;
        }
    }
    (0..2).for_each(|_| disturb(random, drawn));
}

fn spoil(random: &mut Random, drawn: &mut Drawn) {
    let before = drawn.starts.clone();
    if random.chance(80) {
        disturb(random, drawn);
    }
    if drawn.starts == before {
        (readings::FEATURE.spoil)(random, drawn);
    }
}

/// One more start of any action at an edge of a pause, if the draw gives one that is lawful.
fn disturb(random: &mut Random, drawn: &mut Drawn) {
    let Ok(plan) = read_plan(&drawn.draft.words(), &drawn.starts) else { return };
    let world = World::new(&plan);
    let Some(decision) = decide(&world) else { return };
    let pauses = pauses(&world, &decision);
    for _ in 0..4 {
        let (k, m) = if pauses.is_empty() { (0, world.last()) } else { random.pick(&pauses).moments };
        let inside = random.between(k, m);
        let moment = *random.pick(&[k.saturating_sub(1), k, inside, m.saturating_sub(1), m, m + 1]);
        let actions = drawn.draft.actions.len();
        let action = if random.chance(40) { actions - 1 } else { random.below(actions) };
        let start = words::start(moment.min(63), action);
        let starts: BTreeSet<u32> = drawn.starts.iter().copied().chain([start]).collect();
        let starts: Vec<u32> = starts.into_iter().collect();
        if starts.len() > drawn.starts.len() && read_plan(&drawn.draft.words(), &starts).is_ok() {
            drawn.starts = starts;
            return;
        }
    }
}

/// Where an end window may wait if it is quiet: from an end k of X to a begin m of Y.
struct Pause {
    window: usize,
    moments: (usize, usize),
}

fn pauses(world: &World, decision: &Decision) -> Vec<Pause> {
    let mut pauses = vec![];
    for (number, node) in world.job.nodes.iter().enumerate() {
        let Node::EndWindow(x, y, window) = node else { continue };
        let ends: BTreeSet<usize> = decision.spans[*x].iter().map(|&(_, k)| k).collect();
        let begins: BTreeSet<usize> = decision.spans[*y].iter().map(|&(m, _)| m).collect();
        let waits = ends.iter().flat_map(|&k| begins.range(k + window.m..=k + window.n).map(move |&m| (k, m)));
        pauses.extend(waits.map(|moments| Pause { window: number, moments }));
    }
    pauses
}

/// End windows of acts and tests with M ≤ N ≤ 2; those with N = M + 1 also within a loop, a set and other windows.
fn tiny(draft: &Draft) -> Vec<Draft> {
    let act = |action: usize| words::node(0, action, 0, 0, 0);
    let (always, first, last) = (words::node(1, 0, 0, 0, 0), act(0), act(draft.actions.len() - 1));
    let leaves = [(first, last), (first, always), (always, first), (always, last), (always, always)];
    let mut drafts = vec![];
    for (m, n) in [(0, 0), (0, 1), (0, 2), (1, 1), (1, 2), (2, 2)] {
        let wait = words::node(7, 0, 1, m, n);
        let around: [&[Vec<u32>]; 6] = [
            &[],
            &[vec![words::node(5, 1, 2, 0, 0)]],
            &[vec![words::node(8, 0, 0, 0, 0), words::member(2)]],
            &[vec![last], vec![words::node(6, 2, 3, 0, 2)]],
            &[vec![last], vec![words::node(7, 2, 3, m, n)]],
            &[vec![first], vec![words::node(7, 3, 2, 0, n)]],
        ];
        let around = if n == m + 1 { &around[..] } else { &around[..1] };
        for ((x, y), above) in leaves.iter().flat_map(|leaf| around.iter().map(move |above| (*leaf, above))) {
            let nodes = [&[vec![x], vec![y], vec![wait]], *above].concat();
            drafts.push(Draft { nodes, ..draft.clone() });
        }
    }
    drafts
}

fn situations(seen: &Seen) -> Vec<&'static str> {
    seen.decided(|world, decision| {
        let pauses = pauses(world, decision);
        let mut names: Vec<&'static str> = pauses.iter().flat_map(|pause| of_pause(world, pause)).collect();
        names.sort();
        names.dedup();
        names
    })
}

fn of_pause(world: &World, pause: &Pause) -> Vec<&'static str> {
    let (k, m) = pause.moments;
    let started: Vec<usize> = (k..=m).filter(|&t| world.starts_at(t)).collect();
    let disturbed = started.first().is_some_and(|&t| t < m);
    let through = |from: usize, to: usize| {
        world.starts.iter().any(|start| start.moment < from && to <= start.moment + start.duration)
    };
    let mut names = met(&[
        ("a start at k - 1", k > 0 && world.starts_at(k - 1)),
        ("a start in hand throughout a quiet pause", k < m && !disturbed && through(k, m)),
        ("a pause of 40 moments or more", m >= k + 40),
    ]);
    if let [t] = started[..] {
        names.push(edge(k, m, t));
    }
    if disturbed {
        names.extend(of_disturbed(world, pause));
    }
    names
}

/// Which edge of the pause from k to m the moment t is.
fn edge(k: usize, m: usize, t: usize) -> &'static str {
    match m - k {
        0 => "a pause of 0, a start at k",
        1 if t == k => "a pause of 1, a start at k alone",
        1 => "a pause of 1, a start at m alone",
        _ if t == k => "a longer pause, a start at k alone",
        _ if t == m => "a longer pause, a start at m alone",
        _ if t + 1 == m => "a longer pause, a start at m - 1 alone",
        _ => "a longer pause, a start inside alone",
    }
}

/// What disturbs a pause, and what it lies in.
fn of_disturbed(world: &World, pause: &Pause) -> Vec<&'static str> {
    let Node::EndWindow(x, y, window) = world.node(pause.window) else { return vec![] };
    let (k, m) = pause.moments;
    let by: Vec<_> = world.starts.iter().filter(|start| k <= start.moment && start.moment < m).collect();
    let named = |under: usize| by.iter().any(|start| acts(world, under, start.action));
    let unnamed = by.iter().any(|start| !acts(world, world.root(), start.action));
    let above = above(world, pause.window);
    met(&[
        ("disturbed by an action that no node names", unnamed),
        ("disturbed by an action of X", named(*x)),
        ("disturbed by an action of Y", named(*y)),
        ("disturbed by action 63 alone", by.iter().all(|start| start.action == 63)),
        ("disturbed before k + M alone", by.iter().all(|start| start.moment < k + window.m)),
        ("a disturbed pause in a loop", above.contains(&5)),
        ("a disturbed pause in an end window", above.contains(&7)),
        ("a disturbed pause in a set", above.contains(&8)),
        ("a disturbed pause in a branch", above.contains(&3) || above.contains(&4)),
    ])
}

/// Whether a node, or one below it, is an act of the action.
fn acts(world: &World, node: usize, action: usize) -> bool {
    match world.node(node) {
        Node::Act(of) => *of == action,
        other => other.children().iter().any(|&child| acts(world, child, action)),
    }
}

/// The forms of the nodes above a node.
fn above(world: &World, node: usize) -> Vec<usize> {
    let mut forms = vec![];
    let mut child = node;
    for parent in node + 1..=world.root() {
        if world.node(parent).children().contains(&child) {
            forms.push(world.node(parent).form());
            child = parent;
        }
    }
    forms
}
