//! Document 01, "Readings": procedures with a reading by construction, and changed ones.

use crate::draw::damage;
use crate::draw::draft::{Draft, Drawn};
use crate::draw::{jobs, lists, plans, programs};
use crate::features::{met, Feature, Seen};
use crate::oracle::call::Expected;
use crate::oracle::job::Node;
use crate::oracle::plan::read_plan;
use crate::oracle::readings::world::World;
use crate::random::Random;
use crate::words::{self, field};

pub const FEATURE: Feature = Feature {
    draw: plans::readable,
    add,
    spoil,
    damage: damage::any,
    tiny,
    situations,
    needed: &[
        ("act", &[0, 13]),
        ("test", &[0, 13]),
        ("sequence", &[0, 13]),
        ("choice", &[0, 13]),
        ("if", &[0, 13]),
        ("while", &[0, 13]),
        ("start window", &[0, 13]),
        ("end window", &[0, 13]),
        ("task set", &[0, 13]),
        ("a loop of ten passes or more", &[0]),
        ("a loop of no pass", &[0]),
        ("a loop within a loop", &[0]),
        ("a start window that X ends", &[0]),
        ("a start window whose Y begins after X", &[0]),
        ("an end window with time between", &[0]),
        ("a start that the reading does not use", &[0]),
        ("every start used", &[0]),
        ("64 nodes", &[0]),
        ("n = 63", &[0]),
        ("a reading of 100 words or more", &[0]),
    ],
};

/// The node forms, in order.
const NODES: [&str; 9] = ["act", "test", "sequence", "choice", "if", "while", "start window", "end window", "task set"];

/// A procedure around a reading of the plan.
fn add(random: &mut Random, drawn: &mut Drawn) {
    let nodes = *random.pick(&[3, 7, 10, 15]);
    programs::add_readable(random, &mut drawn.draft, &drawn.starts, nodes);
}

/// Some fields of formulas and nodes, or starts, changed so that the job is well formed and the plan lawful still; or
/// any nodes.
fn spoil(random: &mut Random, drawn: &mut Drawn) {
    if random.chance(20) {
        drawn.draft.nodes.clear();
        let nodes = *random.pick(&[3, 7, 10, 20]);
        jobs::add_nodes(random, &mut drawn.draft, nodes);
        return;
    }
    for _ in 0..random.between(1, 4) {
        change_once(random, drawn);
    }
}

fn change_once(random: &mut Random, drawn: &mut Drawn) {
    for _ in 0..20 {
        let mut other = drawn.clone();
        match random.below(8) {
            0 => other.starts = lists::changed_order_kept(random, &drawn.starts),
            1 if !drawn.draft.formulas.is_empty() => {
                let place = random.below(drawn.draft.formulas.len());
                other.draft.formulas[place] = damage::other_word(random, drawn.draft.formulas[place]);
            }
            _ => {
                let node = random.below(drawn.draft.nodes.len());
                let place = random.below(drawn.draft.nodes[node].len());
                other.draft.nodes[node][place] = damage::other_word(random, drawn.draft.nodes[node][place]);
            }
        }
        if other != *drawn && read_plan(&other.draft.words(), &other.starts).is_ok() {
            *drawn = other;
            return;
        }
    }
}

/// Each form of a node over two acts or tests, with small windows.
fn tiny(draft: &Draft) -> Vec<Draft> {
    let mut drafts = vec![];
    for form in 2..8 {
        for leaves in 0..4 {
            let leaf = |which: usize| match leaves >> which & 1 {
                0 => words::node(0, which.min(draft.actions.len() - 1), 0, 0, 0),
                _ => words::node(1, 1, 0, 0, 0),
            };
            let root = match form {
                2 | 3 => words::node(form, 0, 1, 0, 0),
                4 => words::node(4, 1, 0, 1, 0),
                5 => words::node(5, 1, 2, 0, 0),
                _ => words::node(form, 0, 1, leaves % 2, 1 + leaves / 2),
            };
            let pair = (form == 5).then(|| vec![words::node(2 + leaves % 2, 0, 1, 0, 0)]);
            let nodes = [vec![leaf(0)], vec![leaf(1)]].into_iter().chain(pair).chain([vec![root]]).collect();
            let formulas = vec![words::formula(0, 0, 0), words::formula(1, 0, 0)];
            drafts.push(Draft { nodes, formulas, ..draft.clone() });
        }
    }
    drafts
}

fn situations(seen: &Seen) -> Vec<&'static str> {
    match (seen.expected, seen.job) {
        (Expected::Reading { world, .. }, _) => of_reading(world, seen.written),
        (_, Some(job)) if seen.number == 13 => job.nodes.iter().map(|node| NODES[node.form()]).collect(),
        _ => vec![],
    }
}

/// The forms that took part in a reading, and what happened in it.
fn of_reading(world: &World, reading: &[u32]) -> Vec<&'static str> {
    let number = |word: u32| field(word, 17, 12).min(world.root());
    let mut names = vec![];
    for (place, &word) in reading.iter().enumerate() {
        let node = world.node(number(word));
        names.push(NODES[node.form()]);
        names.extend(of_node(world, node, word, &reading[place + 1..]));
    }
    let mut acts: Vec<u32> = reading.iter().copied().filter(|&word| world.node(number(word)).form() == 0).collect();
    acts.sort();
    acts.dedup();
    names.extend(met(&[
        ("a start that the reading does not use", acts.len() < world.starts.len()),
        ("every start used", acts.len() >= world.starts.len() && !acts.is_empty()),
        ("64 nodes", world.root() == 63),
        ("n = 63", world.last() == 63),
        ("a reading of 100 words or more", reading.len() >= 100),
    ]));
    names
}

fn of_node(world: &World, node: &Node, word: u32, after: &[u32]) -> Vec<&'static str> {
    let (begin, end) = (|word: u32| field(word, 11, 6), |word: u32| field(word, 5, 0));
    let words_of = |child: usize| after.iter().copied().filter(move |&word| field(word, 17, 12) == child);
    match node {
        Node::While { body, .. } => {
            let inside = words_of(*body).filter(|&pass| begin(pass) >= begin(word) && end(pass) <= end(word));
            met(&[
                ("a loop of ten passes or more", inside.count() >= 10),
                ("a loop of no pass", end(word) == begin(word)),
                ("a loop within a loop", world.node(*body).form() == 5),
            ])
        }
        Node::StartWindow(x, y, _) | Node::EndWindow(x, y, _) => {
            let (Some(x), Some(y)) = (words_of(*x).next(), words_of(*y).next()) else { return vec![] };
            let start = node.form() == 6;
            met(&[
                ("a start window that X ends", start && end(x) > end(y)),
                ("a start window whose Y begins after X", start && begin(y) > end(x)),
                ("an end window with time between", !start && begin(y) > end(x)),
            ])
        }
        _ => vec![],
    }
}
