//! Document 01, task sets: "each member i reads some b_i to e_i inside b..e, each moment of b..e lies in some b_i..e_i,
//! ends included, and all conditions are met."

use crate::draw::draft::{Draft, Drawn};
use crate::draw::placements::conditions;
use crate::draw::{damage, sets};
use crate::features::{met, readings, Feature, Seen};
use crate::oracle::call::Expected;
use crate::oracle::job::{read_job, Condition, Node, Window};
use crate::oracle::plan::read_plan;
use crate::oracle::readings::conditions::Placed;
use crate::oracle::readings::decision::{Decision, Spans};
use crate::oracle::readings::world::World;
use crate::random::Random;
use crate::words::{self, field, kind};

pub const FEATURE: Feature = Feature {
    draw: sets::any,
    add,
    spoil,
    damage: |random, job| damage::of_kinds(random, job, &[7, 8]),
    tiny,
    situations,
    needed: &[
        ("condition 0: b_j one below b_i + M", &[0, 13]),
        ("condition 0: b_j on b_i + M", &[0, 13]),
        ("condition 0: b_j on b_i + N", &[0, 13]),
        ("condition 0: b_j one above b_i + N", &[0, 13]),
        ("condition 1: b_j one below e_i + M", &[0, 13]),
        ("condition 1: b_j on e_i + M", &[0, 13]),
        ("condition 1: b_j on e_i + N", &[0, 13]),
        ("condition 1: b_j one above e_i + N", &[0, 13]),
        ("condition 2: b_i one below N", &[0, 13]),
        ("condition 2: b_i on N", &[0, 13]),
        ("condition 3: e_i + N one above n", &[0, 13]),
        ("condition 3: e_i + N on n", &[0, 13]),
        ("condition 4: a range that is just empty", &[0, 13]),
        ("condition 4: a range of one moment", &[0, 13]),
        ("a condition with i = j", &[0, 13]),
        ("four members and eight conditions", &[0, 13]),
        ("two members with a moment between", &[0, 13]),
        ("two members that touch", &[0, 13]),
        ("a member that begins at 63", &[0, 13]),
        ("a set within a set", &[0, 13]),
        ("a loop within a set", &[0, 13]),
        ("a pass of at most four moments", &[0]),
        ("a pass of five moments", &[0]),
        ("a pass of six moments or more", &[0]),
        ("a word of kind 7 or 8 refused", &[2, 3]),
    ],
};

/// A set of the procedure and a test, with conditions that a reading from 0 to n and one moment of the test meet.
fn add(random: &mut Random, drawn: &mut Drawn) {
    let draft = &mut drawn.draft;
    if draft.nodes.len() > 62 || draft.formulas.is_empty() {
        return;
    }
    let last = draft.last;
    let Ok(plan) = read_plan(&draft.words(), &drawn.starts) else { return };
    let world = World::new(&plan);
    let root = draft.nodes.len() - 1;
    let formula = random.below(draft.formulas.len());
    let holding: Vec<usize> = (0..=last).filter(|&moment| world.holds(formula, moment)).collect();
    let Some(&moment) = holding.get(random.below(holding.len().max(1))) else { return };
    draft.nodes.push(vec![words::node(1, formula, 0, 0, 0)]);
    let placed = vec![Placed { begin: 0, end: last }, Placed { begin: moment, end: moment }];
    let mut set = vec![words::node(8, 0, 0, 0, 0), words::member(root), words::member(root + 1)];
    let most = random.below(6);
    set.extend(conditions(random, &world, &[placed], most));
    draft.nodes.push(set);
}

/// M or N of one or two conditions changed by one, or anything of the procedure or the starts.
fn spoil(random: &mut Random, drawn: &mut Drawn) {
    let nodes = || drawn.draft.nodes.iter().enumerate();
    let places = |(node, words): (usize, &Vec<u32>)| (1..words.len()).map(move |word| (node, word)).collect::<Vec<_>>();
    let mut all: Vec<(usize, usize)> = nodes().flat_map(places).collect();
    all.retain(|&(node, word)| kind(drawn.draft.nodes[node][word]) == 8);
    if all.is_empty() || random.chance(40) {
        return (readings::FEATURE.spoil)(random, drawn);
    }
    for _ in 0..random.between(1, 2) {
        let &(node, word) = random.pick(&all);
        let step = *random.pick(&[1, 1 << 6]);
        let old = drawn.draft.nodes[node][word];
        drawn.draft.nodes[node][word] = if random.chance(50) { old + step } else { old.wrapping_sub(step) };
        if read_job(&drawn.draft.words()).is_err() {
            drawn.draft.nodes[node][word] = old;
        }
    }
}

/// Two members, each an act, a test or a wait of up to two moments, without a condition and with one of each form.
fn tiny(draft: &Draft) -> Vec<Draft> {
    let windows = [(0, 0), (0, 1), (1, 2)];
    let with = |form: usize| windows.map(|(m, n)| [(0, 1), (1, 0), (1, 1)].map(|(i, j)| condition(form, i, j, m, n)));
    let conditions = (0..5).flat_map(with).flatten();
    let mut drafts = vec![];
    for (place, condition) in [None].into_iter().chain(conditions.map(Some)).enumerate() {
        for members in [(0, 1), (0, 2), (1, 2), (2, 2)].into_iter().skip(place % 2).step_by(2) {
            let mut nodes = vec![];
            let actions = draft.actions.len();
            let members = [members.0, members.1].map(|which| words::member(tiny_member(&mut nodes, which, actions)));
            nodes.push([&[words::node(8, 0, 0, 0, 0)], &members[..], condition.as_slice()].concat());
            drafts.push(Draft { nodes, ..draft.clone() });
        }
    }
    drafts
}

fn condition(form: usize, i: usize, j: usize, m: usize, n: usize) -> u32 {
    match form {
        0 | 1 => words::condition(form, 0, i, j, m, n),
        2 | 3 => words::condition(form, 1, i, 0, m, n),
        _ => words::condition(form, 1, i, j, m, n),
    }
}

fn tiny_member(nodes: &mut Vec<Vec<u32>>, which: usize, actions: usize) -> usize {
    match which {
        0 => nodes.push(vec![words::node(0, actions - 1, 0, 0, 0)]),
        1 => nodes.push(vec![words::node(1, 1, 0, 0, 0)]),
        _ => {
            let first = nodes.len();
            nodes.extend([0, 0].map(|formula| vec![words::node(1, formula, 0, 0, 0)]));
            nodes.push(vec![words::node(6, first, first + 1, 0, 2)]);
        }
    }
    nodes.len() - 1
}

fn situations(seen: &Seen) -> Vec<&'static str> {
    if matches!(seen.number, 2 | 3) {
        let word = seen.call.list("job").get(seen.position);
        return met(&[("a word of kind 7 or 8 refused", word.is_some_and(|&word| matches!(kind(word), 7 | 8)))]);
    }
    let mut names =
        seen.decided(|world, decision| world.job.nodes.iter().flat_map(|node| of_set(world, decision, node)).collect());
    let (Expected::Reading { world, .. }, reading) = (seen.expected, seen.written) else { return names };
    let Node::While { body, .. } = world.node(world.root()) else { return names };
    let passes = reading.iter().filter(|&&word| field(word, 17, 12) == *body);
    let moments: Vec<usize> =
        passes.map(|&word| field(word, 5, 0) + 1 - field(word, 11, 6).min(field(word, 5, 0))).collect();
    names.extend(met(&[
        ("a pass of at most four moments", moments.iter().any(|&moments| moments <= 4)),
        ("a pass of five moments", moments.contains(&5)),
        ("a pass of six moments or more", moments.iter().any(|&moments| moments > 5)),
    ]));
    names
}

/// The situations of one set, by the moments between which its members read.
fn of_set(world: &World, decision: &Decision, node: &Node) -> Vec<&'static str> {
    let Node::TaskSet { members, conditions } = node else { return vec![] };
    let spans: Vec<&Spans> = members.iter().map(|&member| &decision.spans[member]).collect();
    let apart = |moments: usize| {
        let follows = |(_, e): (usize, usize)| spans[1].iter().any(|&(b, _)| b == e + moments + 1);
        members.len() == 2 && spans[0].iter().any(|&span| follows(span))
    };
    let has = |form: usize| members.iter().any(|&member| world.node(member).form() == form);
    let mut names = met(&[
        ("four members and eight conditions", members.len() == 4 && conditions.len() == 8),
        ("two members with a moment between", apart(1)),
        ("two members that touch", apart(0)),
        ("a member that begins at 63", spans.iter().any(|spans| spans.iter().any(|&(b, _)| b == 63))),
        ("a set within a set", has(8)),
        ("a loop within a set", has(5)),
    ]);
    for condition in conditions {
        let pairs =
            spans[condition.i].iter().take(8).flat_map(|&i| spans[condition.j].iter().take(8).map(move |&j| (i, j)));
        names.extend(pairs.flat_map(|(i, j)| edges(world.last(), condition, i, j)));
    }
    names.sort();
    names.dedup();
    names
}

/// The edges of a condition that members from begin to end lie on.
fn edges(last: usize, condition: &Condition, i: (usize, usize), j: (usize, usize)) -> Vec<&'static str> {
    let Window { m, n } = condition.window;
    let same = condition.i == condition.j && matches!(condition.form, 0 | 1 | 4);
    let j = if same { i } else { j };
    let mut names = match condition.form {
        0 => met(&[
            ("condition 0: b_j one below b_i + M", j.0 + 1 == i.0 + m),
            ("condition 0: b_j on b_i + M", j.0 == i.0 + m),
            ("condition 0: b_j on b_i + N", j.0 == i.0 + n),
            ("condition 0: b_j one above b_i + N", j.0 == i.0 + n + 1),
        ]),
        1 => met(&[
            ("condition 1: b_j one below e_i + M", j.0 + 1 == i.1 + m),
            ("condition 1: b_j on e_i + M", j.0 == i.1 + m),
            ("condition 1: b_j on e_i + N", j.0 == i.1 + n),
            ("condition 1: b_j one above e_i + N", j.0 == i.1 + n + 1),
        ]),
        2 => met(&[("condition 2: b_i one below N", i.0 + 1 == n), ("condition 2: b_i on N", i.0 == n)]),
        3 => met(&[
            ("condition 3: e_i + N one above n", i.1 + n == last + 1),
            ("condition 3: e_i + N on n", i.1 + n == last),
        ]),
        _ => met(&[
            ("condition 4: a range that is just empty", i.1 + m + n == j.0 + 1),
            ("condition 4: a range of one moment", i.1 + m + n == j.0),
        ]),
    };
    names.extend(same.then_some("a condition with i = j"));
    names
}
