//! Which triples have a reading: the rules again, from the lowest node up, with a set of (begin, end) for each node.

use crate::oracle::job::{Condition, Node, Window};
use crate::oracle::readings::conditions::{covers, met, Placed};
use crate::oracle::readings::world::World;
use std::collections::BTreeSet;

/// The moments between which one node reads.
pub type Spans = BTreeSet<(usize, usize)>;

pub struct Decision {
    /// By node number.
    pub spans: Vec<Spans>,
}

impl Decision {
    pub fn has(&self, node: usize, begin: usize, end: usize) -> bool {
        self.spans[node].contains(&(begin, end))
    }

    /// "A triple (p, b, e) [..] counts once, also where the root has none."
    pub fn count(&self) -> usize {
        self.spans.iter().map(BTreeSet::len).sum()
    }
}

/// A set with more placements of its members than this is not decided.
const MOST_PLACEMENTS: usize = 300_000;

/// Decides all triples; none if a task set has too many placements.
pub fn decide(world: &World) -> Option<Decision> {
    let mut spans: Vec<Spans> = vec![];
    for node in &world.job.nodes {
        if placements(node, &spans) > MOST_PLACEMENTS {
            return None;
        }
        let of_node = spans_of(world, node, &spans);
        spans.push(of_node);
    }
    Some(Decision { spans })
}

fn placements(node: &Node, lower: &[Spans]) -> usize {
    match node {
        Node::TaskSet { members, .. } => {
            members.iter().fold(1, |product: usize, &member| product.saturating_mul(lower[member].len()))
        }
        _ => 0,
    }
}

/// The spans that begin at a moment.
fn from(spans: &Spans, begin: usize) -> impl Iterator<Item = usize> + '_ {
    spans.range((begin, 0)..=(begin, usize::MAX)).map(|&(_, end)| end)
}

fn spans_of(world: &World, node: &Node, lower: &[Spans]) -> Spans {
    match node {
        Node::Act(action) => act(world, *action),
        Node::Test(formula) => test(world, *formula),
        Node::Sequence(x, y) => sequence(&lower[*x], &lower[*y]),
        Node::Choice(x, y) => lower[*x].union(&lower[*y]).copied().collect(),
        Node::If { formula, then, otherwise } => branches(world, *formula, &lower[*then], &lower[*otherwise]),
        Node::While { formula, body } => repeated(world, *formula, &lower[*body]),
        Node::StartWindow(x, y, window) => start_window(world, &lower[*x], &lower[*y], *window),
        Node::EndWindow(x, y, window) => end_window(world, &lower[*x], &lower[*y], *window),
        Node::TaskSet { members, conditions } => {
            let members: Vec<&Spans> = members.iter().map(|&member| &lower[member]).collect();
            let mut found = Spans::new();
            place(world, &members, conditions, &mut vec![], &mut found);
            found
        }
    }
}

/// "a start of X at b, and e = b + d"
fn act(world: &World, action: usize) -> Spans {
    let starts = world.starts.iter().filter(|start| start.action == action);
    starts.map(|start| (start.moment, start.moment + start.duration)).collect()
}

/// "e = b and formula X holds at b"
fn test(world: &World, formula: usize) -> Spans {
    (0..=world.last()).filter(|&t| world.holds(formula, t)).map(|t| (t, t)).collect()
}

/// "for some m, X reads b to m and Y reads m to e"
fn sequence(x: &Spans, y: &Spans) -> Spans {
    x.iter().flat_map(|&(b, m)| from(y, m).map(move |e| (b, e))).collect()
}

/// "X holds at b and Y reads b to e, or X fails at b and M does."
fn branches(world: &World, formula: usize, then: &Spans, otherwise: &Spans) -> Spans {
    let first = then.iter().filter(|&&(b, _)| world.holds(formula, b));
    let second = otherwise.iter().filter(|&&(b, _)| world.fails(formula, b));
    first.chain(second).copied().collect()
}

/// "X fails at b and e = b; or X holds at b, Y reads b to m with m > b, and the loop reads m to e."
fn repeated(world: &World, formula: usize, body: &Spans) -> Spans {
    let mut spans = Spans::new();
    for b in (0..=world.last()).rev() {
        if world.fails(formula, b) {
            spans.insert((b, b));
        }
        if world.holds(formula, b) {
            let passes = from(body, b).filter(|&m| m > b);
            let ends: Vec<usize> = passes.flat_map(|m| from(&spans, m)).collect();
            spans.extend(ends.into_iter().map(|e| (b, e)));
        }
    }
    spans
}

/// "X reads b to k, Y reads m to l, b + M ≤ m ≤ b + N, e is the greater of k and l."
fn start_window(world: &World, x: &Spans, y: &Spans, window: Window) -> Spans {
    let mut spans = Spans::new();
    for &(b, k) in x {
        for m in b + window.m..=(b + window.n).min(world.last()) {
            spans.extend(from(y, m).map(|l| (b, k.max(l))));
        }
    }
    spans
}

/// Request L2: "no start of any action at k ≤ t < m".
fn is_quiet(world: &World, k: usize, m: usize) -> bool {
    (k..m).all(|t| !world.starts_at(t))
}

/// "X reads b to k, Y reads m to e, k + M ≤ m ≤ k + N", and between k and m it is quiet.
fn end_window(world: &World, x: &Spans, y: &Spans, window: Window) -> Spans {
    let mut spans = Spans::new();
    for &(b, k) in x {
        for m in (k + window.m..=(k + window.n).min(world.last())).filter(|&m| is_quiet(world, k, m)) {
            spans.extend(from(y, m).map(|e| (b, e)));
        }
    }
    spans
}

/// Tries every placement of the members. A set whose members are all inside b..e and cover it reads from
/// the least of their begins to the greatest of their ends.
fn place(world: &World, members: &[&Spans], conditions: &[Condition], placed: &mut Vec<Placed>, found: &mut Spans) {
    if placed.len() == members.len() {
        let begin = placed.iter().map(|member| member.begin).min().expect("a set has a member");
        let end = placed.iter().map(|member| member.end).max().expect("a set has a member");
        if !found.contains(&(begin, end)) && covers(placed, begin, end) {
            found.insert((begin, end));
        }
        return;
    }
    for &(begin, end) in members[placed.len()] {
        placed.push(Placed { begin, end });
        if conditions.iter().all(|condition| not_broken(world, condition, placed)) {
            place(world, members, conditions, placed, found);
        }
        placed.pop();
    }
}

/// A condition counts as soon as its last member is placed; before that it breaks nothing.
fn not_broken(world: &World, condition: &Condition, placed: &[Placed]) -> bool {
    let newest = placed.len() - 1;
    condition.i.max(condition.j) != newest || met(world, condition, placed)
}
