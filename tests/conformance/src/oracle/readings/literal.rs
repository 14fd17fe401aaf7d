//! "A list is a reading of p from b to e when it is p's word with b and e and then a reading of each chosen part,
//! between moments with which the rule of p's form is met; acts and tests have no parts."
//!
//! A list is judged by trying its splits. What a stretch of the list is a reading of, its first word names.

use crate::oracle::job::{Node, Window};
use crate::oracle::readings::conditions::{covers, met, Placed};
use crate::oracle::readings::world::World;
use crate::words::{bits, field, kind};
use std::collections::HashMap;

/// A node with a begin and an end.
#[derive(Clone, Copy, Debug, PartialEq, Eq)]
pub struct Triple {
    pub node: usize,
    pub begin: usize,
    pub end: usize,
}

/// Whether the list is a reading of the triple.
pub fn is_reading(world: &World, list: &[u32], triple: Triple) -> bool {
    let mut literal = Literal { world, list, judged: HashMap::new() };
    named(world, list, 0) == Some(triple) && literal.is_reading(0, list.len())
}

/// The triple that one word names: "kind 11: 17..12 node, 11..6 b, 5..0 e", the other bits zero.
fn named(world: &World, list: &[u32], index: usize) -> Option<Triple> {
    let word = *list.get(index)?;
    let triple = Triple { node: field(word, 17, 12), begin: field(word, 11, 6), end: field(word, 5, 0) };
    let spare = word & bits(27, 18);
    let lawful = triple.node <= world.root() && triple.begin <= triple.end && triple.end <= world.last();
    (kind(word) == 11 && spare == 0 && lawful).then_some(triple)
}

struct Literal<'a> {
    world: &'a World,
    list: &'a [u32],
    /// Stretches of the list that were judged before.
    judged: HashMap<(usize, usize), bool>,
}

impl Literal<'_> {
    /// Whether the words from..to are a reading of what the first of them names.
    fn is_reading(&mut self, from: usize, to: usize) -> bool {
        if let Some(&judged) = self.judged.get(&(from, to)) {
            return judged;
        }
        let judged = match named(self.world, self.list, from) {
            Some(triple) if from < to => self.rule(triple, from + 1, to),
            _ => false,
        };
        self.judged.insert((from, to), judged);
        judged
    }

    /// The begin and end of the words from..to, if these are a reading of that node.
    fn part(&mut self, from: usize, to: usize, node: usize) -> Option<Placed> {
        let triple = named(self.world, self.list, from)?;
        let reading = triple.node == node && self.is_reading(from, to);
        reading.then_some(Placed { begin: triple.begin, end: triple.end })
    }

    /// Whether the words from..to are readings of chosen parts that meet the rule of the node's form.
    fn rule(&mut self, triple: Triple, from: usize, to: usize) -> bool {
        let world = self.world;
        let Triple { node, begin: b, end: e } = triple;
        match world.node(node) {
            Node::Act(action) => {
                let mut starts = world.starts.iter().filter(|start| start.action == *action);
                from == to && starts.any(|start| start.moment == b && e == b + start.duration)
            }
            Node::Test(formula) => from == to && e == b && world.holds(*formula, b),
            Node::Sequence(x, y) => {
                self.two_parts(from, to, *x, *y, &|x, y| x.begin == b && x.end == y.begin && y.end == e)
            }
            Node::Choice(x, y) => self.one_part(from, to, *x, triple) || self.one_part(from, to, *y, triple),
            Node::If { formula, then, otherwise } => {
                (world.holds(*formula, b) && self.one_part(from, to, *then, triple))
                    || (world.fails(*formula, b) && self.one_part(from, to, *otherwise, triple))
            }
            Node::While { formula, body } => self.passes(from, to, *formula, *body, b, e),
            Node::StartWindow(x, y, Window { m, n }) => self.two_parts(from, to, *x, *y, &|x, y| {
                x.begin == b && b + m <= y.begin && y.begin <= b + n && e == x.end.max(y.end)
            }),
            Node::EndWindow(x, y, Window { m, n }) => self.two_parts(from, to, *x, *y, &|x, y| {
                let in_window = x.end + m <= y.begin && y.begin <= x.end + n;
                x.begin == b && in_window && y.end == e && (x.end..y.begin).all(|t| !world.starts_at(t))
            }),
            Node::TaskSet { members, conditions } => self.members(from, to, members, &mut vec![], &|placed| {
                covers(placed, b, e) && conditions.iter().all(|condition| met(world, condition, placed))
            }),
        }
    }

    /// The words from..to are a reading of the one part between the triple's own moments.
    fn one_part(&mut self, from: usize, to: usize, node: usize, whole: Triple) -> bool {
        self.part(from, to, node) == Some(Placed { begin: whole.begin, end: whole.end })
    }

    /// The splits of from..to after which nothing follows, or a word of that node.
    fn splits(&self, from: usize, to: usize, next: Option<usize>) -> Vec<usize> {
        let follows = |split: &usize| match next {
            Some(node) => *split < to && named(self.world, self.list, *split).is_some_and(|triple| triple.node == node),
            None => *split == to,
        };
        (from..=to).filter(follows).collect()
    }

    /// Some split of from..to is a reading of X and then one of Y, as the rule asks.
    fn two_parts(&mut self, from: usize, to: usize, x: usize, y: usize, rule: &dyn Fn(Placed, Placed) -> bool) -> bool {
        self.members(from, to, &[x, y], &mut vec![], &|placed| rule(placed[0], placed[1]))
    }

    /// "X fails at b and e = b; or X holds at b, Y reads b to m with m > b, and the loop reads m to e",
    /// "a loop's passes one after the other, its own word once".
    fn passes(&mut self, from: usize, to: usize, formula: usize, body: usize, b: usize, e: usize) -> bool {
        if from == to {
            return self.world.fails(formula, b) && e == b;
        }
        let splits = [self.splits(from + 1, to, Some(body)), vec![to]].concat();
        self.world.holds(formula, b)
            && splits.into_iter().any(|split| match self.part(from, split, body) {
                Some(pass) => pass.begin == b && pass.end > b && self.passes(split, to, formula, body, pass.end, e),
                None => false,
            })
    }

    /// Some splits of from..to are readings of these nodes in order, placed as the rule asks.
    fn members(
        &mut self,
        from: usize,
        to: usize,
        members: &[usize],
        placed: &mut Vec<Placed>,
        rule: &dyn Fn(&[Placed]) -> bool,
    ) -> bool {
        let Some((&member, others)) = members.split_first() else {
            return from == to && rule(placed);
        };
        for split in self.splits(from, to, others.first().copied()) {
            if let Some(part) = self.part(from, split, member) {
                placed.push(part);
                let found = self.members(split, to, others, placed, rule);
                placed.pop();
                if found {
                    return true;
                }
            }
        }
        false
    }
}
