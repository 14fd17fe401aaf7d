//! Plans around task sets. Placements are chosen first; members, starts and conditions are drawn to fit them.
//! Bit t of a mask stands for moment t.

use crate::draw::draft::{Draft, Drawn};
use crate::draw::placements::{conditions, covering, passes};
use crate::oracle::plan::read_plan;
use crate::oracle::readings::conditions::Placed;
use crate::oracle::readings::world::World;
use crate::random::Random;
use crate::words;

/// Conditions choose among formula 0, which always holds, and so many after it.
const ASKED: usize = 3;
/// A formula that holds at a mask takes a fluent and two actions.
const MOST_MASKS: usize = 24;
/// The actions of acts come first, whether they are used or not.
const ACTS: usize = 8;
/// A set with more nodes before it than this has no set among its members.
const MOST_NODES: usize = 20;

/// A set as the root, between waits, or as the body of a loop.
pub fn any(random: &mut Random) -> Drawn {
    let last = *random.pick(&[0, 1, 2, 2, 3, 3, 4, 4, 5, 5, 6, 6, 7, 8, 12, 20, 63]);
    let place = random.below(5);
    let (begin, passes) = (random.below(last + 1), passes(random));
    let (last, spans) = match place {
        0 => (last, vec![Placed { begin, end: random.between(begin, last) }]),
        1 | 2 => (passes[passes.len() - 1].end, passes),
        _ => (last, vec![Placed { begin: 0, end: last }]),
    };
    let mut builder = Builder::new(random, last);
    let set = builder.set(&spans, 2);
    match place {
        0 => builder.between_waits(set),
        1 | 2 => builder.repeated(set),
        _ => (),
    }
    drawn(last, &builder.masks, &builder.acts, builder.nodes)
}

fn moments_to(last: usize) -> u64 {
    u64::MAX >> (63 - last)
}

fn mask(moments: impl Iterator<Item = usize>) -> u64 {
    moments.fold(0, |mask, moment| mask | 1 << moment)
}

/// Moments up to the last: all, all but one, any, the first ones or the last ones.
fn some_moments(random: &mut Random, last: usize) -> u64 {
    let cut = random.below(last + 1);
    let moments = match random.below(6) {
        0 => u64::MAX,
        1 | 2 => !(1 << cut),
        3 => random.number() | random.number(),
        4 => moments_to(cut),
        _ => u64::MAX << cut,
    };
    moments & moments_to(last)
}

struct Builder<'a> {
    random: &'a mut Random,
    last: usize,
    /// The moments at which formula 1, 2, .. holds, each the formula of a fluent.
    masks: Vec<u64>,
    /// Of each action of an act, how long it lasts and when it is started.
    acts: Vec<(usize, u64)>,
    nodes: Vec<Vec<u32>>,
    /// The formulas that conditions choose from.
    world: World,
}

impl Builder<'_> {
    fn new(random: &mut Random, last: usize) -> Builder<'_> {
        let masks: Vec<u64> = (0..ASKED).map(|_| some_moments(random, last)).collect();
        let Drawn { draft, starts } = drawn(last, &masks, &[], vec![vec![words::node(0, 0, 0, 0, 0)]]);
        let plan = read_plan(&draft.words(), &starts).unwrap_or_else(|_| panic!("starts are lawful"));
        Builder { random, last, masks, acts: vec![], nodes: vec![], world: World::new(&plan) }
    }

    fn add(&mut self, node: Vec<u32>) -> usize {
        self.nodes.push(node);
        self.nodes.len() - 1
    }

    /// The formula that holds at these moments; the one that always holds if there is no room for another.
    fn formula(&mut self, moments: u64) -> usize {
        let moments = moments & moments_to(self.last);
        if let Some(known) = self.masks.iter().position(|&mask| mask == moments) {
            return 1 + known;
        }
        if moments == moments_to(self.last) || self.masks.len() == MOST_MASKS {
            return 0;
        }
        self.masks.push(moments);
        self.masks.len()
    }

    fn test(&mut self, moments: u64) -> usize {
        let formula = self.formula(moments);
        self.add(vec![words::node(1, formula, 0, 0, 0)])
    }

    /// A start window of two tests, which starts do not disturb.
    fn wait(&mut self, begins: u64, ends: u64, (least, most): (usize, usize)) -> usize {
        let x = self.test(begins);
        let y = self.test(ends);
        self.add(vec![words::node(6, x, y, least.min(63), most.min(63))])
    }

    /// A set that reads each of these spans, with sets in it so deep at most.
    fn set(&mut self, spans: &[Placed], depth: usize) -> usize {
        let most = [4, 3, 2][(spans.len() / 9).min(2)];
        let members = self.random.between(1, most);
        let placements = self.placements(spans, members);
        let mut set = vec![words::node(8, 0, 0, 0, 0)];
        for member in 0..members {
            let own: Vec<Placed> = placements.iter().map(|placed| placed[member]).collect();
            set.push(words::member(self.member(&own, depth)));
        }
        let most = *self.random.pick(&[0, 1, 1, 2, 2, 3, 4, 8, 16]);
        set.extend(conditions(self.random, &self.world, &placements, most).iter().take(8));
        self.add(set)
    }

    /// For each span a placement of the members that covers it: the same one, but for the last ends of a longer span.
    fn placements(&mut self, spans: &[Placed], members: usize) -> Vec<Vec<Placed>> {
        let length = spans.iter().map(|span| span.end - span.begin).min().expect("there is a span");
        let mut shape = covering(self.random, 0, length, members);
        if length > 0 && members > 1 && self.random.chance(15) {
            shape = covering(self.random, 0, length - 1, members - 1);
            shape.insert(self.random.below(members), Placed { begin: length, end: length });
        }
        let end = |span: &Placed, end: usize| if end == length { span.end } else { span.begin + end };
        let placed = |span: &Placed, of: &Placed| Placed { begin: span.begin + of.begin, end: end(span, of.end) };
        spans.iter().map(|span| shape.iter().map(|of| placed(span, of)).collect()).collect()
    }

    /// A node that reads each of these spans, and mostly others; now and then in a choice or a start window.
    fn member(&mut self, spans: &[Placed], depth: usize) -> usize {
        let small = self.nodes.len() < MOST_NODES;
        let node = match self.random.below(8) {
            0 | 1 => self.act(spans),
            2 => self.steps(spans),
            3 if depth > 0 && small => Some(self.set(spans, depth - 1)),
            _ => None,
        };
        let node = node.unwrap_or_else(|| self.window(spans));
        match self.random.below(if small { 100 } else { 1 }) {
            1..=15 => {
                let (begins, ends) = (self.few_moments(), self.few_moments());
                let other = self.wait(begins, ends, (0, 63));
                self.add(vec![words::node(3, node, other, 0, 0)])
            }
            16..=25 => {
                let at_begin = self.test(u64::MAX);
                self.add(vec![words::node(6, node, at_begin, 0, 0)])
            }
            _ => node,
        }
    }

    /// An action that is started at the begin of each span and lasts to its end, if the spans last equally long.
    fn act(&mut self, spans: &[Placed]) -> Option<usize> {
        let lasts = spans[0].end - spans[0].begin;
        let alike = spans.iter().all(|span| span.end == span.begin + lasts);
        if lasts == 0 || !alike || self.acts.len() == ACTS {
            return None;
        }
        let mut begins = mask(spans.iter().map(|span| span.begin));
        let extra = self.random.below(self.last + 1);
        let apart = |span: &Placed| span.end <= extra || extra + lasts <= span.begin;
        if extra + lasts <= self.last && spans.iter().all(apart) {
            begins |= 1 << extra;
        }
        self.acts.push((lasts, begins));
        Some(self.add(vec![words::node(0, self.acts.len() - 1, 0, 0, 0)]))
    }

    /// A loop of steps to the next end of a span, if none of the spans begins at one of their ends.
    fn steps(&mut self, spans: &[Placed]) -> Option<usize> {
        let ends = mask(spans.iter().map(|span| span.end));
        if self.last > 12 || spans.iter().any(|span| ends >> span.begin & 1 == 1) {
            return None;
        }
        let formula = self.formula(!ends);
        let body = self.wait(u64::MAX, u64::MAX, (1, 1));
        Some(self.add(vec![words::node(5, formula, body, 0, 0)]))
    }

    /// A test or a wait that reads each of these spans and a little more.
    fn window(&mut self, spans: &[Placed]) -> usize {
        let begins = self.few_moments() | mask(spans.iter().map(|span| span.begin));
        let ends = self.few_moments() | mask(spans.iter().map(|span| span.end));
        let lengths = || spans.iter().map(|span| span.end - span.begin);
        let (least, most) = (lengths().min().unwrap_or(0), lengths().max().unwrap_or(0));
        if most == 0 && self.random.chance(40) {
            return self.test(begins);
        }
        let least = least.saturating_sub(self.random.below(3));
        let most = most + *self.random.pick(&[0, 0, 0, 1, 2, 63]);
        self.wait(begins, ends, (least, most))
    }

    /// Up to three moments, or any if the plan is short.
    fn few_moments(&mut self) -> u64 {
        match self.random.below(4) {
            0 if self.last <= 6 => some_moments(self.random, self.last),
            most => mask((0..most).map(|_| self.random.below(self.last + 1))),
        }
    }

    /// A loop of the set up to the last moment.
    fn repeated(&mut self, set: usize) {
        let formula = self.formula(!(1 << self.last));
        self.add(vec![words::node(5, formula, set, 0, 0)]);
    }

    /// A wait from 0 to any moment, the set, and a wait from any moment to n: it reads if the set reads anything.
    fn between_waits(&mut self, set: usize) {
        let before = self.wait(1, u64::MAX, (0, 63));
        let both = self.add(vec![words::node(2, before, set, 0, 0)]);
        let after = self.wait(u64::MAX, 1 << self.last, (0, 63));
        self.add(vec![words::node(2, both, after, 0, 0)]);
    }
}

/// A plan in which formula f + 1, that of fluent f, holds at the moments of mask f alone. After the actions of acts,
/// two of one moment make a fluent true and false. At 0 a fluent that does not hold is open or known false.
fn drawn(last: usize, masks: &[u64], acts: &[(usize, u64)], nodes: Vec<Vec<u32>>) -> Drawn {
    let mut draft = Draft { fluents: masks.len(), last, nodes, ..Draft::default() };
    let holds = |fluent: usize, t: usize| masks[fluent] >> t & 1 == 1;
    let known = (0..masks.len()).filter(|&fluent| holds(fluent, 0) || fluent % 2 == 0);
    draft.initially = known.map(|fluent| words::initially(fluent, holds(fluent, 0))).collect();
    let lasts = |act: usize| acts.get(act).map_or(1, |&(lasts, _)| lasts);
    draft.actions = (0..ACTS).map(|act| vec![words::action(act, lasts(act))]).collect();
    draft.formulas = vec![words::formula(0, 0, 0)];
    let pairs = (0..acts.len()).flat_map(|act| (0..=last).map(move |t| (t, act)));
    let mut starts: Vec<u32> =
        pairs.filter(|&(t, act)| acts[act].1 >> t & 1 == 1).map(|(t, act)| words::start(t, act)).collect();
    for fluent in 0..masks.len() {
        let first = draft.actions.len();
        draft.actions.push(vec![words::action(first, 1), words::law(2, fluent)]);
        draft.actions.push(vec![words::action(first + 1, 1), words::law(3, fluent)]);
        draft.formulas.push(words::formula(1, fluent, 0));
        let changes = (1..=last).filter(|&t| holds(fluent, t) != holds(fluent, t - 1));
        starts.extend(changes.map(|t| words::start(t - 1, first + usize::from(!holds(fluent, t)))));
    }
    starts.sort();
    Drawn { draft, starts }
}
