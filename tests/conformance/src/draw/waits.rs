//! Plans of a procedure that was carried out: the nodes are drawn first, many of them end windows, and doing what
//! they say gives the starts.

use crate::draw::draft::{Draft, Drawn};
use crate::oracle::job::{read_job, Job, Node, Window};
use crate::random::Random;
use crate::words;
use std::collections::BTreeSet;

// Formulas: 0 always holds, 1 is contrary to 2, a fluent that starts may make true. The others are flags of loops.
const ALWAYS: usize = 0;
const MADE: usize = 2;
const FIRST_FLAG: usize = 3;

// Fluents: 0 may be made true, 1 is known true; those from 2 on are the flags.
const FIRST_FLUENT: usize = 2;

/// The plan of a drawn procedure, beside actions that no act names.
pub fn carried_out(random: &mut Random) -> Drawn {
    loop {
        let most_nodes = *random.pick(&[3, 4, 5, 6, 8, 10, 14, 20]);
        let latest = *random.pick(&[4, 6, 8, 10, 14, 24, 63]);
        let own = random.between(1, 4);
        let mut drawer = Drawer { own, loops: 0, nodes: vec![], random };
        drawer.root(most_nodes);
        let (loops, nodes) = (drawer.loops, drawer.nodes);
        let mut draft = draft(random, own, loops, latest);
        draft.nodes = nodes;
        let job = read_job(&draft.words()).expect("a well-formed job");
        let lowered = (0..loops).map(|flag| (!draft.initially.contains(&flag_word(flag, true))).then_some(0)).collect();
        let mut doing = Doing { random, job: &job, first_stop: own + 2, lowered, latest, starts: BTreeSet::new() };
        if let Some(last) = doing.node(job.nodes.len() - 1, 0) {
            let starts = doing.starts.iter().map(|&(moment, action)| words::start(moment, action)).collect();
            draft.last = last;
            return Drawn { draft, starts };
        }
    }
}

fn flag_word(flag: usize, value: bool) -> u32 {
    words::initially(FIRST_FLUENT + flag, value)
}

/// Actions: those of the acts, one of one moment, a long one, for each flag one that makes it false, and now and then
/// others up to number 63. No nodes.
fn draft(random: &mut Random, own: usize, flags: usize, latest: usize) -> Draft {
    let mut draft = Draft { fluents: FIRST_FLUENT + flags, last: 63, ..Draft::default() };
    draft.initially = vec![words::initially(1, true)];
    draft.initially.extend((0..flags).map(|flag| flag_word(flag, random.chance(92))));
    let mut durations: Vec<usize> = (0..own).map(|_| *random.pick(&[1, 1, 1, 2, 2, 3, 4])).collect();
    durations.extend([1, random.between(2, latest.min(12))]);
    for (number, &duration) in durations.iter().enumerate() {
        let law = match random.below(6) {
            0 => Some(words::law(0, 1)),
            1 => Some(words::law(2, 0)),
            _ => None,
        };
        draft.actions.push([words::action(number, duration)].into_iter().chain(law).collect());
    }
    for flag in 0..flags {
        draft.actions.push(vec![words::action(durations.len() + flag, 1), words::law(3, FIRST_FLUENT + flag)]);
    }
    let actions = if random.chance(15) { 64 } else { 0 };
    draft.actions.extend((draft.actions.len()..actions).map(|number| vec![words::action(number, 1)]));
    draft.formulas = vec![words::formula(0, 0, 0), words::formula(2, 0, 0), words::formula(1, 0, 0)];
    draft.formulas.extend((0..flags).map(|flag| words::formula(1, FIRST_FLUENT + flag, 0)));
    draft
}

/// Draws nodes, each after those below it.
struct Drawer<'a> {
    random: &'a mut Random,
    /// How many actions the acts choose from.
    own: usize,
    loops: usize,
    nodes: Vec<Vec<u32>>,
}

impl Drawer<'_> {
    fn add(&mut self, node: u32) -> usize {
        self.nodes.push(vec![node]);
        self.nodes.len() - 1
    }

    fn root(&mut self, most: usize) -> usize {
        match self.random.below(10) {
            0..=5 => self.two(7, most - 1),
            6 | 7 => self.repeated(most - 1),
            _ => self.node(most),
        }
    }

    fn node(&mut self, most: usize) -> usize {
        if most < 3 || self.random.chance(20) {
            return self.leaf();
        }
        match self.random.below(15) {
            0..=4 => self.two(7, most - 1),
            5 | 6 => self.two(2, most - 1),
            7 => self.two(3, most - 1),
            8 => self.two(4, most - 1),
            9 | 10 => self.repeated(most - 1),
            11 => self.two(6, most - 1),
            12 => self.two(6, 2),
            _ => self.set(most - 1),
        }
    }

    fn leaf(&mut self) -> usize {
        let (action, formula) = (self.random.below(self.own), *self.random.pick(&[ALWAYS, ALWAYS, ALWAYS, MADE]));
        match self.random.below(3) {
            0 | 1 => self.add(words::node(0, action, 0, 0, 0)),
            _ => self.add(words::node(1, formula, 0, 0, 0)),
        }
    }

    /// A node of this form with two children.
    fn two(&mut self, form: usize, most: usize) -> usize {
        let first = self.random.between(1, (most - 1).max(1));
        let x = self.node(first);
        let y = self.node(most.saturating_sub(first).max(1));
        let (m, n) = self.window();
        self.add(match form {
            2 | 3 => words::node(form, x, y, 0, 0),
            4 => words::node(4, ALWAYS, x, y, 0),
            _ => words::node(form, x, y, m, n),
        })
    }

    /// M and N: none, up to a few, from a few on, one width alone, now and then wider than n.
    fn window(&mut self) -> (usize, usize) {
        let few = *self.random.pick(&[1, 2, 3, 4, 4, 40]);
        match self.random.below(10) {
            0 => (0, 0),
            1..=3 => (0, few),
            4 | 5 => (few, few),
            6 => (self.random.below(few), 63),
            _ => (self.random.below(few + 1), few + self.random.below(3)),
        }
    }

    fn repeated(&mut self, most: usize) -> usize {
        let formula = FIRST_FLAG + self.loops;
        self.loops += 1;
        let body = match self.random.chance(60) && most >= 3 {
            true => self.two(7, most - 1),
            false => self.node(most.max(1)),
        };
        self.add(words::node(5, formula, body, 0, 0))
    }

    fn set(&mut self, most: usize) -> usize {
        let members = self.random.between(1, 3.min(most));
        let mut set = vec![words::node(8, 0, 0, 0, 0)];
        for _ in 0..members {
            set.push(words::member(self.node(most / members)));
        }
        self.nodes.push(set);
        self.nodes.len() - 1
    }
}

/// A procedure in the doing.
struct Doing<'a> {
    random: &'a mut Random,
    job: &'a Job,
    /// The action that makes the first flag false.
    first_stop: usize,
    /// By flag, since when it is false.
    lowered: Vec<Option<usize>>,
    /// No end is later than this.
    latest: usize,
    starts: BTreeSet<(usize, usize)>,
}

impl Doing<'_> {
    /// Does what a node says from b on. Returns its end, unless that is too late or the starts are against the rules.
    fn node(&mut self, number: usize, b: usize) -> Option<usize> {
        let end = match &self.job.nodes[number] {
            Node::Act(action) => self.start(b, *action)?,
            Node::Test(_) => b,
            Node::Sequence(x, y) => {
                let m = self.node(*x, b)?;
                self.node(*y, m)?
            }
            Node::Choice(x, y) => {
                let chosen = *self.random.pick(&[*x, *y]);
                self.node(chosen, b)?
            }
            Node::If { then, .. } => self.node(*then, b)?,
            Node::While { formula, body } => self.passes(formula - FIRST_FLAG, *body, b)?,
            Node::StartWindow(x, y, window) => {
                let k = self.node(*x, b)?;
                let m = b + self.offset(*window);
                k.max(self.node(*y, m)?)
            }
            Node::EndWindow(x, y, window) => {
                let m = self.node(*x, b)? + self.offset(*window);
                self.node(*y, m)?
            }
            Node::TaskSet { members, .. } => self.members(members, b)?,
        };
        (end <= self.latest).then_some(end)
    }

    /// The first member begins at b, and each other one there, or where those before it end, or one moment later.
    fn members(&mut self, members: &[usize], b: usize) -> Option<usize> {
        let mut reached = self.node(members[0], b)?;
        for &member in &members[1..] {
            let begin = *self.random.pick(&[b, reached, reached + 1]);
            reached = reached.max(self.node(member, begin)?);
        }
        Some(reached)
    }

    /// Some passes, in the last of which the flag is lowered.
    fn passes(&mut self, flag: usize, body: usize, b: usize) -> Option<usize> {
        if let Some(since) = self.lowered[flag] {
            return (since <= b).then_some(b);
        }
        let mut end = b;
        for _ in 0..self.random.between(1, 4) {
            let begin = end;
            end = self.node(body, begin).filter(|&end| end > begin)?;
        }
        self.lowered[flag] = Some(end);
        self.start(end - 1, self.first_stop + flag)
    }

    fn offset(&mut self, Window { m, n }: Window) -> usize {
        self.random.between(m, n.min(m + 4))
    }

    /// Starts an action. Returns when it finishes, or none if it is in hand then or would be when it is started later.
    fn start(&mut self, u: usize, action: usize) -> Option<usize> {
        let d = self.job.actions[action].duration;
        let apart = |&(v, other): &(usize, usize)| other != action || v == u || v + d <= u || u + d <= v;
        let lawful = u + d <= self.latest && self.starts.iter().all(apart);
        lawful.then(|| {
            self.starts.insert((u, action));
            u + d
        })
    }
}
