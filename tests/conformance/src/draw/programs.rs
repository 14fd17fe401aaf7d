//! Programs with a reading: nodes are built from the root down around a chosen reading of a lawful plan.

use crate::draw::draft::Draft;
use crate::draw::placements::{conditions, covering, window_around};
use crate::oracle::job::Window;
use crate::oracle::plan::read_plan;
use crate::oracle::readings::world::World;
use crate::random::Random;
use crate::words;

/// Any begin and end can be read with so many nodes: two tests and a window between them.
const LEAST_NODES: usize = 3;

/// Gives the draft nodes, the last of which reads from 0 to n with these starts.
pub fn add_readable(random: &mut Random, draft: &mut Draft, starts: &[u32], nodes: usize) {
    draft.nodes = vec![vec![words::node(0, 0, 0, 0, 0)]];
    let plan = read_plan(&draft.words(), starts).unwrap_or_else(|_| panic!("starts are lawful"));
    let world = World::new(&plan);
    let mut builder = Builder { random, world: &world, nodes: vec![] };
    builder.reading(0, world.last(), nodes.max(LEAST_NODES));
    if nodes == 64 {
        builder.fill_up();
    }
    draft.nodes = builder.nodes;
}

struct Builder<'a> {
    random: &'a mut Random,
    world: &'a World,
    nodes: Vec<Vec<u32>>,
}

impl Builder<'_> {
    fn add(&mut self, node: Vec<u32>) -> usize {
        self.nodes.push(node);
        self.nodes.len() - 1
    }

    /// Nodes above the root that read as it does, until there are 64.
    fn fill_up(&mut self) {
        while self.nodes.len() < 64 {
            let root = self.nodes.len() - 1;
            if self.nodes.len() < 63 && self.random.chance(30) {
                let other = self.anything(1);
                self.add(vec![words::node(3, root, other, 0, 0)]);
            } else {
                self.add(vec![words::node(8, 0, 0, 0, 0), words::member(root)]);
            }
        }
    }

    /// A node that reads b to e, with at most so many nodes, of which there are LEAST_NODES or more.
    fn reading(&mut self, b: usize, e: usize, most: usize) -> usize {
        if most < 1 + 2 * LEAST_NODES || self.random.chance(12) {
            return self.shortest(b, e);
        }
        match self.random.below(10) {
            0 => self.sequence(b, e, most - 1),
            1 => self.choice(b, e, most - 1),
            2 => self.branches(b, e, most - 1),
            3..=5 => self.repeated(b, e, most - 1),
            6 => self.start_window(b, e, most - 1),
            7 => self.end_window(b, e, most - 1),
            _ => self.task_set(b, e, most - 1),
        }
    }

    /// An act if there is a start for it, a test where no time passes, or else two nodes with the time between.
    fn shortest(&mut self, b: usize, e: usize) -> usize {
        if let Some(action) = self.action(|moment, finish| moment == b && finish == e) {
            return self.add(vec![words::node(0, action, 0, 0, 0)]);
        }
        if b == e {
            return self.test(b);
        }
        let (x, k) = self.act_or_test_from(b, e);
        let (y, m) = self.act_or_test_to(k, e);
        let form = self.form_of_wait(k, m);
        let Window { m, n } = window_around(self.random, if form == 6 { m - b } else { m - k });
        self.add(vec![words::node(form, x, y, m, n)])
    }

    /// A start window or an end window for Y at m after X has ended at k; an end window only where no start disturbs
    /// it.
    fn form_of_wait(&mut self, k: usize, m: usize) -> usize {
        match self.quiet_from(k) < m {
            true => 6,
            false => *self.random.pick(&[6, 7]),
        }
    }

    /// The latest moment to which an end window may wait from k: that of the next start, if there is one.
    fn quiet_from(&self, k: usize) -> usize {
        let starts = self.world.starts.iter().map(|start| start.moment);
        starts.filter(|&moment| moment >= k).min().unwrap_or(self.world.last())
    }

    /// An action with a start from that moment to that finish.
    fn action(&mut self, fits: impl Fn(usize, usize) -> bool) -> Option<usize> {
        let starts = self.world.starts.iter().filter(|start| fits(start.moment, start.moment + start.duration));
        let actions: Vec<usize> = starts.map(|start| start.action).collect();
        (!actions.is_empty()).then(|| *self.random.pick(&actions))
    }

    /// A node that reads from b to its second number, at most e.
    fn act_or_test_from(&mut self, b: usize, e: usize) -> (usize, usize) {
        match self.action(|moment, finish| moment == b && finish <= e) {
            Some(action) => {
                let end = b + self.world.job.actions[action].duration;
                (self.add(vec![words::node(0, action, 0, 0, 0)]), end)
            }
            None => (self.test(b), b),
        }
    }

    /// A node that reads from its second number, at least k, to e.
    fn act_or_test_to(&mut self, k: usize, e: usize) -> (usize, usize) {
        match self.action(|moment, finish| moment >= k && finish == e) {
            Some(action) => {
                let begin = e - self.world.job.actions[action].duration;
                (self.add(vec![words::node(0, action, 0, 0, 0)]), begin)
            }
            None => (self.test(e), e),
        }
    }

    /// A test of a formula that holds there; formula 0 always does.
    fn test(&mut self, moment: usize) -> usize {
        let formula = self.formula(|world, formula| world.holds(formula, moment)).expect("formula 0 always holds");
        self.add(vec![words::node(1, formula, 0, 0, 0)])
    }

    fn formula(&mut self, fits: impl Fn(&World, usize) -> bool) -> Option<usize> {
        let all = 0..self.world.job.formulas.len();
        let fitting: Vec<usize> = all.filter(|&formula| fits(self.world, formula)).collect();
        (!fitting.is_empty()).then(|| *self.random.pick(&fitting))
    }

    /// A moment between b and e, rather one where a start that begins at b or ends at e leads.
    fn cut(&mut self, b: usize, e: usize) -> usize {
        let mut moments = vec![self.random.between(b, e)];
        for start in &self.world.starts {
            let finish = start.moment + start.duration;
            if start.moment == b && finish <= e {
                moments.push(finish);
            }
            if finish == e && start.moment >= b {
                moments.push(start.moment);
            }
        }
        *self.random.pick(&moments)
    }

    /// Two shares of the nodes.
    fn shares(&mut self, nodes: usize) -> (usize, usize) {
        let first = self.random.between(LEAST_NODES, nodes - LEAST_NODES);
        (first, nodes - first)
    }

    fn sequence(&mut self, b: usize, e: usize, nodes: usize) -> usize {
        let m = self.cut(b, e);
        let (first, second) = self.shares(nodes);
        let x = self.reading(b, m, first);
        let y = self.reading(m, e, second);
        self.add(vec![words::node(2, x, y, 0, 0)])
    }

    fn choice(&mut self, b: usize, e: usize, nodes: usize) -> usize {
        let read = self.reading(b, e, nodes - LEAST_NODES);
        let other = self.anything(LEAST_NODES);
        let (x, y) = if self.random.chance(50) { (read, other) } else { (other, read) };
        self.add(vec![words::node(3, x, y, 0, 0)])
    }

    /// An if whose formula is known at b.
    fn branches(&mut self, b: usize, e: usize, nodes: usize) -> usize {
        let read = self.reading(b, e, nodes - LEAST_NODES);
        let other = self.anything(LEAST_NODES);
        let wish = self.random.chance(50);
        let known = self.formula(|world, formula| world.holds(formula, b) == wish && world.fails(formula, b) != wish);
        let formula = known.unwrap_or(0);
        let (then, otherwise) = if self.world.holds(formula, b) { (read, other) } else { (other, read) };
        self.add(vec![words::node(4, formula, then, otherwise, 0)])
    }

    /// A loop from b to e, or a sequence where no formula ends it there.
    fn repeated(&mut self, b: usize, e: usize, nodes: usize) -> usize {
        let formula = match b == e {
            true => self.formula(|world, formula| world.fails(formula, b)),
            false => self.formula(|world, formula| world.holds(formula, b) && world.fails(formula, e)),
        };
        let Some(formula) = formula else {
            return self.sequence(b, e, nodes);
        };
        let body = match b == e {
            true => self.anything(nodes),
            false => {
                let borders = self.borders(formula, b, e);
                self.body(&borders, nodes)
            }
        };
        self.add(vec![words::node(5, formula, body, 0, 0)])
    }

    /// b, e and some of the moments between at which the formula holds; often all of these.
    fn borders(&mut self, formula: usize, b: usize, e: usize) -> Vec<usize> {
        let percent = *self.random.pick(&[0, 30, 60, 100, 100]);
        let mut borders = vec![b];
        for moment in b + 1..e {
            if self.world.holds(formula, moment) && self.random.chance(percent) {
                borders.push(moment);
            }
        }
        borders.push(e);
        borders
    }

    /// A node that reads from each border to the next.
    fn body(&mut self, borders: &[usize], nodes: usize) -> usize {
        if let [b, e] = borders {
            return self.reading(*b, *e, nodes);
        }
        if let Some(action) = self.action_on(borders) {
            return self.add(vec![words::node(0, action, 0, 0, 0)]);
        }
        if borders.len() <= 4 && nodes > 2 * LEAST_NODES * borders.len() {
            let first = self.reading(borders[0], borders[1], nodes / 2 - 1);
            let others = self.body(&borders[1..], nodes / 2);
            return self.add(vec![words::node(3, first, others, 0, 0)]);
        }
        self.step(borders)
    }

    /// An action that is started at each border and lasts to the next.
    fn action_on(&mut self, borders: &[usize]) -> Option<usize> {
        let lasts = |action: usize, b: usize, e: usize| {
            let mut starts = self.world.starts.iter().filter(|start| start.action == action);
            starts.any(|start| start.moment == b && start.moment + start.duration == e)
        };
        let on_all = |&action: &usize| borders.windows(2).all(|pass| lasts(action, pass[0], pass[1]));
        (0..self.world.job.actions.len()).find(on_all)
    }

    /// Two tests with a window as wide as the steps differ.
    fn step(&mut self, borders: &[usize]) -> usize {
        let steps: Vec<usize> = borders.windows(2).map(|pass| pass[1] - pass[0]).collect();
        let least = *steps.iter().min().expect("at least one pass");
        let greatest = *steps.iter().max().expect("at least one pass");
        let x = self.add(vec![words::node(1, 0, 0, 0, 0)]);
        let y = self.add(vec![words::node(1, 0, 0, 0, 0)]);
        let form = self.form_of_wait(borders[0], borders[borders.len() - 1]);
        self.add(vec![words::node(form, x, y, least, greatest)])
    }

    fn start_window(&mut self, b: usize, e: usize, nodes: usize) -> usize {
        let (first, second) = self.shares(nodes);
        let m = self.random.between(b, e);
        let (k, l) = match self.random.below(3) {
            0 => (e, e),
            1 => (e, self.random.between(m, e)),
            _ => (self.random.between(b, e), e),
        };
        let x = self.reading(b, k, first);
        let y = self.reading(m, l, second);
        let window = window_around(self.random, m - b);
        self.add(vec![words::node(6, x, y, window.m, window.n)])
    }

    fn end_window(&mut self, b: usize, e: usize, nodes: usize) -> usize {
        let (first, second) = self.shares(nodes);
        let k = self.cut(b, e);
        let m = self.cut(k, e).min(self.quiet_from(k));
        let x = self.reading(b, k, first);
        let y = self.reading(m, e, second);
        let window = window_around(self.random, m - k);
        self.add(vec![words::node(7, x, y, window.m, window.n)])
    }

    fn task_set(&mut self, b: usize, e: usize, nodes: usize) -> usize {
        let members = self.random.between(1, 4).min(nodes / LEAST_NODES);
        let placed = covering(self.random, b, e, members);
        let mut set = vec![words::node(8, 0, 0, 0, 0)];
        for member in &placed {
            let node = self.reading(member.begin, member.end, nodes / members);
            set.push(words::member(node));
        }
        let most = *self.random.pick(&[0, 1, 1, 2, 3, 12]);
        set.extend(conditions(self.random, self.world, &[placed], most).iter().take(8));
        self.add(set)
    }

    /// Some node that may read or not.
    fn anything(&mut self, most: usize) -> usize {
        let formula = self.random.below(self.world.job.formulas.len());
        let action = self.random.below(self.world.job.actions.len());
        match self.random.below(if most < 3 { 2 } else { 6 }) {
            0 => self.add(vec![words::node(1, formula, 0, 0, 0)]),
            1 | 2 => self.add(vec![words::node(0, action, 0, 0, 0)]),
            3 => {
                let body = self.anything(2);
                self.add(vec![words::node(5, formula, body, 0, 0)])
            }
            _ => {
                let x = self.anything(1);
                let y = self.anything(1);
                let Window { m, n } = window_around(self.random, 1);
                let form = *self.random.pick(&[2, 3, 6, 7]);
                let (m, n) = if form < 6 { (0, 0) } else { (m, n) };
                self.add(vec![words::node(form, x, y, m, n)])
            }
        }
    }
}
