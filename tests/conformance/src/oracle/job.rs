//! Document 01, "Job words", and the rows on the job in "Where each check is made"; document 02, L4, "Shift windows",
//! L5, "Grippers are few", L6, "Two hundred and fifty-six facts", and L7, "Has held for a while".

use crate::oracle::answer::{refuse, Refusal};
use crate::oracle::layout::{by_head, mask, part, Layout};
use crate::words::{bits, field, form, kind};

pub const MOST_WORDS: usize = 2048;

/// A well-formed job, taken apart.
#[derive(Clone, Debug)]
pub struct Job {
    /// L6: where fluents are named in its words, and how many words its filler needs.
    pub layout: Layout,
    pub fluents: usize,
    pub head_actions: usize,
    /// n: "Moments are 0..n."
    pub last: usize,
    pub initially: Vec<Known>,
    pub actions: Vec<Action>,
    /// The groups that are declared, in the order of their kind 13 words.
    pub groups: Vec<Group>,
    pub formulas: Vec<Formula>,
    pub nodes: Vec<Node>,
}

/// A fluent with a value: initially known, needed or made.
#[derive(Clone, Copy, Debug, PartialEq, Eq)]
pub struct Known {
    pub fluent: usize,
    pub value: bool,
}

#[derive(Clone, Debug)]
pub struct Action {
    pub duration: usize,
    pub needs: Vec<Known>,
    pub makes: Vec<Known>,
    /// Its kind 12 words, in their order. "An action without windows is free."
    pub shifts: Vec<Shift>,
}

/// L4: "17..12 action, 11..6 from, 5..0 to"
#[derive(Clone, Copy, Debug, PartialEq, Eq)]
pub struct Shift {
    pub from: usize,
    pub to: usize,
}

/// L5: "kind 13, 27..24 group, 5..0 limit; kind 14, 27..24 group, 5..0 action"
#[derive(Clone, Debug, PartialEq, Eq)]
pub struct Group {
    pub number: usize,
    pub limit: usize,
    /// The actions of its kind 14 words, in their order.
    pub actions: Vec<usize>,
}

#[derive(Clone, Copy, Debug, PartialEq, Eq)]
pub enum Formula {
    Always,
    Fluent(usize),
    Not(usize),
    And(usize, usize),
    Or(usize, usize),
    /// L7's form 5: "X has held for Y moments".
    Held {
        x: usize,
        moments: usize,
    },
}

/// M and N of a window or a condition.
#[derive(Clone, Copy, Debug, PartialEq, Eq)]
pub struct Window {
    pub m: usize,
    pub n: usize,
}

#[derive(Clone, Debug)]
pub enum Node {
    Act(usize),
    Test(usize),
    Sequence(usize, usize),
    Choice(usize, usize),
    If { formula: usize, then: usize, otherwise: usize },
    While { formula: usize, body: usize },
    StartWindow(usize, usize, Window),
    EndWindow(usize, usize, Window),
    TaskSet { members: Vec<usize>, conditions: Vec<Condition> },
}

#[derive(Clone, Copy, Debug)]
pub struct Condition {
    pub form: usize,
    pub formula: usize,
    pub i: usize,
    pub j: usize,
    pub window: Window,
}

/// All rows on the job, from the top: its length, each word in turn, its end.
pub fn read_job(words: &[u32]) -> Result<Job, Refusal> {
    if !(1..=MOST_WORDS).contains(&words.len()) {
        return refuse(1, 0);
    }
    // "Bits 27..24 of the head from 2 to 15 are 2 at word 0."
    let Some(layout) = by_head(words[0]) else {
        return refuse(2, 0);
    };
    let mut job = Job::empty(layout);
    for (position, &word) in words.iter().enumerate() {
        let before = position.checked_sub(1).map(|index| words[index]);
        if not_allowed(&layout, before, word) {
            return refuse(2, position);
        }
        if wrong(&job, word) {
            return refuse(3, position);
        }
        if named_twice(&job, word) {
            return refuse(4, position);
        }
        job.take(word);
    }
    job_end(&job, words.len())?;
    Ok(job)
}

// Row 2: "kind, form or predecessor not allowed, or spare bit set"

fn not_allowed(layout: &Layout, before: Option<u32>, word: u32) -> bool {
    !kind_and_form_allowed(word) || !may_follow(before, word) || word & !used_bits(layout, word) != 0
}

fn kind_and_form_allowed(word: u32) -> bool {
    match kind(word) {
        1 | 2 | 3 | 4 | 7 | 12 | 13 | 14 => true,
        5 => form(word) <= 5,
        6 => form(word) <= 8,
        8 => form(word) <= 4,
        _ => false,
    }
}

/// The sentences "Follows ..". Kind 1 is "only and always word 0". Of kind 12: "it follows kinds 3, 4 or 12, and kinds
/// 5 and 6 may follow it". "Kind 13 follows 3, 4, 12 or 13, kind 14 follows 13 or 14, and kinds 5 and 6 may follow
/// either".
fn may_follow(before: Option<u32>, word: u32) -> bool {
    let Some(before) = before else {
        return kind(word) == 1;
    };
    let after_set = kind(before) == 6 && form(before) == 8;
    match kind(word) {
        2 => matches!(kind(before), 1 | 2),
        3 => matches!(kind(before), 1..=4),
        4 => matches!(kind(before), 3 | 4),
        5 => matches!(kind(before), 1..=5 | 12..=14),
        6 => matches!(kind(before), 1..=8 | 12..=14) && !after_set,
        7 => after_set || kind(before) == 7,
        8 => matches!(kind(before), 7 | 8),
        12 => matches!(kind(before), 3 | 4 | 12),
        13 => matches!(kind(before), 3 | 4 | 12 | 13),
        14 => matches!(kind(before), 13 | 14),
        _ => false,
    }
}

/// The bits that a word of this kind and form uses: "A field that its form doesn't use is spare." Those of a head are
/// all used.
fn used_bits(layout: &Layout, word: u32) -> u32 {
    let x_y = bits(23, 18) | bits(17, 12);
    let m_n = bits(11, 6) | bits(5, 0);
    let fields = match (kind(word), form(word)) {
        (1, _) => bits(27, 24) | bits(23, 16) | bits(15, 8) | bits(7, 0),
        (2, _) => mask(layout.known_value) | mask(layout.known),
        (3, _) => bits(11, 6) | bits(5, 0),
        (4, _) => mask(layout.role) | mask(layout.law),
        (5, 0) => bits(27, 24),
        (5, 1) => bits(27, 24) | mask(layout.formula),
        (5, 2) => bits(27, 24) | bits(11, 6),
        (5, _) => bits(27, 24) | bits(11, 6) | bits(5, 0),
        (6, 0) | (6, 1) => bits(27, 24) | bits(23, 18),
        (6, 2) | (6, 3) => bits(27, 24) | x_y,
        (6, 4) => bits(27, 24) | x_y | bits(11, 6),
        (6, 5) => bits(27, 24) | x_y,
        (6, 6) | (6, 7) => bits(27, 24) | x_y | m_n,
        (6, _) => bits(27, 24),
        (7, _) => bits(5, 0),
        (8, 0) | (8, 1) => bits(27, 24) | bits(17, 15) | bits(14, 12) | m_n,
        (8, 2) | (8, 3) => bits(27, 24) | bits(23, 18) | bits(17, 15) | m_n,
        (12, _) => bits(17, 12) | bits(11, 6) | bits(5, 0),
        (13 | 14, _) => bits(27, 24) | bits(5, 0),
        _ => bits(27, 24) | bits(23, 18) | bits(17, 15) | bits(14, 12) | m_n,
    };
    bits(31, 28) | fields
}

// Row 3: "number, reference, range or window wrong; a 65th formula or node, 5th member or 9th condition"

fn wrong(job: &Job, word: u32) -> bool {
    match kind(word) {
        1 => wrong_head(job, word),
        2 => part(word, job.layout.known) >= job.fluents,
        4 => part(word, job.layout.law) >= job.fluents,
        3 => wrong_action(job, word),
        5 => job.formulas.len() == 64 || wrong_formula(job, word),
        6 => job.nodes.len() == 64 || wrong_node(job, word),
        7 => wrong_member(job, word),
        8 => wrong_condition(job, word),
        12 => wrong_shift(job, word),
        13 => field(word, 27, 24) > HIGHEST_GROUP,
        14 => wrong_pair(job, word),
        _ => unreachable!("row 2 lets no other kind pass"),
    }
}

fn wrong_head(job: &Job, word: u32) -> bool {
    let fluents = (job.layout.fluents)(field(word, 23, 16));
    let actions = field(word, 15, 8);
    let last = field(word, 7, 0);
    fluents.is_none() || !(1..=64).contains(&actions) || last > 63
}

/// "its number (0, 1, 2, ..)", "duration (1 to 63)"
fn wrong_action(job: &Job, word: u32) -> bool {
    field(word, 11, 6) != job.actions.len() || field(word, 5, 0) == 0
}

/// "In forms 2 to 4 the references are lower formula numbers." Form 5: "X a lower formula, Y from 0 to 63", which any
/// field is.
fn wrong_formula(job: &Job, word: u32) -> bool {
    let x = field(word, 11, 6);
    let y = field(word, 5, 0);
    let own = job.formulas.len();
    match form(word) {
        0 => false,
        1 => part(word, job.layout.formula) >= job.fluents,
        2 | 5 => x >= own,
        _ => x >= own || y >= own,
    }
}

/// "A child node's number is lower than its parent's", "A reference must name something declared earlier."
fn wrong_node(job: &Job, word: u32) -> bool {
    let x = field(word, 23, 18);
    let y = field(word, 17, 12);
    let m = field(word, 11, 6);
    let n = field(word, 5, 0);
    let own = job.nodes.len();
    let formulas = job.formulas.len();
    match form(word) {
        0 => x >= job.actions.len(),
        1 => x >= formulas,
        2 | 3 => x >= own || y >= own,
        4 => x >= formulas || y >= own || m >= own,
        5 => x >= formulas || y >= own,
        6 | 7 => x >= own || y >= own || m > n,
        _ => false,
    }
}

fn wrong_member(job: &Job, word: u32) -> bool {
    let (set, members, _) = job.last_set();
    members.len() == 4 || field(word, 5, 0) >= set
}

/// "M ≤ N in [..] condition forms 0 to 3."
fn wrong_condition(job: &Job, word: u32) -> bool {
    let (_, members, conditions) = job.last_set();
    let condition = condition_of(word);
    let uses_formula = matches!(condition.form, 2..=4);
    let uses_j = matches!(condition.form, 0 | 1 | 4);
    conditions.len() == 8
        || condition.i >= members.len()
        || (uses_j && condition.j >= members.len())
        || (uses_formula && condition.formula >= job.formulas.len())
        || (condition.form <= 3 && condition.window.m > condition.window.n)
}

/// "from ≤ to or refusal 3"; an action not declared so far is a wrong reference.
fn wrong_shift(job: &Job, word: u32) -> bool {
    field(word, 17, 12) >= job.actions.len() || field(word, 11, 6) > field(word, 5, 0)
}

/// "Groups are numbered 0 to 7, a higher number is 3"
const HIGHEST_GROUP: usize = 7;

/// A higher number, or "an undeclared group 3"; an action not declared so far is a wrong reference.
fn wrong_pair(job: &Job, word: u32) -> bool {
    let number = field(word, 27, 24);
    number > HIGHEST_GROUP || job.group(number).is_none() || field(word, 5, 0) >= job.actions.len()
}

// Row 4: "fluent twice in kind 2; or twice in roles 0, 1, or in 2, 3, of one action"; L5: "a group declared twice or a
// pair listed twice is 4"

fn named_twice(job: &Job, word: u32) -> bool {
    let named = |list: &[Known], at| list.iter().any(|known| known.fluent == part(word, at));
    match kind(word) {
        2 => named(&job.initially, job.layout.known),
        4 => {
            let action = job.actions.last().expect("a law follows its action");
            match part(word, job.layout.role) {
                0 | 1 => named(&action.needs, job.layout.law),
                _ => named(&action.makes, job.layout.law),
            }
        }
        13 => job.group(field(word, 27, 24)).is_some(),
        14 => job.group(field(word, 27, 24)).is_some_and(|group| group.actions.contains(&field(word, 5, 0))),
        _ => false,
    }
}

// The job end.

fn job_end(job: &Job, length: usize) -> Result<(), Refusal> {
    if job.actions.len() != job.head_actions {
        return refuse(3, length);
    }
    let Some(root) = job.nodes.len().checked_sub(1) else {
        return refuse(5, 0);
    };
    if matches!(&job.nodes[root], Node::TaskSet { members, .. } if members.is_empty()) {
        return refuse(5, root);
    }
    let named: Vec<usize> = job.nodes.iter().flat_map(|node| node.children()).collect();
    for number in 0..root {
        if named.iter().filter(|&&child| child == number).count() != 1 {
            return refuse(5, number);
        }
    }
    Ok(())
}

impl Node {
    /// The nodes that this node names as children.
    pub fn children(&self) -> Vec<usize> {
        match self {
            Node::Act(_) | Node::Test(_) => vec![],
            Node::Sequence(x, y) | Node::Choice(x, y) => vec![*x, *y],
            Node::If { then, otherwise, .. } => vec![*then, *otherwise],
            Node::While { body, .. } => vec![*body],
            Node::StartWindow(x, y, _) | Node::EndWindow(x, y, _) => vec![*x, *y],
            Node::TaskSet { members, .. } => members.clone(),
        }
    }

    /// The form number of kind 6.
    pub fn form(&self) -> usize {
        match self {
            Node::Act(_) => 0,
            Node::Test(_) => 1,
            Node::Sequence(..) => 2,
            Node::Choice(..) => 3,
            Node::If { .. } => 4,
            Node::While { .. } => 5,
            Node::StartWindow(..) => 6,
            Node::EndWindow(..) => 7,
            Node::TaskSet { .. } => 8,
        }
    }
}

// Taking a word that rows 2, 3 and 4 let pass.

impl Job {
    fn empty(layout: Layout) -> Job {
        Job {
            layout,
            fluents: 0,
            head_actions: 0,
            last: 0,
            initially: vec![],
            actions: vec![],
            groups: vec![],
            formulas: vec![],
            nodes: vec![],
        }
    }

    /// The last node, which is a task set where this is asked: its number, members and conditions.
    fn last_set(&self) -> (usize, &[usize], &[Condition]) {
        match self.nodes.last() {
            Some(Node::TaskSet { members, conditions }) => (self.nodes.len() - 1, members, conditions),
            _ => unreachable!("members and conditions follow a task set"),
        }
    }

    /// The declared group of this number.
    fn group(&self, number: usize) -> Option<&Group> {
        self.groups.iter().find(|group| group.number == number)
    }

    fn take(&mut self, word: u32) {
        match kind(word) {
            1 => self.take_head(word),
            2 => self.take_known(word),
            3 => self.take_action(word),
            4 => self.take_law(word),
            5 => self.formulas.push(formula_of(&self.layout, word)),
            6 => self.nodes.push(node_of(word)),
            12 => self.take_shift(word),
            13 => self.take_group(word),
            14 => self.take_pair(word),
            7 | 8 => self.take_set_word(word),
            _ => unreachable!("row 2 lets no other kind pass"),
        }
    }

    fn take_head(&mut self, word: u32) {
        self.fluents = (self.layout.fluents)(field(word, 23, 16)).expect("row 3 has seen that F is in range");
        self.head_actions = field(word, 15, 8);
        self.last = field(word, 7, 0);
    }

    /// "(0 true, 1 false)"
    fn take_known(&mut self, word: u32) {
        let value = part(word, self.layout.known_value) == 0;
        self.initially.push(Known { fluent: part(word, self.layout.known), value });
    }

    fn take_action(&mut self, word: u32) {
        self.actions.push(Action { duration: field(word, 5, 0), needs: vec![], makes: vec![], shifts: vec![] });
    }

    /// The action that the word names, whichever was declared last.
    fn take_shift(&mut self, word: u32) {
        let shift = Shift { from: field(word, 11, 6), to: field(word, 5, 0) };
        self.actions[field(word, 17, 12)].shifts.push(shift);
    }

    fn take_group(&mut self, word: u32) {
        self.groups.push(Group { number: field(word, 27, 24), limit: field(word, 5, 0), actions: vec![] });
    }

    /// The group that the word names, whichever was declared last.
    fn take_pair(&mut self, word: u32) {
        let mut named = self.groups.iter_mut().filter(|group| group.number == field(word, 27, 24));
        let group = named.next().expect("row 3 has seen that the group is declared");
        group.actions.push(field(word, 5, 0));
    }

    /// "role (0 needs true, 1 needs false, 2 makes true, 3 makes false)"
    fn take_law(&mut self, word: u32) {
        let action = self.actions.last_mut().expect("a law follows its action");
        let fluent = part(word, self.layout.law);
        match part(word, self.layout.role) {
            0 => action.needs.push(Known { fluent, value: true }),
            1 => action.needs.push(Known { fluent, value: false }),
            2 => action.makes.push(Known { fluent, value: true }),
            _ => action.makes.push(Known { fluent, value: false }),
        }
    }

    fn take_set_word(&mut self, word: u32) {
        if let Some(Node::TaskSet { members, conditions }) = self.nodes.last_mut() {
            match kind(word) {
                7 => members.push(field(word, 5, 0)),
                _ => conditions.push(condition_of(word)),
            }
        }
    }
}

fn formula_of(layout: &Layout, word: u32) -> Formula {
    let x = field(word, 11, 6);
    let y = field(word, 5, 0);
    match form(word) {
        0 => Formula::Always,
        1 => Formula::Fluent(part(word, layout.formula)),
        2 => Formula::Not(x),
        3 => Formula::And(x, y),
        4 => Formula::Or(x, y),
        _ => Formula::Held { x, moments: y },
    }
}

fn node_of(word: u32) -> Node {
    let x = field(word, 23, 18);
    let y = field(word, 17, 12);
    let m = field(word, 11, 6);
    let n = field(word, 5, 0);
    match form(word) {
        0 => Node::Act(x),
        1 => Node::Test(x),
        2 => Node::Sequence(x, y),
        3 => Node::Choice(x, y),
        4 => Node::If { formula: x, then: y, otherwise: m },
        5 => Node::While { formula: x, body: y },
        6 => Node::StartWindow(x, y, Window { m, n }),
        7 => Node::EndWindow(x, y, Window { m, n }),
        _ => Node::TaskSet { members: vec![], conditions: vec![] },
    }
}

fn condition_of(word: u32) -> Condition {
    Condition {
        form: form(word),
        formula: field(word, 23, 18),
        i: field(word, 17, 15),
        j: field(word, 14, 12),
        window: Window { m: field(word, 11, 6), n: field(word, 5, 0) },
    }
}
