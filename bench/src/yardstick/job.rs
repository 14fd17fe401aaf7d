//! A well-formed job, taken apart; nothing is checked.
use crate::words::{field, form, kind};

pub struct Job {
    /// n
    pub last: usize,
    /// By fluent: the value known at 0.
    pub initially: Vec<Option<bool>>,
    pub actions: Vec<Action>,
    pub formulas: Vec<Formula>,
    pub nodes: Vec<Node>,
}

pub struct Action {
    pub duration: usize,
    pub makes: Vec<(usize, bool)>,
}

pub struct Formula {
    pub form: usize,
    pub x: usize,
    pub y: usize,
}

pub struct Node {
    pub form: usize,
    pub x: usize,
    pub y: usize,
    pub m: usize,
    pub n: usize,
    pub members: Vec<usize>,
    pub conditions: Vec<Condition>,
}

#[derive(Clone, Copy)]
pub struct Condition {
    pub form: usize,
    pub formula: usize,
    pub i: usize,
    pub j: usize,
    pub m: usize,
    pub n: usize,
}

pub fn read(words: &[u32]) -> Job {
    let wide = form(words[0]) == 1;
    let fluents = match field(words[0], 23, 16) {
        0 => 256,
        fluents => fluents,
    };
    let last = field(words[0], 7, 0);
    let mut job = Job { last, initially: vec![None; fluents], actions: vec![], formulas: vec![], nodes: vec![] };
    for &word in &words[1..] {
        job.take(word, wide);
    }
    job
}

impl Job {
    pub fn root(&self) -> usize {
        self.nodes.len() - 1
    }

    /// A fluent has six bits, in a wide job eight; a value or a role stands above it.
    fn take(&mut self, word: u32, wide: bool) {
        let above = if wide { 8 } else { 6 };
        match kind(word) {
            2 => self.initially[field(word, above - 1, 0)] = Some(field(word, above, above) == 0),
            3 => self.actions.push(Action { duration: field(word, 5, 0), makes: vec![] }),
            4 => self.take_law(field(word, above + 1, above), field(word, above - 1, 0)),
            5 if wide && form(word) == 1 => self.formulas.push(Formula { form: 1, x: field(word, 7, 0), y: 0 }),
            5 => self.formulas.push(Formula { form: form(word), x: field(word, 11, 6), y: field(word, 5, 0) }),
            6 => self.nodes.push(node(word)),
            7 => self.newest().members.push(field(word, 5, 0)),
            8 => self.newest().conditions.push(condition(word)),
            _ => {} // a shift window, a group or a member of one, which bind the starts alone
        }
    }

    fn take_law(&mut self, role: usize, fluent: usize) {
        if role >= 2 {
            self.actions.last_mut().expect("a law follows its action").makes.push((fluent, role == 2));
        }
    }

    fn newest(&mut self) -> &mut Node {
        self.nodes.last_mut().expect("members and conditions follow their set")
    }
}

fn node(word: u32) -> Node {
    Node {
        form: form(word),
        x: field(word, 23, 18),
        y: field(word, 17, 12),
        m: field(word, 11, 6),
        n: field(word, 5, 0),
        members: vec![],
        conditions: vec![],
    }
}

fn condition(word: u32) -> Condition {
    Condition {
        form: form(word),
        formula: field(word, 23, 18),
        i: field(word, 17, 15),
        j: field(word, 14, 12),
        m: field(word, 11, 6),
        n: field(word, 5, 0),
    }
}
