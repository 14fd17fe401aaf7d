//! A job's nodes, added one by one after its other words.
use crate::words::{member, node};

pub struct Nodes {
    pub words: Vec<u32>,
    count: usize,
}

impl Nodes {
    pub fn after(words: Vec<u32>) -> Nodes {
        Nodes { words, count: 0 }
    }

    /// Adds a node and what belongs to it; its number.
    pub fn add(&mut self, node: u32, rest: &[u32]) -> usize {
        self.words.push(node);
        self.words.extend(rest);
        self.count += 1;
        self.count - 1
    }

    pub fn act(&mut self, action: usize) -> usize {
        self.add(node(0, action, 0, 0, 0), &[])
    }

    pub fn test(&mut self, formula: usize) -> usize {
        self.add(node(1, formula, 0, 0, 0), &[])
    }

    pub fn sequence(&mut self, x: usize, y: usize) -> usize {
        self.add(node(2, x, y, 0, 0), &[])
    }

    /// Two tests of a formula, the second at most `span` later, with no start in between: an end window.
    pub fn window(&mut self, formula: usize, span: usize) -> usize {
        let (x, y) = (self.test(formula), self.test(formula));
        self.add(node(7, x, y, 0, span), &[])
    }

    /// Two tests of a formula, the second at most `span` later, whatever starts in between: a start window.
    pub fn span(&mut self, formula: usize, length: usize) -> usize {
        let (x, y) = (self.test(formula), self.test(formula));
        self.add(node(6, x, y, 0, length), &[])
    }

    pub fn set(&mut self, members: &[usize], conditions: &[u32]) -> usize {
        let members: Vec<u32> = members.iter().map(|&number| member(number)).collect();
        self.add(node(8, 0, 0, 0, 0), &[&members[..], conditions].concat())
    }
}
