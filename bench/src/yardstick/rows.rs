//! The table of ends: for each node p and begin b, at p * 64 + b, the moments to which p reads from b.
use crate::masks::{each, from, has, low, range, upto};
use crate::yardstick::job::{Job, Node};
use crate::yardstick::sets::{Set, Sets};
use crate::yardstick::world::World;

pub struct Table {
    words: Vec<u64>,
}

impl Table {
    pub fn row(&self, node: usize) -> &[u64] {
        &self.words[node * 64..node * 64 + 64]
    }

    pub fn ends(&self, node: usize, begin: usize) -> u64 {
        self.words[node * 64 + begin]
    }

    pub fn has(&self, node: usize, begin: usize, end: usize) -> bool {
        has(self.ends(node, begin), end)
    }

    /// The moments to which a node reads from one of these begins.
    fn ends_from(&self, node: usize, begins: u64) -> u64 {
        each(begins).fold(0, |ends, begin| ends | self.ends(node, begin))
    }

    pub fn count(&self) -> u32 {
        self.words.iter().map(|word| word.count_ones()).sum()
    }
}

pub fn fill(job: &Job, world: &World, sets: &mut Sets) -> Table {
    let mut table = Table { words: vec![0; 64 * job.nodes.len()] };
    for (number, node) in job.nodes.iter().enumerate() {
        let begins = number * 64..number * 64 + job.last + 1;
        if node.form == 8 {
            let rows = sets.rows(&Set::of(job, world, &table, number));
            table.words[begins].copy_from_slice(&rows[..=job.last]);
        } else {
            for begin in (0..=job.last).rev() {
                table.words[number * 64 + begin] = ends(job, world, &table, number, node, begin);
            }
        }
    }
    table
}

fn ends(job: &Job, world: &World, table: &Table, number: usize, node: &Node, b: usize) -> u64 {
    let (x, y) = (node.x, node.y);
    match node.form {
        0 if has(world.starts[x], b) => 1 << (b + job.actions[x].duration),
        1 if has(world.holds[x], b) => 1 << b,
        0 | 1 => 0,
        2 => table.ends_from(y, table.ends(x, b)),
        3 => table.ends(x, b) | table.ends(y, b),
        4 if has(world.holds[x], b) => table.ends(y, b),
        4 if has(world.fails[x], b) => table.ends(node.m, b),
        5 if has(world.fails[x], b) => 1 << b,
        5 if has(world.holds[x], b) => table.ends_from(number, table.ends(y, b) & from(b + 1)),
        4 | 5 => 0,
        6 => later_of(table.ends(x, b), table.ends_from(y, window(job, node, b))),
        _ => table.ends_from(y, each(table.ends(x, b)).fold(0, |begins, k| begins | quiet_window(job, world, node, k))),
    }
}

/// The moments t + M to t + N.
pub fn window(job: &Job, node: &Node, t: usize) -> u64 {
    range(t + node.m, (t + node.n).min(job.last))
}

/// The moments k + M to k + N up to the first start from k on: until then an end window may wait.
pub fn quiet_window(job: &Job, world: &World, node: &Node, k: usize) -> u64 {
    window(job, node, k) & upto(low(world.all_starts & from(k)))
}

/// The greater one of an end of the one set and an end of the other, for all pairs.
pub fn later_of(one: u64, other: u64) -> u64 {
    if one == 0 || other == 0 {
        0
    } else {
        one & from(low(other)) | other & from(low(one))
    }
}
