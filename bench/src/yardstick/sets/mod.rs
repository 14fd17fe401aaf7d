//! Task sets: the ends to which a set reads from each begin, and a placement for one begin and end.
mod search;
mod tables;

use crate::masks::{each, high, range, upto};
use crate::yardstick::job::{Condition, Job};
use crate::yardstick::rows::Table;
use crate::yardstick::world::World;
use search::Search;
use tables::Tables;

/// The most members that a set has.
const MOST: usize = 4;

pub struct Set<'a> {
    /// n
    last: usize,
    members: usize,
    /// By member and begin: its ends.
    rows: [&'a [u64]; MOST],
    conditions: &'a [Condition],
    /// By formula: the moments at which it holds.
    holds: &'a [u64],
}

impl<'a> Set<'a> {
    pub fn of(job: &'a Job, world: &'a World, table: &'a Table, number: usize) -> Set<'a> {
        let node = &job.nodes[number];
        let mut rows: [&[u64]; MOST] = [&[]; MOST];
        for (row, &member) in rows.iter_mut().zip(&node.members) {
            *row = table.row(member);
        }
        let members = node.members.len();
        Set { last: job.last, members, rows, conditions: &node.conditions, holds: &world.holds }
    }
}

/// The tables of the set that is worked on, kept so that only what a set uses is filled anew.
pub struct Sets {
    tables: Box<Tables>,
}

impl Default for Sets {
    fn default() -> Sets {
        Sets { tables: Box::new(Tables::new()) }
    }
}

impl Sets {
    /// By begin: the ends to which the set reads.
    pub fn rows(&mut self, set: &Set) -> [u64; 64] {
        self.tables.fill(set, 0, set.last);
        let begins = (0..set.members).fold(0, |begins, i| begins | self.tables.reach[i][0]);
        let mut rows = [0; 64];
        for lo in each(begins) {
            rows[lo] = self.row(set, lo, range(lo, set.last)).0;
        }
        rows
    }

    /// A placement of a set that reads from lo to hi. Tables are filled for lo to hi only, so that all passes of a loop together cost
    /// about what two full tables cost.
    pub fn place(&mut self, set: &Set, lo: usize, hi: usize) -> Vec<(usize, usize)> {
        self.tables.fill(set, lo, hi);
        let (_, begins) = self.row(set, lo, 1 << hi);
        let end = |i: usize| high(self.tables.ends_of(i, &begins[..set.members]) & upto(hi));
        (0..set.members).map(|i| (begins[i], end(i))).collect()
    }

    /// Those of the ends `goal` to which the set reads from lo, and the begins for one of them.
    fn row(&mut self, set: &Set, lo: usize, goal: u64) -> (u64, [usize; MOST]) {
        let mut search = Search::new(&self.tables, set.members, lo);
        search.row(goal);
        (search.found, search.begins)
    }
}
