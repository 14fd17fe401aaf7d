//! A reading of a node from b to e, of which the table says that there is one.
use crate::masks::{each, from, has, low};
use crate::words;
use crate::yardstick::job::Job;
use crate::yardstick::rows::{later_of, quiet_window, window, Table};
use crate::yardstick::sets::{Set, Sets};
use crate::yardstick::world::World;

pub struct Writer<'a> {
    pub job: &'a Job,
    pub world: &'a World,
    pub table: &'a Table,
    pub sets: &'a mut Sets,
    pub reading: Vec<u32>,
}

impl Writer<'_> {
    pub fn write(&mut self, number: usize, b: usize, e: usize) {
        self.reading.push(words::reading(number, b, e));
        let node = &self.job.nodes[number];
        match node.form {
            0 | 1 => {}
            2 => self.sequence(number, b, e),
            3 if self.table.has(node.x, b, e) => self.write(node.x, b, e),
            3 => self.write(node.y, b, e),
            4 if has(self.world.holds[node.x], b) => self.write(node.y, b, e),
            4 => self.write(node.m, b, e),
            5 => self.passes(number, b, e),
            6 => self.start_window(number, b, e),
            7 => self.end_window(number, b, e),
            _ => self.members(number, b, e),
        }
    }

    fn sequence(&mut self, number: usize, b: usize, e: usize) {
        let node = &self.job.nodes[number];
        let cut = each(self.table.ends(node.x, b)).find(|&m| self.table.has(node.y, m, e)).expect("Y reads to e");
        self.write(node.x, b, cut);
        self.write(node.y, cut, e);
    }

    fn passes(&mut self, number: usize, b: usize, e: usize) {
        let body = self.job.nodes[number].y;
        let mut begin = b;
        while begin < e {
            let mut ends = each(self.table.ends(body, begin) & from(begin + 1));
            let end = ends.find(|&m| self.table.has(number, m, e)).expect("the loop reads to e");
            self.write(body, begin, end);
            begin = end;
        }
    }

    fn start_window(&mut self, number: usize, b: usize, e: usize) {
        let node = &self.job.nodes[number];
        let (table, xs) = (self.table, self.table.ends(node.x, b));
        let fits = |&m: &usize| has(later_of(xs, table.ends(node.y, m)), e);
        let begin = each(window(self.job, node, b)).find(fits).expect("Y begins in the window");
        let ys = table.ends(node.y, begin);
        let (k, l) = if has(xs, e) { (e, low(ys)) } else { (low(xs), e) };
        self.write(node.x, b, k);
        self.write(node.y, begin, l);
    }

    fn end_window(&mut self, number: usize, b: usize, e: usize) {
        let (job, world, table, node) = (self.job, self.world, self.table, &self.job.nodes[number]);
        let begin = |k: usize| each(quiet_window(job, world, node, k)).find(|&m| table.has(node.y, m, e));
        let mut cuts = each(table.ends(node.x, b)).filter_map(|k| begin(k).map(|m| (k, m)));
        let (k, m) = cuts.next().expect("Y begins in the window");
        self.write(node.x, b, k);
        self.write(node.y, m, e);
    }

    fn members(&mut self, number: usize, b: usize, e: usize) {
        let placed = self.sets.place(&Set::of(self.job, self.world, self.table, number), b, e);
        for (&member, (begin, end)) in self.job.nodes[number].members.iter().zip(placed) {
            self.write(member, begin, end);
        }
    }
}
