//! What the conditions of a task set leave, as words: of a member alone, and of a member beside another one.
use super::{Set, MOST};
use crate::masks::{each, from, has, high, low, range, range_before, upto};
use crate::yardstick::job::Condition;

type Rows = [[u64; 64]; MOST];
type Pairs = [[[u64; 64]; MOST]; MOST];

/// For begins and ends from a to z. Entries of other members and moments are left as they are.
pub struct Tables {
    a: usize,
    z: usize,
    /// [i][x]: the ends of i from x that its own conditions, and some begin of each other member, allow.
    pub own: Rows,
    /// [i][j][y]: the ends of i that conditions 1 and 4 allow where j begins at y.
    pub ends: Pairs,
    /// [i][j][x]: the begins of j that conditions 0 allow where i begins at x, with which both have an end.
    pub goes: Pairs,
    /// [i][j][e]: the begins of j with which i may end at e or later.
    pub late: Pairs,
    /// [i][j][e]: the begins of j with which i may end at e or sooner.
    pub soon: Pairs,
    /// [i][j]: the begins of j with which i may end no sooner than j.
    pub last: [[u64; MOST]; MOST],
    /// [i][j]: whether a condition is on i and j, which differ.
    bound: [[bool; MOST]; MOST],
    /// [i][j]: whether a condition 1 or 4 is on the end of i and the begin of j, which differ.
    pub tied: [[bool; MOST]; MOST],
    /// [i][x]: the ends of i from x or a later begin.
    pub later: Rows,
    /// [i][g]: the begins of i with an end at g or later.
    pub reach: Rows,
}

impl Tables {
    pub fn new() -> Tables {
        let (rows, pairs, none) = ([[0; 64]; MOST], [[[0; 64]; MOST]; MOST], [[false; MOST]; MOST]);
        Tables {
            a: 0,
            z: 0,
            own: rows,
            ends: pairs,
            goes: pairs,
            late: pairs,
            soon: pairs,
            last: [[0; MOST]; MOST],
            bound: none,
            tied: none,
            later: rows,
            reach: rows,
        }
    }

    pub fn fill(&mut self, set: &Set, a: usize, z: usize) {
        (self.a, self.z) = (a, z);
        self.clear(set.members);
        for condition in set.conditions {
            self.take(set, condition);
        }
        self.fill_own(set);
        let pairs = (0..set.members).flat_map(|i| (0..set.members).map(move |j| (i, j)));
        let bound: Vec<(usize, usize)> = pairs.filter(|&(i, j)| self.bound[i][j]).collect();
        for &(i, j) in &bound {
            self.drop_begins_without_end(i, j);
        }
        for &(i, j) in &bound {
            self.drop_ends_without_begin(i, j);
        }
        for &(i, j) in &bound {
            if self.tied[i][j] {
                self.fill_late_and_soon(i, j);
            }
        }
        for i in 0..set.members {
            self.fill_later_and_reach(i);
        }
    }

    /// The ends of i with these begins of all members.
    pub fn ends_of(&self, i: usize, begins: &[usize]) -> u64 {
        let others = (0..begins.len()).filter(|&j| j != i);
        others.fold(self.own[i][begins[i]], |ends, j| ends & self.ends[i][j][begins[j]])
    }

    fn clear(&mut self, members: usize) {
        for i in 0..members {
            for j in 0..members {
                self.bound[i][j] = false;
                self.tied[i][j] = false;
                self.ends[i][j][self.a..=self.z].fill(u64::MAX);
                self.goes[i][j][self.a..=self.z].fill(u64::MAX);
            }
        }
    }

    /// What one condition leaves. Those on one member are kept at [i][i].
    fn take(&mut self, set: &Set, condition: &Condition) {
        let &Condition { form, formula, i, j, .. } = condition;
        match form {
            0 => self.take_begins(condition),
            1 => self.take_end_and_begin(condition),
            2 => self.take_before_begin(condition, !set.holds[formula]),
            3 => self.take_after_end(condition, !set.holds[formula], set.last),
            _ => self.take_between(condition, !set.holds[formula]),
        }
        if i != j && form != 2 && form != 3 {
            self.bound[i][j] = true;
            self.bound[j][i] = true;
            self.tied[i][j] |= form != 0;
        }
    }

    /// Form 0.
    fn take_begins(&mut self, &Condition { i, j, m, n, .. }: &Condition) {
        for t in self.a..=self.z {
            self.goes[i][j][t] &= range(t + m, t + n);
            self.goes[j][i][t] &= range_before(t, m, n);
        }
    }

    /// Form 1.
    fn take_end_and_begin(&mut self, &Condition { i, j, m, n, .. }: &Condition) {
        for y in self.a..=self.z {
            self.ends[i][j][y] &= range_before(y, m, n);
        }
    }

    /// Form 2.
    fn take_before_begin(&mut self, &Condition { i, m, n, .. }: &Condition, not_held: u64) {
        for x in self.a..=self.z {
            if x < n || range(x - n, x - m) & not_held != 0 {
                self.goes[i][i][x] = 0;
            }
        }
    }

    /// Form 3.
    fn take_after_end(&mut self, &Condition { i, m, n, .. }: &Condition, not_held: u64, last: usize) {
        let met = |&e: &usize| e + n <= last && range(e + m, e + n) & not_held == 0;
        let ends = (self.a..=self.z).filter(met).fold(0, |ends, e| ends | 1 << e);
        for x in self.a..=self.z {
            self.ends[i][i][x] &= ends;
        }
    }

    /// Form 4: the moments e + M to y - N hold when none of them is at or before the last one up to y - N that does not hold.
    fn take_between(&mut self, &Condition { i, j, m, n, .. }: &Condition, not_held: u64) {
        for y in self.a.max(n)..=self.z {
            let bad = not_held & upto(y - n);
            if bad != 0 {
                self.ends[i][j][y] &= from((high(bad) + 1).saturating_sub(m));
            }
        }
    }

    fn fill_own(&mut self, set: &Set) {
        for i in 0..set.members {
            for x in self.a..=self.z {
                let begins = has(self.goes[i][i][x], x);
                self.own[i][x] = if begins { set.rows[i][x] & self.ends[i][i][x] & upto(self.z) } else { 0 };
            }
        }
    }

    /// Begins x of i and y of j are left out beside each other where i has no end then.
    fn drop_begins_without_end(&mut self, i: usize, j: usize) {
        for y in self.a..=self.z {
            for x in each(self.goes[j][i][y] & range(self.a, self.z)) {
                if self.own[i][x] & self.ends[i][j][y] == 0 {
                    self.goes[j][i][y] &= !(1 << x);
                    self.goes[i][j][x] &= !(1 << y);
                }
            }
        }
    }

    /// The ends of i from x are left out that no begin of j allows.
    fn drop_ends_without_begin(&mut self, i: usize, j: usize) {
        let begun = (self.a..=self.z).filter(|&y| self.own[j][y] != 0).fold(0, |begins, y| begins | 1 << y);
        for x in self.a..=self.z {
            if self.own[i][x] != 0 {
                let begins = each(self.goes[i][j][x] & begun);
                self.own[i][x] &= begins.fold(0, |ends, y| ends | self.ends[i][j][y]);
            }
        }
    }

    fn fill_late_and_soon(&mut self, i: usize, j: usize) {
        let (a, z) = (self.a, self.z);
        self.late[i][j][a..=z].fill(0);
        self.soon[i][j][a..=z].fill(0);
        self.last[i][j] = 0;
        for y in a..=z {
            let ends = self.ends[i][j][y] & range(a, z);
            if ends != 0 {
                self.late[i][j][high(ends)] |= 1 << y;
                self.soon[i][j][low(ends)] |= 1 << y;
                if self.own[j][y] != 0 && ends & from(low(self.own[j][y])) != 0 {
                    self.last[i][j] |= 1 << y;
                }
            }
        }
        (a..z).rev().for_each(|e| self.late[i][j][e] |= self.late[i][j][e + 1]);
        (a + 1..=z).for_each(|e| self.soon[i][j][e] |= self.soon[i][j][e - 1]);
    }

    fn fill_later_and_reach(&mut self, i: usize) {
        let (a, z) = (self.a, self.z);
        self.reach[i][a..=z].fill(0);
        let mut later = 0;
        for x in (a..=z).rev() {
            later |= self.own[i][x];
            self.later[i][x] = later;
            if self.own[i][x] != 0 {
                self.reach[i][high(self.own[i][x])] |= 1 << x;
            }
        }
        (a..z).rev().for_each(|g| self.reach[i][g] |= self.reach[i][g + 1]);
    }
}
