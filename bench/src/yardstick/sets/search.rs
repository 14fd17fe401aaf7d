//! A search over begins, with a word of candidate begins for each member that is not placed yet and a word of ends for each member.
use super::tables::Tables;
use super::MOST;
use crate::masks::{each, from, has, high, low, range, upto};

/// The search for the ends of a set from one begin, lo.
pub struct Search<'a> {
    tables: &'a Tables,
    members: usize,
    lo: usize,
    /// The ends found so far.
    pub found: u64,
    /// The begins for the newest of them.
    pub begins: [usize; MOST],
}

/// Some members are placed at begins; the others have candidate begins. Each has the ends that the placed ones leave it.
#[derive(Clone, Copy)]
struct State {
    /// The members that are not placed, as a word.
    left: u64,
    /// The member that ends last.
    last: usize,
    begins: [usize; MOST],
    candidates: [u64; MOST],
    ends: [u64; MOST],
    /// The ends of the set that are still sought.
    goal: u64,
}

impl<'a> Search<'a> {
    pub fn new(tables: &'a Tables, members: usize, lo: usize) -> Search<'a> {
        Search { tables, members, lo, found: 0, begins: [0; MOST] }
    }

    /// Finds the ends of `goal`: some member begins at lo, and some member ends last.
    pub fn row(&mut self, goal: u64) {
        let (mut candidates, mut ends) = ([0; MOST], [0; MOST]);
        for i in 0..self.members {
            candidates[i] = self.tables.reach[i][self.lo] & from(self.lo);
            ends[i] = self.tables.later[i][self.lo];
        }
        let first = State { left: (1 << self.members) - 1, last: 0, begins: [0; MOST], candidates, ends, goal };
        for last in 0..self.members {
            let mut state = State { last, ..first };
            for j in (0..self.members).filter(|&j| self.tables.tied[last][j]) {
                state.candidates[j] &= self.tables.last[last][j];
            }
            for i in 0..self.members {
                self.tries(&state, i, state.candidates[i] & 1 << self.lo, u64::MAX);
            }
        }
    }

    /// Adds the ends of the goal that the set reads to with these members placed.
    fn search(&mut self, state: &State) {
        if state.left == 0 {
            return self.leaf(state);
        }
        let top = high(state.goal);
        if has(state.left, state.last) {
            return self.tries(state, state.last, state.candidates[state.last], upto(top));
        }
        let gaps = self.gaps(state, top);
        if gaps == 0 {
            let i = self.fewest(state);
            return self.tries(state, i, state.candidates[i], upto(top));
        }
        // some member that is left covers the first gap; where only one is left, it covers them all
        let far = if state.left.is_power_of_two() { high(gaps) } else { low(gaps) };
        for i in each(state.left) {
            let begins = state.candidates[i] & upto(low(gaps)) & self.tables.reach[i][far];
            self.tries(state, i, begins, range(far, top));
        }
    }

    /// Tries member i at each of these begins; it has to have an end among `must`.
    fn tries(&mut self, state: &State, i: usize, begins: u64, must: u64) {
        let mut next = State { left: state.left & !(1 << i), ..*state };
        for x in each(begins) {
            if self.tables.own[i][x] & state.ends[i] & must != 0 {
                if self.put(state, i, x, &mut next) {
                    self.search(&next);
                }
            }
        }
    }

    /// Puts member i at x; whether the set may then still read to an end that is sought.
    fn put(&self, state: &State, i: usize, x: usize, next: &mut State) -> bool {
        next.begins[i] = x;
        let need = self.put_ends(state, i, x, next);
        next.goal = state.goal & !self.found & from(need) & next.ends[next.last];
        if next.goal == 0 {
            return false;
        }
        let top = high(next.goal);
        for j in each(next.left) {
            next.candidates[j] = self.narrowed(state.candidates[j], i, j, next, top);
            if next.candidates[j] == 0 {
                return false;
            }
        }
        true
    }

    /// Narrows the ends of all members to those that they have where i begins at x; the greatest of their least, 64 where one has none.
    fn put_ends(&self, state: &State, i: usize, x: usize, next: &mut State) -> usize {
        let mut need = 0;
        for w in 0..self.members {
            let with = if w == i { self.tables.own[i][x] } else { self.tables.ends[w][i][x] };
            next.ends[w] = state.ends[w] & with;
            need = need.max(low(next.ends[w]));
        }
        need
    }

    /// Those of the candidates of j that are left with i placed: from them j has an end, and each member bound to j by a condition 1 or 4
    /// an end among its own.
    fn narrowed(&self, candidates: u64, i: usize, j: usize, next: &State, top: usize) -> u64 {
        let tables = self.tables;
        let mut begins = candidates & upto(top) & tables.goes[i][j][next.begins[i]];
        for w in 0..self.members {
            if tables.tied[w][j] {
                let ends = if w == next.last { next.goal } else { next.ends[w] & upto(top) };
                begins &= tables.late[w][j][low(ends)] & tables.soon[w][j][high(ends)];
            }
        }
        begins
    }

    /// The moments from lo to the begin of the member that ends last which no placed member can cover.
    fn gaps(&self, state: &State, top: usize) -> u64 {
        let placed = (0..self.members).filter(|&w| !has(state.left, w));
        let cover = |w: usize| range(state.begins[w], high(state.ends[w] & upto(top)));
        range(self.lo, state.begins[state.last]) & !placed.fold(0, |covered, w| covered | cover(w))
    }

    /// The member that is left with the fewest candidates.
    fn fewest(&self, state: &State) -> usize {
        each(state.left).min_by_key(|&i| state.candidates[i].count_ones()).expect("a member is left")
    }

    fn leaf(&mut self, state: &State) {
        let ends = self.covered(state);
        if ends & state.goal != 0 {
            self.begins = state.begins;
        }
        self.found |= ends;
    }

    /// The ends of a set whose begins are fixed: each member has an end by then, and before each begin above lo some member that began
    /// sooner has an end that reaches it.
    fn covered(&self, state: &State) -> u64 {
        let (mut all, mut need) = (0, 0);
        for i in 0..self.members {
            all |= state.ends[i];
            need = need.max(low(state.ends[i]));
            let begin = state.begins[i];
            if begin > self.lo {
                let sooner = (0..self.members).filter(|&w| state.begins[w] < begin);
                need = need.max(low(sooner.fold(0, |ends, w| ends | state.ends[w]) & from(begin - 1)));
            }
        }
        all & from(need)
    }
}
