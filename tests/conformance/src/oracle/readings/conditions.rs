//! Document 01, "Conditions", and the covering of a task set, for members that are placed.

use crate::oracle::job::{Condition, Window};
use crate::oracle::readings::world::World;

/// A member's b_i and e_i.
#[derive(Clone, Copy, Debug, PartialEq, Eq)]
pub struct Placed {
    pub begin: usize,
    pub end: usize,
}

pub fn met(world: &World, condition: &Condition, placed: &[Placed]) -> bool {
    let Window { m, n } = condition.window;
    let i = placed[condition.i];
    let holds = |moment: usize| world.holds(condition.formula, moment);
    match condition.form {
        // "0: b_i + M ≤ b_j ≤ b_i + N."
        0 => {
            let j = placed[condition.j];
            i.begin + m <= j.begin && j.begin <= i.begin + n
        }
        // "1: e_i + M ≤ b_j ≤ e_i + N."
        1 => {
            let j = placed[condition.j];
            i.end + m <= j.begin && j.begin <= i.end + n
        }
        // "2: the formula holds at all moments b_i − N to b_i − M; not met if b_i < N."
        2 => i.begin >= n && (i.begin - n..=i.begin - m).all(holds),
        // "3: likewise e_i + M to e_i + N; not met if e_i + N > n."
        3 => i.end + n <= world.last() && (i.end + m..=i.end + n).all(holds),
        // "4: it holds at all moments from e_i + M to b_j − N; an empty range is met."
        _ => {
            let j = placed[condition.j];
            let in_range = |&moment: &usize| i.end + m <= moment && moment + n <= j.begin;
            (0..=world.last()).filter(in_range).all(holds)
        }
    }
}

/// "each member i reads some b_i to e_i inside b..e, each moment of b..e lies in some b_i..e_i, ends included"
pub fn covers(placed: &[Placed], begin: usize, end: usize) -> bool {
    let inside = |member: &Placed| begin <= member.begin && member.end <= end;
    let covered = |moment: usize| placed.iter().any(|member| member.begin <= moment && moment <= member.end);
    placed.iter().all(inside) && (begin..=end).all(covered)
}
