//! Placements of a task set's members, passes of a loop over it, and conditions that are met, often just so.

use crate::oracle::job::{Condition, Window};
use crate::oracle::readings::conditions::{met, Placed};
use crate::oracle::readings::world::World;
use crate::random::Random;
use crate::words;

/// So many spans inside b..e that leave no moment of it uncovered, in any order.
pub fn covering(random: &mut Random, b: usize, e: usize, members: usize) -> Vec<Placed> {
    let mut placed = vec![];
    let mut next = b;
    for left in (0..members).rev() {
        let begin = if random.chance(70) { next } else { random.between(b, next) };
        let end = if left == 0 { e } else { random.between(begin, e) };
        placed.push(Placed { begin, end });
        next = next.max((end + random.below(2)).min(e));
    }
    random.shuffle(&mut placed);
    placed
}

/// Passes of a loop, each from the end of the one before, equally long or now and then a moment longer.
pub fn passes(random: &mut Random) -> Vec<Placed> {
    let length = random.between(1, 9);
    let count = random.between(1, 63 / length);
    let mut end = 0;
    let pass = |left: usize| {
        let begin = end;
        end += length + usize::from(begin + left * length < 63 && random.chance(20));
        Placed { begin, end }
    };
    (1..=count).rev().map(pass).collect()
}

/// At most so many conditions, each of which all these placements of the same members meet.
pub fn conditions(random: &mut Random, world: &World, placements: &[Vec<Placed>], most: usize) -> Vec<u32> {
    (0..most).filter_map(|_| condition(random, world, placements)).collect()
}

/// A condition that all these placements meet, if the draw gives one.
fn condition(random: &mut Random, world: &World, placements: &[Vec<Placed>]) -> Option<u32> {
    let placed = random.pick(placements).clone();
    let (i, j) = (random.below(placed.len()), random.below(placed.len()));
    let form = random.below(5);
    let formula = random.below(world.job.formulas.len());
    let window = condition_window(random, world.last(), form, (placed[i], placed[j]))?;
    let Window { m, n } = window;
    let condition = Condition { form, formula, i, j, window };
    placements.iter().all(|placed| met(world, &condition, placed)).then(|| match form {
        0 | 1 => words::condition(form, 0, i, j, m, n),
        2 | 3 => words::condition(form, formula, i, 0, m, n),
        _ => words::condition(form, formula, i, j, m, n),
    })
}

fn condition_window(random: &mut Random, last: usize, form: usize, (i, j): (Placed, Placed)) -> Option<Window> {
    Some(match form {
        0 => window_around(random, j.begin.checked_sub(i.begin)?),
        1 => window_around(random, j.begin.checked_sub(i.end)?),
        2 => window_up_to(random, i.begin),
        3 => window_up_to(random, last - i.end),
        _ => {
            let room = j.begin.saturating_sub(i.end) + 1;
            Window { m: random.below(room + 1), n: random.below(room + 1) }
        }
    })
}

/// A window that the difference lies in, often at its edge.
pub fn window_around(random: &mut Random, difference: usize) -> Window {
    let m = if random.chance(50) { difference } else { random.below(difference + 1) };
    let n = if random.chance(50) { difference } else { random.between(difference, 63) };
    Window { m, n }
}

/// M ≤ N ≤ limit, often at the limit.
fn window_up_to(random: &mut Random, limit: usize) -> Window {
    let n = if random.chance(40) { limit } else { random.below(limit + 1) };
    let m = if random.chance(40) { n } else { random.below(n + 1) };
    Window { m, n }
}
