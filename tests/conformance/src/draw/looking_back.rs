//! Formulas that look back (request L7, form 5), and procedures that ask for them.

use crate::draw::draft::Draft;
use crate::draw::jobs;
use crate::random::Random;
use crate::words::{condition, formula, member, node};

/// Formula 0 always holds, one or two more are fluents; of the others most are of form 5. In one job of six each is on
/// the one before.
pub fn formulas(random: &mut Random, draft: &Draft) -> Vec<u32> {
    let how_many = *random.pick(&[4, 6, 8, 10, 12, 16, 20, 64]);
    let fluents = draft.fluents.min(random.between(1, 2));
    let deep = random.chance(16);
    let mut formulas = vec![formula(0, 0, 0)];
    for number in 1..how_many {
        let form = *random.pick(&[2, 3, 4, 5, 5, 5, 5, 5]);
        formulas.push(match form {
            _ if number <= fluents => formula(1, random.below(draft.fluents), 0),
            _ if deep && random.chance(20) => formula(2, number - 1, 0),
            _ if deep => formula(5, number - 1, *random.pick(&[0, 1, 1, 1, 2, 3])),
            5 => held(random, number, draft.last),
            _ => jobs::formula_word(random, draft.fluents, number, form),
        });
    }
    formulas
}

/// A formula of form 5: X the one before, one of the first or any; Y few moments, at and beside n, or any.
pub fn held(random: &mut Random, number: usize, last: usize) -> u32 {
    let x = match random.below(4) {
        0 => number - 1,
        1 => random.below(number.min(3)),
        _ => random.below(number),
    };
    let any = [random.below(5), random.below(last + 1), random.below(64)];
    let y = *random.pick(&[0, 1, 1, any[0], any[0], any[1], any[2], last.max(1) - 1, last, last + 1, 63]);
    formula(5, x, y.min(63))
}

/// Tests of formulas and of their negations, since find counts the moments at which each holds, joined in any way.
pub fn add_tests(random: &mut Random, draft: &mut Draft) {
    let known = draft.formulas.len();
    draft.formulas.extend((0..known).rev().take(64 - known).map(|number| formula(2, number, 0)));
    draft.nodes.push(vec![node(1, 0, 0, 0, 0)]);
    for _ in 0..random.between(1, 20) {
        let before = draft.nodes.len() - 1;
        draft.nodes.push(vec![node(1, random.below(draft.formulas.len()), 0, 0, 0)]);
        let after = if random.chance(50) { draft.last } else { random.below(draft.last + 1) };
        draft.nodes.push(vec![match random.below(4) {
            0 => node(2, before, before + 1, 0, 0),
            1 | 2 => node(3, before, before + 1, 0, 0),
            _ => node(6, before, before + 1, random.below(after + 1), after),
        }]);
    }
}

/// A set of one or two waits between tests, with conditions 2 to 4 on any formulas.
pub fn add_set(random: &mut Random, draft: &mut Draft) {
    let members = random.between(1, 2);
    let mut set = vec![node(8, 0, 0, 0, 0)];
    for _ in 0..members {
        let x = draft.nodes.len();
        draft.nodes.extend([vec![node(1, 0, 0, 0, 0)], vec![node(1, 0, 0, 0, 0)]]);
        let least = random.below(6);
        draft.nodes.push(vec![node(6, x, x + 1, least, least + *random.pick(&[0, 1, 3, 8]))]);
        set.push(member(x + 2));
    }
    for _ in 0..random.between(1, 2) {
        let (i, of) = (random.below(members), random.below(draft.formulas.len()));
        let (j, from) = ((i + 1) % members, random.below(2));
        set.extend(match *random.pick(&[2, 3, 4]) {
            4 => vec![condition(1, 0, i, j, 0, random.between(1, 3)), condition(4, of, i, j, from, random.below(2))],
            form => vec![condition(form, of, i, 0, from, from + random.below(3))],
        });
    }
    draft.nodes.push(set);
}
