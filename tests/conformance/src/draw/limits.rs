//! Jobs at and beyond the limits of document 01 (64 of each, 4 members, 8 conditions, 2,048 words), and words that no
//! job writer meant.

use crate::draw::draft::Draft;
use crate::draw::jobs;
use crate::random::Random;
use crate::words;

/// A job at one of the limits, or beyond it.
pub fn any(random: &mut Random) -> Vec<u32> {
    let extra = random.chance(50);
    let form = random.below(5);
    match random.below(9) {
        0 => many_formulas(random, form + usize::from(extra), extra),
        1 | 2 => many_nodes(random, 2 * form - usize::from(extra && form > 0), extra),
        3 => many_actions(random, extra),
        4 => full_set(random, 4 + usize::from(extra), if extra { 0 } else { 8 }, form),
        5 => full_set(random, 4, 9, form),
        6 if extra => empty_last_set(random),
        6 => no_node(random),
        7 => other_action_count(random),
        _ => {
            let lengths = at_lengths(random);
            random.pick(&lengths).clone()
        }
    }
}

/// 64 formulas or, with `extra`, a 65th; the new ones are of the form.
fn many_formulas(random: &mut Random, form: usize, extra: bool) -> Vec<u32> {
    let mut draft = jobs::well_formed(random);
    draft.formulas.truncate(64);
    if draft.formulas.is_empty() {
        draft.formulas.push(words::formula(0, 0, 0));
    }
    for number in draft.formulas.len()..64 + usize::from(extra) {
        draft.formulas.push(jobs::formula_word(random, draft.fluents, number.min(64), form));
    }
    draft.words()
}

/// 64 nodes, and with `extra` a 65th of the form.
fn many_nodes(random: &mut Random, form: usize, extra: bool) -> Vec<u32> {
    let mut draft = jobs::well_formed(random);
    if draft.formulas.is_empty() {
        draft.formulas.push(words::formula(0, 0, 0));
    }
    draft.nodes.clear();
    jobs::add_nodes(random, &mut draft, 64);
    while draft.nodes.len() < 64 {
        let child = draft.nodes.len() - 1;
        draft.nodes.push(vec![words::node(8, 0, 0, 0, 0), words::member(child)]);
    }
    if extra {
        draft.nodes.push(vec![any_node(random, &draft, form)]);
    }
    draft.words()
}

/// A node word right in itself whose children are lower, named already or not.
fn any_node(random: &mut Random, draft: &Draft, form: usize) -> u32 {
    let lower = draft.nodes.len().min(64);
    let x = random.below(lower);
    let y = random.below(lower);
    let formula = random.below(draft.formulas.len());
    match form {
        0 => words::node(0, random.below(draft.actions.len()), 0, 0, 0),
        1 => words::node(1, formula, 0, 0, 0),
        2 | 3 => words::node(form, x, y, 0, 0),
        4 => words::node(4, formula, x, y, 0),
        5 => words::node(5, formula, x, 0, 0),
        6 | 7 => words::node(form, x, y, 1, 2),
        _ => words::node(8, 0, 0, 0, 0),
    }
}

/// 64 actions, and with `extra` a 65th, for which no number is left; the head says 64.
fn many_actions(random: &mut Random, extra: bool) -> Vec<u32> {
    let mut draft = jobs::well_formed(random);
    for number in draft.actions.len()..64 {
        draft.actions.push(vec![words::action(number, random.between(1, 63))]);
    }
    if extra {
        let number = *random.pick(&[0, 1, 62, 63]);
        draft.actions[63].push(words::action(number, random.between(1, 63)));
    }
    draft.words()
}

/// A last set with 4 members or more, then 8 conditions or more of the form.
fn full_set(random: &mut Random, members: usize, conditions: usize, form: usize) -> Vec<u32> {
    let mut draft = jobs::well_formed(random);
    draft.nodes.clear();
    if draft.formulas.is_empty() {
        draft.formulas.push(words::formula(0, 0, 0));
    }
    for _ in 0..members {
        draft.nodes.push(vec![words::node(0, random.below(draft.actions.len()), 0, 0, 0)]);
    }
    let mut set = vec![words::node(8, 0, 0, 0, 0)];
    set.extend((0..members).map(words::member));
    for _ in 0..conditions {
        set.push(jobs::condition_of_form(random, form, draft.formulas.len(), members.clamp(1, 4)));
    }
    draft.nodes.push(set);
    draft.words()
}

/// A job whose last node is a set without members, over nodes that are named or not.
fn empty_last_set(random: &mut Random) -> Vec<u32> {
    let mut draft = jobs::well_formed(random);
    draft.nodes.truncate(63);
    if random.chance(30) {
        draft.nodes.clear();
    }
    draft.nodes.push(vec![words::node(8, 0, 0, 0, 0)]);
    draft.words()
}

/// A job without nodes.
fn no_node(random: &mut Random) -> Vec<u32> {
    let mut draft = jobs::well_formed(random);
    draft.nodes.clear();
    draft.words()
}

/// A well-formed job with one more or one fewer action than its head says.
fn other_action_count(random: &mut Random) -> Vec<u32> {
    let draft = jobs::well_formed(random);
    let mut job = draft.words();
    let actions = draft.actions.len();
    let said = if random.chance(50) { actions + 1 } else { actions - 1 };
    job[0] = words::head(draft.fluents, said, draft.last);
    job
}

/// A well-formed job of this many words, of which there are at most 2,048 and not too few.
fn of_length(random: &mut Random, length: usize) -> Vec<u32> {
    let mut draft = Draft { fluents: 64, last: random.below(64), ..Draft::default() };
    draft.initially = jobs::initial_words(random, 64, 64);
    draft.actions = (0..64).map(|number| vec![words::action(number, random.between(1, 63))]).collect();
    draft.nodes = vec![vec![words::node(0, random.below(64), 0, 0, 0)]];
    let mut missing = length - draft.words().len();
    for number in 0..64 {
        let laws = missing.min(128);
        let pairs = (0..128).map(|law| words::law(law % 2 * 2 + random.below(2), law / 2));
        let chosen: Vec<u32> = pairs.take(laws).collect();
        draft.actions[number].extend(chosen);
        missing -= laws;
    }
    draft.words()
}

/// Lengths at and beyond the limits, of well-formed words and of any.
fn at_lengths(random: &mut Random) -> Vec<Vec<u32>> {
    let full = of_length(random, 2048);
    let mut longer = full.clone();
    longer.push(full[2047]);
    let mut far_longer = full.clone();
    far_longer.resize(100_000, full[2047]);
    let head = words::head(1, 1, 0);
    vec![
        vec![],
        vec![head],
        vec![random.word()],
        full,
        longer,
        far_longer,
        random.words(2048),
        random.words(2049),
        random.words(100_000),
    ]
}

/// Words of any bits, behind a good head or not.
pub fn noise(random: &mut Random) -> Vec<u32> {
    let length = random.between(1, 20);
    let mut job = random.words(length);
    if random.chance(50) {
        job[0] = words::head(random.between(1, 64), random.between(1, 64), random.below(64));
    }
    job
}

/// Words of job kinds in a plausible order with low fields, right by luck only.
pub fn plausible(random: &mut Random) -> Vec<u32> {
    let mut draft = Draft { fluents: random.between(1, 4), last: random.below(4), ..Draft::default() };
    let low = |random: &mut Random| random.below(4);
    for _ in 0..low(random) {
        draft.initially.push(words::initially(low(random), random.chance(50)));
    }
    for number in 0..=low(random) {
        let mut action = vec![words::action(number, low(random))];
        for _ in 0..low(random) {
            action.push(words::law(low(random), low(random)));
        }
        draft.actions.push(action);
    }
    for _ in 0..random.below(4).min(random.below(4)) {
        draft.windows.push(words::shift_window(random.below(3), random.below(3), random.below(4)));
        draft.groups.push(words::group(random.below(3) + 6 * usize::from(random.chance(10)), random.below(3)));
        draft.pairs.push(words::group_member(random.below(2), random.below(3)));
    }
    for _ in 0..low(random) {
        draft.formulas.push(words::formula(random.below(6), low(random), low(random) * random.below(2)));
    }
    for _ in 0..low(random) {
        draft.nodes.push(plausible_node(random));
    }
    draft.words()
}

fn plausible_node(random: &mut Random) -> Vec<u32> {
    let mut low = || random.below(3);
    let form = low() + 3 * low();
    if form < 8 {
        return vec![words::node(form, low(), low(), low() / 2, low() / 2)];
    }
    let mut set = vec![words::node(8, 0, 0, 0, 0)];
    set.extend((0..low()).map(words::member));
    for _ in 0..low() {
        set.push(words::condition(low() * 2, low() / 2, low(), low(), low(), low()));
    }
    set
}
