//! Well-formed jobs of all kinds and forms.

use crate::draw::draft::Draft;
use crate::random::Random;
use crate::words;

/// A well-formed job, of few words mostly and now and then of many.
pub fn well_formed(random: &mut Random) -> Draft {
    let mut draft = Draft { fluents: size(random, 64), last: size(random, 64) - 1, ..Draft::default() };
    let known = size(random, draft.fluents + 1) - 1;
    draft.initially = initial_words(random, draft.fluents, known);
    let actions = size(random, 64);
    draft.actions = (0..actions).map(|number| action_words(random, draft.fluents, number)).collect();
    if random.chance(50) {
        add_windows(random, &mut draft);
    }
    if random.chance(50) {
        add_groups(random, &mut draft);
    }
    let formulas = size(random, 65) - 1;
    for number in 0..formulas {
        let form = formula_form(random, number);
        draft.formulas.push(formula_word(random, draft.fluents, number, form));
    }
    let nodes = size(random, 64);
    add_nodes(random, &mut draft, nodes);
    draft
}

/// 1 to most: mostly small, sometimes the most, sometimes anything.
pub fn size(random: &mut Random, most: usize) -> usize {
    match random.below(20) {
        0 => 1,
        1 => most,
        2 | 3 => random.between(1, most),
        _ => random.between(1, most.min(8)),
    }
}

pub fn initial_words(random: &mut Random, fluents: usize, how_many: usize) -> Vec<u32> {
    let chosen = random.some_of(fluents, how_many);
    chosen.into_iter().map(|fluent| words::initially(fluent, random.chance(50))).collect()
}

/// Windows of any actions, few mostly.
fn add_windows(random: &mut Random, draft: &mut Draft) {
    for _ in 0..size(random, 64) {
        let from = size(random, 64) - 1;
        let to = if random.chance(20) { from } else { random.between(from, 63) };
        draft.windows.push(words::shift_window(random.below(draft.actions.len()), from, to));
    }
}

/// Some groups, and pairs of them, few mostly.
fn add_groups(random: &mut Random, draft: &mut Draft) {
    let how_many = random.between(1, 8);
    let groups = random.some_of(8, how_many);
    draft.groups = groups.iter().map(|&group| words::group(group, size(random, 64) - 1)).collect();
    for _ in 1..size(random, 64) {
        let pair = words::group_member(*random.pick(&groups), random.below(draft.actions.len()));
        if !draft.pairs.contains(&pair) {
            draft.pairs.push(pair);
        }
    }
}

/// An action word and up to four laws of each sort, the sorts mixed.
fn action_words(random: &mut Random, fluents: usize, number: usize) -> Vec<u32> {
    let mut laws = vec![];
    for sort in [0, 2] {
        let how_many = random.below(5);
        for fluent in random.some_of(fluents, how_many) {
            laws.push(words::law(sort + random.below(2), fluent));
        }
    }
    random.shuffle(&mut laws);
    laws.insert(0, words::action(number, size(random, 63)));
    laws
}

fn formula_form(random: &mut Random, number: usize) -> usize {
    match number {
        0 => random.below(2),
        _ => random.below(6),
    }
}

/// A formula word of a form that its number allows.
pub fn formula_word(random: &mut Random, fluents: usize, number: usize, form: usize) -> u32 {
    match form {
        0 => words::formula(0, 0, 0),
        1 => words::formula(1, random.below(fluents), 0),
        2 => words::formula(2, random.below(number), 0),
        5 => words::formula(5, random.below(number), random.below(64)),
        _ => words::formula(form, random.below(number), random.below(number)),
    }
}

/// About `how_many` nodes, never more than 64, each but the last named once.
pub fn add_nodes(random: &mut Random, draft: &mut Draft, how_many: usize) {
    let mut unnamed: Vec<usize> = vec![];
    while draft.nodes.len() < how_many && draft.nodes.len() + unnamed.len() < 64 {
        let form = node_form(random, draft, unnamed.len());
        add_node(random, draft, &mut unnamed, form);
    }
    while unnamed.len() > 1 {
        let form = *random.pick(&[2, 3, 6, 7, 8]);
        add_node(random, draft, &mut unnamed, form);
    }
}

/// A form whose children and formula are there to be named.
fn node_form(random: &mut Random, draft: &Draft, unnamed: usize) -> usize {
    loop {
        let form = random.below(9);
        let children = [0, 0, 2, 2, 2, 1, 2, 2, 1][form];
        let formula = matches!(form, 1 | 4 | 5);
        if children <= unnamed && !(formula && draft.formulas.is_empty()) {
            return form;
        }
    }
}

fn add_node(random: &mut Random, draft: &mut Draft, unnamed: &mut Vec<usize>, form: usize) {
    let least = usize::from(draft.nodes.len() + unnamed.len() >= 64);
    let mut child = |random: &mut Random| {
        let index = random.below(unnamed.len());
        unnamed.swap_remove(index)
    };
    let formulas = draft.formulas.len();
    let node = match form {
        0 => vec![words::node(0, random.below(draft.actions.len()), 0, 0, 0)],
        1 => vec![words::node(1, random.below(formulas), 0, 0, 0)],
        2 | 3 => vec![words::node(form, child(random), child(random), 0, 0)],
        4 => vec![words::node(4, random.below(formulas), child(random), child(random), 0)],
        5 => vec![words::node(5, random.below(formulas), child(random), 0, 0)],
        6 | 7 => {
            let (m, n) = window(random);
            vec![words::node(form, child(random), child(random), m, n)]
        }
        _ => {
            let members = random.between(1 + least, 4).min(unnamed.len());
            task_set(random, draft, unnamed, members)
        }
    };
    unnamed.push(draft.nodes.len());
    draft.nodes.push(node);
}

fn task_set(random: &mut Random, draft: &Draft, unnamed: &mut Vec<usize>, members: usize) -> Vec<u32> {
    let mut set = vec![words::node(8, 0, 0, 0, 0)];
    for _ in 0..members {
        let index = random.below(unnamed.len());
        set.push(words::member(unnamed.swap_remove(index)));
    }
    let conditions = *random.pick(&[0, 0, 1, 1, 2, 3, 8]);
    for _ in 0..conditions {
        set.push(condition_word(random, draft.formulas.len(), members));
    }
    set
}

/// A condition word of any form that the formulas allow.
fn condition_word(random: &mut Random, formulas: usize, members: usize) -> u32 {
    let form = if formulas == 0 { random.below(2) } else { random.below(5) };
    condition_of_form(random, form, formulas, members)
}

pub fn condition_of_form(random: &mut Random, form: usize, formulas: usize, members: usize) -> u32 {
    let i = random.below(members);
    let j = random.below(members);
    let (m, n) = window(random);
    match form {
        0 | 1 => words::condition(form, 0, i, j, m, n),
        2 | 3 => words::condition(form, random.below(formulas), i, 0, m, n),
        _ => words::condition(4, random.below(formulas), i, j, random.below(64), random.below(64)),
    }
}

/// M and N with M ≤ N, often equal.
fn window(random: &mut Random) -> (usize, usize) {
    let m = size(random, 64) - 1;
    match random.below(3) {
        0 => (m, m),
        _ => (m, random.between(m, 63)),
    }
}
