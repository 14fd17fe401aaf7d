//! Jobs of 2,048 words, each at its worst for a row on the job or for what a plan without starts still goes through.
use crate::plans::{largest, largest_wide, lawful, windowed, Plan};
use crate::words::{
    action, condition, formula, group, group_member, head, initially, law, member, node, shift_window, wide_head,
    wide_initially, wide_law, FLUENTS,
};

/// The most words that a job has, and the place of the last of them.
const WORDS: usize = 2048;
const LAST: usize = WORDS - 1;

pub fn all() -> Vec<Plan> {
    let whole = [
        lawful("512 laws of an action, each fluent needed and made", laws_of_an_action(), vec![]),
        lawful("256 known fluents", known(), vec![]),
        lawful("8 groups with 512 pairs, shift windows", groups(node(0, 0, 0, 0, 0)), vec![]),
        lawful("64 nodes, 63 of them sets with 8 conditions", nodes(63), vec![]),
        lawful("1,918 shift windows", windowed().job, vec![]),
        lawful("64 actions with 1,900 laws, 256 fluents, none clash", largest_wide(1).job, vec![]),
        lawful("64 actions, 256 fluents, half the pairs clash by the last one", clashing(), vec![]),
        lawful("64 actions with 1,856 laws, 64 fluents", largest(1).job, vec![]),
    ];
    let refused = [
        refused("2, the last word has a spare bit", with_last(nodes(63), condition(3, 0, 0, 1, 0, 0)), (2, LAST)),
        refused("3, the last word names no member", with_last(nodes(63), condition(3, 0, 1, 0, 0, 0)), (3, LAST)),
        refused("4, the last of 507 laws repeats the first", repeating(), (4, LAST)),
        refused("4, after 512 pairs the first again", groups(group_member(0, 0)), (4, LAST)),
        refused("3 at the end, an action too many", with_head(nodes(63), head(64, 63, 63)), (3, WORDS)),
        refused("5, the last node but the root is not named", nodes(62), (5, 62)),
    ];
    whole.into_iter().chain(refused).collect()
}

fn refused(name: &str, job: Vec<u32>, refusal: (usize, usize)) -> Plan {
    Plan { name: format!("refused {name}"), job, starts: vec![], refusal }
}

/// The words, then as many more as there is room for, then the last ones: 2,048 in all.
fn filled(words: Vec<u32>, more: impl Iterator<Item = u32>, last: &[u32]) -> Vec<u32> {
    let room = WORDS - words.len() - last.len();
    let job = [words, more.take(room).collect(), last.to_vec()].concat();
    assert_eq!(job.len(), WORDS, "there are words enough");
    job
}

/// Actions, each with all laws that it may have: each of the 256 fluents is needed and made.
fn all_laws(actions: usize) -> impl Iterator<Item = u32> {
    let laws = || [0, 2].into_iter().flat_map(|role| (0..FLUENTS).map(move |f| wide_law(role, f)));
    (0..actions).flat_map(move |a| [action(a, 1)].into_iter().chain(laws()))
}

/// Three actions with 512 laws and a fourth with 505.
fn laws_of_an_action() -> Vec<u32> {
    filled(vec![wide_head(FLUENTS, 4, 63)], all_laws(4), &[formula(0, 0, 0), node(1, 0, 0, 0, 0)])
}

/// Three actions with 512 laws and a fourth with 507, of which the last repeats the first.
fn repeating() -> Vec<u32> {
    filled(vec![wide_head(FLUENTS, 4, 63)], all_laws(4), &[wide_law(0, 0)])
}

/// 64 actions with so many laws each, which all make fluents true.
fn makes(laws: usize) -> impl Iterator<Item = u32> {
    let law = move |a: usize, i: usize| wide_law(2, (a * 4 + i * 15) % FLUENTS);
    (0..64).flat_map(move |a| [action(a, 1)].into_iter().chain((0..laws).map(move |i| law(a, i))))
}

/// Each fluent is known at 0, so that there are 16,384 facts. The last action has more laws than the others.
fn known() -> Vec<u32> {
    let known = (0..FLUENTS).map(|f| wide_initially(f, true));
    let before = [wide_head(FLUENTS, 64, 63)].into_iter().chain(known).collect();
    let more = (0..FLUENTS).map(|f| wide_law(0, f));
    filled(before, makes(26).chain(more), &[formula(0, 0, 0), node(1, 0, 0, 0, 0)])
}

/// Every action makes 29 fluents true; by turns, it makes the last fluent true or false.
fn clashing() -> Vec<u32> {
    let laws = |a: usize| (0..29).map(move |i| wide_law(2, (a * 3 + i * 7) % 255)).chain([wide_law(2 + a % 2, 255)]);
    let actions = (0..64).flat_map(|a| [action(a, 1)].into_iter().chain(laws(a)));
    let more = (0..FLUENTS).map(|f| wide_law(0, f));
    filled(vec![wide_head(FLUENTS, 64, 63)], actions.chain(more), &[formula(0, 0, 0), node(1, 0, 0, 0, 0)])
}

/// 64 actions, as many shift windows as there is room for, eight groups, all pairs of group and action, and the last word.
fn groups(last: u32) -> Vec<u32> {
    let before = [head(1, 64, 63)].into_iter().chain((0..64).map(|a| action(a, 1))).collect();
    let windows = (0..WORDS).map(|i| shift_window(i % 64, 0, 63));
    let pairs = (0..8).flat_map(|g| (0..64).map(move |a| group_member(g, a)));
    let after: Vec<u32> = (0..8).map(|g| group(g, 63)).chain(pairs).chain([last]).collect();
    filled(before, windows, &after)
}

/// An act within so many sets of one member, each with eight conditions, and then acts up to 64 nodes. Sets of one member leave room for the
/// most conditions. Before the nodes stand 64 known fluents, 64 actions with laws and 64 formulas.
fn nodes(sets: usize) -> Vec<u32> {
    let known = (0..64).map(|f| initially(f, true));
    let before = [head(64, 64, 63)].into_iter().chain(known).collect();
    let conditions = [condition(3, 0, 0, 0, 0, 0); 8];
    let set = |s: usize| [node(8, 0, 0, 0, 0), member(s)].into_iter().chain(conditions);
    let acts = |count: usize| (0..count).map(|_| node(0, 0, 0, 0, 0));
    let nodes = acts(1).chain((0..sets).flat_map(set)).chain(acts(63 - sets));
    let last: Vec<u32> = [formula(0, 0, 0); 64].into_iter().chain(nodes).collect();
    let laws = |a: usize| (0..19).map(move |i| law(2, (a + i * 3) % 64));
    let actions = (0..64).flat_map(|a| [action(a, 1)].into_iter().chain(laws(a)));
    filled(before, actions.chain((0..64).map(|f| law(0, f))), &last)
}

fn with_last(mut job: Vec<u32>, word: u32) -> Vec<u32> {
    job[LAST] = word;
    job
}

fn with_head(mut job: Vec<u32>, word: u32) -> Vec<u32> {
    job[0] = word;
    job
}
