//! Every list of starts of tiny jobs that have a feature, or several, in each way.

use conformance::draw::draft::Draft;
use conformance::features::{
    groups, has_held, in_hand, quiet_pause, readings, shift_windows, task_sets, wide, Feature,
};
use conformance::run::tiny;
use conformance::words::{action, formula, initially, law, node};

/// Two actions with these durations and laws, on one fluent that is known true, known false or open. The procedure
/// counts the moments at which it holds.
fn job(last: usize, durations: [usize; 2], laws: [Option<usize>; 2], known: Option<bool>) -> Draft {
    let actions = (0..2).map(|number| {
        let laws = laws[number].map(|role| law(role, 0));
        [action(number, durations[number])].into_iter().chain(laws).collect()
    });
    Draft {
        fluents: 1,
        last,
        initially: known.map(|value| initially(0, value)).into_iter().collect(),
        actions: actions.collect(),
        formulas: vec![formula(0, 0, 0), formula(1, 0, 0)],
        nodes: [node(1, 0, 0, 0, 0), node(1, 1, 0, 0, 0), node(6, 0, 1, 0, last)].map(|node| vec![node]).to_vec(),
        ..Draft::default()
    }
}

fn bases(last: usize) -> Vec<Draft> {
    vec![
        job(last, [1, 1], [None, None], None),
        job(last, [2, 1], [Some(2), Some(0)], Some(false)),
        job(last, [1, 2], [Some(3), Some(2)], Some(true)),
        job(last, [2, 2], [Some(2), Some(2)], None),
    ]
}

fn hold(features: &[Feature], last: usize) {
    let report = tiny(features, &bases(last));
    assert!(report.calls > 100);
    report.assert(&[]);
}

#[test]
fn shift_windows() {
    (0..=3).for_each(|last| hold(&[shift_windows::FEATURE], last));
}

#[test]
fn groups() {
    (0..=3).for_each(|last| hold(&[groups::FEATURE], last));
}

#[test]
fn readings() {
    (0..=3).for_each(|last| hold(&[readings::FEATURE], last));
}

#[test]
fn task_sets() {
    (0..=3).for_each(|last| hold(&[task_sets::FEATURE], last));
}

#[test]
fn quiet_pause() {
    (0..=3).for_each(|last| hold(&[quiet_pause::FEATURE], last));
}

#[test]
fn several_together() {
    hold(&[readings::FEATURE, groups::FEATURE, shift_windows::FEATURE, wide::FEATURE], 1);
    hold(&[readings::FEATURE, groups::FEATURE, wide::FEATURE], 2);
}

#[test]
fn in_hand() {
    (0..=4).for_each(|last| tiny(&[in_hand::FEATURE], &[job(last, [1, 1], [None, None], None)]).assert(&[]));
}

/// Jobs with an action that makes the fluent true and one that makes it false.
#[test]
fn has_held() {
    let durations = [[1, 1], [1, 2], [2, 1], [2, 2]];
    let known = [None, Some(true), Some(false)];
    let all = durations.iter().flat_map(|durations| known.map(|known| (*durations, known)));
    let jobs = |last: usize| all.clone().map(move |(durations, known)| job(last, durations, [Some(2), Some(3)], known));
    (1..=3).for_each(|last| tiny(&[has_held::FEATURE], &jobs(last).collect::<Vec<Draft>>()).assert(&[]));
}
