//! Drawn plans of each feature, and of several together, through every call.

use conformance::features::{
    groups, has_held, in_hand, jobs, plans, quiet_pause, readings, shift_windows, task_sets, trials, wide, Feature,
};
use conformance::run::{every_bit, every_bit_of_trials, generated, stepped};

const SEED: u64 = 0x5e3a_1071;

fn hold(features: &[Feature], how_many: usize) {
    generated(features, SEED, how_many).assert(features);
}

#[test]
fn jobs() {
    hold(&[jobs::FEATURE], 6_000);
}

#[test]
fn every_bit_of_jobs() {
    every_bit(&[jobs::FEATURE], SEED, 20).assert(&[]);
}

#[test]
fn plans() {
    hold(&[plans::FEATURE], 3_000);
}

#[test]
fn plans_stepped_by_hand() {
    stepped(&[plans::FEATURE], SEED, 500).assert(&[]);
}

#[test]
fn readings() {
    hold(&[readings::FEATURE], 3_000);
}

#[test]
fn shift_windows() {
    hold(&[shift_windows::FEATURE], 2_000);
}

#[test]
fn groups() {
    hold(&[groups::FEATURE], 2_000);
}

#[test]
fn windows_and_groups_together() {
    let together = [readings::FEATURE, shift_windows::FEATURE, groups::FEATURE];
    generated(&together, SEED, 1_000).assert(&[]);
    stepped(&together, SEED, 300).assert(&[]);
}

#[test]
fn wide() {
    hold(&[wide::FEATURE], 2_000);
}

#[test]
fn every_bit_of_wide_jobs() {
    every_bit(&[jobs::FEATURE, wide::FEATURE], SEED, 20).assert(&[]);
}

#[test]
fn trials() {
    generated(&[trials::FEATURE], SEED + 1, 3_000).assert(&[trials::FEATURE]);
}

#[test]
fn every_bit_of_some_trials() {
    every_bit_of_trials(&[trials::FEATURE], SEED, 30).assert(&[]);
}

#[test]
fn wide_plans_stepped_by_hand() {
    stepped(&[plans::FEATURE, wide::FEATURE], SEED, 200).assert(&[]);
}

#[test]
fn task_sets() {
    hold(&[task_sets::FEATURE], 2_000);
}

#[test]
fn quiet_pause() {
    hold(&[quiet_pause::FEATURE], 2_000);
}

#[test]
fn sets_and_pauses_together() {
    generated(&[readings::FEATURE, task_sets::FEATURE, quiet_pause::FEATURE], SEED, 500).assert(&[]);
    generated(&[quiet_pause::FEATURE, task_sets::FEATURE, groups::FEATURE, wide::FEATURE], SEED, 500).assert(&[]);
}

#[test]
fn has_held() {
    hold(&[has_held::FEATURE], 2_000);
}

#[test]
fn in_hand() {
    hold(&[in_hand::FEATURE], 2_000);
}

#[test]
fn much_in_hand_stepped_by_hand() {
    stepped(&[in_hand::FEATURE], SEED, 200).assert(&[]);
}

#[test]
fn has_held_and_in_hand_with_others() {
    generated(&[has_held::FEATURE, shift_windows::FEATURE, wide::FEATURE], SEED, 500).assert(&[]);
    generated(&[in_hand::FEATURE, groups::FEATURE, wide::FEATURE], SEED, 500).assert(&[]);
}

#[test]
fn all_together() {
    let procedures = [readings::FEATURE, task_sets::FEATURE, quiet_pause::FEATURE, has_held::FEATURE];
    let limits = [shift_windows::FEATURE, groups::FEATURE, wide::FEATURE];
    let together: Vec<Feature> = procedures.into_iter().chain(limits).collect();
    generated(&together, SEED, 300).assert(&[]);
    stepped(&together, SEED, 50).assert(&[]);
}
