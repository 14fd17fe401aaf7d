//! Trials for request L1: lists of moves, trials that moves could give, and damage to them.

use crate::draw::draft::{Draft, Drawn};
use crate::draw::lists;
use crate::oracle::call::noise;
use crate::random::Random;
use crate::words::{self, bits, field};

#[derive(Clone, Copy, Debug, PartialEq, Eq)]
pub enum Move {
    Start(u32),
    On,
}

/// The moves of the plan with others between them, or any moves.
pub fn moves(random: &mut Random, plan: &Drawn) -> Vec<Move> {
    match random.chance(50) {
        true => led_moves(random, plan),
        false => any_moves(random, &plan.draft),
    }
}

/// Most of the plan's starts, those of one moment in any order, and others now and then.
fn led_moves(random: &mut Random, plan: &Drawn) -> Vec<Move> {
    let others = *random.pick(&[0, 10, 30]);
    let mut list = vec![];
    for moment in 0..=plan.draft.last {
        let of_moment = plan.starts.iter().filter(|&&word| field(word, 11, 6) == moment);
        let mut now: Vec<Move> = of_moment.map(|word| Move::Start(word & 63)).collect();
        random.shuffle(&mut now);
        now.push(Move::On);
        for next in now {
            if random.chance(others) {
                list.push(Move::Start(action(random, plan.draft.actions.len())));
            }
            if next == Move::On || random.chance(95) {
                list.push(next);
            }
        }
    }
    list.truncate(100);
    list
}

/// A few starts in each moment or many, mostly of actions that are there.
fn any_moves(random: &mut Random, draft: &Draft) -> Vec<Move> {
    let on = *random.pick(&[5, 20, 40, 70, 95]);
    let most = *random.pick(&[6, 15, 30, 80]);
    let length = random.between(0, most);
    let mut list = vec![];
    for _ in 0..length {
        list.push(match random.chance(on) {
            true => Move::On,
            false => Move::Start(action(random, draft.actions.len())),
        });
    }
    list
}

/// An action that is there, the first that is not, one that is there in its low bits alone, or any number.
pub fn action(random: &mut Random, actions: usize) -> u32 {
    let there = random.below(actions) as u32;
    match random.below(20) {
        0 => actions as u32,
        1 => there | 1 << random.between(6, 31),
        2 => *random.pick(&[63, 64, 65, u32::MAX]),
        3 => random.word(),
        _ => there,
    }
}

/// The words of a trial before they are laid out in a slice of some length.
#[derive(Clone, Debug)]
pub struct Trial {
    pub moment: u32,
    /// What word 1 says.
    pub number: u32,
    pub starts: Vec<u32>,
    pub length: usize,
}

impl Trial {
    pub fn new(moment: usize, starts: &[u32]) -> Trial {
        Trial { moment: moment as u32, number: starts.len() as u32, starts: starts.to_vec(), length: 4_098 }
    }

    /// The words so far as the slice has room for them, noise after them.
    pub fn slice(&self) -> Vec<u32> {
        let mut slice = noise(&self.starts, self.length);
        let given = [&[self.moment, self.number], &self.starts[..]].concat();
        let fitting = given.len().min(self.length);
        slice[..fitting].copy_from_slice(&given[..fitting]);
        slice
    }

    fn with_starts(&self, starts: Vec<u32>) -> Trial {
        Trial { number: starts.len() as u32, starts, ..self.clone() }
    }
}

/// The plan up to some moment, often that of one of its starts, or the last one or the one before it.
pub fn lawful(random: &mut Random, plan: &Drawn) -> Trial {
    let last = plan.draft.last;
    let moment = match random.below(6) {
        0 => last,
        1 => last.saturating_sub(1),
        2..=4 if !plan.starts.is_empty() => field(*random.pick(&plan.starts), 11, 6),
        _ => random.below(last + 1),
    };
    let mut trial = Trial::new(moment, &up_to(&plan.starts, moment));
    trial.length = length(random);
    trial
}

/// The trial without one start of its moment, with that start's action, so that it can be tried; or the whole trial
/// with any action.
pub fn to_try(random: &mut Random, trial: &Trial, actions: usize) -> (Trial, u32) {
    let is_now = |place: &usize| field(trial.starts[*place], 11, 6) == trial.moment as usize;
    let now: Vec<usize> = (0..trial.starts.len()).filter(is_now).collect();
    if now.is_empty() || random.chance(30) {
        return (trial.clone(), action(random, actions));
    }
    let mut tried = trial.clone();
    let word = tried.starts.remove(*random.pick(&now));
    tried.number = tried.number.saturating_sub(1);
    (tried, word & 63)
}

fn up_to(starts: &[u32], moment: usize) -> Vec<u32> {
    starts.iter().copied().filter(|&word| field(word, 11, 6) <= moment).collect()
}

/// A slice's length: mostly the least one.
fn length(random: &mut Random) -> usize {
    match random.below(100) {
        0 => 100_000,
        1..=10 => 4_099,
        11..=20 => 5_000,
        _ => 4_098,
    }
}

/// A trial damaged in one to three ways.
pub fn damaged(random: &mut Random, plan: &Drawn, trial: &Trial) -> Trial {
    let mut trial = one_damage(random, plan, trial);
    while random.chance(35) {
        trial = one_damage(random, plan, &trial);
    }
    trial
}

fn one_damage(random: &mut Random, plan: &Drawn, trial: &Trial) -> Trial {
    let draft = &plan.draft;
    match random.below(16) {
        0 => Trial { moment: moment(random, trial.moment, draft.last), ..trial.clone() },
        1 => earlier(random, trial),
        2 => Trial { number: number(random, trial.number), ..trial.clone() },
        3 => Trial { length: short_length(random), ..trial.clone() },
        4 => foreign(random, trial),
        5 => full(random, trial, draft),
        6 => Trial { moment: draft.last as u32, ..trial.with_starts(plan.starts.clone()) },
        7 => any_words(random, draft.last),
        8..=10 => now(random, trial, draft),
        _ => trial.with_starts(lists::starts(random, &trial.starts, draft)),
    }
}

/// A moment above n, by one or by far, or with a high bit.
fn moment(random: &mut Random, moment: u32, last: usize) -> u32 {
    match random.below(5) {
        0 | 1 => last as u32 + 1,
        2 => moment | 1 << random.between(6, 31),
        3 => *random.pick(&[63, 64, 255, 256, u32::MAX]),
        _ => random.word(),
    }
}

/// A moment before that of the latest start, mostly by one.
fn earlier(random: &mut Random, trial: &Trial) -> Trial {
    let latest = trial.starts.iter().map(|&word| field(word, 11, 6)).max().unwrap_or(0);
    let moment = match random.chance(70) {
        true => latest.saturating_sub(1),
        false => random.below(latest + 1),
    };
    Trial { moment: moment as u32, ..trial.clone() }
}

/// Another number of starts: one more or fewer, at and above the limit, or with a high bit.
fn number(random: &mut Random, number: u32) -> u32 {
    match random.below(7) {
        0 => number.wrapping_add(1),
        1 => number.saturating_sub(1),
        2 => *random.pick(&[4_095, 4_096]),
        3 => 4_097,
        4 => *random.pick(&[4_098, 65_535, 65_536, 99_998, 99_999, u32::MAX]),
        5 => number | 1 << random.between(13, 31),
        _ => random.word(),
    }
}

/// Lengths at which a slice is no trial.
fn short_length(random: &mut Random) -> usize {
    *random.pick(&[0, 1, 2, 3, 4_096, 4_097, 4_097, 4_097])
}

/// A word of any kind whose bits 11..6 are the trial's moment, or one more.
fn foreign(random: &mut Random, trial: &Trial) -> Trial {
    let moment = trial.moment.wrapping_add(random.below(2) as u32) & 63;
    let word = random.word() & !bits(11, 6) | moment << 6;
    let mut starts = trial.starts.clone();
    starts.insert(random.below(starts.len() + 1), word);
    trial.with_starts(starts)
}

/// 4,095 or 4,096 words, or one word too many: all starts that there are, or words of the first moments.
fn full(random: &mut Random, trial: &Trial, draft: &Draft) -> Trial {
    let how_many = *random.pick(&[4_095, 4_096, 4_096, 4_097]);
    let any = random.chance(30);
    let word = |index: usize| match any {
        true => words::start(index % (trial.moment as usize % 64 + 1), index % draft.actions.len()),
        false => words::start(index / 64 % 64, index % 64),
    };
    let mut full = trial.with_starts((0..how_many).map(word).collect());
    if random.chance(50) {
        full.moment = draft.last as u32;
    }
    full.length = full.length.max(2 + how_many);
    full
}

/// Words of any bits, the first two low or not, the others with low moments or not.
fn any_words(random: &mut Random, last: usize) -> Trial {
    let how_many = random.below(6);
    let mut trial = Trial::new(random.below(last + 2), &random.words(how_many));
    if random.chance(60) {
        let moment = trial.moment & 63;
        trial.starts.iter_mut().for_each(|word| *word = *word & !bits(11, 6) | (*word >> 6 & 63).min(moment) << 6);
    }
    if random.chance(20) {
        trial.moment = random.word();
        trial.number = random.word();
    }
    trial
}

/// A start of the trial's own moment, in its place, lawful or not.
fn now(random: &mut Random, trial: &Trial, draft: &Draft) -> Trial {
    let word = words::start(trial.moment as usize & 63, random.below(draft.actions.len()));
    let mut starts = trial.starts.clone();
    if !starts.contains(&word) {
        let place = starts.iter().position(|&other| other > word).unwrap_or(starts.len());
        starts.insert(place, word);
    }
    trial.with_starts(starts)
}
