//! Runs over a feature or several together: on drawn plans, and on all plans of tiny jobs. Each call is held against
//! the oracle, and a run fails if a situation that its features name was not met.

use crate::draw::draft::{Draft, Drawn};
use crate::draw::trials::{Move, Trial};
use crate::draw::{damage, lists, trials};
use crate::features::{Feature, Seen};
use crate::judge::difference;
use crate::library;
use crate::oracle::call::{expected, Call, Expected};
use crate::oracle::job::{read_job, Job};
use crate::oracle::plan;
use crate::oracle::starts::Start;
use crate::random::Random;
use crate::words::{field, is_wide, start};
use std::collections::BTreeMap;

/// What a run found.
#[derive(Default)]
pub struct Report {
    pub calls: usize,
    /// The calls that were not made, since a task set has more placements than the oracle tries.
    undecided: usize,
    pub differences: usize,
    /// The first differences, told in full.
    told: Vec<String>,
    /// How often each situation was met, by the answer's number.
    met: BTreeMap<(&'static str, usize), usize>,
}

impl Report {
    /// Prints what was met, and fails if an answer was wrong or a needed situation was not met.
    pub fn assert(&self, features: &[Feature]) {
        println!("{} calls, {} undecided, {} differences", self.calls, self.undecided, self.differences);
        self.met.iter().for_each(|((name, number), times)| println!("{times:>8} {name}: {number}"));
        assert!(self.differences == 0, "{} differences\n{}", self.differences, self.told.join("\n"));
        assert!(self.undecided * 200 < self.calls, "{} of {} calls were not made", self.undecided, self.calls);
        let needed = features.iter().flat_map(|feature| feature.needed);
        let pairs = needed.flat_map(|(name, numbers)| numbers.iter().map(move |&number| (*name, number)));
        let missing: Vec<_> = pairs.filter(|pair| !self.met.contains_key(pair)).collect();
        assert!(missing.is_empty(), "situations that were not met: {missing:?}");
    }
}

struct Run<'a> {
    features: &'a [Feature],
    random: Random,
    report: Report,
    /// The job of the call before, and what it is if it is well formed.
    job: (Vec<u32>, Option<Job>),
}

/// Draws so many plans, and asks the calls about each: as it is, spoiled, and damaged.
pub fn generated(features: &[Feature], seed: u64, plans: usize) -> Report {
    let mut run = Run::new(features, seed);
    for _ in 0..plans {
        let drawn = run.draw();
        run.plan(&drawn.draft.words(), &drawn);
        let mut spoiled = drawn.clone();
        let feature = *run.random.pick(features);
        (feature.spoil)(&mut run.random, &mut spoiled);
        run.plan(&spoiled.draft.words(), &spoiled);
        run.damaged(&drawn);
    }
    run.report
}

/// Draws so many jobs, and asks check about each with each bit of its first 80 words turned, one at a time.
pub fn every_bit(features: &[Feature], seed: u64, jobs: usize) -> Report {
    let mut run = Run::new(features, seed);
    for _ in 0..jobs {
        let job = run.draw().draft.words();
        for (word, bit) in (0..job.len().min(80)).flat_map(|word| (0..32).map(move |bit| (word, bit))) {
            run.ask(Call::check(&damage::flipped(&job, word, bit), &[], &[]));
        }
    }
    run.report
}

/// Draws so many trials, and asks start, on and show about each with each bit of its moment, its number of starts, its
/// first starts and the word after them turned, one at a time.
pub fn every_bit_of_trials(features: &[Feature], seed: u64, plans: usize) -> Report {
    let mut run = Run::new(features, seed);
    for _ in 0..plans {
        let drawn = run.draw();
        let (job, trial) = (drawn.draft.words(), trials::lawful(&mut run.random, &drawn));
        let (tried, action) = trials::to_try(&mut run.random, &trial, drawn.draft.actions.len());
        let slice = tried.slice();
        for (word, bit) in (0..3 + tried.starts.len().min(8)).flat_map(|word| (0..32).map(move |bit| (word, bit))) {
            let damaged = damage::flipped(&slice, word, bit);
            run.ask(Call::trial_start(&job, &damaged, action));
            run.ask(Call::trial_on(&job, &damaged));
            run.ask(Call::trial_show(&job, &damaged, 16_384));
        }
    }
    run.report
}

/// Steps so many drawn plans by hand: trials on which move follows move, with other moves between.
pub fn stepped(features: &[Feature], seed: u64, plans: usize) -> Report {
    let mut run = Run::new(features, seed);
    for _ in 0..plans {
        let drawn = run.draw();
        run.moves(&drawn);
    }
    run.report
}

/// The most tiny jobs of a run. If there are more ways to have the features, so many of them are drawn.
const MOST_TINY: usize = 1_500;

/// Asks about every list of starts of tiny jobs that have the features in each way.
pub fn tiny(features: &[Feature], bases: &[Draft]) -> Report {
    let mut run = Run::new(features, 0);
    let mut drafts = bases.to_vec();
    for feature in features {
        drafts = drafts.iter().flat_map(|draft| (feature.tiny)(draft)).collect();
    }
    if drafts.len() > MOST_TINY {
        run.random.shuffle(&mut drafts);
    }
    drafts.iter().take(MOST_TINY).for_each(|draft| run.every_list(draft));
    run.report
}

impl Run<'_> {
    fn new(features: &[Feature], seed: u64) -> Run<'_> {
        Run { features, random: Random::new(seed), report: Report::default(), job: (vec![], None) }
    }

    /// Draws a lawful plan of the first feature, and adds the others to it.
    fn draw(&mut self) -> Drawn {
        let mut drawn = (self.features[0].draw)(&mut self.random);
        self.features[1..].iter().for_each(|feature| (feature.add)(&mut self.random, &mut drawn));
        let read = plan::read_plan(&drawn.draft.words(), &drawn.starts);
        assert!(read.is_ok(), "a drawn plan is refused: {:?} {drawn:08x?}", read.err());
        drawn
    }

    /// Makes a call and judges it. Returns the lent list as it must be afterwards; none for a reading.
    fn ask(&mut self, call: Call) -> Option<Vec<u32>> {
        let Some(expected) = expected(&call) else {
            self.report.undecided += 1;
            return None;
        };
        let given = library::ask(&call);
        self.report.calls += 1;
        if let Some(told) = difference(&call, &expected, &given) {
            self.report.differences += 1;
            if self.report.told.len() < 5 {
                self.report.told.push(told);
            }
        }
        let written = given.lent.first().map_or(&[][..], |list| &list[..given.answer.length.min(list.len())]);
        self.count(&call, &expected, written);
        match expected {
            Expected::Exactly { mut lent, .. } => lent.pop(),
            Expected::Reading { .. } => None,
        }
    }

    /// Counts the situations that the call is in.
    fn count(&mut self, call: &Call, expected: &Expected, written: &[u32]) {
        let words = call.list("job");
        if self.job.0 != words {
            self.job = (words.to_vec(), read_job(words).ok());
        }
        let job = self.job.1.as_ref();
        let starts = job.map_or(vec![], |job| named_starts(job, call));
        let (number, position) = (expected.number(), expected.position());
        let seen = Seen { call, expected, number, position, job, starts: &starts, written };
        for feature in self.features {
            for name in (feature.situations)(&seen) {
                *self.report.met.entry((name, number)).or_default() += 1;
            }
        }
    }

    /// Asks check, fill and find about a job and the starts of a drawn plan, and in four of ten cases the trial calls.
    fn plan(&mut self, job: &[u32], drawn: &Drawn) {
        let facts = plan::facts(job, &drawn.starts);
        self.ask(Call::check(job, &drawn.starts, &facts));
        let room = self.room(job);
        self.ask(Call::fill(job, &drawn.starts, room));
        let room = *self.random.pick(&[4_096, 4_096, 4_096, 4_096, 4_096, 4_097, 5_000, 4_095]);
        self.ask(Call::find(job, &drawn.starts, &facts, room));
        if self.random.chance(20) {
            let wrong = lists::facts(&mut self.random, &facts, &drawn.draft);
            self.ask(Call::check(job, &drawn.starts, &wrong));
            self.ask(Call::find(job, &drawn.starts, &wrong, room));
        }
        if self.random.chance(40) {
            self.trial(job, drawn);
        }
    }

    /// Lengths of buffers for facts: mostly enough for the job.
    fn room(&mut self, job: &[u32]) -> usize {
        let lengths: &[usize] = match is_wide(job) {
            true => &[16_385, 20_000, 16_383, 10_000, 4_096, 4_095, 0],
            false => &[4_097, 5_000, 4_095, 0],
        };
        match self.random.chance(70) {
            true if is_wide(job) => 16_384,
            true => 4_096,
            false => *self.random.pick(lengths),
        }
    }

    /// Asks the four calls about the plan up to one of its moments, now and then damaged. Start is asked about a start
    /// of that moment, which the trial then lacks, or about any action.
    fn trial(&mut self, job: &[u32], drawn: &Drawn) {
        let mut trial = trials::lawful(&mut self.random, drawn);
        if self.random.chance(30) {
            trial = trials::damaged(&mut self.random, drawn, &trial);
        }
        let (tried, action) = trials::to_try(&mut self.random, &trial, drawn.draft.actions.len());
        self.ask(Call::trial_start(job, &tried.slice(), action));
        self.ask(Call::trial_on(job, &trial.slice()));
        self.ask(Call::trial_begin(job, &trial.slice()));
        let room = self.room(job);
        self.ask(Call::trial_show(job, &trial.slice(), room));
    }

    /// Asks about the plan with one word of its job damaged, and with its starts damaged.
    fn damaged(&mut self, drawn: &Drawn) {
        let job = drawn.draft.words();
        let feature = *self.random.pick(self.features);
        let damaged = (feature.damage)(&mut self.random, &job);
        self.plan(&damaged, drawn);
        let starts = lists::starts(&mut self.random, &drawn.starts, &drawn.draft);
        self.plan(&job, &Drawn { starts, draft: drawn.draft.clone() });
    }

    /// Makes the moves of a plan on one trial, one after the other, and shows it now and then.
    fn moves(&mut self, drawn: &Drawn) {
        let job = drawn.draft.words();
        let mut trial = self.ask(Call::trial_begin(&job, &Trial::new(7, &[5, 6]).slice())).expect("one list is lent");
        for next in trials::moves(&mut self.random, drawn) {
            let call = match next {
                Move::Start(action) => Call::trial_start(&job, &trial, action),
                Move::On => Call::trial_on(&job, &trial),
            };
            trial = self.ask(call).expect("one list is lent");
            if self.random.chance(20) {
                let room = self.room(&job);
                self.ask(Call::trial_show(&job, &trial, room));
            }
        }
    }

    /// Asks about every ascending list of starts of a tiny job that finish by n, and now and then about one more that
    /// does not.
    fn every_list(&mut self, draft: &Draft) {
        let job = draft.words();
        let actions = draft.actions.len();
        let begins = |action: usize| (draft.last + 1).saturating_sub(draft.duration(action));
        let pairs = (0..actions).flat_map(|action| (0..begins(action)).map(move |moment| start(moment, action)));
        let mut all: Vec<u32> = pairs.collect();
        all.sort();
        for chosen in 0..1_usize << all.len() {
            let starts = (0..all.len()).filter(|place| chosen >> place & 1 == 1).map(|place| all[place]);
            let mut starts: Vec<u32> = starts.collect();
            self.tiny_plan(&job, &starts);
            let late = self.random.below(actions);
            let word = start(begins(late).min(draft.last), late);
            if self.random.chance(10) && starts.last().is_none_or(|&last| last < word) {
                starts.push(word);
                self.tiny_plan(&job, &starts);
            }
        }
    }

    /// Asks check; fill and find about every lawful plan, and by turns about others; and by turns the trial calls.
    fn tiny_plan(&mut self, job: &[u32], starts: &[u32]) {
        let facts = plan::facts(job, starts);
        self.ask(Call::check(job, starts, &facts));
        let lawful = plan::read_plan(job, starts).is_ok();
        let turn = self.random.below(4);
        if lawful || turn == 0 {
            self.ask(Call::fill(job, starts, if is_wide(job) { 16_384 } else { 4_096 }));
        }
        if lawful || turn == 1 {
            self.ask(Call::find(job, starts, &facts, 4_096));
        }
        if turn == 2 {
            let moment = starts.last().map_or(0, |&word| field(word, 11, 6));
            let trial = Trial::new(moment, starts);
            let (tried, action) = trials::to_try(&mut self.random, &trial, 2);
            self.ask(Call::trial_start(job, &tried.slice(), action));
            self.ask(Call::trial_on(job, &trial.slice()));
            self.ask(Call::trial_show(job, &trial.slice(), 16_384));
        }
    }
}

/// The starts of a call or of its trial, as far as their words name a moment and an action of the job; at most 200.
/// Begin reads none.
fn named_starts(job: &Job, call: &Call) -> Vec<Start> {
    let trial = if matches!(call, Call::TrialBegin { .. }) { &[] } else { call.list("trial") };
    let of_trial = trial.get(2..2 + trial.get(1).map_or(0, |&number| number as usize).min(200)).unwrap_or(&[]);
    let words = if trial.is_empty() { call.list("starts") } else { of_trial };
    let named = |&word: &u32| {
        let (moment, action) = (field(word, 11, 6), field(word, 5, 0));
        let duration = job.actions.get(action)?.duration;
        (moment <= job.last).then_some(Start { moment, action, duration })
    };
    words.iter().take(200).filter_map(named).collect()
}
