//! One file a feature of the product: how it is drawn, how it is spoiled, and which situations a run must meet.

pub mod groups;
pub mod has_held;
pub mod in_hand;
pub mod jobs;
pub mod plans;
pub mod quiet_pause;
pub mod readings;
pub mod shift_windows;
pub mod task_sets;
pub mod trials;
pub mod wide;

use crate::draw::draft::{Draft, Drawn};
use crate::draw::lists;
use crate::oracle::call::{Call, Expected};
use crate::oracle::job::Job;
use crate::oracle::plan::read_plan;
use crate::oracle::readings::decision::{decide, Decision};
use crate::oracle::readings::world::World;
use crate::oracle::starts::Start;
use crate::random::Random;

/// A feature as the runs need it.
#[derive(Clone, Copy)]
pub struct Feature {
    /// Draws a lawful plan in which the feature can be met.
    pub draw: fn(&mut Random) -> Drawn,
    /// Puts the feature into a plan that was drawn otherwise. Lawful starts stay lawful.
    pub add: fn(&mut Random, &mut Drawn),
    /// Changes the plan so that the feature's rule breaks it, or nearly does.
    pub spoil: fn(&mut Random, &mut Drawn),
    /// Damages a job, mostly in a word that the feature has.
    pub damage: fn(&mut Random, &[u32]) -> Vec<u32>,
    /// Each way to have the feature in a tiny job.
    pub tiny: fn(&Draft) -> Vec<Draft>,
    /// Names the situations that a call is in.
    pub situations: fn(&Seen) -> Vec<&'static str>,
    /// Each situation that a run must meet, with the answers that calls in it must have got.
    pub needed: &'static [(&'static str, &'static [usize])],
}

/// Every feature.
pub const ALL: [Feature; 11] = [
    jobs::FEATURE,
    plans::FEATURE,
    readings::FEATURE,
    task_sets::FEATURE,
    trials::FEATURE,
    quiet_pause::FEATURE,
    in_hand::FEATURE,
    shift_windows::FEATURE,
    groups::FEATURE,
    wide::FEATURE,
    has_held::FEATURE,
];

/// A call that was made, as the situations are told from it.
pub struct Seen<'a> {
    pub call: &'a Call,
    pub expected: &'a Expected,
    /// The refusal number that the call must return, 0 for a success.
    pub number: usize,
    /// The position that the call must return.
    pub position: usize,
    /// The call's job, if it is well formed.
    pub job: Option<&'a Job>,
    /// The starts that the call is handed, or those of its trial, as far as their words name a moment and an action of
    /// the job.
    pub starts: &'a [Start],
    /// The words that the call wrote, as many as its answer's length says.
    pub written: &'a [u32],
}

impl Seen<'_> {
    /// The new start of a trial, if the call is one and the job has its action.
    pub fn new_start(&self) -> Option<Start> {
        let (Call::TrialStart { trial, action, .. }, Some(job)) = (self.call, self.job) else { return None };
        let duration = job.actions.get(*action as usize)?.duration;
        Some(Start { moment: *trial.first()? as usize, action: *action as usize, duration })
    }

    /// Whether the trial's own starts are lawful, so that a refusal of trial_start is one of the new start.
    pub fn is_own_lawful(&self) -> bool {
        let trial = self.call.list("trial");
        let own = trial.get(2..2 + trial.get(1).map_or(0, |&number| number as usize));
        own.is_some_and(|own| read_plan(self.call.list("job"), own).is_ok())
    }

    /// The start that is refused by a row from 7 on: that of the position, or the new start of a lawful trial.
    pub fn refused_start(&self) -> Option<Start> {
        match self.call {
            _ if self.number < 7 => None,
            Call::Check { .. } | Call::Fill { .. } | Call::Find { .. } => self.starts.get(self.position).copied(),
            _ => self.new_start().filter(|_| self.is_own_lawful()),
        }
    }

    /// The word that refuses the job, if a word does.
    pub fn refused_word(&self) -> Option<u32> {
        let word = self.call.list("job").get(self.position);
        word.copied().filter(|_| matches!(self.number, 2..=4))
    }

    /// What is told from the triples of a find call that searched, with or without a reading.
    pub fn decided(&self, tell: impl FnOnce(&World, &Decision) -> Vec<&'static str>) -> Vec<&'static str> {
        match (self.expected, self.call) {
            (Expected::Reading { world, decision }, _) => tell(world, decision),
            (_, Call::Find { job, starts, .. }) if self.number == 13 => {
                let Ok(plan) = read_plan(job, starts) else { return vec![] };
                let world = World::new(&plan);
                decide(&world).map_or(vec![], |decision| tell(&world, &decision))
            }
            _ => vec![],
        }
    }
}

/// The names whose tests hold.
pub fn met(tests: &[(&'static str, bool)]) -> Vec<&'static str> {
    tests.iter().filter(|(_, holds)| *holds).map(|(name, _)| *name).collect()
}

/// A feature that adds nothing to a plan of another.
pub fn nothing_to_add(_: &mut Random, _: &mut Drawn) {}

/// Damages the starts, or puts one in.
pub fn damage_starts(random: &mut Random, drawn: &mut Drawn) {
    drawn.starts = lists::starts(random, &drawn.starts, &drawn.draft);
}
