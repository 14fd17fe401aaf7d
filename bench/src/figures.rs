//! The figures: a call on a plan, its answer, and how many instructions it may take.
use crate::library::{self, facts, filler_words, Answer, FIND_WORDS, TRIAL_WORDS};
use crate::plans::{self, Plan};
use crate::shapes::{crowds, doors, held, nests, windows};
use crate::{jobs, slow, yardstick};

/// The moment of a trial.
const TRIAL_MOMENT: usize = 62;

/// What check may take on a job of 2,048 words without starts.
const WITHOUT_STARTS: u64 = 1_500_000;

/// How many times as many instructions as the yardstick find may take on a door and on end windows, and as check a start in a trial.
const DOOR: f64 = 2.5;
const END_WINDOWS: f64 = 1.5;
const START: f64 = 1.01;

#[derive(Clone, Copy, Debug, PartialEq)]
pub enum Call {
    Check,
    Fill,
    Find,
    Yardstick,
    Begin,
    Start,
    On,
    Show,
}

pub enum Limit {
    /// The number that limits.txt has for the figure.
    Listed,
    Most(u64),
    /// So many times the instructions of another call on the same plan.
    Times(f64, Call),
    /// The figure is there for another one's limit.
    Nothing,
}

/// The figures of the gate, or all.
#[derive(Clone, Copy, PartialEq)]
pub enum Part {
    Gate,
    All,
}

pub struct Figure {
    pub call: Call,
    pub plan: Plan,
    pub limit: Limit,
}

pub fn figures(part: Part) -> Vec<Figure> {
    let with_starts =
        plans::all().into_iter().flat_map(|plan| each(&[Call::Check, Call::Fill], plan, || Limit::Listed));
    let without = jobs::all().into_iter().flat_map(|job| each(&[Call::Check], job, || Limit::Most(WITHOUT_STARTS)));
    let trials = plans::trials().into_iter().flat_map(trial);
    let doors = doors::narrow().into_iter().flat_map(|door| beside_yardstick(DOOR, door));
    let small = windows::small().into_iter().flat_map(|plan| beside_yardstick(END_WINDOWS, plan));
    let (gate_sets, long_sets) = slow::plans();
    let gate = [doors::wide(), windows::largest(), held::plans(), nests::plans(), crowds::plans(), gate_sets];
    let long = if part == Part::All { vec![vec![crowds::four_sets()], long_sets] } else { vec![] };
    let finds = gate.into_iter().chain(long).flatten().flat_map(|plan| each(&[Call::Find], plan, || Limit::Listed));
    with_starts.chain(without).chain(trials).chain(doors).chain(small).chain(finds).collect()
}

fn each(calls: &[Call], plan: Plan, limit: impl Fn() -> Limit) -> Vec<Figure> {
    calls.iter().map(|&call| Figure { call, plan: plan.clone(), limit: limit() }).collect()
}

/// The calls on the trial of a plan's starts. A start is held to check of these starts with their facts.
fn trial(plan: Plan) -> Vec<Figure> {
    let mut figures = each(&[Call::Begin, Call::On, Call::Show], plan.clone(), || Limit::Listed);
    figures.extend(each(&[Call::Start], plan.clone(), || Limit::Times(START, Call::Check)));
    figures.extend(each(&[Call::Check], plan, || Limit::Nothing));
    figures
}

/// Find, held to the yardstick.
fn beside_yardstick(times: f64, plan: Plan) -> Vec<Figure> {
    let mut figures = each(&[Call::Find], plan.clone(), || Limit::Times(times, Call::Yardstick));
    figures.extend(each(&[Call::Yardstick], plan, || Limit::Nothing));
    figures
}

/// The name of the figure of a call on a plan.
pub fn name(call: Call, plan: &Plan) -> String {
    format!("{}: {}", format!("{call:?}").to_lowercase(), plan.name)
}

impl Figure {
    pub fn name(&self) -> String {
        name(self.call, &self.plan)
    }

    /// The call with all that it is lent, to be made any number of times.
    pub fn ready(&self) -> Box<dyn FnMut() -> Answer> {
        let Plan { job, starts, .. } = self.plan.clone();
        let facts = facts(&job, &starts);
        let words = self.trial();
        let (mut lent, mut buffer) = (words.clone(), vec![0; filler_words(&job)]);
        match self.call {
            Call::Check => Box::new(move || library::check(&job, &starts, &facts)),
            Call::Fill => Box::new(move || library::fill(&job, &starts, &mut buffer)),
            Call::Find => Box::new(move || library::find(&job, &starts, &facts, &mut buffer[..FIND_WORDS])),
            Call::Yardstick => Box::new(move || yardstick::find(&job, &starts).answer()),
            Call::Begin => Box::new(move || library::trial_begin(&job, &mut lent)),
            Call::Start => Box::new(move || {
                lent.copy_from_slice(&words);
                library::trial_start(&job, &mut lent, 0)
            }),
            Call::On => Box::new(move || {
                lent.copy_from_slice(&words);
                library::trial_on(&job, &mut lent)
            }),
            Call::Show => Box::new(move || library::trial_show(&job, &lent, &mut buffer)),
        }
    }

    /// The words of the trial of the plan's starts: its moment, their number, the starts.
    fn trial(&self) -> Vec<u32> {
        let starts = &self.plan.starts;
        let mut words = [&[TRIAL_MOMENT as u32, starts.len() as u32], &starts[..]].concat();
        words.resize(TRIAL_WORDS, 0);
        words
    }

    /// Whether the answer is the plan's, or for find that of the yardstick.
    pub fn is_right(&self) -> bool {
        let answer = self.ready()();
        if self.call == Call::Find {
            let plain = yardstick::find(&self.plan.job, &self.plan.starts).answer();
            return (answer.number, answer.count) == (plain.number, plain.count);
        }
        self.call == Call::Yardstick || (answer.number, answer.position) == self.plan.refusal
    }
}
