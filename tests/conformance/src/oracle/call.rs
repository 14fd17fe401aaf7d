//! The product's calls as values: what each is handed, and what it must return and leave behind. If a call gets a new
//! argument, this file and `library.rs` change; what draws, judges and counts calls goes on as it is.

use crate::oracle::answer::{Answer, Refusal};
use crate::oracle::plan::{self, Outcome};
use crate::oracle::readings::decision::Decision;
use crate::oracle::readings::world::World;
use crate::oracle::trial;
use crate::random::Random;
use std::sync::OnceLock;

/// A call with everything that it is handed. A lent list is given as it is before the call.
#[derive(Clone, Debug)]
pub enum Call {
    Check { job: Vec<u32>, starts: Vec<u32>, facts: Vec<u32> },
    Fill { job: Vec<u32>, starts: Vec<u32>, buffer: Vec<u32> },
    Find { job: Vec<u32>, starts: Vec<u32>, facts: Vec<u32>, buffer: Vec<u32> },
    TrialBegin { job: Vec<u32>, trial: Vec<u32> },
    TrialStart { job: Vec<u32>, trial: Vec<u32>, action: u32 },
    TrialOn { job: Vec<u32>, trial: Vec<u32> },
    TrialShow { job: Vec<u32>, trial: Vec<u32>, buffer: Vec<u32> },
}

/// What a call must return and leave behind.
pub enum Expected {
    /// This answer, and the lent lists as they are after the call.
    Exactly { answer: Answer, lent: Vec<Vec<u32>> },
    /// Some reading of the root from 0 to n at the beginning of the buffer, with this count, and the other words as
    /// they were.
    Reading { world: World, decision: Decision },
}

impl Expected {
    /// The refusal number, 0 for a success.
    pub fn number(&self) -> usize {
        match self {
            Expected::Exactly { answer, .. } => answer.number,
            Expected::Reading { .. } => 0,
        }
    }

    pub fn position(&self) -> usize {
        match self {
            Expected::Exactly { answer, .. } => answer.position,
            Expected::Reading { .. } => 0,
        }
    }
}

impl Call {
    pub fn check(job: &[u32], starts: &[u32], facts: &[u32]) -> Call {
        Call::Check { job: job.to_vec(), starts: starts.to_vec(), facts: facts.to_vec() }
    }

    /// Fill with a lent buffer of so many words.
    pub fn fill(job: &[u32], starts: &[u32], room: usize) -> Call {
        Call::Fill { job: job.to_vec(), starts: starts.to_vec(), buffer: noise(job, room) }
    }

    /// Find with a lent buffer of so many words.
    pub fn find(job: &[u32], starts: &[u32], facts: &[u32], room: usize) -> Call {
        Call::Find { job: job.to_vec(), starts: starts.to_vec(), facts: facts.to_vec(), buffer: noise(job, room) }
    }

    pub fn trial_begin(job: &[u32], trial: &[u32]) -> Call {
        Call::TrialBegin { job: job.to_vec(), trial: trial.to_vec() }
    }

    pub fn trial_start(job: &[u32], trial: &[u32], action: u32) -> Call {
        Call::TrialStart { job: job.to_vec(), trial: trial.to_vec(), action }
    }

    pub fn trial_on(job: &[u32], trial: &[u32]) -> Call {
        Call::TrialOn { job: job.to_vec(), trial: trial.to_vec() }
    }

    /// Show with a lent buffer of so many words.
    pub fn trial_show(job: &[u32], trial: &[u32], room: usize) -> Call {
        Call::TrialShow { job: job.to_vec(), trial: trial.to_vec(), buffer: noise(job, room) }
    }

    /// The call's name in C.
    pub fn name(&self) -> &'static str {
        match self {
            Call::Check { .. } => "check",
            Call::Fill { .. } => "fill",
            Call::Find { .. } => "find",
            Call::TrialBegin { .. } => "trial_begin",
            Call::TrialStart { .. } => "trial_start",
            Call::TrialOn { .. } => "trial_on",
            Call::TrialShow { .. } => "trial_show",
        }
    }

    /// The lists that the call is handed, with their names in C.
    pub fn lists(&self) -> Vec<(&'static str, &[u32])> {
        match self {
            Call::Check { job, starts, facts } => vec![("job", job), ("starts", starts), ("facts", facts)],
            Call::Fill { job, starts, buffer } => vec![("job", job), ("starts", starts), ("buffer", buffer)],
            Call::Find { job, starts, facts, buffer } => {
                vec![("job", job), ("starts", starts), ("facts", facts), ("buffer", buffer)]
            }
            Call::TrialBegin { job, trial } | Call::TrialOn { job, trial } => vec![("job", job), ("trial", trial)],
            Call::TrialStart { job, trial, .. } => vec![("job", job), ("trial", trial)],
            Call::TrialShow { job, trial, buffer } => vec![("job", job), ("trial", trial), ("buffer", buffer)],
        }
    }

    /// The list of that name, or an empty one.
    pub fn list(&self, name: &str) -> &[u32] {
        self.lists().into_iter().find(|(of, _)| *of == name).map_or(&[], |(_, list)| list)
    }

    /// The lists that the call may write to, as they are before it.
    pub fn lent(&self) -> Vec<Vec<u32>> {
        match self {
            Call::Check { .. } => vec![],
            Call::Fill { buffer, .. } | Call::Find { buffer, .. } | Call::TrialShow { buffer, .. } => {
                vec![buffer.clone()]
            }
            Call::TrialBegin { trial, .. } | Call::TrialStart { trial, .. } => vec![trial.clone()],
            Call::TrialOn { trial, .. } => vec![trial.clone()],
        }
    }
}

/// What a lent list holds before a call: words of any bits, other ones beside other words that the call is handed.
pub fn noise(beside: &[u32], length: usize) -> Vec<u32> {
    static NOISE: OnceLock<Vec<u32>> = OnceLock::new();
    let words = NOISE.get_or_init(|| Random::new(0x5e3a).words(5_000));
    let from = beside.iter().fold(0, |sum: u32, word| sum.wrapping_mul(31).wrapping_add(*word)) as usize % words.len();
    words.iter().copied().cycle().skip(from).take(length).collect()
}

/// What the documents say of the call; none if a task set has more placements than the oracle tries.
pub fn expected(call: &Call) -> Option<Expected> {
    let lent = call.lent();
    Some(match call {
        Call::Check { job, starts, facts } => exactly(plan::check(job, starts, facts).map(|()| vec![]), lent, false),
        Call::Fill { job, starts, buffer } => exactly(plan::fill(job, starts, buffer.len()), lent, true),
        Call::Find { job, starts, facts, buffer } => match plan::find(job, starts, facts, buffer.len())? {
            Outcome::Refused(refusal) => exactly(Err(refusal), lent, true),
            Outcome::NoReading { decision } => Expected::Exactly { answer: plan::no_reading(&decision), lent },
            Outcome::Read { world, decision } => Expected::Reading { world, decision },
        },
        Call::TrialBegin { job, trial } => exactly(trial::begin(job, trial), lent, false),
        Call::TrialStart { job, trial, action } => exactly(trial::start(job, trial, *action), lent, false),
        Call::TrialOn { job, trial } => exactly(trial::on(job, trial), lent, false),
        Call::TrialShow { job, trial, buffer } => exactly(trial::show(job, trial, buffer.len()), lent, true),
    })
}

/// A success writes these words to the beginning of the lent list, and says how many if its answer tells a length. "A
/// refusal gives length 0 and count 0", and changes nothing.
fn exactly(written: Result<Vec<u32>, Refusal>, mut lent: Vec<Vec<u32>>, tells_length: bool) -> Expected {
    let answer = match written {
        Ok(words) => {
            if let Some(list) = lent.first_mut() {
                list[..words.len()].copy_from_slice(&words);
            }
            Answer::success(if tells_length { words.len() } else { 0 }, 0)
        }
        Err(refusal) => Answer::refused(refusal),
    };
    Expected::Exactly { answer, lent }
}
