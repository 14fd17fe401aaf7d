//! The calls of the proved archive. Only this file knows their C form.

use crate::oracle::answer::Answer;
use crate::oracle::call::Call;

mod c {
    /// A list that is only read: its words and their number.
    type Words = *const u32;
    type Lent = *mut u32;

    extern "C" {
        pub fn check(job: Words, j: usize, starts: Words, s: usize, facts: Words, f: usize) -> u64;
        pub fn fill(job: Words, j: usize, starts: Words, s: usize, buffer: Lent, b: usize) -> u64;
        pub fn find(
            job: Words,
            j: usize,
            starts: Words,
            s: usize,
            facts: Words,
            f: usize,
            buffer: Lent,
            b: usize,
        ) -> u64;
        pub fn trial_begin(job: Words, j: usize, trial: Lent, t: usize) -> u64;
        pub fn trial_start(job: Words, j: usize, trial: Lent, t: usize, action: u32) -> u64;
        pub fn trial_on(job: Words, j: usize, trial: Lent, t: usize) -> u64;
        pub fn trial_show(job: Words, j: usize, trial: Words, t: usize, buffer: Lent, b: usize) -> u64;
    }
}

/// What a call returned and left behind.
pub struct Given {
    pub answer: Answer,
    /// The lent lists after the call.
    pub lent: Vec<Vec<u32>>,
    /// Whether a word beside a list, or a word of a list that is only read, has changed.
    pub spilled: bool,
}

const GUARD: [u32; 4] = [0x9000_0000, 0xa5a5_a5a5, 0xb000_0fff, 0x5a5a_5a5a];

/// A list with guard words on both sides.
struct Guarded(Vec<u32>);

impl Guarded {
    fn new(words: &[u32]) -> Guarded {
        Guarded([&GUARD, words, &GUARD].concat())
    }

    fn words(&self) -> &[u32] {
        &self.0[GUARD.len()..self.0.len() - GUARD.len()]
    }

    fn at(&self) -> *const u32 {
        self.words().as_ptr()
    }

    fn at_mut(&mut self) -> *mut u32 {
        self.0[GUARD.len()..].as_mut_ptr()
    }

    fn is_guarded(&self) -> bool {
        self.0.starts_with(&GUARD) && self.0.ends_with(&GUARD)
    }
}

/// Makes the call.
pub fn ask(call: &Call) -> Given {
    match call {
        Call::Check { job, starts, facts } => {
            // SAFETY: each pointer and length are those of one live list, which is only read.
            with([job, starts, facts], None, |[job, starts, facts], _| unsafe {
                c::check(job.0, job.1, starts.0, starts.1, facts.0, facts.1)
            })
        }
        Call::Fill { job, starts, buffer } => {
            // SAFETY: each pointer and length are those of one live list; the buffer is lent for writing.
            with([job, starts], Some(buffer), |[job, starts], buffer| unsafe {
                c::fill(job.0, job.1, starts.0, starts.1, buffer.0, buffer.1)
            })
        }
        Call::Find { job, starts, facts, buffer } => {
            // SAFETY: each pointer and length are those of one live list; the buffer is lent for writing.
            with([job, starts, facts], Some(buffer), |[job, starts, facts], buffer| unsafe {
                c::find(job.0, job.1, starts.0, starts.1, facts.0, facts.1, buffer.0, buffer.1)
            })
        }
        Call::TrialBegin { job, trial } => {
            // SAFETY: each pointer and length are those of one live list; the trial is lent for writing.
            with([job], Some(trial), |[job], trial| unsafe { c::trial_begin(job.0, job.1, trial.0, trial.1) })
        }
        Call::TrialStart { job, trial, action } => {
            // SAFETY: each pointer and length are those of one live list; the trial is lent for writing.
            with([job], Some(trial), |[job], trial| unsafe { c::trial_start(job.0, job.1, trial.0, trial.1, *action) })
        }
        Call::TrialOn { job, trial } => {
            // SAFETY: each pointer and length are those of one live list; the trial is lent for writing.
            with([job], Some(trial), |[job], trial| unsafe { c::trial_on(job.0, job.1, trial.0, trial.1) })
        }
        Call::TrialShow { job, trial, buffer } => {
            // SAFETY: each pointer and length are those of one live list; the buffer is lent for writing.
            with([job, trial], Some(buffer), |[job, trial], buffer| unsafe {
                c::trial_show(job.0, job.1, trial.0, trial.1, buffer.0, buffer.1)
            })
        }
    }
}

type Read = (*const u32, usize);
type Write = (*mut u32, usize);

/// Lays the lists out between guard words, makes the call on them, and looks at what it left.
fn with<const N: usize>(
    read: [&Vec<u32>; N],
    lent: Option<&Vec<u32>>,
    call: impl Fn([Read; N], Write) -> u64,
) -> Given {
    let lists = read.map(|words| Guarded::new(words));
    let mut own = Guarded::new(lent.map_or(&[], |words| words));
    let length = own.words().len();
    let packed = call(std::array::from_fn(|i| (lists[i].at(), read[i].len())), (own.at_mut(), length));
    let kept = lists.iter().zip(read).all(|(list, words)| list.is_guarded() && list.words() == words);
    let spilled = !kept || !own.is_guarded();
    let lent = lent.map_or(vec![], |_| vec![own.words().to_vec()]);
    Given { answer: Answer::unpack(packed), lent, spilled }
}
