//! Request L1, "Stepping a plan by hand", with L4's row 15, L5's row 16 and L6's second 12: the four calls, and what
//! each leaves in the words lent to it. A trial crosses to C as words: its moment, the number of its starts, then the
//! starts.

use crate::oracle::answer::{refuse, Refusal};
use crate::oracle::facts::fact_words;
use crate::oracle::job::{read_job, Job};
use crate::oracle::plan::{lent_buffer, plan_of, room_for_facts, Plan};
use crate::oracle::starts::{clash, exceeds, keeps_windows, Start};
use crate::words::{self, field};

/// "a trial with more than 4,096 starts"
pub const MOST_STARTS: usize = 4096;

/// "the slice has at least 4,098 words"
pub const TRIAL_WORDS: usize = 2 + MOST_STARTS;

/// "it is its moment and its starts, ascending", beside what the rules make of the starts.
struct Trial {
    moment: usize,
    words: Vec<u32>,
    plan: Plan,
}

/// "A trial begins at moment 0 of a job with no starts". Here and in the moves the result is what the trial's words
/// begin with.
pub fn begin(job: &[u32], trial: &[u32]) -> Result<Vec<u32>, Refusal> {
    read_job(job)?;
    long_enough(trial)?;
    Ok(words_of(0, &[]))
}

/// "one move starts an action now"
pub fn start(job: &[u32], trial: &[u32], action: u32) -> Result<Vec<u32>, Refusal> {
    let Trial { moment, mut words, plan } = read_trial(job, trial)?;
    new_start(&plan, moment, action as usize)?;
    words.push(words::start(moment, action as usize));
    words.sort();
    Ok(words_of(moment, &words))
}

/// "the other goes on one moment"; "moving on at moment n, last" is refused.
pub fn on(job: &[u32], trial: &[u32]) -> Result<Vec<u32>, Refusal> {
    let Trial { moment, words, plan } = read_trial(job, trial)?;
    match moment == plan.job.last {
        true => refuse(14, 0),
        false => Ok(words_of(moment + 1, &words)),
    }
}

/// "Showing writes the fact words for moments 0 to the present one to a buffer of the filler's least length, refused
/// and answered like the filler's"; "from 4,096 up to that it gives 12, right after the job's checks and before 14".
pub fn show(job: &[u32], trial: &[u32], length: usize) -> Result<Vec<u32>, Refusal> {
    lent_buffer(length)?;
    let job = read_job(job)?;
    room_for_facts(&job, length)?;
    let Trial { moment, plan, .. } = trial_of(job, trial)?;
    Ok(fact_words(&plan.job.layout, &plan.states[..=moment]))
}

/// A trial as words: "it is its moment and its starts, ascending", with their number between.
fn words_of(moment: usize, starts: &[u32]) -> Vec<u32> {
    [&[moment as u32, starts.len() as u32], starts].concat()
}

/// "Each call takes the job again and refuses a bad one, then a trial that no moves could give".
fn read_trial(job: &[u32], trial: &[u32]) -> Result<Trial, Refusal> {
    trial_of(read_job(job)?, trial)
}

/// "14, or the number that the check gives its starts"; "a refusal of the job keeps its position, any other refusal
/// here has position 0".
fn trial_of(job: Job, trial: &[u32]) -> Result<Trial, Refusal> {
    let (moment, words) = taken_apart(trial, job.last)?;
    let plan = plan_of(job, &words).map_err(|of_starts| Refusal { position: 0, ..of_starts })?;
    Ok(Trial { moment, words, plan })
}

/// 14 on the whole list: "more than 4,096 starts, a moment above n or a word of its starts whose bits 11..6 exceed the
/// trial's moment".
fn taken_apart(trial: &[u32], last: usize) -> Result<(usize, Vec<u32>), Refusal> {
    long_enough(trial)?;
    let moment = trial[0] as usize;
    let how_many = trial[1] as usize;
    if how_many > MOST_STARTS || moment > last {
        return refuse(14, 0);
    }
    let words = trial[2..2 + how_many].to_vec();
    match words.iter().any(|&word| field(word, 11, 6) > moment) {
        true => refuse(14, 0),
        false => Ok((moment, words)),
    }
}

/// A shorter slice is a trial that no moves could give.
fn long_enough(trial: &[u32]) -> Result<(), Refusal> {
    match trial.len() < TRIAL_WORDS {
        true => refuse(14, 0),
        false => Ok(()),
    }
}

/// "A start is tested for 6 (no such action), 7, 8, 9, 10 in that order"; 15 is "after 9 and before 10", 16 "after 15
/// and before 10": "a new start is counted with all in hand, whatever their action numbers".
fn new_start(plan: &Plan, moment: usize, action: usize) -> Result<(), Refusal> {
    let job = &plan.job;
    if action >= job.actions.len() {
        return refuse(6, 0);
    }
    let new = Start { moment, action, duration: job.actions[action].duration };
    if new.moment + new.duration > job.last {
        return refuse(7, 0);
    }
    if plan.starts.iter().any(|old| again(old, &new)) {
        return refuse(8, 0);
    }
    if plan.starts.iter().any(|old| clash_in_hand(job, old, &new)) {
        return refuse(9, 0);
    }
    if !keeps_windows(job, &new) {
        return refuse(15, 0);
    }
    if exceeds(job, &plan.starts, &new) {
        return refuse(16, 0);
    }
    let state = &plan.states[new.moment];
    match job.actions[action].needs.iter().any(|need| state[need.fluent] != Some(need.value)) {
        true => refuse(10, 0),
        false => Ok(()),
    }
}

/// Row 8, and "an action already started at this moment gives 8".
fn again(old: &Start, new: &Start) -> bool {
    old.action == new.action && old.moment <= new.moment && new.moment < old.moment + old.duration
}

/// "9 looks at all the trial's starts, also those of this moment with a higher action number"
fn clash_in_hand(job: &Job, old: &Start, new: &Start) -> bool {
    let both_in_hand = (0..=job.last).any(|t| old.in_hand(t) && new.in_hand(t));
    both_in_hand && clash(&job.actions[old.action], &job.actions[new.action])
}
