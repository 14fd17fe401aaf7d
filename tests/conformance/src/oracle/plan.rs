//! Document 01, "Where each check is made": the rows of check, fill and find, from the top; with the second 12 of
//! request L6.

use crate::oracle::answer::{refuse, Answer, Refusal};
use crate::oracle::facts::{fact_words, row_10, row_11, states, State};
use crate::oracle::job::{read_job, Job};
use crate::oracle::readings::decision::{decide, Decision};
use crate::oracle::readings::world::World;
use crate::oracle::starts::{read_starts, Start};
use std::cell::RefCell;
use std::rc::Rc;

/// "shorter than 4,096 words"
pub const LEAST_BUFFER: usize = 4096;

/// A well-formed job with starts that rows 6 to 10, 15 and 16 let pass, and what the rules make of them.
pub struct Plan {
    pub job: Job,
    pub starts: Vec<Start>,
    pub states: Vec<State>,
    pub facts: Vec<u32>,
}

type Read = Result<Rc<Plan>, Refusal>;

thread_local! {
    /// The job and starts that were read last, since several calls are asked about each.
    static LATEST_READ: RefCell<Option<(Vec<u32>, Vec<u32>, Read)>> = const { RefCell::new(None) };
}

/// Rows 1 to 10, with 15 and 16 after 9.
pub fn read_plan(job: &[u32], starts: &[u32]) -> Read {
    LATEST_READ.with_borrow_mut(|last| match last {
        Some((of_job, of_starts, read)) if of_job == job && of_starts == starts => read.clone(),
        _ => {
            let read = read_job(job).and_then(|job| plan_of(job, starts)).map(Rc::new);
            *last = Some((job.to_vec(), starts.to_vec(), read.clone()));
            read
        }
    })
}

/// Rows 6 to 10, 15 and 16, of a well-formed job.
pub fn plan_of(job: Job, starts: &[u32]) -> Result<Plan, Refusal> {
    let starts = read_starts(&job, starts)?;
    let states = states(&job, &starts);
    row_10(&job, &starts, &states)?;
    let facts = fact_words(&job.layout, &states);
    Ok(Plan { job, starts, states, facts })
}

/// The list of the rules, or an empty one where the job or the starts are refused.
pub fn facts(job: &[u32], starts: &[u32]) -> Vec<u32> {
    read_plan(job, starts).map_or(vec![], |plan| plan.facts.clone())
}

pub fn lent_buffer(length: usize) -> Result<(), Refusal> {
    match length < LEAST_BUFFER {
        true => refuse(12, 0),
        false => Ok(()),
    }
}

/// L6: "The filler then needs 16,384 words; from 4,096 up to that it gives 12, right after the job's checks and before
/// 14."
pub fn room_for_facts(job: &Job, length: usize) -> Result<(), Refusal> {
    match length < job.layout.room {
        true => refuse(12, 0),
        false => Ok(()),
    }
}

/// "Check has no lent buffer and runs numbers 1 to 11", with 15 and 16.
pub fn check(job: &[u32], starts: &[u32], facts: &[u32]) -> Result<(), Refusal> {
    row_11(&read_plan(job, starts)?.facts, facts)
}

/// "fill runs all but numbers 11 and 13": 12, the job, 12 again in a wide one, the starts. It writes the facts.
pub fn fill(job: &[u32], starts: &[u32], buffer: usize) -> Result<Vec<u32>, Refusal> {
    lent_buffer(buffer)?;
    room_for_facts(&read_job(job)?, buffer)?;
    Ok(read_plan(job, starts)?.facts.clone())
}

/// What find must do.
pub enum Outcome {
    /// A refusal by a row before 13.
    Refused(Refusal),
    /// 13 with the count of the triples that have a reading.
    NoReading { decision: Decision },
    /// Any reading of the root from 0 to n, with that count.
    Read { world: World, decision: Decision },
}

/// "find runs all": 12, then 1 to 11 with 15 and 16, then 13. It writes no facts, and asks for 4,096 words of any job.
/// None if a task set has more placements than are tried.
pub fn find(job: &[u32], starts: &[u32], facts: &[u32], buffer: usize) -> Option<Outcome> {
    let passed = lent_buffer(buffer).and_then(|()| check(job, starts, facts)).and_then(|()| read_plan(job, starts));
    let plan = match passed {
        Ok(plan) => plan,
        Err(refusal) => return Some(Outcome::Refused(refusal)),
    };
    let world = World::new(&plan);
    let decision = decide(&world)?;
    Some(match decision.has(world.root(), 0, world.last()) {
        true => Outcome::Read { world, decision },
        false => Outcome::NoReading { decision },
    })
}

/// "A refusal gives length 0 and count 0, but 13 gives the true count"
pub fn no_reading(decision: &Decision) -> Answer {
    Answer { number: 13, position: 0, length: 0, count: decision.count() }
}
