//! A plain finder by whole words: the speed that the archive is held against. It takes well-formed jobs with lawful starts, of which
//! it checks nothing, reads job and starts itself, fills the table of ends, counts, and writes a reading.
pub mod job;
pub mod reading;
pub mod rows;
pub mod sets;
pub mod world;

use crate::library::Answer;
use reading::Writer;
use sets::Sets;

/// The number of the refusal of a plan whose root has no reading.
const NO_READING: usize = 13;

pub struct Found {
    /// Of the root from 0 to n; none where it has none.
    pub reading: Option<Vec<u32>>,
    pub count: usize,
}

impl Found {
    /// What find answers, but for the length of its reading.
    pub fn answer(&self) -> Answer {
        let number = if self.reading.is_some() { 0 } else { NO_READING };
        Answer { number, position: 0, length: 0, count: self.count }
    }
}

pub fn find(job: &[u32], starts: &[u32]) -> Found {
    let job = job::read(job);
    let world = world::world(&job, starts);
    let mut sets = Sets::default();
    let table = rows::fill(&job, &world, &mut sets);
    let reading = table.has(job.root(), 0, job.last).then(|| {
        let mut writer = Writer { job: &job, world: &world, table: &table, sets: &mut sets, reading: vec![] };
        writer.write(job.root(), 0, job.last);
        writer.reading
    });
    Found { reading, count: table.count() as usize }
}
