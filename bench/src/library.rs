//! The calls of the archive.
use crate::words::is_wide;

/// How many words find, and a trial, are lent.
pub const FIND_WORDS: usize = 4096;
pub const TRIAL_WORDS: usize = 4098;

/// Lists of words that a call reads, and that it writes.
type List = *const u32;
type Lent = *mut u32;

mod c {
    use super::{Lent, List};
    extern "C" {
        pub fn check(job: List, jobs: usize, starts: List, count: usize, facts: List, length: usize) -> u64;
        pub fn fill(job: List, jobs: usize, starts: List, count: usize, buffer: Lent, room: usize) -> u64;
        pub fn find(j: List, jn: usize, s: List, sn: usize, f: List, fn_: usize, b: Lent, bn: usize) -> u64;
        pub fn trial_begin(job: List, jobs: usize, trial: Lent, length: usize) -> u64;
        pub fn trial_start(job: List, jobs: usize, trial: Lent, length: usize, action: u32) -> u64;
        pub fn trial_on(job: List, jobs: usize, trial: Lent, length: usize) -> u64;
        pub fn trial_show(job: List, jobs: usize, trial: List, length: usize, buffer: Lent, room: usize) -> u64;
    }
}

pub struct Answer {
    pub number: usize,
    pub position: usize,
    pub length: usize,
    pub count: usize,
}

/// The fields of the number that a call returns.
fn answer(word: u64) -> Answer {
    let field = |low: u32, bits: u32| (word >> low & ((1 << bits) - 1)) as usize;
    Answer { number: field(56, 8), position: field(40, 16), length: field(24, 16), count: field(0, 24) }
}

/// A call on slices, each handed over as a pointer and a length.
macro_rules! call {
    ($name:ident, $($slice:expr => $pointer:ident),* $(; $last:expr)?) => {
        // SAFETY: each pointer and length are those of one live slice, which is lent for as long as the call lasts.
        answer(unsafe { c::$name($($slice.$pointer(), $slice.len()),* $(, $last)?) })
    };
}

pub fn check(job: &[u32], starts: &[u32], facts: &[u32]) -> Answer {
    call!(check, job => as_ptr, starts => as_ptr, facts => as_ptr)
}

pub fn fill(job: &[u32], starts: &[u32], buffer: &mut [u32]) -> Answer {
    call!(fill, job => as_ptr, starts => as_ptr, buffer => as_mut_ptr)
}

pub fn find(job: &[u32], starts: &[u32], facts: &[u32], buffer: &mut [u32]) -> Answer {
    call!(find, job => as_ptr, starts => as_ptr, facts => as_ptr, buffer => as_mut_ptr)
}

pub fn trial_begin(job: &[u32], trial: &mut [u32]) -> Answer {
    call!(trial_begin, job => as_ptr, trial => as_mut_ptr)
}

pub fn trial_start(job: &[u32], trial: &mut [u32], action: u32) -> Answer {
    call!(trial_start, job => as_ptr, trial => as_mut_ptr; action)
}

pub fn trial_on(job: &[u32], trial: &mut [u32]) -> Answer {
    call!(trial_on, job => as_ptr, trial => as_mut_ptr)
}

pub fn trial_show(job: &[u32], trial: &[u32], buffer: &mut [u32]) -> Answer {
    call!(trial_show, job => as_ptr, trial => as_ptr, buffer => as_mut_ptr)
}

/// How many words fill and show are lent.
pub fn filler_words(job: &[u32]) -> usize {
    if is_wide(job) {
        16_384
    } else {
        4_096
    }
}

/// The facts of a plan; none if fill refuses it.
pub fn facts(job: &[u32], starts: &[u32]) -> Vec<u32> {
    let mut buffer = vec![0; filler_words(job)];
    let filled = fill(job, starts, &mut buffer);
    buffer.truncate(filled.length);
    buffer
}
