//! Words of jobs, starts and readings: their fields, and a maker for each kind.

/// The most fluents of a wide job.
pub const FLUENTS: usize = 256;

/// The bits high..low of a word.
pub fn field(word: u32, high: u32, low: u32) -> usize {
    (word >> low) as usize & ((2 << (high - low)) - 1)
}

/// Bits 31..28 of a word.
pub fn kind(word: u32) -> usize {
    field(word, 31, 28)
}

/// Bits 27..24 of a word.
pub fn form(word: u32) -> usize {
    field(word, 27, 24)
}

/// Functions that make a word of a kind, and each field with its lowest bit.
macro_rules! makers {
    ($($name:ident $kind:literal ($($field:ident $low:literal),*);)*) => {
        $(pub fn $name($($field: usize),*) -> u32 {
            ($kind << 28 $(| $field << $low)*) as u32
        })*
    };
}

makers! {
    head 1 (fluents 16, actions 8, last 0);
    known_as 2 (fails 6, fluent 0);
    action 3 (number 6, duration 0);
    law 4 (role 6, fluent 0);
    formula 5 (form 24, x 6, y 0);
    node 6 (form 24, x 18, y 12, m 6, n 0);
    member 7 (node 0);
    condition 8 (form 24, formula 18, i 15, j 12, m 6, n 0);
    start 9 (moment 6, action 0);
    reading 11 (node 12, begin 6, end 0);
    shift_window 12 (action 12, from 6, to 0);
    group 13 (group 24, limit 0);
    group_member 14 (group 24, action 0);
    wide_known_as 2 (fails 8, fluent 0);
    wide_law 4 (role 8, fluent 0);
}

pub fn initially(fluent: usize, value: bool) -> u32 {
    known_as(usize::from(!value), fluent)
}

pub fn wide_initially(fluent: usize, value: bool) -> u32 {
    wide_known_as(usize::from(!value), fluent)
}

/// The head of a wide job, which has form 1. It says 256 fluents by a field of 0.
pub fn wide_head(fluents: usize, actions: usize, last: usize) -> u32 {
    head(fluents % FLUENTS, actions, last) | 1 << 24
}

pub fn is_wide(job: &[u32]) -> bool {
    form(job[0]) == 1
}

/// A narrow job as a wide one of 256 fluents, of which its own are the last, from the last down. It has the same readings.
pub fn widened(job: &[u32]) -> Vec<u32> {
    let other = |fluent: usize| FLUENTS - 1 - fluent;
    let word = |&word: &u32| match kind(word) {
        1 => wide_head(FLUENTS, field(word, 15, 8), field(word, 7, 0)),
        2 => wide_initially(other(field(word, 5, 0)), field(word, 6, 6) == 0),
        4 => wide_law(field(word, 7, 6), other(field(word, 5, 0))),
        5 if form(word) == 1 => formula(1, 0, other(field(word, 11, 6))),
        _ => word,
    };
    job.iter().map(word).collect()
}
