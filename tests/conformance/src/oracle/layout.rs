//! Request L6, "Two hundred and fifty-six facts": where the fields that have to do with fluents stand, and how many
//! words the filler needs. The head's bits 27..24 say which layout a job has.

use crate::words::{bits, field};

/// The bits high..low.
pub type Range = (u32, u32);

#[derive(Clone, Copy, Debug)]
pub struct Layout {
    /// F by the head's field, or none where that is out of range.
    pub fluents: fn(usize) -> Option<usize>,
    /// Kind 2.
    pub known_value: Range,
    pub known: Range,
    /// Kind 4.
    pub role: Range,
    pub law: Range,
    /// Kind 5, form 1.
    pub formula: Range,
    /// Fact words; their value is bit 0 in both layouts.
    pub moment: Range,
    pub fact: Range,
    /// The filler's least length.
    pub room: usize,
}

/// Document 01: "fluents F (1 to 64)"; kind 2: "bit 6 (0 true, 1 false), 5..0 fluent"; kind 4: "7..6 role [..], 5..0
/// fluent"; kind 5: "11..6 X"; fact word: "12..7 moment, 6..1 fluent, bit 0".
pub const NARROW: Layout = Layout {
    fluents: |field| (1..=64).contains(&field).then_some(field),
    known_value: (6, 6),
    known: (5, 0),
    role: (7, 6),
    law: (5, 0),
    formula: (11, 6),
    moment: (12, 7),
    fact: (6, 1),
    room: 4_096,
};

/// "F from 1 to 255, and a field of 0 there says 256. In such a job a law has its role in 9..8 and fluent in 7..0; an
/// initial word its value in bit 8 and fluent in 7..0; formula form 1 its fluent in 7..0; a fact word its moment in
/// 14..9, fluent in 8..1, value in bit 0. The filler then needs 16,384 words".
pub const WIDE: Layout = Layout {
    fluents: |field| Some(if field == 0 { 256 } else { field }),
    known_value: (8, 8),
    known: (7, 0),
    role: (9, 8),
    law: (7, 0),
    formula: (7, 0),
    moment: (14, 9),
    fact: (8, 1),
    room: 16_384,
};

/// What a range of a word says.
pub fn part(word: u32, (high, low): Range) -> usize {
    field(word, high, low)
}

pub fn mask((high, low): Range) -> u32 {
    bits(high, low)
}

/// "A head with bits 27..24 equal to 1"; "Heads with 0 there read as before"; from 2 to 15 they are refused.
pub fn by_head(head: u32) -> Option<Layout> {
    match field(head, 27, 24) {
        0 => Some(NARROW),
        1 => Some(WIDE),
        _ => None,
    }
}
