//! The words of documents 01 and 02: fields by bit range, and one maker for each kind.

/// The bits high..low of a word.
pub fn field(word: u32, high: u32, low: u32) -> usize {
    ((word & bits(high, low)) >> low) as usize
}

/// A mask with the bits high..low set.
pub fn bits(high: u32, low: u32) -> u32 {
    (u32::MAX >> (31 - high)) & (u32::MAX << low)
}

/// "bits 31..28 are its kind"
pub fn kind(word: u32) -> usize {
    field(word, 31, 28)
}

/// "27..24 form", in kinds 5, 6 and 8.
pub fn form(word: u32) -> usize {
    field(word, 27, 24)
}

fn made(kind: u32, fields: &[(usize, u32)]) -> u32 {
    fields.iter().fold(kind << 28, |word, &(value, low)| word | (value as u32) << low)
}

pub fn head(fluents: usize, actions: usize, last: usize) -> u32 {
    made(1, &[(fluents, 16), (actions, 8), (last, 0)])
}

pub fn initially(fluent: usize, value: bool) -> u32 {
    made(2, &[(usize::from(!value), 6), (fluent, 0)])
}

pub fn action(number: usize, duration: usize) -> u32 {
    made(3, &[(number, 6), (duration, 0)])
}

pub fn law(role: usize, fluent: usize) -> u32 {
    made(4, &[(role, 6), (fluent, 0)])
}

pub fn formula(form: usize, x: usize, y: usize) -> u32 {
    made(5, &[(form, 24), (x, 6), (y, 0)])
}

pub fn node(form: usize, x: usize, y: usize, m: usize, n: usize) -> u32 {
    made(6, &[(form, 24), (x, 18), (y, 12), (m, 6), (n, 0)])
}

pub fn member(node: usize) -> u32 {
    made(7, &[(node, 0)])
}

pub fn condition(form: usize, formula: usize, i: usize, j: usize, m: usize, n: usize) -> u32 {
    made(8, &[(form, 24), (formula, 18), (i, 15), (j, 12), (m, 6), (n, 0)])
}

pub fn start(moment: usize, action: usize) -> u32 {
    made(9, &[(moment, 6), (action, 0)])
}

pub fn fact(moment: usize, fluent: usize, value: bool) -> u32 {
    made(10, &[(moment, 7), (fluent, 1), (usize::from(!value), 0)])
}

pub fn reading(node: usize, begin: usize, end: usize) -> u32 {
    made(11, &[(node, 12), (begin, 6), (end, 0)])
}

/// L4's kind 12.
pub fn shift_window(action: usize, from: usize, to: usize) -> u32 {
    made(12, &[(action, 12), (from, 6), (to, 0)])
}

/// L5's kind 13.
pub fn group(group: usize, limit: usize) -> u32 {
    made(13, &[(group, 24), (limit, 0)])
}

/// L5's kind 14.
pub fn group_member(group: usize, action: usize) -> u32 {
    made(14, &[(group, 24), (action, 0)])
}

/// L6's head; F of 256 is a field of 0.
pub fn wide_head(fluents: usize, actions: usize, last: usize) -> u32 {
    made(1, &[(1, 24), (fluents % 256, 16), (actions, 8), (last, 0)])
}

/// Kind 2 of a wide job.
pub fn wide_initially(fluent: usize, value: bool) -> u32 {
    made(2, &[(usize::from(!value), 8), (fluent, 0)])
}

/// Kind 4 of a wide job.
pub fn wide_law(role: usize, fluent: usize) -> u32 {
    made(4, &[(role, 8), (fluent, 0)])
}

/// Formula form 1 of a wide job.
pub fn wide_fluent(fluent: usize) -> u32 {
    made(5, &[(1, 24), (fluent, 0)])
}

/// A fact word of a wide job.
pub fn wide_fact(moment: usize, fluent: usize, value: bool) -> u32 {
    made(10, &[(moment, 9), (fluent, 1), (usize::from(!value), 0)])
}

/// Whether a job's head asks for the wide layout.
pub fn is_wide(job: &[u32]) -> bool {
    job.first().is_some_and(|&head| kind(head) == 1 && field(head, 27, 24) == 1)
}

#[cfg(test)]
mod tests {
    use super::*;

    #[test]
    fn the_words_of_wide_jobs() {
        assert_eq!([wide_head(256, 1, 63), wide_head(255, 64, 0)], [0x1100013f, 0x11ff4000]);
        assert_eq!([wide_initially(255, true), wide_initially(0, false)], [0x200000ff, 0x20000100]);
        assert_eq!([wide_law(3, 255), wide_law(1, 64)], [0x400003ff, 0x40000140]);
        assert_eq!([wide_fluent(255), wide_fluent(64)], [0x510000ff, 0x51000040]);
        assert_eq!([wide_fact(63, 255, false), wide_fact(1, 0, true)], [0xa0007fff, 0xa0000200]);
        assert!(is_wide(&[0x11010100]) && !is_wide(&[0x10410100]) && !is_wide(&[0x13010100]) && !is_wide(&[]));
    }

    #[test]
    fn the_words_of_the_paper() {
        let job = [head(1, 1, 1), initially(0, false), action(0, 1), law(2, 0), node(0, 0, 0, 0, 0)];
        assert_eq!(job, [0x10010101, 0x20000040, 0x30000001, 0x40000080, 0x60000000]);
        let plan = [start(0, 0), fact(0, 0, false), fact(1, 0, true)];
        assert_eq!(plan, [0x90000000, 0xa0000001, 0xa0000080]);
        assert_eq!(reading(0, 0, 1), 0xb0000001);
        assert_eq!(shift_window(1, 2, 3), 0xc0001083);
        assert_eq!(group(7, 3), 0xd7000003);
        assert_eq!(group_member(7, 63), 0xe700003f);
    }

    #[test]
    fn fields_are_bit_ranges() {
        assert_eq!(bits(11, 6), 0x0fc0);
        assert_eq!(bits(31, 28), 0xf0000000);
        assert_eq!(bits(0, 0), 1);
        assert_eq!(field(0x6abc_def0, 27, 24), 0xa);
        assert_eq!(kind(0xf000_0000), 15);
    }
}
