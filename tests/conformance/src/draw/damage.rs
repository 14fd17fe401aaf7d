//! Damage to a well-formed job, one word at a time: a bit, a field, a word taken out, put in, doubled or moved.

use crate::random::Random;
use crate::words::{self, field, form, kind};

/// One damage of a random sort at a random word.
pub fn any(random: &mut Random, job: &[u32]) -> Vec<u32> {
    match random.below(10) {
        0..=2 => bit(random, job),
        3..=5 => one_field(random, job),
        6 => predecessor(random, job),
        7 => kind_or_form(random, job),
        8 => head_counts(random, job),
        _ => truncated(random, job),
    }
}

/// One damage at a word of these kinds, if the job has one: a bit, a field, any bits, or the word doubled or put
/// elsewhere.
pub fn of_kinds(random: &mut Random, job: &[u32], kinds: &[usize]) -> Vec<u32> {
    let mut job = job.to_vec();
    let places: Vec<usize> = (0..job.len()).filter(|&place| kinds.contains(&kind(job[place]))).collect();
    let Some(&place) = places.get(random.below(places.len().max(1))) else {
        let word = (*random.pick(kinds) as u32) << 28 | random.word() >> 4;
        job.insert(random.below(job.len()), word);
        return job;
    };
    let word = job[place];
    match random.below(8) {
        0 | 1 => job[place] ^= 1 << random.below(32),
        2 => job[place] = word & words::bits(31, 28) | random.word() >> 4,
        3 | 4 => return one_field_of(random, &job, place),
        5 => job.insert(random.between(place, places[places.len() - 1]) + 1, word),
        6 => {
            job.remove(place);
            job.insert(random.below(job.len() + 1), word);
        }
        _ => {
            let other = job[random.below(job.len())];
            job.insert(place + random.below(2), other);
        }
    }
    job
}

/// One bit of one word flipped, each as likely.
pub fn bit(random: &mut Random, job: &[u32]) -> Vec<u32> {
    let word = random.below(job.len());
    flipped(job, word, random.below(32))
}

pub fn flipped(job: &[u32], word: usize, bit: usize) -> Vec<u32> {
    let mut job = job.to_vec();
    job[word] ^= 1 << bit;
    job
}

/// The bit ranges of each kind's fields, kind and form aside, in a wide job (L6) or a narrow one.
fn fields(wide: bool, word: u32) -> &'static [(u32, u32)] {
    match kind(word) {
        2 if wide => &[(8, 8), (7, 0)],
        4 if wide => &[(9, 8), (7, 0)],
        5 if wide && form(word) == 1 => &[(7, 0)],
        1 => &[(23, 16), (15, 8), (7, 0)],
        2 => &[(6, 6), (5, 0)],
        4 => &[(7, 6), (5, 0)],
        6 => &[(23, 18), (17, 12), (11, 6), (5, 0)],
        7 => &[(5, 0)],
        8 => &[(23, 18), (17, 15), (14, 12), (11, 6), (5, 0)],
        12 => &[(17, 12), (11, 6), (5, 0)],
        13 | 14 => &[(27, 24), (5, 0)],
        _ => &[(11, 6), (5, 0)],
    }
}

/// One field of one word changed: a number, a reference, a range or a window.
fn one_field(random: &mut Random, job: &[u32]) -> Vec<u32> {
    let word = random.below(job.len());
    one_field_of(random, job, word)
}

pub fn one_field_of(random: &mut Random, job: &[u32], word: usize) -> Vec<u32> {
    let mut job = job.to_vec();
    let &(high, low) = random.pick(fields(words::is_wide(&job), job[word]));
    job[word] = with_other(random, job[word], high, low);
    job
}

/// A word of a narrow job with one field, or now and then its form, changed.
pub fn other_word(random: &mut Random, word: u32) -> u32 {
    if random.chance(15) {
        return word & !words::bits(27, 24) | (random.below(9) as u32) << 24;
    }
    let &(high, low) = random.pick(fields(false, word));
    with_other(random, word, high, low)
}

fn with_other(random: &mut Random, word: u32, high: u32, low: u32) -> u32 {
    let old = field(word, high, low);
    let most = field(u32::MAX, high, low);
    let new = match random.below(5) {
        0 => old + 1,
        1 => old.wrapping_sub(1),
        2 => 0,
        3 => most,
        _ => random.below(most + 1),
    };
    word & !words::bits(high, low) | ((new & most) as u32) << low
}

/// Another predecessor for some word: one taken out, put in, doubled, moved or exchanged.
pub fn predecessor(random: &mut Random, job: &[u32]) -> Vec<u32> {
    let mut job = job.to_vec();
    let word = random.below(job.len());
    let other = random.below(job.len());
    match random.below(6) {
        0 => drop(job.remove(word)),
        1 => job.insert(word, job[other]),
        2 => job.insert(word, job[word]),
        3 => job.swap(word, other),
        4 => job.insert(word, words::node(8, 0, 0, 0, 0)),
        _ => job[word] = job[other],
    }
    job
}

/// Another kind, or another form, for some word.
fn kind_or_form(random: &mut Random, job: &[u32]) -> Vec<u32> {
    let mut job = job.to_vec();
    let word = random.below(job.len());
    let low = *random.pick(&[24, 28]);
    job[word] = job[word] & !(15 << low) | (random.below(16) as u32) << low;
    job
}

/// Wrong counts in the head: each field at and beside its limits, or beside its value.
fn head_counts(random: &mut Random, job: &[u32]) -> Vec<u32> {
    let mut job = job.to_vec();
    let low = *random.pick(&[0, 8, 16]);
    let old = field(job[0], low + 7, low);
    let new = *random.pick(&[0, 1, 63, 64, 65, 255, old + 1, old.wrapping_sub(1) & 255]);
    job[0] = job[0] & !words::bits(low + 7, low) | (new as u32 & 255) << low;
    job
}

/// The job's beginning alone.
fn truncated(random: &mut Random, job: &[u32]) -> Vec<u32> {
    job[..random.below(job.len() + 1)].to_vec()
}

/// A child named in place of another, so that one is named twice and the other never.
pub fn other_child(random: &mut Random, job: &[u32]) -> Vec<u32> {
    let mut job = job.to_vec();
    let children = child_fields(&job);
    if children.is_empty() {
        return job;
    }
    let &(word, low) = random.pick(&children);
    let child = field(job[word], low + 5, low);
    job[word] = job[word] & !words::bits(low + 5, low) | (random.below(child + 1) as u32) << low;
    job
}

/// Where the job names children: word and lowest bit of the field.
fn child_fields(job: &[u32]) -> Vec<(usize, u32)> {
    let mut places = vec![];
    for (index, &word) in job.iter().enumerate() {
        let lows: &[u32] = match (kind(word), form(word)) {
            (6, 2 | 3 | 6 | 7) => &[18, 12],
            (6, 4) => &[12, 6],
            (6, 5) => &[12],
            (7, _) => &[0],
            _ => &[],
        };
        places.extend(lows.iter().map(|&low| (index, low)));
    }
    places
}

/// A window with M > N, or from > to.
pub fn window(random: &mut Random, job: &[u32]) -> Vec<u32> {
    let mut job = job.to_vec();
    let windowed = |word: u32| matches!(kind(word), 8 | 12) || (kind(word) == 6 && matches!(form(word), 6 | 7));
    let places: Vec<usize> = (0..job.len()).filter(|&index| windowed(job[index])).collect();
    if let Some(&word) = places.get(random.below(places.len().max(1))) {
        let m = random.between(1, 63);
        let n = random.below(m);
        job[word] = job[word] & !words::bits(11, 0) | (m as u32) << 6 | n as u32;
    }
    job
}

/// A fluent a second time among the initial words, or in the laws of one action, where roles 0 and 2 may share one; or
/// a group or a pair a second time.
pub fn named_again(random: &mut Random, job: &[u32]) -> Vec<u32> {
    let mut job = job.to_vec();
    let named = |word: u32| matches!(kind(word), 2 | 4 | 13 | 14);
    let places: Vec<usize> = (0..job.len()).filter(|&index| named(job[index])).collect();
    if let Some(&word) = places.get(random.below(places.len().max(1))) {
        let low = if words::is_wide(&job) { 8 } else { 6 };
        let value = (random.below(4) as u32) << low;
        let again = match kind(job[word]) {
            2 => job[word] & !words::bits(low, low) | value & words::bits(low, low),
            13 | 14 => job[word],
            _ => job[word] & !words::bits(low + 1, low) | value,
        };
        job.insert(word + 1, again);
    }
    job
}
