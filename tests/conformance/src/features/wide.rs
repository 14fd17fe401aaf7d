//! Request L6, "Two hundred and fifty-six facts": jobs written wide, with up to 256 fluents, and the filler's 16,384
//! words.

use crate::draw::draft::{Draft, Drawn, Wide, MOST_FLUENTS};
use crate::draw::{damage, lists, plans};
use crate::features::{met, Feature, Seen};
use crate::oracle::call::Call;
use crate::oracle::job::{Formula, Job, Known};
use crate::oracle::plan::read_plan;
use crate::oracle::starts::Start;
use crate::random::Random;
use crate::words::{self, bits, field, form, is_wide, kind};

pub const FEATURE: Feature = Feature {
    draw,
    add,
    spoil,
    damage: damaged,
    tiny,
    situations,
    needed: &[
        ("F = 1", &[0]),
        ("F = 64", &[0]),
        ("F = 65", &[0]),
        ("F = 255", &[0]),
        ("F = 256", &[0]),
        ("a fluent above 63 known at 0", &[0]),
        ("a fluent above 63 needed", &[0]),
        ("a fluent above 63 made", &[0]),
        ("a need of a fluent above 63 not met", &[10]),
        ("a fluent above 63 in a formula", &[0, 13]),
        ("fluent 255", &[0]),
        ("bits 27..24 of the head above 1", &[2]),
        ("a wide initial word", &[2, 3, 4]),
        ("a wide law", &[2, 3, 4]),
        ("a wide formula of form 1", &[2, 3]),
        ("16,384 facts", &[0]),
        ("a buffer of 16,383 words", &[12]),
        ("a buffer of 4,096 words", &[2, 3, 12]),
        ("a short buffer before a refused start", &[12]),
        ("a find with 4,096 words", &[0, 13]),
    ],
};

fn draw(random: &mut Random) -> Drawn {
    if random.chance(1) {
        return full(random);
    }
    let mut drawn = plans::readable(random);
    add(random, &mut drawn);
    drawn
}

/// Writes the job wide: its fluents keep their order and go anywhere below 256, and others are known, needed or made
/// beside them.
fn add(random: &mut Random, drawn: &mut Drawn) {
    let own = drawn.draft.fluents;
    let room = *random.pick(&[own, own, own + 1, 65.max(own), 65.max(own), 128.max(own), 255, 256]);
    let mut numbers = match random.below(4) {
        0 => (0..own).collect(),
        1 => (room - own..room).collect(),
        _ => random.some_of(room, own),
    };
    numbers.sort();
    let highest = numbers.last().map_or(0, |number| number + 1);
    let fluents = *random.pick(&[highest, room, MOST_FLUENTS, 255.max(highest), 65.max(highest)]);
    let mut wide = Wide { fluents, numbers, initially: vec![], laws: vec![], formulas: vec![] };
    if random.chance(50) {
        add_others(random, &drawn.draft, &mut wide);
    }
    let long = Draft { wide: Some(wide.clone()), ..drawn.draft.clone() }.words().len() > 2_048;
    if long {
        (wide.initially, wide.laws, wide.formulas) = (vec![], vec![], vec![]);
    }
    drawn.draft.wide = Some(wide);
}

/// More fluents. Lawful starts stay lawful: what is made is made in one way by all, and what is needed is known and
/// made by none.
fn add_others(random: &mut Random, draft: &Draft, wide: &mut Wide) {
    let mut free: Vec<usize> = (0..wide.fluents).filter(|fluent| !wide.numbers.contains(fluent)).collect();
    random.shuffle(&mut free);
    free.truncate(*random.pick(&[1, 2, 3, 8, 30, 256]));
    let actions = draft.actions.len();
    for fluent in free {
        let value = random.chance(50);
        let action = random.below(actions);
        match random.below(3) {
            0 => wide.initially.push(words::wide_initially(fluent, value)),
            1 => {
                wide.initially.push(words::wide_initially(fluent, value));
                wide.laws.push((action, words::wide_law(usize::from(!value), fluent)));
            }
            _ => {
                let makes = words::wide_law(2 + usize::from(!value), fluent);
                wide.laws.push((action, makes));
                wide.laws.extend((actions > 1 && random.chance(40)).then_some(((action + 1) % actions, makes)));
            }
        }
    }
    if draft.formulas.len() < 64 {
        wide.formulas.push(words::wide_fluent(random.below(wide.fluents)));
    }
}

/// 256 fluents, all known at all of 64 moments: 16,384 facts. One action of one moment turns one of them.
fn full(random: &mut Random) -> Drawn {
    let fluent = random.below(MOST_FLUENTS);
    let known = |fluent: usize, value: bool| words::wide_initially(fluent, value);
    let initially = (0..MOST_FLUENTS).map(|fluent| known(fluent, random.chance(50))).collect();
    let laws = vec![(0, words::wide_law(2 + random.below(2), fluent))];
    let wide = Wide { fluents: MOST_FLUENTS, numbers: vec![], initially, laws, formulas: vec![] };
    let draft = Draft {
        fluents: 1,
        last: 63,
        actions: vec![vec![words::action(0, 1)]],
        nodes: vec![vec![words::node(0, 0, 0, 0, 0)]],
        wide: Some(wide),
        ..Draft::default()
    };
    let starts = (0..63).filter(|_| random.chance(10)).map(|moment| words::start(moment, 0)).collect();
    Drawn { draft, starts }
}

/// Damages the starts, and now and then makes F so low that the job names a fluent which it does not have.
fn spoil(random: &mut Random, drawn: &mut Drawn) {
    drawn.starts = lists::starts(random, &drawn.starts, &drawn.draft);
    if let (Some(wide), true) = (&mut drawn.draft.wide, random.chance(30)) {
        wide.fluents = random.between(1, wide.fluents);
    }
}

/// Damages the head, a word that names a fluent, or any word.
fn damaged(random: &mut Random, job: &[u32]) -> Vec<u32> {
    let mut job = job.to_vec();
    let names = |word: u32| matches!((kind(word), form(word)), (2 | 4, _) | (5, 1));
    let places: Vec<usize> = (0..job.len()).filter(|&place| names(job[place])).collect();
    match (random.below(10), places.get(random.below(places.len().max(1)))) {
        (0, _) => job[0] = job[0] & !bits(27, 24) | *random.pick(&[0, 2, 3, 8, 9, 15]) << 24,
        (1, _) => job[0] = job[0] & !bits(23, 16) | *random.pick(&[0, 1, 63, 64, 65, 127, 128, 255]) << 16,
        (2, _) => return damage::named_again(random, &job),
        (3 | 4, _) | (_, None) => return damage::any(random, &job),
        (_, Some(&place)) => {
            let fluents = if is_wide(&job) { field(job[0], 23, 16) as u32 } else { 64 };
            job[place] = other_name(random, job[place], fluents);
        }
    }
    job
}

/// A word that names a fluent: with a spare bit, with the fluent F, F - 1 or any other, or as a narrow job has it.
fn other_name(random: &mut Random, word: u32, fluents: u32) -> u32 {
    let lowest_spare = [0, 0, 9, 0, 10, 8][kind(word)];
    let fluent = word & bits(7, 0);
    match random.below(8) {
        0 => word | 1 << random.between(lowest_spare, 23),
        1 => word | 1 << lowest_spare,
        2 => word & !bits(7, 0) | fluents & 255,
        3 => word & !bits(7, 0) | fluents.wrapping_sub(1) & 255,
        4 => word & !bits(7, 0) | random.below(256) as u32,
        5 => word ^ 1 << random.between(6, 7),
        6 => word & !bits(9, 0) | field(word, 9, 8) as u32 % 4 << 6 | fluent & 63,
        _ => word ^ 1 << random.between(8, 9),
    }
}

/// The job written wide with the same fluents, and with the highest of 256.
fn tiny(draft: &Draft) -> Vec<Draft> {
    let written = |fluents: usize| {
        let numbers = (fluents - draft.fluents..fluents).collect();
        let wide = Wide { fluents, numbers, initially: vec![], laws: vec![], formulas: vec![] };
        Draft { wide: Some(wide), ..draft.clone() }
    };
    vec![written(draft.fluents), written(MOST_FLUENTS)]
}

fn situations(seen: &Seen) -> Vec<&'static str> {
    let words = seen.call.list("job");
    let wide = is_wide(words);
    let mut names = match (seen.job, seen.number) {
        (None, 2..=4) => refused(words, seen.position, wide),
        (Some(job), _) if wide => of_job(job),
        _ => vec![],
    };
    let needs =
        |start: Start| seen.job.is_some_and(|job| job.actions[start.action].needs.iter().any(|of| of.fluent > 63));
    let room = seen.call.list("buffer").len();
    let writes_facts = matches!(seen.call, Call::Fill { .. } | Call::TrialShow { .. });
    let refused_starts = || seen.job.is_some() && read_plan(words, seen.call.list("starts")).is_err();
    let facts = seen.number == 0 && writes_facts && seen.written.len() == 16_384;
    names.extend(met(&[
        ("a need of a fluent above 63 not met", seen.number == 10 && seen.refused_start().is_some_and(needs)),
        ("16,384 facts", facts),
        ("a buffer of 16,383 words", wide && writes_facts && room == 16_383),
        ("a buffer of 4,096 words", wide && writes_facts && room == 4_096),
        ("a short buffer before a refused start", wide && seen.number == 12 && room >= 4_096 && refused_starts()),
        ("a find with 4,096 words", wide && matches!(seen.call, Call::Find { .. }) && room == 4_096),
    ]));
    names
}

fn of_job(job: &Job) -> Vec<&'static str> {
    let above = |known: &Known| known.fluent > 63;
    let named = |test: fn(usize) -> bool| {
        job.formulas.iter().any(|formula| matches!(formula, Formula::Fluent(fluent) if test(*fluent)))
    };
    met(&[
        ("F = 1", job.fluents == 1),
        ("F = 64", job.fluents == 64),
        ("F = 65", job.fluents == 65),
        ("F = 255", job.fluents == 255),
        ("F = 256", job.fluents == 256),
        ("a fluent above 63 known at 0", job.initially.iter().any(above)),
        ("a fluent above 63 needed", job.actions.iter().any(|action| action.needs.iter().any(above))),
        ("a fluent above 63 made", job.actions.iter().any(|action| action.makes.iter().any(above))),
        ("a fluent above 63 in a formula", named(|fluent| fluent > 63)),
        ("fluent 255", named(|fluent| fluent == 255) || job.initially.iter().any(|known| known.fluent == 255)),
    ])
}

/// The word that refuses a job.
fn refused(job: &[u32], position: usize, wide: bool) -> Vec<&'static str> {
    let Some(&word) = job.get(position) else { return vec![] };
    met(&[
        ("bits 27..24 of the head above 1", position == 0 && kind(word) == 1 && field(word, 27, 24) > 1),
        ("a wide initial word", wide && kind(word) == 2),
        ("a wide law", wide && kind(word) == 4),
        ("a wide formula of form 1", wide && kind(word) == 5 && form(word) == 1),
    ])
}
