//! Plans with much in hand (request L3): many starts hide one fluent together, finish together, follow each other at
//! once, begin at one moment or at a few, or leave long gaps.

use crate::draw::draft::{Draft, Drawn};
use crate::draw::plans;
use crate::oracle::starts::Start;
use crate::random::Random;
use crate::words;

/// What a job and its starts are drawn from.
struct Shape {
    last: usize,
    actions: usize,
    fluents: usize,
    durations: Durations,
    laws: Laws,
    when: When,
}

#[derive(Clone, Copy)]
enum Durations {
    All(usize),
    /// 1 to 4, and no longer than n.
    Short,
    /// 1, 2, 3, 7, 63, n, and any.
    Mixed,
}

#[derive(Clone, Copy)]
enum Laws {
    /// Each action makes few fluents, most of them the usual way; nearly half of them have a need.
    Usual,
    /// All actions make fluent 0 true, but for one in ten, which makes it false.
    One,
    /// Of two actions that follow each other one makes a fluent true and needs it false, the other turns it back.
    Turns,
    /// An action needs a fluent that the one before makes, and mostly unmakes it.
    Chain,
    /// Each action makes a fluent of its own true.
    Own,
}

/// When actions are started, so far as the rules let them.
#[derive(Clone, Copy)]
enum When {
    /// In so many of a hundred chances.
    Often(usize),
    At(usize),
    /// So that all finish at one moment.
    FinishAt(usize),
    /// Up to a moment and from another one on.
    Around(usize, usize),
    /// At 0, and then where some start finishes.
    AtFinishes,
}

/// A lawful plan of few or some hundred starts.
pub fn any(random: &mut Random) -> Drawn {
    let shape = match random.below(40) {
        0 | 1 => crowd(random),
        2..=5 => long(random),
        _ => short(random),
    };
    drawn(random, &shape)
}

/// All the 4,032 starts of 64 actions of one moment, n = 63.
pub fn full(random: &mut Random) -> Drawn {
    let actions = vec![vec![words::action(0, 1), words::law(2, 0)]; 64];
    always(random, actions, 64)
}

/// Some 2,000 starts, up to n = 63. Two actions are left for damage: one clashes with others, one has a need.
pub fn many(random: &mut Random) -> Drawn {
    let mut actions = vec![vec![words::action(0, 1), words::law(2, 0)]; 32];
    actions.push(vec![words::action(0, 2), words::law(2, 2)]);
    actions.push(vec![words::action(0, 1), words::law(3, 0)]);
    actions.push(vec![words::action(0, 1), words::law(1, 2)]);
    always(random, actions, 33)
}

/// So many of the actions started one after the other, from 0 to n = 63.
fn always(random: &mut Random, mut actions: Vec<Vec<u32>>, started: usize) -> Drawn {
    actions.iter_mut().enumerate().for_each(|(number, action)| action[0] |= words::action(number, 0));
    let mut draft = Draft { fluents: 3, last: 63, actions, ..Draft::default() };
    draft.initially = vec![words::initially(0, true), words::initially(1, random.chance(50))];
    add_procedure(random, &mut draft);
    let all = (0..63).flat_map(|t| (0..started).map(move |action| (t, action)));
    let follows = |&(t, action): &(usize, usize)| t % draft.duration(action) == 0 && t + draft.duration(action) <= 63;
    let starts = all.filter(follows).map(|(t, action)| words::start(t, action)).collect();
    Drawn { draft, starts }
}

fn short(random: &mut Random) -> Shape {
    let last = *random.pick(&[0, 1, 2, 3, 4, 5, 6, 7, 8, 9, 10, 12]);
    let actions = *random.pick(&[1, 2, 2, 3, 3, 4, 5, 6, 8]);
    shape(random, last, actions)
}

fn long(random: &mut Random) -> Shape {
    let last = *random.pick(&[20, 33, 62, 63, 63, 63]);
    let actions = *random.pick(&[1, 2, 3, 4, 6]);
    shape(random, last, actions)
}

/// 64 actions, or nearly so many, and few moments; now and then many moments and few starts.
fn crowd(random: &mut Random) -> Shape {
    let actions = *random.pick(&[63, 64, 64, 64]);
    let last = *random.pick(&[1, 2, 3, 4, 6, 63]);
    let mut shape = shape(random, last, actions);
    shape.durations = *random.pick(&[Durations::All(1), Durations::All(2), Durations::All(2), Durations::Short]);
    shape.laws = *random.pick(&[Laws::One, Laws::Usual, Laws::Usual, Laws::Own, Laws::Own]);
    shape.fluents = *random.pick(&[6, 64]);
    shape.when = match last {
        63 => *random.pick(&[When::At(31), When::Often(3), When::FinishAt(63)]),
        _ => *random.pick(&[When::Often(100), When::Often(100), When::At(0), When::FinishAt(2)]),
    };
    shape
}

fn shape(random: &mut Random, last: usize, actions: usize) -> Shape {
    let fluents = *random.pick(&[1, 1, 2, 2, 3, 4, 6]);
    let durations = match random.below(12) {
        0 | 1 => Durations::All(1),
        2 | 3 if last >= 2 => Durations::All(2),
        4 if last >= 7 => Durations::All(7),
        5 if last == 63 => Durations::All(63),
        2..=8 => Durations::Short,
        _ => Durations::Mixed,
    };
    let laws = *random.pick(&[Laws::Usual, Laws::Usual, Laws::Usual, Laws::One, Laws::One, Laws::Turns, Laws::Chain]);
    Shape { last, actions, fluents, durations, laws, when: when(random, last) }
}

fn when(random: &mut Random, last: usize) -> When {
    let moment = random.below(last + 1);
    match random.below(20) {
        0 => When::Often(0),
        1 => When::At(0),
        2 => When::At(moment),
        3 => When::FinishAt(last - moment / 2),
        4 => When::FinishAt(last),
        5 | 6 => When::Around(random.below(last / 4 + 1), last - random.below(last / 3 + 1)),
        7 | 8 => When::AtFinishes,
        9..=13 => When::Often(100),
        14 | 15 => When::Often(10),
        _ => When::Often(40),
    }
}

fn drawn(random: &mut Random, shape: &Shape) -> Drawn {
    let mut draft = Draft { fluents: shape.fluents, last: shape.last, ..Draft::default() };
    let usual: Vec<bool> = (0..shape.fluents).map(|_| random.chance(50)).collect();
    let known = (0..shape.fluents).filter(|_| random.chance(75)).collect::<Vec<usize>>();
    draft.initially = known.into_iter().map(|fluent| words::initially(fluent, random.chance(45))).collect();
    for number in 0..shape.actions {
        let mut action = laws(random, shape, number, &usual);
        random.shuffle(&mut action);
        action.insert(0, words::action(number, duration(random, shape)));
        draft.actions.push(action);
    }
    add_procedure(random, &mut draft);
    let starts = plans::lawful_starts_by(random, &draft, |random, starts, t, action| {
        wants(random, shape, starts, t, draft.duration(action))
    });
    Drawn { draft, starts }
}

fn duration(random: &mut Random, shape: &Shape) -> usize {
    let longest = shape.last.clamp(1, 63);
    let any = random.between(1, longest);
    match shape.durations {
        Durations::All(duration) => duration,
        Durations::Short => random.between(1, longest.min(4)),
        Durations::Mixed => *random.pick(&[1, 2, 2, 3, 7, 63, longest, any]),
    }
}

fn laws(random: &mut Random, shape: &Shape, number: usize, usual: &[bool]) -> Vec<u32> {
    let fluents = shape.fluents;
    let needs = |fluent: usize, value: bool| words::law(usize::from(!value), fluent);
    let makes = |fluent: usize, value: bool| words::law(2 + usize::from(!value), fluent);
    let own = number % fluents;
    match shape.laws {
        Laws::One => vec![makes(0, !random.chance(10))],
        Laws::Own => vec![makes(own, true)],
        Laws::Turns => vec![needs(number / 2 % fluents, number % 2 == 1), makes(number / 2 % fluents, number % 2 == 0)],
        Laws::Chain if fluents > 1 && random.chance(70) => {
            vec![needs(own, true), makes((number + 1) % fluents, true), makes(own, false)]
        }
        Laws::Chain => vec![needs(own, true), makes((number + 1) % fluents, true)],
        Laws::Usual => {
            let need = random.below(fluents);
            let value = usual[need] != random.chance(30);
            let how_many = random.between(0, 2);
            let made = random.some_of(fluents, how_many);
            let made = made.into_iter().map(|fluent| makes(fluent, usual[fluent] != random.chance(20)));
            let made: Vec<u32> = made.collect();
            random.chance(45).then(|| needs(need, value)).into_iter().chain(made).collect()
        }
    }
}

/// Whether an action of that duration is to be started at t, after these starts.
fn wants(random: &mut Random, shape: &Shape, starts: &[Start], t: usize, duration: usize) -> bool {
    match shape.when {
        When::Often(percent) => random.chance(percent),
        When::At(moment) => t == moment,
        When::FinishAt(moment) => t + duration == moment,
        When::Around(before, after) => t <= before || t >= after,
        When::AtFinishes => t == 0 || starts.iter().any(|start| start.finishes(t)),
    }
}

/// A procedure by whose count find tells at which moments a fluent is true, and by a reading whether it is so at n.
fn add_procedure(random: &mut Random, draft: &mut Draft) {
    let fluent = random.below(draft.fluents);
    draft.formulas = vec![words::formula(0, 0, 0), words::formula(1, fluent, 0), words::formula(2, 1, 0)];
    let (tested, last) = (random.between(1, 2), draft.last);
    let act = words::node(0, random.below(draft.actions.len()), 0, 0, 0);
    let nodes = [
        words::node(1, 0, 0, 0, 0),
        words::node(1, tested, 0, 0, 0),
        words::node(6, 0, 1, 0, last),
        act,
        words::node(3, 2, 3, 0, 0),
    ];
    draft.nodes = nodes.into_iter().map(|node| vec![node]).collect();
}
