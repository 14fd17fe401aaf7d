//! Lawful plans: jobs whose actions can be started, and starts chosen moment by moment within the rules.

use crate::draw::draft::{Draft, Drawn};
use crate::draw::{jobs, programs};
use crate::oracle::facts::{initial_state, state_at, State};
use crate::oracle::job::{read_job, Job};
use crate::oracle::plan::read_plan;
use crate::oracle::starts::{clash, exceeds, keeps_windows, Start};
use crate::random::Random;
use crate::words;

/// A lawful plan of one act, of any size.
pub fn lawful(random: &mut Random) -> Drawn {
    let last = *random.pick(&[0, 1, 2, 3, 4, 5, 6, 7, 8, 10, 12, 12, 20, 63]);
    let mut draft = job_until(random, last);
    draft.nodes = vec![vec![words::node(0, 0, 0, 0, 0)]];
    let starts = lawful_starts(random, &draft);
    Drawn { draft, starts }
}

/// 64 actions without laws, nearly all of which start at one moment or two.
pub fn crowd(random: &mut Random) -> Drawn {
    let mut draft = Draft { fluents: 1, last: random.between(4, 6), ..Draft::default() };
    draft.actions = (0..64).map(|number| vec![words::action(number, random.between(2, 3))]).collect();
    draft.nodes = vec![vec![words::node(0, 0, 0, 0, 0)]];
    let missing = *random.pick(&[0, 1, 1, 2]);
    let left_out = random.some_of(64, missing);
    let later = random.chance(50);
    let moment = |action: usize| usize::from(later && action % 3 == 1);
    let started = (0..64).filter(|action| !left_out.contains(action));
    let mut starts: Vec<u32> = started.map(|action| words::start(moment(action), action)).collect();
    starts.sort();
    Drawn { draft, starts }
}

/// A lawful plan, mostly with formulas and a procedure that reads from 0 to n.
pub fn readable(random: &mut Random) -> Drawn {
    let last = *random.pick(&[0, 1, 2, 3, 4, 5, 6, 7, 8, 9, 10, 12, 14, 20, 63]);
    let mut drawn = with_formulas(random, last);
    if random.chance(85) {
        let nodes = *random.pick(&[3, 7, 10, 10, 15, 15, 20, 30, 64]);
        programs::add_readable(random, &mut drawn.draft, &drawn.starts, nodes);
    }
    drawn
}

/// A lawful plan up to that moment whose job has formulas; formula 0 always holds.
pub fn with_formulas(random: &mut Random, last: usize) -> Drawn {
    let mut draft = job_until(random, last);
    let first_stop = draft.actions.len();
    for _ in 0..random.below(3) {
        add_flag(&mut draft);
    }
    draft.formulas = vec![words::formula(0, 0, 0)];
    for number in 1..random.between(2, 10) {
        let form = *random.pick(&[1, 1, 1, 2, 2, 3, 3, 4, 4, 5]);
        draft.formulas.push(jobs::formula_word(random, draft.fluents, number, form));
    }
    draft.nodes = vec![vec![words::node(0, 0, 0, 0, 0)]];
    let starts = lawful_starts(random, &draft);
    let mut drawn = Drawn { draft, starts };
    for stop in first_stop..drawn.draft.actions.len() {
        stop_once(random, &mut drawn, stop);
    }
    drawn
}

/// A fluent known true, and an action of one moment that makes it false: a loop's formula until then.
fn add_flag(draft: &mut Draft) {
    if draft.fluents < 64 && draft.actions.len() < 64 {
        let flag = draft.fluents;
        draft.fluents += 1;
        draft.initially.push(words::initially(flag, true));
        draft.actions.push(vec![words::action(draft.actions.len(), 1), words::law(3, flag)]);
    }
}

/// Starts the stop action once only, if that is lawful, so that its flag changes at one moment, mostly the last.
fn stop_once(random: &mut Random, drawn: &mut Drawn, stop: usize) {
    if drawn.draft.last == 0 {
        return;
    }
    let moment = if random.chance(60) { drawn.draft.last - 1 } else { random.below(drawn.draft.last) };
    let mut others: Vec<u32> = drawn.starts.iter().copied().filter(|word| *word as usize & 63 != stop).collect();
    others.push(words::start(moment, stop));
    others.sort();
    if read_plan(&drawn.draft.words(), &others).is_ok() {
        drawn.starts = others;
    }
}

/// Fluents and actions for a plan up to that moment; no formulas and no nodes.
fn job_until(random: &mut Random, last: usize) -> Draft {
    let fluents = *random.pick(&[1, 2, 2, 3, 3, 4, 5, 6, 64]);
    let known = random.between(0, fluents);
    let mut draft = Draft { fluents, last, ..Draft::default() };
    draft.initially = jobs::initial_words(random, fluents, known);
    let usual: Vec<bool> = (0..fluents).map(|_| random.chance(50)).collect();
    let actions = *random.pick(&[1, 2, 3, 3, 4, 5, 6, 8, 64]);
    for number in 0..actions {
        draft.actions.push(action(random, number, last, &usual));
    }
    draft
}

/// An action with few needs; most actions make a fluent the same way, so that overlapping ones agree.
fn action(random: &mut Random, number: usize, last: usize, usual: &[bool]) -> Vec<u32> {
    let longest = last.clamp(1, 63);
    let duration = match random.below(8) {
        0 => random.between(1, longest),
        1 => longest,
        _ => random.between(1, longest.min(4)),
    };
    let mut laws = vec![];
    let needs = random.below(3).min(random.below(3));
    for fluent in random.some_of(usual.len(), needs) {
        laws.push(words::law(random.below(2), fluent));
    }
    let makes = random.below(4);
    for fluent in random.some_of(usual.len(), makes) {
        let value = usual[fluent] != random.chance(25);
        laws.push(words::law(2 + usize::from(!value), fluent));
    }
    random.shuffle(&mut laws);
    laws.insert(0, words::action(number, duration));
    laws
}

/// Starts within the rules, so often as the draw says and the rules allow.
fn lawful_starts(random: &mut Random, draft: &Draft) -> Vec<u32> {
    let eagerness = *random.pick(&[0, 10, 30, 60, 100]);
    lawful_starts_by(random, draft, |random, _, _, _| random.chance(eagerness))
}

/// Starts within the rules, wherever `wants` says so of the starts so far, a moment and an action.
pub fn lawful_starts_by(
    random: &mut Random,
    draft: &Draft,
    wants: impl Fn(&mut Random, &[Start], usize, usize) -> bool,
) -> Vec<u32> {
    let job = read_job(&draft.words()).expect("a well-formed job");
    let mut starts: Vec<Start> = vec![];
    let mut state = initial_state(&job);
    for t in 0..=job.last {
        if t > 0 {
            state = state_at(&job, &starts, &state, t);
        }
        for action in random.some_of(job.actions.len(), job.actions.len()) {
            if wants(random, &starts, t, action) && may_start(&job, &starts, &state, t, action) {
                starts.push(Start { moment: t, action, duration: job.actions[action].duration });
            }
        }
    }
    let mut list: Vec<u32> = starts.iter().map(|start| words::start(start.moment, start.action)).collect();
    list.sort();
    list
}

fn may_start(job: &Job, starts: &[Start], state: &State, t: usize, number: usize) -> bool {
    let action = &job.actions[number];
    let new = Start { moment: t, action: number, duration: action.duration };
    let mut others = starts.iter().filter(|start| start.in_hand(t));
    t + action.duration <= job.last
        && keeps_windows(job, &new)
        && !exceeds(job, starts, &new)
        && action.needs.iter().all(|need| state[need.fluent] == Some(need.value))
        && others.all(|other| other.action != number && !clash(action, &job.actions[other.action]))
}
