//! Request L3, "Hidden facts carried along": "at each moment t the set is exactly the starts with u ≤ t < u + d". What
//! they hide, give and forbid goes from moment to moment.

use crate::draw::draft::{Draft, Drawn};
use crate::draw::{damage, hands, lists};
use crate::features::{met, nothing_to_add, Feature, Seen};
use crate::oracle::call::Call;
use crate::oracle::job::Known;
use crate::oracle::plan::{read_plan, Plan};
use crate::oracle::starts::{clash, Start};
use crate::random::Random;
use crate::words::{self, field};
use std::collections::HashSet;

pub const FEATURE: Feature = Feature {
    draw,
    add: nothing_to_add,
    spoil,
    damage: |random, job| damage::of_kinds(random, job, &[2, 3, 4]),
    tiny,
    situations,
    needed: &[
        ("no start", &[0]),
        ("4,032 starts", &[0]),
        ("64 starts at one moment", &[0]),
        ("64 in hand and new ones where they finish", &[0]),
        ("20 moments between two starts", &[0]),
        ("an action again at its finish", &[0]),
        ("a start at another's finish", &[0]),
        ("two finish and make one fluent", &[0]),
        ("two finish and make two fluents", &[0]),
        ("a finish under the hiding of another", &[0]),
        ("three durations hide one fluent", &[0]),
        ("a hider begins where the one before finishes", &[0]),
        ("a hider begins where its fluent is known", &[0]),
        ("a need given by a finish", &[0]),
        ("a need that a start of its moment makes", &[0]),
        ("a clash with what finishes", &[0]),
        ("a value turned", &[0]),
        ("a new start with five in hand", &[0, 7, 8, 9, 10]),
        ("a word behind 1,000", &[6, 7, 8, 9, 10]),
        ("a word behind 4,096", &[6]),
    ],
};

fn draw(random: &mut Random) -> Drawn {
    match random.below(400) {
        0..=2 => hands::full(random),
        3..=18 => hands::many(random),
        _ => hands::any(random),
    }
}

/// Damages the starts in their last third, for one of rows 6 to 10; or takes all starts that a job can have, and more.
/// A plan without starts gets one.
fn spoil(random: &mut Random, drawn: &mut Drawn) {
    let list = &mut drawn.starts;
    if list.is_empty() || random.chance(if list.len() < 1_000 { 1 } else { 30 }) {
        *list = if list.is_empty() { vec![words::start(0, 0)] } else { too_long(random) };
        return;
    }
    let place = random.between(list.len() * 2 / 3, list.len() - 1);
    match random.below(15) {
        0 => list[place] ^= 1 << random.between(12, 31),
        1 => list.swap(place, place.saturating_sub(1)),
        2 => list.insert(place, list[place]),
        row => {
            let near =
                |random: &mut Random| drawn.starts[random.between(drawn.starts.len() * 2 / 3, drawn.starts.len() - 1)];
            let tried = (0..20).find_map(|_| {
                let near = near(random);
                one_more(random, &drawn.draft, near, 7 + row % 4)
            });
            drawn.starts = lists::put_in(&drawn.starts, tried.unwrap_or(drawn.starts[place]));
        }
    }
}

/// A start near another one that is to be refused by row 7, 8, 9 or 10, if the job has an action for it.
fn one_more(random: &mut Random, draft: &Draft, near: u32, row: usize) -> Option<u32> {
    let (u, action) = (field(near, 11, 6), field(near, 5, 0));
    let has = |action: usize, test: &dyn Fn(u32) -> bool| draft.actions[action][1..].iter().any(|&law| test(law));
    let contrary =
        |other: usize| has(action, &|law| field(law, 7, 6) > 1 && draft.actions[other].contains(&(law ^ 64)));
    let needy = |other: usize| has(other, &|law| field(law, 7, 6) < 2);
    let fits = |&other: &usize| match row {
        7 => true,
        8 => other == action && draft.duration(other) > 1,
        9 => contrary(other),
        _ => needy(other),
    };
    let others: Vec<usize> = (0..draft.actions.len()).filter(fits).collect();
    let other = *others.get(random.below(others.len().max(1)))?;
    let lasts = draft.duration(other);
    let moment = match row {
        7 => random.between((draft.last + 1).saturating_sub(lasts), draft.last),
        8 => u + random.between(1, lasts - 1),
        9 => u.saturating_sub(random.below(lasts)),
        _ => u,
    };
    Some(words::start(moment.min(draft.last), other))
}

/// All 4,096 starts that a job can have, and behind them words that ascend still or do not.
fn too_long(random: &mut Random) -> Vec<u32> {
    let step = random.below(2) as u32;
    let more = *random.pick(&[1, 2, 100, 95_904]);
    let all = (0..4_096).map(|place| words::start(place / 64, place % 64));
    all.chain((1..=more).map(|place| words::start(63, 63) + place * step)).collect()
}

/// Two actions of 1 to 3 moments of which each makes the one fluent true, false or neither. The second one needs it
/// true, false or not at all. It is known at 0 in each way.
fn tiny(draft: &Draft) -> Vec<Draft> {
    let law = |role: usize, value: usize| (value < 2).then(|| words::law(role + value, 0));
    let mut drafts = vec![];
    for number in 0..9 * 81 {
        let digit = |place: u32| number / 3_usize.pow(place) % 3;
        let first: Vec<u32> = [words::action(0, 1 + digit(0))].into_iter().chain(law(2, digit(1))).collect();
        let second = [words::action(1, 1 + digit(2))].into_iter().chain(law(2, digit(3))).chain(law(0, digit(4)));
        let initially = (digit(5) < 2).then(|| words::initially(0, digit(5) == 0)).into_iter().collect();
        drafts.push(Draft { fluents: 1, actions: vec![first, second.collect()], initially, ..draft.clone() });
    }
    drafts
}

fn situations(seen: &Seen) -> Vec<&'static str> {
    match (seen.call, seen.number) {
        (Call::Fill { job, starts, .. }, 0) => read_plan(job, starts).map_or(vec![], |plan| of_plan(&plan)),
        (Call::Check { .. }, 6..=10) => {
            met(&[("a word behind 1,000", seen.position >= 1_000), ("a word behind 4,096", seen.position >= 4_096)])
        }
        (Call::TrialStart { .. }, _) => {
            let in_hand = |new: Start| seen.starts.iter().filter(|start| start.in_hand(new.moment)).count();
            met(&[("a new start with five in hand", seen.new_start().is_some_and(|new| in_hand(new) >= 5))])
        }
        _ => vec![],
    }
}

fn of_plan(plan: &Plan) -> Vec<&'static str> {
    let starts = &plan.starts;
    if starts.len() > 400 {
        return met(&[("4,032 starts", starts.len() == 4_032)]);
    }
    let mut names = met(&[
        ("no start", starts.is_empty()),
        ("20 moments between two starts", starts.windows(2).any(|two| two[1].moment > two[0].moment + 20)),
    ]);
    names.extend((1..=plan.job.last).flat_map(|t| of_moment(plan, t)));
    names
}

/// What begins, finishes and hides at t.
fn of_moment(plan: &Plan, t: usize) -> Vec<&'static str> {
    let at = |test: fn(&Start, usize) -> bool| -> Vec<&Start> {
        plan.starts.iter().filter(|start| test(start, t)).collect()
    };
    let (new, done, hiding) = (at(|start, t| start.moment == t), at(Start::finishes), at(Start::hides));
    let action = |start: &Start| &plan.job.actions[start.action];
    let any = |one: &[&Start], other: &[&Start], test: &dyn Fn(&Start, &Start) -> bool| {
        one.iter().any(|a| other.iter().any(|b| a != b && test(a, b)))
    };
    let makes = |start: &Start, test: &dyn Fn(&Known) -> bool| action(start).makes.iter().any(test);
    let shared = |a: &Start, b: &Start| makes(a, &|made| makes(b, &|other| made.fluent == other.fluent));
    let others = |a: &Start, b: &Start| makes(a, &|made| makes(b, &|other| made.fluent != other.fluent));
    let needed = |a: &Start, b: &Start| action(a).needs.iter().any(|need| makes(b, &|made| made.fluent == need.fluent));
    let follows = |new: &Start, old: &Start| new.duration > 1 && shared(new, old);
    let durations = |fluent: usize| {
        let hiders = hiding.iter().filter(|start| makes(start, &|made| made.fluent == fluent));
        hiders.map(|start| start.duration).collect::<HashSet<usize>>()
    };
    let known = |start: &Start| makes(start, &|made| plan.states[t][made.fluent].is_some());
    let turned = |(now, before): (&Option<bool>, &Option<bool>)| now.is_some() && before.is_some() && now != before;
    met(&[
        ("64 starts at one moment", new.len() == 64),
        ("64 in hand and new ones where they finish", done.len() + hiding.len() == 64 && !new.is_empty()),
        ("an action again at its finish", any(&done, &new, &|old, new| old.action == new.action)),
        ("a start at another's finish", any(&done, &new, &|old, new| old.action != new.action)),
        ("two finish and make one fluent", any(&done, &done, &shared)),
        ("two finish and make two fluents", any(&done, &done, &others)),
        ("a finish under the hiding of another", any(&done, &hiding, &shared)),
        ("three durations hide one fluent", (0..plan.job.fluents).any(|fluent| durations(fluent).len() > 2)),
        ("a hider begins where the one before finishes", any(&new, &done, &follows)),
        ("a hider begins where its fluent is known", new.iter().any(|start| start.duration > 1 && known(start))),
        ("a need given by a finish", any(&new, &done, &needed)),
        ("a need that a start of its moment makes", any(&new, &new, &needed)),
        ("a clash with what finishes", any(&new, &done, &|new, old| clash(action(new), action(old)))),
        ("a value turned", plan.states[t].iter().zip(&plan.states[t - 1]).any(turned)),
    ])
}
