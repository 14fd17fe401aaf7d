//! Request L5, "Grippers are few": "At each moment the starts in hand whose action is in the group number at most its
//! limit."

use crate::draw::damage;
use crate::draw::draft::{Draft, Drawn};
use crate::draw::plans;
use crate::features::{met, Feature, Seen};
use crate::oracle::job::{Group, Job};
use crate::oracle::starts::Start;
use crate::random::Random;
use crate::words::{field, group, group_member, kind};

pub const FEATURE: Feature = Feature {
    draw,
    add,
    spoil,
    damage: |random, job| damage::of_kinds(random, job, &[13, 14]),
    tiny,
    situations,
    needed: &[
        ("a group at its limit", &[0]),
        ("over the limit by starts of one moment", &[16]),
        ("over the limit by starts of earlier moments", &[16]),
        ("a start at the finish of another of its group", &[0, 16]),
        ("an action in two groups", &[0, 16]),
        ("a group without a limit left", &[16]),
        ("16 at a later start", &[16]),
        ("a new start beside a higher action", &[0, 16]),
        ("a new start beside a lower action", &[0, 16]),
        ("a word of kind 13 or 14 refused", &[2, 3, 4]),
        ("64 actions in one group", &[0, 16]),
    ],
};

fn draw(random: &mut Random) -> Drawn {
    let mut drawn = match random.chance(5) {
        true => plans::crowd(random),
        false => plans::readable(random),
    };
    add(random, &mut drawn);
    drawn
}

/// Up to eight groups of some actions, each with a limit that the starts keep, mostly just so.
fn add(random: &mut Random, drawn: &mut Drawn) {
    let how_many = *random.pick(&[0, 1, 1, 1, 2, 2, 3, 4, 8]);
    for number in random.some_of(8, how_many) {
        let share = *random.pick(&[0, 25, 50, 75, 100, 100]);
        let actions: Vec<usize> = (0..drawn.draft.actions.len()).filter(|_| random.chance(share)).collect();
        let most = most_in_hand(drawn, &actions);
        let slack = *random.pick(&[0, 0, 0, 0, 1, 1, 2, 5, 63]);
        if most <= 63 {
            drawn.draft.groups.push(group(number, (most + slack).min(63)));
            drawn.draft.pairs.extend(actions.iter().map(|&action| group_member(number, action)));
        }
    }
    if random.chance(60) {
        random.shuffle(&mut drawn.draft.pairs);
    }
}

/// How many starts of these actions are in hand at once, at most.
fn most_in_hand(drawn: &Drawn, actions: &[usize]) -> usize {
    let own: Vec<(usize, usize)> = drawn.starts.iter().map(|&word| (field(word, 11, 6), field(word, 5, 0))).collect();
    let in_hand = |u: usize, action: usize, t: usize| u <= t && t < u + drawn.draft.duration(action);
    let at = |t: usize| own.iter().filter(|&&(u, action)| actions.contains(&action) && in_hand(u, action, t)).count();
    (0..=drawn.draft.last).map(at).max().unwrap_or(0)
}

/// Changes a group so that the starts do not keep it, mostly: a lower limit, or more actions, or one more group.
fn spoil(random: &mut Random, drawn: &mut Drawn) {
    let free = (0..8).find(|&number| !drawn.draft.groups.iter().any(|&word| field(word, 27, 24) == number));
    if let (Some(number), true) = (free, drawn.draft.groups.is_empty() || random.chance(20)) {
        let place = random.below(drawn.draft.groups.len() + 1);
        drawn.draft.groups.insert(place, group(number, 0));
    }
    let used = |&at: &usize| most_in_hand(drawn, &members(&drawn.draft, field(drawn.draft.groups[at], 27, 24))) > 0;
    let used: Vec<usize> = (0..drawn.draft.groups.len()).filter(used).collect();
    let at = if used.is_empty() { 0 } else { *random.pick(&used) };
    let number = field(drawn.draft.groups[at], 27, 24);
    if random.chance(40) {
        let pairs = (0..drawn.draft.actions.len()).map(|action| group_member(number, action));
        let new: Vec<u32> = pairs.filter(|pair| !drawn.draft.pairs.contains(pair)).collect();
        drawn.draft.pairs.extend(new);
    }
    let actions = members(&drawn.draft, number);
    let below = *random.pick(&[0, 1, 1, 1, 1, 2, 3, 63]);
    drawn.draft.groups[at] = group(number, most_in_hand(drawn, &actions).saturating_sub(below).min(63));
}

/// The actions of a group.
fn members(draft: &Draft, number: usize) -> Vec<usize> {
    let own = draft.pairs.iter().filter(|&&pair| field(pair, 27, 24) == number);
    own.map(|&pair| field(pair, 5, 0)).collect()
}

/// Each limit up to 2 with each set of the actions, alone and beside a group that all keep.
fn tiny(draft: &Draft) -> Vec<Draft> {
    let actions = draft.actions.len();
    let mut drafts = vec![];
    for (limit, chosen) in (0..3).flat_map(|limit| (0..1_usize << actions).map(move |chosen| (limit, chosen))) {
        let members = (0..actions).filter(|action| chosen >> action & 1 == 1);
        let pairs: Vec<u32> = members.map(|action| group_member(3, action)).collect();
        drafts.push(Draft { groups: vec![group(3, limit)], pairs: pairs.clone(), ..draft.clone() });
        let all = (0..actions).map(|action| group_member(0, action));
        let groups = vec![group(0, 9), group(3, limit)];
        drafts.push(Draft { groups, pairs: pairs.into_iter().chain(all).collect(), ..draft.clone() });
    }
    drafts
}

fn situations(seen: &Seen) -> Vec<&'static str> {
    if let Some(word) = seen.refused_word() {
        return met(&[("a word of kind 13 or 14 refused", matches!(kind(word), 13 | 14))]);
    }
    let Some(job) = seen.job else { return vec![] };
    let new = seen.new_start();
    let mut names = new.iter().flat_map(|start| beside(seen.starts, start, job)).collect::<Vec<_>>();
    let refused = if seen.number == 16 { seen.refused_start() } else { None };
    names.extend(refused.iter().flat_map(|start| over(job, seen.starts, start)));
    let grouped = |action: usize| job.groups.iter().filter(|group| group.actions.contains(&action)).count();
    let counts = |group: &Group, t: usize| seen.starts.iter().filter(|at| at.in_hand(t) && is_of(group, at)).count();
    let full = |group: &Group| group.limit > 0 && (0..=job.last).any(|t| counts(group, t) == group.limit);
    let finishes = |at: &Start| {
        let shared = |other: &Start| job.groups.iter().any(|group| is_of(group, at) && is_of(group, other));
        seen.starts.iter().any(|other| other.finishes(at.moment) && shared(other))
    };
    names.extend(met(&[
        ("a group at its limit", job.groups.iter().any(full)),
        ("a start at the finish of another of its group", seen.starts.iter().any(finishes)),
        ("an action in two groups", seen.starts.iter().any(|at| grouped(at.action) > 1)),
        ("16 at a later start", seen.number == 16 && seen.position > 0),
        ("64 actions in one group", job.groups.iter().any(|group| group.actions.len() == 64)),
    ]));
    names
}

fn is_of(group: &Group, start: &Start) -> bool {
    group.actions.contains(&start.action)
}

/// How the start that is refused takes a group over its limit.
fn over(job: &Job, starts: &[Start], start: &Start) -> Vec<&'static str> {
    let own = job.groups.iter().filter(|group| is_of(group, start));
    let own: Vec<&Group> = own.collect();
    let others = |earlier: bool| {
        let beside = starts.iter().filter(|other| other.in_hand(start.moment) && *other != start);
        beside
            .filter(|other| (other.moment < start.moment) == earlier)
            .filter(|at| own.iter().any(|of| is_of(of, at)))
            .count()
    };
    met(&[
        ("over the limit by starts of one moment", others(false) > 0 && others(true) == 0),
        ("over the limit by starts of earlier moments", others(true) > 0 && others(false) == 0),
        ("a group without a limit left", own.iter().any(|group| group.limit == 0)),
    ])
}

/// Which starts of its moment a new start stands beside, in groups of its own.
fn beside(starts: &[Start], new: &Start, job: &Job) -> Vec<&'static str> {
    let now = starts.iter().filter(|start| start.moment == new.moment);
    let shared = |other: &&Start| job.groups.iter().any(|group| is_of(group, other) && is_of(group, new));
    let shared: Vec<&Start> = now.filter(shared).collect();
    met(&[
        ("a new start beside a higher action", shared.iter().any(|start| start.action > new.action)),
        ("a new start beside a lower action", shared.iter().any(|start| start.action < new.action)),
    ])
}
