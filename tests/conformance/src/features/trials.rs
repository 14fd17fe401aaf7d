//! Request L1, "Stepping a plan by hand": trials that moves could give, trials that no moves could give, and new
//! starts.

use crate::draw::draft::Draft;
use crate::draw::{damage, plans};
use crate::features::{damage_starts, met, nothing_to_add, Feature, Seen};
use crate::oracle::call::Call;
use crate::oracle::job::Job;
use crate::oracle::starts::{clash, Start};
use crate::words::{field, kind};

pub const FEATURE: Feature = Feature {
    draw: plans::lawful,
    add: nothing_to_add,
    spoil: damage_starts,
    damage: damage::any,
    tiny: |draft: &Draft| vec![draft.clone()],
    situations,
    needed: &[
        ("a trial at n", &[0, 14]),
        ("a moment one above n", &[14]),
        ("a moment far above n", &[14]),
        ("4,096 starts", &[6, 14]),
        ("4,097 starts", &[14]),
        ("more starts than there are words", &[14]),
        ("a start one moment after the trial's", &[14]),
        ("a slice of 4,097 words", &[2, 14]),
        ("a slice of more than 4,098 words", &[0]),
        ("a refused start in the trial", &[6, 7, 8, 9, 10]),
        ("a new start that finishes on n", &[0]),
        ("a new start that finishes on n + 1", &[7]),
        ("a new start at its action's finish", &[0]),
        ("a new start one moment before it", &[8]),
        ("a new start of an action of this moment", &[8]),
        ("a clash with a higher action of this moment", &[9]),
        ("a clash with a lower action of this moment", &[9]),
        ("a clash with an earlier start", &[9]),
        ("a clashing action that finishes now", &[0]),
        ("a new start with a need", &[0, 10]),
        ("the first action that is not there", &[6]),
        ("a show of a buffer of 4,095 words", &[12]),
        ("a short buffer before a trial that no moves give", &[12]),
        ("a trial that no moves give, with a wrong word", &[14]),
        ("a refused trial and no such action", &[6, 7, 8, 9, 10]),
    ],
};

fn situations(seen: &Seen) -> Vec<&'static str> {
    let trial = seen.call.list("trial");
    let short = met(&[
        ("a slice of 4,097 words", trial.len() == 4_097),
        ("a slice of more than 4,098 words", trial.len() > 4_098 && seen.call.name() != "trial_begin"),
        ("a show of a buffer of 4,095 words", seen.call.list("buffer").len() == 4_095 && !trial.is_empty()),
    ]);
    match seen.job {
        Some(job) if trial.len() >= 4_098 && !matches!(seen.call, Call::TrialBegin { .. }) => {
            let new = seen.new_start().filter(|_| seen.is_own_lawful());
            let of_new = new.map_or(vec![], |start| of_new_start(job, seen.starts, &start));
            [short, of_words(seen, job, trial), of_new].concat()
        }
        _ => short,
    }
}

fn of_words(seen: &Seen, job: &Job, trial: &[u32]) -> Vec<&'static str> {
    let (moment, number) = (trial[0] as usize, trial[1] as usize);
    let starts = &trial[2..2 + number.min(4_096)];
    let latest = starts.iter().map(|&word| field(word, 11, 6)).max();
    let action = if let Call::TrialStart { action, .. } = seen.call { Some(*action as usize) } else { None };
    let moves_on = !matches!(seen.call, Call::TrialStart { .. });
    met(&[
        ("a trial at n", moment == job.last),
        ("a moment one above n", moment == job.last + 1),
        ("a moment far above n", moment > 63),
        ("4,096 starts", number == 4_096),
        ("4,097 starts", number == 4_097),
        ("more starts than there are words", number + 2 > trial.len()),
        ("a start one moment after the trial's", moment <= job.last && number <= 4_096 && latest == Some(moment + 1)),
        ("a refused start in the trial", moves_on && (6..=10).contains(&seen.number)),
        ("the first action that is not there", action == Some(job.actions.len())),
        ("a short buffer before a trial that no moves give", seen.number == 12 && moment > job.last),
        (
            "a trial that no moves give, with a wrong word",
            seen.number == 14 && starts.iter().any(|&word| kind(word) != 9),
        ),
        (
            "a refused trial and no such action",
            action.is_some_and(|of| of > job.actions.len()) && !seen.is_own_lawful(),
        ),
    ])
}

/// Where a new start stands beside those of the trial.
fn of_new_start(job: &Job, starts: &[Start], new: &Start) -> Vec<&'static str> {
    let finish = |start: &Start| start.moment + start.duration;
    let own = |test: &dyn Fn(&Start) -> bool| starts.iter().any(|old| old.action == new.action && test(old));
    let clashing = |test: &dyn Fn(&Start) -> bool| {
        starts.iter().any(|old| clash(&job.actions[old.action], &job.actions[new.action]) && test(old))
    };
    let now = |old: &Start| old.moment == new.moment;
    met(&[
        ("a new start that finishes on n", finish(new) == job.last),
        ("a new start that finishes on n + 1", finish(new) == job.last + 1),
        ("a new start at its action's finish", own(&|old| finish(old) == new.moment)),
        ("a new start one moment before it", own(&|old| old.moment < new.moment && finish(old) == new.moment + 1)),
        ("a new start of an action of this moment", own(&now)),
        ("a clash with a higher action of this moment", clashing(&|old| now(old) && old.action > new.action)),
        ("a clash with a lower action of this moment", clashing(&|old| now(old) && old.action < new.action)),
        ("a clash with an earlier start", clashing(&|old| old.moment < new.moment && old.in_hand(new.moment))),
        ("a clashing action that finishes now", clashing(&|old| finish(old) == new.moment)),
        ("a new start with a need", !job.actions[new.action].needs.is_empty()),
    ])
}
