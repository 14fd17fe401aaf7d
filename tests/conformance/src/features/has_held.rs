//! Request L7, "Has held for a while": "At t its value is 'and' taken over the values of X at t − Y to t, oldest first,
//! counting moments before 0 as open."

use crate::draw::draft::{Draft, Drawn};
use crate::draw::{damage, histories, lists, looking_back, plans, programs};
use crate::features::{met, Feature, Seen};
use crate::oracle::call::Call;
use crate::oracle::formulas::Value;
use crate::oracle::job::{Formula, Job, Node};
use crate::oracle::plan::read_plan;
use crate::oracle::readings::world::World;
use crate::random::Random;
use crate::words::{field, form, formula, kind, node};
use std::collections::HashSet;
use std::mem::discriminant;

pub const FEATURE: Feature = Feature {
    draw,
    add,
    spoil,
    damage: |random, job| damage::of_kinds(random, job, &[5]),
    tiny,
    situations,
    needed: &[
        ("in a test", &[0, 13]),
        ("in an if", &[0, 13]),
        ("in a loop", &[0, 13]),
        ("in condition 2", &[0, 13]),
        ("in condition 3", &[0, 13]),
        ("in condition 4", &[0, 13]),
        ("X of each form", &[0, 13]),
        ("under not, and, or, form 5", &[0, 13]),
        ("ten on one another", &[0, 13]),
        ("Y = 0", &[0, 13]),
        ("Y = n", &[0, 13]),
        ("Y = n + 1", &[0, 13]),
        ("Y = 63 = n", &[0, 13]),
        ("open before Y moments have passed", &[0, 13]),
        ("fails before Y moments have passed", &[0, 13]),
        ("the oldest alone is open", &[0, 13]),
        ("the oldest alone fails", &[0, 13]),
        ("the newest alone is open", &[0, 13]),
        ("the newest alone fails", &[0, 13]),
        ("one between alone is open", &[0, 13]),
        ("one between alone fails", &[0, 13]),
        ("a word of form 5 refused", &[2, 3]),
    ],
};

/// Fluents with drawn histories, formulas of which most are of form 5, and a procedure that asks for them.
fn draw(random: &mut Random) -> Drawn {
    let last = *random.pick(&[0, 1, 2, 3, 4, 5, 6, 7, 8, 9, 10, 12, 16, 24, 63]);
    let mut drawn = match random.chance(20) {
        true => plans::with_formulas(random, last),
        false => histories::plan(random, last),
    };
    drawn.draft.formulas = looking_back::formulas(random, &drawn.draft);
    drawn.draft.nodes.clear();
    match random.below(10) {
        0..=2 => looking_back::add_tests(random, &mut drawn.draft),
        3 | 4 if last <= 12 => looking_back::add_set(random, &mut drawn.draft),
        _ => {
            let nodes = *random.pick(&[3, 7, 10, 10, 15, 15, 20, 64]);
            programs::add_readable(random, &mut drawn.draft, &drawn.starts, nodes);
        }
    }
    drawn
}

/// Some formulas become ones of form 5.
fn add(random: &mut Random, drawn: &mut Drawn) {
    for number in 1..drawn.draft.formulas.len() {
        if random.chance(30) {
            drawn.draft.formulas[number] = looking_back::held(random, number, drawn.draft.last);
        }
    }
}

/// Another X or Y in a formula of form 5, mostly by one, or another form for it; or a start moved or taken out.
fn spoil(random: &mut Random, drawn: &mut Drawn) {
    let formulas = &mut drawn.draft.formulas;
    let of_form_5: Vec<usize> = (0..formulas.len()).filter(|&number| form(formulas[number]) == 5).collect();
    if of_form_5.is_empty() || random.chance(20) {
        drawn.starts = lists::changed_order_kept(random, &drawn.starts);
        return;
    }
    let number = *random.pick(&of_form_5);
    let (x, y) = (field(formulas[number], 11, 6), field(formulas[number], 5, 0));
    formulas[number] = match random.below(8) {
        0..=2 => formula(5, x, (y + 1).min(63)),
        3..=5 => formula(5, x, y.saturating_sub(1)),
        6 => looking_back::held(random, number, drawn.draft.last),
        _ => formula(random.between(3, 4), x, random.below(number)),
    };
}

/// Each Y up to n + 2 and 63 on 'always', on a fluent, on its negation, on form 5 and on a negation of form 5. Find
/// counts the moments at which the formula holds, the later ones more often, and those at which it fails.
fn tiny(draft: &Draft) -> Vec<Draft> {
    let of_fluent = [formula(0, 0, 0), formula(1, 0, 0), formula(2, 1, 0)];
    let of_held = [formula(5, 1, 1), formula(5, 2, 2), formula(2, 4, 0)];
    let tests = [0, 6, 7].map(|number| node(1, number, 0, 0, 0));
    let joined = [node(6, 0, 1, 0, draft.last), node(3, 3, 2, 0, 0)];
    let nodes: Vec<Vec<u32>> = tests.into_iter().chain(joined).map(|node| vec![node]).collect();
    let pairs = (0..=draft.last + 2).chain([63]).flat_map(|y| [0, 1, 2, 3, 5].map(|x| (x, y)));
    let with = |(x, y)| Draft {
        formulas: [&of_fluent[..], &of_held, &[formula(5, x, y), formula(2, 6, 0)]].concat(),
        nodes: nodes.clone(),
        ..draft.clone()
    };
    pairs.map(with).collect()
}

fn situations(seen: &Seen) -> Vec<&'static str> {
    let (Call::Find { job, starts, .. }, 0 | 13) = (seen.call, seen.number) else {
        let word = seen.call.list("job").get(seen.position).filter(|_| matches!(seen.number, 2 | 3));
        return met(&[("a word of form 5 refused", word.is_some_and(|&word| kind(word) == 5 && form(word) == 5))]);
    };
    let Ok(plan) = read_plan(job, starts) else { return vec![] };
    let (world, asked, depths) = (World::new(&plan), asked(&plan.job), depths(&plan.job));
    let named = plan.job.nodes.iter().flat_map(uses).filter(|&(_, number)| depths[number] > 0);
    let mut names: Vec<&'static str> = named.map(|(name, _)| name).collect();
    names.extend(of_forms(&plan.job, &asked, &depths));
    for number in asked {
        if let Formula::Held { x, moments } = plan.job.formulas[number] {
            names.extend(of_size(moments, world.last()));
            names.extend((0..=world.last()).filter_map(|t| of_moment(&world, (number, x), moments, t)));
        }
    }
    names
}

/// The formulas that a node names, each with its use.
fn uses(node: &Node) -> Vec<(&'static str, usize)> {
    match node {
        Node::Test(formula) => vec![("in a test", *formula)],
        Node::If { formula, .. } => vec![("in an if", *formula)],
        Node::While { formula, .. } => vec![("in a loop", *formula)],
        Node::TaskSet { conditions, .. } => {
            let name = |form: usize| ["in condition 2", "in condition 3", "in condition 4"][form - 2];
            let named = conditions.iter().filter(|condition| condition.form >= 2);
            named.map(|condition| (name(condition.form), condition.formula)).collect()
        }
        _ => vec![],
    }
}

/// The formulas that a formula names.
fn lower(of: Formula) -> Vec<usize> {
    match of {
        Formula::Always | Formula::Fluent(_) => vec![],
        Formula::Not(x) | Formula::Held { x, .. } => vec![x],
        Formula::And(x, y) | Formula::Or(x, y) => vec![x, y],
    }
}

/// How many formulas of form 5 with Y above 0 stand on one another in each formula.
fn depths(job: &Job) -> Vec<usize> {
    let mut depths: Vec<usize> = vec![];
    for &of in &job.formulas {
        let below = lower(of).into_iter().map(|number| depths[number]).max().unwrap_or(0);
        depths.push(below + usize::from(matches!(of, Formula::Held { moments: 1.., .. })));
    }
    depths
}

/// The formulas that nodes name, and those that these stand on.
fn asked(job: &Job) -> Vec<usize> {
    let mut asked = vec![false; job.formulas.len()];
    job.nodes.iter().flat_map(uses).for_each(|(_, number)| asked[number] = true);
    for number in (0..asked.len()).rev() {
        if asked[number] {
            lower(job.formulas[number]).into_iter().for_each(|x| asked[x] = true);
        }
    }
    (0..asked.len()).filter(|&number| asked[number]).collect()
}

/// Which forms the asked formulas of form 5 stand on, and which asked formulas stand on them.
fn of_forms(job: &Job, asked: &[usize], depths: &[usize]) -> Vec<&'static str> {
    let form = |number: usize| discriminant(&job.formulas[number]);
    let is_held = |number: usize| matches!(job.formulas[number], Formula::Held { .. });
    let above = |number: usize| lower(job.formulas[number]).into_iter().any(is_held).then(|| form(number));
    let below = |number: usize| is_held(number).then(|| form(lower(job.formulas[number])[0]));
    let forms =
        |of: &dyn Fn(usize) -> Option<_>| asked.iter().filter_map(|&number| of(number)).collect::<HashSet<_>>().len();
    met(&[
        ("X of each form", forms(&below) == 6),
        ("under not, and, or, form 5", forms(&above) == 4),
        ("ten on one another", asked.iter().any(|&number| depths[number] >= 10)),
    ])
}

/// Where Y lies beside 0 and n.
fn of_size(y: usize, last: usize) -> Vec<&'static str> {
    met(&[("Y = 0", y == 0), ("Y = n", y == last), ("Y = n + 1", y == last + 1), ("Y = 63 = n", y == 63 && last == 63)])
}

/// What alone keeps a formula of form 5 from holding at t: moments before 0, or one value of X.
fn of_moment(world: &World, (number, x): (usize, usize), y: usize, t: usize) -> Option<&'static str> {
    let Some(from) = t.checked_sub(y) else {
        return match world.value(number, t) {
            Value::Open => Some("open before Y moments have passed"),
            Value::Fails => Some("fails before Y moments have passed"),
            Value::Holds => None,
        };
    };
    let mut others = (from..=t).filter(|&at| !world.holds(x, at));
    let (at, None) = (others.next()?, others.next()) else { return None };
    Some(match (at == from, at == t, world.fails(x, at)) {
        (true, true, _) => return None,
        (true, _, false) => "the oldest alone is open",
        (true, _, true) => "the oldest alone fails",
        (_, true, false) => "the newest alone is open",
        (_, true, true) => "the newest alone fails",
        (_, _, false) => "one between alone is open",
        (_, _, true) => "one between alone fails",
    })
}
