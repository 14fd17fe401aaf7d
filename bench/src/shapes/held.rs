//! Request L7, "X has held for Y moments": jobs of 64 formulas, all of form 5 but the first, a fluent.
use super::nodes::Nodes;
use crate::plans::{lawful, Plan};
use crate::words::{action, formula, head, initially, law, node, start};

/// The most formulas that a job has, and the most moments that a formula looks back.
const FORMULAS: usize = 64;
const BACK: usize = 63;

/// How the formulas refer to each other: X and Y of formula k.
type Formulas = (&'static str, fn(usize) -> (usize, usize));
const NESTED: Formulas = ("nested", |k| (k - 1, BACK));
const OF_FLUENT: Formulas = ("of the fluent", |_| (0, BACK));
const FURTHER: Formulas = ("of the fluent, 1 to 63 back", |k| (0, k));

/// The values of the fluent: whether it is known true at 0, and the starts.
type Fluent = (&'static str, bool, Vec<u32>);

pub fn plans() -> Vec<Plan> {
    let [open, known, turned, hidden] = &fluents();
    let nested = [open, known, turned].map(|fluent| plan(NESTED, fluent));
    let of_fluent = [known, turned, hidden].map(|fluent| plan(OF_FLUENT, fluent));
    nested.into_iter().chain(of_fluent).chain([plan(FURTHER, known)]).collect()
}

/// Open at every moment, true at every moment, true and false by turns, true and open by turns.
fn fluents() -> [Fluent; 4] {
    let turned = (0..63).map(|u| start(u, (u + 1) % 2)).collect();
    let hidden = (0..=61).step_by(2).map(|u| start(u, 2)).collect();
    [("open", false, vec![]), ("true", true, vec![]), ("true, false", true, turned), ("true, open", true, hidden)]
}

fn plan((name, references): Formulas, (values, known, starts): &Fluent) -> Plan {
    let held = |k: usize| formula(5, references(k).0, references(k).1);
    let formulas: Vec<u32> = (1..FORMULAS).map(held).collect();
    let job = tests(before_nodes(*known, &formulas));
    lawful(format!("63 of form 5, {name}, fluent {values}"), job, starts.clone())
}

/// Action 0 makes the fluent true and action 1 false, within a moment; action 2 hides it for one and makes it true.
fn before_nodes(known: bool, formulas: &[u32]) -> Vec<u32> {
    let known = if known { vec![initially(0, true)] } else { vec![] };
    let actions = [action(0, 1), law(2, 0), action(1, 1), law(3, 0), action(2, 2), law(2, 0)];
    [&[head(1, 3, 63)], &known[..], &actions, &[formula(1, 0, 0)], formulas].concat()
}

/// Tests of every second formula, and a choice of them, which reads from 0 to 63 in no plan: the count says at how many moments each holds.
fn tests(before_nodes: Vec<u32>) -> Vec<u32> {
    let mut nodes = Nodes::after(before_nodes);
    let mut whole = nodes.test(FORMULAS - 1);
    for k in (1..FORMULAS - 1).step_by(2) {
        let test = nodes.test(k);
        whole = nodes.add(node(3, whole, test, 0, 0), &[]);
    }
    nodes.words
}
