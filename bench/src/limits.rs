//! Instructions held to their limits.
use crate::count::counts;
use crate::figures::{figures, name, Figure, Limit, Part};
use std::collections::HashMap;
use std::hint::black_box;
use std::time::{Duration, Instant};

/// Lines of a limit and a figure's name.
const TABLE: &str = include_str!("../limits.txt");

/// A listed limit is so many times what a figure took when the table was made.
const MARGIN: f64 = 1.25;

/// No run of a call that is timed follows after this long.
const LONG: Duration = Duration::from_millis(30);

/// Prints instructions and limits; whether all answers are right and all limits held.
pub fn are_held(part: Part) -> bool {
    let figures = figures(part);
    let wrong: Vec<String> = figures.iter().filter(|figure| !figure.is_right()).map(Figure::name).collect();
    wrong.iter().for_each(|name| println!("wrong answer: {name}  FAILED"));
    let taken = match counts(part) {
        Ok(counts) => figures.iter().map(Figure::name).zip(counts).collect::<HashMap<_, _>>(),
        Err(told) => {
            println!("{told}");
            return false;
        }
    };
    assert_eq!(taken.len(), figures.len(), "each figure has a name of its own");
    println!("{:>12} {:>12}", "instructions", "limit");
    let held: Vec<bool> = figures.iter().map(|figure| is_held(figure, &taken)).collect();
    wrong.is_empty() && !held.contains(&false)
}

fn is_held(figure: &Figure, taken: &HashMap<String, u64>) -> bool {
    let (name, count) = (figure.name(), taken[&figure.name()]);
    let Some(limit) = limit(figure, taken) else {
        println!("{count:>12} {:>12}  {name}", "-");
        return true;
    };
    let told = if count <= limit { "" } else { "  FAILED" };
    println!("{count:>12} {limit:>12}  {name}{told}");
    count <= limit
}

/// The figure's limit; 0 if it should be listed and is not.
fn limit(figure: &Figure, taken: &HashMap<String, u64>) -> Option<u64> {
    match figure.limit {
        Limit::Listed => Some(listed(&figure.name()).unwrap_or(0)),
        Limit::Most(most) => Some(most),
        Limit::Times(times, call) => Some((times * taken[&name(call, &figure.plan)] as f64) as u64),
        Limit::Nothing => None,
    }
}

fn listed(name: &str) -> Option<u64> {
    let lines = TABLE.lines().filter_map(|line| line.trim().split_once("  "));
    lines.into_iter().find(|&(_, figure)| figure == name).and_then(|(limit, _)| limit.parse().ok())
}

/// Prints the table of limits anew, a quarter above what the figures take now.
pub fn print_table() -> bool {
    let rounded = |count: u64| ((count as f64 * MARGIN) as u64).div_ceil(1000) * 1000;
    print(
        |figure| matches!(figure.limit, Limit::Listed),
        |figure, count| format!("{:>12}  {}", rounded(count), figure.name()),
    )
}

/// Prints the instructions and the time in milliseconds of every figure that the archive answers rightly.
pub fn print_figures() -> bool {
    print(Figure::is_right, |figure, count| {
        format!("{count:>12} {:>10.4}  {}", least_ms(figure.ready()), figure.name())
    })
}

fn print(chosen: impl Fn(&Figure) -> bool, line: impl Fn(&Figure, u64) -> String) -> bool {
    let taken = counts(Part::All).unwrap_or_else(|told| panic!("{told}"));
    let chosen = figures(Part::All).into_iter().zip(taken).filter(|(figure, _)| chosen(figure));
    chosen.for_each(|(figure, count)| println!("{}", line(&figure, count)));
    true
}

/// The least time of several runs, in milliseconds.
fn least_ms<T>(mut run: impl FnMut() -> T) -> f64 {
    let begun = Instant::now();
    let mut least = Duration::MAX;
    while least == Duration::MAX || begun.elapsed() < LONG {
        let start = Instant::now();
        black_box(run());
        least = least.min(start.elapsed());
    }
    least.as_secs_f64() * 1e3
}
