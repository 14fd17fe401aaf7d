//! Holds the archive's calls to numbers of instructions, which callgrind counts, and compares find with a plain finder. It exits with 1 if
//! a limit is broken or an answer is wrong. No time decides.
mod count;
mod figures;
mod jobs;
mod library;
mod limits;
mod masks;
mod plans;
mod shapes;
mod slow;
mod words;
mod yardstick;

use figures::Part;

const USAGE: &str = "planreader-bench [all | figures | limits | slow-sets MINUTES SEED]";

fn main() {
    let arguments: Vec<String> = std::env::args().skip(1).collect();
    let right = match arguments.iter().map(String::as_str).collect::<Vec<_>>()[..] {
        [] => limits::are_held(Part::Gate),
        ["all"] => limits::are_held(Part::All),
        ["figures"] => limits::print_figures(),
        ["limits"] => limits::print_table(),
        ["slow-sets", minutes, seed] => slow::search(number(minutes), number(seed)),
        [count::COUNTED, part, share] => count::run(part, share),
        _ => panic!("{USAGE}"),
    };
    if !right {
        println!("FAILED");
        std::process::exit(1);
    }
}

fn number(word: &str) -> u64 {
    word.parse().unwrap_or_else(|_| panic!("{USAGE}"))
}
