//! Writes inputs of the fuzzer, drawn by the features: `inputs NUMBER FOLDER`. `tests/fuzz/input.h` has their form.

use conformance::features::{Feature, ALL};
use conformance::random::Random;
use std::path::Path;
use std::{env, fs};

/// The facts are those that fill writes.
const FACTS_BY_FILL: u32 = 1 << 4;

/// The job and the starts of a drawn plan, or of one that is spoiled, and a trial with these starts.
fn input(random: &mut Random, feature: &Feature) -> Vec<u8> {
    let mut drawn = (feature.draw)(random);
    if random.chance(30) {
        (feature.spoil)(random, &mut drawn);
    }
    let job = drawn.draft.words();
    drawn.starts.truncate(MOST);
    let control = FACTS_BY_FILL | (job.len() as u32) << 8 | (drawn.starts.len() as u32) << 20;
    let words = [&[control], &job[..], &drawn.starts].concat();
    let trial = [random.below(drawn.draft.last + 1) as u8, random.below(drawn.draft.actions.len()) as u8, 0];
    words.iter().flat_map(|word| word.to_le_bytes()).chain(trial).collect()
}

/// The most job words and start words of an input.
const MOST: usize = 4_095;

fn main() {
    let given: Vec<String> = env::args().skip(1).collect();
    let [number, folder] = &given[..] else { panic!("use: inputs NUMBER FOLDER") };
    let number: usize = number.parse().expect("a number of inputs");
    let mut random = Random::new(0x5e3a_1071);
    for place in 0..number {
        let drawn = input(&mut random, &ALL[place % ALL.len()]);
        fs::write(Path::new(folder).join(format!("drawn-{place}")), drawn).expect("the folder takes files");
    }
}
