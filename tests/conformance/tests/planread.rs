//! The built program in folders of its own, held against the oracle.

use conformance::built::{printed, printed_after};
use conformance::draw::{damage, lists, plans};
use conformance::features::wide;
use conformance::listing;
use conformance::oracle::call::Call;
use conformance::oracle::plan::facts;
use conformance::oracle::program::{file_of, planread};
use conformance::random::Random;
use std::fs;

fn printed_words(job: &[u32], plan: &[u32]) -> String {
    printed(Some(&file_of(job)), Some(&file_of(plan)))
}

/// Whether the program's text for the two lists of words is the oracle's.
fn agree(job: &[u32], plan: &[u32], why: &str) {
    let text = printed_words(job, plan);
    let Some(right) = planread(Some(&file_of(job)), Some(&file_of(plan))) else { return };
    assert!(right.agrees(&text), "{why}: {text}\n job {job:08x?}\n plan {plan:08x?}");
}

#[test]
fn the_paper_s_example_byte_for_byte() {
    let job = [0x10010101, 0x20000040, 0x30000001, 0x40000080, 0x60000000];
    assert_eq!(printed_words(&job, &[0x90000000, 0xa0000001, 0xa0000080]), "read 1 triples 1\nb0000001\n");
    let two = [&job[..], &[0x60000000, 0x62001000]].concat();
    assert_eq!(printed_words(&two, &[0x90000000, 0xa0000001, 0xa0000080]), "refused 13 at 0 triples 2\n");
    assert_eq!(printed_words(&job, &[0xa0000001, 0x90000000, 0xa0000080]), "refused 11 at 1 triples 0\n");
    let wide = [0x11000101, 0x200001ff, 0x30000001, 0x400002ff, 0x60000000];
    assert_eq!(printed_words(&wide, &[0x90000000, 0xa00001ff, 0xa00003fe]), "read 1 triples 1\nb0000001\n");
}

#[test]
fn bad_files_print_bad_file() {
    let bytes = vec![0; 32 * 1024 + 4];
    let good = Some(&bytes[..8]);
    let bad = |job, plan| assert_eq!(printed(job, plan), "bad file\n");
    bad(None, good);
    bad(good, None);
    bad(None, None);
    for length in [1, 2, 3, 5, 32 * 1024 - 1, 32 * 1024 + 1, 32 * 1024 + 4] {
        bad(Some(&bytes[..length]), good);
        bad(good, Some(&bytes[..length]));
    }
}

#[test]
fn a_folder_in_the_place_of_a_file_prints_bad_file() {
    for (folder_name, file_name) in [("job.w32", "plan.w32"), ("plan.w32", "job.w32")] {
        let text = printed_after(|folder| {
            fs::create_dir(folder.join(folder_name)).expect("a new folder");
            fs::write(folder.join(file_name), [0; 8]).expect("a new file");
        });
        assert_eq!(text, "bad file\n");
    }
}

/// Point 15: "planread's file limit stays, so a wide plan of more than 8,192 words is a bad file."
#[test]
fn empty_files_and_files_of_32_kib_are_good() {
    let job = [0x10010100, 0x30000001, 0x50000000, 0x61000000];
    assert_eq!(printed_words(&[], &[]), "refused 1 at 0 triples 0\n");
    assert_eq!(printed_words(&job, &[]), "read 1 triples 1\nb0000000\n");
    assert_eq!(printed_words(&vec![0; 8_192], &[]), "refused 1 at 0 triples 0\n");
    assert_eq!(printed_words(&job, &vec![0xa0000000; 8_192]), "refused 11 at 0 triples 0\n");
    assert_eq!(printed_words(&job, &vec![0x90000000; 8_192]), "refused 6 at 1 triples 0\n");
    let wide: Vec<u32> =
        [0x1100011f].into_iter().chain(0x20000000..0x20000100).chain([0x30000001, 0x60000000]).collect();
    let facts: Vec<u32> = (0..32).flat_map(|t| (0..256).map(move |fluent| 10 << 28 | t << 9 | fluent << 1)).collect();
    assert_eq!(printed_words(&wide, &facts), "refused 13 at 0 triples 0\n");
    assert_eq!(printed_words(&wide, &[&[0x90000000], &facts[..]].concat()), "bad file\n");
    assert_eq!(printed_words(&wide, &[&[0x90000000], &facts[..8_191]].concat()), "refused 11 at 8191 triples 0\n");
}

/// Every find of the listings that fits into files.
#[test]
fn listed_finds_are_printed() {
    let mut printed = 0;
    for entry in listing::all() {
        let Call::Find { job, starts, facts, buffer, .. } = &entry.call else { continue };
        let plan = [&starts[..], facts].concat();
        if buffer.len() >= 4_096 && job.len() <= 8_192 && plan.len() <= 8_192 {
            agree(job, &plan, &entry.why);
            printed += 1;
        }
    }
    assert!(printed > 300, "{printed} finds");
}

#[test]
fn drawn_files_are_printed() {
    let mut random = Random::new(0x5e3a_1071_0005);
    for round in 0..300 {
        let mut drawn = plans::readable(&mut random);
        if round % 3 == 0 {
            (wide::FEATURE.add)(&mut random, &mut drawn);
        }
        let mut job = drawn.draft.words();
        let mut plan = [&drawn.starts[..], &facts(&job, &drawn.starts)].concat();
        match random.below(8) {
            0 => job = damage::any(&mut random, &job),
            1 => plan = lists::changed(&mut random, &plan),
            2 => plan = lists::disordered(&mut random, &plan),
            3 => (job, plan) = (random.words(5), random.words(3)),
            _ => {}
        }
        agree(&job, &plan, "drawn");
    }
}
