//! What can be told of the calls, and of the oracle, by other ways than the oracle's rules.

use conformance::draw::draft::{Draft, Drawn};
use conformance::draw::plans;
use conformance::draw::trials::Trial;
use conformance::features::{readings, wide};
use conformance::library;
use conformance::oracle::answer::Answer;
use conformance::oracle::call::Call;
use conformance::oracle::plan::read_plan;
use conformance::oracle::readings::decision::decide;
use conformance::oracle::readings::literal::{is_reading, Triple};
use conformance::oracle::readings::world::World;
use conformance::random::Random;
use conformance::words::{action, field, initially, law, node, reading, start};
use std::collections::BTreeSet;

/// A trial's moment and starts.
type At = (u32, Vec<u32>);

fn slice(at: &At) -> Vec<u32> {
    Trial::new(at.0 as usize, &at.1).slice()
}

/// The trials that one move makes of a trial, by the library.
fn moved(job: &[u32], from: &At) -> Vec<At> {
    let starts = (0..3).map(|action| Call::trial_start(job, &slice(from), action));
    let answered = starts.chain([Call::trial_on(job, &slice(from))]).map(|call| library::ask(&call));
    let accepted = answered.filter(|given| given.answer.number == 0);
    let taken_apart = |words: &[u32]| (words[0], words[2..2 + words[1] as usize].to_vec());
    accepted.map(|given| taken_apart(&given.lent[0])).collect()
}

/// All trials that lists of moves give.
fn given_by_moves(job: &[u32]) -> BTreeSet<At> {
    let begun = (0, vec![]);
    let (mut given, mut new) = (BTreeSet::from([begun.clone()]), vec![begun]);
    while let Some(trial) = new.pop() {
        let next = moved(job, &trial).into_iter().filter(|trial| given.insert(trial.clone()));
        new.extend(next.collect::<Vec<At>>());
    }
    given
}

/// Two actions on two fluents, with laws by chance.
fn tiny_job(random: &mut Random, last: usize) -> Draft {
    let laws =
        |random: &mut Random| (0..2).filter(|_| random.chance(50)).map(|of| law(of * 2 + 1, 1)).collect::<Vec<_>>();
    let made = |random: &mut Random, number: usize| {
        let other = random.chance(60).then(|| law(2 + random.below(2), 0));
        [vec![action(number, random.between(1, 2))], laws(random), other.into_iter().collect()].concat()
    };
    let mut draft = Draft { fluents: 2, last, nodes: vec![vec![node(0, 0, 0, 0, 0)]], ..Draft::default() };
    draft.actions = vec![made(random, 0), made(random, 1)];
    draft.initially = (0..2).filter(|_| random.chance(60)).map(|fluent| initially(fluent, fluent == 0)).collect();
    draft
}

/// Request L1: a trial passes exactly when some list of moves gives it.
#[test]
fn a_trial_passes_exactly_if_moves_give_it() {
    let mut random = Random::new(67);
    for round in 0..60 {
        let last = round % 4;
        let job = tiny_job(&mut random, last).words();
        let given = given_by_moves(&job);
        let all: Vec<u32> = (0..=last).flat_map(|moment| [start(moment, 0), start(moment, 1)]).collect();
        let lists = (0..1_usize << all.len()).map(|chosen| (0..all.len()).filter(move |at| chosen >> at & 1 == 1));
        for list in lists.map(|places| places.map(|place| all[place]).collect::<Vec<u32>>()) {
            for moment in 0..=last as u32 + 1 {
                let trial = (moment, list.clone());
                let shown = library::ask(&Call::trial_show(&job, &slice(&trial), 4_096)).answer.number == 0;
                assert_eq!(shown, given.contains(&trial), "{trial:08x?} of {job:08x?}");
            }
        }
    }
}

/// The facts of the narrow job, as the wide one has them.
fn widened(drawn: &Drawn, facts: &[u32]) -> Vec<u32> {
    let numbers = &drawn.draft.wide.as_ref().expect("a wide job").numbers;
    let wide = |word: u32| 10 << 28 | (word & 0x1f80) << 2 | (numbers[field(word, 6, 1)] as u32) << 1 | word & 1;
    facts.iter().map(|&word| wide(word)).collect()
}

/// Request L6: a job written narrow and wide, with the same fluents in the same order, is answered alike.
#[test]
fn narrow_and_wide_jobs_are_answered_alike() {
    let mut random = Random::new(68);
    for _ in 0..500 {
        let mut drawn = plans::readable(&mut random);
        if random.chance(40) {
            (readings::FEATURE.spoil)(&mut random, &mut drawn);
        }
        let narrow = drawn.draft.words();
        (wide::FEATURE.add)(&mut random, &mut drawn);
        let own = drawn.draft.wide.as_mut().expect("a wide job");
        (own.initially, own.laws, own.formulas) = (vec![], vec![], vec![]);
        let job = drawn.draft.words();
        let ask = |call: Call| library::ask(&call);
        let (one, other) =
            (ask(Call::fill(&narrow, &drawn.starts, 4_096)), ask(Call::fill(&job, &drawn.starts, 16_384)));
        assert_eq!(one.answer, other.answer, "{narrow:08x?}\n{job:08x?}");
        let facts = &one.lent[0][..one.answer.length];
        let wide_facts = &other.lent[0][..other.answer.length];
        assert_eq!(widened(&drawn, facts), wide_facts, "{narrow:08x?}\n{job:08x?}");
        let found = ask(Call::find(&narrow, &drawn.starts, facts, 4_096));
        let wide_found = ask(Call::find(&job, &drawn.starts, wide_facts, 4_096));
        let length = found.answer.length;
        let same = |answer: Answer| (answer.number, answer.position, answer.count, answer.length);
        assert_eq!(same(found.answer), same(wide_found.answer), "{narrow:08x?}\n{job:08x?}");
        assert_eq!(found.lent[0][..length], wide_found.lent[0][..length], "{narrow:08x?}\n{job:08x?}");
    }
}

/// All triples of the job.
fn triples(world: &World) -> Vec<Triple> {
    let spans = (0..=world.last()).flat_map(|begin| (begin..=world.last()).map(move |end| (begin, end)));
    let of_node = |node: usize| spans.clone().map(move |(begin, end)| Triple { node, begin, end });
    (0..=world.root()).flat_map(of_node).collect()
}

/// All lists of so many words that name triples of the job.
fn lists(alphabet: &[u32], length: usize) -> Vec<Vec<u32>> {
    match length {
        0 => vec![vec![]],
        _ => {
            let shorter = lists(alphabet, length - 1);
            shorter.iter().flat_map(|list| alphabet.iter().map(|&word| [&list[..], &[word]].concat())).collect()
        }
    }
}

/// The oracle says twice what a reading is: a triple has one by the decision exactly if some list of words is one by
/// the judge of lists. Here every list of up to four words is judged, for procedures of up to three nodes over two
/// moments at most.
#[test]
fn what_has_a_reading_and_what_is_one_agree() {
    let mut random = Random::new(21);
    let mut held = 0;
    while held < 150 {
        let last = random.below(2);
        let mut drawn = plans::with_formulas(&mut random, last);
        drawn.draft.nodes.clear();
        conformance::draw::jobs::add_nodes(&mut random, &mut drawn.draft, 3);
        let Ok(plan) = read_plan(&drawn.draft.words(), &drawn.starts) else { continue };
        let world = World::new(&plan);
        let all = triples(&world);
        if all.len() > 9 {
            continue;
        }
        held += 1;
        let decision = decide(&world).expect("few placements");
        let alphabet: Vec<u32> = all.iter().map(|of| reading(of.node, of.begin, of.end)).collect();
        let tried: Vec<Vec<u32>> = (1..=4).flat_map(|length| lists(&alphabet, length)).collect();
        for triple in all {
            let some = tried.iter().any(|list| is_reading(&world, list, triple));
            assert_eq!(decision.has(triple.node, triple.begin, triple.end), some, "{triple:?} of {:?}", world.job);
        }
    }
}
