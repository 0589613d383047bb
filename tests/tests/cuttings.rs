//! Whole runs: a trace cut into parts, each part summarized, the summaries joined in any grouping, and the distances of
//! each part after its prefix. Nothing of the cutting or the grouping shows.

use jemqolu_tests::parts::{compare, cut, grouped, part, read_calls, Part};
use jemqolu_tests::plain::summary::{self, MOST_WORDS};
use jemqolu_tests::plain::{cache, session, trace, MAX_EXTENTS};
use jemqolu_tests::random::Random;
use jemqolu_tests::tally::Tally;
use jemqolu_tests::{calls, made, refusal};

#[test]
fn all_cuttings_of_short_traces() {
    let mut tally = Tally::new("all cuttings of short traces into three parts");
    let mut random = Random::new(71);
    let all = made::all_traces(5, &[0, 1024, u32::MAX]);
    // all of up to four reads, which are 121, and one in three of five
    for reads in all[..121].iter().chain(all[121..].iter().step_by(3)) {
        for one in 0..=reads.len() {
            for other in one..=reads.len() {
                let ends = [0, one, other, reads.len()];
                let parts: Vec<Part> =
                    ends.windows(2).map(|ends| part(&mut random, &reads[ends[0]..ends[1]])).collect();
                compare(&mut tally, &mut random, &parts);
            }
        }
    }
    tally.at_least(20_000);
}

#[test]
fn cuttings_of_random_traces() {
    let mut tally = Tally::new("cuttings of random traces");
    let mut random = Random::new(72);
    for round in 0..60 {
        let most = [2, 20, MAX_EXTENTS][round % 3];
        let reads = made::trace(&mut random, 700, most);
        let count = 1 + random.below(12);
        let parts = cut(&mut random, &reads, count);
        compare(&mut tally, &mut random, &parts);
    }
    tally.at_least(60 * 8);
}

#[test]
fn parts_with_refused_reads() {
    let mut tally = Tally::new("parts with refused reads");
    let mut random = Random::new(73);
    for _ in 0..8 {
        let pool = made::extents(&mut random, MAX_EXTENTS + 34);
        let list = [random.shuffled(&pool), made::trace_over(&mut random, &pool, 300)].concat();
        let (full, _) = read_calls(&list);
        tally.same(trace::firsts(&full.reads).len(), MAX_EXTENTS, &list);
        assert!(full.reads.len() < list.len(), "some reads are refused");
        let known = trace::firsts(&full.reads);
        let before = made::trace_over(&mut random, &known, 150);
        let after = made::trace_over(&mut random, &known, 150);
        let mut parts = cut(&mut random, &before, 3);
        parts.push(full);
        parts.extend(cut(&mut random, &after, 2));
        compare(&mut tally, &mut random, &parts);
    }
    tally.at_least(8 * 9);
}

/// Compares each answer of a list of read calls with the plain session's, and the session after them with one that was
/// never offered the refused ones; the calls accepted.
fn compare_calls(tally: &mut Tally, list: &[u32]) -> Vec<u32> {
    let mut words = calls::session_new(session::WORDS).expect("a new session");
    let mut wanted = session::new();
    let mut accepted = Vec::new();
    for extent in list {
        let answer = session::read(&mut wanted, *extent);
        tally.same(calls::session_read(&mut words, *extent), answer, extent);
        if answer.is_ok() {
            accepted.push(*extent);
        }
    }
    let mut spared = calls::session_new(session::WORDS).expect("a new session");
    for extent in &accepted {
        calls::session_read(&mut spared, *extent).expect("a call that is accepted");
    }
    tally.same(&words, &spared, &list);
    accepted
}

#[test]
fn two_parts_with_refused_reads() {
    let mut tally = Tally::new("two parts, both with refused reads");
    let mut random = Random::new(76);
    let pool = made::extents(&mut random, 5 * MAX_EXTENTS / 4);
    let uniform = |random: &mut Random| (0..3 * MAX_EXTENTS).map(|_| random.of(&pool)).collect::<Vec<u32>>();
    let one = compare_calls(&mut tally, &uniform(&mut random));
    let again = [random.shuffled(&trace::firsts(&one)), uniform(&mut random)].concat();
    let other = compare_calls(&mut tally, &again);
    assert!(one.len() < 3 * MAX_EXTENTS && other.len() < again.len(), "reads of both parts are refused");
    let parts = [read_calls(&one).0, read_calls(&again).0];
    tally.same(&parts[1].reads, &other, &again);
    compare(&mut tally, &mut random, &parts);
    tally.at_least(7 * MAX_EXTENTS as u64);
}

#[test]
fn halves_about_the_limit_of_extents() {
    let mut tally = Tally::new("traces of about as many extents as the limit in two halves");
    let mut random = Random::new(77);
    let (fewest, half, mut refused) = (MAX_EXTENTS + MAX_EXTENTS / 6, 3 * MAX_EXTENTS / 4, 0);
    for _ in 0..300 {
        let count = fewest + random.below(fewest);
        let pool = made::extents(&mut random, count);
        let reads: Vec<u32> = (0..2 * half).map(|_| random.of(&pool)).collect();
        let (one, other) = reads.split_at(half);
        let [a, b] = [one, other].map(|half| calls::summarize(half, MOST_WORDS).expect("a half within the limits"));
        let wanted = summary::summarize(&reads);
        refused += u32::from(wanted == Err(refusal::EXTENTS));
        tally.same(calls::summarize(&reads, MOST_WORDS), wanted.clone(), &reads);
        tally.same(calls::join(&a, &b, MOST_WORDS), wanted, &reads);
        tally.same(calls::distances(&a, other, half), summary::distances_after(&a, other), &reads);
    }
    assert!((80..=220).contains(&refused), "{refused} traces of more than {MAX_EXTENTS} extents");
    tally.at_least(900);
}

#[test]
fn a_read_is_a_hit_where_its_distance_is_within_the_size() {
    let mut tally = Tally::new("uncut readings and caches of all sizes");
    let mut random = Random::new(74);
    for _ in 0..120 {
        let reads = made::trace(&mut random, 200, 25);
        let (_, answers) = read_calls(&reads);
        for size in
            (0..=trace::firsts(&reads).len() as u32 + 1).chain([MAX_EXTENTS as u32, MAX_EXTENTS as u32 + 1, u32::MAX])
        {
            let hits: Vec<bool> = answers.iter().map(|word| trace::is_hit(*word, size)).collect();
            tally.same(hits, cache::hits(&reads, size), &(&reads, size));
        }
    }
    tally.at_least(1200);
}

#[test]
fn many_groupings_of_eight_parts() {
    let mut tally = Tally::new("groupings of eight parts");
    let mut random = Random::new(75);
    for _ in 0..60 {
        let reads = made::trace(&mut random, 120, 12);
        let parts = cut(&mut random, &reads, 8);
        let whole = summary::of(&reads);
        for _ in 0..30 {
            tally.same(grouped(&mut random, &parts), whole.clone(), &reads);
        }
    }
    tally.at_least(1800);
}
