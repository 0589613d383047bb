//! Summaries of whole traces in one call.

use jemqolu_tests::plain::summary::{self, MOST_WORDS};
use jemqolu_tests::plain::{trace, MAX_EXTENTS};
use jemqolu_tests::random::Random;
use jemqolu_tests::room::{rooms, within};
use jemqolu_tests::tally::Tally;
use jemqolu_tests::{calls, made, refusal, spread};

/// Compares the summary of a trace in buffers of all lengths of interest.
fn compare(tally: &mut Tally, trace: &[u32]) {
    let wanted = summary::summarize(trace);
    for room in rooms(&wanted) {
        tally.same(calls::summarize(trace, room), within(&wanted, room), &(trace, room));
    }
}

#[test]
fn all_short_traces() {
    let mut tally = Tally::new("summaries of all short traces");
    for extents in [[1, 2, 3], [0, 4096, u32::MAX], [1024, 2048, 0]] {
        for trace in made::all_traces(7, &extents) {
            compare(&mut tally, &trace);
        }
    }
    tally.at_least(55_000);
}

#[test]
fn random_traces() {
    let mut tally = Tally::new("summaries of random traces");
    let mut random = Random::new(21);
    for _ in 0..3000 {
        let trace = made::trace(&mut random, 300, 40);
        compare(&mut tally, &trace);
    }
    for _ in 0..250 {
        let trace = made::trace(&mut random, 4000, MAX_EXTENTS);
        compare(&mut tally, &trace);
    }
    tally.at_least(20_000);
}

#[test]
fn every_length_to_1100() {
    let mut tally = Tally::new("summaries of every length");
    let mut random = Random::new(24);
    let extents = made::extents(&mut random, 9);
    let trace = made::trace_over(&mut random, &extents, 1100);
    let distances = trace::distances(&trace);
    for len in 0..=trace.len() {
        let wanted = summary::with_distances(&trace[..len], &distances[..len]);
        tally.same(calls::summarize(&trace[..len], wanted.len()), Ok(wanted), &(&trace, len));
    }
    tally.at_least(1101);
}

#[test]
fn many_numbers_of_extents() {
    let mut tally = Tally::new("summaries of many numbers of extents");
    let mut random = Random::new(25);
    for count in spread::numbers_of_extents(4) {
        let extents = made::extents(&mut random, count);
        let backwards: Vec<u32> = extents.iter().rev().copied().collect();
        compare(&mut tally, &[extents.clone(), backwards].concat());
        compare(&mut tally, &[extents.clone(), extents].concat());
    }
    tally.at_least(3 * MAX_EXTENTS as u64);
}

#[test]
fn extents_that_a_table_puts_together() {
    let mut tally = Tally::new("summaries, distances and joins of extents that a table puts together");
    let mut random = Random::new(26);
    let extents = made::together(MAX_EXTENTS + 1);
    for count in [MAX_EXTENTS - 1, MAX_EXTENTS, MAX_EXTENTS + 1] {
        for _ in 0..4 {
            let reads =
                [random.shuffled(&extents[..count]), made::trace_over(&mut random, &extents[..count], 700)].concat();
            compare(&mut tally, &reads);
            let (front, part) = reads.split_at(random.below(MAX_EXTENTS));
            let [a, b] = [front, &part[..700]].map(summary::of);
            tally.same(calls::join(&a, &b, MOST_WORDS), summary::join(&a, &b), &(&a, &b));
            let wanted = summary::distances_after(&a, part);
            tally.same(calls::distances(&a, part, part.len()), wanted, &(&a, part));
        }
    }
    tally.at_least(3 * 4 * 3);
}

#[test]
fn at_the_limit_of_extents() {
    let mut tally = Tally::new("summaries at the limit of extents and past it");
    let mut random = Random::new(22);
    let mut refused = 0;
    let past = [1, 2, 44, 3 * MAX_EXTENTS].map(|more| MAX_EXTENTS + more);
    for count in [MAX_EXTENTS - 1, MAX_EXTENTS].into_iter().chain(past) {
        for _ in 0..10 {
            let extents = made::extents(&mut random, count);
            let more = made::trace_over(&mut random, &extents, 500);
            for trace in [extents.clone(), [extents.clone(), more.clone()].concat(), [more, extents].concat()] {
                refused += usize::from(summary::summarize(&trace) == Err(refusal::EXTENTS));
                compare(&mut tally, &trace);
            }
        }
    }
    assert_eq!(refused, past.len() * 10 * 3, "the traces of more than {MAX_EXTENTS} extents");
    tally.at_least(700);
}

#[test]
fn a_summary_is_well_formed_and_has_the_extents_of_its_trace() {
    let mut tally = Tally::new("parts of summaries");
    let mut random = Random::new(23);
    for _ in 0..300 {
        let trace = made::trace(&mut random, 400, 60);
        let words = calls::summarize(&trace, MOST_WORDS).expect("a trace within the limits");
        let parts = summary::well_formed(&words).expect("a well-formed summary");
        tally.same(parts.firsts, &trace::firsts(&trace), &trace);
        tally.same(parts.recents, &trace::recents(&trace), &trace);
        tally.same(parts.reads, trace.len() as u64, &trace);
    }
    tally.at_least(900);
}
