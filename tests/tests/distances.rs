//! The distances of a part after a prefix.

use jemqolu_tests::parts::read_calls;
use jemqolu_tests::plain::summary::{self, MOST_WORDS};
use jemqolu_tests::plain::trace::{self, Stack};
use jemqolu_tests::plain::{cache, COLD_BASE, MAX_EXTENTS, MAX_READS};
use jemqolu_tests::random::Random;
use jemqolu_tests::room::{rooms, within};
use jemqolu_tests::tally::Tally;
use jemqolu_tests::{calls, made, refusal};

/// Compares the distances of a part in buffers of all lengths of interest.
fn compare(tally: &mut Tally, prefix: &[u32], reads: &[u32]) {
    let wanted = summary::distances_after(prefix, reads);
    for room in rooms(&wanted) {
        tally.same(calls::distances(prefix, reads, room), within(&wanted, room), &(prefix, reads, room));
    }
}

#[test]
fn all_cuts_of_all_short_traces() {
    let mut tally = Tally::new("distances at all cuts of all short traces");
    for trace in made::all_traces(7, &[0, 4096, u32::MAX]) {
        let whole = trace::distances(&trace);
        for cut in 0..=trace.len() {
            let (front, part) = trace.split_at(cut);
            let got = calls::distances(&summary::of(front), part, part.len());
            tally.same(got, Ok(whole[cut..].to_vec()), &(&trace, cut));
        }
    }
    tally.at_least(20_000);
}

#[test]
fn parts_of_random_traces() {
    let mut tally = Tally::new("distances of parts of random traces");
    let mut random = Random::new(41);
    for _ in 0..700 {
        let most = random.of(&[3, 30, MAX_EXTENTS]);
        let trace = made::trace(&mut random, 800, most);
        let cut = random.below(trace.len() + 1);
        let (front, part) = trace.split_at(cut);
        tally.same(
            calls::distances(&summary::of(front), part, part.len()),
            Ok(trace::distances(&trace)[cut..].to_vec()),
            &(&trace, cut),
        );
        compare(&mut tally, &summary::of(front), part);
    }
    tally.at_least(4000);
}

#[test]
fn prefixes_that_no_trace_has() {
    let mut tally = Tally::new("distances after prefixes that no trace has");
    let mut random = Random::new(42);
    for _ in 0..500 {
        let pool = made::extents(&mut random, 120);
        let (count, reads) = (random.below(100), random.below(500));
        let prefix = made::summary_over(&mut random, &pool[..count], 40);
        let from = random.below(20);
        let part = made::trace_over(&mut random, &pool[from..], reads);
        compare(&mut tally, &prefix, &part);
    }
    tally.at_least(2500);
}

#[test]
fn a_distance_is_the_smallest_cache_that_hits() {
    let mut tally = Tally::new("distances of the library and caches of all sizes");
    let mut random = Random::new(43);
    let mut traces = made::all_traces(5, &[7, 1024, 1_048_576]);
    traces.extend((0..200).map(|_| made::trace(&mut random, 250, 30)));
    for trace in traces {
        let words = calls::distances(&[0, 0], &trace, trace.len()).expect("a trace within the limits");
        for size in 0..=trace::firsts(&trace).len() as u32 + 1 {
            let hits: Vec<bool> = words.iter().map(|word| trace::is_hit(*word, size)).collect();
            tally.same(hits, cache::hits(&trace, size), &(&trace, size));
        }
    }
    tally.at_least(3500);
}

#[test]
fn scans_of_all_extents_have_the_largest_distance() {
    let mut tally = Tally::new("scans of all extents, by one call, after a prefix and by a session");
    let mut random = Random::new(48);
    let extents = made::extents(&mut random, MAX_EXTENTS);
    let cold: Vec<u32> = (1..=MAX_EXTENTS as u32).map(|number| COLD_BASE + number).collect();
    let wanted = [cold, vec![MAX_EXTENTS as u32; 2 * MAX_EXTENTS]].concat();
    let scans = extents.repeat(3);
    tally.same(calls::distances(&[0, 0], &scans, scans.len()), Ok(wanted.clone()), &scans);
    for cut in [1, MAX_EXTENTS - 1, MAX_EXTENTS, MAX_EXTENTS + 1] {
        let (front, part) = scans.split_at(cut);
        let prefix = calls::summarize(front, MOST_WORDS).expect("a trace within the limits");
        tally.same(calls::distances(&prefix, part, part.len()), Ok(wanted[cut..].to_vec()), &cut);
    }
    tally.same(read_calls(&scans).1, wanted, &scans);
    tally.at_least(6);
}

#[test]
fn at_the_limit_of_extents() {
    let mut tally = Tally::new("distances at the limit of extents and one more");
    let mut random = Random::new(44);
    let mut refused = 0;
    let (all, half) = (MAX_EXTENTS, MAX_EXTENTS / 2);
    let within = [(0, all, 0), (all, all, all), (all, 1, 1), (half, half, 0), (half, half + 1, 1), (all - 1, 2, 1)];
    let past = [(0, all + 1, 0), (all, 1, 0), (half, half + 1, 0), (all - 1, 2, 0), (all - 56, all + 44, 100)];
    for (of_prefix, of_part, shared) in within.into_iter().chain(past) {
        for _ in 0..6 {
            let pool = made::extents(&mut random, of_prefix + of_part - shared);
            let prefix = made::summary_over(&mut random, &pool[..of_prefix], 9);
            let new = &pool[of_prefix - shared..];
            let more = made::trace_over(&mut random, new, 300);
            for part in [[new, &more].concat(), [&more, new].concat()] {
                refused += usize::from(summary::distances_after(&prefix, &part) == Err(refusal::EXTENTS));
                compare(&mut tally, &prefix, &part);
            }
        }
    }
    assert_eq!(refused, past.len() * 6 * 2, "the parts with more than {MAX_EXTENTS} extents");
    tally.at_least(800);
}

#[test]
fn at_the_limit_of_reads() {
    let mut tally = Tally::new("distances at 1,048,576 reads");
    let mut random = Random::new(45);
    for (left, reads) in [(0, 0), (0, 1), (1, 1), (1, 2), (500, 499), (500, 500), (500, 501), (500, 900)] {
        for count in [1, 7, MAX_EXTENTS] {
            let extents = made::extents(&mut random, count);
            let prefix = made::summary_over(&mut random, &extents, MAX_READS as usize - left - count);
            let part = made::trace_over(&mut random, &extents, reads);
            compare(&mut tally, &prefix, &part);
        }
    }
    tally.at_least(90);
}

#[test]
fn refusals_in_order() {
    let another = MAX_EXTENTS as u32;
    let extents: Vec<u32> = (0..another).collect();
    let warm = MAX_READS as usize - MAX_EXTENTS;
    let full = made::summary_over(&mut Random::new(46), &extents, warm);
    let room_for_one = made::summary_over(&mut Random::new(47), &extents, warm - 1);
    assert_eq!(calls::distances(&[1, 0], &[another, another], 0), Err(refusal::SUMMARY));
    assert_eq!(calls::distances(&full, &[another], 0), Err(refusal::READS));
    assert_eq!(calls::distances(&room_for_one, &[another, another], 0), Err(refusal::READS));
    assert_eq!(calls::distances(&room_for_one, &[another], 0), Err(refusal::EXTENTS));
    assert_eq!(calls::distances(&room_for_one, &[9], 0), Err(refusal::ROOM));
    let recents = summary::well_formed(&room_for_one).expect("a well-formed summary").recents;
    let mut stack = Stack(recents.to_vec());
    assert_eq!(calls::distances(&room_for_one, &[9], 1), Ok(vec![stack.read(9)]));
    assert_eq!(calls::distances(&full, &[], 0), Ok(vec![]));
}
