//! One more read put into a log: what it does to the misses of a cache.

use jemqolu_tests::plain::one_more::{self, put_in};
use jemqolu_tests::plain::summary::MOST_WORDS;
use jemqolu_tests::plain::{trace, MAX_EXTENTS, MAX_READS};
use jemqolu_tests::random::Random;
use jemqolu_tests::tally::Tally;
use jemqolu_tests::{calls, made, refusal, spread, Answer};
use std::collections::BTreeSet;

/// Compares one more read with caches that read both logs.
#[track_caller]
fn compare(tally: &mut Tally, log: &[u32], put: (usize, u32), size: u32) -> Answer<i64> {
    let got = calls::one_more(log, put.0, put.1, size);
    tally.same(got, one_more::one_more(log, put.0, put.1, size), &(log, put, size));
    if let Ok(change) = got {
        assert!((-1..=i64::from(size) + 1).contains(&change), "a change of {change} at size {size}");
    }
    got
}

/// A place in a log, often its front or its end, and an extent, of three two that the log has.
fn put(random: &mut Random, log: &[u32]) -> (usize, u32) {
    let any = random.below(log.len() + 1);
    let place = random.of(&[0, log.len(), any, any, any, any]);
    let known = if log.is_empty() { 5 } else { random.of(log) };
    let other = random.of(&[known ^ 4096, known.wrapping_add(1), u32::MAX - known, u32::MAX]);
    (place, random.of(&[known, known, other]))
}

/// Fails where the changes met do not reach from -1 to above 9.
#[track_caller]
fn assert_far_apart(met: &BTreeSet<i64>) {
    assert!(met.contains(&-1) && met.last() > Some(&9), "changes of {met:?}");
}

/// Whether a read put in stands directly before or after a read of the same extent.
fn is_beside_itself(log: &[u32], (place, extent): (usize, u32)) -> bool {
    log[..place].last() == Some(&extent) || log.get(place) == Some(&extent)
}

#[test]
fn the_worked_examples() {
    let one_more = |log: &[u32], place: usize, extent: u32, size: u32| {
        let got = calls::one_more(log, place, extent, size);
        assert_eq!(got, one_more::one_more(log, place, extent, size));
        got
    };
    assert_eq!(one_more(&[4, 4], 1, 5, 1), Ok(2));
    assert_eq!(one_more(&[1, 2, 3, 1], 2, 1, 2), Ok(-1));
    assert_eq!(one_more(&[1, 2, 1, 2], 2, 3, 2), Ok(3));
    assert_eq!(one_more(&[], 0, 5, 3), Ok(1));
    for (place, size) in (0..=2).flat_map(|place| [1, 2, 3, 1024, u32::MAX].map(|size| (place, size))) {
        assert_eq!(one_more(&[4, 4], place, 4, size), Ok(0));
    }
    for (place, extent) in (0..=7).flat_map(|place| [7, 3, 9, 5].map(|extent| (place, extent))) {
        assert_eq!(one_more(&[7, 3, 7, 9, 3, 3, 9], place, extent, 0), Ok(1));
    }
}

#[test]
fn all_short_logs() {
    let mut tally = Tally::new("one more read in all short logs");
    let (extents, sizes) = ([0, 4096, u32::MAX, 7], [0, 1, 2, 3, 4, 5, u32::MAX]);
    let mut ends = sizes.map(|_| (i64::MAX, i64::MIN));
    for log in made::all_traces(6, &extents[..3]) {
        for put in (0..=log.len()).flat_map(|place| extents.map(|extent| (place, extent))) {
            for (size, (least, most)) in sizes.into_iter().zip(&mut ends) {
                let change = compare(&mut tally, &log, put, size).expect("a log within the limits");
                (*least, *most) = (change.min(*least), change.max(*most));
                if size > 0 && is_beside_itself(&log, put) {
                    tally.same(change, 0, &(&log, put, size));
                }
            }
        }
    }
    // three extents and a fourth: a read is saved at size 2 alone, and from size 4 up nothing leaves
    assert_eq!(ends, [(1, 1), (0, 2), (-1, 3), (0, 4), (0, 1), (0, 1), (0, 1)]);
    tally.at_least(7108 * 4 * 7 + 10_389 * 6);
}

#[test]
fn both_ends_of_the_range_at_every_size() {
    let mut tally = Tally::new("one more read, at each size the most misses more and one less");
    for size in 1..MAX_EXTENTS as u32 {
        // all that the cache holds is read again, and leaves where another comes in between
        let twice = (1..=size).collect::<Vec<u32>>().repeat(2);
        let most = Ok(i64::from(size) + 1);
        tally.same(calls::one_more(&twice, size as usize, size + 1, size), most, &size);
        tally.same(calls::one_more(&twice, size as usize, size + 1, size + 1), Ok(1), &size);
        // the first extent has just left where it is read again, but not where it was read in between; at size 1 these
        // two reads stand side by side
        let round: Vec<u32> = (1..=size + 1).chain([1]).collect();
        let fewest = if size == 1 { Ok(0) } else { Ok(-1) };
        tally.same(calls::one_more(&round, 2, 1, size), fewest, &size);
        tally.same(calls::one_more(&round, 2, 1, size + 1), Ok(0), &size);
    }
    tally.at_least(1023 * 4);
}

#[test]
fn every_place_of_a_log() {
    let mut tally = Tally::new("one more read at every place of a log");
    let mut random = Random::new(201);
    for round in 0..20 {
        let extents = made::extents(&mut random, [3, 12, 60, 200][round % 4]);
        let log = made::trace_over(&mut random, &extents, 10 * round + 1);
        let some = [extents[0], random.of(&log), made::another(&log)];
        for put in (0..=log.len()).flat_map(|place| some.map(|extent| (place, extent))) {
            let size = random.of(&spread::sizes(trace::different(&log) as u32));
            _ = compare(&mut tally, &log, put, size);
        }
    }
    tally.at_least(20 * 3 * 97);
}

#[test]
fn random_logs() {
    let mut tally = Tally::new("one more read in random logs");
    let mut random = Random::new(202);
    // where the log has the extent: nowhere, before the place, after it, on both sides
    let (mut sides, mut met) = ([0; 4], BTreeSet::new());
    for round in 0..3000 {
        let log = made::trace(&mut random, 300, [4, 30, MAX_EXTENTS][round % 3]);
        let put = put(&mut random, &log);
        let (front, back) = log.split_at(put.0);
        sides[usize::from(front.contains(&put.1)) + 2 * usize::from(back.contains(&put.1))] += 1;
        for size in spread::sizes(trace::different(&log) as u32) {
            met.extend(compare(&mut tally, &log, put, size));
        }
    }
    assert!(sides.iter().all(|count| *count >= 300), "{sides:?}");
    assert_far_apart(&met);
    tally.at_least(3000 * 10);
}

#[test]
fn an_extent_beside_itself() {
    let mut tally = Tally::new("one more read beside one of the same extent");
    let mut random = Random::new(203);
    for round in 0..600 {
        let extents = made::extents(&mut random, [3, 30, MAX_EXTENTS][round % 3]);
        let log = made::trace_over(&mut random, &extents, 1 + round * 4);
        let read = random.below(log.len());
        let size = random.of(&spread::sizes(trace::different(&log) as u32)).max(1);
        for place in [read, read + 1] {
            tally.same(calls::one_more(&log, place, log[read], size), Ok(0), &(&log, read, place, size));
        }
    }
    tally.at_least(1200);
}

/// Extents of a large log: some that a table does not spread, and others in any of the ways.
fn many_extents(random: &mut Random, round: usize, count: usize) -> Vec<u32> {
    if round % 4 == 3 {
        made::together(count)
    } else {
        made::extents(random, count)
    }
}

#[test]
fn large_logs() {
    let mut tally = Tally::new("one more read in large logs");
    let mut random = Random::new(204);
    let (mut refused, mut met) = (0, BTreeSet::new());
    for round in 0..50 {
        let v = [40, 300, MAX_EXTENTS - 1, MAX_EXTENTS, MAX_EXTENTS][round % 5];
        let (extents, reads) = (many_extents(&mut random, round, v), 2 * v + random.below(40_000));
        let log = made::trace_of_all(&mut random, &extents, v, reads);
        let any = [random.below(20), random.below(v)].map(|size| size as u32);
        let all = v as u32;
        for size in [0, 1, all - 1, all, all + 1, 1023, 1024, u32::MAX].into_iter().chain(any) {
            let put = put(&mut random, &log);
            let answer = compare(&mut tally, &log, put, size);
            refused += u32::from(answer == Err(refusal::EXTENTS));
            met.extend(answer);
        }
    }
    assert!((20..100).contains(&refused), "{refused} refused");
    assert_far_apart(&met);
    tally.at_least(50 * 10);
}

#[test]
fn the_summaries_of_both_logs() {
    let mut tally = Tally::new("one more read in long logs, and summaries of both");
    let mut random = Random::new(205);
    let (most, mut met) = (MAX_READS as usize - 1, BTreeSet::new());
    let summarize = |log: &[u32]| calls::summarize(log, MOST_WORDS).expect("a log within the limits");
    let misses = |words: &[u32], size: u32| calls::misses(words, size).expect("a summary") as i64;
    for (round, reads) in [60_000, 60_000, 60_000, 60_000, 300_000, 300_000, most, most].into_iter().enumerate() {
        let v = [MAX_EXTENTS - 1, 200][round % 2];
        let extents = many_extents(&mut random, round, v);
        let log = made::trace_of_all(&mut random, &extents, v, reads);
        let without = summarize(&log);
        for _ in 0..3 {
            let (place, extent) = put(&mut random, &log);
            let with = summarize(&put_in(&log, place, extent));
            for size in [random.below(v) as u32, random.of(&[1, v as u32 - 1, v as u32, u32::MAX])] {
                let wanted = misses(&with, size) - misses(&without, size);
                tally.same(calls::one_more(&log, place, extent, size), Ok(wanted), &(reads, place, extent, size));
                met.insert(wanted);
            }
        }
    }
    assert_far_apart(&met);
    tally.at_least(8 * 6);
}
