//! Misses and hit shares of summaries.

use jemqolu_tests::plain::{cache, hit_share, summary, MAX_EXTENTS, MAX_READS};
use jemqolu_tests::random::Random;
use jemqolu_tests::tally::Tally;
use jemqolu_tests::{calls, made, spread, Answer};

/// Sizes to try for a summary.
fn sizes(words: &[u32]) -> Vec<u32> {
    spread::sizes(words.get(1).copied().unwrap_or(0))
}

/// A share as its bits, so that two that compare equal are the same number.
fn bits(share: Answer<Option<f64>>) -> Answer<Option<u64>> {
    share.map(|share| share.map(f64::to_bits))
}

/// Compares the misses and the share of a summary at all sizes of interest.
fn compare(tally: &mut Tally, words: &[u32]) {
    for size in sizes(words) {
        tally.same(calls::misses(words, size), summary::misses(words, size), &(words, size));
        tally.same(bits(calls::share(words, size)), bits(summary::share(words, size)), &(words, size));
    }
}

#[test]
fn the_caches_that_read_a_trace() {
    let mut tally = Tally::new("misses and shares, and caches");
    let mut random = Random::new(51);
    let mut traces = made::all_traces(6, &[0, 4096, u32::MAX]);
    traces.extend((0..120).map(|_| made::trace(&mut random, 300, 30)));
    traces.extend((0..120).map(|_| made::trace(&mut random, 1200, MAX_EXTENTS)));
    for trace in traces {
        let words = summary::of(&trace);
        for size in sizes(&words) {
            let misses = cache::misses(&trace, size);
            let share = hit_share(trace.len() as u64 - misses, cache::servable(&trace));
            tally.same(calls::misses(&words, size), Ok(misses), &(&trace, size));
            tally.same(bits(calls::share(&words, size)), bits(Ok(share)), &(&trace, size));
        }
    }
    tally.at_least(37_000);
}

#[test]
fn words_that_no_trace_has() {
    let mut tally = Tally::new("misses and shares of words that no trace has");
    let mut random = Random::new(52);
    for round in 0..1500 {
        let most = if round % 3 == 0 { MAX_EXTENTS } else { 12 };
        let words = made::summary(&mut random, most);
        compare(&mut tally, &words);
    }
    tally.at_least(30_000);
}

#[test]
fn many_hits_by_many_reads() {
    let mut tally = Tally::new("shares of many reads");
    let mut random = Random::new(53);
    for _ in 0..3000 {
        let warm = random.below(MAX_READS as usize);
        let words = made::summary_over(&mut random, &[8, 0], warm.min(MAX_READS as usize - 2));
        compare(&mut tally, &words);
    }
    for warm in [MAX_READS as usize - 1, MAX_READS as usize - 2] {
        compare(&mut tally, &[warm as u32 + 1, 1, 8, 8, warm as u32]);
    }
    tally.at_least(60_000);
}

#[test]
fn shares_are_between_0_and_1_and_reach_1() {
    let mut tally = Tally::new("shares of 1, and below");
    let mut random = Random::new(54);
    for round in 0..2000 {
        let most = [3, 12, MAX_EXTENTS][round % 3];
        let words = made::summary(&mut random, most);
        let (v, counts) = (words[1], &words[2 + 2 * words[1] as usize..]);
        for size in sizes(&words) {
            let share = calls::share(&words, size).expect("well-formed words");
            tally.same(share.is_some(), words[0] > v, &(&words, size));
            let Some(share) = share else { continue };
            let all = size >= v || counts[size as usize..].iter().all(|count| *count == 0);
            tally.same((0.0..=1.0).contains(&share), true, &(&words, size));
            tally.same(share == 1.0, all, &(&words, size));
        }
    }
    // twelve sizes or more, and three comparisons where there are reads that are not cold
    tally.at_least(2000 * 12 * 3);
}

#[test]
fn no_reads() {
    let mut tally = Tally::new("misses and shares of no reads, and of cold reads alone");
    let mut random = Random::new(55);
    for count in [0, 1, 2, 5, MAX_EXTENTS - 1, MAX_EXTENTS] {
        let words = summary::of(&made::extents(&mut random, count));
        for size in sizes(&words) {
            tally.same(calls::misses(&words, size), Ok(count as u64), &(count, size));
            tally.same(calls::share(&words, size), Ok(None), &(count, size));
        }
    }
    tally.at_least(150);
}
