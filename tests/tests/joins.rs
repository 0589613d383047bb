//! Joins of summaries, whether or not a trace has them.

use jemqolu_tests::plain::summary::{self, MOST_WORDS};
use jemqolu_tests::plain::{MAX_EXTENTS, MAX_READS};
use jemqolu_tests::random::Random;
use jemqolu_tests::room::{rooms, within};
use jemqolu_tests::tally::Tally;
use jemqolu_tests::{calls, made, refusal, spread};

/// Compares a join in buffers of all lengths of interest.
fn compare(tally: &mut Tally, a: &[u32], b: &[u32]) {
    let wanted = summary::join(a, b);
    for room in rooms(&wanted) {
        tally.same(calls::join(a, b, room), within(&wanted, room), &(a, b, room));
    }
}

#[test]
fn all_pairs_of_short_traces() {
    let mut tally = Tally::new("joins of all pairs of short traces");
    let summaries: Vec<Vec<u32>> = made::all_traces(4, &[0, 4096, u32::MAX]).iter().map(|t| summary::of(t)).collect();
    for a in &summaries {
        for b in &summaries {
            compare(&mut tally, a, b);
        }
    }
    tally.at_least(80_000);
}

#[test]
fn two_parts_of_a_trace() {
    let mut tally = Tally::new("joins of two parts of a trace");
    let mut random = Random::new(31);
    for _ in 0..600 {
        let most = random.of(&[3, 30, MAX_EXTENTS]);
        let trace = made::trace(&mut random, 600, most);
        let cut = random.below(trace.len() + 1);
        let (a, b) = (summary::of(&trace[..cut]), summary::of(&trace[cut..]));
        tally.same(calls::join(&a, &b, MOST_WORDS), Ok(summary::of(&trace)), &(&trace, cut));
        compare(&mut tally, &a, &b);
    }
    tally.at_least(4000);
}

/// All well-formed summaries of the extents 1 to v with so many reads that are not cold.
fn all_words(v: u32, warm: u32) -> Vec<Vec<u32>> {
    let orders: &[&[u32]] = match v {
        1 => &[&[1]],
        2 => &[&[1, 2], &[2, 1]],
        _ => &[&[1, 2, 3], &[1, 3, 2], &[2, 1, 3], &[2, 3, 1], &[3, 1, 2], &[3, 2, 1]],
    };
    let mut all = Vec::new();
    for firsts in orders {
        for recents in orders {
            for place in 0..v as usize {
                let mut counts = vec![0; v as usize];
                counts[place] = warm;
                all.push([&[v + warm, v], *firsts, *recents, &counts].concat());
            }
        }
    }
    all
}

#[test]
fn all_words_of_three_extents() {
    let mut tally = Tally::new("joins of all words of up to three extents");
    let all: Vec<Vec<u32>> =
        [(1, 0), (1, 2), (2, 1), (3, 2)].iter().flat_map(|(v, warm)| all_words(*v, *warm)).collect();
    for a in &all {
        for b in &all {
            tally.same(calls::join(a, b, 11), summary::join(a, b), &(a, b));
        }
    }
    tally.at_least(13_000);
}

#[test]
fn words_that_no_trace_has() {
    let mut tally = Tally::new("joins of words that no trace has");
    let mut random = Random::new(32);
    for _ in 0..700 {
        let most = random.of(&[3, 20, 200]);
        let pool = made::extents(&mut random, most);
        let part = |random: &mut Random| {
            let count = random.below(most + 1);
            let extents = random.shuffled(&pool)[..count].to_vec();
            let warm = random.below(1000);
            made::summary_over(random, &extents, warm)
        };
        let (a, b) = (part(&mut random), part(&mut random));
        compare(&mut tally, &a, &b);
    }
    tally.at_least(4000);
}

#[test]
fn many_numbers_of_extents() {
    let mut tally = Tally::new("joins of many numbers of extents");
    let mut random = Random::new(37);
    for count in spread::numbers_of_extents(16) {
        let pool = made::extents(&mut random, MAX_EXTENTS);
        let a = made::summary_over(&mut random, &pool[..count], count);
        let shared = random.below(count + 1);
        let b = made::summary_over(&mut random, &pool[count - shared..], count);
        tally.same(calls::join(&a, &b, MOST_WORDS), summary::join(&a, &b), &(&a, &b));
        tally.same(calls::join(&a, &a, MOST_WORDS), summary::join(&a, &a), &a);
    }
    tally.at_least(2 * MAX_EXTENTS as u64 / 16);
}

#[test]
fn at_the_limit_of_extents() {
    let mut tally = Tally::new("joins at the limit of extents and one more");
    let mut random = Random::new(33);
    let mut refused = 0;
    let (all, half, most) = (MAX_EXTENTS, MAX_EXTENTS / 2, MAX_EXTENTS - 56);
    let within = [(half, half, 0), (half, half + 1, 1), (most, most, all - 112), (all, 1, 1), (all, all, all)];
    let past = [(half, half + 1, 0), (most, most, all - 113), (all, 1, 0), (1, all, 0), (all, all, 0)];
    for (of_a, of_b, shared) in within.into_iter().chain([(all, 0, 0), (0, all, 0)]).chain(past) {
        for _ in 0..6 {
            let pool = made::extents(&mut random, of_a + of_b - shared);
            let a = made::summary_over(&mut random, &pool[..of_a], 50);
            let b = made::summary_over(&mut random, &pool[of_a - shared..], 70);
            refused += usize::from(summary::join(&a, &b) == Err(refusal::EXTENTS));
            compare(&mut tally, &a, &b);
        }
    }
    assert_eq!(refused, past.len() * 6, "the joins of more than {MAX_EXTENTS} extents");
    tally.at_least(400);
}

#[test]
fn at_the_limit_of_reads() {
    let mut tally = Tally::new("joins at 1,048,576 reads");
    let mut random = Random::new(34);
    let (most, few) = (MAX_READS as usize, MAX_EXTENTS + 44);
    for count in [1, 3, MAX_EXTENTS] {
        for (of_a, of_b) in [(most, 0), (0, most), (most / 2, most / 2), (most - count, count), (most, count)]
            .into_iter()
            .chain([(most, most), (most - few, few + 1), (most - few, few), (few, most - few + 1), (most - 1, 1)])
        {
            let extents = made::extents(&mut random, count);
            let part = |random: &mut Random, reads: usize| {
                let extents = if reads < count { &extents[..0] } else { &extents };
                made::summary_over(random, extents, reads.saturating_sub(count))
            };
            let (a, b) = (part(&mut random, of_a), part(&mut random, of_b));
            compare(&mut tally, &a, &b);
        }
    }
    tally.at_least(150);
}

#[test]
fn refusals_in_order() {
    let all = MAX_EXTENTS as u32;
    let full = |first: u32| -> Vec<u32> {
        let extents: Vec<u32> = (first..first + all).collect();
        let mut counts = vec![0; MAX_EXTENTS];
        counts[0] = MAX_READS as u32 - all;
        [&[MAX_READS as u32, all][..], &extents, &extents, &counts].concat()
    };
    let (a, b, bad) = (full(0), full(all), [0, 1]);
    assert_eq!(calls::join(&bad, &bad, 0), Err(refusal::SUMMARY));
    assert_eq!(calls::join(&bad, &b, 0), Err(refusal::SUMMARY));
    assert_eq!(calls::join(&a, &bad, 0), Err(refusal::SUMMARY));
    assert_eq!(calls::join(&a, &b, 0), Err(refusal::READS));
    let few = made::summary_over(&mut Random::new(35), &(all..2 * all).collect::<Vec<u32>>(), 0);
    let more = made::summary_over(&mut Random::new(36), &(0..all).collect::<Vec<u32>>(), 0);
    assert_eq!(calls::join(&few, &more, 0), Err(refusal::EXTENTS));
    assert_eq!(calls::join(&few, &few, MOST_WORDS - 1), Err(refusal::ROOM));
    assert_eq!(calls::join(&few, &few, MOST_WORDS), summary::join(&few, &few));
}
