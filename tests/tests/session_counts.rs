//! Misses and hit shares of sessions.

use jemqolu_tests::plain::session::{self, COUNT, FIRSTS, SLOT, WORDS};
use jemqolu_tests::plain::summary::MOST_WORDS;
use jemqolu_tests::plain::{cache, hit_share, MAX_EXTENTS, MAX_READS};
use jemqolu_tests::random::Random;
use jemqolu_tests::tally::Tally;
use jemqolu_tests::{calls, made, refusal, Answer};

/// The largest distance.
const LAST: u32 = MAX_EXTENTS as u32;

/// Sizes to try for a session of so many extents.
fn sizes(extents: u32) -> [u32; 9] {
    [0, 1, 2, extents / 2, extents, extents.wrapping_add(1), LAST, LAST + 1, u32::MAX]
}

/// A share as its bits, so that two that compare equal are the same number.
fn bits(share: Answer<Option<f64>>) -> Answer<Option<u64>> {
    share.map(|share| share.map(f64::to_bits))
}

/// Compares the misses and the share of a session at all sizes of interest, and with those of its summary.
fn compare(tally: &mut Tally, words: &[u32]) {
    let summary = calls::session_summary(words, MOST_WORDS);
    for size in sizes(words.get(COUNT).copied().unwrap_or(0)) {
        let (misses, share) = (session::misses(words, size), session::share(words, size));
        if let Ok(summary) = &summary {
            tally.same(calls::misses(summary, size), misses, &(summary, size));
            tally.same(bits(calls::share(summary, size)), bits(share), &(summary, size));
        }
        tally.same(calls::session_misses(words, size), misses, &size);
        tally.same(bits(calls::session_share(words, size)), bits(share), &size);
    }
}

#[test]
fn the_caches_that_read_a_trace() {
    let mut tally = Tally::new("misses and shares of sessions, and caches");
    let mut random = Random::new(161);
    let mut traces = made::all_traces(5, &[0, 4096, u32::MAX]);
    traces.extend((0..20).map(|_| made::trace(&mut random, 900, 40)));
    traces.extend((0..30).map(|_| made::trace(&mut random, 1200, MAX_EXTENTS)));
    traces.push((0..6 * LAST).map(|read| read * 7 % LAST).collect());
    for trace in traces {
        let mut words = calls::session_new(WORDS).expect("a new session");
        for extent in &trace {
            calls::session_read(&mut words, *extent).expect("a read within the limits");
        }
        for size in sizes(words[COUNT]) {
            let misses = cache::misses(&trace, size);
            let share = hit_share(trace.len() as u64 - misses, cache::servable(&trace));
            tally.same(calls::session_misses(&words, size), Ok(misses), &(&trace, size));
            tally.same(bits(calls::session_share(&words, size)), bits(Ok(share)), &(&trace, size));
        }
    }
    // the short traces, those above and one more, at nine sizes
    tally.at_least((364 + 20 + 30 + 1) * 9 * 2);
}

#[test]
fn sessions_that_no_trace_has() {
    let mut tally = Tally::new("misses and shares of sessions that no trace has");
    let mut random = Random::new(162);
    for _ in 0..700 {
        compare(&mut tally, &made::session(&mut random));
    }
    for count in [1, 2, MAX_EXTENTS - 1, MAX_EXTENTS] {
        let extents = made::extents(&mut random, count);
        compare(&mut tally, &made::session_over(&mut random, &extents, MAX_READS as usize - count, MAX_EXTENTS + 144));
    }
    tally.at_least(704 * 9 * 4);
}

#[test]
fn words_past_and_short_of_a_session() {
    let mut tally = Tally::new("misses and shares of sessions of other lengths");
    let mut random = Random::new(163);
    for _ in 0..30 {
        let words = made::session(&mut random);
        for len in [0, 1, 2, FIRSTS.end, SLOT.end, WORDS - 2, WORDS - 1] {
            tally.same(calls::session_misses(&words[..len], 1), Err(refusal::STATE), &len);
            tally.same(calls::session_share(&words[..len], 1), Err(refusal::STATE), &len);
            compare(&mut tally, &words[..len]);
        }
        for past in [&[0][..], &[u32::MAX; 3], &[5; 100]] {
            compare(&mut tally, &[&words, past].concat());
        }
    }
    tally.at_least(5000);
}

#[test]
fn sessions_that_are_not_sound() {
    let mut tally = Tally::new("misses and shares of sessions that are not sound");
    let mut random = Random::new(164);
    let mut refused = 0;
    for _ in 0..900 {
        let mut words = made::session(&mut random);
        let any = random.below(WORDS);
        let place = random.of(&[0, FIRSTS.start, any, any, COUNT, WORDS - 1]);
        words[place] = words[place].wrapping_add(random.of(&[1, 2, u32::MAX, 1 << 31]));
        refused += u32::from(session::misses(&words, 1) == Err(refusal::STATE));
        compare(&mut tally, &words);
    }
    assert!(refused > 600, "{refused} refused");
    tally.at_least(900 * 9 * 2);
}
