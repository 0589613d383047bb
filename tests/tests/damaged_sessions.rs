//! Words that may or may not be a session, given to all calls that take one.

use jemqolu_tests::calls;
use jemqolu_tests::damage::{self, Seen};
use jemqolu_tests::plain::session::{self, COUNT, FIRSTS, POINTS, WORDS};
use jemqolu_tests::plain::summary::MOST_WORDS;
use jemqolu_tests::random::Random;
use jemqolu_tests::tally::Tally;

/// Sizes to try in turn: none, 1, the number of extents, one more, and the largest.
fn size(words: &[u32], turn: u32) -> u32 {
    let extents = words.get(COUNT).copied().unwrap_or(0);
    [0, 1, extents, extents.wrapping_add(1), u32::MAX][turn as usize % 5]
}

/// The words that are not 0, with their places.
fn nonzero(words: &[u32]) -> Vec<(usize, u32)> {
    words.iter().copied().enumerate().filter(|(_, word)| *word != 0).collect()
}

/// Compares a read, the summary, and the misses and the share of a session at a size.
fn compare(tally: &mut Tally, seen: &mut Seen, words: &[u32], extent: u32) {
    let (mut got, mut wanted) = (words.to_vec(), words.to_vec());
    let answer = session::read(&mut wanted, extent);
    let context = (answer, extent, nonzero(words));
    tally.same(calls::session_read(&mut got, extent), answer, &context);
    tally.same(got == wanted, true, &context);
    let summary = session::summary(words);
    seen.count(summary.is_ok());
    tally.same(calls::session_summary(words, MOST_WORDS), summary, &context);
    let size = size(words, seen.sound + seen.refused);
    tally.same(calls::session_misses(words, size), session::misses(words, size), &(size, &context));
    let bits = |share: Option<f64>| share.map(f64::to_bits);
    let (got, wanted) = (calls::session_share(words, size), session::share(words, size));
    tally.same(got.map(bits), wanted.map(bits), &(size, &context));
}

#[test]
fn every_word_changed() {
    let (mut tally, mut seen) = (Tally::new("sessions with one word changed"), Seen::default());
    let mut random = Random::new(92);
    // each word is changed in one of the bases, the first two and the last two of each field in all
    let bases = damage::bases();
    for (turn, base) in bases.iter().enumerate() {
        let extent = random.of(&base[FIRSTS]);
        compare(&mut tally, &mut seen, base, extent);
        damage::words_changed(&mut random, base, bases.len(), turn, |words| {
            compare(&mut tally, &mut seen, words, extent);
        });
    }
    assert!(seen.sound >= 100 && seen.refused as usize >= WORDS, "{} sound, {} refused", seen.sound, seen.refused);
    tally.at_least(2 * 5 * WORDS as u64);
}

#[test]
fn lengths_around_a_session() {
    let (mut tally, mut seen) = (Tally::new("sessions of other lengths"), Seen::default());
    for words in damage::bases().iter().flat_map(|base| damage::lengths(base)) {
        compare(&mut tally, &mut seen, &words, 7);
    }
    assert_eq!((seen.sound, seen.refused), (60, 84));
    tally.at_least(720);
}

#[test]
fn several_words_changed() {
    let (mut tally, mut seen) = (Tally::new("sessions with several words changed"), Seen::default());
    let mut random = Random::new(93);
    for _ in 0..4000 {
        let words = damage::several_words_changed(&mut random);
        let (known, new) = (random.of(&words[FIRSTS]), random.word());
        let extent = random.of(&[known, known, new]);
        compare(&mut tally, &mut seen, &words, extent);
    }
    assert!(seen.sound >= 1000 && seen.refused >= 2000, "{} sound, {} refused", seen.sound, seen.refused);
    tally.at_least(4000 * 5);
}

#[test]
fn each_clause_broken_alone() {
    let (mut tally, mut seen) = (Tally::new("sessions that break one clause"), Seen::default());
    for words in damage::each_clause_broken() {
        compare(&mut tally, &mut seen, &words, 10);
        compare(&mut tally, &mut seen, &words, 9);
    }
    assert_eq!((seen.sound, seen.refused), (8, 28));
    tally.at_least(180);
}

#[test]
fn every_sum_changed_with_all_above_it() {
    let (mut tally, mut seen) = (Tally::new("sessions with one sum wrong and all above it right"), Seen::default());
    let mut random = Random::new(94);
    // each sum is changed in two of the bases, the first two and the last two of each level in all
    let mut damaged = 0;
    for (turn, base) in damage::bases().iter().take(6).enumerate() {
        let extent = base[FIRSTS.start];
        damaged += damage::sums_changed(&mut random, base, 3, turn, |words| {
            compare(&mut tally, &mut seen, words, extent);
        });
    }
    assert_eq!((seen.sound, seen.refused), (0, damaged));
    tally.at_least(2 * 5 * (POINTS as u64 + 1));
}

#[test]
fn sums_that_agree_only_modulo_two_to_32() {
    let (mut tally, mut seen) = (Tally::new("sessions that agree modulo 2^32"), Seen::default());
    for words in damage::sums_modulo() {
        compare(&mut tally, &mut seen, &words, 10);
    }
    assert_eq!((seen.sound, seen.refused), (2, 9));
    tally.at_least(55);
}
