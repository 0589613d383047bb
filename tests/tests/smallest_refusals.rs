//! What refuses the smallest cache: words that are not a summary, and after that an allowance below the cold reads. The
//! calls compare every lent word before and after.

use jemqolu_tests::plain::{summary, MAX_EXTENTS, MAX_READS};
use jemqolu_tests::random::Random;
use jemqolu_tests::summary_damage::{bases, each_clause_broken};
use jemqolu_tests::tally::Tally;
use jemqolu_tests::{calls, ffi, made, refusal};

#[test]
fn a_broken_clause_comes_before_too_small_an_allowance() {
    let mut tally = Tally::new("smallest caches of words with a broken clause, at all allowances");
    for base in bases().iter().filter(|base| base[1] >= 2) {
        let cold = base[1];
        let (below, enough) = ([0, 1, cold / 2, cold - 1], [cold, cold + 1, base[0], u32::MAX]);
        for most in below {
            tally.same(calls::smallest(base, most), Err(refusal::MISSES), &(base, most));
        }
        for most in enough {
            tally.same(calls::smallest(base, most).is_ok(), true, &(base, most));
        }
        for (clause, words) in each_clause_broken(base) {
            let stated = words.get(1).copied().unwrap_or(0);
            for most in [&below[..], &enough, &[stated.wrapping_sub(1), stated]].concat() {
                tally.same(calls::smallest(&words, most), Err(refusal::SUMMARY), &(clause, &words, most));
            }
        }
    }
    tally.at_least(12 * (8 + 17 * 10));
}

#[test]
fn below_the_cold_reads_for_every_number_of_extents() {
    let mut tally = Tally::new("allowances about the cold reads, for every number of extents");
    let mut random = Random::new(231);
    let all = made::extents(&mut random, MAX_EXTENTS);
    for v in 0..=MAX_EXTENTS {
        let (cold, most_warm) = (v as u32, MAX_READS as usize - v);
        for warm in [0, 1, random.below(3000), most_warm] {
            let words = made::summary_over(&mut random, &all[..v], warm);
            for most in (0..cold).take(2).chain([cold / 2]).chain(cold.saturating_sub(2)..cold + 2) {
                let refused = (most < cold).then_some(refusal::MISSES);
                tally.same(calls::smallest(&words, most).err(), refused, &(v, warm, most));
            }
        }
    }
    tally.at_least(1023 * 4 * 6);
}

#[test]
fn every_allowance_up_to_the_cold_reads_and_past_them() {
    let mut tally = Tally::new("all allowances from none to past the cold reads");
    let mut random = Random::new(232);
    for v in [1, 2, 3, 17, 255, 256, 257, MAX_EXTENTS - 1, MAX_EXTENTS] {
        let extents = made::extents(&mut random, v);
        let log = made::trace_of_all(&mut random, &extents, v, 3 * v);
        let words = summary::of(&log);
        for most in 0..2 * v as u32 {
            let refused = ((most as usize) < v).then_some(refusal::MISSES);
            tally.same(calls::smallest(&words, most).err(), refused, &(v, most));
        }
    }
    tally.at_least(2 * (6 + 17 + 3 * 256 + 2047));
}

#[test]
fn a_refusal_leaves_the_word_for_the_words_read() {
    let good = summary::of(&[7, 3, 7, 9, 3, 3, 9]);
    let (short, mut other) = (&good[..10], good.clone());
    other[0] += 1;
    for before in [0, 1, 2, 3, 5, 7, 12, u32::MAX] {
        let mut word = before;
        for most in [0, 1, 2] {
            assert_eq!(ffi::smallest(&good, most, &mut word), Err(refusal::MISSES));
        }
        for (words, most) in
            [short, &other, &[], &good[..1]].into_iter().flat_map(|words| [0, 2, 3, 7].map(|m| (words, m)))
        {
            assert_eq!(ffi::smallest(words, most, &mut word), Err(refusal::SUMMARY));
        }
        assert_eq!(word, before);
        for (most, size) in [(3, 3), (4, 2), (5, 2), (6, 1), (7, 0)] {
            let mut word = before;
            assert_eq!((ffi::smallest(&good, most, &mut word), word), (Ok(size), size as u32));
        }
    }
}
