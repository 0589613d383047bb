//! The smallest cache for a miss allowance.

use jemqolu_tests::parts::{cut, grouped};
use jemqolu_tests::plain::smallest::{self, Smallest};
use jemqolu_tests::plain::summary::{self, MOST_WORDS};
use jemqolu_tests::plain::{cache, MAX_EXTENTS, MAX_READS};
use jemqolu_tests::random::Random;
use jemqolu_tests::tally::Tally;
use jemqolu_tests::{calls, long_logs, made, refusal, spread, Answer};
use std::collections::BTreeSet;

/// The answer of this size: as many words of H are read.
fn of_size(size: usize) -> Answer<Smallest> {
    Ok(Smallest { size, words_read: size as u32 })
}

/// Compares the smallest caches of words, whose full list of misses this is, for these allowances; the answers.
#[track_caller]
fn compare(tally: &mut Tally, words: &[u32], list: &[u64], allowances: &[u32]) -> Vec<Answer<Smallest>> {
    let summary = summary::well_formed(words).expect("a well-formed summary");
    let mut answers = Vec::new();
    for most in allowances {
        let got = calls::smallest(words, *most);
        tally.same(got, smallest::by_list(&summary, list, *most), &(words, most));
        answers.push(got);
    }
    answers
}

/// Compares the smallest caches of words by their own full list of misses, for all allowances of interest; the answers.
#[track_caller]
fn compare_words(tally: &mut Tally, words: &[u32]) -> Vec<Answer<Smallest>> {
    let list = smallest::list_of_summary(&summary::well_formed(words).expect("a well-formed summary"));
    compare(tally, words, &list, &spread::allowances(&list))
}

#[test]
fn the_worked_examples() {
    // of each log the misses at the sizes from 0 on, and the first size for each allowance from the reads down to the cold
    // reads
    let logs: [(&[u32], &[u64], &[usize]); 6] = [
        (&[], &[0], &[0]),
        (&[4], &[1, 1], &[0]),
        (&[4, 4, 4], &[3, 1], &[0, 1, 1]),
        (&[7, 3, 7, 9, 3, 3, 9], &[7, 6, 4, 3], &[0, 1, 2, 2, 3]),
        // at size 2 the last read misses still
        (&[1, 1, 2, 3, 1], &[5, 4, 4, 3], &[0, 1, 3]),
        (&[1, 2, 3, 1, 2, 3], &[6, 6, 6, 3], &[0, 3, 3, 3]),
    ];
    for (log, list, sizes) in logs {
        let words = calls::summarize(log, MOST_WORDS).expect("a short log");
        assert_eq!(smallest::list_of_log(log), list);
        for (fewer, size) in (0..).zip(sizes) {
            assert_eq!(calls::smallest(&words, log.len() as u32 - fewer), of_size(*size), "{log:?}, {fewer} fewer");
        }
        for most in (0..words[1]).rev() {
            assert_eq!(calls::smallest(&words, most), Err(refusal::MISSES), "{log:?}, {most}");
        }
        for most in [log.len() as u32 + 1, 1 << 31, u32::MAX] {
            assert_eq!(calls::smallest(&words, most), of_size(0), "{log:?}, {most}");
        }
    }
}

#[test]
fn all_short_logs() {
    let mut tally = Tally::new("smallest caches of all short logs");
    let mut met = BTreeSet::new();
    for log in made::all_traces(6, &[0, 4096, u32::MAX, 7]) {
        let allowances: Vec<u32> = (0..=log.len() as u32 + 1).chain([u32::MAX]).collect();
        let answers = compare(&mut tally, &summary::of(&log), &smallest::list_of_log(&log), &allowances);
        met.extend(answers.into_iter().map(|answer| answer.map(|found| found.size)));
    }
    let sizes = (0..=4).map(Ok);
    assert_eq!(met, sizes.chain([Err(refusal::MISSES)]).collect());
    // 4^n logs of n reads, and n + 3 allowances for each
    tally.at_least(3 + 4 * 4 + 16 * 5 + 64 * 6 + 256 * 7 + 1024 * 8 + 4096 * 9);
}

#[test]
fn random_logs() {
    let mut tally = Tally::new("smallest caches of random logs");
    let mut random = Random::new(221);
    let (mut refused, mut sizes) = (0, BTreeSet::new());
    for round in 0..600 {
        let log = made::trace(&mut random, 300, [4, 30, 120][round % 3]);
        let list = smallest::list_of_log(&log);
        for answer in compare(&mut tally, &summary::of(&log), &list, &spread::allowances(&list)) {
            match answer {
                Ok(found) => _ = sizes.insert(found.size),
                Err(_) => refused += 1,
            }
        }
    }
    assert!(refused >= 600 && sizes.len() >= 60, "{refused} refused, {} sizes", sizes.len());
    tally.at_least(15_000);
}

#[test]
fn logs_of_many_extents() {
    let mut tally = Tally::new("smallest caches of logs of many extents");
    let mut random = Random::new(222);
    for v in [300, MAX_EXTENTS - 1, MAX_EXTENTS] {
        let mut log = made::extents(&mut random, v);
        log.extend((0..300).map(|_| log[random.below(v)]).collect::<Vec<u32>>());
        let list = smallest::list_of_log(&log);
        compare(&mut tally, &summary::of(&log), &list, &spread::allowances(&list));
    }
    tally.at_least(900);
}

#[test]
fn long_logs_and_the_caches_at_the_size_and_one_smaller() {
    let mut tally = Tally::new("smallest caches of long logs");
    let mut random = Random::new(223);
    for log in long_logs::all(&mut random) {
        let words = summary::of(&log);
        compare_words(&mut tally, &words);
        let warm = log.len() - words[1] as usize;
        for most in [words[1], log.len() as u32 - 1, words[1] + random.below(warm) as u32] {
            let size = calls::smallest(&words, most).expect("at least the cold reads").size as u32;
            tally.same(cache::misses(&log, size) <= u64::from(most), true, &(&words, most));
            tally.same(cache::misses(&log, size - 1) <= u64::from(most), false, &(&words, most));
        }
    }
    tally.at_least(10_000);
}

#[test]
fn the_misses_at_the_size_and_at_all_others() {
    let mut tally = Tally::new("smallest caches, and the misses at all sizes");
    let mut random = Random::new(224);
    let mut summaries: Vec<Vec<u32>> = made::all_traces(5, &[1, 2, 3]).iter().map(|log| summary::of(log)).collect();
    summaries.extend((0..300).map(|round| made::summary(&mut random, [3, 30, MAX_EXTENTS][round % 3])));
    for words in summaries {
        let list = smallest::list_of_summary(&summary::well_formed(&words).expect("a made summary"));
        for most in spread::allowances(&list).into_iter().filter(|most| *most >= words[1]) {
            let found = calls::smallest(&words, most).expect("at least the cold reads").size as u32;
            let about = [found.saturating_sub(1), found, found + 1];
            for size in spread::sizes(words[1]).into_iter().chain(about) {
                let misses = calls::misses(&words, size).expect("a made summary");
                tally.same(misses <= u64::from(most), size >= found, &(&words, most, size));
            }
        }
    }
    tally.at_least(180_000);
}

/// Words of `v` extents whose reads that are not cold, `warm` of them, all have the distance `place` + 1.
fn of_one_distance(v: usize, place: usize, warm: u32) -> Vec<u32> {
    let (extents, mut counts) = ((0..v as u32).collect::<Vec<u32>>(), vec![0; v]);
    counts[place] = warm;
    [&[v as u32 + warm, v as u32], &extents[..], &extents, &counts].concat()
}

#[test]
fn the_first_of_the_sizes_that_miss_as_many() {
    let mut tally = Tally::new("smallest caches where all words of H but one are 0");
    for v in spread::numbers_of_extents(100).into_iter().filter(|v| *v > 0) {
        let (cold, places) = (v as u32, spread::places_of(0..v, 1 + v / 8, 0));
        for (place, warm) in places.iter().flat_map(|place| [1, 2, MAX_READS as u32 - cold].map(|warm| (*place, warm)))
        {
            let words = of_one_distance(v, place, warm);
            for (most, wanted) in [
                (cold - 1, Err(refusal::MISSES)),
                (cold, of_size(place + 1)),
                (cold + warm - 1, of_size(place + 1)),
                (cold + warm, of_size(0)),
                (cold + warm + 1, of_size(0)),
            ] {
                tally.same(calls::smallest(&words, most), wanted, &(v, place, warm, most));
            }
        }
    }
    tally.at_least(6000);
}

#[test]
fn words_that_no_log_has() {
    let mut tally = Tally::new("smallest caches of words that no log has");
    let mut random = Random::new(225);
    // sizes found after which the next one misses no fewer reads
    let mut before_a_0 = 0;
    for round in 0..1500 {
        let v = random.below([4, 12, 60, MAX_EXTENTS][round % 4] + 1);
        let extents = made::extents(&mut random, v);
        let most = random.of(&[v, 5000, MAX_READS as usize - v]);
        let warm = random.below(most + 1);
        let words = made::summary_over(&mut random, &extents, warm);
        let counts = &words[2 + 2 * v..];
        for found in compare_words(&mut tally, &words).into_iter().flatten() {
            before_a_0 += u32::from(found.size > 0 && counts.get(found.size) == Some(&0));
        }
    }
    assert!(before_a_0 >= 2000, "{before_a_0} sizes before a 0 in H");
    tally.at_least(30_000);
}

#[test]
fn joined_parts_and_the_whole() {
    let mut tally = Tally::new("smallest caches of joined parts and of the whole");
    let mut random = Random::new(226);
    for round in 0..120 {
        let log = made::trace(&mut random, 300, [3, 24, 100][round % 3]);
        let (list, count) = (smallest::list_of_log(&log), 2 + random.below(6));
        let parts = cut(&mut random, &log, count);
        let joined = grouped(&mut random, &parts);
        let whole = calls::summarize(&log, MOST_WORDS).expect("a trace within the limits");
        let allowances = spread::allowances(&list);
        let [of_joined, of_whole] = [&joined, &whole].map(|words| compare(&mut tally, words, &list, &allowances));
        tally.same(of_joined, of_whole, &log);
    }
    tally.at_least(6000);
}
