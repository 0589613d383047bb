//! Words that may or may not be a summary, given to every call that takes one.

use jemqolu_tests::plain::summary::{self, MOST_WORDS};
use jemqolu_tests::plain::{smallest, splits, MAX_EXTENTS, MAX_READS};
use jemqolu_tests::random::Random;
use jemqolu_tests::summary_damage::{bases, each_clause_broken};
use jemqolu_tests::tally::Tally;
use jemqolu_tests::{calls, made, spread};

/// How many of the words handed in were well formed, and how many were not.
#[derive(Default)]
struct Seen {
    formed: u32,
    refused: u32,
}

/// Words for any summary, and for two extents more.
const ROOM: usize = MOST_WORDS + 6;

/// Compares all calls on these words.
fn compare(tally: &mut Tally, seen: &mut Seen, words: &[u32]) {
    if summary::well_formed(words).is_some() {
        seen.formed += 1;
    } else {
        seen.refused += 1;
    }
    let other = [3, 2, 3, 9, 9, 3, 1, 0];
    tally.same(calls::join(words, &other, ROOM), summary::join(words, &other), &words);
    tally.same(calls::join(&other, words, ROOM), summary::join(&other, words), &words);
    tally.same(calls::distances(words, &[9, 3, 9], 3), summary::distances_after(words, &[9, 3, 9]), &words);
    tally.same(calls::misses(words, 2), summary::misses(words, 2), &words);
    tally.same(calls::share(words, 2), summary::share(words, 2), &words);
    let cold = words.get(1).copied().unwrap_or(0);
    for most in [0, cold.wrapping_sub(1), cold] {
        tally.same(calls::smallest(words, most), smallest::smallest(words, most), &(words, most));
    }
    tally.same(calls::split(2, &[0], words, 1), splits::split(2, &[0], words), &words);
}

/// What a word may be changed to.
fn changes(random: &mut Random, words: &[u32], place: usize) -> Vec<u32> {
    let word = words[place];
    let mut changes =
        vec![word ^ 1, word.wrapping_sub(1), word ^ (1 << 31), 0, u32::MAX, random.of(words), random.word()];
    changes.extend([word.wrapping_add(1 << 10), word ^ (1 << 12)]);
    changes
}

#[test]
fn one_clause_broken() {
    let (mut tally, mut seen) = (Tally::new("summaries that break one clause"), Seen::default());
    for base in bases().iter().filter(|base| base[1] >= 2) {
        each_clause_broken(base).iter().for_each(|(_, words)| compare(&mut tally, &mut seen, words));
    }
    assert!(seen.formed == 0 && seen.refused >= 150, "{} formed, {} refused", seen.formed, seen.refused);
    tally.at_least(150 * 9);
}

#[test]
fn each_word_changed() {
    let (mut tally, mut seen) = (Tally::new("summaries with one word changed"), Seen::default());
    let mut random = Random::new(62);
    for (turn, base) in bases().into_iter().enumerate() {
        compare(&mut tally, &mut seen, &base);
        // every word of few extents; of many the first two and the last two of each list, and a spread of 120 words
        let lists = spread::lists(0, base[1] as usize);
        for place in spread::places(&lists, base.len().div_ceil(120), turn) {
            for change in changes(&mut random, &base, place) {
                let mut words = base.clone();
                words[place] = change;
                compare(&mut tally, &mut seen, &words);
            }
        }
    }
    assert!(seen.formed >= 50 && seen.refused >= 5000, "{} formed, {} refused", seen.formed, seen.refused);
    tally.at_least(45_000);
}

#[test]
fn two_words_changed() {
    let (mut tally, mut seen) = (Tally::new("summaries with two words changed"), Seen::default());
    let mut random = Random::new(63);
    let bases = bases();
    for round in 0..12_000 {
        let mut words = bases[round % 13].clone();
        let (one, other) = (random.below(words.len()), random.below(words.len()));
        match random.below(4) {
            0 => words.swap(one, other),
            1 => {
                words[one] = words[one].wrapping_add(1);
                words[other] = words[other].wrapping_sub(1);
            }
            2 => {
                words[0] += 1;
                words[other] = words[other].wrapping_add(1);
            }
            _ => words[one] = words[other],
        }
        compare(&mut tally, &mut seen, &words);
    }
    assert!(seen.formed >= 3000 && seen.refused >= 3000, "{} formed, {} refused", seen.formed, seen.refused);
    tally.at_least(90_000);
}

/// Changes words of a summary by one of four rules, most often so that it stays well formed.
fn change(random: &mut Random, words: &mut Vec<u32>) {
    let v = words[1] as usize;
    let (row, one, other) = (2 + v * random.below(3), random.below(v), random.below(v));
    match random.below(6) {
        0 => words.truncate(words.len() - 1),
        1 => words[row + one] = words[row + other],
        2 => words[row + one] = random.word(),
        _ => words.swap(row + one, row + other),
    }
}

#[test]
fn joined_with_what_was_damaged() {
    let (mut tally, mut seen) = (Tally::new("damaged summaries joined with the undamaged"), Seen::default());
    let mut random = Random::new(66);
    for round in 0..2000 {
        let most = [12, 60, MAX_EXTENTS][round % 3];
        let reads = [vec![7], made::trace(&mut random, 300, most)].concat();
        let Ok(good) = summary::summarize(&reads) else { continue };
        let mut words = good.clone();
        change(&mut random, &mut words);
        compare(&mut tally, &mut seen, &words);
        tally.same(calls::join(&words, &good, ROOM), summary::join(&words, &good), &(&words, &good));
        tally.same(calls::join(&good, &words, ROOM), summary::join(&good, &words), &(&words, &good));
        let after = summary::distances_after(&words, &reads);
        tally.same(calls::distances(&words, &reads, reads.len()), after, &(&words, &reads));
        let size = random.below(most + 2) as u32;
        tally.same(calls::misses(&words, size), summary::misses(&words, size), &(&words, size));
        tally.same(calls::share(&words, size), summary::share(&words, size), &(&words, size));
    }
    assert!(seen.formed >= 1000 && seen.refused >= 500, "{} formed, {} refused", seen.formed, seen.refused);
    tally.at_least(25_000);
}

#[test]
fn words_cut_off_and_added() {
    let (mut tally, mut seen) = (Tally::new("summaries cut short and made longer"), Seen::default());
    for base in bases() {
        let step = 1 + base.len() / 100;
        for len in (0..=base.len()).step_by(step).chain([base.len() - 1]) {
            compare(&mut tally, &mut seen, &base[..len]);
        }
        for added in [&[0][..], &[0, 0], &[0, 0, 0], &[1], &[5, 5, 5], &[0; 6]] {
            compare(&mut tally, &mut seen, &[&base, added].concat());
        }
    }
    assert!(seen.formed >= 1 && seen.refused >= 300, "{} formed, {} refused", seen.formed, seen.refused);
    tally.at_least(3000);
}

#[test]
fn too_many_extents_or_reads() {
    let (mut tally, mut seen) = (Tally::new("summaries past the limits"), Seen::default());
    let mut random = Random::new(64);
    for count in [-2, -1, 0, 1, 2, 44, 2976].map(|more| MAX_EXTENTS.wrapping_add_signed(more)) {
        let extents = made::extents(&mut random, count);
        compare(&mut tally, &mut seen, &made::summary_over(&mut random, &extents, 12));
    }
    for reads in [MAX_READS - 4, MAX_READS - 3, MAX_READS - 1, MAX_READS, MAX_READS + 1, MAX_READS + 2, 1 << 31] {
        for count in [1, 3, MAX_EXTENTS] {
            let extents = made::extents(&mut random, count);
            let words = made::summary_over(&mut random, &extents, reads as usize - count);
            compare(&mut tally, &mut seen, &words);
        }
    }
    assert_eq!((seen.formed, seen.refused), (15, 13));
    tally.at_least(252);
}

#[test]
fn sums_and_lengths_that_agree_only_modulo_two_to_32() {
    let (mut tally, mut seen) = (Tally::new("summaries that agree modulo 2^32"), Seen::default());
    for (reads, counts) in [(5, [u32::MAX, 4]), (2, [1 << 31, 1 << 31]), (1, [u32::MAX, 0]), (7, [u32::MAX - 1, 7])] {
        compare(&mut tally, &mut seen, &[&[reads, 2, 8, 9, 9, 8][..], &counts].concat());
    }
    // a third of 1, modulo 2^32: so many extents make any length right modulo 2^32
    let third = 0xAAAA_AAAB_u32;
    for len in 2..30_u32 {
        let extents = third.wrapping_mul(len - 2);
        for reads in [0, extents, len] {
            let mut words = vec![0; len as usize];
            (words[0], words[1]) = (reads, extents);
            compare(&mut tally, &mut seen, &words);
        }
    }
    assert!(seen.refused >= 80, "{} refused", seen.refused);
    tally.at_least(600);
}

#[test]
fn random_words() {
    let (mut tally, mut seen) = (Tally::new("random words as summaries"), Seen::default());
    let mut random = Random::new(65);
    for _ in 0..20_000 {
        let v = random.below(4);
        let mut words: Vec<u32> = (0..2 + 3 * v).map(|_| random.below(4) as u32).collect();
        words[1] = v as u32;
        compare(&mut tally, &mut seen, &words);
    }
    assert!(seen.formed >= 200 && seen.refused >= 10_000, "{} formed, {} refused", seen.formed, seen.refused);
    tally.at_least(150_000);
}
