//! Words that may or may not be summaries end to end, given to the split.

use jemqolu_tests::plain::{splits, summary, MAX_EXTENTS, MAX_READS};
use jemqolu_tests::random::Random;
use jemqolu_tests::tally::Tally;
use jemqolu_tests::{calls, made, refusal, spread};
use std::ops::Range;

/// How many runs of words were summaries end to end, and how many were not.
#[derive(Default)]
struct Seen {
    formed: u32,
    refused: u32,
}

/// Compares the split of a small store among so many customers with these words.
fn compare(tally: &mut Tally, seen: &mut Seen, customers: usize, words: &[u32]) {
    let leasts = &[0, 1, 0, 0, 1, 0, 0, 0][..customers];
    let wanted = splits::split(4, leasts, words);
    if wanted == Err(refusal::SUMMARY) {
        seen.refused += 1;
    } else {
        seen.formed += 1;
    }
    tally.same(calls::split(4, leasts, words, customers + 1), wanted, &(customers, words));
}

/// Summaries of some customers: of logs, and that no log has; without extents, with few, and with all that
/// a log may have.
fn bases() -> Vec<Vec<Vec<u32>>> {
    let mut random = Random::new(191);
    let few = [summary::of(&[4, 4]), summary::of(&[7, 3, 7, 9, 3, 3, 9]), summary::of(&[0, 1, 0, 2, 2])];
    let mut bases = vec![vec![vec![0, 0]], vec![vec![0, 0]; 3], few[1..2].to_vec(), few.to_vec()];
    bases.push([&few[..1], &[vec![0, 0]], &few[1..]].concat());
    bases.extend((1..=8).map(|customers| (0..customers).map(|_| made::summary(&mut random, 5)).collect()));
    let full = made::extents(&mut random, MAX_EXTENTS);
    let most = made::summary_over(&mut random, &full, MAX_READS as usize - MAX_EXTENTS);
    bases.push(vec![few[0].clone(), most, few[1].clone()]);
    bases
}

/// What a word may be changed to.
fn changes(random: &mut Random, words: &[u32], place: usize) -> Vec<u32> {
    let word = words[place];
    let near = [word ^ 1, word.wrapping_add(1), word.wrapping_sub(1), word.wrapping_add(3), word ^ (1 << 31)];
    [&near[..], &[0, u32::MAX, random.of(words), random.word(), word ^ (1 << 12)]].concat()
}

#[test]
fn each_word_changed() {
    let (mut tally, mut seen) = (Tally::new("splits with one word changed"), Seen::default());
    let mut random = Random::new(192);
    for base in bases() {
        let whole = base.concat();
        compare(&mut tally, &mut seen, base.len(), &whole);
        // every word of few extents; of many the first two and the last two of each list, and a spread of 300 words
        let starts = (0..base.len()).map(|place| base[..place].concat().len());
        let lists: Vec<Range<usize>> =
            starts.zip(&base).flat_map(|(start, words)| spread::lists(start, words[1] as usize)).collect();
        for place in spread::places(&lists, whole.len().div_ceil(300), 0) {
            for change in changes(&mut random, &whole, place) {
                let mut words = whole.clone();
                words[place] = change;
                compare(&mut tally, &mut seen, base.len(), &words);
            }
        }
    }
    assert!(seen.formed >= 100 && seen.refused >= 5000, "{} formed, {} refused", seen.formed, seen.refused);
    tally.at_least(6_000);
}

#[test]
fn two_words_changed() {
    let (mut tally, mut seen) = (Tally::new("splits with two words changed"), Seen::default());
    let mut random = Random::new(193);
    let bases = bases();
    for round in 0..20_000 {
        let base = &bases[round % bases.len()];
        let mut words = base.concat();
        let (one, other) = (random.below(words.len()), random.below(words.len()));
        match random.below(3) {
            0 => words.swap(one, other),
            1 => {
                words[one] = words[one].wrapping_add(1);
                words[other] = words[other].wrapping_sub(1);
            }
            _ => words[one] = words[other],
        }
        compare(&mut tally, &mut seen, base.len(), &words);
    }
    assert!(seen.formed >= 2000 && seen.refused >= 5000, "{} formed, {} refused", seen.formed, seen.refused);
    tally.at_least(20_000);
}

#[test]
fn one_summary_of_several_damaged() {
    let (mut tally, mut seen) = (Tally::new("splits with one summary damaged"), Seen::default());
    let mut random = Random::new(194);
    for _ in 0..4000 {
        let customers = 1 + random.below(8);
        let mut summaries: Vec<Vec<u32>> = (0..customers).map(|_| made::summary(&mut random, 4)).collect();
        let place = random.below(customers);
        let words = &mut summaries[place];
        match random.below(6) {
            0 => words.truncate(words.len() - 1),
            1 => words.push(0),
            2 => words[0] += 1,
            3 => words[1] = random.below(6) as u32,
            4 => words.extend([0, 0]),
            _ => words.clear(),
        }
        compare(&mut tally, &mut seen, customers, &summaries.concat());
    }
    assert!(seen.formed >= 100 && seen.refused >= 3000, "{} formed, {} refused", seen.formed, seen.refused);
    tally.at_least(4000);
}

#[test]
fn words_cut_off_and_left_over() {
    let (mut tally, mut seen) = (Tally::new("splits with words cut off and left over"), Seen::default());
    for base in bases() {
        let words = base.concat();
        for len in (0..words.len()).step_by(1 + words.len() / 100) {
            compare(&mut tally, &mut seen, base.len(), &words[..len]);
            compare(&mut tally, &mut seen, base.len(), &words[words.len() - len..]);
        }
        for added in [&[0][..], &[0, 0], &[0, 0, 0], &[1], &[5, 5, 5], &[0; 6], &summary::of(&[4])] {
            compare(&mut tally, &mut seen, base.len(), &[&words, added].concat());
            compare(&mut tally, &mut seen, base.len(), &[added, &words].concat());
        }
    }
    assert!(seen.formed == 0 && seen.refused >= 1200, "{} formed, {} refused", seen.formed, seen.refused);
    tally.at_least(1200);
}

#[test]
fn more_and_fewer_summaries_than_customers() {
    let (mut tally, mut seen) = (Tally::new("splits with more and fewer summaries than customers"), Seen::default());
    for base in bases() {
        let words = base.concat();
        for customers in 1..=8 {
            compare(&mut tally, &mut seen, customers, &words);
        }
    }
    assert_eq!((seen.formed, seen.refused), (14, 98));
    tally.at_least(112);
}

#[test]
fn numbers_of_extents_that_reach_past_the_end() {
    let (mut tally, mut seen) = (Tally::new("splits with other numbers of extents"), Seen::default());
    // a third of 1, modulo 2^32: so many extents make any length right modulo 2^32
    let third = 0xAAAA_AAAB_u32;
    for base in bases() {
        let whole = base.concat();
        for place in 0..base.len() {
            let start: usize = base[..place].iter().map(Vec::len).sum();
            let left = whole.len() - start;
            let reach = (left as u32 - 2) / 3;
            let wrapped = (0..12).map(|len| third.wrapping_mul(len));
            let large = [65_535, 65_536, 1 << 30, 1 << 31, u32::MAX - 1, u32::MAX];
            let about = [-1, 0, 1, 2, 744].map(|more| (MAX_EXTENTS as u32).wrapping_add_signed(more));
            for extents in (0..reach + 3).chain(about).chain(large).chain(wrapped) {
                let mut words = whole.clone();
                words[start + 1] = extents;
                compare(&mut tally, &mut seen, base.len(), &words);
            }
        }
    }
    assert!(seen.formed >= 40 && seen.refused >= 2000, "{} formed, {} refused", seen.formed, seen.refused);
    tally.at_least(2200);
}

#[test]
fn too_many_extents_or_reads() {
    let (mut tally, mut seen) = (Tally::new("splits of summaries past the limits"), Seen::default());
    let mut random = Random::new(195);
    let good = [summary::of(&[7, 3, 7]), vec![0, 0], summary::of(&[1, 2, 3, 1, 2, 3])];
    let (all, most) = (MAX_EXTENTS, MAX_READS as usize);
    for (count, reads) in
        [(all - 1, all), (all, all + 44), (all + 1, all + 44), (all + 44, all + 44), (4 * all, 4 * all)]
            .into_iter()
            .chain([(1, most), (1, 1 + most), (all, most), (all, 1 + most), (3, 1 << 31)])
    {
        let extents = made::extents(&mut random, count);
        let words = made::summary_over(&mut random, &extents, reads - count);
        for place in 0..=good.len() {
            let summaries = [good[..place].concat(), words.clone(), good[place..].concat()].concat();
            compare(&mut tally, &mut seen, 4, &summaries);
        }
    }
    assert_eq!((seen.formed, seen.refused), (16, 24));
    tally.at_least(40);
}

#[test]
fn sums_that_agree_only_modulo_two_to_32() {
    let (mut tally, mut seen) = (Tally::new("splits of summaries that agree modulo 2^32"), Seen::default());
    let good = summary::of(&[7, 3, 7]);
    for (reads, counts) in [(5, [u32::MAX, 4]), (2, [1 << 31, 1 << 31]), (1, [u32::MAX, 0]), (7, [u32::MAX - 1, 7])] {
        let words = [&[reads, 2, 8, 9, 9, 8][..], &counts].concat();
        compare(&mut tally, &mut seen, 1, &words);
        compare(&mut tally, &mut seen, 2, &[&words[..], &good].concat());
        compare(&mut tally, &mut seen, 2, &[&good[..], &words].concat());
    }
    assert_eq!((seen.formed, seen.refused), (0, 12));
    tally.at_least(12);
}

/// Words that may be a summary of up to two extents, by their length at least.
fn few_words(random: &mut Random) -> Vec<u32> {
    let v = random.below(3);
    let mut words: Vec<u32> = (0..2 + 3 * v).map(|_| random.below(3) as u32).collect();
    words[1] = v as u32;
    words
}

#[test]
fn random_words() {
    let (mut tally, mut seen) = (Tally::new("splits of random words"), Seen::default());
    let mut random = Random::new(196);
    for _ in 0..30_000 {
        let customers = 1 + random.below(3);
        let any: Vec<u32> = (0..random.below(5 * customers + 3)).map(|_| random.below(3) as u32).collect();
        let cut_well: Vec<u32> = (0..customers).flat_map(|_| few_words(&mut random)).collect();
        compare(&mut tally, &mut seen, customers, &any);
        compare(&mut tally, &mut seen, customers, &cut_well);
    }
    assert!(seen.formed >= 1000 && seen.refused >= 50_000, "{} formed, {} refused", seen.formed, seen.refused);
    tally.at_least(60_000);
}
