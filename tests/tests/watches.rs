//! Watches on one cache size.

use jemqolu_tests::plain::session::WORDS;
use jemqolu_tests::plain::summary::MOST_WORDS;
use jemqolu_tests::plain::{cache, hit_share, trace, watch, COLD_BASE, MAX_EXTENTS, MAX_READS};
use jemqolu_tests::random::Random;
use jemqolu_tests::tally::Tally;
use jemqolu_tests::{calls, made, refusal};

const MOST: u32 = MAX_READS as u32;
/// The largest distance, and the largest number of a cold read.
const LAST: u32 = MAX_EXTENTS as u32;
/// Words that are a distance or a cold read, at the edges of both.
const TAKEN: [u32; 8] = [1, 2, LAST - 1, LAST, COLD_BASE + 1, COLD_BASE + 2, COLD_BASE + LAST - 1, COLD_BASE + LAST];
/// Words that are neither, which are refused.
const REFUSED: [u32; 9] = [
    0,
    LAST + 1,
    COLD_BASE - 1,
    COLD_BASE,
    COLD_BASE + LAST + 1,
    2 * COLD_BASE + 1,
    (1 << 31) + 1,
    (1 << 31) + COLD_BASE + 1,
    u32::MAX,
];

/// Words at the edges of what a watch is given.
fn edge_words() -> Vec<u32> {
    [&TAKEN[..], &REFUSED].concat()
}

/// Compares the misses, the share and one more read of a watch.
fn compare(tally: &mut Tally, words: &[u32], word: u32) {
    let (mut got, mut wanted) = (words.to_vec(), words.to_vec());
    tally.same(calls::watch_read(&mut got, word), watch::read(&mut wanted, word), &(words, word));
    tally.same(got, wanted, &(words, word));
    tally.same(calls::watch_misses(words), watch::misses(words), &words);
    let bits = |share: Option<f64>| share.map(f64::to_bits);
    tally.same(calls::watch_share(words).map(bits), watch::share(words).map(bits), &words);
}

#[test]
fn new_watches() {
    let mut tally = Tally::new("new watches");
    for size in [0, 1, 5, LAST, LAST + 1, 1 << 31, u32::MAX] {
        for room in 0..9 {
            let wanted = if room < watch::WORDS { Err(refusal::ROOM) } else { Ok(watch::new(size)) };
            tally.same(calls::watch_new(size, room), wanted, &(size, room));
        }
    }
    tally.at_least(63);
}

#[test]
fn all_small_watches() {
    let mut tally = Tally::new("all small watches");
    for size in 0..4 {
        for reads in 0..5 {
            for cold in 0..6 {
                for hits in 0..6 {
                    for word in edge_words().into_iter().chain([3, 4]) {
                        compare(&mut tally, &[size, reads, cold, hits], word);
                    }
                }
            }
        }
    }
    tally.at_least(54_000);
}

#[test]
fn words_at_the_edges() {
    let mut tally = Tally::new("watches at the edges");
    let edges = [0, 1, 2, LAST - 1, LAST, LAST + 1, MOST - 1, MOST, MOST + 1, 1 << 31, u32::MAX];
    for size in [0, 1, LAST, u32::MAX] {
        for reads in edges {
            for cold in edges {
                for hits in edges {
                    for word in edge_words() {
                        compare(&mut tally, &[size, reads, cold, hits], word);
                    }
                }
            }
        }
    }
    tally.at_least(360_000);
}

#[test]
fn every_word_to_past_the_cold_reads() {
    let mut tally = Tally::new("every word to past the cold reads");
    for words in [[4, 9, 3, 2], [u32::MAX, 9, 3, 2], [4, MOST, 3, 2], [4, 9, 8, 2]] {
        for word in 0..COLD_BASE + 2 * LAST {
            compare(&mut tally, &words, word);
        }
    }
    tally.at_least(1_050_000);
}

#[test]
fn the_number_of_a_cold_read_is_disregarded() {
    let mut tally = Tally::new("watches and the numbers of cold reads");
    for size in [0, 1, 2, LAST - 1, LAST, LAST + 1, COLD_BASE, COLD_BASE + 1, COLD_BASE + LAST, u32::MAX] {
        for [reads, cold, hits] in [[0, 0, 0], [1, 0, 0], [7, 3, 3], [LAST + 44, LAST, 44], [MOST - 1, 0, MOST - 1]] {
            for number in 1..=LAST {
                let mut words = vec![size, reads, cold, hits];
                tally.same(calls::watch_read(&mut words, COLD_BASE + number), Ok(0), &(size, reads, number));
                tally.same(words, vec![size, reads + 1, cold + 1, hits], &(size, reads, number));
            }
        }
    }
    tally.at_least(10 * 5 * 2 * MAX_EXTENTS as u64);
}

#[test]
fn lengths_around_a_watch() {
    let mut tally = Tally::new("watches of other lengths");
    for words in [[2, 7, 3, 3, 9, 9, 9], [2, 0, 0, 0, 0, 0, 0], [2, 7, 5, 3, 1, 1, 1], [1, MOST, 1, 0, u32::MAX, 0, 0]]
    {
        for len in 0..=7 {
            for word in edge_words() {
                compare(&mut tally, &words[..len], word);
            }
        }
    }
    tally.at_least(2100);
}

#[test]
fn refusals_in_order() {
    let mut tally = Tally::new("watches that are refused for up to three reasons");
    let unsound = [[3, 5, 4, 2], [3, 5, u32::MAX, 2], [3, 0, 1, 0]];
    let unsound_and_full = [[3, MOST, MOST, 1], [3, MOST + 1, 1, 1], [3, MOST, u32::MAX, 1]];
    let full = [[3, MOST, 1, 1], [0, MOST, MOST, 0], [LAST, MOST, 0, MOST]];
    let open = [[3, MOST - 1, 1, 1], [0, 0, 0, 0], [LAST, 9, 4, 5]];
    for (watches, with_refused, with_taken) in [
        (unsound, Err(refusal::STATE), Err(refusal::STATE)),
        (unsound_and_full, Err(refusal::STATE), Err(refusal::STATE)),
        (full, Err(refusal::NUMBER), Err(refusal::READS)),
        (open, Err(refusal::NUMBER), Ok(0)),
    ] {
        let given = REFUSED.map(|word| (word, with_refused)).into_iter().chain(TAKEN.map(|word| (word, with_taken)));
        for (words, (word, wanted)) in watches.iter().flat_map(|words| given.clone().map(move |given| (words, given))) {
            let mut left = words.to_vec();
            tally.same(calls::watch_read(&mut left, word), wanted, &(words, word));
            tally.same(left == words, wanted.is_err(), &(words, word));
        }
    }
    tally.at_least(408);
}

#[test]
fn random_words() {
    let mut tally = Tally::new("random words as watches");
    let mut random = Random::new(101);
    for _ in 0..40_000 {
        let bound = random.of(&[8, 1000, MOST as usize + 3]);
        let reads = random.below(bound);
        let cold = random.below(reads + 2);
        let hits = random.below((reads + 2).saturating_sub(cold).max(1));
        let [size, number] = [0, 1].map(|_| random.below(MAX_EXTENTS + 44) as u32);
        let (any, bit) = (random.word(), 1 << random.below(32));
        let word = random.of(&[number, COLD_BASE + number, number ^ bit, (COLD_BASE + number) ^ bit, bit, any]);
        compare(&mut tally, &[size, reads as u32, cold as u32, hits as u32], word);
    }
    tally.at_least(160_000);
}

/// The words of a trace's reads as the library gives them: from a session, or in two parts, the second after the first.
fn words_of(random: &mut Random, reads: &[u32]) -> Vec<u32> {
    if random.one_in(4) {
        let mut session = calls::session_new(WORDS).expect("a new session");
        let mut read = |extent: &u32| calls::session_read(&mut session, *extent).expect("a read within the limits");
        return reads.iter().map(|extent| read(extent).word as u32).collect();
    }
    let (front, back) = reads.split_at(random.below(reads.len() + 1));
    let prefix = calls::summarize(front, MOST_WORDS).expect("a trace within the limits");
    let words = |prefix: &[u32], part: &[u32]| calls::distances(prefix, part, part.len()).expect("a part of a trace");
    [words(&[0, 0], front), words(&prefix, back)].concat()
}

#[test]
fn watches_of_traces() {
    let mut tally = Tally::new("watches and caches");
    let mut random = Random::new(102);
    for round in 0..300 {
        let (most_reads, most_extents) = if round % 2 == 0 { (200, 20) } else { (1200, MAX_EXTENTS) };
        let reads = made::trace(&mut random, most_reads, most_extents);
        let (given, plain) = (words_of(&mut random, &reads), trace::distances(&reads));
        let size =
            random.of(&[0, 1, 2, 3, 5, 8, 13, 21, 34, 55, 89, 144, 200, LAST - 1, LAST, COLD_BASE + 3, u32::MAX]);
        let mut words = calls::watch_new(size, 4).expect("a new watch");
        let mut wanted = watch::new(size);
        for (word, plain) in given.iter().zip(&plain) {
            tally.same(calls::watch_read(&mut words, *word), watch::read(&mut wanted, *plain), &given);
            tally.same(&words, &wanted, &given);
        }
        let misses = cache::misses(&reads, size);
        let share = hit_share(reads.len() as u64 - misses, cache::servable(&reads));
        let counts = [reads.len(), trace::different(&reads), reads.len() - misses as usize];
        tally.same(&words[1..], &counts.map(|count| count as u32), &(&reads, size));
        tally.same(calls::watch_misses(&words), Ok(misses), &(&reads, size));
        tally.same(calls::watch_share(&words), Ok(share), &(&reads, size));
    }
    tally.at_least(190_000);
}
