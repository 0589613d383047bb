//! The requirements' own examples: every row of 'Sessions to try', the numbers of cold reads, the slots looked at, the hit
//! shares, the sample texts, and the four quiet wrong joins.

use jemqolu_tests::plain::logs::LISTING_BYTES;
use jemqolu_tests::plain::plans::LEVEL_WORDS;
use jemqolu_tests::plain::session::{
    Reading, COUNT, COUNTS, DIGITS, FIRSTS, NEXT, POINTS, READS, RIGHTS, SLOT, SLOTS, WORDS,
};
use jemqolu_tests::plain::summary::MOST_WORDS;
use jemqolu_tests::plain::{names, COLD_BASE, MAX_EXTENTS};
use jemqolu_tests::random::Random;
use jemqolu_tests::{calls, made, refusal, Answer};

const SEVEN: [u32; 7] = [7, 3, 7, 9, 3, 3, 9];
const SEVEN_WORDS: [u32; 7] = [65_537, 65_538, 2, 65_539, 3, 1, 2];
const SUMMARY: [u32; 11] = [7, 3, 7, 3, 9, 9, 3, 7, 1, 2, 1];
const FRONT: [u32; 11] = [4, 3, 7, 3, 9, 9, 7, 3, 0, 1, 0];
const BACK: [u32; 8] = [3, 2, 3, 9, 9, 3, 1, 0];

/// The largest distance, and the largest number of a cold read.
const LAST: u32 = MAX_EXTENTS as u32;

/// A session that has read these, and the answers.
fn read_all(trace: &[u32]) -> (Vec<u32>, Vec<Answer<Reading>>) {
    let mut session = calls::session_new(WORDS).expect("a new session");
    let answers = trace.iter().map(|extent| calls::session_read(&mut session, *extent)).collect();
    (session, answers)
}

/// An accepted read.
fn reading(word: u32, sums_read: u32, slots_looked: u32) -> Answer<Reading> {
    Ok(Reading { word: word as usize, sums_read, slots_looked })
}

#[test]
fn the_numbers_of_the_requirements() {
    assert_eq!((MAX_EXTENTS, SLOTS, POINTS, DIGITS), (1024, 2048, 2047, 11));
    assert_eq!([FIRSTS, COUNTS, SLOT, RIGHTS], [1..1025, 1025..2049, 2049..4097, 4098..6145]);
    assert_eq!((READS, COUNT, NEXT, WORDS), (0, 4097, 6145, 6146));
    assert_eq!((names::NAME_WORDS, names::WORDS), (6147, 49_176));
    assert_eq!((MOST_WORDS, LEVEL_WORDS, LISTING_BYTES), (3074, 6148, 23_616));
}

#[test]
fn the_seven_reads() {
    let (session, answers) = read_all(&SEVEN);
    let (sums_read, slots_looked) = ([0, 0, DIGITS, 0, DIGITS - 1, DIGITS - 1, DIGITS - 2], [0, 1, 2, 3, 3, 1, 3]);
    let wanted = |read: usize| reading(SEVEN_WORDS[read], sums_read[read], slots_looked[read]);
    assert_eq!(answers, [0, 1, 2, 3, 4, 5, 6].map(wanted));
    assert_eq!(calls::session_summary(&session, 11), Ok(SUMMARY.to_vec()));
    assert_eq!(calls::distances(&[0, 0], &SEVEN, 7), Ok(SEVEN_WORDS.to_vec()));
}

#[test]
fn the_words_after_the_seven_reads() {
    let (session, _) = read_all(&SEVEN);
    let mut wanted = vec![0; 6146];
    wanted[0] = 7;
    wanted[1..4].copy_from_slice(&[7, 3, 9]);
    wanted[1025..1028].copy_from_slice(&[1, 2, 1]);
    // the marks stand in the slots 2, 5 and 6
    (wanted[2049 + 2], wanted[2049 + 5], wanted[2049 + 6], wanted[4097]) = (7, 3, 9, 3);
    // over the slots 4 and 5, 0 to 3, 4 to 7, and 0 to 7
    (wanted[4098 + 2], wanted[4098 + 1024], wanted[4098 + 1025], wanted[4098 + 1536]) = (1, 1, 1, 2);
    wanted[6145] = 7;
    assert_eq!(session, wanted);
}

#[test]
fn a_number_counts_the_extents_of_the_prefix_too() {
    // after 7 3 7 9 the extent 8 is the fourth
    assert_eq!(calls::distances(&FRONT, &[3, 3, 9, 8], 4), Ok(vec![3, 1, 2, 65_540]));
    let (_, answers) = read_all(&[7, 3, 7, 9, 3, 3, 9, 8]);
    assert_eq!(answers[7], reading(65_540, 0, 7));
    // no log has these words: 4 6 would have R 6 4
    assert_eq!(calls::distances(&[2, 2, 4, 6, 4, 6, 0, 0], &[6, 9], 2), Ok(vec![2, 65_539]));
}

#[test]
fn the_watch_disregards_the_number() {
    for words in [SEVEN_WORDS, [65_539, COLD_BASE + LAST, 2, 65_537, 3, 1, 2]] {
        let mut watch = calls::watch_new(2, 4).expect("a new watch");
        for word in words {
            assert_eq!(calls::watch_read(&mut watch, word), Ok(0));
        }
        assert_eq!(watch, [2, 7, 3, 3]);
        for word in [0, LAST + 1, 65_536, COLD_BASE + LAST + 1] {
            assert_eq!(calls::watch_read(&mut watch, word), Err(refusal::NUMBER));
        }
    }
}

#[test]
fn the_summaries_and_their_join() {
    assert_eq!(calls::summarize(&SEVEN, 11), Ok(SUMMARY.to_vec()));
    assert_eq!(calls::summarize(&SEVEN[..4], 11), Ok(FRONT.to_vec()));
    assert_eq!(calls::summarize(&SEVEN[4..], 11), Ok(BACK.to_vec()));
    assert_eq!(calls::session_summary(&read_all(&SEVEN[..4]).0, 11), Ok(FRONT.to_vec()));
    assert_eq!(calls::session_summary(&read_all(&SEVEN[4..]).0, 11), Ok(BACK.to_vec()));
    assert_eq!(calls::join(&FRONT, &BACK, 11), Ok(SUMMARY.to_vec()));
    assert_eq!(calls::join(&[0, 0], &[0, 0], 2), Ok(vec![0, 0]));
}

#[test]
fn the_misses_and_the_shares() {
    assert_eq!([0, 2, 9].map(|size| calls::misses(&SUMMARY, size)), [Ok(7), Ok(4), Ok(3)]);
    assert_eq!(calls::share(&SUMMARY, 2), Ok(Some(0.75)));
    assert_eq!(calls::session_share(&read_all(&SEVEN).0, 2), Ok(Some(0.75)));
    let watch = [2, 7, 3, 3];
    assert_eq!(calls::watch_misses(&watch), Ok(4));
    assert_eq!(calls::watch_share(&watch), Ok(Some(0.75)));
}

#[test]
fn the_shares_of_cold_reads_alone() {
    for log in [&[][..], &[4, 0, 8, 1, 6]] {
        let summary = calls::summarize(log, 17).expect("a summary");
        let (session, answers) = read_all(log);
        for size in [0, 3, 5, LAST] {
            let mut watch = calls::watch_new(size, 4).expect("a new watch");
            for answer in answers.iter().flatten() {
                calls::watch_read(&mut watch, answer.word as u32).expect("a cold read");
            }
            assert_eq!(watch[1..], [log.len() as u32, log.len() as u32, 0]);
            assert_eq!(calls::share(&summary, size), Ok(None));
            assert_eq!(calls::session_share(&session, size), Ok(None));
            assert_eq!(calls::watch_share(&watch), Ok(None));
            assert_eq!(calls::misses(&summary, size), Ok(log.len() as u64));
        }
    }
}

#[test]
fn one_extent_at_the_last_slot_and_after_it() {
    let (_, answers) = read_all(&[5; SLOTS + 1]);
    assert_eq!(answers[SLOTS - 1], reading(1, 1, 1));
    assert_eq!(answers[SLOTS], reading(1, DIGITS, 1));
}

#[test]
fn all_extents_and_another() {
    let extents: Vec<u32> = (0..LAST).collect();
    let (mut session, answers) = read_all(&extents);
    let wanted = (1..=LAST).map(|number| reading(COLD_BASE + number, 0, number - 1));
    assert_eq!(answers, wanted.collect::<Vec<Answer<Reading>>>());
    assert_eq!(calls::session_read(&mut session, LAST), Err(refusal::EXTENTS));
    assert_eq!(calls::session_read(&mut session, 0), reading(LAST, DIGITS, LAST));
    assert_eq!(calls::session_read(&mut session, LAST), Err(refusal::EXTENTS));
}

#[test]
fn read_1048576_and_the_next() {
    let mut random = Random::new(1);
    let mut session = made::session_over(&mut random, &[5], 1_048_574, 1);
    assert_eq!(session[READS], 1_048_575);
    assert_eq!(calls::session_read(&mut session, 5), reading(1, DIGITS, 1));
    assert_eq!(session[READS], 1_048_576);
    assert_eq!(calls::session_read(&mut session, 5), Err(refusal::READS));
}

#[test]
fn the_sample_plan_and_the_sample_listing() {
    let plan = b"(join\n (seg 4)\n (join\n  (seg 1)\n  (seg 2)))\n";
    let carried = calls::plan(plan, &SEVEN, 2 * LEVEL_WORDS, 11).expect("the sample plan");
    assert_eq!((carried.words, carried.cleared), (SUMMARY.to_vec(), 2 * LEVEL_WORDS));
    let log = b"(trace\n (read 7)\n (read 3)\n (read 7)\n (read 9)\n (read 3)\n (read 3)\n (read 9))\n";
    let listing = b"(sizing\n (reads 7)\n (cold 3)\n (at 1 6)\n (at 2 4)\n (at 3 3))\n";
    assert_eq!(calls::list(log, LISTING_BYTES), Ok(listing.to_vec()));
    assert_eq!(calls::list(b"(trace)\n", LISTING_BYTES), Ok(b"(sizing\n (reads 0)\n (cold 0))\n".to_vec()));
}

#[test]
fn counts_from_both_sides_are_not_added() {
    // 1 2, then 2 1: the last read has distance 2; to add 1 extent in R and 1 in F would give 3
    let (a, b) = ([2, 2, 1, 2, 2, 1, 0, 0], [2, 2, 2, 1, 1, 2, 0, 0]);
    assert_eq!(calls::join(&a, &b, 8), Ok(vec![4, 2, 1, 2, 1, 2, 1, 1]));
}

#[test]
fn first_reads_of_a_part_are_not_cold_after_a_prefix() {
    // 4, then 4: one cold read, and one of distance 1
    let four = [1, 1, 4, 4, 0];
    assert_eq!(calls::join(&four, &four, 5), Ok(vec![2, 1, 4, 4, 1]));
    assert_eq!(calls::distances(&four, &[4], 1), Ok(vec![1]));
}

#[test]
fn the_last_place_of_a_repeated_extent_is_kept() {
    // 1 2, then 1: R is 1 2, and the 1 stands where the later part read it
    let (a, b) = ([2, 2, 1, 2, 2, 1, 0, 0], [1, 1, 1, 1, 0]);
    assert_eq!(calls::join(&a, &b, 8), Ok(vec![3, 2, 1, 2, 1, 2, 0, 1]));
    assert_eq!(calls::summarize(&[1, 2, 1], 8), Ok(vec![3, 2, 1, 2, 1, 2, 0, 1]));
}

#[test]
fn what_stands_before_is_counted_in_first_of_b() {
    // 1, then 1 2: before 1 nothing stands in F of B, but 2 stands in R of B
    let (a, b) = ([1, 1, 1, 1, 0], [2, 2, 1, 2, 2, 1, 0, 0]);
    assert_eq!(calls::join(&a, &b, 8), Ok(vec![3, 2, 1, 2, 2, 1, 1, 0]));
}
