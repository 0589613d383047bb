//! Sessions read by read, word for word.

use jemqolu_tests::plain::last_slots::zeros;
use jemqolu_tests::plain::session::{self, Reading, FIRSTS, NEXT, READS, SLOTS, WORDS};
use jemqolu_tests::plain::summary::{self, MOST_WORDS};
use jemqolu_tests::plain::{COLD_BASE, MAX_EXTENTS, MAX_READS};
use jemqolu_tests::random::Random;
use jemqolu_tests::room::{rooms, within};
use jemqolu_tests::tally::Tally;
use jemqolu_tests::{calls, made, refusal};

/// Compares one more read of a session, its answer and its words, and goes on to the session after it.
fn step(tally: &mut Tally, words: &mut Vec<u32>, extent: u32) {
    let mut wanted = words.clone();
    let answer = session::read(&mut wanted, extent);
    let got = calls::session_read(words, extent);
    tally.same(got, answer, &(extent, &wanted));
    tally.same(&*words, &wanted, &extent);
}

/// Compares the summary of a session in buffers of all lengths of interest.
fn compare_summary(tally: &mut Tally, words: &[u32]) {
    let wanted = session::summary(words);
    for room in rooms(&wanted) {
        tally.same(calls::session_summary(words, room), within(&wanted, room), &(words, room));
    }
}

/// Compares all reads of up to so many of these extents, from a session.
fn all_reads(tally: &mut Tally, words: &[u32], extents: &[u32], longest: usize) {
    compare_summary(tally, words);
    if longest == 0 {
        return;
    }
    for extent in extents {
        let mut words = words.to_vec();
        step(tally, &mut words, *extent);
        all_reads(tally, &words, extents, longest - 1);
    }
}

#[test]
fn new_sessions() {
    let mut tally = Tally::new("new sessions");
    for room in [0, 1, WORDS - 1, WORDS, WORDS + 1, WORDS + 51, 3 * WORDS] {
        let wanted = if room < WORDS { Err(refusal::ROOM) } else { Ok(session::new()) };
        tally.same(calls::session_new(room), wanted, &room);
    }
    tally.at_least(7);
}

#[test]
fn all_short_traces() {
    let mut tally = Tally::new("sessions of all short traces");
    let new = calls::session_new(WORDS).expect("a new session");
    all_reads(&mut tally, &new, &[0, 4096, u32::MAX], 6);
    all_reads(&mut tally, &new, &[1, 0, 1025], 4);
    tally.at_least(8000);
}

#[test]
fn all_short_traces_before_and_after_the_marks_move() {
    let mut tally = Tally::new("sessions where the marks move");
    let mut random = Random::new(81);
    for next in [SLOTS - 2, SLOTS - 1, SLOTS] {
        for known in [&[][..], &[9], &[9, 0], &[0, 1024, 9]] {
            let words = made::session_over(&mut random, known, 6, next);
            all_reads(&mut tally, &words, &[9, 0, 2048], 4);
        }
    }
    tally.at_least(10_000);
}

#[test]
fn random_traces() {
    let mut tally = Tally::new("sessions of random traces");
    let mut random = Random::new(82);
    for round in 0..12 {
        let most = [3, 40, MAX_EXTENTS][round % 3];
        let trace = made::trace(&mut random, 2 * SLOTS + 376, most);
        let mut words = calls::session_new(WORDS).expect("a new session");
        for extent in &trace {
            step(&mut tally, &mut words, *extent);
        }
        compare_summary(&mut tally, &words);
        tally.same(calls::session_summary(&words, MOST_WORDS), Ok(summary::of(&trace)), &trace);
    }
    tally.at_least(12 * SLOTS as u64);
}

#[test]
fn every_slot_of_the_tree() {
    let mut tally = Tally::new("a mark in every slot");
    let mut random = Random::new(83);
    for slot in 0..SLOTS {
        let mut words = made::session_over(&mut random, &[5], 3, 0);
        words[session::SLOT][slot] = 5;
        let leaves: Vec<u32> = (0..SLOTS).map(|other| u32::from(other == slot)).collect();
        session::set_leaves(&mut words, &leaves);
        words[NEXT] = slot as u32 + 1;
        let next = if slot + 1 == SLOTS { 0 } else { slot };
        let wanted = Reading { word: 1, sums_read: zeros(next), slots_looked: 1 };
        tally.same(calls::session_read(&mut words.clone(), 5), Ok(wanted), &slot);
        step(&mut tally, &mut words, 5);
    }
    tally.at_least(3 * SLOTS as u64);
}

#[test]
fn sessions_that_no_trace_has() {
    let mut tally = Tally::new("sessions that no trace has");
    let mut random = Random::new(84);
    for _ in 0..400 {
        let mut words = made::session(&mut random);
        compare_summary(&mut tally, &words);
        for _ in 0..8 {
            let (known, new) = (random.of(&words[FIRSTS]), random.word());
            let extent = random.of(&[known, known, new, 0]);
            step(&mut tally, &mut words, extent);
        }
    }
    tally.at_least(8000);
}

#[test]
fn words_past_a_session() {
    let mut tally = Tally::new("sessions with words past them");
    let mut random = Random::new(85);
    for past in [1, 2, 7, 400, WORDS] {
        for _ in 0..12 {
            let mut words = made::session(&mut random);
            words.extend((0..past).map(|_| random.word()));
            compare_summary(&mut tally, &words);
            for _ in 0..4 {
                let extent = random.of(&words[FIRSTS]);
                step(&mut tally, &mut words, extent);
            }
        }
    }
    tally.at_least(700);
}

#[test]
fn at_the_limit_of_extents() {
    let mut tally = Tally::new("sessions at the limit of extents");
    let mut random = Random::new(86);
    let mut refused = 0;
    for next in [MAX_EXTENTS, MAX_EXTENTS + 1, MAX_EXTENTS + 44, SLOTS - 1, SLOTS] {
        for _ in 0..6 {
            let extents = made::extents(&mut random, MAX_EXTENTS + 1);
            let (another, known) = extents.split_last().expect("one extent or more");
            let mut words = made::session_over(&mut random, known, 20, next);
            for extent in [*another, known[0], *another, known[MAX_EXTENTS - 1], known[MAX_EXTENTS - 1]] {
                refused += u32::from(session::read(&mut words.clone(), extent) == Err(refusal::EXTENTS));
                step(&mut tally, &mut words, extent);
            }
            let mut words = made::session_over(&mut random, &known[1..], 20, next);
            for extent in [*another, known[0], known[1]] {
                refused += u32::from(session::read(&mut words.clone(), extent) == Err(refusal::EXTENTS));
                step(&mut tally, &mut words, extent);
            }
        }
    }
    assert_eq!(refused, 90, "the reads of an extent past the limit");
    tally.at_least(480);
}

#[test]
fn at_the_limit_of_reads() {
    let mut tally = Tally::new("sessions at 1,048,576 reads");
    let mut random = Random::new(87);
    for count in [1, 2, MAX_EXTENTS - 1, MAX_EXTENTS] {
        for left in [0, 1, 2] {
            for next in [MAX_EXTENTS, MAX_EXTENTS + 144, SLOTS] {
                let extents = made::extents(&mut random, count + 1);
                let warm = MAX_READS as usize - left - count;
                let mut words = made::session_over(&mut random, &extents[1..], warm, next);
                tally.same(u64::from(words[READS]), MAX_READS - left as u64, &count);
                for extent in [extents[1], extents[0], extents[1], extents[0]] {
                    step(&mut tally, &mut words, extent);
                }
                compare_summary(&mut tally, &words);
            }
        }
    }
    tally.at_least(500);
}

#[test]
fn refusals_in_order() {
    let mut tally = Tally::new("sessions that are refused for two or three reasons");
    let mut random = Random::new(88);
    let (known, another): (Vec<u32>, u32) = ((0..MAX_EXTENTS as u32).collect(), MAX_EXTENTS as u32);
    let next = MAX_EXTENTS + 44;
    let mut session = |known: &[u32], reads: usize, damaged: bool| {
        let mut words = made::session_over(&mut random, known, reads - known.len(), next);
        words[session::COUNT] ^= u32::from(damaged);
        words
    };
    let most = MAX_READS as usize;
    let accepted = Reading { word: COLD_BASE as usize + MAX_EXTENTS, sums_read: 0, slots_looked: next as u32 };
    for (known, reads, damaged, wanted) in [
        (&known[..], most, true, Err(refusal::STATE)),
        (&known[..], most - 1, true, Err(refusal::STATE)),
        (&known[..1], most, true, Err(refusal::STATE)),
        (&known[..], most, false, Err(refusal::READS)),
        (&known[..1], most, false, Err(refusal::READS)),
        (&known[..], most - 1, false, Err(refusal::EXTENTS)),
        (&known[1..], most - 1, false, Ok(accepted)),
    ] {
        let mut words = session(known, reads, damaged);
        let wanted_summary = if damaged { Err(refusal::STATE) } else { Err(refusal::ROOM) };
        tally.same(calls::session_summary(&words, 1 + 3 * known.len()), wanted_summary, &reads);
        tally.same(calls::session_read(&mut words.clone(), another), wanted, &(reads, damaged));
        step(&mut tally, &mut words, another);
    }
    tally.at_least(28);
}
