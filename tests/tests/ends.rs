//! Inputs that end where the memory behind them would go on well: nothing past an end is read.

use jemqolu_tests::plain::plans::{self, Plan, LEVEL_WORDS};
use jemqolu_tests::plain::session::{self, WORDS};
use jemqolu_tests::plain::summary::{self, MOST_WORDS};
use jemqolu_tests::plain::{logs, one_more, smallest, splits, trace, watch, COLD_BASE};
use jemqolu_tests::random::Random;
use jemqolu_tests::tally::Tally;
use jemqolu_tests::{ffi, made, Answer};

/// What a call wrote to the front of a buffer.
fn front<T: Copy>(answer: Answer<usize>, out: &[T]) -> Answer<Vec<T>> {
    answer.map(|len| out[..len].to_vec())
}

#[test]
fn summaries() {
    let mut tally = Tally::new("summaries that end early");
    let other = summary::of(&[7, 3, 7]);
    for whole in [summary::of(&[4]), summary::of(&[7, 3, 7, 9, 3, 3, 9]), summary::of(&[1, 2, 1, 2]), vec![0, 0, 0]] {
        for len in 0..=whole.len() {
            let words = &whole[..len];
            let (mut out, mut share) = ([0; 40], 0.0);
            tally.same(front(ffi::join(words, &other, &mut out), &out), summary::join(words, &other), &words);
            tally.same(front(ffi::join(&other, words, &mut out), &out), summary::join(&other, words), &words);
            let distances = front(ffi::distances(words, &[3, 3], &mut out), &out);
            tally.same(distances, summary::distances_after(words, &[3, 3]), &words);
            let misses = ffi::misses(words, 1).map(|misses| misses as u64);
            tally.same(misses, summary::misses(words, 1), &words);
            let answer = ffi::share(words, 1, &mut share).map(|some| (some > 0).then_some(share));
            tally.same(answer, summary::share(words, 1), &words);
            for most in 0..=8 {
                let mut words_read = 55;
                let answer = ffi::smallest(words, most, &mut words_read);
                let wanted = smallest::smallest(words, most);
                let left = wanted.map_or(55, |found| found.words_read);
                tally.same((answer, words_read), (wanted.map(|found| found.size), left), &(words, most));
            }
        }
    }
    tally.at_least(31 * (5 + 9));
}

/// Compares a split and every word of a buffer, the front of which is lent.
fn compare_split(tally: &mut Tally, leasts: &[u32], words: &[u32], room: usize) {
    let mut out = [9; 6];
    let misses = ffi::split(4, leasts, words, &mut out[..room]).map(|misses| misses as u64);
    let wanted = splits::within(&splits::split(4, leasts, words), room);
    let mut left = [9; 6];
    let wanted = wanted.map(|split| {
        left[..leasts.len()].copy_from_slice(&split.shares);
        split.misses
    });
    tally.same((misses, out), (wanted, left), &(leasts, words, room));
}

#[test]
fn customers_of_a_store() {
    let mut tally = Tally::new("least shares, summaries and shares that end early");
    let logs = [&[4, 4][..], &[7, 3, 7, 9, 3, 3, 9], &[], &[1, 2, 1, 2], &[5]];
    let whole: Vec<u32> = logs.iter().flat_map(|log| summary::of(log)).collect();
    let leasts = [0, 1, 0, 1, 4, 0];
    for len in 0..=whole.len() {
        for (customers, room) in (0..=6).flat_map(|customers| (0..=6).map(move |room| (customers, room))) {
            compare_split(&mut tally, &leasts[..customers], &whole[..len], room);
        }
    }
    tally.at_least(1500);
}

#[test]
fn traces() {
    let mut tally = Tally::new("traces that end early");
    let mut random = Random::new(151);
    let extents = made::extents(&mut random, 20);
    let whole = made::trace_over(&mut random, &extents, 150);
    let distances = trace::distances(&whole);
    for len in 0..=whole.len() {
        let mut out = [0; 160];
        let wanted = summary::of(&whole[..len]);
        tally.same(front(ffi::summarize(&whole[..len], &mut out), &out), Ok(wanted), &len);
        let got = front(ffi::distances(&[0, 0], &whole[..len], &mut out), &out);
        tally.same(got, Ok(distances[..len].to_vec()), &len);
    }
    tally.at_least(300);
}

#[test]
fn logs_with_one_more_read() {
    let mut tally = Tally::new("logs that end early, with one more read");
    let whole = [7, 3, 7, 9, 3, 3, 9, 5, 7, 3];
    for len in 0..=whole.len() {
        let puts = (0..=whole.len() + 2).flat_map(|place| [7, 3, 9, 5, 4].map(|extent| (place, extent)));
        for ((place, extent), size) in puts.flat_map(|put| [0, 1, 2, 3, 9].map(|size| (put, size))) {
            let mut change = 55;
            let answer = ffi::one_more(&whole[..len], place, extent, size, &mut change);
            let wanted = one_more::one_more(&whole[..len], place, extent, size);
            let left = wanted.unwrap_or(55);
            tally.same((answer, change), (wanted.map(|_| 0), left), &(len, place, extent, size));
        }
    }
    tally.at_least(11 * 13 * 5 * 5);
}

#[test]
fn sessions_and_watches() {
    let mut tally = Tally::new("sessions and watches that end early");
    let mut random = Random::new(152);
    for _ in 0..12 {
        let whole = made::session(&mut random);
        for len in (0..WORDS).step_by(31).chain([WORDS - 2, WORDS - 1]) {
            let (mut words, mut sums_read, mut slots_looked, mut out) = (whole.clone(), 5, 6, [3; MOST_WORDS]);
            let answer = ffi::session_read(&mut words[..len], whole[1], &mut sums_read, &mut slots_looked).map(|_| ());
            tally.same(answer, session::read(&mut whole[..len].to_vec(), whole[1]).map(|_| ()), &len);
            tally.same((words == whole, sums_read, slots_looked), (true, 5, 6), &len);
            let answer = front(ffi::session_summary(&words[..len], &mut out), &out);
            tally.same(answer, session::summary(&whole[..len]), &len);
            let (misses, mut share) = (ffi::session_misses(&words[..len], 1).map(|misses| misses as u64), 0.0);
            tally.same(misses, session::misses(&whole[..len], 1), &len);
            let answer = ffi::session_share(&words[..len], 1, &mut share).map(|some| (some > 0).then_some(share));
            tally.same(answer, session::share(&whole[..len], 1), &len);
        }
    }
    let whole = [3, 9, 4, 2, 1];
    for (len, word) in (0..=whole.len()).flat_map(|len| [2, COLD_BASE + 5, COLD_BASE].map(|word| (len, word))) {
        let (mut words, mut wanted, mut share) = (whole, whole, 0.0);
        let answer = ffi::watch_read(&mut words[..len], word).map(|answer| answer as u64);
        tally.same(answer, watch::read(&mut wanted[..len], word), &(len, word));
        tally.same(words, wanted, &(len, word));
        let misses = ffi::watch_misses(&whole[..len]).map(|misses| misses as u64);
        tally.same(misses, watch::misses(&whole[..len]), &len);
        let answer = ffi::watch_share(&whole[..len], &mut share).map(|some| (some > 0).then_some(share));
        tally.same(answer, watch::share(&whole[..len]), &len);
    }
    tally.at_least(4200);
}

#[test]
fn log_texts() {
    let mut tally = Tally::new("log texts that end early");
    for trace in [&[][..], &[7], &[7, 3, 7], &[4_294_967_295, 0, 12]] {
        let whole = [logs::text(trace), b"\n)))".to_vec()].concat();
        for len in 0..=whole.len() {
            let mut out = [0; 400];
            let got = front(ffi::list(&whole[..len], &mut out), &out);
            tally.same(got, logs::list(&whole[..len]), &String::from_utf8_lossy(&whole[..len]));
        }
    }
    tally.at_least(100);
}

#[test]
fn plans_and_their_logs() {
    let mut tally = Tally::new("plans that end early");
    let inner = Plan::Join(vec![Plan::Seg(10), Plan::Seg(2)]);
    let log: Vec<u32> = (0..40).map(|read| read * read % 11).collect();
    for plan in [Plan::Seg(12), inner.clone(), Plan::Join(vec![Plan::Seg(1), inner, Plan::Seg(3)])] {
        let whole = [plan.text(), b"\n)))".to_vec()].concat();
        let reads = plan.reads() as usize;
        let ends = (0..=whole.len()).map(|len| (len, reads));
        for (len, reads) in ends.chain((0..=log.len()).map(|reads| (plan.text().len(), reads))) {
            let (text, log) = (&whole[..len], &log[..reads]);
            let (mut work, mut out) = (vec![1; 2 * LEVEL_WORDS], [0; 40]);
            let got = front(ffi::plan(text, log, &mut work, &mut out), &out);
            let wanted = plans::carry_out(text, log).map(|carried| carried.words);
            tally.same(got, wanted, &(String::from_utf8_lossy(text), log));
        }
    }
    tally.at_least(200);
}
