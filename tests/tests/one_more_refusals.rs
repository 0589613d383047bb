//! What refuses one more read: each condition by itself and all of them together, in their order, and the numbers about
//! which they begin. The calls compare every lent word before and after.

use jemqolu_tests::plain::{one_more, MAX_EXTENTS, MAX_READS};
use jemqolu_tests::random::Random;
use jemqolu_tests::tally::Tally;
use jemqolu_tests::{calls, made, refusal};

const MOST: usize = MAX_READS as usize;

/// Sizes to try; none makes a difference to what is refused.
const SIZES: [u32; 5] = [0, 1, 3, MAX_EXTENTS as u32, u32::MAX];

/// What is wrong with a call, in the order in which it is refused.
const FAULTS: [(&str, i64); 3] = [("place", refusal::NUMBER), ("reads", refusal::READS), ("extents", refusal::EXTENTS)];

/// Places past the end of a log, some of which are places in it modulo a power of two.
fn past(len: usize) -> Vec<usize> {
    let powers = (0..usize::BITS).filter_map(|power| len.checked_add(1 << power));
    powers.chain([len + 3, 2 * len + 1, usize::MAX - 1, usize::MAX]).collect()
}

/// A log with a place and an extent that have these faults, each in one of several ways.
fn call_with(random: &mut Random, faults: &[&str]) -> (Vec<u32>, usize, u32) {
    let (few, many) = ([MOST - 1, MOST - 1, 3 * MAX_EXTENTS], [MOST, MOST, MOST + 1]);
    let reads = random.of(if faults.contains(&"reads") { &many } else { &few });
    let (count, known) = if faults.contains(&"extents") {
        random.of(&[(MAX_EXTENTS, false), (MAX_EXTENTS + 1, true), (MAX_EXTENTS + 1, false), (3 * MAX_EXTENTS, true)])
    } else {
        random.of(&[(MAX_EXTENTS, true), (MAX_EXTENTS - 1, false), (4, false)])
    };
    let all = made::extents(random, count + 1);
    let (another, extents) = all.split_last().expect("an extent");
    let log = made::trace_of_all(random, extents, 3, reads);
    let any = random.below(reads + 1);
    let place = random.of(&if faults.contains(&"place") { past(reads) } else { vec![0, reads, any, any] });
    (log, place, if known { random.of(extents) } else { *another })
}

#[test]
fn every_set_of_faults() {
    let mut tally = Tally::new("faults of one more read, all sets of them");
    let mut random = Random::new(211);
    for set in 0..1 << FAULTS.len() {
        let chosen = (0..FAULTS.len()).filter(|place| set >> place & 1 == 1);
        let faults: Vec<(&str, i64)> = chosen.map(|place| FAULTS[place]).collect();
        let names: Vec<&str> = faults.iter().map(|(name, _)| *name).collect();
        for round in 0..16 {
            let (log, place, extent) = call_with(&mut random, &names);
            let size = SIZES[round % SIZES.len()];
            let wanted = match faults.first() {
                Some((_, number)) => Err(*number),
                None => Ok(one_more::change(&log, place, extent, size)),
            };
            tally.same(calls::one_more(&log, place, extent, size), wanted, &(&names, log.len(), place, extent, size));
        }
    }
    tally.at_least(8 * 16);
}

#[test]
fn places_past_the_end() {
    let mut tally = Tally::new("one more read at the end of a log, and past it");
    let mut random = Random::new(212);
    for len in (0..12).chain([255, 256, 1023, 1024, 1025, 65_535, 65_536]) {
        let extents = made::extents(&mut random, 5);
        let log = made::trace_over(&mut random, &extents, len);
        for (extent, size) in [extents[0], made::another(&log)].into_iter().zip([2, u32::MAX]) {
            let end = Ok(one_more::change(&log, len, extent, size));
            tally.same(calls::one_more(&log, len, extent, size), end, &(len, extent, size));
            for place in past(len) {
                tally.same(calls::one_more(&log, place, extent, size), Err(refusal::NUMBER), &(len, place));
            }
        }
    }
    tally.at_least(19 * 2 * 60);
}

#[test]
fn all_reads_and_one_more() {
    let mut tally = Tally::new("one more read in logs of all reads that there may be, and of one less");
    for extents in [&[5][..], &[1, 2, 3, u32::MAX]] {
        let log: Vec<u32> = extents.iter().copied().cycle().take(MOST + 2).collect();
        for (place, size) in [0, 1, MOST / 2, MOST - 2, MOST - 1].into_iter().zip(SIZES) {
            let extent = extents[place % extents.len()];
            // before a read of the same extent, or at a size at which nothing leaves
            let change = Ok(i64::from(size == 0));
            tally.same(calls::one_more(&log[..MOST - 1], place, extent, size), change, &(place, extent, size));
            for (len, extent) in
                [MOST, MOST + 1, MOST + 2].into_iter().flat_map(|len| [extent, 77].map(|one| (len, one)))
            {
                tally.same(calls::one_more(&log[..len], place, extent, size), Err(refusal::READS), &(len, place));
            }
        }
        tally.same(calls::one_more(&log[..MOST], MOST, 5, 3), Err(refusal::READS), &MOST);
        tally.same(calls::one_more(&log[..MOST], MOST + 1, 5, 3), Err(refusal::NUMBER), &MOST);
        tally.same(calls::one_more(&log[..MOST - 1], MOST, 5, 3), Err(refusal::NUMBER), &MOST);
    }
    tally.at_least(2 * (5 * 7 + 3));
}

#[test]
fn all_extents_and_one_more() {
    let mut tally = Tally::new("one more read in logs of all extents that there may be, of one less and of one more");
    let mut random = Random::new(213);
    let all = made::extents(&mut random, MAX_EXTENTS + 2);
    let (new, size) = (all[MAX_EXTENTS + 1], MAX_EXTENTS as u32);
    let refused = Err(refusal::EXTENTS);
    // nothing leaves, so that a read misses where its extent is new
    for (count, with_known, with_new) in
        [(MAX_EXTENTS - 1, Ok(0), Ok(1)), (MAX_EXTENTS, Ok(0), refused), (MAX_EXTENTS + 1, refused, refused)]
    {
        let log = &all[..count];
        for place in 0..=count {
            let known = random.of(log);
            tally.same(calls::one_more(log, place, known, size), with_known, &(count, place, known));
            tally.same(calls::one_more(log, place, new, size), with_new, &(count, place, new));
        }
        tally.same(calls::one_more(log, count + 1, new, size), Err(refusal::NUMBER), &(count, new));
    }
    tally.at_least(2 * (1024 + 1025 + 1026) + 3);
}

#[test]
fn extents_that_are_too_many_before_the_place_and_after_it() {
    let mut tally = Tally::new("one more read after too many extents, before them and among them");
    let mut random = Random::new(214);
    for round in 0..60 {
        let extents = made::extents(&mut random, MAX_EXTENTS + 1);
        let (few, count) = (&extents[..4], MAX_EXTENTS + round % 2);
        let [front, back] = [0, 1].map(|_| made::trace_over(&mut random, few, 1500));
        let log = [&front[..], &extents[..count], &back].concat();
        for place in [0, front.len(), front.len() + count / 2, front.len() + count, log.len()] {
            let size = random.of(&SIZES);
            for (extent, too_many) in [(few[0], count > MAX_EXTENTS), (made::another(&log), true)] {
                let got = calls::one_more(&log, place, extent, size);
                let change = one_more::change(&log, place, extent, size);
                tally.same(got, if too_many { Err(refusal::EXTENTS) } else { Ok(change) }, &(round, place, size));
            }
        }
    }
    tally.at_least(60 * 5 * 2);
}
