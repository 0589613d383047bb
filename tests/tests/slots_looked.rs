//! The slots looked at: from the slot below next down to the extent's mark, or all of them for a cold read.

use jemqolu_tests::long_logs::{self, KINDS, LONG, MOVES};
use jemqolu_tests::plain::last_slots::{self, zeros};
use jemqolu_tests::plain::session::{self, Reading, COUNT, COUNTS, DIGITS, FIRSTS, NEXT, READS, SLOT, SLOTS, WORDS};
use jemqolu_tests::plain::{trace, COLD_BASE, MAX_EXTENTS, MAX_READS};
use jemqolu_tests::random::Random;
use jemqolu_tests::tally::Tally;
use jemqolu_tests::{calls, ffi, made, refusal, spread, Answer};
use std::sync::OnceLock;

/// What may stand in the places for the sums read and the slots looked at before a read.
const PLACES: [[u32; 2]; 4] = [[77, 78], [0, 0], [u32::MAX, 1], [1, u32::MAX]];

/// A read's answer, and the next slot that it found after any move of the marks.
struct Found {
    reading: Reading,
    next: u32,
}

/// One more read of a session, and what it found.
fn read_one(words: &mut [u32], extent: u32) -> Found {
    let reading = calls::session_read(words, extent).expect("a read within the limits");
    Found { reading, next: words[NEXT] - 1 }
}

/// The session that has read a log, from a new one, and what each read found.
fn read_all(reads: &[u32]) -> (Vec<u32>, Vec<Found>) {
    let mut words = calls::session_new(WORDS).expect("a new session");
    let found = reads.iter().map(|extent| read_one(&mut words, *extent)).collect();
    (words, found)
}

/// A long log, what each read of it found, and the plain session's answers, with whether both have the same words then.
struct Run {
    reads: Vec<u32>,
    found: Vec<Found>,
    plain: Vec<(Reading, bool)>,
}

/// A long log read by a session and by the plain one beside it.
fn run(reads: Vec<u32>) -> Run {
    let (mut words, mut wanted) = (calls::session_new(WORDS).expect("a new session"), session::new());
    let (mut found, mut plain) = (Vec::new(), Vec::new());
    for extent in &reads {
        found.push(read_one(&mut words, *extent));
        plain.push((session::accept(&mut wanted, *extent), words == wanted));
    }
    Run { reads, found, plain }
}

/// The long logs, read once for all tests.
fn long_runs() -> &'static [Run] {
    static RUNS: OnceLock<Vec<Run>> = OnceLock::new();
    RUNS.get_or_init(|| long_logs::all(&mut Random::new(181)).into_iter().map(run).collect())
}

/// Whether the marks moved before a read.
fn moved(found: &[Found], read: usize) -> bool {
    read > 0 && found[read].next < found[read - 1].next
}

/// A read with these words in the two places, which stand side by side: its answer, and what they hold after it.
fn read_into(words: &mut [u32], extent: u32, places: [u32; 2]) -> (Answer<usize>, [u32; 2]) {
    let mut places = places;
    let [sums_read, slots_looked] = &mut places;
    (ffi::session_read(words, extent, sums_read, slots_looked), places)
}

#[test]
fn long_logs_by_the_log_alone() {
    let mut tally = Tally::new("answers of long logs by the log alone");
    for (kind, Run { reads, found, .. }) in long_runs().iter().enumerate() {
        for (read, wanted) in last_slots::readings(reads).into_iter().enumerate() {
            tally.same(found[read].reading, wanted, &(kind, read, reads[read]));
        }
        let moves = (0..LONG).filter(|read| moved(found, *read)).count();
        assert!(moves >= MOVES, "{moves} moves of the marks in a log of kind {kind}");
    }
    tally.at_least((KINDS * LONG) as u64);
}

/// The slots looked at, counted on the reads. Where the marks have not moved since the extent's previous read, each read
/// from that one on has set one mark. Where they have, the marks that moved and stood no lower than the extent's are those
/// of the different extents from its previous read up to the move. A cold read looks at the slots of all.
fn counted(reads: &[u32]) -> Vec<u32> {
    let (mut last_move, mut gathered) = (0, 0);
    let mut counts = Vec::new();
    for (read, extent) in reads.iter().enumerate() {
        if gathered + read - last_move == SLOTS {
            (last_move, gathered) = (read, trace::different(&reads[..read]));
        }
        let count = match reads[..read].iter().rposition(|other| other == extent) {
            Some(previous) if previous >= last_move => read - previous,
            Some(previous) => read - last_move + trace::different(&reads[previous..last_move]),
            None => read - last_move + gathered,
        };
        counts.push(count as u32);
    }
    counts
}

#[test]
fn long_logs_counted_on_the_reads() {
    let mut tally = Tally::new("slots looked at, counted on the reads");
    for (kind, Run { reads, found, .. }) in long_runs().iter().enumerate() {
        for (read, wanted) in counted(reads).into_iter().enumerate() {
            tally.same(found[read].reading.slots_looked, wanted, &(kind, read, reads[read]));
        }
    }
    tally.at_least((KINDS * LONG) as u64);
}

#[test]
fn long_logs_and_the_plain_session() {
    let mut tally = Tally::new("distances, numbers, sums read and words of long logs");
    for (kind, Run { reads, found, plain }) in long_runs().iter().enumerate() {
        let distances = calls::distances(&[0, 0], reads, LONG).expect("a trace within the limits");
        for (read, (wanted, same_words)) in plain.iter().enumerate() {
            let got = found[read].reading;
            tally.same((got.word, got.sums_read), (wanted.word, wanted.sums_read), &(kind, read));
            tally.same(got.word as u32, distances[read], &(kind, read));
            tally.same(*same_words, true, &(kind, read));
        }
    }
    tally.at_least((3 * KINDS * LONG) as u64);
}

#[test]
fn laws_of_long_logs() {
    let mut tally = Tally::new("laws of the slots looked at");
    let (mut cold, mut again, mut again_moved, mut any_moved) = (0, 0, 0, 0);
    for (kind, Run { reads, found, .. }) in long_runs().iter().enumerate() {
        for (read, Found { reading, next }) in found.iter().enumerate() {
            let (slots_looked, context) = (reading.slots_looked, (kind, read, reading, next));
            tally.same(slots_looked <= *next && *next < SLOTS as u32, true, &context);
            if trace::is_cold(reading.word as u32) {
                cold += 1;
                tally.same(slots_looked, *next, &context);
                continue;
            }
            tally.same(slots_looked as usize >= reading.word, true, &context);
            if moved(found, read) {
                any_moved += 1;
                tally.same(slots_looked as usize, reading.word, &context);
            }
            if reads[read] == reads[read - 1] {
                again += 1;
                again_moved += usize::from(moved(found, read));
                tally.same(slots_looked, 1, &context);
            }
        }
    }
    // the log of one extent is read again at all its moves, that of three at a third of its reads
    let seen = (again, again_moved, any_moved);
    assert!(again >= 5 * LONG / 4 && again_moved >= MOVES && any_moved >= KINDS * MOVES / 2, "{seen:?}");
    tally.same(cold, long_runs().iter().map(|run| trace::different(&run.reads)).sum(), &seen);
    tally.at_least((2 * KINDS * LONG + again) as u64);
}

#[test]
fn one_extent_across_moves_of_the_marks() {
    let mut tally = Tally::new("one extent read often");
    let (_, found) = read_all(&[5; 3 * SLOTS + 64]);
    let at = |read: usize| (found[read - 1].reading, found[read - 1].next);
    let warm = |sums_read: u32| Reading { word: 1, sums_read, slots_looked: 1 };
    tally.same(at(1), (Reading { word: COLD_BASE as usize + 1, sums_read: 0, slots_looked: 0 }, 0), &1);
    // the second read finds the mark in slot 0, and so does each read before which the marks move
    for read in 2..=found.len() {
        let next = 1 + (read - 2) % (SLOTS - 1);
        tally.same(at(read), (warm(zeros(next - 1)), next as u32), &read);
    }
    tally.same(at(SLOTS), (warm(1), SLOTS as u32 - 1), &SLOTS);
    for moved in [SLOTS + 1, 2 * SLOTS, 3 * SLOTS - 1] {
        tally.same(at(moved), (warm(DIGITS), 1), &moved);
    }
    tally.at_least(3 * SLOTS as u64 + 64 + 4);
}

#[test]
fn every_extent_straight_after_the_marks_moved() {
    let mut tally = Tally::new("reads of every extent straight after the marks moved");
    for v in spread::numbers_of_extents(MAX_EXTENTS / 8).into_iter().filter(|v| *v > 0) {
        let words = session::of(&(0..SLOTS).map(|read| (read % v) as u32).collect::<Vec<u32>>());
        assert_eq!(words[NEXT] as usize, SLOTS, "the marks move before the next read");
        for distance in spread::places_of(1..v + 1, 1 + v / 40, v) {
            let extent = (SLOTS - distance) % v;
            let wanted = Reading { word: distance, sums_read: zeros(v - distance), slots_looked: distance as u32 };
            tally.same(calls::session_read(&mut words.clone(), extent as u32), Ok(wanted), &(v, distance));
        }
        let cold = Reading { word: COLD_BASE as usize + v + 1, sums_read: 0, slots_looked: v as u32 };
        let wanted = if v == MAX_EXTENTS { Err(refusal::EXTENTS) } else { Ok(cold) };
        tally.same(calls::session_read(&mut words.clone(), MAX_EXTENTS as u32), wanted, &v);
    }
    tally.at_least(500);
}

/// The leaves of one mark.
fn one_leaf(slot: usize) -> Vec<u32> {
    (0..SLOTS).map(|other| u32::from(other == slot)).collect()
}

#[test]
fn every_slot_below_the_next() {
    let mut tally = Tally::new("one mark in every slot below many nexts");
    for slot in 0..SLOTS {
        // the slots without a mark hold 0, which is an extent too
        let (extent, another) = if slot % 2 == 0 { (0, 5) } else { (5, 0) };
        let mut words = session::new();
        (words[READS], words[FIRSTS.start], words[COUNTS.start]) = (4, extent, 3);
        words[SLOT][slot] = extent;
        session::set_leaves(&mut words, &one_leaf(slot));
        // the nexts next to the slot, the last ones, and one in so many between, others for each slot
        for next in spread::places_of(slot + 1..SLOTS + 1, SLOTS / 8, slot) {
            words[NEXT] = next as u32;
            let (slot, next) = if next == SLOTS { (0, 1) } else { (slot, next) };
            let wanted = Reading { word: 1, sums_read: zeros(slot), slots_looked: (next - slot) as u32 };
            tally.same(calls::session_read(&mut words.clone(), extent), Ok(wanted), &(slot, next));
            let wanted = Reading { word: COLD_BASE as usize + 2, sums_read: 0, slots_looked: next as u32 };
            tally.same(calls::session_read(&mut words.clone(), another), Ok(wanted), &(slot, next));
        }
    }
    tally.at_least(12 * SLOTS as u64);
}

#[test]
fn at_the_limit_of_extents_where_the_marks_move_next() {
    let mut tally = Tally::new("all extents and the marks about to move");
    let mut random = Random::new(182);
    let extents = made::extents(&mut random, MAX_EXTENTS + 1);
    let (another, known) = extents.split_last().expect("one extent or more");
    let reads = [known, &made::trace_over(&mut random, known, SLOTS - MAX_EXTENTS)].concat();
    let (mut words, _) = read_all(&reads);
    assert_eq!(words[NEXT] as usize, SLOTS, "the marks move before the next read");
    let before = words.clone();
    for places in PLACES {
        tally.same(read_into(&mut words, *another, places), (Err(refusal::EXTENTS), places), &places);
        tally.same(words == before, true, &places);
    }
    for (extent, distance) in trace::recents(&reads).into_iter().zip(1..) {
        let mut words = before.clone();
        let sums_read = zeros(MAX_EXTENTS - distance);
        let wanted = Reading { word: distance, sums_read, slots_looked: distance as u32 };
        tally.same(calls::session_read(&mut words, extent), Ok(wanted), &distance);
        tally.same(words[NEXT] as usize, MAX_EXTENTS + 1, &distance);
        let wanted = Reading { word: 1, sums_read: zeros(MAX_EXTENTS), slots_looked: 1 };
        tally.same(calls::session_read(&mut words, extent), Ok(wanted), &distance);
    }
    tally.at_least(8 + 3 * MAX_EXTENTS as u64);
}

#[test]
fn refusals_leave_both_places() {
    let mut tally = Tally::new("refused reads and what was lent to them");
    let mut random = Random::new(183);
    let (known, another): (Vec<u32>, u32) = ((0..MAX_EXTENTS as u32).collect(), MAX_EXTENTS as u32);
    let (few, most) = (3 * MAX_EXTENTS, MAX_READS as usize);
    let nexts = [MAX_EXTENTS, MAX_EXTENTS + 44, SLOTS - 1, SLOTS];
    for (damaged, reads, extents, wanted) in [
        (true, few, 3, refusal::STATE),
        (false, most, 3, refusal::READS),
        (false, few, MAX_EXTENTS, refusal::EXTENTS),
        (true, most, 3, refusal::STATE),
        (true, few, MAX_EXTENTS, refusal::STATE),
        (false, most, MAX_EXTENTS, refusal::READS),
        (true, most, MAX_EXTENTS, refusal::STATE),
    ] {
        for (next, places) in nexts.into_iter().flat_map(|next| PLACES.map(|places| (next, places))) {
            let mut words = made::session_over(&mut random, &known[..extents], reads - extents, next);
            words[COUNT] ^= u32::from(damaged);
            let before = words.clone();
            // a known extent is refused too, but for 9
            let read = if wanted == refusal::EXTENTS { vec![another] } else { vec![another, 1] };
            for extent in read {
                let context = (damaged, reads, extents, next, extent);
                tally.same(read_into(&mut words, extent, places), (Err(wanted), places), &context);
                tally.same(words == before, true, &context);
            }
        }
    }
    tally.at_least(416);
}

#[test]
fn accepted_reads_set_both_places() {
    let mut tally = Tally::new("accepted reads and the places lent to them");
    let reads = [7, 3, 7, 9, 3, 3, 9];
    // the warm reads find their extents in the slots 0, 1, 4 and 3
    let (sums_read, slots_looked) = ([0, 0, zeros(0), 0, zeros(1), zeros(4), zeros(3)], [0, 1, 2, 3, 3, 1, 3]);
    for places in PLACES {
        let (mut words, mut other) = (session::new(), session::new());
        for (read, extent) in reads.into_iter().enumerate() {
            let (answer, held) = read_into(&mut words, extent, places);
            tally.same((answer.is_ok(), held), (true, [sums_read[read], slots_looked[read]]), &(read, places));
            let mut turned = places;
            let [second, first] = &mut turned;
            let answer = ffi::session_read(&mut other, extent, first, second);
            tally.same((answer.is_ok(), turned), (true, [slots_looked[read], sums_read[read]]), &(read, places));
        }
        tally.same(&words, &other, &places);
    }
    tally.at_least(60);
}

#[test]
fn refused_reads_are_not_counted() {
    let mut tally = Tally::new("slots looked at with refused reads between");
    let mut random = Random::new(184);
    let pool = made::extents(&mut random, 3 * MAX_EXTENTS);
    let mut words = calls::session_new(WORDS).expect("a new session");
    let (mut accepted, mut answers, mut moving) = (Vec::new(), Vec::new(), 0);
    for _ in 0..30_000 {
        let (extent, next) = (random.of(&pool), words[NEXT]);
        match calls::session_read(&mut words, extent) {
            Ok(reading) => {
                accepted.push(extent);
                answers.push(reading);
            }
            Err(number) => {
                tally.same(number, refusal::EXTENTS, &extent);
                moving += u32::from(next as usize == SLOTS);
            }
        }
    }
    assert!(moving >= 5, "{moving} reads refused where the marks move before the next");
    for (read, wanted) in last_slots::readings(&accepted).into_iter().enumerate() {
        tally.same(answers[read], wanted, &(read, accepted[read]));
    }
    tally.at_least(30_000);
}
