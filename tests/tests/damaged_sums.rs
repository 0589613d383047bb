//! Counts and right-hand sums that marks may or may not give. A session is accepted exactly if it is the other form of a
//! sound session with all sums, and then answers as that one does.

use jemqolu_tests::damage::{self, Seen};
use jemqolu_tests::guard::Cell;
use jemqolu_tests::plain::names::NAME_WORDS;
use jemqolu_tests::plain::session::{
    self, COUNT, COUNTS, DIGITS, FIRSTS, NEXT, POINTS, READS, RIGHTS, SLOT, SLOTS, WORDS,
};
use jemqolu_tests::plain::summary::MOST_WORDS;
use jemqolu_tests::plain::{forms, full_session, MAX_EXTENTS};
use jemqolu_tests::random::Random;
use jemqolu_tests::tally::Tally;
use jemqolu_tests::{calls, long_logs, made, refusal, Answer};

/// What a call on the other form answers; refused where there is none.
fn of_full<T>(full: &Option<Vec<u32>>, call: impl Fn(&[u32]) -> Answer<T>) -> Answer<T> {
    full.as_ref().map_or(Err(refusal::STATE), |full| call(full))
}

/// Compares a naming, and a return to the words under a name.
#[track_caller]
fn compare_moments(tally: &mut Tally, words: &[u32], sound: bool) {
    let wanted = if sound { Ok(0) } else { Err(refusal::STATE) };
    let other: Vec<u32> = (0..NAME_WORDS + 2).map(u32::filler).collect();
    let mut names = other.clone();
    tally.same(calls::session_name(words, &mut names, 1), wanted, &sound);
    let named = [&[1], words, &other[NAME_WORDS..]].concat();
    tally.same(names == if sound { named } else { other.clone() }, true, &sound);
    let (names, mut back) = ([&[1], words].concat(), other[..WORDS].to_vec());
    tally.same(calls::session_return(&mut back, &names, 1), wanted, &sound);
    tally.same(back == if sound { words } else { &other[..WORDS] }, true, &sound);
}

/// Compares all calls on a session with those on its other form.
#[track_caller]
fn compare(tally: &mut Tally, seen: &mut Seen, words: &[u32], extent: u32) {
    let full = forms::sound_full(words);
    seen.count(full.is_some());
    let (mut got, mut after) = (words.to_vec(), full.clone());
    let wanted = after.as_mut().map_or(Err(refusal::STATE), |full| full_session::read(full, extent));
    let context = (words[COUNT], session::marks(words), words[NEXT], extent);
    tally.same(calls::session_read(&mut got, extent), wanted, &context);
    tally.same(got == after.map_or_else(|| words.to_vec(), |full| forms::right_hand(&full)), true, &context);
    let wanted = of_full(&full, full_session::summary);
    tally.same(calls::session_summary(words, MOST_WORDS), wanted, &context);
    let size = [0, 1, words[COUNT], u32::MAX][(seen.sound + seen.refused) as usize % 4];
    let wanted = of_full(&full, |full| full_session::misses(full, size));
    tally.same(calls::session_misses(words, size), wanted, &context);
    let (got, wanted) = (calls::session_share(words, size), of_full(&full, |full| full_session::share(full, size)));
    let bits = |share: Option<f64>| share.map(f64::to_bits);
    tally.same(got.map(bits), wanted.map(bits), &context);
    compare_moments(tally, words, full.is_some());
}

/// How many comparisons there are for each session.
const EACH: u64 = 9;

/// A session with these extents in these slots, and four reads that are not cold.
fn marked(marks: &[(usize, u32)], next: usize) -> Vec<u32> {
    let (mut words, mut leaves) = (session::new(), vec![0; SLOTS]);
    for (place, (slot, extent)) in marks.iter().enumerate() {
        (words[SLOT][*slot], words[FIRSTS][place], leaves[*slot]) = (*extent, *extent, 1);
    }
    (words[READS], words[COUNTS][0], words[NEXT]) = (marks.len() as u32 + 4, 4, next as u32);
    session::set_leaves(&mut words, &leaves);
    words
}

/// Sessions to damage: with extent 0 alone in a slot at the front, in the middle and at the end, with few extents, and with
/// all that a log may have, extent 0 among them.
fn bases() -> Vec<Vec<u32>> {
    let mut random = Random::new(211);
    let mut bases: Vec<Vec<u32>> = [0, SLOTS / 2, SLOTS - 1].map(|slot| marked(&[(slot, 0)], SLOTS)).to_vec();
    bases.push(session::of(&[7, 3, 0, 9, 3, 3, 9]));
    for (count, next) in [(MAX_EXTENTS, SLOTS), (MAX_EXTENTS, MAX_EXTENTS), (MAX_EXTENTS / 2, SLOTS - 1)] {
        let extents = long_logs::from_0(&made::extents(&mut random, count));
        bases.push(made::session_over(&mut random, &extents, 3000, next));
    }
    bases
}

/// What a right-hand sum is changed to: one more, many more, one less, and the largest number, which is one less than 0.
fn changes(right: u32) -> Vec<u32> {
    let mut changes = vec![right + 1, right + (1 << 20), right.wrapping_sub(1), u32::MAX];
    changes.dedup();
    changes
}

#[test]
fn every_right_hand_sum_changed_alone() {
    let (mut tally, mut seen) = (Tally::new("sessions with one right-hand sum changed"), Seen::default());
    for base in &bases()[..4] {
        for (point, right) in base[RIGHTS].iter().enumerate() {
            for change in changes(*right) {
                let mut words = base.clone();
                words[RIGHTS][point] = change;
                compare(&mut tally, &mut seen, &words, 0);
            }
        }
    }
    // sound where the mark of extent 0 moves, whose slot holds what the empty ones hold: from slot 0 or from the middle one
    // to the first slot under any right child above it or back to slot 0, or to the slot beside it
    assert_eq!(seen.sound, 11 + 11 + 1 + 1);
    assert!((seen.sound + seen.refused) as usize >= 12 * POINTS, "{} refused", seen.refused);
    tally.at_least(12 * POINTS as u64 * EACH);
}

#[test]
fn every_right_hand_sum_of_many_marks_changed_alone() {
    let (mut tally, mut seen) = (Tally::new("sessions of many marks with one right-hand sum changed"), Seen::default());
    for (turn, base) in bases()[4..].iter().enumerate() {
        for (point, right) in base[RIGHTS].iter().enumerate() {
            let (changes, mut words) = (changes(*right), base.clone());
            words[RIGHTS][point] = changes[(turn + point) % changes.len()];
            compare(&mut tally, &mut seen, &words, 0);
        }
    }
    assert!(seen.refused as usize >= 3 * POINTS - 9, "{} sound, {} refused", seen.sound, seen.refused);
    tally.at_least(3 * POINTS as u64 * EACH);
}

#[test]
fn the_count_changed_alone() {
    let (mut tally, mut seen) = (Tally::new("sessions with another count"), Seen::default());
    let bases = [bases(), damage::bases()].concat();
    for base in &bases {
        let count = base[COUNT];
        let bits = (0..32).map(|bit| count ^ (1 << bit));
        for change in bits.chain([count + 1, count.wrapping_sub(1), count + 2, base[READS] + 1, u32::MAX]) {
            let mut words = base.clone();
            words[COUNT] = change;
            compare(&mut tally, &mut seen, &words, base[FIRSTS.start]);
        }
    }
    assert_eq!((seen.sound, seen.refused as usize), (0, 37 * bases.len()));
    tally.at_least(37 * bases.len() as u64 * EACH);
}

#[test]
fn the_count_and_a_right_hand_sum_changed_together() {
    let (mut tally, mut seen) = (Tally::new("sessions with count and right-hand sum changed"), Seen::default());
    for base in bases() {
        for (level, number) in (0..DIGITS as usize).flat_map(|level| [1, 2, u32::MAX].map(|number| (level, number))) {
            for slot in [0, 3, SLOTS / 2, SLOTS - 1] {
                let mut words = base.clone();
                let point = RIGHTS.start + damage::over(slot, level);
                words[COUNT] = words[COUNT].wrapping_add(number);
                words[point] = words[point].wrapping_add(number);
                compare(&mut tally, &mut seen, &words, 7);
                // with as many reads as the count asks for
                words[READS] = words[READS].wrapping_add(number);
                compare(&mut tally, &mut seen, &words, 7);
            }
        }
    }
    assert_eq!((seen.sound, seen.refused), (0, 7 * 33 * 8));
    tally.at_least(7 * 33 * 8 * EACH);
}

/// The session with one more mark or one less in a slot, and with all sums above it right for that.
fn leaf_changed(base: &[u32], slot: usize, leaf: u32) -> Vec<u32> {
    let mut words = base.to_vec();
    let mut leaves = session::leaves(base).expect("a sound session");
    leaves[slot] = leaf;
    session::set_leaves(&mut words, &leaves);
    words
}

#[test]
fn one_mark_more_or_less_in_every_slot() {
    let (mut tally, mut seen) = (Tally::new("sessions with one mark more or less"), Seen::default());
    let base = marked(&[(3, 8), (900, 0), (901, 5), (1024, 6), (1600, 7)], 1900);
    let full = made::session_over(&mut Random::new(212), &(1..=MAX_EXTENTS as u32).collect::<Vec<u32>>(), 9, SLOTS);
    for (base, slot) in [&base, &full].into_iter().flat_map(|base| (0..SLOTS).map(move |slot| (base, slot))) {
        let marks = session::marks(base);
        let other = if marks.contains(&slot) { [0, 2] } else { [1, 2] };
        for leaf in other {
            let mut words = leaf_changed(base, slot, leaf);
            compare(&mut tally, &mut seen, &words, 5);
            // with as many reads as the count asks for
            words[READS] = words[READS] - base[COUNT] + words[COUNT];
            compare(&mut tally, &mut seen, &words, 5);
        }
    }
    assert_eq!((seen.sound, seen.refused as usize), (0, 8 * SLOTS));
    tally.at_least(8 * SLOTS as u64 * EACH);
}

#[test]
fn extent_0_in_every_slot() {
    let (mut tally, mut seen, mut moved) = (Tally::new("extent 0 marked anywhere"), Seen::default(), Seen::default());
    let marks = [(3, 8), (901, 5), (1024, 6), (1600, 7)];
    let base = marked(&marks, 1900);
    for slot in 0..SLOTS {
        // F has 0 after its four extents, so a fifth mark is that of extent 0, whose slot holds what the others hold
        let mut words = leaf_changed(&base, slot, 1 + u32::from(marks.iter().any(|(marked, _)| *marked == slot)));
        words[READS] += 1;
        for extent in [0, 5, 77] {
            compare(&mut tally, &mut seen, &words, extent);
        }
        // the same with one right-hand sum of the way up changed, which can be that of the mark in another slot
        words[RIGHTS.start + damage::over(slot, slot % DIGITS as usize)] ^= 1;
        compare(&mut tally, &mut moved, &words, 0);
    }
    assert_eq!((seen.sound, seen.refused), (3 * 1896, 3 * 152));
    assert!(moved.sound >= 300 && moved.refused >= 1500, "{} sound, {} refused", moved.sound, moved.refused);
    tally.at_least(4 * SLOTS as u64 * EACH);
}

#[test]
fn a_leaf_of_two_beside_a_leaf_of_none() {
    let (mut tally, mut seen) = (Tally::new("sessions with a leaf of two"), Seen::default());
    for pair in 0..SLOTS / 2 {
        let (left, right) = (2 * pair, 2 * pair + 1);
        let both = marked(&[(left, 5), (right, 0)], SLOTS);
        compare(&mut tally, &mut seen, &both, 5);
        for sum in [0, 2] {
            let mut words = both.clone();
            words[RIGHTS][pair] = sum;
            compare(&mut tally, &mut seen, &words, 5);
        }
        // both marks in one slot, with two extents or with one in F, and the reads that each asks for
        for slot in [left, right] {
            let mut words = leaf_changed(&marked(&[(slot, 5)], SLOTS), slot, 2);
            compare(&mut tally, &mut seen, &words, 5);
            words[READS] += 1;
            compare(&mut tally, &mut seen, &words, 5);
            words[FIRSTS][1] = 5;
            compare(&mut tally, &mut seen, &words, 5);
        }
    }
    assert_eq!((seen.sound as usize, seen.refused as usize), (SLOTS / 2, 8 * SLOTS / 2));
    tally.at_least(9 * SLOTS as u64 / 2 * EACH);
}

#[test]
fn marks_that_the_sums_above_leave_out() {
    let (mut tally, mut seen) = (Tally::new("sessions with more under a point than above it"), Seen::default());
    for (slot, level) in (0..SLOTS).map(|slot| (slot, slot * 7 % DIGITS as usize)) {
        // on the way up from the slot the right-hand sums are right up to this level, and 0 above it
        let whole = marked(&[(slot, 5)], SLOTS);
        let mut words = marked(&[], SLOTS);
        for below in 0..=level {
            let point = RIGHTS.start + damage::over(slot, below);
            words[point] = whole[point];
        }
        (words[SLOT][slot], words[FIRSTS.start]) = (5, 5);
        for (count, reads) in [(0, 4), (0, 5), (1, 5)] {
            (words[COUNT], words[READS]) = (count, reads);
            compare(&mut tally, &mut seen, &words, 5);
        }
    }
    // with the count it is sound where the way up goes into no right child above that level
    assert!(seen.sound >= 100 && seen.refused >= 5000, "{} sound, {} refused", seen.sound, seen.refused);
    tally.at_least(3 * SLOTS as u64 * EACH);
}

/// Changes sums, one or a few, or the slot in which the sums mark extent 0.
fn change(random: &mut Random, words: &mut [u32], next: usize) {
    let marks = session::marks(words);
    let slot = if marks.is_empty() || random.one_in(2) { random.below(next.max(1)) } else { random.of(&marks) };
    let point = RIGHTS.start + damage::over(slot, random.below(DIGITS as usize));
    let number = random.of(&[1, u32::MAX]);
    match random.below(6) {
        0 => words[point] = words[point].wrapping_add(number),
        1 => words[COUNT] = words[COUNT].wrapping_add(number),
        2 => words.swap(point, RIGHTS.start + random.below(POINTS)),
        _ => {
            let Some(mut leaves) = session::leaves(words).filter(|leaves| leaves.iter().all(|leaf| *leaf <= 2)) else {
                return;
            };
            if let Some(of_0) = marks.iter().find(|slot| words[SLOT][**slot] == 0) {
                leaves[*of_0] -= 1;
                leaves[slot] += 1;
            }
            session::set_leaves(words, &leaves);
        }
    }
}

#[test]
fn several_sums_changed() {
    let (mut tally, mut seen) = (Tally::new("sessions with several sums changed"), Seen::default());
    let mut random = Random::new(213);
    for _ in 0..3000 {
        let most = random.of(&[3, 20, 300]);
        let count = 1 + random.below(most);
        let extents = long_logs::from_0(&made::extents(&mut random, count));
        let above = count + 1 + random.below(40);
        let next = random.of(&[count, above, SLOTS]);
        let mut words = made::session_over(&mut random, &extents, 20, next);
        for _ in 0..1 + random.below(3) {
            change(&mut random, &mut words, next);
        }
        compare(&mut tally, &mut seen, &words, random.of(&[0, extents[0], 77]));
    }
    assert!(seen.sound >= 500 && seen.refused >= 2000, "{} sound, {} refused", seen.sound, seen.refused);
    tally.at_least(3000 * EACH);
}
