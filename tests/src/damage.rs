//! Sessions to damage, sessions damaged in all ways, and a count of them.

use crate::plain::session::{self, COUNT, COUNTS, DIGITS, FIRSTS, NEXT, POINTS, READS, RIGHTS, SLOT, SLOTS, WORDS};
use crate::plain::{MAX_EXTENTS, MAX_READS};
use crate::random::Random;
use crate::{made, spread};
use std::ops::Range;

/// Where each field of a session stands, the lowest right-hand sums and those above them apart.
const FIELDS: [Range<usize>; 8] = [
    READS..FIRSTS.start,
    FIRSTS,
    COUNTS,
    SLOT,
    COUNT..RIGHTS.start,
    RIGHTS.start..HIGHER,
    HIGHER..RIGHTS.end,
    NEXT..WORDS,
];
/// Where the right-hand sums above the lowest points stand.
const HIGHER: usize = RIGHTS.start + SLOTS / 2;

/// How many of the sessions handed in were sound, and how many were not.
#[derive(Default)]
pub struct Seen {
    pub sound: u32,
    pub refused: u32,
}

impl Seen {
    /// One more session.
    pub fn count(&mut self, sound: bool) {
        if sound {
            self.sound += 1;
        } else {
            self.refused += 1;
        }
    }
}

/// Sessions to damage: new, with few extents, with all that a log may have and with all but one, with the marks about to
/// move, and with all reads taken.
pub fn bases() -> Vec<Vec<u32>> {
    let (mut random, all) = (Random::new(91), MAX_EXTENTS as u32);
    let mut bases = vec![
        session::new(),
        session::of(&[7, 3, 7, 9, 3, 3, 9]),
        session::of(&[5; SLOTS]),
        session::of(&[0; SLOTS + 2]),
    ];
    bases.push(session::of(&(0..all).collect::<Vec<u32>>()));
    let half = (MAX_EXTENTS / 2 + 2, 4, MAX_EXTENTS + 44);
    for (count, warm, next) in [(20, 100, 60), (MAX_EXTENTS, 800, SLOTS), (3, 9, SLOTS), half] {
        let extents = made::extents(&mut random, count);
        bases.push(made::session_over(&mut random, &extents, warm, next));
    }
    for (apart, next) in [(1024, MAX_EXTENTS + 144), (4096, MAX_EXTENTS)] {
        let extents: Vec<u32> = (0..all).map(|place| place * apart).collect();
        bases.push(made::session_over(&mut random, &extents, MAX_READS as usize - MAX_EXTENTS, next));
    }
    bases.push(session::of(&(1000..999 + all).collect::<Vec<u32>>()));
    bases
}

/// What a word may be changed to: something near it, or another number that could stand there.
fn change_of(random: &mut Random, words: &[u32], place: usize) -> [u32; 2] {
    let (word, extent, bit) = (words[place], random.of(&words[FIRSTS]), 1 << random.below(32));
    let near = random.of(&[word ^ 1, word.wrapping_sub(1), word ^ bit, u32::MAX]);
    let other = random.of(&[extent, extent ^ 4096, word.wrapping_add(1 << 10), word.wrapping_add(1 << 12)]);
    [near, other]
}

/// The session with one word in so many changed in two ways, one at a time: the words of this turn, and the first two and
/// the last two of each field.
pub fn words_changed(random: &mut Random, base: &[u32], among: usize, turn: usize, mut visit: impl FnMut(&[u32])) {
    let mut words = base.to_vec();
    for place in spread::places(&FIELDS, among, turn) {
        for change in change_of(random, base, place) {
            words[place] = change;
            visit(&words);
        }
        words[place] = base[place];
    }
}

/// The session cut short, whole, and with words past it.
pub fn lengths(base: &[u32]) -> Vec<Vec<u32>> {
    let cut = [0, 1, SLOT.start, COUNT, RIGHTS.start, WORDS - 2, WORDS - 1, WORDS].map(|len| base[..len].to_vec());
    let longer = [&[0][..], &[1], &[u32::MAX; 3], &[5; 100]].map(|past| [base, past].concat());
    cut.into_iter().chain(longer).collect()
}

/// A number below a bound: any, or as often one of these few.
fn any_or_of(random: &mut Random, bound: usize, few: &[usize]) -> usize {
    let any = random.below(bound);
    if few.is_empty() || random.one_in(2) {
        any
    } else {
        random.of(few)
    }
}

/// Changes words of a session other than its sums by one of eight rules.
fn change_words(random: &mut Random, words: &mut [u32], marks: &[usize]) {
    let extents: Vec<usize> = (0..marks.len().min(MAX_EXTENTS)).collect();
    let [one, other] = [0, 1].map(|_| any_or_of(random, SLOTS, marks));
    let [first, second] = [0, 1].map(|_| any_or_of(random, MAX_EXTENTS, &extents));
    match random.below(8) {
        0 => words.swap(FIRSTS.start + first, FIRSTS.start + second),
        1 => words.swap(COUNTS.start + first, COUNTS.start + second),
        2 => words.swap(SLOT.start + one, SLOT.start + other),
        3 => {
            words[READS] = words[READS].wrapping_add(1);
            words[COUNTS.start + first] += 1;
        }
        4 => words[NEXT] = random.below(SLOTS + 2) as u32,
        5 => words[FIRSTS.start + first] = words[FIRSTS.start + second],
        6 => words[SLOT.start + one] = words[SLOT.start + other],
        _ => rename(words, words[FIRSTS.start + first], random.word()),
    }
}

/// Changes the sums of a session, the slots with them or not, by one of eight rules.
fn change_sums(random: &mut Random, words: &mut [u32], marks: &[usize]) {
    let [one, other] = [0, 1].map(|_| any_or_of(random, SLOTS, marks));
    let mut leaves = session::leaves(words).unwrap_or_else(|| vec![0; SLOTS]);
    match random.below(8) {
        0 => words.swap(RIGHTS.start + one / 2, RIGHTS.start + other / 2),
        1 => words.swap(HIGHER + one / 4, HIGHER + other / 4),
        2 => words[COUNT] ^= 1,
        3 => words[RIGHTS.start + over(one, random.below(DIGITS as usize))] ^= 1,
        4 => {
            words[COUNT] += 1;
            words[RIGHTS.start + over(one, random.below(DIGITS as usize))] += 1;
        }
        5 => {
            leaves.swap(one, other);
            session::set_leaves(words, &leaves);
        }
        6 => {
            leaves.swap(one, other);
            words.swap(SLOT.start + one, SLOT.start + other);
            session::set_leaves(words, &leaves);
        }
        _ => {
            leaves[one] ^= 1;
            session::set_leaves(words, &leaves);
        }
    }
}

/// The branching point over a slot, so many levels above the lowest.
pub fn over(slot: usize, level: usize) -> usize {
    (0..level).fold(slot / 2, |point, _| (SLOTS + point) / 2)
}

/// Gives an extent another number in F and in its slot.
fn rename(words: &mut [u32], from: u32, to: u32) {
    for word in words[FIRSTS.start..FIRSTS.end].iter_mut().filter(|word| **word == from) {
        *word = to;
    }
    for word in words[SLOT.start..SLOT.end].iter_mut().filter(|word| **word == from) {
        *word = to;
    }
}

/// A session with one or two changes, whether or not it is sound then.
pub fn several_words_changed(random: &mut Random) -> Vec<u32> {
    let mut words = made::session(random);
    for _ in 0..1 + random.below(2) {
        let marks = session::marks(&words);
        if random.one_in(2) {
            change_words(random, &mut words, &marks);
        } else {
            change_sums(random, &mut words, &marks);
        }
    }
    words
}

/// A session with marks in these slots, over the extents 10, 11 and so on, and so many reads that are not cold.
fn marked(slots: &[usize], warm: u32, next: u32) -> Vec<u32> {
    let (mut words, mut leaves) = (session::new(), [0; SLOTS]);
    for (place, slot) in slots.iter().enumerate() {
        words[SLOT][*slot] = 10 + place as u32;
        leaves[*slot] = 1;
        if place < MAX_EXTENTS {
            words[FIRSTS][place] = 10 + place as u32;
        }
    }
    words[COUNTS][0] = warm;
    words[READS] = slots.len() as u32 + warm;
    words[NEXT] = next;
    session::set_leaves(&mut words, &leaves);
    words
}

/// Four sound sessions, and fourteen that break one clause each.
pub fn each_clause_broken() -> Vec<Vec<u32>> {
    let (slots, extents, most) = (SLOTS as u32, MAX_EXTENTS as u32, MAX_READS as u32);
    let first = |count: usize| (0..count).collect::<Vec<usize>>();
    let mut list = vec![
        marked(&[0, 5, 9], 4, 10),
        marked(&[0, SLOTS - 1], 4, slots),
        marked(&first(MAX_EXTENTS), 0, extents),
        marked(&[0], most - 1, 1),
    ];
    list.extend([marked(&[0, 5, 9], 4, 9), marked(&[0, SLOTS - 1], 4, slots - 1)]);
    list.extend([marked(&first(MAX_EXTENTS + 1), 0, extents + 44), marked(&[0], most, 1)]);
    list.extend([slots + 1, slots + 2, 2 * slots, 1 << 31, u32::MAX].map(|next| marked(&[0, 5], 4, next)));
    for (place, word) in [(SLOT.start + 5, 10), (SLOT.start + 6, 12), (FIRSTS.start + 1, 10), (FIRSTS.start + 2, 11)] {
        let mut words = marked(&[0, 5], 4, 9);
        words[place] = word;
        list.push(words);
    }
    let mut counted_above = marked(&[0, 5], 4, 9);
    counted_above[COUNTS][2] = 1;
    counted_above[READS] += 1;
    list.push(counted_above);
    list
}

/// Adds to a right-hand sum, to each one that has it beneath, and to the count, modulo 2^32; to the count alone where the
/// point is past the root. What is under the left child of each point stays.
fn add_above(words: &mut [u32], point: usize, number: u32) {
    words[COUNT] = words[COUNT].wrapping_add(number);
    let mut node = 2 * point + 1;
    while node / 2 < POINTS {
        if node % 2 == 1 {
            words[RIGHTS][node / 2] = words[RIGHTS][node / 2].wrapping_add(number);
        }
        node = SLOTS + node / 2;
    }
}

/// The points of each level, the lowest first, the root last, and a number past the root.
pub fn levels() -> Vec<Range<usize>> {
    let starts = (0..=DIGITS).map(|level| SLOTS - (SLOTS >> level));
    starts.map(|start| start..start + (SLOTS - start).div_ceil(2)).collect()
}

/// The session with one right-hand sum in so many changed and all above it too, or with the count changed, one at a time:
/// the sums of this turn, and the first two and the last two of each level; how many sessions these are.
pub fn sums_changed(
    random: &mut Random,
    base: &[u32],
    among: usize,
    turn: usize,
    mut visit: impl FnMut(&[u32]),
) -> u32 {
    let points = spread::places(&levels(), among, turn);
    for point in &points {
        let mut words = base.to_vec();
        add_above(&mut words, *point, random.of(&[1, 2, u32::MAX, 1 << 31]));
        visit(&words);
    }
    points.len() as u32
}

/// Two sound sessions, and nine whose sums or counts agree only modulo 2^32 or not at all.
pub fn sums_modulo() -> Vec<Vec<u32>> {
    let sound = marked(&[0, 1, 6, 7], 4, 9);
    let mut list = vec![sound.clone()];
    // of the two marks in the slots 0 and 1 so many are left for slot 0: 2, 0, or a number below 0
    for right in [0, 2, 3, (1 << 31) + 2, u32::MAX] {
        let mut words = sound.clone();
        words[RIGHTS.start] = right;
        list.push(words);
    }
    for (one, other) in [(3, 1), (u32::MAX, 5), (1 << 31, (1 << 31) + 4)] {
        let mut words = sound.clone();
        (words[COUNTS][0], words[COUNTS][1]) = (one, other);
        list.push(words);
    }
    // more under a right child than in all, over the slots 0 to 3 and over all of them
    for point in [over(0, 1), POINTS - 1] {
        let mut words = sound.clone();
        words[RIGHTS][point] = 5;
        list.push(words);
    }
    list
}
