//! Sessions as words with all sums of the tree over the slots: the form that sessions with right-hand sums alone are
//! compared with.

use super::session::{above, admitted, summed_up, Reading, SLOTS};
use super::{hit_share, trace, COLD_BASE, MAX_EXTENTS, MAX_READS};
use crate::{refusal, Answer};
use std::ops::Range;

/// The reads, F, H and the slots stand as in the other form.
pub use super::session::{COUNTS, FIRSTS, READS, SLOT};

/// Where the sums stand, the leaves first, the root last.
pub const SUMS: Range<usize> = SLOT.end..SLOT.end + 2 * SLOTS - 1;
/// Where the next slot stands.
pub const NEXT: usize = SUMS.end;
/// The words of a session.
pub const WORDS: usize = NEXT + 1;

/// A new session.
pub fn new() -> Vec<u32> {
    vec![0; WORDS]
}

/// The place of a sum's parent.
fn parent(place: usize) -> usize {
    SLOTS + place / 2
}

/// The sums over these leaves.
pub fn sums_over(leaves: &[u32]) -> Vec<u32> {
    let mut sums = leaves.to_vec();
    sums.resize(SUMS.len(), 0);
    for left in (0..SUMS.len() - 1).step_by(2) {
        sums[parent(left)] = sums[left] + sums[left + 1];
    }
    sums
}

/// The marked slots, in order.
pub fn marks(words: &[u32]) -> Vec<usize> {
    let leaves = &words[SUMS][..SLOTS];
    (0..SLOTS).filter(|slot| leaves[*slot] == 1).collect()
}

/// The extents in the marked slots, in the slots' order.
fn marked(words: &[u32]) -> Vec<u32> {
    marks(words).into_iter().map(|slot| words[SLOT][slot]).collect()
}

/// At most as many marks as a log may have extents, all below next, and next at most the number of slots.
fn marks_sound(words: &[u32]) -> bool {
    let (marks, next) = (marks(words), words[NEXT] as usize);
    marks.len() <= MAX_EXTENTS && next <= SLOTS && marks.iter().all(|slot| *slot < next)
}

/// Different extents in the marked slots, and 0 in the others.
fn slots_sound(words: &[u32]) -> bool {
    let extents = marked(words);
    let others_empty = (0..SLOTS).all(|slot| words[SUMS][slot] == 1 || words[SLOT][slot] == 0);
    trace::different(&extents) == extents.len() && others_empty
}

/// F has the extents of the marked slots once each, and 0 after them.
fn firsts_sound(words: &[u32]) -> bool {
    let mut extents = marked(words);
    let (front, after) = words[FIRSTS].split_at(extents.len().min(MAX_EXTENTS));
    let mut firsts = front.to_vec();
    firsts.sort_unstable();
    extents.sort_unstable();
    firsts == extents && after.iter().all(|word| *word == 0)
}

/// Each leaf is 1 or 0, and each other sum is the number of marks beneath it.
fn sums_sound(words: &[u32]) -> bool {
    let leaves = &words[SUMS][..SLOTS];
    leaves.iter().all(|leaf| *leaf <= 1) && words[SUMS] == sums_over(leaves)
}

/// H is 0 above v; L is v plus the sum of H, and at most 1,048,576.
fn counts_sound(words: &[u32]) -> bool {
    let (v, reads) = (marks(words).len() as u64, u64::from(words[READS]));
    let total: u64 = words[COUNTS].iter().map(|count| u64::from(*count)).sum();
    let above_v = words[COUNTS].iter().skip(v as usize).all(|count| *count == 0);
    above_v && reads == v + total && reads <= MAX_READS
}

/// Whether the words are a sound session, or start with one.
pub fn sound(words: &[u32]) -> bool {
    words.len() >= WORDS
        && marks_sound(words)
        && slots_sound(words)
        && firsts_sound(words)
        && sums_sound(words)
        && counts_sound(words)
}

/// Changes a slot and its leaf, and makes the sums above it true.
fn put(words: &mut [u32], slot: usize, extent: u32, leaf: u32) {
    words[SLOT][slot] = extent;
    let sums = &mut words[SUMS];
    sums[slot] = leaf;
    let mut place = slot;
    while place != SUMS.len() - 1 {
        let left = place - place % 2;
        place = parent(place);
        sums[place] = sums[left] + sums[left + 1];
    }
}

/// The marks move, in order, to the first slots, and next becomes v.
fn gather(words: &mut [u32]) {
    let extents = marked(words);
    for slot in 0..SLOTS {
        match extents.get(slot) {
            Some(extent) => put(words, slot, *extent, 1),
            None => put(words, slot, 0, 0),
        }
    }
    words[NEXT] = extents.len() as u32;
}

/// The walk from the slot below next down, to the extent's mark or past slot 0: the mark's slot, where there is one, and
/// the number of slots looked at.
fn walk_down(words: &[u32], extent: u32) -> (Option<usize>, u32) {
    let (mut slot, mut slots_looked) = (words[NEXT] as usize, 0);
    while slot > 0 {
        slot -= 1;
        slots_looked += 1;
        if words[SUMS][slot] == 1 && words[SLOT][slot] == extent {
            return (Some(slot), slots_looked);
        }
    }
    (None, slots_looked)
}

/// The way up from a marked slot, by the sums of right-hand neighbours wherever it leaves a left child: the distance, and
/// the number of sums read.
fn way_up(sums: &[u32], slot: usize) -> (usize, u32) {
    let (mut place, mut total, mut sums_read) = (slot, 0, 0);
    while place != SUMS.len() - 1 {
        if place % 2 == 0 {
            total += sums[place + 1] as usize;
            sums_read += 1;
        }
        place = parent(place);
    }
    (1 + total, sums_read)
}

/// A read that a sound session accepts.
pub fn accept(words: &mut [u32], extent: u32) -> Reading {
    if words[NEXT] as usize == SLOTS {
        gather(words);
    }
    let (mark, slots_looked) = walk_down(words, extent);
    let (word, sums_read) = match mark {
        Some(slot) => {
            let (distance, sums_read) = way_up(&words[SUMS], slot);
            put(words, slot, 0, 0);
            words[COUNTS][distance - 1] += 1;
            (distance, sums_read)
        }
        None => {
            let v = marks(words).len();
            words[FIRSTS][v] = extent;
            (COLD_BASE as usize + v + 1, 0)
        }
    };
    put(words, words[NEXT] as usize, extent, 1);
    words[NEXT] += 1;
    words[READS] += 1;
    Reading { word, sums_read, slots_looked }
}

/// The call for one more read; a refusal leaves the session as it was.
pub fn read(words: &mut [u32], extent: u32) -> Answer<Reading> {
    if !sound(words) {
        return Err(refusal::STATE);
    }
    admitted(words, &marked(words), extent)?;
    Ok(accept(words, extent))
}

/// The call for the summary of the reads accepted.
pub fn summary(words: &[u32]) -> Answer<Vec<u32>> {
    if !sound(words) {
        return Err(refusal::STATE);
    }
    Ok(summed_up(words, marked(words)))
}

/// The call for misses: the cold reads, one for each mark, and the reads of a distance above the size.
pub fn misses(words: &[u32], size: u32) -> Answer<u64> {
    if !sound(words) {
        return Err(refusal::STATE);
    }
    Ok(marks(words).len() as u64 + above(words, size))
}

/// The call for the hit share; each mark had a cold read.
pub fn share(words: &[u32], size: u32) -> Answer<Option<f64>> {
    let misses = misses(words, size)?;
    let reads = u64::from(words[READS]);
    Ok(hit_share(reads - misses, reads - marks(words).len() as u64))
}
