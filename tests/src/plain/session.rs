//! Sessions as words, in slots, with a count of all marks and right-hand sums alone.
//!
//! The nodes of the tree over the slots have numbers: a number below that of the slots is a slot, and the branching point p
//! is node SLOTS + p. The children of point p are the nodes 2p, on the left, and 2p + 1, on the right. The root comes last.

use super::{hit_share, summary, trace, COLD_BASE, MAX_EXTENTS, MAX_READS};
use crate::{refusal, Answer};
use std::ops::Range;

/// The slots, a power of two.
pub const SLOTS: usize = 2048;
/// The binary digits of a slot's number.
pub const DIGITS: u32 = SLOTS.ilog2();
/// The branching points of the tree over the slots.
pub const POINTS: usize = SLOTS - 1;
/// The root, as a node.
const ROOT: usize = SLOTS + POINTS - 1;

/// Where the reads accepted, L, stand.
pub const READS: usize = 0;
/// Where F, the extents by first read, stands.
pub const FIRSTS: Range<usize> = 1..1 + MAX_EXTENTS;
/// Where H, the histogram, stands.
pub const COUNTS: Range<usize> = FIRSTS.end..FIRSTS.end + MAX_EXTENTS;
/// Where the slots stand.
pub const SLOT: Range<usize> = COUNTS.end..COUNTS.end + SLOTS;
/// Where the count of all marks stands.
pub const COUNT: usize = SLOT.end;
/// Where the right-hand sums stand, that of the root last.
pub const RIGHTS: Range<usize> = COUNT + 1..COUNT + 1 + POINTS;
/// Where the next slot stands.
pub const NEXT: usize = RIGHTS.end;
/// The words of a session.
pub const WORDS: usize = NEXT + 1;

/// What a read answers: its word, which is its distance or for a cold read COLD_BASE plus its number, the number of sums
/// read, and the number of slots looked at.
#[derive(Clone, Copy, PartialEq, Eq, Debug)]
pub struct Reading {
    pub word: usize,
    pub sums_read: u32,
    pub slots_looked: u32,
}

/// A new session.
pub fn new() -> Vec<u32> {
    vec![0; WORDS]
}

/// The right-hand sums over these leaves, counted on the leaves: the points over two slots each come first, then those over
/// four, and so on; the right-hand half of a point's slots is under its right child.
pub fn rights_over(leaves: &[u32]) -> Vec<u32> {
    let halves = (0..DIGITS).map(|level| 1 << level);
    let rights = |half: usize| leaves.chunks(2 * half).map(move |slots| slots[half..].iter().sum());
    halves.flat_map(rights).collect()
}

/// Makes the count and the right-hand sums those of these leaves.
pub fn set_leaves(words: &mut [u32], leaves: &[u32]) {
    words[COUNT] = leaves.iter().sum();
    words[RIGHTS].copy_from_slice(&rights_over(leaves));
}

/// The leaves, worked out from the root down: the root has the count, a right child the right-hand sum of its point, a left
/// child what is left of the point's own. None where a right-hand sum is above what its point has.
pub fn leaves(words: &[u32]) -> Option<Vec<u32>> {
    let mut under = vec![0; ROOT + 1];
    under[ROOT] = words[COUNT];
    for point in (0..POINTS).rev() {
        let right = words[RIGHTS][point];
        under[2 * point] = under[SLOTS + point].checked_sub(right)?;
        under[2 * point + 1] = right;
    }
    under.truncate(SLOTS);
    Some(under)
}

/// The slots whose leaf is 1, in order; none where the leaves cannot be worked out.
pub fn marks(words: &[u32]) -> Vec<usize> {
    let leaves = leaves(words).unwrap_or_default();
    (0..leaves.len()).filter(|slot| leaves[*slot] == 1).collect()
}

/// The extents in these slots, in the slots' order.
fn extents_in(words: &[u32], slots: &[usize]) -> Vec<u32> {
    slots.iter().map(|slot| words[SLOT][*slot]).collect()
}

/// The extents in the marked slots, in the slots' order.
fn marked(words: &[u32]) -> Vec<u32> {
    extents_in(words, &marks(words))
}

/// The leaves can be worked out, and each is 1 or 0.
fn sums_sound(words: &[u32]) -> bool {
    leaves(words).is_some_and(|leaves| leaves.iter().all(|leaf| *leaf <= 1))
}

/// At most as many marks as a log may have extents, all below next, and next at most the number of slots.
fn marks_sound(words: &[u32], marks: &[usize]) -> bool {
    let next = words[NEXT] as usize;
    marks.len() <= MAX_EXTENTS && next <= SLOTS && marks.iter().all(|slot| *slot < next)
}

/// Different extents in the marked slots, and 0 in the others.
fn slots_sound(words: &[u32], marks: &[usize]) -> bool {
    let (extents, mut others) = (extents_in(words, marks), words[SLOT].to_vec());
    marks.iter().for_each(|slot| others[*slot] = 0);
    trace::different(&extents) == extents.len() && others.iter().all(|word| *word == 0)
}

/// F has the extents of the marked slots once each, and 0 after them.
fn firsts_sound(words: &[u32], marks: &[usize]) -> bool {
    let mut extents = extents_in(words, marks);
    let (front, after) = words[FIRSTS].split_at(extents.len().min(MAX_EXTENTS));
    let mut firsts = front.to_vec();
    firsts.sort_unstable();
    extents.sort_unstable();
    firsts == extents && after.iter().all(|word| *word == 0)
}

/// H is 0 above v; L is v plus the sum of H, and at most 1,048,576.
fn counts_sound(words: &[u32], marks: &[usize]) -> bool {
    let (v, reads) = (marks.len() as u64, u64::from(words[READS]));
    let total: u64 = words[COUNTS].iter().map(|count| u64::from(*count)).sum();
    let above_v = words[COUNTS].iter().skip(marks.len()).all(|count| *count == 0);
    above_v && reads == v + total && reads <= MAX_READS
}

/// Whether the words are a sound session, or start with one.
pub fn sound(words: &[u32]) -> bool {
    if words.len() < WORDS || !sums_sound(words) {
        return false;
    }
    let marks = marks(words);
    marks_sound(words, &marks)
        && slots_sound(words, &marks)
        && firsts_sound(words, &marks)
        && counts_sound(words, &marks)
}

/// The way up from a slot: the nodes from the slot to the child of the root.
fn nodes_up(slot: usize) -> impl Iterator<Item = usize> {
    let mut node = slot;
    (0..DIGITS).map(move |_| {
        let here = node;
        node = SLOTS + here / 2;
        here
    })
}

/// Whether a slot of a sound session is marked, worked out from the root down to it.
fn is_marked(words: &[u32], slot: usize) -> bool {
    let mut under = words[COUNT];
    let way: Vec<usize> = nodes_up(slot).collect();
    for node in way.iter().rev() {
        let right = words[RIGHTS][node / 2];
        under = if node % 2 == 1 { right } else { under - right };
    }
    under == 1
}

/// A mark for an extent in a slot that has none: one more mark in all, and under each right child on the way up.
fn set(words: &mut [u32], slot: usize, extent: u32) {
    words[SLOT][slot] = extent;
    words[COUNT] += 1;
    nodes_up(slot).filter(|node| node % 2 == 1).for_each(|node| words[RIGHTS][node / 2] += 1);
}

/// The mark taken out of a slot that has one.
fn clear(words: &mut [u32], slot: usize) {
    words[SLOT][slot] = 0;
    words[COUNT] -= 1;
    nodes_up(slot).filter(|node| node % 2 == 1).for_each(|node| words[RIGHTS][node / 2] -= 1);
}

/// The marks move, in order, to the first slots, and next becomes v.
fn gather(words: &mut [u32]) {
    let extents = marked(words);
    let leaves: Vec<u32> = (0..SLOTS).map(|slot| u32::from(slot < extents.len())).collect();
    words[SLOT].fill(0);
    words[SLOT][..extents.len()].copy_from_slice(&extents);
    set_leaves(words, &leaves);
    words[NEXT] = extents.len() as u32;
}

/// The walk from the slot below next down, to the extent's mark or past slot 0: the mark's slot, where there is one, and
/// the number of slots looked at.
pub fn walk_down(words: &[u32], extent: u32) -> (Option<usize>, u32) {
    let (mut slot, mut slots_looked) = (words[NEXT] as usize, 0);
    while slot > 0 {
        slot -= 1;
        slots_looked += 1;
        if words[SLOT][slot] == extent && is_marked(words, slot) {
            return (Some(slot), slots_looked);
        }
    }
    (None, slots_looked)
}

/// The way up from a marked slot, by the right-hand sums of the points where it comes from the left: the distance, and the
/// number of sums read.
pub fn way_up(rights: &[u32], slot: usize) -> (usize, u32) {
    let (mut total, mut sums_read) = (0, 0);
    for node in nodes_up(slot).filter(|node| node % 2 == 0) {
        total += rights[node / 2] as usize;
        sums_read += 1;
    }
    (1 + total, sums_read)
}

/// A read that a sound session accepts.
pub fn accept(words: &mut [u32], extent: u32) -> Reading {
    if words[NEXT] as usize == SLOTS {
        gather(words);
    }
    let (mark, slots_looked) = walk_down(words, extent);
    let (word, sums_read) = match mark {
        Some(slot) => {
            let (distance, sums_read) = way_up(&words[RIGHTS], slot);
            clear(words, slot);
            words[COUNTS][distance - 1] += 1;
            (distance, sums_read)
        }
        None => {
            let v = words[COUNT] as usize;
            words[FIRSTS][v] = extent;
            (COLD_BASE as usize + v + 1, 0)
        }
    };
    set(words, words[NEXT] as usize, extent);
    words[NEXT] += 1;
    words[READS] += 1;
    Reading { word, sums_read, slots_looked }
}

/// The session that has read a trace within the limits.
pub fn of(trace: &[u32]) -> Vec<u32> {
    let mut words = new();
    for extent in trace {
        accept(&mut words, *extent);
    }
    words
}

/// Whether a sound session with these extents may read one more: not past the limit of reads, then not past that of extents.
pub fn admitted(words: &[u32], extents: &[u32], extent: u32) -> Answer<()> {
    if u64::from(words[READS]) + 1 > MAX_READS {
        return Err(refusal::READS);
    }
    if !extents.contains(&extent) && extents.len() + 1 > MAX_EXTENTS {
        return Err(refusal::EXTENTS);
    }
    Ok(())
}

/// The call for one more read; a refusal leaves the session as it was.
pub fn read(words: &mut [u32], extent: u32) -> Answer<Reading> {
    if !sound(words) {
        return Err(refusal::STATE);
    }
    admitted(words, &marked(words), extent)?;
    Ok(accept(words, extent))
}

/// The summary of a sound session with these extents in its marked slots, in the slots' order.
pub fn summed_up(words: &[u32], mut recents: Vec<u32>) -> Vec<u32> {
    recents.reverse();
    let v = recents.len();
    let parts = [&[words[READS], v as u32], &words[FIRSTS][..v], &recents, &words[COUNTS][..v]];
    let words = parts.concat();
    assert!(summary::well_formed(&words).is_some(), "a sound session has a well-formed summary");
    words
}

/// The call for the summary of the reads accepted.
pub fn summary(words: &[u32]) -> Answer<Vec<u32>> {
    if !sound(words) {
        return Err(refusal::STATE);
    }
    Ok(summed_up(words, marked(words)))
}

/// The reads of a distance above a size.
pub fn above(words: &[u32], size: u32) -> u64 {
    words[COUNTS].iter().skip(size as usize).map(|count| u64::from(*count)).sum()
}

/// The call for misses: the cold reads, one for each mark, and the reads of a distance above the size.
pub fn misses(words: &[u32], size: u32) -> Answer<u64> {
    if !sound(words) {
        return Err(refusal::STATE);
    }
    Ok(u64::from(words[COUNT]) + above(words, size))
}

/// The call for the hit share; each mark had a cold read.
pub fn share(words: &[u32], size: u32) -> Answer<Option<f64>> {
    let misses = misses(words, size)?;
    let reads = u64::from(words[READS]);
    Ok(hit_share(reads - misses, reads - u64::from(words[COUNT])))
}
