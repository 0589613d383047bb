//! Summaries as words, and the calls on them. Where a call has a buffer too short, that refusal is added by `room`.

use super::trace::{self, Stack};
use super::{hit_share, MAX_EXTENTS, MAX_READS};
use crate::{refusal, Answer};
use std::collections::{HashMap, HashSet};

/// The most words of a summary.
pub const MOST_WORDS: usize = 2 + 3 * MAX_EXTENTS;

/// The parts of a well-formed summary.
pub struct Summary<'a> {
    pub reads: u64,
    /// F, the extents by first read.
    pub firsts: &'a [u32],
    /// R, the extents by last read, the latest first.
    pub recents: &'a [u32],
    /// H, the histogram: the reads of distance 1, 2 and so on.
    pub counts: &'a [u32],
}

/// The words of a summary with these parts.
fn words(reads: u64, firsts: &[u32], recents: &[u32], counts: &[u64]) -> Vec<u32> {
    let word = |number: u64| u32::try_from(number).expect("a count within the limit of reads");
    let mut words = vec![word(reads), word(firsts.len() as u64)];
    words.extend_from_slice(firsts);
    words.extend_from_slice(recents);
    words.extend(counts.iter().map(|count| word(*count)));
    words
}

/// The summary of a trace whose reads have these words.
pub fn with_distances(trace: &[u32], distances: &[u32]) -> Vec<u32> {
    let firsts = trace::firsts(trace);
    let mut counts = vec![0; firsts.len()];
    for distance in distances.iter().filter(|word| !trace::is_cold(**word)) {
        counts[*distance as usize - 1] += 1;
    }
    words(trace.len() as u64, &firsts, &trace::recents(trace), &counts)
}

/// The summary of a trace, by the LRU stack.
pub fn of(trace: &[u32]) -> Vec<u32> {
    with_distances(trace, &Stack(Vec::new()).distances(trace))
}

/// The parts of these words, where they are well formed.
pub fn well_formed(words: &[u32]) -> Option<Summary<'_>> {
    let [reads, extents, lists @ ..] = words else { return None };
    let (reads, v) = (u64::from(*reads), *extents as usize);
    if v > MAX_EXTENTS || lists.len() != 3 * v || reads > MAX_READS {
        return None;
    }
    let (firsts, recents, counts) = (&lists[..v], &lists[v..2 * v], &lists[2 * v..]);
    let in_firsts: HashSet<&u32> = firsts.iter().collect();
    let in_recents: HashSet<&u32> = recents.iter().collect();
    let total = v as u64 + counts.iter().map(|count| u64::from(*count)).sum::<u64>();
    let formed = in_firsts.len() == v && in_recents == in_firsts && total == reads;
    formed.then_some(Summary { reads, firsts, recents, counts })
}

/// The distances of the first reads in B of the extents that A has too, in the order of F of B: 1 plus the number of
/// different extents that stand before it in R of A or before it in F of B.
pub fn distances_across(a: &Summary, b: &Summary) -> Vec<usize> {
    let in_a: HashMap<u32, usize> = a.recents.iter().copied().zip(0..).collect();
    let nowhere = a.recents.len();
    let places: Vec<usize> = b.firsts.iter().map(|extent| in_a.get(extent).copied().unwrap_or(nowhere)).collect();
    let shared = (0..places.len()).filter(|read| places[*read] != nowhere);
    // all before it in R of A, and of those before it in F of B the ones that stand after it in R of A or not there
    let others = |read: usize| places[..read].iter().filter(|place| **place > places[read]).count();
    shared.map(|read| 1 + places[read] + others(read)).collect()
}

/// The join of A, then B.
pub fn join_of(a: &Summary, b: &Summary) -> Vec<u32> {
    let but = |list: &[u32], left_out: &[u32]| -> Vec<u32> {
        list.iter().copied().filter(|extent| !left_out.contains(extent)).collect()
    };
    let firsts = [a.firsts.to_vec(), but(b.firsts, a.firsts)].concat();
    let recents = [b.recents.to_vec(), but(a.recents, b.recents)].concat();
    let mut counts = vec![0; firsts.len()];
    for side in [a.counts, b.counts] {
        for (place, count) in side.iter().enumerate() {
            counts[place] += u64::from(*count);
        }
    }
    for distance in distances_across(a, b) {
        counts[distance - 1] += 1;
    }
    words(a.reads + b.reads, &firsts, &recents, &counts)
}

/// The call for the summary of a trace.
pub fn summarize(trace: &[u32]) -> Answer<Vec<u32>> {
    if trace.len() as u64 > MAX_READS {
        return Err(refusal::READS);
    }
    if trace::firsts(trace).len() > MAX_EXTENTS {
        return Err(refusal::EXTENTS);
    }
    Ok(of(trace))
}

/// The call for a join.
pub fn join(a: &[u32], b: &[u32]) -> Answer<Vec<u32>> {
    let a = well_formed(a).ok_or(refusal::SUMMARY)?;
    let b = well_formed(b).ok_or(refusal::SUMMARY)?;
    if a.reads + b.reads > MAX_READS {
        return Err(refusal::READS);
    }
    if trace::different(&[a.firsts, b.firsts].concat()) > MAX_EXTENTS {
        return Err(refusal::EXTENTS);
    }
    Ok(join_of(&a, &b))
}

/// The call for the words of a part's reads after a prefix, whose R is the LRU stack that the part finds.
pub fn distances_after(prefix: &[u32], reads: &[u32]) -> Answer<Vec<u32>> {
    let prefix = well_formed(prefix).ok_or(refusal::SUMMARY)?;
    if prefix.reads + reads.len() as u64 > MAX_READS {
        return Err(refusal::READS);
    }
    if trace::different(&[prefix.firsts, reads].concat()) > MAX_EXTENTS {
        return Err(refusal::EXTENTS);
    }
    Ok(Stack(prefix.recents.to_vec()).distances(reads))
}

/// The misses at a size: the cold reads and the reads of a distance above the size.
pub fn misses_at(summary: &Summary, size: u32) -> u64 {
    let above = summary.counts.iter().skip(size as usize).map(|count| u64::from(*count));
    summary.firsts.len() as u64 + above.sum::<u64>()
}

/// The misses at the sizes from 0 to `last`.
pub fn misses_to(summary: &Summary, last: u32) -> Vec<u64> {
    (0..=last).map(|size| misses_at(summary, size)).collect()
}

/// The call for misses.
pub fn misses(words: &[u32], size: u32) -> Answer<u64> {
    let summary = well_formed(words).ok_or(refusal::SUMMARY)?;
    Ok(misses_at(&summary, size))
}

/// The call for the hit share; each extent had a cold read.
pub fn share(words: &[u32], size: u32) -> Answer<Option<f64>> {
    let summary = well_formed(words).ok_or(refusal::SUMMARY)?;
    let hits = summary.counts.iter().take(size as usize).map(|count| u64::from(*count));
    Ok(hit_share(hits.sum(), summary.reads - summary.firsts.len() as u64))
}
