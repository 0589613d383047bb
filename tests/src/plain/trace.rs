//! Traces: their extents, and the words of their reads. A read's word is its reuse distance, or for a cold read COLD_BASE
//! plus its number.

use super::COLD_BASE;
use std::collections::HashSet;

/// The different extents of a trace by first read.
pub fn firsts(trace: &[u32]) -> Vec<u32> {
    let mut seen = HashSet::new();
    trace.iter().copied().filter(|extent| seen.insert(*extent)).collect()
}

/// The different extents of a trace by last read, the latest first.
pub fn recents(trace: &[u32]) -> Vec<u32> {
    let backwards: Vec<u32> = trace.iter().rev().copied().collect();
    firsts(&backwards)
}

/// How many different extents there are.
pub fn different(extents: &[u32]) -> usize {
    let mut sorted = extents.to_vec();
    sorted.sort_unstable();
    sorted.dedup();
    sorted.len()
}

/// Whether a word is that of a cold read.
pub fn is_cold(word: u32) -> bool {
    word > COLD_BASE
}

/// The numbers of the cold reads among these words, in order.
pub fn numbers(words: &[u32]) -> Vec<u32> {
    words.iter().filter(|word| is_cold(**word)).map(|word| word - COLD_BASE).collect()
}

/// Whether a read is a hit in the cache of a size, by its word.
pub fn is_hit(word: u32, size: u32) -> bool {
    !is_cold(word) && word <= size
}

/// The word of a read after others. Its distance is the different extents from its previous read up to the read before it.
/// Where there is no previous one, its number is 1 plus the different extents of all reads before it.
pub fn word_after(before: &[u32], extent: u32) -> u32 {
    match before.iter().rposition(|other| *other == extent) {
        Some(previous) => different(&before[previous..]) as u32,
        None => COLD_BASE + 1 + different(before) as u32,
    }
}

/// The word of each read.
pub fn distances(trace: &[u32]) -> Vec<u32> {
    (0..trace.len()).map(|read| word_after(&trace[..read], trace[read])).collect()
}

/// The LRU stack: the extents read so far, the latest on top, which is the front.
pub struct Stack(pub Vec<u32>);

impl Stack {
    /// One more read; its place in the stack, counted from 1, or where it is not there COLD_BASE plus the height of the
    /// stack with it on top.
    pub fn read(&mut self, extent: u32) -> u32 {
        let place = self.0.iter().position(|other| *other == extent);
        if let Some(place) = place {
            self.0.remove(place);
        }
        self.0.insert(0, extent);
        place.map_or(COLD_BASE + self.0.len() as u32, |place| place as u32 + 1)
    }

    /// The words of more reads.
    pub fn distances(&mut self, reads: &[u32]) -> Vec<u32> {
        reads.iter().map(|extent| self.read(*extent)).collect()
    }
}
