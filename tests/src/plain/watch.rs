//! Watches as words: the size, the reads, the cold reads, the hits.

use super::{hit_share, COLD_BASE, MAX_EXTENTS, MAX_READS};
use crate::{refusal, Answer};

/// The words of a watch.
pub const WORDS: usize = 4;
/// The largest distance, and the largest number of a cold read.
const MOST: u32 = MAX_EXTENTS as u32;

/// Reads, cold reads and hits of a sound watch.
fn sound(words: &[u32]) -> Answer<[u64; 3]> {
    let [_, reads, cold, hits, ..] = words else { return Err(refusal::STATE) };
    let counts = [*reads, *cold, *hits].map(u64::from);
    let [reads, cold, hits] = counts;
    if cold + hits <= reads && reads <= MAX_READS {
        Ok(counts)
    } else {
        Err(refusal::STATE)
    }
}

/// A new watch.
pub fn new(size: u32) -> Vec<u32> {
    vec![size, 0, 0, 0]
}

/// The call for one more read's word: a distance, or COLD_BASE plus any number that a cold read can have. A refusal
/// leaves the watch as it was.
pub fn read(words: &mut [u32], word: u32) -> Answer<u64> {
    let [reads, ..] = sound(words)?;
    let (warm, cold) = ((1..=MOST).contains(&word), (COLD_BASE + 1..=COLD_BASE + MOST).contains(&word));
    if !warm && !cold {
        return Err(refusal::NUMBER);
    }
    if reads + 1 > MAX_READS {
        return Err(refusal::READS);
    }
    words[1] += 1;
    if cold {
        words[2] += 1;
    } else if word <= words[0] {
        words[3] += 1;
    }
    Ok(0)
}

/// The call for the misses, reads less hits.
pub fn misses(words: &[u32]) -> Answer<u64> {
    let [reads, _, hits] = sound(words)?;
    Ok(reads - hits)
}

/// The call for the hit share.
pub fn share(words: &[u32]) -> Answer<Option<f64>> {
    let [reads, cold, hits] = sound(words)?;
    Ok(hit_share(hits, reads - cold))
}
