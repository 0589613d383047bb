//! One more read put into a log, and what it does to the misses of a cache, which reads the log with it and without.

use super::{cache, trace, MAX_EXTENTS, MAX_READS};
use crate::{refusal, Answer};

/// The log with a read of an extent put in before the read at a place.
pub fn put_in(log: &[u32], place: usize, extent: u32) -> Vec<u32> {
    let (front, back) = log.split_at(place);
    [front, &[extent], back].concat()
}

/// The misses of the cache of a size with the read put in, less those without it.
pub fn change(log: &[u32], place: usize, extent: u32, size: u32) -> i64 {
    cache::misses(&put_in(log, place, extent), size) as i64 - cache::misses(log, size) as i64
}

/// The call for one more read.
pub fn one_more(log: &[u32], place: usize, extent: u32, size: u32) -> Answer<i64> {
    if place > log.len() {
        return Err(refusal::NUMBER);
    }
    let longer = put_in(log, place, extent);
    if longer.len() as u64 > MAX_READS {
        return Err(refusal::READS);
    }
    if trace::different(&longer) > MAX_EXTENTS {
        return Err(refusal::EXTENTS);
    }
    Ok(change(log, place, extent, size))
}
