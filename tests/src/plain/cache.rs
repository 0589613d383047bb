//! A cache of a fixed size, with no stack and no distance.

/// An extent that a cache holds, and when it was read last.
struct Held {
    extent: u32,
    last_read: usize,
}

/// A cache that holds at most `size` extents; where it is full, the one whose last read is oldest leaves.
pub struct Cache {
    size: u32,
    held: Vec<Held>,
    reads: usize,
}

impl Cache {
    pub fn new(size: u32) -> Self {
        Cache { size, held: Vec::new(), reads: 0 }
    }

    /// One more read; whether it is a hit.
    pub fn read(&mut self, extent: u32) -> bool {
        self.reads += 1;
        if let Some(held) = self.held.iter_mut().find(|held| held.extent == extent) {
            held.last_read = self.reads;
            return true;
        }
        if self.size == 0 {
            return false;
        }
        if self.held.len() == self.size as usize {
            let oldest = (0..self.held.len()).min_by_key(|place| self.held[*place].last_read);
            self.held.swap_remove(oldest.expect("a full cache holds an extent"));
        }
        self.held.push(Held { extent, last_read: self.reads });
        false
    }
}

/// For each read of a trace whether it is a hit in the cache of a size.
pub fn hits(trace: &[u32], size: u32) -> Vec<bool> {
    let mut cache = Cache::new(size);
    trace.iter().map(|extent| cache.read(*extent)).collect()
}

/// The misses of the cache of a size that reads a trace.
pub fn misses(trace: &[u32], size: u32) -> u64 {
    hits(trace, size).iter().filter(|hit| !**hit).count() as u64
}

/// The misses of the caches of the sizes from 0 to `last` that read a trace.
pub fn misses_to(trace: &[u32], last: u32) -> Vec<u64> {
    (0..=last).map(|size| misses(trace, size)).collect()
}

/// The reads of a trace that a cache of some size serves: those that one that never evicts does.
pub fn servable(trace: &[u32]) -> u64 {
    trace.len() as u64 - misses(trace, u32::MAX)
}
