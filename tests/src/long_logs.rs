//! Long logs of several kinds, in each of which the marks of a session move several times.

use crate::made;
use crate::plain::session::SLOTS;
use crate::plain::MAX_EXTENTS;
use crate::random::Random;

/// The kinds of long logs.
pub const KINDS: usize = 10;
/// The reads of each long log.
pub const LONG: usize = 6 * SLOTS;
/// The fewest moves of the marks in a long log: one in as many reads as there are slots, but for the first so many.
pub const MOVES: usize = LONG / SLOTS - 1;

/// Which of all extents that a log may have a read of a long log is of. The kinds: one extent, 3, 40 or all of them at
/// random, skewed, a scan of all or of all but one, a scan there and back, more and more extents, or in phases.
fn place(random: &mut Random, kind: usize, read: usize) -> usize {
    let there_and_back = 2 * (MAX_EXTENTS - 1);
    match kind {
        0 => 0,
        1 => random.below(3),
        2 => random.below(40),
        3 => random.below(MAX_EXTENTS),
        4 => made::skewed(random, MAX_EXTENTS),
        5 => read % MAX_EXTENTS,
        6 => read % (MAX_EXTENTS - 1),
        7 => (read % there_and_back).min(there_and_back - read % there_and_back),
        8 => random.below((1 + read * MAX_EXTENTS / (LONG - SLOTS)).min(MAX_EXTENTS)),
        _ => (read / 700 * 31 + random.below(9)) % MAX_EXTENTS,
    }
}

/// A long log of each kind.
pub fn all(random: &mut Random) -> Vec<Vec<u32>> {
    let log = |kind: usize| {
        let extents = made::extents(random, MAX_EXTENTS);
        (0..LONG).map(|read| extents[place(random, kind, read)]).collect()
    };
    (0..KINDS).map(log).collect()
}

/// The log with its first extent and extent 0 in each other's place.
pub fn from_0(log: &[u32]) -> Vec<u32> {
    let first = log.first().copied().unwrap_or(0);
    let renamed = |extent: u32| match extent {
        0 => first,
        _ if extent == first => 0,
        _ => extent,
    };
    log.iter().map(|extent| renamed(*extent)).collect()
}
