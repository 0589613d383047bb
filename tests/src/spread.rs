//! Some of many places or numbers, spread over all of them, with those at the edges.

use crate::plain::MAX_EXTENTS;
use std::iter;
use std::ops::Range;
use std::slice;

/// Of these ranges, in order, the first two places and the last two of each, and one in so many of all places, from the
/// one of this turn on; the turns from 0 on, so many of them, have every place among them.
pub fn places(ranges: &[Range<usize>], among: usize, turn: usize) -> Vec<usize> {
    let mut places: Vec<usize> = ranges.iter().cloned().flatten().skip(turn % among).step_by(among).collect();
    for range in ranges {
        places.extend(range.clone().take(2));
        places.extend(range.clone().rev().take(2));
    }
    places.sort_unstable();
    places.dedup();
    places
}

/// Some places of one range in the same way.
pub fn places_of(range: Range<usize>, among: usize, turn: usize) -> Vec<usize> {
    places(slice::from_ref(&range), among, turn)
}

/// Numbers of extents up to the limit: none, those about the powers of two, and one in so many of the others.
pub fn numbers_of_extents(among: usize) -> Vec<usize> {
    let powers = (0..=MAX_EXTENTS.ilog2()).map(|power| 1 << power..(2 << power).min(MAX_EXTENTS + 1));
    let ranges: Vec<Range<usize>> = iter::once(0..1).chain(powers).collect();
    places(&ranges, among, 0)
}

/// Where the two numbers and the three lists stand of a summary of so many extents whose words start here.
pub fn lists(start: usize, extents: usize) -> [Range<usize>; 4] {
    let list = |place: usize| start + 2 + place * extents..start + 2 + (place + 1) * extents;
    [start..start + 2, list(0), list(1), list(2)]
}

/// Numbers of misses to allow where this is the full list of misses, from size 0 on: each entry and those next to it, none
/// at all, and large ones.
pub fn allowances(list: &[u64]) -> Vec<u32> {
    let near = list.iter().flat_map(|misses| [misses.saturating_sub(1), *misses, misses + 1]);
    let mut all: Vec<u32> = near.map(|misses| u32::try_from(misses).expect("misses of a log")).collect();
    all.extend([0, 1 << 16, 1 << 21, 1 << 31, u32::MAX - 1, u32::MAX]);
    all.sort_unstable();
    all.dedup();
    all
}

/// Sizes to try for a log of so many extents: all that matter, and large ones.
pub fn sizes(extents: u32) -> Vec<u32> {
    let last = MAX_EXTENTS as u32;
    let v = extents.min(last + 44);
    let near: Vec<u32> = if v <= 40 { (0..=v + 2).collect() } else { vec![0, 1, 2, v / 2, v - 1, v, v + 1] };
    [near, vec![last - 1, last, last + 1, 65_536, 1 << 31, u32::MAX - 1, u32::MAX]].concat()
}
