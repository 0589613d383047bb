//! The smallest cache for a miss allowance: the first size in the full list of misses that keeps within it, and the words
//! of H that a search from distance 1 upwards reads.

use super::summary::{self, Summary};
use super::{cache, trace};
use crate::{refusal, Answer};

/// The size of a cache, and how many words of H the search for it read.
#[derive(Clone, Copy, PartialEq, Eq, Debug)]
pub struct Smallest {
    pub size: usize,
    pub words_read: u32,
}

/// The full list of misses of a log: of the caches that read it, of the sizes from 0 to its number of extents.
pub fn list_of_log(log: &[u32]) -> Vec<u64> {
    cache::misses_to(log, trace::different(log) as u32)
}

/// The full list of misses of a summary, whether or not a log has it.
pub fn list_of_summary(summary: &Summary) -> Vec<u64> {
    summary::misses_to(summary, summary.firsts.len() as u32)
}

/// The place in a list of misses of the first entry that is at most `most`.
pub fn first_within(list: &[u64], most: u32) -> Option<usize> {
    list.iter().position(|misses| *misses <= u64::from(most))
}

/// The words of H read one by one from distance 1 upwards, each taking its reads from those that miss, until at most
/// `most` of them do or all words are read.
pub fn words_read(summary: &Summary, most: u32) -> u32 {
    let (mut misses, mut read) = (summary.reads, 0);
    for count in summary.counts {
        if misses <= u64::from(most) {
            break;
        }
        misses -= u64::from(*count);
        read += 1;
    }
    read
}

/// The call for the smallest cache of a summary whose full list of misses this is.
pub fn by_list(summary: &Summary, list: &[u64], most: u32) -> Answer<Smallest> {
    if u64::from(most) < summary.firsts.len() as u64 {
        return Err(refusal::MISSES);
    }
    let size = first_within(list, most).expect("a cache of all extents, which misses the cold reads alone");
    Ok(Smallest { size, words_read: words_read(summary, most) })
}

/// The call for the smallest cache.
pub fn smallest(words: &[u32], most: u32) -> Answer<Smallest> {
    let summary = summary::well_formed(words).ok_or(refusal::SUMMARY)?;
    by_list(&summary, &list_of_summary(&summary), most)
}
