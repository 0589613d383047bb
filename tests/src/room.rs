//! Lent buffers of several lengths. Refusal 6, for one that is too short, comes last in every call.

use crate::{refusal, Answer};

/// The answer where so many cells are lent for it.
pub fn within<T: Clone>(answer: &Answer<Vec<T>>, room: usize) -> Answer<Vec<T>> {
    match answer {
        Ok(cells) if cells.len() > room => Err(refusal::ROOM),
        _ => answer.clone(),
    }
}

/// Lengths to try: none, some short of what the answer needs, exact, and longer.
pub fn rooms<T>(answer: &Answer<Vec<T>>) -> Vec<usize> {
    let exact = answer.as_ref().map_or(2, Vec::len);
    let mut rooms = vec![0, 1, exact / 2, exact.saturating_sub(1), exact, exact + 1, exact + 40];
    rooms.sort_unstable();
    rooms.dedup();
    rooms
}
