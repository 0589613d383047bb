//! The two forms of a session: with all sums of the tree over the slots, and with a count and right-hand sums alone. All
//! other words are the same in both.

use super::full_session::{self, SUMS};
use super::session::{self, COUNT, POINTS, RIGHTS, SLOTS};

/// The root's place among all sums.
const ROOT: usize = SUMS.end - SUMS.start - 1;

/// The form with right-hand sums alone. Its count is the root, and its right-hand sums are the sums of the right children,
/// which have the odd places.
pub fn right_hand(full: &[u32]) -> Vec<u32> {
    let sums = &full[SUMS];
    let rights: Vec<u32> = sums.iter().copied().skip(1).step_by(2).collect();
    [&full[..SUMS.start], &[sums[ROOT]], &rights, &full[full_session::NEXT..]].concat()
}

/// The form with all sums, each left child's sum being its parent's less the right child's; none where that would be
/// below 0.
pub fn full(words: &[u32]) -> Option<Vec<u32>> {
    let mut sums = vec![0; SUMS.len()];
    sums[ROOT] = words[COUNT];
    for point in (0..POINTS).rev() {
        let (parent, right) = (sums[SLOTS + point], words[RIGHTS][point]);
        if right > parent {
            return None;
        }
        (sums[2 * point], sums[2 * point + 1]) = (parent - right, right);
    }
    Some([&words[..COUNT], &sums, &words[session::NEXT..]].concat())
}

/// The sound session with all sums whose other form these words are, where there is one.
pub fn sound_full(words: &[u32]) -> Option<Vec<u32>> {
    full(words).filter(|full| full_session::sound(full))
}
