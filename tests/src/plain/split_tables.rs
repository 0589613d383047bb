//! One store split among customers, by a table: the same splits as those of `splits`, of large stores too.

use super::splits::{customers, Customer, Split};
use crate::{refusal, Answer};

/// For every total up to the store the best split of exactly that total, where there is one: the fewest misses in all,
/// then the smallest first share, the second, and so on.
type Row = Vec<Option<Split>>;

/// The row of no customers.
fn nobody(store: u32) -> Row {
    let mut row = vec![None; store as usize + 1];
    row[0] = Some(Split { misses: 0, shares: Vec::new() });
    row
}

/// The best split of a total when one more customer stands after those of a row.
fn with_one_more(row: &Row, customer: &Customer, total: usize) -> Option<Split> {
    let ranked = (customer.least as usize..=total).filter_map(|share| {
        let before = row[total - share].as_ref()?;
        Some((before.misses + customer.misses[share], &before.shares, share as u32))
    });
    let (misses, before, share) = ranked.min()?;
    Some(Split { misses, shares: [before.as_slice(), &[share]].concat() })
}

/// The best split, where there is one: the fewest misses in all, then the smallest total, then the smallest first share,
/// the second, and so on.
pub fn best(store: u32, customers: &[Customer]) -> Answer<Split> {
    let mut row = nobody(store);
    for customer in customers {
        row = (0..row.len()).map(|total| with_one_more(&row, customer, total)).collect();
    }
    let ranked = row.iter().enumerate().filter_map(|(total, split)| split.as_ref().map(|split| (split, total)));
    let best = ranked.min_by_key(|(split, total)| (split.misses, *total));
    best.map(|(split, _)| split.clone()).ok_or(refusal::SHARES)
}

/// The call for a split, all but what is refused for the buffer's length.
pub fn split(store: u32, leasts: &[u32], summaries: &[u32]) -> Answer<Split> {
    best(store, &customers(store, leasts, summaries)?)
}
