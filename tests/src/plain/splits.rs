//! One store split among customers: every allowed list of shares, and the best of them.

use super::{cache, summary};
use crate::{refusal, Answer};

/// The largest store.
pub const MAX_STORE: u32 = 1024;
/// The most customers.
pub const MAX_CUSTOMERS: usize = 8;

/// One share for each customer, and the misses in all.
#[derive(Clone, PartialEq, Eq, Debug)]
pub struct Split {
    pub misses: u64,
    pub shares: Vec<u32>,
}

/// A customer of a store: its least share, and its misses at every share from 0 to the store.
#[derive(Clone, PartialEq, Eq, Debug)]
pub struct Customer {
    pub least: u32,
    pub misses: Vec<u64>,
}

impl Customer {
    /// The customer who reads this log in a cache of its share.
    pub fn of_log(store: u32, least: u32, log: &[u32]) -> Self {
        Customer { least, misses: cache::misses_to(log, store) }
    }

    /// The customer with this summary, whether or not a log has it.
    pub fn of_words(store: u32, least: u32, words: &[u32]) -> Answer<Self> {
        let summary = summary::well_formed(words).ok_or(refusal::SUMMARY)?;
        Ok(Customer { least, misses: summary::misses_to(&summary, store) })
    }
}

/// Every list of shares, none below its least, that add up to no more than the store.
pub fn allowed(store: u32, leasts: &[u32]) -> Vec<Vec<u32>> {
    let Some((least, others)) = leasts.split_first() else { return vec![Vec::new()] };
    let mut lists = Vec::new();
    for share in *least..=store {
        let rest = allowed(store - share, others);
        lists.extend(rest.iter().map(|rest| [&[share], rest.as_slice()].concat()));
    }
    lists
}

/// The misses in all of customers with these shares.
fn misses_in_all(customers: &[Customer], shares: &[u32]) -> u64 {
    customers.iter().zip(shares).map(|(customer, share)| customer.misses[*share as usize]).sum()
}

/// The best of all allowed lists, where there is one: the fewest misses in all, then the smallest total, then the
/// smallest first share, the second, and so on.
pub fn best_of_all(store: u32, customers: &[Customer]) -> Answer<Split> {
    let leasts: Vec<u32> = customers.iter().map(|customer| customer.least).collect();
    let ranked = allowed(store, &leasts).into_iter().map(|shares| {
        let total: u32 = shares.iter().sum();
        (misses_in_all(customers, &shares), total, shares)
    });
    let (misses, _, shares) = ranked.min().ok_or(refusal::SHARES)?;
    Ok(Split { misses, shares })
}

/// The words of each customer's summary. They stand end to end: each but the last has as many words as its own second
/// word says, the last all that are left.
fn cut(customers: usize, words: &[u32]) -> Answer<Vec<&[u32]>> {
    let (mut summaries, mut left) = (Vec::new(), words);
    for _ in 1..customers {
        let extents = left.get(1).ok_or(refusal::SUMMARY)?;
        let (first, rest) = left.split_at_checked(2 + 3 * *extents as usize).ok_or(refusal::SUMMARY)?;
        summaries.push(first);
        left = rest;
    }
    summaries.push(left);
    Ok(summaries)
}

/// The customers of a store with these least shares and summaries.
pub fn customers(store: u32, leasts: &[u32], summaries: &[u32]) -> Answer<Vec<Customer>> {
    if store > MAX_STORE {
        return Err(refusal::NUMBER);
    }
    if leasts.is_empty() || leasts.len() > MAX_CUSTOMERS {
        return Err(refusal::NUMBER);
    }
    let summaries = cut(leasts.len(), summaries)?;
    leasts.iter().zip(summaries).map(|(least, words)| Customer::of_words(store, *least, words)).collect()
}

/// The call for a split, all but what is refused for the buffer's length.
pub fn split(store: u32, leasts: &[u32], summaries: &[u32]) -> Answer<Split> {
    best_of_all(store, &customers(store, leasts, summaries)?)
}

/// The call for a split, with a buffer of `room` words.
pub fn within(split: &Answer<Split>, room: usize) -> Answer<Split> {
    match split {
        Ok(split) if split.shares.len() > room => Err(refusal::ROOM),
        _ => split.clone(),
    }
}
