//! What refuses a split: each condition by itself and all of them together, in their order, and the numbers about which
//! they begin. The calls compare every lent word before and after.

use jemqolu_tests::plain::splits::{self, MAX_CUSTOMERS, MAX_STORE};
use jemqolu_tests::plain::{split_tables, summary};
use jemqolu_tests::random::Random;
use jemqolu_tests::tally::Tally;
use jemqolu_tests::{calls, made, refusal};

/// A call of a split.
#[derive(Debug)]
struct Call {
    store: u32,
    leasts: Vec<u32>,
    summaries: Vec<Vec<u32>>,
    room: usize,
}

/// What is wrong with a call, in the order in which it is refused.
const FAULTS: [(&str, i64); 5] = [
    ("store", refusal::NUMBER),
    ("customers", refusal::NUMBER),
    ("summary", refusal::SUMMARY),
    ("leasts", refusal::SHARES),
    ("room", refusal::ROOM),
];

/// The call of three customers with these faults, each in one of several ways.
fn call_with(random: &mut Random, faults: &[&str]) -> Call {
    let store = if faults.contains(&"store") { random.of(&[1025, 1026, 2048, 1 << 16, u32::MAX]) } else { 5 };
    let count = if faults.contains(&"customers") { random.of(&[0, 9, 10, 16, 256, 1000]) } else { 3 };
    let logs = [[7, 7, 7, 3, 3], [1, 2, 1, 2, 1], [5, 5, 6, 7, 8]];
    let mut call = Call { store, leasts: vec![0; count], summaries: Vec::new(), room: count };
    call.summaries.extend((0..count).map(|place| summary::of(&logs[place % 3])));
    if faults.contains(&"summary") && count > 0 {
        let (place, word) = (random.below(count), random.of(&[0, 1, 2, 3]));
        call.summaries[place][word] += 1;
    }
    if faults.contains(&"leasts") && count > 0 {
        let (one, other) = random.of(&[(store, 1), (1, store), (u32::MAX, 0), (u32::MAX, 1), (1 << 31, 1 << 31)]);
        call.leasts[0] = one;
        call.leasts[count - 1] = other;
    }
    if faults.contains(&"room") {
        call.room = random.of(&[0, count / 2, count.saturating_sub(1)]);
    }
    call
}

#[test]
fn every_set_of_faults() {
    let mut tally = Tally::new("faults of splits, all sets of them");
    let mut random = Random::new(181);
    for set in 0..1 << FAULTS.len() {
        let chosen = (0..FAULTS.len()).filter(|place| set >> place & 1 == 1);
        let faults: Vec<(&str, i64)> = chosen.map(|place| FAULTS[place]).collect();
        let names: Vec<&str> = faults.iter().map(|(name, _)| *name).collect();
        for _ in 0..100 {
            let call = call_with(&mut random, &names);
            let summaries = call.summaries.concat();
            let wanted = match faults.first() {
                Some((_, number)) => Err(*number),
                None => splits::split(call.store, &call.leasts, &summaries),
            };
            let got = calls::split(call.store, &call.leasts, &summaries, call.room);
            tally.same(got, wanted, &(&names, &call));
        }
    }
    tally.at_least(3200);
}

#[test]
fn the_largest_store() {
    let mut tally = Tally::new("splits of 1,024 extents and of more");
    let summaries = [summary::of(&[1, 2, 1, 2]), summary::of(&[4, 4])].concat();
    for leasts in [[0, 0], [0, 1], [1000, 24]] {
        for store in [MAX_STORE - 1, MAX_STORE] {
            let wanted = split_tables::split(store, &leasts, &summaries);
            tally.same(calls::split(store, &leasts, &summaries, 2), wanted, &(store, leasts));
        }
        let powers = (11..32).flat_map(|power| [(1 << power) - 1, 1 << power, (1 << power) + 1]);
        for store in [MAX_STORE + 1, MAX_STORE + 2, u32::MAX - 1, u32::MAX].into_iter().chain(powers) {
            tally.same(calls::split(store, &leasts, &summaries, 2), Err(refusal::NUMBER), &(store, leasts));
        }
    }
    tally.at_least(200);
}

#[test]
fn the_number_of_customers() {
    let mut tally = Tally::new("splits among no, one, eight, nine and many customers");
    let mut random = Random::new(182);
    for count in (0..=40).chain([255, 256, 257, 1000, 65_536, 65_537, 100_000]) {
        let store = random.below(5) as u32;
        let logs: Vec<Vec<u32>> = (0..count).map(|_| made::trace(&mut random, 6, 3)).collect();
        let summaries: Vec<u32> = logs.iter().flat_map(|log| summary::of(log)).collect();
        let wanted = splits::split(store, &vec![0; count], &summaries);
        assert_eq!(wanted.is_ok(), (1..=MAX_CUSTOMERS).contains(&count), "{count} customers");
        tally.same(calls::split(store, &vec![0; count], &summaries, count), wanted, &(store, count));
        let none = splits::split(store, &vec![0; count], &[]);
        tally.same(calls::split(store, &vec![0; count], &[], count), none, &(store, count));
    }
    tally.at_least(90);
}

#[test]
fn least_shares_of_exactly_the_store_and_one_more() {
    let mut tally = Tally::new("splits about the sum of the least shares");
    let mut random = Random::new(183);
    for round in 0..300 {
        let customers = 1 + round % MAX_CUSTOMERS;
        let store = random.of(&[0, 1, 2, 7, 8, 255, 256, 257, 1000, 1023, 1024]);
        let summaries: Vec<u32> = (0..customers).flat_map(|_| made::summary(&mut random, 5)).collect();
        let mut leasts = vec![0; customers];
        (0..store).for_each(|_| leasts[random.below(customers)] += 1);
        let split = calls::split(store, &leasts, &summaries, customers + 1);
        tally.same(split.as_ref().map(|split| &split.shares), Ok(&leasts), &(store, &leasts));
        tally.same(split, split_tables::split(store, &leasts, &summaries), &(store, &leasts));
        for place in 0..customers {
            let mut more = leasts.clone();
            more[place] += 1;
            let refused = calls::split(store, &more, &summaries, customers + 1);
            tally.same(refused, Err(refusal::SHARES), &(store, &more));
        }
    }
    tally.at_least(1800);
}

#[test]
fn least_shares_whose_sum_wraps() {
    let mut tally = Tally::new("splits with least shares that add up to a small sum modulo 2^32 or less");
    let eighth = 1 << 29;
    for leasts in [&[u32::MAX][..], &[u32::MAX, 1], &[1, u32::MAX], &[u32::MAX, 2, 3], &[0, u32::MAX - 4, 6]]
        .into_iter()
        .chain([&[1 << 31, 1 << 31][..], &[1 << 31, 0, 1 << 31, 1], &[u32::MAX, u32::MAX, 2], &[eighth; 8]])
        .chain([&[u32::MAX; 8][..], &[1 << 31], &[1 << 30; 4], &[1 << 16], &[1 << 15, 1 << 15], &[65_000, 536]])
        .chain([&[1 << 8; 8][..], &[u32::MAX - 1024], &[u32::MAX - 1023, 1024], &[3 << 30, 1 << 30, 5]])
    {
        let summaries = summary::of(&[7, 3, 7, 3]).repeat(leasts.len());
        for store in [0, 1, 2, 5, 9, 255, 256, MAX_STORE - 1, MAX_STORE] {
            let got = calls::split(store, leasts, &summaries, leasts.len());
            tally.same(got, Err(refusal::SHARES), &(store, leasts));
        }
    }
    tally.at_least(170);
}

#[test]
fn buffers_of_every_length() {
    let mut tally = Tally::new("splits in buffers of every length");
    let mut random = Random::new(184);
    for customers in 1..=MAX_CUSTOMERS {
        let summaries: Vec<u32> = (0..customers).flat_map(|_| made::summary(&mut random, 5)).collect();
        let wanted = splits::split(4, &vec![0; customers], &summaries);
        for room in (0..20).chain([1000, 1 << 16]) {
            let got = calls::split(4, &vec![0; customers], &summaries, room);
            tally.same(got, splits::within(&wanted, room), &(customers, room));
        }
    }
    tally.at_least(170);
}
