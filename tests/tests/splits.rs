//! One store split among customers: the shares, and the misses in all.

use jemqolu_tests::plain::splits::{self, Customer, Split, MAX_CUSTOMERS, MAX_STORE};
use jemqolu_tests::plain::summary::{self, MOST_WORDS};
use jemqolu_tests::plain::{cache, session, split_tables, trace, MAX_EXTENTS};
use jemqolu_tests::random::Random;
use jemqolu_tests::room::rooms;
use jemqolu_tests::tally::Tally;
use jemqolu_tests::{calls, made, Answer};

/// The summaries of these logs, end to end.
fn summaries_of(logs: &[Vec<u32>]) -> Vec<u32> {
    logs.iter().flat_map(|log| summary::of(log)).collect()
}

/// The customers who read these logs in caches.
fn readers(store: u32, leasts: &[u32], logs: &[Vec<u32>]) -> Vec<Customer> {
    leasts.iter().zip(logs).map(|(least, log)| Customer::of_log(store, *least, log)).collect()
}

/// Compares a split in buffers of all lengths of interest.
fn compare(tally: &mut Tally, store: u32, leasts: &[u32], summaries: &[u32], wanted: &Answer<Split>) {
    for room in rooms(&wanted.clone().map(|split| split.shares)) {
        let got = calls::split(store, leasts, summaries, room);
        tally.same(got, splits::within(wanted, room), &(store, leasts, summaries, room));
    }
}

/// Logs of so many customers, of up to so many reads and extents; one in three times some of them are the same.
fn logs(random: &mut Random, customers: usize, most_reads: usize, most_extents: usize) -> Vec<Vec<u32>> {
    let logs: Vec<Vec<u32>> = (0..customers).map(|_| made::trace(random, most_reads, most_extents)).collect();
    if !random.one_in(3) {
        return logs;
    }
    (0..customers).map(|_| logs[random.below(customers)].clone()).collect()
}

#[test]
fn the_worked_examples() {
    let split = |store: u32, logs: &[Vec<u32>]| {
        let leasts = vec![0; logs.len()];
        let wanted = splits::best_of_all(store, &readers(store, &leasts, logs));
        let got = calls::split(store, &leasts, &summaries_of(logs), logs.len());
        assert_eq!(got, wanted);
        got.map(|split| (split.misses, split.shares))
    };
    let logs = [vec![1, 1], vec![1, 2, 1, 2]];
    assert_eq!(split(2, &logs), Ok((4, vec![0, 2])));
    // one extent at a time goes to the first log, the only one that gains by one, and then to nobody
    assert_eq!([0, 1].map(|share| cache::misses(&logs[1], share)), [4, 4]);
    assert_eq!(cache::misses(&logs[0], 1) + cache::misses(&logs[1], 1), 5);
    let same = [vec![3, 3], vec![3, 3]];
    assert_eq!(split(0, &same), Ok((4, vec![0, 0])));
    assert_eq!(split(1, &same), Ok((3, vec![0, 1])));
    assert_eq!(split(2, &same), Ok((2, vec![1, 1])));
    assert_eq!(split(9, &same), Ok((2, vec![1, 1])));
}

#[test]
fn all_pairs_of_short_logs() {
    let mut tally = Tally::new("splits between all pairs of short logs");
    let logs = made::all_traces(4, &[0, 4096, u32::MAX]);
    let customers: Vec<(Customer, Vec<u32>)> =
        logs.iter().map(|log| (Customer::of_log(5, 0, log), summary::of(log))).collect();
    for (one, words) in &customers {
        for (other, more) in &customers {
            let summaries = [words.as_slice(), more].concat();
            for (store, leasts) in (0..=5).flat_map(|store| [[0, 0], [1, 0], [0, 2]].map(|leasts| (store, leasts))) {
                let [one, other] = [(leasts[0], one), (leasts[1], other)]
                    .map(|(least, customer)| Customer { least, misses: customer.misses.clone() });
                let wanted = splits::best_of_all(store, &[one, other]);
                tally.same(calls::split(store, &leasts, &summaries, 2), wanted, &(store, leasts, &summaries));
            }
        }
    }
    tally.at_least(121 * 121 * 18);
}

#[test]
fn small_logs() {
    let mut tally = Tally::new("splits among readers of small logs");
    let mut random = Random::new(171);
    let mut refused = 0;
    for _ in 0..12_000 {
        let (customers, store) = (1 + random.below(4), random.below(9) as u32);
        let logs = logs(&mut random, customers, 24, 6);
        let leasts = made::leasts(&mut random, store, customers);
        let wanted = splits::best_of_all(store, &readers(store, &leasts, &logs));
        refused += u32::from(wanted.is_err());
        compare(&mut tally, store, &leasts, &summaries_of(&logs), &wanted);
    }
    assert!((1500..6000).contains(&refused), "{refused} refused");
    tally.at_least(50_000);
}

#[test]
fn words_that_no_log_has() {
    let mut tally = Tally::new("splits of words that no log has");
    let mut random = Random::new(172);
    for _ in 0..8000 {
        let (customers, store) = (1 + random.below(4), random.below(9) as u32);
        let summaries: Vec<u32> = (0..customers).flat_map(|_| made::summary(&mut random, 6)).collect();
        let leasts = made::leasts(&mut random, store, customers);
        let wanted = splits::split(store, &leasts, &summaries);
        compare(&mut tally, store, &leasts, &summaries, &wanted);
    }
    tally.at_least(35_000);
}

#[test]
fn least_shares_above_the_extents() {
    let mut tally = Tally::new("splits with least shares above the extents");
    let mut random = Random::new(173);
    let mut above = 0;
    for _ in 0..2000 {
        let (customers, store) = (1 + random.below(3), 6 + random.below(10) as u32);
        let logs = logs(&mut random, customers, 12, 3);
        let leasts: Vec<u32> = (0..customers).map(|_| random.below(6) as u32).collect();
        let wanted = splits::best_of_all(store, &readers(store, &leasts, &logs));
        if let Ok(split) = &wanted {
            let extents = logs.iter().map(|log| trace::firsts(log).len() as u32);
            above += split.shares.iter().zip(extents).filter(|(share, extents)| *share > extents).count();
        }
        compare(&mut tally, store, &leasts, &summaries_of(&logs), &wanted);
    }
    assert!(above > 1000, "{above} shares above the extents");
    tally.at_least(8000);
}

#[test]
fn larger_stores_and_every_list_of_shares() {
    let mut tally = Tally::new("splits of larger stores, and all allowed lists");
    let mut random = Random::new(174);
    for round in 0..240 {
        let (customers, most) = [(1, 1025), (2, 200), (3, 40)][round % 3];
        let store = random.below(most) as u32;
        let logs = logs(&mut random, customers, 300, most.min(120));
        let leasts = made::leasts(&mut random, store, customers);
        let summaries = summaries_of(&logs);
        let wanted = splits::split(store, &leasts, &summaries);
        compare(&mut tally, store, &leasts, &summaries, &wanted);
    }
    tally.at_least(1000);
}

/// A store to try: any, and the largest often.
fn large_store(random: &mut Random) -> u32 {
    let any = random.below(MAX_STORE as usize + 1) as u32;
    random.of(&[MAX_STORE, MAX_STORE, MAX_STORE - 1, 256, any, any, any])
}

#[test]
fn large_summaries() {
    let mut tally = Tally::new("splits among many extents");
    let mut random = Random::new(175);
    for round in 0..96 {
        let (customers, store) = (1 + round % MAX_CUSTOMERS, large_store(&mut random));
        let summaries: Vec<u32> = (0..customers)
            .flat_map(|_| {
                let count = random.of(&[3, 40, MAX_EXTENTS, MAX_EXTENTS]);
                let (extents, warm) = (made::extents(&mut random, count), random.below(100_000));
                made::summary_over(&mut random, &extents, warm)
            })
            .collect();
        let leasts = made::leasts(&mut random, store, customers);
        let wanted = split_tables::split(store, &leasts, &summaries);
        compare(&mut tally, store, &leasts, &summaries, &wanted);
    }
    tally.at_least(400);
}

#[test]
fn large_logs() {
    let mut tally = Tally::new("splits among readers of large logs");
    let mut random = Random::new(176);
    for round in 0..48 {
        let (customers, store) = (1 + round % MAX_CUSTOMERS, large_store(&mut random));
        let logs = logs(&mut random, customers, 3000, MAX_EXTENTS);
        let leasts = made::leasts(&mut random, store, customers);
        let summaries = summaries_of(&logs);
        let wanted = split_tables::split(store, &leasts, &summaries);
        compare(&mut tally, store, &leasts, &summaries, &wanted);
    }
    tally.at_least(200);
}

#[test]
fn the_caches_of_a_large_store() {
    let mut tally = Tally::new("splits of the largest store, and caches");
    let mut random = Random::new(177);
    // two customers with all extents that a log may have, the others with a quarter
    let logs: Vec<Vec<u32>> = (0..MAX_CUSTOMERS)
        .map(|customer| {
            let extents = made::extents(&mut random, if customer < 2 { MAX_EXTENTS } else { MAX_EXTENTS / 4 });
            [extents.clone(), made::trace_over(&mut random, &extents, 300)].concat()
        })
        .collect();
    let mut customers = readers(MAX_STORE, &[0; MAX_CUSTOMERS], &logs);
    for leasts in [[0; MAX_CUSTOMERS], [0, 100, 0, 300, 0, 1, 2, 0]] {
        customers.iter_mut().zip(leasts).for_each(|(customer, least)| customer.least = least);
        let wanted = split_tables::best(MAX_STORE, &customers);
        compare(&mut tally, MAX_STORE, &leasts, &summaries_of(&logs), &wanted);
    }
    tally.at_least(2 * 5);
}

#[test]
fn scans_take_all_or_nothing() {
    let mut tally = Tally::new("splits among scans");
    let mut random = Random::new(178);
    for round in 0..24 {
        let customers = 2 + round % 7;
        let logs: Vec<Vec<u32>> = (0..customers)
            .map(|_| {
                let (extents, times) = (1 + random.below(MAX_EXTENTS), 2 + random.below(4));
                (0..extents as u32).collect::<Vec<u32>>().repeat(times)
            })
            .collect();
        let store = 100 + random.below(900) as u32;
        let (leasts, summaries) = (vec![0; customers], summaries_of(&logs));
        let split = split_tables::split(store, &leasts, &summaries).expect("a split of a store");
        for (share, log) in split.shares.iter().zip(&logs) {
            let extents = trace::firsts(log).len() as u32;
            assert!([0, extents].contains(share), "a share of {share} for a scan of {extents} extents");
        }
        compare(&mut tally, store, &leasts, &summaries, &Ok(split));
    }
    tally.at_least(100);
}

/// The summary that a session has after these reads.
fn by_session(reads: &[u32]) -> Vec<u32> {
    let mut words = calls::session_new(session::WORDS).expect("a new session");
    for extent in reads {
        calls::session_read(&mut words, *extent).expect("a read within the limits");
    }
    calls::session_summary(&words, MOST_WORDS).expect("a sound session")
}

/// The join of the summaries of some parts of these reads, empty parts among them.
fn by_joins(random: &mut Random, reads: &[u32]) -> Vec<u32> {
    let (mut joined, mut left) = (vec![0, 0], reads);
    for _ in 0..random.below(5) {
        let (part, rest) = left.split_at(random.below(left.len() + 1));
        let part = calls::summarize(part, MOST_WORDS).expect("a part within the limits");
        joined = calls::join(&joined, &part, MOST_WORDS).expect("a join within the limits");
        left = rest;
    }
    let last = calls::summarize(left, MOST_WORDS).expect("a part within the limits");
    calls::join(&joined, &last, MOST_WORDS).expect("a join within the limits")
}

#[test]
fn how_a_summary_was_made_does_not_show() {
    let mut tally = Tally::new("splits by sessions, by one call and by joins");
    let mut random = Random::new(179);
    for round in 0..60 {
        let (customers, most) = (1 + random.below(4), [4, 30, MAX_EXTENTS][round % 3]);
        let store = random.below(12) as u32;
        let logs = logs(&mut random, customers, 400, most);
        let leasts = made::leasts(&mut random, store, customers);
        let wanted = splits::best_of_all(store, &readers(store, &leasts, &logs));
        let whole = |log: &Vec<u32>| calls::summarize(log, MOST_WORDS).expect("a log within the limits");
        let ways: [Vec<u32>; 3] = [
            logs.iter().flat_map(|log| by_session(log)).collect(),
            logs.iter().flat_map(whole).collect(),
            logs.iter().flat_map(|log| by_joins(&mut random, log)).collect(),
        ];
        for summaries in ways {
            compare(&mut tally, store, &leasts, &summaries, &wanted);
        }
    }
    tally.at_least(60 * 3 * 4);
}
