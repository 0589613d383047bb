//! Runs of 1,048,576 reads, and of one more.

use jemqolu_tests::guard::Lent;
use jemqolu_tests::plain::logs::{self, LISTING_BYTES};
use jemqolu_tests::plain::one_more::put_in;
use jemqolu_tests::plain::plans::{Carried, Plan, LEVEL_WORDS};
use jemqolu_tests::plain::session::{self, Reading, NEXT, WORDS};
use jemqolu_tests::plain::splits::{Split, MAX_CUSTOMERS, MAX_STORE};
use jemqolu_tests::plain::summary::{self, MOST_WORDS};
use jemqolu_tests::plain::trace::Stack;
use jemqolu_tests::plain::{cache, smallest, split_tables, MAX_EXTENTS, MAX_READS};
use jemqolu_tests::random::Random;
use jemqolu_tests::tally::Tally;
use jemqolu_tests::{calls, ffi, made, refusal, spread, Answer};

const MOST: usize = MAX_READS as usize;

/// A trace of one read more than the limit over all extents that a log may have, all of them read early, and its distances.
fn long_trace() -> (Vec<u32>, Vec<u32>) {
    let mut random = Random::new(141);
    let extents = made::extents(&mut random, MAX_EXTENTS);
    let near = made::trace_over(&mut random, &extents[..12], MOST + 1 - MAX_EXTENTS);
    let mut trace = [extents.clone(), near].concat();
    for _ in 0..2000 {
        let place = MAX_EXTENTS + random.below(MOST - MAX_EXTENTS);
        trace[place] = random.of(&extents);
    }
    let distances = Stack(Vec::new()).distances(&trace);
    (trace, distances)
}

/// As many reads as the limit that go round all extents that a log may have.
fn scans() -> Vec<u32> {
    (0..MAX_READS as u32).map(|read| read % MAX_EXTENTS as u32).collect()
}

/// The trace with its last read of an extent that it does not have.
fn with_another(trace: &[u32]) -> Vec<u32> {
    [&trace[..trace.len() - 1], &[made::another(trace)]].concat()
}

#[test]
fn whole_traces() {
    let mut tally = Tally::new("long traces in one call");
    let (trace, distances) = long_trace();
    let whole = summary::with_distances(&trace[..MOST], &distances[..MOST]);
    tally.same(calls::summarize(&trace[..MOST], MOST_WORDS), Ok(whole.clone()), &MOST);
    tally.same(calls::summarize(&trace[..MOST], MOST_WORDS - 1), Err(refusal::ROOM), &MOST);
    tally.same(calls::summarize(&trace, MOST_WORDS), Err(refusal::READS), &MOST);
    tally.same(calls::summarize(&with_another(&trace), 0), Err(refusal::READS), &MOST);
    tally.same(calls::summarize(&with_another(&trace[..MOST]), 0), Err(refusal::EXTENTS), &MOST);
    let (front, back) = trace[..MOST].split_at(400_000);
    let front = calls::summarize(front, MOST_WORDS).expect("a trace within the limits");
    let back = calls::summarize(back, MOST_WORDS).expect("a trace within the limits");
    tally.same(calls::join(&front, &back, MOST_WORDS), Ok(whole), &MOST);
    tally.same(calls::join(&front, &summary::of(&trace[..2]), MOST_WORDS).map(|words| words[0]), Ok(400_002), &MOST);
    tally.at_least(7);
}

#[test]
fn smallest_caches() {
    let mut tally = Tally::new("smallest caches of long traces");
    let (trace, distances) = long_trace();
    let whole = summary::with_distances(&trace[..MOST], &distances[..MOST]);
    let scans = calls::summarize(&scans(), MOST_WORDS).expect("a trace within the limits");
    for words in [&whole, &scans] {
        let summary = summary::well_formed(words).expect("a summary of all reads");
        let list = smallest::list_of_summary(&summary);
        for most in spread::allowances(&list) {
            tally.same(calls::smallest(words, most), smallest::by_list(&summary, &list, most), &most);
        }
    }
    for most in [MAX_READS as u32 - 1, MAX_READS as u32 / 2] {
        let size = calls::smallest(&whole, most).expect("at least the cold reads").size as u32;
        let [misses, more] = [size, size - 1].map(|size| cache::misses(&trace[..MOST], size));
        tally.same((misses <= u64::from(most), more <= u64::from(most)), (true, false), &(most, size));
    }
    let longer = summary::with_distances(&trace, &distances);
    for most in [0, MAX_EXTENTS as u32 - 1, MAX_EXTENTS as u32, MAX_READS as u32, u32::MAX] {
        tally.same(calls::smallest(&longer, most), Err(refusal::SUMMARY), &most);
    }
    tally.at_least(1000);
}

#[test]
fn splits() {
    let mut tally = Tally::new("splits among readers of long traces");
    let (trace, distances) = long_trace();
    let whole = summary::with_distances(&trace[..MOST], &distances[..MOST]);
    let leasts = [0; MAX_CUSTOMERS];
    let one = [MAX_READS as u32, 1, 5, 5, MAX_READS as u32 - 1];
    for words in [&whole[..], &one] {
        let summaries = words.repeat(MAX_CUSTOMERS);
        for store in [0, 1, 7, 9, 100, MAX_STORE] {
            let wanted = split_tables::split(store, &leasts, &summaries);
            tally.same(calls::split(store, &leasts, &summaries, MAX_CUSTOMERS), wanted, &store);
        }
        let none = Split { misses: MAX_CUSTOMERS as u64 * MAX_READS, shares: leasts.to_vec() };
        tally.same(calls::split(0, &leasts, &summaries, MAX_CUSTOMERS), Ok(none), &0);
    }
    tally.at_least(14);
}

#[test]
fn one_more_read() {
    let mut tally = Tally::new("one more read in long traces");
    let (trace, distances) = long_trace();
    let log = &trace[..MOST - 1];
    let without = summary::with_distances(log, &distances[..MOST - 1]);
    for (place, extent) in [(0, trace[MOST]), (400_000, trace[5]), (MOST - 1, trace[0])] {
        let with = summary::of(&put_in(log, place, extent));
        for size in [0, 3, 12, 700, u32::MAX] {
            let [with, without] = [&with, &without].map(|words| summary::misses(words, size));
            let change = with.and_then(|with| without.map(|without| with as i64 - without as i64));
            tally.same(calls::one_more(log, place, extent, size), change, &(place, extent, size));
        }
    }
    let (another, longer) = (made::another(&trace), &trace[..MOST]);
    for (place, extent) in [(0, trace[0]), (MOST / 2, another), (MOST, trace[0])] {
        tally.same(calls::one_more(longer, place, extent, 9), Err(refusal::READS), &(place, extent));
        tally.same(calls::one_more(&with_another(longer), place, extent, 9), Err(refusal::READS), &(place, extent));
    }
    tally.same(calls::one_more(log, MOST / 2, another, 9), Err(refusal::EXTENTS), &MOST);
    tally.same(calls::one_more(&with_another(log), MOST / 2, trace[0], 9), Err(refusal::EXTENTS), &MOST);
    tally.at_least(3 * 5 + 3 * 2 + 2);
}

#[test]
fn parts_after_a_prefix() {
    let mut tally = Tally::new("long parts after a prefix");
    let (trace, distances) = long_trace();
    let none = [0, 0];
    tally.same(calls::distances(&none, &trace[..MOST], MOST), Ok(distances[..MOST].to_vec()), &MOST);
    tally.same(calls::distances(&none, &trace[..MOST], MOST - 1), Err(refusal::ROOM), &MOST);
    tally.same(calls::distances(&none, &trace, MOST + 1), Err(refusal::READS), &MOST);
    let one = summary::of(&trace[..1]);
    tally.same(calls::distances(&one, &trace[1..MOST], MOST), Ok(distances[1..MOST].to_vec()), &MOST);
    tally.same(calls::distances(&one, &trace[1..], MOST), Err(refusal::READS), &MOST);
    tally.same(calls::distances(&one, &with_another(&trace[1..]), 0), Err(refusal::READS), &MOST);
    tally.same(calls::distances(&one, &with_another(&trace[1..MOST]), 0), Err(refusal::EXTENTS), &MOST);
    tally.at_least(7);
}

#[test]
fn plans() {
    let mut tally = Tally::new("plans of long logs");
    let (trace, distances) = long_trace();
    let text = |rest: usize| {
        let inner = Plan::Join(vec![Plan::Seg(5), Plan::Seg(0), Plan::Seg(500_000)]);
        Plan::Join(vec![Plan::Seg(300_000), inner, Plan::Seg(rest as u64 - 800_005)]).text()
    };
    let words = summary::with_distances(&trace[..MOST], &distances[..MOST]);
    let carried = Carried { words, cleared: 2 * LEVEL_WORDS };
    tally.same(calls::plan(&text(MOST), &trace[..MOST], 2 * LEVEL_WORDS, MOST_WORDS), Ok(carried), &MOST);
    tally.same(calls::plan(&text(MOST), &trace[..MOST], 2 * LEVEL_WORDS, MOST_WORDS - 1), Err(refusal::ROOM), &MOST);
    tally.same(calls::plan(&text(MOST), &trace, 0, 0), Err(refusal::SEGS), &MOST);
    tally.same(calls::plan(&text(MOST + 1), &trace, 2 * LEVEL_WORDS, MOST_WORDS), Err(refusal::READS), &MOST);
    tally.same(calls::plan(&text(MOST + 1), &with_another(&trace), 0, 0), Err(refusal::READS), &MOST);
    tally.same(calls::plan(&text(MOST), &with_another(&trace[..MOST]), 0, 0), Err(refusal::EXTENTS), &MOST);
    tally.at_least(6);
}

#[test]
fn plans_of_the_longest_seg() {
    let mut tally = Tally::new("plans of the longest seg");
    let (trace, distances) = long_trace();
    let two = |rest: u64| Plan::Join(vec![Plan::Seg(MAX_READS), Plan::Seg(rest)]).text();
    let words = summary::with_distances(&trace[..MOST], &distances[..MOST]);
    for (text, cleared) in [(two(0), LEVEL_WORDS), (Plan::Seg(MAX_READS).text(), 0)] {
        let carried = Carried { words: words.clone(), cleared };
        tally.same(calls::plan(&text, &trace[..MOST], cleared, MOST_WORDS), Ok(carried), &cleared);
        tally.same(calls::plan(&text, &trace, cleared, MOST_WORDS), Err(refusal::SEGS), &cleared);
    }
    tally.same(calls::plan(&two(1), &trace, LEVEL_WORDS, MOST_WORDS), Err(refusal::READS), &MOST);
    tally.same(calls::plan(&two(1), &with_another(&trace), 0, 0), Err(refusal::READS), &MOST);
    let parts = " (seg 0)\n".repeat(17);
    for (text, wanted) in [
        ("(seg 1048577)\n".to_string(), refusal::NUMBER),
        ("(seg 1048576)".to_string(), refusal::LINE),
        (format!("(join\n{parts} (seg 1048577))\n"), refusal::PLAN),
        (format!("(join\n (seg 1048577)\n{parts}"), refusal::NUMBER),
    ] {
        tally.same(calls::plan(text.as_bytes(), &with_another(&trace), 0, 0), Err(wanted), &text);
    }
    tally.at_least(10);
}

#[test]
fn log_texts() {
    let mut tally = Tally::new("long log texts");
    let (trace, _) = long_trace();
    let whole = logs::text(&trace[..MOST]);
    let listing = logs::listing(&trace[..MOST]);
    tally.same(calls::list(&whole, listing.len() - 1), Err(refusal::ROOM), &MOST);
    tally.same(calls::list(&whole, LISTING_BYTES), Ok(listing), &MOST);
    let open = [&whole[..whole.len() - 2], b"\n"].concat();
    let then = |line: &str| calls::list(&[&open, line.as_bytes()].concat(), 0);
    let another = with_another(&trace)[MOST];
    tally.same(then(&format!(" (read {}))\n", trace[0])), Err(refusal::READS), &MOST);
    tally.same(then(&format!(" (read {another}))\n")), Err(refusal::READS), &MOST);
    tally.same(then(&format!(" (read {another})\n")), Err(refusal::READS), &MOST);
    tally.same(then(" (read 4294967296)\n"), Err(refusal::NUMBER), &MOST);
    tally.same(then(" (read 4294967296)"), Err(refusal::LINE), &MOST);
    tally.same(then(" (read 4294967296)))\n"), Err(refusal::LINE), &MOST);
    tally.same(then(" (read 0)))\n"), Err(refusal::LINE), &MOST);
    tally.same(then(&format!(" (read {another})\n\n")), Err(refusal::READS), &MOST);
    tally.same(then(""), Err(refusal::LINE), &MOST);
    tally.same(calls::list(&logs::text(&with_another(&trace[..MOST])), 0), Err(refusal::EXTENTS), &MOST);
    tally.at_least(12);
}

#[test]
fn the_longest_listing() {
    let mut tally = Tally::new("the longest listing");
    // every size but the last misses every read
    let rows: String = (1..MAX_EXTENTS).map(|size| format!("\n (at {size} {MAX_READS})")).collect();
    let listing =
        format!("(sizing\n (reads {MAX_READS})\n (cold {MAX_EXTENTS}){rows}\n (at {MAX_EXTENTS} {MAX_EXTENTS}))\n");
    let (text, listing) = (logs::text(&scans()), listing.into_bytes());
    assert!(listing.len() <= LISTING_BYTES, "{} bytes", listing.len());
    tally.same(calls::list(&text, listing.len() - 1), Err(refusal::ROOM), &MOST);
    tally.same(calls::list(&text, listing.len()), Ok(listing), &MOST);
    tally.at_least(2);
}

/// The reads of a long session, over six extents, all of them among the last reads.
fn session_reads() -> Vec<u32> {
    let mut random = Random::new(142);
    let extents = made::extents(&mut random, 6);
    [made::trace_over(&mut random, &extents, MOST - 6), extents].concat()
}

/// A session lent with a word past it, and the places for the sums read and the slots looked at.
struct Reader {
    session: Lent<u32>,
    places: [Lent<u32>; 2],
}

impl Reader {
    /// A session of these words.
    fn new(words: &[u32]) -> Self {
        Reader { session: Lent::holding(&[words, &[5]].concat()), places: [Lent::room(1), Lent::room(1)] }
    }

    /// One more read.
    fn read(&mut self, extent: u32) -> Answer<Reading> {
        let [sums_read, slots_looked] = &mut self.places;
        let (one, other) = (&mut sums_read.cells_mut()[0], &mut slots_looked.cells_mut()[0]);
        let word = ffi::session_read(self.session.cells_mut(), extent, one, other);
        let [sums_read, slots_looked] = [sums_read, slots_looked].map(|place| place.written(1)[0]);
        word.map(|word| Reading { word, sums_read, slots_looked })
    }

    /// Fails where a read is not refused for the limit of reads, or where it changes something.
    fn assert_full(&mut self, extent: u32) {
        self.session.settle();
        self.places.iter_mut().for_each(Lent::settle);
        assert_eq!(self.read(extent), Err(refusal::READS));
        self.session.assert_kept();
        self.places.iter().for_each(Lent::assert_kept);
    }
}

/// Compares each of these reads from a session on with the plain session's, and the words after one read in eight, after
/// each move of the marks, and after the last.
fn compare_reads(tally: &mut Tally, words: &[u32], reads: &[u32]) -> Reader {
    let (mut reader, mut wanted) = (Reader::new(words), words.to_vec());
    for (read, extent) in reads.iter().enumerate() {
        let next = wanted[NEXT];
        tally.same(reader.read(*extent), Ok(session::accept(&mut wanted, *extent)), extent);
        if read % 8 == 0 || wanted[NEXT] < next || read + 1 == reads.len() {
            assert!(reader.session.written(WORDS) == wanted, "the session's words");
        }
    }
    reader
}

#[test]
fn a_session_of_the_first_half_of_all_reads() {
    let mut tally = Tally::new("reads of a long session from a new one on");
    let new = calls::session_new(WORDS).expect("a new session");
    compare_reads(&mut tally, &new, &session_reads()[..MOST / 2]);
    tally.at_least(MAX_READS / 2);
}

#[test]
fn a_session_of_the_second_half_of_all_reads() {
    let mut tally = Tally::new("reads of a long session from its half on");
    let reads = session_reads();
    let (front, back) = reads.split_at(MOST / 2);
    // the words at which the first half has ended
    let mut reader = compare_reads(&mut tally, &session::of(front), back);
    reader.assert_full(reads[0]);
    reader.assert_full(made::another(&reads));
    let summary = calls::session_summary(reader.session.cells(), MOST_WORDS);
    tally.same(summary, Ok(summary::of(&reads)), &MOST);
    tally.at_least(MAX_READS / 2 + 1);
}
