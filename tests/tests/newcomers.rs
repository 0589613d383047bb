//! The numbers of cold reads: how many different extents the log has had, those of a prefix counted too.

use jemqolu_tests::plain::session::{SLOTS, WORDS};
use jemqolu_tests::plain::summary::{self, MOST_WORDS};
use jemqolu_tests::plain::{trace, COLD_BASE, MAX_EXTENTS, MAX_READS};
use jemqolu_tests::random::Random;
use jemqolu_tests::tally::Tally;
use jemqolu_tests::{calls, made, refusal};

/// The cold reads by their words: the number of each, and its extent.
fn cold_reads(reads: &[u32], words: &[u32]) -> Vec<(u32, u32)> {
    assert_eq!(reads.len(), words.len(), "a word a read");
    let cold = words.iter().zip(reads).filter(|(word, _)| trace::is_cold(**word));
    cold.map(|(word, extent)| (word - COLD_BASE, *extent)).collect()
}

/// The extents of a summary by first read, each after its place, counted from 1.
fn by_first_read(words: &[u32]) -> Vec<(u32, u32)> {
    let parts = summary::well_formed(words).expect("a well-formed summary");
    (1..).zip(parts.firsts.iter().copied()).collect()
}

/// The words that a new session answers, and its summary.
fn read_all(reads: &[u32]) -> (Vec<u32>, Vec<u32>) {
    let mut session = calls::session_new(WORDS).expect("a new session");
    let mut read = |extent: &u32| calls::session_read(&mut session, *extent).expect("a read within the limits").word;
    let words = reads.iter().map(|extent| read(extent) as u32).collect();
    (words, calls::session_summary(&session, MOST_WORDS).expect("a session that nobody else wrote to"))
}

/// The words of a part's reads after a prefix.
fn after(prefix: &[u32], reads: &[u32]) -> Vec<u32> {
    calls::distances(prefix, reads, reads.len()).expect("a part within the limits")
}

#[test]
fn every_trace_has_the_numbers_from_1_in_order() {
    let mut tally = Tally::new("numbers of sessions and of whole traces");
    let mut random = Random::new(171);
    let mut traces = made::all_traces(6, &[0, 4096, u32::MAX]);
    traces.extend((0..50).map(|_| made::trace(&mut random, 900, MAX_EXTENTS)));
    for reads in traces {
        let (answers, words) = read_all(&reads);
        let all: Vec<u32> = (1..=trace::different(&reads) as u32).collect();
        tally.same(trace::numbers(&answers), all.clone(), &reads);
        tally.same(cold_reads(&reads, &answers), by_first_read(&words), &reads);
        let uncut = after(&[0, 0], &reads);
        tally.same(trace::numbers(&uncut), all, &reads);
        tally.same(uncut, answers, &reads);
    }
    tally.at_least(4000);
}

#[test]
fn the_numbers_go_on_at_every_cut() {
    let mut tally = Tally::new("numbers at every cut");
    let mut random = Random::new(172);
    let mut traces = made::all_traces(6, &[7, 1024, 1_048_576]);
    traces.extend((0..60).map(|_| made::trace(&mut random, 90, 40)));
    traces.push((0..MAX_EXTENTS as u32).chain(100..140).collect());
    for reads in traces {
        let (answers, whole) = read_all(&reads);
        for cut in 0..=reads.len() {
            let (front, back) = reads.split_at(cut);
            let prefix = calls::summarize(front, MOST_WORDS).expect("a trace within the limits");
            let words = [after(&[0, 0], front), after(&prefix, back)].concat();
            tally.same(cold_reads(&reads, &words), by_first_read(&whole), &(&reads, cut));
            tally.same(&words, &answers, &(&reads, cut));
        }
    }
    tally.at_least(18_000);
}

#[test]
fn after_prefixes_that_no_trace_has() {
    let mut tally = Tally::new("numbers after prefixes that no trace has, and joins");
    let mut random = Random::new(173);
    let mut seen = 0;
    for round in 0..900 {
        let most = [6, 60, MAX_EXTENTS][round % 3];
        let pool = made::extents(&mut random, most);
        let (known, from, reads) = (random.below(most + 1), random.below(most), random.below(400));
        let warm = random.of(&[0, 1, 500, 65_536]);
        let prefix = made::summary_over(&mut random, &pool[..known], warm);
        let part = made::trace_over(&mut random, &pool[from..], reads);
        let words = calls::summarize(&part, MOST_WORDS).expect("a trace within the limits");
        let joined = calls::join(&prefix, &words, MOST_WORDS).expect("a join within the limits");
        let wanted = &by_first_read(&joined)[known..];
        seen += wanted.len();
        tally.same(&cold_reads(&part, &after(&prefix, &part))[..], wanted, &(&prefix, &part));
    }
    assert!(seen >= 10_000, "{seen} cold reads");
    tally.at_least(900);
}

#[test]
fn every_number_of_extents_before() {
    let mut tally = Tally::new("numbers after every number of extents");
    let mut random = Random::new(174);
    for known in 0..=MAX_EXTENTS {
        let extents = made::extents(&mut random, known + 1);
        let (another, extents) = extents.split_last().expect("one extent or more");
        let number = COLD_BASE + known as u32 + 1;
        let wanted = if known == MAX_EXTENTS { Err(refusal::EXTENTS) } else { Ok(number) };
        for warm in [0, 1, 700, MAX_READS as usize - 2 - known] {
            let prefix = made::summary_over(&mut random, extents, warm);
            let words = calls::distances(&prefix, &[*another, *another], 2);
            tally.same(words, wanted.map(|number| vec![number, 1]), &(&prefix, another));
            let mut session = made::session_over(&mut random, extents, warm, MAX_EXTENTS + 44);
            let word = calls::session_read(&mut session, *another).map(|reading| reading.word as u32);
            tally.same(word, wanted, &(&session, another));
        }
    }
    tally.at_least(8 * (MAX_EXTENTS as u64 + 1));
}

#[test]
fn reads_of_known_extents_are_not_counted() {
    let mut tally = Tally::new("numbers after many reads of one extent");
    let by_session = [1, 2, MAX_EXTENTS - 1, MAX_EXTENTS, MAX_EXTENTS + 1, SLOTS + 88];
    for reads in by_session.into_iter().chain([65_535, 65_536, 65_537, MAX_READS as usize - 1]) {
        let trace = [vec![5; reads], vec![6]].concat();
        let words = [vec![COLD_BASE + 1], vec![1; reads - 1], vec![COLD_BASE + 2]].concat();
        tally.same(after(&[0, 0], &trace), words.clone(), &reads);
        let prefix = calls::summarize(&trace[..reads], 5).expect("a trace within the limits");
        tally.same(after(&prefix, &trace[reads..]), vec![COLD_BASE + 2], &reads);
        if by_session.contains(&reads) {
            tally.same(read_all(&trace).0, words, &reads);
        }
    }
    tally.at_least(26);
}

#[test]
fn the_largest_number_is_that_of_the_limit_of_extents() {
    let mut tally = Tally::new("numbers at the limit of extents and one more");
    let mut random = Random::new(175);
    let largest = COLD_BASE + MAX_EXTENTS as u32;
    for _ in 0..20 {
        let pool = made::extents(&mut random, MAX_EXTENTS + 1);
        let (another, extents) = pool.split_last().expect("one extent or more");
        for cut in [0, 1, MAX_EXTENTS / 2, MAX_EXTENTS - 2, MAX_EXTENTS - 1, MAX_EXTENTS] {
            let prefix = made::summary_over(&mut random, &extents[..cut], 40);
            let part = random.shuffled(&[&extents[cut..], &extents[..cut]].concat());
            let words = after(&prefix, &part);
            let above = words.iter().copied().filter(|word| *word > COLD_BASE).max();
            tally.same(above, (cut < MAX_EXTENTS).then_some(largest), &(&prefix, &part));
            let part = [part.as_slice(), &[*another]].concat();
            tally.same(calls::distances(&prefix, &part, part.len()), Err(refusal::EXTENTS), &(&prefix, &part));
        }
    }
    tally.at_least(240);
}
