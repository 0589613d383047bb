//! Parts of a trace, their summaries joined in any grouping, and the distances of each part after its prefix.

use crate::plain::summary::{self, MOST_WORDS};
use crate::plain::{session, trace};
use crate::random::Random;
use crate::tally::Tally;
use crate::{calls, refusal};

/// A part of a trace: the reads accepted, and the summary of them.
pub struct Part {
    pub reads: Vec<u32>,
    pub words: Vec<u32>,
}

/// What a new session makes of a list of read calls: the part, and the words answered.
pub fn read_calls(list: &[u32]) -> (Part, Vec<u32>) {
    let mut words = calls::session_new(session::WORDS).expect("a new session");
    let (mut reads, mut answers) = (Vec::new(), Vec::new());
    for extent in list {
        match calls::session_read(&mut words, *extent) {
            Ok(reading) => {
                reads.push(*extent);
                answers.push(reading.word as u32);
            }
            Err(number) => assert_eq!(number, refusal::EXTENTS, "a read within the limit of reads"),
        }
    }
    let words = calls::session_summary(&words, MOST_WORDS).expect("a session that nobody else wrote to");
    (Part { reads, words }, answers)
}

/// The part of these reads, by a session or by the call for whole traces.
pub fn part(random: &mut Random, reads: &[u32]) -> Part {
    if random.one_in(2) {
        return read_calls(reads).0;
    }
    let words = calls::summarize(reads, MOST_WORDS).expect("a trace within the limits");
    Part { reads: reads.to_vec(), words }
}

/// The reads cut at random places, empty parts among them.
pub fn cut(random: &mut Random, reads: &[u32], count: usize) -> Vec<Part> {
    let mut cuts: Vec<usize> = (1..count).map(|_| random.below(reads.len() + 1)).collect();
    cuts.extend([0, reads.len()]);
    cuts.sort_unstable();
    cuts.windows(2).map(|ends| part(random, &reads[ends[0]..ends[1]])).collect()
}

/// The summary of a random grouping of one or more parts.
pub fn grouped(random: &mut Random, parts: &[Part]) -> Vec<u32> {
    if parts.len() == 1 {
        return parts[0].words.clone();
    }
    let (first, rest) = parts.split_at(1 + random.below(parts.len() - 1));
    let (a, b) = (grouped(random, first), grouped(random, rest));
    calls::join(&a, &b, MOST_WORDS).expect("a join within the limits")
}

/// The words of each part's reads after a grouping of all parts before it, end to end.
fn distances(random: &mut Random, parts: &[Part]) -> Vec<u32> {
    let mut all = Vec::new();
    for (place, part) in parts.iter().enumerate() {
        let prefix = if place == 0 { vec![0, 0] } else { grouped(random, &parts[..place]) };
        all.extend(calls::distances(&prefix, &part.reads, part.reads.len()).expect("a part within the limits"));
    }
    all
}

/// Compares the parts, grouped, with the uncut reading of all of them.
pub fn compare(tally: &mut Tally, random: &mut Random, parts: &[Part]) {
    let whole: Vec<u32> = parts.iter().flat_map(|part| part.reads.iter().copied()).collect();
    let (uncut, answers) = read_calls(&whole);
    tally.same(&uncut.reads, &whole, &whole);
    tally.same(&uncut.words, &summary::of(&whole), &whole);
    tally.same(&answers, &trace::distances(&whole), &whole);
    for _ in 0..3 {
        tally.same(&grouped(random, parts), &uncut.words, &whole);
    }
    let in_parts = distances(random, parts);
    tally.same(&in_parts, &answers, &whole);
    tally.same(trace::numbers(&in_parts), (1..=uncut.words[1]).collect(), &whole);
}
