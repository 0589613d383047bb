//! Sessions with right-hand sums alone beside plain sessions with all sums: the same answers, and words that correspond.

use jemqolu_tests::long_logs::{self, KINDS, LONG, MOVES};
use jemqolu_tests::plain::full_session::{self, SUMS};
use jemqolu_tests::plain::names::{self, Call};
use jemqolu_tests::plain::session::{self, Reading, NEXT, SLOTS, WORDS};
use jemqolu_tests::plain::summary::MOST_WORDS;
use jemqolu_tests::plain::{forms, MAX_EXTENTS, MAX_READS};
use jemqolu_tests::random::Random;
use jemqolu_tests::tally::Tally;
use jemqolu_tests::{calls, made, refusal, runs, spread, Answer};
use std::collections::HashMap;

/// A session of the library, and the plain one with all sums.
struct Beside {
    words: Vec<u32>,
    full: Vec<u32>,
}

impl Beside {
    /// New sessions.
    fn new() -> Self {
        let words = calls::session_new(WORDS).expect("a new session");
        Beside { words, full: full_session::new() }
    }

    /// A plain session with all sums, and the one that it corresponds to.
    fn of(full: Vec<u32>) -> Self {
        Beside { words: forms::right_hand(&full), full }
    }

    /// Compares the words of both.
    #[track_caller]
    fn compare_words(&self, tally: &mut Tally, context: &dyn std::fmt::Debug) {
        tally.same(self.words == forms::right_hand(&self.full), true, context);
    }

    /// One more read of a log within the limits, its answer and the words after it compared.
    #[track_caller]
    fn accept(&mut self, tally: &mut Tally, extent: u32) {
        let wanted = full_session::accept(&mut self.full, extent);
        tally.same(calls::session_read(&mut self.words, extent), Ok(wanted), &extent);
        self.compare_words(tally, &extent);
    }

    /// The call for one more read, its answer and the words after it compared; the answer.
    #[track_caller]
    fn read(&mut self, tally: &mut Tally, extent: u32) -> Answer<Reading> {
        let wanted = full_session::read(&mut self.full, extent);
        tally.same(calls::session_read(&mut self.words, extent), wanted, &extent);
        self.compare_words(tally, &extent);
        wanted
    }

    /// Compares the summary, and the misses and the shares at all sizes of interest.
    #[track_caller]
    fn compare_counts(&self, tally: &mut Tally) {
        let wanted = full_session::summary(&self.full);
        tally.same(calls::session_summary(&self.words, MOST_WORDS), wanted, &self.full);
        let bits = |share: Answer<Option<f64>>| share.map(|share| share.map(f64::to_bits));
        for size in spread::sizes(self.full[SUMS.end - 1]) {
            let wanted = full_session::misses(&self.full, size);
            tally.same(calls::session_misses(&self.words, size), wanted, &size);
            let wanted = full_session::share(&self.full, size);
            tally.same(bits(calls::session_share(&self.words, size)), bits(wanted), &size);
        }
    }

    /// Compares a naming, and a return to what was named.
    #[track_caller]
    fn compare_moment(&self, tally: &mut Tally, name: u32) {
        let (mut names, mut back) = (vec![9; names::WORDS], vec![8; WORDS]);
        tally.same(calls::session_name(&self.words, &mut names, name), Ok(0), &name);
        tally.same(&names[names::place(name)], &[&[1], &self.words[..]].concat(), &name);
        tally.same(calls::session_return(&mut back, &names, name), Ok(0), &name);
        tally.same(back == forms::right_hand(&self.full), true, &name);
    }
}

#[test]
fn long_logs_read_by_read() {
    let mut tally = Tally::new("long logs with right-hand sums alone and with all sums");
    for (kind, log) in long_logs::all(&mut Random::new(201)).iter().enumerate() {
        let (log, mut beside, mut moves) = (long_logs::from_0(log), Beside::new(), 0);
        for (read, extent) in log.iter().enumerate() {
            let moving = beside.full[full_session::NEXT] as usize == SLOTS;
            moves += usize::from(moving);
            beside.accept(&mut tally, *extent);
            if moving || read % 1000 == 999 {
                assert!(full_session::sound(&beside.full), "what a log leads to is sound");
                beside.compare_counts(&mut tally);
                beside.compare_moment(&mut tally, 1 + read as u32 % 8);
            }
        }
        assert!(moves >= MOVES && log.contains(&0), "{moves} moves of the marks in a log of kind {kind}");
    }
    tally.at_least((2 * KINDS * LONG) as u64);
}

/// Compares all reads of up to so many of these extents, from a session.
fn all_reads(tally: &mut Tally, full: &[u32], extents: &[u32], longest: usize) {
    Beside::of(full.to_vec()).compare_counts(tally);
    if longest == 0 {
        return;
    }
    for extent in extents {
        let mut beside = Beside::of(full.to_vec());
        beside.read(tally, *extent).expect("a read within the limits");
        all_reads(tally, &beside.full, extents, longest - 1);
    }
}

#[test]
fn all_short_traces() {
    let mut tally = Tally::new("short traces with right-hand sums alone and with all sums");
    let mut random = Random::new(202);
    all_reads(&mut tally, &full_session::new(), &[0, 4096, u32::MAX], 4);
    for next in [SLOTS - 2, SLOTS - 1, SLOTS] {
        for known in [&[][..], &[0], &[9, 0], &[1024, 9]] {
            let full = made::full_session_over(&mut random, known, 6, next);
            all_reads(&mut tally, &full, &[9, 0], 3);
        }
    }
    tally.at_least(5000);
}

#[test]
fn sessions_that_no_trace_has() {
    let mut tally = Tally::new("sessions that no trace has, with right-hand sums alone and with all sums");
    let mut random = Random::new(203);
    for _ in 0..250 {
        let mut beside = Beside::of(made::full_session(&mut random));
        let known = beside.words[session::FIRSTS].to_vec();
        beside.compare_counts(&mut tally);
        for _ in 0..10 {
            let (known, new) = (random.of(&known), random.word());
            let extent = random.of(&[known, known, new, 0]);
            _ = beside.read(&mut tally, extent);
        }
        beside.compare_counts(&mut tally);
        beside.compare_moment(&mut tally, 1 + random.below(8) as u32);
    }
    tally.at_least(250 * (20 + 2 * 20 + 4));
}

#[test]
fn marks_in_every_slot() {
    let mut tally = Tally::new("marks in every slot, with right-hand sums alone and with all sums");
    let mut random = Random::new(204);
    for slot in 0..SLOTS {
        let mut full = made::full_session_over(&mut random, &[], 0, SLOTS - slot % 2);
        let other = (slot + 1 + random.below(SLOTS - 1)) % SLOTS;
        let mut leaves = vec![0; SLOTS];
        for (marked, extent) in [(slot, slot as u32 % 3), (other, 7)] {
            leaves[marked] = 1;
            full[full_session::SLOT][marked] = extent;
        }
        full[full_session::SUMS].copy_from_slice(&full_session::sums_over(&leaves));
        (full[0], full[1], full[2]) = (2, 7, slot as u32 % 3);
        let mut beside = Beside::of(full);
        for extent in [slot as u32 % 3, 7, 0, 8] {
            _ = beside.read(&mut tally, extent);
        }
    }
    tally.at_least(8 * SLOTS as u64);
}

#[test]
fn at_the_limits() {
    let mut tally = Tally::new("limits with right-hand sums alone and with all sums");
    let mut random = Random::new(205);
    let mut seen = [0; 12];
    for next in [MAX_EXTENTS, MAX_EXTENTS + 44, SLOTS - 1, SLOTS] {
        for (count, left) in
            [MAX_EXTENTS - 1, MAX_EXTENTS, 2].into_iter().flat_map(|v| [0, 2, 90].map(|left| (v, left)))
        {
            let extents = long_logs::from_0(&made::extents(&mut random, count + 2));
            let (known, others) = extents.split_at(count);
            let warm = MAX_READS as usize - left - count;
            let mut beside = Beside::of(made::full_session_over(&mut random, known, warm, next));
            for extent in [others[0], known[0], others[1], known[1], known[1]] {
                let answer = beside.read(&mut tally, extent);
                seen[answer.err().unwrap_or(0) as usize] += 1;
            }
            beside.compare_counts(&mut tally);
            beside.compare_moment(&mut tally, 3);
        }
    }
    let [done, full, many] = [0, refusal::READS, refusal::EXTENTS].map(|number| seen[number as usize]);
    assert!(done >= 60 && full >= 80 && many >= 20 && done + full + many == 180, "{seen:?}");
    tally.at_least(36 * 14);
}

/// A session with all sums and the sessions under its names.
struct Full {
    session: Vec<u32>,
    named: HashMap<u32, Vec<u32>>,
}

impl Full {
    /// Any call; what a read answers.
    fn answer(&mut self, call: Call) -> Answer<Option<Reading>> {
        match call {
            Call::Read(extent) => return full_session::read(&mut self.session, extent).map(Some),
            Call::Name(name) | Call::Return(name) if !names::is_name(name) => return Err(refusal::NUMBER),
            Call::Name(name) => _ = self.named.insert(name, self.session.clone()),
            Call::Return(name) => self.session = self.named.get(&name).ok_or(refusal::NAME)?.clone(),
        }
        Ok(None)
    }

    /// All names as words with right-hand sums alone.
    fn names(&self) -> Vec<u32> {
        let mut words = names::new();
        for (name, full) in &self.named {
            words[names::place(*name)].copy_from_slice(&[&[1], &forms::right_hand(full)[..]].concat());
        }
        words
    }
}

#[test]
fn reads_namings_and_returns() {
    let mut tally = Tally::new("named moments with right-hand sums alone and with all sums");
    let mut random = Random::new(206);
    for round in 0..12 {
        let extents = long_logs::from_0(&made::extents(&mut random, [3, 40, MAX_EXTENTS + 44][round % 3]));
        let start = made::full_session_over(&mut random, &extents[..round % 4], 50, SLOTS - 200 * (round % 2));
        let mut words = forms::right_hand(&start);
        let mut names = calls::names_new(names::WORDS).expect("new names");
        let mut full = Full { session: start, named: HashMap::new() };
        for call in runs::list(&mut random, &extents, 600, 12) {
            tally.same(runs::call(&mut words, &mut names, call), full.answer(call), &call);
            tally.same(words == forms::right_hand(&full.session), true, &call);
            tally.same(names == full.names(), true, &call);
        }
    }
    tally.at_least(12 * 600 * 3);
}

/// Sound sessions with all sums: some that logs lead to, and some that no log has.
fn full_sessions() -> Vec<Vec<u32>> {
    let mut random = Random::new(207);
    let mut list = vec![full_session::new()];
    for log in long_logs::all(&mut random) {
        let mut words = full_session::new();
        for (read, extent) in long_logs::from_0(&log).iter().enumerate() {
            full_session::accept(&mut words, *extent);
            if read % 300 == 7 {
                list.push(words.clone());
            }
        }
    }
    list.extend((0..600).map(|_| made::full_session(&mut random)));
    list
}

#[test]
fn each_sound_session_has_one_of_the_other_form() {
    let mut tally = Tally::new("sessions of one form and of the other");
    let list = full_sessions();
    for full in &list {
        assert!(full_session::sound(full), "a session with all sums is sound");
        let words = forms::right_hand(full);
        tally.same(forms::full(&words).as_ref() == Some(full), true, &words);
        tally.same(session::sound(&words), true, &words);
        tally.same(session::marks(&words), full_session::marks(full), &words);
        tally.same(calls::session_misses(&words, 0), Ok(u64::from(full[0])), &words);
    }
    let mut random = Random::new(208);
    for _ in 0..600 {
        let words = made::session(&mut random);
        let full = forms::sound_full(&words).expect("a sound session of the other form");
        tally.same(forms::right_hand(&full) == words, true, &words);
        tally.same(full_session::marks(&full), session::marks(&words), &words);
        tally.same(full[full_session::NEXT], words[NEXT], &words);
    }
    tally.at_least(1000 * 4 + 600 * 3);
}

#[test]
fn words_of_the_other_form_are_read_as_they_stand() {
    let mut tally = Tally::new("words with all sums, read as a count and right-hand sums");
    let mut refused = 0;
    for full in full_sessions() {
        let (mut got, mut wanted) = (full.clone(), full.clone());
        let answer = session::read(&mut wanted, full[1]);
        tally.same(calls::session_read(&mut got, full[1]), answer, &full);
        tally.same(got == wanted, true, &full);
        refused += u32::from(answer == Err(refusal::STATE));
    }
    // a session without marks has the same words in both forms, but for how many they are
    assert!(refused >= 900, "{refused} refused");
    tally.at_least(2 * 1000);
}
