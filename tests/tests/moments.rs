//! Sessions with named moments: reads, namings and returns, call by call.

use jemqolu_tests::parts::{self, Part};
use jemqolu_tests::plain::names::Call::{self, Name, Read, Return};
use jemqolu_tests::plain::names::{self, MAX_NAMES};
use jemqolu_tests::plain::session::{self, SLOTS};
use jemqolu_tests::plain::summary::{self, MOST_WORDS};
use jemqolu_tests::plain::{cache, hit_share, COLD_BASE, MAX_EXTENTS, MAX_READS};
use jemqolu_tests::random::Random;
use jemqolu_tests::runs::{self, Run};
use jemqolu_tests::tally::Tally;
use jemqolu_tests::{calls, made, refusal, Answer};

/// The answer of a naming or a return that is done.
const DONE: Answer<usize> = Ok(0);

/// The answer of a cold read of this number.
fn cold(number: usize) -> Answer<usize> {
    Ok(COLD_BASE as usize + number)
}

/// Carries out calls in a row; their answers.
fn carry_out(tally: &mut Tally, run: &mut Run, list: &[Call]) -> Vec<Answer<usize>> {
    list.iter().map(|call| run.call(tally, *call)).collect()
}

/// Carries out calls in a row, with these answers.
#[track_caller]
fn answered(tally: &mut Tally, run: &mut Run, list: &[Call], wanted: &[Answer<usize>]) {
    let got = carry_out(tally, run, list);
    tally.same(&got[..], wanted, &list);
}

/// Reads in a row.
fn reads(extents: &[u32]) -> Vec<Call> {
    extents.iter().map(|extent| Read(*extent)).collect()
}

/// Compares the session with one of the library that reads the log alone, and its summary, misses and share with the log's.
fn compare_log(tally: &mut Tally, run: &Run) {
    let log = &run.plain.log;
    let mut alone = calls::session_new(session::WORDS).expect("a new session");
    for extent in log {
        calls::session_read(&mut alone, *extent).expect("a read within the limits");
    }
    tally.same(&run.session, &alone, log);
    tally.same(calls::session_summary(&run.session, MOST_WORDS), Ok(summary::of(log)), log);
    for size in [0, 1, 3, 40, MAX_EXTENTS as u32 - 1, u32::MAX] {
        let misses = cache::misses(log, size);
        let share = hit_share(log.len() as u64 - misses, cache::servable(log));
        tally.same(calls::session_misses(&run.session, size), Ok(misses), &(size, log));
        tally.same(calls::session_share(&run.session, size), Ok(share), &(size, log));
    }
}

#[test]
fn the_example() {
    let mut tally = Tally::new("the example of a named moment");
    let list = [Read(7), Read(3), Name(1), Read(9), Return(1), Read(7), Return(1), Read(3), Return(2), Name(9)];
    let [not_set, no_name] = [Err(refusal::NAME), Err(refusal::NUMBER)];
    let wanted = [cold(1), cold(2), DONE, cold(3), DONE, Ok(2), DONE, Ok(1), not_set, no_name];
    for room in 1..=MAX_NAMES {
        let mut run = Run::new(room);
        answered(&mut tally, &mut run, &list, &wanted);
        tally.same(&run.plain.log, &vec![7, 3, 3], &room);
        compare_log(&mut tally, &run);
    }
    tally.at_least(8 * 30);
}

#[test]
fn a_name_replaced() {
    let mut tally = Tally::new("names that are set again");
    let mut run = Run::new(MAX_NAMES);
    let list = [Read(5), Name(3), Read(6), Name(3), Read(8), Return(3), Read(5), Name(3), Return(3), Read(8)];
    let wanted = [cold(1), DONE, cold(2), DONE, cold(3), DONE, Ok(2), DONE, DONE, cold(3)];
    answered(&mut tally, &mut run, &list, &wanted);
    tally.same(&run.plain.log, &vec![5, 6, 5, 8], &list);
    compare_log(&mut tally, &run);
    tally.at_least(30);
}

#[test]
fn a_name_set_before_any_read() {
    let mut tally = Tally::new("a name set before any read");
    for name in 1..=MAX_NAMES {
        let mut run = Run::new(name);
        let list = [Name(name), Read(4), Read(4), Return(name), Read(9), Return(name)];
        let wanted = [DONE, cold(1), Ok(1), DONE, cold(1), DONE];
        answered(&mut tally, &mut run, &list, &wanted);
        tally.same(&run.session, &session::new(), &name);
        compare_log(&mut tally, &run);
    }
    tally.at_least(8 * 25);
}

#[test]
fn a_return_forgets_no_name() {
    let mut tally = Tally::new("many returns to all names");
    let mut random = Random::new(171);
    let mut run = Run::new(MAX_NAMES);
    for name in random.shuffled(&[1, 2, 3, 4, 5, 6, 7, 8]) {
        let trace = made::trace(&mut random, 60, 30);
        carry_out(&mut tally, &mut run, &reads(&trace));
        answered(&mut tally, &mut run, &[Name(name)], &[DONE]);
    }
    let kept = run.names.clone();
    for _ in 0..120 {
        let name = 1 + random.below(8) as u32;
        answered(&mut tally, &mut run, &[Return(name)], &[DONE]);
        let trace = made::trace(&mut random, 20, 20);
        carry_out(&mut tally, &mut run, &reads(&trace));
        tally.same(&run.names, &kept, &name);
    }
    compare_log(&mut tally, &run);
    tally.at_least(2000);
}

#[test]
fn one_session_under_all_names() {
    let mut tally = Tally::new("one session under all names");
    let mut run = Run::new(MAX_NAMES);
    carry_out(&mut tally, &mut run, &reads(&[7, 3, 7, 9, 3, 3, 9]));
    let session = run.session.clone();
    for name in 1..=MAX_NAMES {
        answered(&mut tally, &mut run, &[Name(name)], &[DONE]);
    }
    tally.same(&run.names, &[&[1], &session[..]].concat().repeat(8), &"all places");
    for name in 1..=MAX_NAMES {
        carry_out(&mut tally, &mut run, &reads(&[9, 1, name]));
        answered(&mut tally, &mut run, &[Return(name)], &[DONE]);
        tally.same(&run.session, &session, &name);
    }
    tally.at_least(100);
}

#[test]
fn random_lists_of_calls() {
    let mut tally = Tally::new("random lists of calls");
    let mut random = Random::new(172);
    let mut seen = Vec::new();
    let many = (5 * MAX_EXTENTS / 2, 100, 3 * MAX_EXTENTS / 2);
    for round in 0..72 {
        let (count, among, most) = if round % 12 == 5 { many } else { [(120, 4, 5), (300, 12, 30)][round % 2] };
        let extents = made::extents(&mut random, most);
        let list = runs::list(&mut random, &extents, count, among);
        let mut run = Run::new(1 + round as u32 % MAX_NAMES);
        seen.extend(carry_out(&mut tally, &mut run, &list));
        compare_log(&mut tally, &run);
    }
    for number in [refusal::NUMBER, refusal::ROOM, refusal::EXTENTS, refusal::NAME] {
        let refused = seen.iter().filter(|answer| **answer == Err(number)).count();
        assert!(refused > 100, "{refused} refused with {number}");
    }
    tally.at_least(72 * 120 + 12 * MAX_EXTENTS as u64);
}

#[test]
fn at_the_limit_of_extents() {
    let mut tally = Tally::new("returns from the limit of extents to fewer");
    let mut random = Random::new(173);
    for fewer in [1, 2, 100, MAX_EXTENTS - 3, MAX_EXTENTS - 2, MAX_EXTENTS - 1] {
        let extents = made::extents(&mut random, MAX_EXTENTS + 2);
        let (known, others) = extents.split_at(MAX_EXTENTS);
        let (another, more) = (Read(others[0]), Read(others[1]));
        let mut run = Run::new(MAX_NAMES);
        carry_out(&mut tally, &mut run, &reads(&known[..fewer]));
        run.call(&mut tally, Name(1)).expect("a naming");
        carry_out(&mut tally, &mut run, &reads(&known[fewer..]));
        let full = Err(refusal::EXTENTS);
        let list = [Name(2), another, Return(1), another, Name(3), Return(2), another, Read(known[0]), Return(3), more];
        let (first, last) = (cold(fewer + 1), if fewer + 1 == MAX_EXTENTS { full } else { cold(fewer + 2) });
        let wanted = [DONE, full, DONE, first, DONE, DONE, full, Ok(MAX_EXTENTS), DONE, last];
        answered(&mut tally, &mut run, &list, &wanted);
        compare_log(&mut tally, &run);
    }
    tally.at_least(3000);
}

/// Compares calls on a session and names by their words; the refusals.
fn compare_words(tally: &mut Tally, session: &[u32], names: &[u32], list: &[Call]) -> Vec<Option<i64>> {
    let (mut got, mut wanted) = ([session.to_vec(), names.to_vec()], [session.to_vec(), names.to_vec()]);
    let mut refused = Vec::new();
    for call in list {
        let [session, names] = &mut got;
        let answer = runs::call(session, names, *call);
        let [session, names] = &mut wanted;
        tally.same(answer, names::answer(session, names, *call), call);
        tally.same(&got, &wanted, call);
        refused.push(answer.err());
    }
    refused
}

#[test]
fn at_the_limit_of_reads() {
    let mut tally = Tally::new("returns from 1,048,576 reads to fewer");
    let mut random = Random::new(174);
    let (done, full) = (None, Some(refusal::READS));
    let full_at = [MAX_EXTENTS + 44, SLOTS].map(|next| (MAX_EXTENTS, next));
    let fewer = [(1, MAX_EXTENTS), (2, SLOTS), (MAX_EXTENTS - 1, MAX_EXTENTS + 144)];
    for (count, next) in fewer.into_iter().chain(full_at) {
        let extents = made::extents(&mut random, count + 1);
        let words = made::session_over(&mut random, &extents[1..], MAX_READS as usize - 2 - count, next);
        let (known, another) = (Read(extents[1]), Read(extents[0]));
        let list =
            [Name(1), known, known, known, another, Name(8), Return(1), another, known, Return(8), known, another];
        let newcomer = (count == MAX_EXTENTS).then_some(refusal::EXTENTS);
        let wanted = [done, done, done, full, full, done, done, newcomer, done, done, full, full];
        let got = compare_words(&mut tally, &words, &names::new(), &list);
        tally.same(&got[..], &wanted, &count);
        let list = [Return(1), known, Name(1), known, known, Return(1), known, known];
        let wanted = [Some(refusal::NAME), done, done, done, full, done, done, full];
        let got = compare_words(&mut tally, &words, &names::new(), &list);
        tally.same(&got[..], &wanted, &count);
    }
    tally.at_least(5 * 40);
}

#[test]
fn sessions_that_no_trace_has() {
    let mut tally = Tally::new("named sessions that no trace has");
    let mut random = Random::new(175);
    for _ in 0..60 {
        let (one, other) = (made::session(&mut random), made::session(&mut random));
        let mut words = [&[1], &one[..]].concat().repeat(1 + random.below(8));
        words.extend((0..random.below(9)).map(|_| random.word()));
        let extents = [&one[session::FIRSTS][..9], &other[session::FIRSTS][..9]].concat();
        let list = runs::list(&mut random, &extents, 40, 4);
        compare_words(&mut tally, &other, &words, &list);
    }
    tally.at_least(60 * 40 * 2);
}

#[test]
fn where_the_marks_move() {
    let mut tally = Tally::new("moments before and after the marks move");
    let mut random = Random::new(176);
    for most in [1, 5, 200] {
        let extents = made::extents(&mut random, most);
        let mut run = Run::new(MAX_NAMES);
        let mut read = 0;
        let ends = [SLOTS - 22, SLOTS - 1, SLOTS, SLOTS + 1, SLOTS + 188, 2 * SLOTS + 6];
        for (name, end) in (1..).zip(ends) {
            carry_out(&mut tally, &mut run, &reads(&made::trace_over(&mut random, &extents, end - read)));
            answered(&mut tally, &mut run, &[Name(name)], &[DONE]);
            read = end;
        }
        for name in random.shuffled(&[1, 2, 3, 4, 5, 6, 1, 3]) {
            answered(&mut tally, &mut run, &[Return(name)], &[DONE]);
            let more = random.of(&[1, 2, 40, 530]);
            carry_out(&mut tally, &mut run, &reads(&made::trace_over(&mut random, &extents, more)));
        }
        compare_log(&mut tally, &run);
    }
    tally.at_least(8000);
}

#[test]
fn sessions_with_the_same_names() {
    let mut tally = Tally::new("two sessions with the same names");
    let mut random = Random::new(177);
    for _ in 0..12 {
        let [one, other] = [0, 1].map(|_| made::trace(&mut random, 200, 60));
        let mut names = calls::names_new(names::WORDS).expect("new names");
        let sessions = [session::of(&one), session::of(&other)];
        for (session, name) in [(&sessions[0], 2), (&sessions[1], 7)] {
            tally.same(calls::session_name(session, &mut names, name), Ok(0), &name);
        }
        let [mut first, mut second] = sessions.clone();
        tally.same(calls::session_return(&mut first, &names, 7), Ok(0), &other);
        tally.same(calls::session_return(&mut second, &names, 2), Ok(0), &one);
        tally.same([second, first], sessions, &(one, other));
    }
    tally.at_least(60);
}

/// The part that a list of calls makes of a new session.
fn part(tally: &mut Tally, random: &mut Random, extents: &[u32]) -> Part {
    let (count, among) = (random.below(200), random.of(&[3, 10, 40]));
    let mut run = Run::new(1 + random.below(8) as u32);
    carry_out(tally, &mut run, &runs::list(random, extents, count, among));
    let words = calls::session_summary(&run.session, MOST_WORDS).expect("a session that nobody else wrote to");
    Part { reads: run.plain.log, words }
}

#[test]
fn parts_of_remembered_logs() {
    let mut tally = Tally::new("parts made with namings and returns, joined");
    let mut random = Random::new(178);
    let mut whole = 0;
    for round in 0..40 {
        let extents = made::extents(&mut random, [3, 30, MAX_EXTENTS][round % 3]);
        let parts: Vec<Part> = (0..1 + random.below(8)).map(|_| part(&mut tally, &mut random, &extents)).collect();
        parts::compare(&mut tally, &mut random, &parts);
        whole += parts.iter().map(|part| part.reads.len()).sum::<usize>();
    }
    assert!(whole > 5000, "{whole} reads in all");
    tally.at_least(25_000);
}
