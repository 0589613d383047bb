//! Words that may or may not be names, and sessions that may or may not be sound, given to all calls that take names.

use jemqolu_tests::damage::{self, Seen};
use jemqolu_tests::plain::names::{self, MAX_NAMES, NAME_WORDS};
use jemqolu_tests::plain::session::{self, COUNT, NEXT, POINTS, SLOTS, WORDS};
use jemqolu_tests::random::Random;
use jemqolu_tests::tally::Tally;
use jemqolu_tests::{calls, made, refusal, Answer};

/// Numbers that are no names, some with the place of one modulo 2^32.
const NO_NAMES: [u32; 8] = [0, 9, 10, 1 << 30, 1 << 31, (1 << 31) + 1, (1 << 31) + 8, u32::MAX];

/// Compares a naming, its answer and the names after it; the answer.
#[track_caller]
fn compare_naming(tally: &mut Tally, session: &[u32], names: &[u32], name: u32) -> Answer<u64> {
    let (mut got, mut wanted) = (names.to_vec(), names.to_vec());
    let answer = names::name(session, &mut wanted, name);
    let context = (name, session.len(), names.len());
    tally.same(calls::session_name(session, &mut got, name), answer, &context);
    tally.same(got == wanted, true, &context);
    answer
}

/// Compares a return, its answer and the session after it; the answer.
#[track_caller]
fn compare_return(tally: &mut Tally, session: &[u32], names: &[u32], name: u32) -> Answer<u64> {
    let (mut got, mut wanted) = (session.to_vec(), session.to_vec());
    let answer = names::return_to(&mut wanted, names, name);
    let context = (name, session.len(), names.len());
    tally.same(calls::session_return(&mut got, names, name), answer, &context);
    tally.same(got == wanted, true, &context);
    answer
}

/// So many random words.
fn random_words(random: &mut Random, count: usize) -> Vec<u32> {
    (0..count).map(|_| random.word()).collect()
}

/// Names up to this one, with random words at the other places and a few past it, and these words under it.
fn names_with(random: &mut Random, name: u32, set: u32, session: &[u32]) -> Vec<u32> {
    let (before, past) = (names::place(name).start, random.below(4));
    [&random_words(random, before)[..], &[set], session, &random_words(random, past)].concat()
}

/// Present sessions for a return, in turn, none of them sound: all 1, and a new and another one with the next slot too
/// large.
fn present(turn: u32) -> Vec<u32> {
    let mut words = match turn % 3 {
        0 => return vec![1; WORDS],
        1 => session::new(),
        _ => session::of(&[4, 4, 9]),
    };
    words[NEXT] += 2 * SLOTS as u32;
    words
}

/// Compares a naming of a session, and a return to it.
#[track_caller]
fn compare(tally: &mut Tally, random: &mut Random, seen: &mut Seen, words: &[u32], name: u32) {
    let turn = seen.sound + seen.refused;
    let names = names_with(random, name, turn % 2, &present(turn));
    let naming = compare_naming(tally, words, &names, name);
    let names = names_with(random, name, 1 + turn % 2, words);
    let back = compare_return(tally, &present(turn), &names, name);
    tally.same(back, naming, &name);
    assert!([Ok(0), Err(refusal::STATE)].contains(&naming), "{naming:?}");
    seen.count(naming.is_ok());
}

#[test]
fn new_names() {
    let mut tally = Tally::new("new names");
    let short = [0, 1, NAME_WORDS - 1, NAME_WORDS, NAME_WORDS + 1, 4 * NAME_WORDS, 7 * NAME_WORDS];
    let about = [-2, -1, 0, 1, 2, NAME_WORDS as isize, 2 * NAME_WORDS as isize];
    for room in short.into_iter().chain(about.map(|more| names::WORDS.wrapping_add_signed(more))) {
        let wanted = if room < names::WORDS { Err(refusal::ROOM) } else { Ok(names::new()) };
        tally.same(calls::names_new(room), wanted, &room);
    }
    tally.at_least(14);
}

/// All names and numbers that are none, each with several lengths of names.
fn given() -> Vec<(u32, usize)> {
    let short = [0, 1, NAME_WORDS - 1, NAME_WORDS, NAME_WORDS + 1];
    let long = [2 * NAME_WORDS, 7 * NAME_WORDS, names::WORDS - 1, names::WORDS, names::WORDS + NAME_WORDS];
    let numbers = (1..=MAX_NAMES).chain(NO_NAMES);
    numbers.flat_map(|number| short.into_iter().chain(long).map(move |len| (number, len))).collect()
}

/// The first of these refusals that applies.
fn first(refusals: &[(bool, i64)]) -> Answer<u64> {
    refusals.iter().find(|(applies, _)| *applies).map_or(Ok(0), |(_, number)| Err(*number))
}

#[test]
fn refusals_of_a_naming_in_order() {
    let mut tally = Tally::new("namings that are refused for up to three reasons");
    let mut random = Random::new(181);
    let sound = made::session(&mut random);
    let mut unsound = sound.clone();
    unsound[COUNT] ^= 1;
    // a ninth place, so that only its number tells that 9 is no name
    let names = random_words(&mut random, 9 * NAME_WORDS);
    for session in [&sound, &unsound, &sound[..WORDS - 1], &unsound[..WORDS - 1], &[][..]] {
        for (name, len) in given() {
            let outside = name as usize * NAME_WORDS > len;
            let (no_name, not_sound) = (NO_NAMES.contains(&name), session != sound);
            let wanted = first(&[(no_name, refusal::NUMBER), (not_sound, refusal::STATE), (outside, refusal::ROOM)]);
            let got = compare_naming(&mut tally, session, &names[..len], name);
            tally.same(got, wanted, &(name, session.len(), len));
        }
    }
    tally.at_least(5 * 160 * 3);
}

#[test]
fn refusals_of_a_return_in_order() {
    let mut tally = Tally::new("returns that are refused for up to four reasons");
    let mut random = Random::new(182);
    for (set, sound) in [(0, false), (0, true), (1, false), (1, true), (7, true), (u32::MAX, false), (1 << 31, true)] {
        let mut under = made::session(&mut random);
        under[COUNT] ^= u32::from(!sound);
        let names = [&[set], &under[..]].concat().repeat(9);
        for room in [0, 1, WORDS - 2, WORDS - 1, WORDS, WORDS + 1, 2 * NAME_WORDS] {
            let session = random_words(&mut random, room);
            for (name, len) in given() {
                let not_set = set == 0 || name as usize * NAME_WORDS > len;
                let wanted = first(&[
                    (NO_NAMES.contains(&name), refusal::NUMBER),
                    (not_set, refusal::NAME),
                    (!sound, refusal::STATE),
                    (room < WORDS, refusal::ROOM),
                ]);
                let got = compare_return(&mut tally, &session, &names[..len], name);
                tally.same(got, wanted, &(name, set, sound, room, len));
            }
        }
    }
    tally.at_least(7 * 7 * 160 * 3);
}

#[test]
fn every_length_about_the_places() {
    let mut tally = Tally::new("names of all lengths of interest");
    let mut random = Random::new(183);
    let (session, under) = (made::session(&mut random), made::session(&mut random));
    let names = [&[1], &under[..]].concat().repeat(10);
    let whole = NAME_WORDS as i64;
    let ends = (0..=9).flat_map(|place| [-2, -1, 0, 1, 2, whole / 2].map(|past| place * whole + past));
    let (mut done, mut refused) = (0, 0);
    for len in ends.filter(|len| *len >= 0).map(|len| len as usize) {
        for name in 0..=10 {
            let naming = compare_naming(&mut tally, &session, &names[..len], name);
            let back = compare_return(&mut tally, &session, &names[..len], name);
            tally.same(naming.is_ok(), back.is_ok(), &(len, name));
            done += u32::from(naming == Ok(0) && back == Ok(0));
            refused += u32::from(naming == Err(refusal::ROOM) && back == Err(refusal::NAME));
        }
    }
    assert_eq!((done, refused), (248, 58 * 8 - 248));
    tally.at_least(58 * 11 * 5);
}

#[test]
fn words_that_say_whether_a_name_is_set() {
    let mut tally = Tally::new("words that say whether a name is set");
    let mut random = Random::new(184);
    for set in [0, 1, 2, 3, 255, 256, 1 << 16, 1 << 24, 1 << 31, u32::MAX] {
        for name in 1..=MAX_NAMES {
            let under = made::session(&mut random);
            let names = names_with(&mut random, name, set, &under);
            let wanted = if set == 0 { Err(refusal::NAME) } else { Ok(0) };
            let got = compare_return(&mut tally, &present(name), &names, name);
            tally.same(got, wanted, &(set, name));
            let got = compare_naming(&mut tally, &made::session(&mut random), &names, name);
            tally.same(got, Ok(0), &(set, name));
        }
    }
    tally.at_least(10 * 8 * 6);
}

#[test]
fn any_present_session_at_a_return() {
    let mut tally = Tally::new("returns into words that are no session");
    let mut random = Random::new(185);
    for base in damage::bases() {
        let name = 1 + random.below(8) as u32;
        let names = names_with(&mut random, name, 1, &base);
        let any = random_words(&mut random, WORDS + 100);
        let mut unsound = damage::each_clause_broken();
        unsound.extend((0..3).map(present));
        unsound.extend([any[..WORDS].to_vec(), any.clone(), [&base, &any[..51]].concat()]);
        for session in &unsound {
            let got = compare_return(&mut tally, session, &names, name);
            tally.same(got, Ok(0), &(name, session.len()));
        }
        for len in [0, 1, WORDS - 2, WORDS - 1] {
            let got = compare_return(&mut tally, &any[..len], &names, name);
            tally.same(got, Err(refusal::ROOM), &(name, len));
        }
    }
    tally.at_least(12 * 28 * 3);
}

#[test]
fn sessions_of_other_lengths() {
    let mut tally = Tally::new("namings of sessions of other lengths");
    let mut random = Random::new(186);
    let (mut done, mut refused) = (0, 0);
    for words in damage::bases().iter().flat_map(|base| damage::lengths(base)) {
        let name = 1 + random.below(8) as u32;
        let names = names_with(&mut random, name, 5, &present(name));
        let answer = compare_naming(&mut tally, &words, &names, name);
        done += u32::from(answer == Ok(0));
        refused += u32::from(answer == Err(refusal::STATE));
    }
    assert_eq!((done, refused), (60, 84));
    tally.at_least(288);
}

#[test]
fn every_word_changed() {
    let (mut tally, mut seen) = (Tally::new("named sessions with one word changed"), Seen::default());
    let (mut random, mut changes) = (Random::new(187), Random::new(188));
    // each word is changed in one of the bases, the first two and the last two of each field in all
    let bases = damage::bases();
    for (turn, base) in bases.iter().enumerate() {
        compare(&mut tally, &mut random, &mut seen, base, 8);
        damage::words_changed(&mut changes, base, bases.len(), turn, |words| {
            compare(&mut tally, &mut random, &mut seen, words, 1);
        });
    }
    assert!(seen.sound >= 50 && seen.refused as usize >= WORDS, "{} sound, {} refused", seen.sound, seen.refused);
    tally.at_least(2 * 5 * WORDS as u64);
}

#[test]
fn several_words_changed() {
    let (mut tally, mut seen) = (Tally::new("named sessions with several words changed"), Seen::default());
    let mut random = Random::new(189);
    for turn in 0..2000 {
        let words = damage::several_words_changed(&mut random);
        compare(&mut tally, &mut random, &mut seen, &words, 1 + turn % 8);
    }
    assert!(seen.sound >= 500 && seen.refused >= 1000, "{} sound, {} refused", seen.sound, seen.refused);
    tally.at_least(10_000);
}

#[test]
fn each_clause_broken_alone() {
    let (mut tally, mut seen) = (Tally::new("named sessions that break one clause"), Seen::default());
    let mut random = Random::new(190);
    for name in 1..=MAX_NAMES {
        for words in damage::each_clause_broken().iter().chain(&damage::sums_modulo()) {
            compare(&mut tally, &mut random, &mut seen, words, name);
        }
    }
    assert_eq!((seen.sound, seen.refused), (8 * 6, 8 * 23));
    tally.at_least(8 * 29 * 5);
}

#[test]
fn every_sum_changed_with_all_above_it() {
    let (mut tally, mut seen) = (Tally::new("named sessions with a sum wrong and all above it right"), Seen::default());
    let (mut random, mut changes) = (Random::new(191), Random::new(192));
    // each sum is changed in two of the bases, the first two and the last two of each level in all
    let mut damaged = 0;
    for (turn, base) in damage::bases().iter().take(6).enumerate() {
        damaged += damage::sums_changed(&mut changes, base, 3, turn, |words| {
            compare(&mut tally, &mut random, &mut seen, words, 1);
        });
    }
    assert_eq!((seen.sound, seen.refused), (0, damaged));
    tally.at_least(2 * 5 * (POINTS as u64 + 1));
}

#[test]
fn random_words_as_names() {
    let mut tally = Tally::new("random words as names");
    let mut random = Random::new(193);
    let mut seen = [0; 12];
    for _ in 0..400 {
        let len = random.below(names::WORDS + NAME_WORDS);
        let mut names = random_words(&mut random, len);
        if random.one_in(2) {
            names.iter_mut().for_each(|word| *word &= 1);
        }
        let name = random.below(10) as u32;
        for answer in [
            compare_naming(&mut tally, &made::session(&mut random), &names, name),
            compare_return(&mut tally, &made::session(&mut random), &names, name),
        ] {
            seen[answer.err().unwrap_or(0) as usize] += 1;
        }
    }
    let least = [refusal::NUMBER, refusal::ROOM, refusal::STATE, refusal::NAME].map(|number| seen[number as usize]);
    assert!(least.iter().all(|count| *count > 40) && seen[0] > 40, "{seen:?}");
    tally.at_least(1600);
}
