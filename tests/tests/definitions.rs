//! The plain definitions among themselves: they are what the library is compared with.

use jemqolu_tests::plain::moments::Moments;
use jemqolu_tests::plain::names::{self, MAX_NAMES};
use jemqolu_tests::plain::session::{Reading, COUNT, NEXT, RIGHTS, SLOT, SLOTS};
use jemqolu_tests::plain::splits::{self, Customer};
use jemqolu_tests::plain::trace::{self, Stack};
use jemqolu_tests::plain::MAX_EXTENTS;
use jemqolu_tests::plain::{
    cache, forms, full_session, last_slots, logs, one_more, plans, session, smallest, split_tables, summary,
};
use jemqolu_tests::random::Random;
use jemqolu_tests::tally::Tally;
use jemqolu_tests::{damage, made, runs, spread};
use std::iter;

const THREE: [u32; 3] = [0, 4096, u32::MAX];

/// All short traces, and random ones.
fn traces() -> Vec<Vec<u32>> {
    let mut random = Random::new(11);
    let mut traces = made::all_traces(6, &THREE);
    traces.extend((0..150).map(|_| made::trace(&mut random, 300, 24)));
    traces
}

#[test]
fn a_counted_word_is_the_place_in_the_stack_or_its_height() {
    let mut tally = Tally::new("distances and numbers by counting and by the LRU stack");
    let mut random = Random::new(20);
    let many = made::extents(&mut random, MAX_EXTENTS);
    let long = (0..5).map(|_| [random.shuffled(&many), made::trace_over(&mut random, &many, 2 * MAX_EXTENTS)].concat());
    for trace in traces().into_iter().chain(long.collect::<Vec<Vec<u32>>>()) {
        let counted = trace::distances(&trace);
        tally.same(Stack(Vec::new()).distances(&trace), counted.clone(), &trace);
        tally.same(summary::of(&trace), summary::with_distances(&trace, &counted), &trace);
    }
    tally.at_least(2400);
}

#[test]
fn a_number_is_the_place_of_the_extent_by_first_read() {
    let mut tally = Tally::new("numbers of cold reads and extents by first read");
    for trace in traces() {
        let words = trace::distances(&trace);
        let cold = trace.iter().zip(&words).filter(|(_, word)| trace::is_cold(**word));
        tally.same(cold.map(|(extent, _)| *extent).collect(), trace::firsts(&trace), &trace);
        let all: Vec<u32> = (1..=trace::firsts(&trace).len() as u32).collect();
        tally.same(trace::numbers(&words), all, &trace);
    }
    tally.at_least(2400);
}

#[test]
fn a_distance_is_the_smallest_cache_that_hits() {
    let mut tally = Tally::new("distances and caches of all sizes");
    for trace in traces() {
        let words = trace::distances(&trace);
        for size in 0..=trace::firsts(&trace).len() as u32 + 1 {
            let hits: Vec<bool> = words.iter().map(|word| trace::is_hit(*word, size)).collect();
            tally.same(cache::hits(&trace, size), hits, &(&trace, size));
        }
    }
    tally.at_least(5000);
}

#[test]
fn a_change_by_caches_is_the_one_by_distances() {
    let mut tally = Tally::new("one more read by caches and by distances");
    let mut random = Random::new(10);
    for log in traces() {
        let (place, known) = (random.below(log.len() + 1), random.of(log.get(..3).unwrap_or(&THREE)));
        for (extent, size) in
            [known, made::another(&log)].into_iter().flat_map(|extent| (0..9).map(move |size| (extent, size)))
        {
            let misses = |log: &[u32]| trace::distances(log).iter().filter(|word| !trace::is_hit(**word, size)).count();
            let change = misses(&one_more::put_in(&log, place, extent)) as i64 - misses(&log) as i64;
            tally.same(one_more::one_more(&log, place, extent, size), Ok(change), &(&log, place, extent, size));
        }
    }
    tally.at_least(1200 * 18);
}

/// Compares the first size in a full list of misses with the words of H that a search reads; for how many allowances no
/// size suffices, and for how many one does.
fn compare_search(tally: &mut Tally, words: &[u32], list: &[u64], cold: usize) -> [u32; 2] {
    let (summary, mut cases) = (summary::well_formed(words).expect("a well-formed summary"), [0; 2]);
    tally.same(smallest::list_of_summary(&summary), list.to_vec(), &words);
    for most in spread::allowances(list) {
        let first = smallest::first_within(list, most);
        tally.same(first.is_some(), most as usize >= cold, &(words, most));
        // where no size suffices, all words are read
        let read = smallest::words_read(&summary, most) as usize;
        tally.same(read, first.unwrap_or(list.len() - 1), &(words, most));
        cases[usize::from(first.is_some())] += 1;
    }
    cases
}

#[test]
fn the_first_size_in_the_list_of_misses_is_the_words_that_a_search_reads() {
    let mut tally = Tally::new("smallest caches by lists of misses and by searches");
    let (mut random, mut cases) = (Random::new(9), [0; 2]);
    for log in traces() {
        let cold = trace::numbers(&trace::distances(&log)).len();
        let met = compare_search(&mut tally, &summary::of(&log), &smallest::list_of_log(&log), cold);
        cases = [cases[0] + met[0], cases[1] + met[1]];
    }
    assert!(cases[0] >= 1200 && cases[1] >= 10_000, "{cases:?}");
    for _ in 0..600 {
        let words = made::summary(&mut random, 60);
        let (v, counts) = (words[1] as usize, &words[2 + 2 * words[1] as usize..]);
        let above = |size: usize| counts[size..].iter().map(|count| u64::from(*count)).sum::<u64>();
        let list: Vec<u64> = (0..=v).map(|size| v as u64 + above(size)).collect();
        compare_search(&mut tally, &words, &list, v);
    }
    tally.at_least(2 * 11_200 + 600 * 12);
}

#[test]
fn the_reads_that_some_size_serves_are_those_that_are_not_cold() {
    let mut tally = Tally::new("reads that some size serves");
    for trace in traces() {
        let words = trace::distances(&trace);
        let mut served = vec![false; trace.len()];
        for size in 0..=trace::firsts(&trace).len() as u32 {
            let hits = cache::hits(&trace, size);
            served.iter_mut().zip(hits).for_each(|(served, hit)| *served |= hit);
        }
        tally.same(served.iter().filter(|served| **served).count() as u64, cache::servable(&trace), &trace);
        tally.same(served, words.iter().map(|word| !trace::is_cold(*word)).collect(), &trace);
    }
    tally.at_least(2400);
}

#[test]
fn a_distance_across_is_counted_on_both_sides() {
    let mut tally = Tally::new("distances across two parts by places and by counting");
    let mut random = Random::new(19);
    for round in 0..300 {
        let pool = made::extents(&mut random, [4, 30, 200][round % 3]);
        let mut part = || {
            let count = random.below(pool.len() + 1);
            let extents = random.shuffled(&pool)[..count].to_vec();
            made::summary_over(&mut random, &extents, 9)
        };
        let (a, b) = (part(), part());
        let [one, other] = [&a, &b].map(|words| summary::well_formed(words).expect("a well-formed summary"));
        let before =
            |list: &[u32], extent: u32| list.iter().copied().take_while(|other| *other != extent).collect::<Vec<u32>>();
        let across =
            |extent: u32| 1 + trace::different(&[before(one.recents, extent), before(other.firsts, extent)].concat());
        let shared = other.firsts.iter().filter(|extent| one.firsts.contains(extent));
        let counted: Vec<usize> = shared.map(|extent| across(*extent)).collect();
        tally.same(summary::distances_across(&one, &other), counted, &(&a, &b));
    }
    tally.at_least(300);
}

#[test]
fn the_join_of_two_parts_is_the_summary_of_the_whole() {
    let mut tally = Tally::new("joins by counting and summaries of the whole");
    for trace in traces() {
        let whole = summary::of(&trace);
        let step = 1 + trace.len() / 12;
        for cut in (0..=trace.len()).step_by(step) {
            let (front, back) = trace.split_at(cut);
            let joined = summary::join(&summary::of(front), &summary::of(back));
            tally.same(joined, Ok(whole.clone()), &(&trace, cut));
        }
    }
    tally.at_least(6000);
}

#[test]
fn the_sums_on_the_way_up_are_the_marks_above() {
    let mut tally = Tally::new("sums on the way up");
    let mut random = Random::new(12);
    for _ in 0..60 {
        let words = made::session(&mut random);
        assert!(session::sound(&words), "a made session is sound");
        let marks = session::marks(&words);
        for (place, slot) in marks.iter().enumerate() {
            let wanted = (marks.len() - place, last_slots::zeros(*slot));
            tally.same(session::way_up(&words[session::RIGHTS], *slot), wanted, &(&marks, slot));
        }
    }
    tally.at_least(1500);
}

#[test]
fn the_walk_down_looks_at_next_less_the_slot() {
    let mut tally = Tally::new("slots on the walk down");
    let mut random = Random::new(16);
    for _ in 0..60 {
        let words = made::session(&mut random);
        let next = words[session::NEXT];
        for slot in session::marks(&words) {
            let wanted = (Some(slot), next - slot as u32);
            tally.same(session::walk_down(&words, words[session::SLOT][slot]), wanted, &(next, slot));
        }
        let known = &words[session::FIRSTS][..session::marks(&words).len()];
        for extent in [0, random.word(), random.word()].iter().filter(|extent| !known.contains(extent)) {
            tally.same(session::walk_down(&words, *extent), (None, next), &(next, extent));
        }
    }
    tally.at_least(1500);
}

#[test]
fn a_session_answers_as_the_stack_does() {
    let mut tally = Tally::new("sessions and the LRU stack");
    let mut random = Random::new(13);
    for _ in 0..40 {
        let trace = made::trace(&mut random, 2 * SLOTS, 100);
        let mut words = session::new();
        let answers: Vec<u32> = trace.iter().map(|extent| session::accept(&mut words, *extent).word as u32).collect();
        tally.same(answers, trace::distances(&trace), &trace);
        tally.same(session::summary(&words), Ok(summary::of(&trace)), &trace);
    }
    tally.at_least(80);
}

#[test]
fn a_session_answers_as_the_last_slots_do() {
    let mut tally = Tally::new("sessions and the slots of the last reads");
    let mut random = Random::new(17);
    for round in 0..40 {
        let most = [4, 40, MAX_EXTENTS][round % 3];
        let trace = made::trace(&mut random, 6 * SLOTS, most);
        let mut words = session::new();
        let answers: Vec<Reading> = trace.iter().map(|extent| session::accept(&mut words, *extent)).collect();
        tally.same(last_slots::readings(&trace), answers, &trace);
    }
    tally.at_least(40);
}

#[test]
fn right_hand_sums_are_the_sums_of_right_children() {
    let mut tally = Tally::new("right-hand sums counted on the leaves and all sums");
    let mut random = Random::new(21);
    for round in 0..200 {
        let leaves: Vec<u32> = (0..SLOTS).map(|_| random.below(2 + round % 3 * 1000) as u32).collect();
        let all = full_session::sums_over(&leaves);
        let mut words = session::new();
        session::set_leaves(&mut words, &leaves);
        tally.same(words[RIGHTS].to_vec(), all.iter().copied().skip(1).step_by(2).collect(), &leaves);
        tally.same(words[COUNT], all[all.len() - 1], &leaves);
        tally.same(session::leaves(&words), Some(leaves.clone()), &leaves);
    }
    tally.at_least(600);
}

#[test]
fn a_session_answers_as_the_one_with_all_sums_does() {
    let mut tally = Tally::new("sessions with right-hand sums alone and with all sums");
    let mut random = Random::new(22);
    for round in 0..36 {
        let mut full = if round % 4 == 0 { full_session::new() } else { made::full_session(&mut random) };
        let mut words = forms::right_hand(&full);
        let known = words[session::FIRSTS].to_vec();
        let new = made::trace(&mut random, 900, [4, 40, MAX_EXTENTS][round % 3]);
        let old = made::trace_over(&mut random, &known, SLOTS);
        for extent in [&new[..], &old, &[0, 0]].concat() {
            let answer = full_session::read(&mut full, extent);
            tally.same(session::read(&mut words, extent), answer, &extent);
            tally.same(words == forms::right_hand(&full), true, &extent);
        }
        tally.same(session::summary(&words), full_session::summary(&full), &words);
        for size in [0, 1, 20, u32::MAX] {
            tally.same(session::misses(&words, size), full_session::misses(&full, size), &words);
            tally.same(session::share(&words, size), full_session::share(&full, size), &words);
        }
    }
    tally.at_least(36 * 2 * SLOTS as u64);
}

/// The sound sessions with all sums whose other form these words are, sought among all marks that the slots allow: in each
/// slot that does not hold 0, and in none or one of those that do.
fn sought(words: &[u32]) -> Vec<Vec<u32>> {
    let leaves: Vec<u32> = words[SLOT].iter().map(|extent| u32::from(*extent != 0)).collect();
    let with = |slot: Option<usize>| {
        let mut leaves = leaves.clone();
        slot.into_iter().for_each(|slot| leaves[slot] = 1);
        leaves
    };
    let of_0 = (0..SLOTS).filter(|slot| leaves[*slot] == 0).map(Some);
    let marks = iter::once(None).chain(of_0).map(with).filter(|leaves| leaves.iter().sum::<u32>() == words[COUNT]);
    let sums = marks.map(|leaves| full_session::sums_over(&leaves));
    let given = sums.filter(|sums| sums.iter().skip(1).step_by(2).eq(&words[RIGHTS]));
    let all = given.map(|sums| [&words[..COUNT], &sums, &words[NEXT..]].concat());
    all.filter(|full| full_session::sound(full)).collect()
}

#[test]
fn a_session_is_sound_where_one_with_all_sums_has_its_words() {
    let mut tally = Tally::new("sound sessions, and those with all sums");
    let mut random = Random::new(23);
    let mut list = [damage::bases(), damage::each_clause_broken(), damage::sums_modulo()].concat();
    list.extend((0..300).map(|_| damage::several_words_changed(&mut random)));
    for base in &damage::bases()[..4] {
        damage::sums_changed(&mut random, base, 200, 0, |words| list.push(words.to_vec()));
        damage::words_changed(&mut random, base, 400, 3, |words| list.push(words.to_vec()));
    }
    let mut sound = 0;
    for words in &list {
        let found = sought(words);
        tally.same(found.len(), usize::from(session::sound(words)), words);
        tally.same(forms::sound_full(words), found.first().cloned(), words);
        sound += found.len();
    }
    assert!(sound >= 100 && list.len() - sound >= 400, "{sound} sound of {}", list.len());
    tally.at_least(1000);
}

#[test]
fn named_moments_by_logs_are_those_by_words() {
    let mut tally = Tally::new("named moments by logs and by words");
    let mut random = Random::new(18);
    for round in 0..32 {
        let extents = made::extents(&mut random, [3, 40, MAX_EXTENTS + 44][round % 3]);
        let room = 1 + round as u32 % MAX_NAMES;
        let (mut words, mut names) = (session::new(), names::new()[..names::place(room).end].to_vec());
        let mut moments = Moments::new(room);
        for call in runs::list(&mut random, &extents, 300, 20) {
            tally.same(names::answer(&mut words, &mut names, call), moments.answer(call), &call);
        }
        tally.same(words, session::of(&moments.log), &moments.log);
    }
    tally.at_least(32 * 301);
}

#[test]
fn a_listing_has_the_misses_of_the_caches() {
    let mut tally = Tally::new("listings and caches");
    for trace in traces().iter().step_by(7) {
        let mut wanted = format!("(sizing\n (reads {})\n (cold {})", trace.len(), trace::firsts(trace).len());
        for size in 1..=trace::firsts(trace).len() as u32 {
            wanted += &format!("\n (at {size} {})", cache::misses(trace, size));
        }
        wanted += ")\n";
        tally.same(logs::list(&logs::text(trace)), Ok(wanted.into_bytes()), trace);
    }
    tally.at_least(150);
}

#[test]
fn a_table_gives_the_best_of_all_lists_of_shares() {
    let mut tally = Tally::new("splits by a table and by all allowed lists");
    let mut random = Random::new(15);
    for round in 0..4000 {
        let (customers, most) = [(1, 60), (2, 40), (3, 14), (4, 9), (5, 6), (8, 3)][round % 6];
        let store = random.below(most + 1) as u32;
        let summaries: Vec<u32> = (0..customers).flat_map(|_| made::summary(&mut random, 1 + most)).collect();
        let leasts = made::leasts(&mut random, store, customers);
        let all = splits::split(store, &leasts, &summaries);
        tally.same(split_tables::split(store, &leasts, &summaries), all, &(store, &leasts, &summaries));
    }
    tally.at_least(4000);
}

#[test]
fn a_customer_misses_as_its_summary_says() {
    let mut tally = Tally::new("customers by caches and by summaries");
    for log in traces() {
        let words = summary::of(&log);
        tally.same(Customer::of_words(30, 2, &words), Ok(Customer::of_log(30, 2, &log)), &log);
    }
    tally.at_least(1200);
}

#[test]
fn the_allowed_lists_are_all_lists_that_are_allowed() {
    let mut tally = Tally::new("allowed lists of shares");
    for (store, least) in (0..=6_u32).flat_map(|store| (0..=3_u32).map(move |least| (store, least))) {
        let digits = |number: u32| [number / 64, number / 8 % 8, number % 8];
        let lists = (0..512).map(digits);
        let wanted: Vec<Vec<u32>> = lists
            .filter(|shares| shares[1] >= least && shares.iter().sum::<u32>() <= store)
            .map(|shares| shares.to_vec())
            .collect();
        tally.same(splits::allowed(store, &[0, least, 0]), wanted, &(store, least));
    }
    tally.at_least(28);
}

#[test]
fn a_plan_is_read_back_from_its_text() {
    let mut tally = Tally::new("plans and their texts");
    let mut random = Random::new(14);
    for round in 0..400 {
        let plan = made::plan(&mut random, round % 9);
        tally.same(plan.depth(), round % 9, &plan);
        tally.same(plans::read(&plan.text()), Ok(plan.clone()), &plan);
    }
    tally.at_least(800);
}
