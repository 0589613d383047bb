//! Joining plans carried out on logs.

use jemqolu_tests::plain::plans::{self, Carried, Plan, LEVEL_WORDS, MAX_BYTES, MAX_DEPTH, MAX_PARTS};
use jemqolu_tests::plain::summary::{self, MOST_WORDS};
use jemqolu_tests::plain::{trace, MAX_EXTENTS, MAX_READS};
use jemqolu_tests::random::Random;
use jemqolu_tests::tally::Tally;
use jemqolu_tests::{calls, made, refusal};

/// Compares a plan in work words and buffers of all lengths of interest.
fn compare(tally: &mut Tally, text: &[u8], log: &[u32]) {
    let wanted = plans::carry_out(text, log);
    let (work, words) = wanted.as_ref().map_or((0, 2), |carried| (carried.cleared, carried.words.len()));
    let lengths = [(work, words), (work + 3, words + 5), (work, words - 1), (work + LEVEL_WORDS, words)];
    let short = [(work.saturating_sub(1), words), (0, words), (work, 0), (work.saturating_sub(LEVEL_WORDS), words)];
    for (work, room) in lengths.into_iter().chain(short) {
        let got = calls::plan(text, log, work, room);
        tally.same(got, plans::within(&wanted, work, room), &(String::from_utf8_lossy(text), log, work, room));
    }
}

/// A log of as many reads as the plan has, over up to so many extents.
fn log_for(random: &mut Random, plan: &Plan, most_extents: usize) -> Vec<u32> {
    let count = 1 + random.below(most_extents);
    let extents = made::extents(random, count);
    made::trace_over(random, &extents, plan.reads() as usize)
}

#[test]
fn plans_of_all_depths() {
    let mut tally = Tally::new("plans of all depths");
    let mut random = Random::new(111);
    for round in 0..180 {
        let plan = made::plan(&mut random, round % (MAX_DEPTH + 1));
        let log = log_for(&mut random, &plan, 20);
        let carried = calls::plan(&plan.text(), &log, LEVEL_WORDS * plan.depth(), MOST_WORDS);
        let wanted = Carried { words: summary::of(&log), cleared: LEVEL_WORDS * plan.depth() };
        tally.same(carried, Ok(wanted), &(&plan, &log));
        compare(&mut tally, &plan.text(), &log);
    }
    tally.at_least(180 * 9);
}

/// All plans of up to this depth whose segs are of 0, 1 or 2 reads, and whose joins have two parts, the innermost ones
/// two or three.
fn small_plans(depth: usize) -> Vec<Plan> {
    if depth == 0 {
        return [0, 1, 2].map(Plan::Seg).to_vec();
    }
    let inner = small_plans(depth - 1);
    let mut all = inner.clone();
    for one in &inner {
        for other in &inner {
            all.push(Plan::Join(vec![one.clone(), other.clone()]));
            let thirds = if depth == 1 { inner.as_slice() } else { &[] };
            all.extend(thirds.iter().map(|third| Plan::Join(vec![one.clone(), other.clone(), third.clone()])));
        }
    }
    all
}

#[test]
fn all_small_plans() {
    let mut tally = Tally::new("all small plans");
    let log = [7, 3, 7, 9, 3, 3, 9, 1, 1, 7, 3, 5];
    for plan in small_plans(2) {
        compare(&mut tally, &plan.text(), &log[..plan.reads() as usize]);
    }
    tally.at_least(12_000);
}

#[test]
fn every_length_to_1100() {
    let mut tally = Tally::new("plans of logs of every length");
    let mut random = Random::new(115);
    let extents = made::extents(&mut random, 6);
    let log = made::trace_over(&mut random, &extents, 1100);
    let distances = trace::distances(&log);
    for len in 0..=log.len() {
        let words = summary::with_distances(&log[..len], &distances[..len]);
        let parts = [Plan::Seg(len as u64 / 3), Plan::Seg(len as u64 - len as u64 / 3)];
        let got = calls::plan(&Plan::Seg(len as u64).text(), &log[..len], 1, 20);
        tally.same(got, Ok(Carried { words: words.clone(), cleared: 0 }), &len);
        let got = calls::plan(&Plan::Join(parts.to_vec()).text(), &log[..len], LEVEL_WORDS + 1, 20);
        tally.same(got, Ok(Carried { words, cleared: LEVEL_WORDS }), &len);
    }
    tally.at_least(2200);
}

/// The plan with other segs, of up to so many reads each.
fn with_segs(random: &mut Random, plan: &Plan, most: usize) -> Plan {
    match plan {
        Plan::Seg(_) => Plan::Seg(random.below(most + 1) as u64),
        Plan::Join(parts) => Plan::Join(parts.iter().map(|part| with_segs(random, part, most)).collect()),
    }
}

#[test]
fn plans_of_larger_segs() {
    let mut tally = Tally::new("plans of larger segs, on logs of few and of many extents");
    let mut random = Random::new(116);
    let (mut carried, mut refused) = (0, 0);
    for round in 0..135 {
        let plan = made::plan(&mut random, round % (MAX_DEPTH + 1));
        let segs = plan.text().iter().filter(|byte| **byte == b'g').count();
        let plan = with_segs(&mut random, &plan, 20 + 5 * MAX_EXTENTS / segs);
        let log = log_for(&mut random, &plan, 2 * MAX_EXTENTS);
        match plans::carry_out(&plan.text(), &log) {
            Ok(_) => carried += 1,
            Err(number) => refused += u32::from(number == refusal::EXTENTS),
        }
        compare(&mut tally, &plan.text(), &log);
    }
    assert!(carried >= 50 && refused >= 15, "{carried} carried out, {refused} refused");
    tally.at_least(135 * 8);
}

#[test]
fn every_length_about_the_needed() {
    let mut tally = Tally::new("plans with work words and buffers about the needed lengths");
    let mut random = Random::new(117);
    for round in 0..54 {
        let plan = made::plan(&mut random, round % (MAX_DEPTH + 1));
        let (text, log) = (plan.text(), log_for(&mut random, &plan, 30));
        let wanted = plans::carry_out(&text, &log);
        let (work, words) = (LEVEL_WORDS * plan.depth(), 2 + 3 * trace::firsts(&log).len());
        for work in work.saturating_sub(2)..=work + 2 {
            for room in words - 2..=words + 2 {
                let got = calls::plan(&text, &log, work, room);
                tally.same(got, plans::within(&wanted, work, room), &(&plan, &log, work, room));
            }
        }
    }
    tally.at_least(54 * 15);
}

#[test]
fn segs_that_do_not_add_up() {
    let mut tally = Tally::new("plans whose segs do not add up to the log");
    let mut random = Random::new(112);
    for round in 0..120 {
        let plan = made::plan(&mut random, round % 4);
        let mut log = log_for(&mut random, &plan, 9);
        log.push(4);
        tally.same(calls::plan(&plan.text(), &log, 0, 0), Err(refusal::SEGS), &(&plan, &log));
        compare(&mut tally, &plan.text(), &log);
        log.truncate(log.len().saturating_sub(2));
        compare(&mut tally, &plan.text(), &log);
    }
    let many = Plan::Join(vec![Plan::Seg(MAX_READS); MAX_PARTS]);
    let more = Plan::Join(vec![many.clone(); MAX_PARTS]);
    let most = Plan::Join(vec![more.clone(); 12]);
    for plan in [many, more, most] {
        for log in [&[][..], &[1, 2, 3]] {
            tally.same(calls::plan(&plan.text(), log, 3 * LEVEL_WORDS, MOST_WORDS), Err(refusal::SEGS), &(&plan, log));
        }
    }
    tally.at_least(2000);
}

#[test]
fn at_the_limit_of_extents() {
    let mut tally = Tally::new("plans at the limit of extents and past it");
    let mut random = Random::new(113);
    let mut refused = 0;
    for count in [MAX_EXTENTS - 1, MAX_EXTENTS, MAX_EXTENTS + 1, MAX_EXTENTS + 44] {
        for _ in 0..8 {
            let extents = made::extents(&mut random, count);
            let log = [extents.clone(), made::trace_over(&mut random, &extents, 100)].concat();
            let cut = random.below(log.len() + 1) as u64;
            let segs = vec![Plan::Seg(cut), Plan::Seg(0), Plan::Seg(log.len() as u64 - cut)];
            let text = Plan::Join(segs).text();
            refused += u32::from(plans::carry_out(&text, &log) == Err(refusal::EXTENTS));
            compare(&mut tally, &text, &log);
            compare(&mut tally, &Plan::Seg(log.len() as u64).text(), &log);
        }
    }
    assert_eq!(refused, 16, "the logs of more than {MAX_EXTENTS} extents");
    tally.at_least(500);
}

/// One join nested in another, so many deep, before a seg or after it, all segs of so many reads.
fn nested(depth: usize, before: bool, reads: u64) -> Plan {
    let mut plan = Plan::Seg(reads);
    for _ in 0..depth {
        plan = Plan::Join(if before { vec![plan, Plan::Seg(reads)] } else { vec![Plan::Seg(reads), plan] });
    }
    plan
}

#[test]
fn full_summaries_at_every_depth() {
    let mut tally = Tally::new("plans of full summaries at every depth");
    let mut random = Random::new(118);
    for (depth, before) in (0..=MAX_DEPTH).flat_map(|depth| [(depth, false), (depth, true)]) {
        let extents = made::extents(&mut random, MAX_EXTENTS + 1);
        let (another, all) = extents.split_last().expect("one extent or more");
        let mut log: Vec<u32> = (0..=depth).flat_map(|_| random.shuffled(all)).collect();
        let (text, work) = (nested(depth, before, MAX_EXTENTS as u64).text(), LEVEL_WORDS * depth);
        let carried = Carried { words: summary::of(&log), cleared: work };
        tally.same(carried.words.len(), MOST_WORDS, &depth);
        tally.same(calls::plan(&text, &log, work, MOST_WORDS), Ok(carried), &(depth, before));
        compare(&mut tally, &text, &log);
        log[0] = *another;
        let wanted = if depth == 0 { Ok(()) } else { Err(refusal::EXTENTS) };
        tally.same(calls::plan(&text, &log, work, MOST_WORDS).map(|_| ()), wanted, &(depth, before));
    }
    tally.at_least(18 * 11);
}

#[test]
fn at_the_limits_of_depth_and_parts() {
    let mut tally = Tally::new("plans at the limits of depth and parts");
    for depth in 0..12 {
        let log = vec![4; depth + 1];
        let text = nested(depth, false, 1).text();
        compare(&mut tally, &text, &log);
        let wanted = if depth > MAX_DEPTH { Err(refusal::PLAN) } else { Ok(LEVEL_WORDS * depth) };
        let got = calls::plan(&text, &log, LEVEL_WORDS * 12, MOST_WORDS);
        tally.same(got.map(|carried| carried.cleared), wanted, &depth);
    }
    for parts in 2..20 {
        let plan = Plan::Join(vec![Plan::Seg(1); parts]);
        let inner = Plan::Join(vec![Plan::Seg(1), plan.clone(), plan.clone()]);
        compare(&mut tally, &plan.text(), &vec![4; parts]);
        compare(&mut tally, &inner.text(), &vec![4; 2 * parts + 1]);
        let wanted = if parts > MAX_PARTS { Err(refusal::PLAN) } else { Ok(LEVEL_WORDS) };
        let got = calls::plan(&plan.text(), &vec![4; parts], LEVEL_WORDS, MOST_WORDS);
        tally.same(got.map(|carried| carried.cleared), wanted, &parts);
    }
    let seventeenth_join = Plan::Join([vec![Plan::Seg(0); 16], vec![Plan::Join(vec![Plan::Seg(0); 2])]].concat());
    compare(&mut tally, &seventeenth_join.text(), &[]);
    tally.at_least(400);
}

#[test]
fn at_the_limit_of_bytes() {
    let mut tally = Tally::new("plans at 65,536 bytes");
    let mut random = Random::new(114);
    for bytes in [MAX_BYTES - 1, MAX_BYTES, MAX_BYTES + 1] {
        let plan = made::plan_of_length(bytes);
        let log = log_for(&mut random, &plan, 5);
        let got = calls::plan(&plan.text(), &log, LEVEL_WORDS * 4, MOST_WORDS);
        let carried = Carried { words: summary::of(&log), cleared: LEVEL_WORDS * 4 };
        let wanted = if bytes > MAX_BYTES { Err(refusal::PLAN) } else { Ok(carried) };
        tally.same(got, wanted, &bytes);
    }
    for byte in [b' ', b'x', b'\n', b'('] {
        for bytes in [MAX_BYTES - 1, MAX_BYTES, MAX_BYTES + 1, 4 * MAX_BYTES] {
            let text = vec![byte; bytes];
            tally.same(calls::plan(&text, &[], 0, 0), plans::carry_out(&text, &[]), &bytes);
        }
    }
    tally.at_least(19);
}

#[test]
fn refusals_in_order() {
    let long: Vec<u32> = (0..4 * MAX_EXTENTS as u32).collect();
    let over = |front: &str| [front.as_bytes(), &vec![b' '; MAX_BYTES]].concat();
    let plan = |text: &[u8]| calls::plan(text, &long, 0, 0);
    assert_eq!(plan(&over("(seg x)\n")), Err(refusal::PLAN));
    assert_eq!(plan(b"(seg 9999999)\n(seg 1)\n"), Err(refusal::NUMBER));
    assert_eq!(plan(b"(seg 9999999)x\n"), Err(refusal::LINE));
    assert_eq!(plan(b"(seg 1048577)\n"), Err(refusal::NUMBER));
    assert_eq!(plan(b"(seg 1048576)\n"), Err(refusal::SEGS));
    assert_eq!(plan(b"(join\n (seg 1048576)\n (seg 1))\n"), Err(refusal::SEGS));
    let seg = |reads: usize| Plan::Seg(reads as u64).text();
    assert_eq!(plan(&seg(long.len())), Err(refusal::EXTENTS));
    assert_eq!(calls::plan(&seg(MAX_EXTENTS), &long[..MAX_EXTENTS], 0, MOST_WORDS - 1), Err(refusal::ROOM));
    let sixteen = |last: &str| format!("(join\n{}{last}\n", " (seg 0)\n".repeat(16)).into_bytes();
    assert_eq!(plan(&sixteen(" (seg 0)")), Err(refusal::PLAN));
    assert_eq!(plan(&sixteen(" (seg 1048577)")), Err(refusal::NUMBER));
    assert_eq!(plan(&sixteen(" (seg 01)")), Err(refusal::LINE));
    assert_eq!(plan(&sixteen(" (join")), Err(refusal::PLAN));
    assert_eq!(plan(&sixteen(" (seg 0")), Err(refusal::LINE));
    let unended = |text: Vec<u8>| plan(&text[..text.len() - 1]);
    assert_eq!(unended(sixteen(" (seg 0)")), Err(refusal::LINE));
    assert_eq!(unended(b"(seg 1048577)\n".to_vec()), Err(refusal::LINE));
}

#[test]
fn the_earliest_line_decides() {
    let log: Vec<u32> = (0..4 * MAX_EXTENTS as u32).collect();
    let (line, number, deep) = ("(seg 01)", "(seg 1048577)", "(join");
    let open = |joins: usize| -> String { (0..joins).map(|join| format!("{}(join\n", " ".repeat(join))).collect() };
    let eight = |rest: &str| format!("{}{}{rest}\n", open(8), " ".repeat(8));
    let two = |one: &str, other: &str| eight(&format!("{one}\n{}{other}", " ".repeat(8)));
    let texts = [
        (eight(deep), refusal::PLAN),
        (eight("(join "), refusal::LINE),
        (eight(line), refusal::LINE),
        (eight(number), refusal::NUMBER),
        (two(line, number), refusal::LINE),
        (two(line, deep), refusal::LINE),
        (two(number, line), refusal::NUMBER),
        (two(number, deep), refusal::NUMBER),
        (two(deep, line), refusal::PLAN),
        (two(deep, number), refusal::PLAN),
        (eight("(seg 1048577) x"), refusal::LINE),
        (eight("(seg 1048577)))"), refusal::LINE),
        (eight("(seg 1)"), refusal::LINE),
    ];
    for (text, wanted) in texts {
        assert_eq!(plans::carry_out(text.as_bytes(), &log), Err(wanted), "{text}");
        assert_eq!(calls::plan(text.as_bytes(), &log, 0, 0), Err(wanted), "{text}");
        let long = [text.as_bytes(), &vec![b' '; MAX_BYTES]].concat();
        assert_eq!(calls::plan(&long, &log, 0, 0), Err(refusal::PLAN), "{text}");
    }
}
