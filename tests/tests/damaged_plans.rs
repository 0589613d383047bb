//! Texts that may or may not be plans.

use jemqolu_tests::plain::plans::{self, Plan, LEVEL_WORDS, MAX_BYTES, MAX_DEPTH, MAX_PARTS};
use jemqolu_tests::random::Random;
use jemqolu_tests::tally::Tally;
use jemqolu_tests::{calls, made, spread, Answer};

/// How often each refusal was wanted, by its number; at 0 how often none was.
type Seen = [u32; 10];

/// Compares a text on a log, with room for the answer, or for one level of joins where it is refused.
fn compare(tally: &mut Tally, seen: &mut Seen, text: &[u8], log: &[u32]) {
    let wanted = plans::carry_out(text, log);
    note(seen, &wanted);
    let work = 2 + wanted.as_ref().map_or(LEVEL_WORDS, |carried| carried.cleared);
    let got = calls::plan(text, log, work, 40);
    tally.same(got, plans::within(&wanted, work, 40), &(String::from_utf8_lossy(text), log));
}

/// Counts the refusal of an answer.
fn note<T>(seen: &mut Seen, answer: &Answer<T>) {
    seen[answer.as_ref().map_or_else(|number| *number as usize, |_| 0)] += 1;
}

/// A log of so many reads over few extents.
fn log_of(reads: u64) -> Vec<u32> {
    (0..reads as u32).map(|read| read * read % 7).collect()
}

/// The bytes that come in where a text is damaged at every place.
const BYTES: &[u8; 10] = b" ()019\njs\0";

/// Compares a text on a log of as many reads as its segs have, or of three where they have too many, with what it needs
/// lent and with nothing.
fn compare_alone(tally: &mut Tally, seen: &mut Seen, text: &[u8]) {
    let reads = plans::read(text).map_or(3, |plan| plan.reads());
    let log = log_of(if reads > 60_000 { 3 } else { reads });
    let wanted = plans::carry_out(text, &log);
    note(seen, &wanted);
    let (work, room) = wanted.as_ref().map_or((0, 0), |carried| (carried.cleared, carried.words.len()));
    for (work, room) in [(work, room), (0, 0)] {
        let got = calls::plan(text, &log, work, room);
        tally.same(got, plans::within(&wanted, work, room), &(String::from_utf8_lossy(text), work, room));
    }
}

/// Compares a text with the byte at a place removed, and with each of these in its place and before it.
fn damage_at(tally: &mut Tally, seen: &mut Seen, text: &[u8], place: usize, bytes: &[u8]) {
    let (front, back) = text.split_at(place);
    let rest = back.get(1..).unwrap_or(&[]);
    compare_alone(tally, seen, &[front, rest].concat());
    for byte in bytes {
        compare_alone(tally, seen, &[front, &[*byte], rest].concat());
        compare_alone(tally, seen, &[front, &[*byte], back].concat());
    }
}

/// The text of a plan of this depth with not too many lines.
fn short_text(random: &mut Random, depth: usize) -> Vec<u8> {
    loop {
        let text = made::plan(random, depth).text();
        if text.len() <= 100 + 50 * depth {
            return text;
        }
    }
}

#[test]
fn each_of_ten_bytes_at_every_place() {
    let (mut tally, mut seen) = (Tally::new("plans with each of ten bytes at every place"), Seen::default());
    let mut random = Random::new(124);
    for round in 0..45 {
        let text = short_text(&mut random, round % (MAX_DEPTH + 1));
        for place in 0..=text.len() {
            damage_at(&mut tally, &mut seen, &text, place, BYTES);
        }
    }
    assert!(seen[0] >= 10_000 && seen[1] >= 200_000, "{seen:?}");
    tally.at_least(400_000);
}

#[test]
fn cut_after_every_byte() {
    let (mut tally, mut seen) = (Tally::new("plans cut after every byte"), Seen::default());
    let mut random = Random::new(125);
    for round in 0..45 {
        let text = short_text(&mut random, round % (MAX_DEPTH + 1));
        for len in 0..=text.len() {
            compare_alone(&mut tally, &mut seen, &text[..len]);
        }
    }
    assert!(seen[0] == 45 && seen[1] >= 10_000, "{seen:?}");
    tally.at_least(20_000);
}

#[test]
fn each_line_removed_and_doubled() {
    let (mut tally, mut seen) = (Tally::new("plans with a line removed or doubled"), Seen::default());
    let mut random = Random::new(126);
    for round in 0..90 {
        let text = made::plan(&mut random, round % (MAX_DEPTH + 1)).text();
        let lines: Vec<&[u8]> = text.split_inclusive(|byte| *byte == b'\n').collect();
        // every line of short plans; of long ones the first two, the last two and a spread of 80
        for place in spread::places_of(0..lines.len(), lines.len().div_ceil(80), round) {
            let (front, back) = lines.split_at(place);
            compare_alone(&mut tally, &mut seen, &[front, &back[1..]].concat().concat());
            compare_alone(&mut tally, &mut seen, &[front, &back[..1], back].concat().concat());
        }
    }
    assert!(seen[0] >= 2500 && seen[1] >= 2500 && seen[4] >= 800, "{seen:?}");
    tally.at_least(12_000);
}

/// A join of so many parts under so many joins, each of which has a seg before it or after it. Its last part is a join
/// where asked.
fn nest(joins: usize, parts: usize, before: bool, tail: bool) -> Plan {
    let mut inner = vec![Plan::Seg(1); parts];
    if tail {
        inner[parts - 1] = Plan::Join(vec![Plan::Seg(0), Plan::Seg(1)]);
    }
    let mut plan = Plan::Join(inner);
    for _ in 0..joins {
        plan = Plan::Join(if before { vec![Plan::Seg(1), plan] } else { vec![plan, Plan::Seg(1)] });
    }
    plan
}

#[test]
fn damaged_at_the_limits_of_depth_and_parts() {
    let (mut tally, mut seen) = (Tally::new("damaged plans at the limits of depth and parts"), Seen::default());
    let mut random = Random::new(127);
    for joins in 0..10 {
        for parts in [2, MAX_PARTS, MAX_PARTS + 1] {
            for (before, tail) in [(false, false), (true, false), (true, true)] {
                let text = nest(joins, parts, before, tail).text();
                for place in 0..=text.len() {
                    let bytes = [random.of(BYTES), random.of(BYTES)];
                    damage_at(&mut tally, &mut seen, &text, place, &bytes);
                }
            }
        }
    }
    assert!(seen[0] >= 2000 && seen[1] >= 80_000 && seen[4] >= 30_000, "{seen:?}");
    tally.at_least(240_000);
}

#[test]
fn damaged_at_the_limit_of_bytes() {
    let (mut tally, mut seen) = (Tally::new("damaged plans at 65,536 bytes"), Seen::default());
    let mut random = Random::new(128);
    for bytes in MAX_BYTES - 2..=MAX_BYTES + 2 {
        let text = made::plan_of_length(bytes).text();
        for _ in 0..10 {
            let place = random.below(bytes + 1);
            damage_at(&mut tally, &mut seen, &text, place, BYTES);
        }
    }
    // of 21 texts for each place those too long: the 10 with a byte more at the limit, all but one past it
    assert!(seen[0] >= 25 && seen[1] >= 400 && seen[4] >= 10 * (10 + 20 + 20), "{seen:?}");
    tally.at_least(5 * 10 * 21 * 2);
}

#[test]
fn each_byte_changed_added_or_removed() {
    let (mut tally, mut seen) = (Tally::new("plans with one byte changed"), Seen::default());
    let mut random = Random::new(121);
    for depth in 0..=MAX_DEPTH {
        for _ in 0..4 {
            let plan = made::plan(&mut random, depth);
            let (text, log) = (plan.text(), log_of(plan.reads()));
            for place in (0..text.len()).step_by(1 + text.len() / 150) {
                let byte = random.of(b" ()\n0123456789segjoin\x00\x0b\xff\r\t-+");
                let (front, back) = text.split_at(place);
                for damaged in [[front, &[byte], &back[1..]], [front, &[byte], back], [front, &[], &back[1..]]] {
                    compare(&mut tally, &mut seen, &damaged.concat(), &log);
                }
                compare(&mut tally, &mut seen, front, &log);
            }
        }
    }
    assert!(seen[1] >= 4000 && seen[3] >= 30 && seen[0] >= 3, "{seen:?}");
    tally.at_least(5000);
}

/// Compares a text whose segs are of one read each, on logs of as many reads, one fewer and one more.
fn compare_around(tally: &mut Tally, seen: &mut Seen, text: &str) {
    let segs = text.matches("(seg 1)").count() as u64;
    for reads in segs.saturating_sub(1)..=segs + 1 {
        compare(tally, seen, text.as_bytes(), &log_of(reads));
    }
}

/// Goes through the texts of up to so many lines that go on from this one; `parts` has the parts begun of each open
/// join. A line that is not of the rule is tried as the last line and as the last but one.
fn all_lines(tally: &mut Tally, seen: &mut Seen, text: &str, parts: &[usize], longest: usize) {
    compare_around(tally, seen, text);
    if longest == 0 || (parts.is_empty() && !text.is_empty()) {
        return;
    }
    let (open, indent) = (parts.len(), " ".repeat(parts.len()));
    let mut begun = parts.to_vec();
    begun.iter_mut().rev().take(1).for_each(|parts| *parts += 1);
    all_lines(tally, seen, &format!("{text}{indent}(join\n"), &[begun.as_slice(), &[0]].concat(), longest - 1);
    let can_close = begun.iter().rev().take_while(|parts| **parts >= 2).count();
    for closing in 0..=can_close {
        let line = format!("{text}{indent}(seg 1){}\n", ")".repeat(closing));
        all_lines(tally, seen, &line, &begun[..open - closing], longest - 1);
    }
    for closing in can_close + 1..=open + 1 {
        let line = format!("{text}{indent}(seg 1){}\n", ")".repeat(closing));
        compare_around(tally, seen, &line);
        compare_around(tally, seen, &format!("{line}{indent}(seg 1)\n"));
    }
    for line in [" (join\n", " (seg 1)\n", "(seg 1048577)\n", "(join)\n", "(seg)\n", "\n", "(seg 1)", ")\n"] {
        compare_around(tally, seen, &format!("{text}{indent}{line}"));
        compare_around(tally, seen, &format!("{text}{indent}{line}{indent}(seg 1048577)\n"));
    }
}

#[test]
fn all_texts_of_few_lines() {
    let (mut tally, mut seen) = (Tally::new("all plan texts of few lines"), Seen::default());
    all_lines(&mut tally, &mut seen, "", &[], 9);
    let after = ["(seg 1)\n", "\n", " ", "x", "(join\n", ")\n"];
    for text in ["(seg 1)\n", "(join\n (seg 1)\n (seg 1))\n"] {
        for line in after {
            compare_around(&mut tally, &mut seen, &format!("{text}{line}"));
        }
    }
    assert!(seen[0] >= 100 && seen[1] >= 30_000 && seen[2] >= 1000 && seen[3] >= 200, "{seen:?}");
    tally.at_least(40_000);
}

/// A text of lines that mostly follow each other as in a plan, and the reads of its segs.
fn lines(random: &mut Random) -> (Vec<u8>, u64) {
    let (mut text, mut open, mut segs) = (Vec::new(), 0_usize, 0);
    let (joins, ends, most) = random.of(&[(2, 4, 24), (3, 3, 24), (12, 40, 60)]);
    for line in 0..1 + random.below(most) {
        text.extend(vec![b' '; if random.one_in(100) { open + 1 } else { open }]);
        if (line == 0 || random.one_in(joins)) && open < 10 {
            text.extend(b"(join\n");
            open += 1;
            continue;
        }
        let closing = if random.one_in(ends) { random.below(open + 2) } else { 0 };
        let number = if random.one_in(60) { 1_048_577 } else { random.of(&[1, 1, 1, 1, 0, 2]) };
        text.extend(format!("(seg {number}){}\n", ")".repeat(closing)).into_bytes());
        open = open.saturating_sub(closing);
        segs += number;
        if open == 0 && !random.one_in(20) {
            break;
        }
    }
    (text, segs % 100)
}

#[test]
fn lines_in_any_order() {
    let (mut tally, mut seen) = (Tally::new("plan lines in any order"), Seen::default());
    let mut random = Random::new(122);
    for _ in 0..40_000 {
        let (text, segs) = lines(&mut random);
        compare(&mut tally, &mut seen, &text, &log_of(segs));
    }
    assert!(seen[0] >= 1000 && seen[1] >= 10_000 && seen[2] >= 1000 && seen[4] >= 500, "{seen:?}");
    tally.at_least(40_000);
}

/// Numbers about the limits of a seg, of ten digits and of machine words, and bytes that are no number of the rule.
const NUMBERS: &str = "|0|1|2|3|00|01|10|1048575|1048576|1048577|4294967295|4294967296|4294967299|9999999999|\
                       0000000000|0000000003|00000000003|01048577|10000000000|99999999999|18446744073709551615|\
                       18446744073709551616|18446744073709551617|18446744073709551619|+3|-3| 3|3 |3.|3a|1e3|a|0x3|\
                       3)|)3|(3|3 3|\u{0663}";

#[test]
fn numbers_of_segs() {
    let (mut tally, mut seen) = (Tally::new("numbers of segs"), Seen::default());
    for number in NUMBERS.split('|') {
        for text in [format!("(seg {number})\n"), format!("(join\n (seg {number})\n (seg 0))\n")] {
            for reads in [0, 1, 3] {
                compare(&mut tally, &mut seen, text.as_bytes(), &log_of(reads));
            }
        }
    }
    assert!(seen[0] >= 4 && seen[1] >= 100 && seen[2] >= 20 && seen[3] >= 10, "{seen:?}");
    tally.at_least(220);
}

#[test]
fn numbers_and_brackets_in_joins_of_any_width() {
    let (mut tally, mut seen) = (Tally::new("numbers and brackets in joins of any width"), Seen::default());
    for number in NUMBERS.split('|') {
        for closing in 0..6 {
            let last = format!("(seg {number}{}\n", ")".repeat(closing));
            compare_alone(&mut tally, &mut seen, last.as_bytes());
            for parts in 0..MAX_PARTS + 2 {
                let text = format!("(join\n{} {last}", " (seg 7)\n".repeat(parts));
                compare_alone(&mut tally, &mut seen, text.as_bytes());
            }
        }
    }
    assert!(seen[0] >= 60 && seen[1] >= 3000 && seen[2] >= 100 && seen[3] >= 20 && seen[4] >= 10, "{seen:?}");
    tally.at_least(8000);
}

#[test]
fn random_bytes() {
    let (mut tally, mut seen) = (Tally::new("random bytes as plans"), Seen::default());
    let mut random = Random::new(123);
    for _ in 0..30_000 {
        let text: Vec<u8> = (0..random.below(14)).map(|_| random.of(b"(seg 01)\n j")).collect();
        compare(&mut tally, &mut seen, &text, &[1]);
    }
    assert!(seen[1] >= 29_000, "{seen:?}");
    tally.at_least(30_000);
}
