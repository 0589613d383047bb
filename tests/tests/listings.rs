//! Listings of log texts, valid and damaged.

use jemqolu_tests::plain::logs::{self, LISTING_BYTES};
use jemqolu_tests::plain::{cache, trace, MAX_EXTENTS};
use jemqolu_tests::random::Random;
use jemqolu_tests::room::{rooms, within};
use jemqolu_tests::tally::Tally;
use jemqolu_tests::{calls, made, refusal, spread};

/// How often each refusal was wanted, by its number; at 0 how often none was.
type Seen = [u32; 10];

/// Compares the listing of a text in buffers of all lengths of interest.
fn compare(tally: &mut Tally, text: &[u8]) {
    let wanted = logs::list(text);
    for room in rooms(&wanted).into_iter().chain([LISTING_BYTES]) {
        tally.same(calls::list(text, room), within(&wanted, room), &(String::from_utf8_lossy(text), room));
    }
}

/// Compares the listing of a text in a buffer long enough for any.
fn compare_once(tally: &mut Tally, seen: &mut Seen, text: &[u8]) {
    let wanted = logs::list(text);
    seen[wanted.as_ref().map_or_else(|number| *number as usize, |_| 0)] += 1;
    tally.same(calls::list(text, LISTING_BYTES), wanted, &String::from_utf8_lossy(text));
}

#[test]
fn all_short_logs() {
    let mut tally = Tally::new("listings of all short logs");
    for trace in made::all_traces(6, &[0, 4096, u32::MAX]) {
        compare(&mut tally, &logs::text(&trace));
    }
    tally.at_least(7000);
}

#[test]
fn random_logs() {
    let mut tally = Tally::new("listings of random logs");
    let mut random = Random::new(131);
    for round in 0..500 {
        let most = [5, 50, MAX_EXTENTS][round % 3];
        let trace = made::trace(&mut random, 1200, most);
        compare(&mut tally, &logs::text(&trace));
    }
    tally.at_least(3500);
}

#[test]
fn the_caches_that_read_a_log() {
    let mut tally = Tally::new("listings of the library and caches");
    let mut random = Random::new(132);
    for _ in 0..120 {
        let log = made::trace(&mut random, 200, 20);
        let listing = calls::list(&logs::text(&log), LISTING_BYTES).expect("a log within the limits");
        let listing = String::from_utf8(listing).expect("a listing in letters");
        for size in 1..=trace::firsts(&log).len() as u32 {
            let row = format!(" (at {size} {})", cache::misses(&log, size));
            tally.same(
                listing.lines().nth(2 + size as usize).map(|line| line.starts_with(&row)),
                Some(true),
                &(&log, size),
            );
        }
    }
    tally.at_least(700);
}

#[test]
fn each_byte_changed_added_or_removed() {
    let (mut tally, mut seen) = (Tally::new("log texts with one byte changed"), Seen::default());
    let mut random = Random::new(133);
    for round in 0..40 {
        let most = [0, 1, 4, 12][round % 4];
        let text = logs::text(&made::trace(&mut random, most, 5));
        for place in 0..text.len() {
            let (front, back) = text.split_at(place);
            for _ in 0..3 {
                let byte = random.of(b" ()\n0123456789tracedd\x00\x0b\xff\r\t-+");
                for damaged in [[front, &[byte], &back[1..]], [front, &[byte], back]] {
                    compare_once(&mut tally, &mut seen, &damaged.concat());
                }
            }
            compare_once(&mut tally, &mut seen, &[front, &back[1..]].concat());
            compare_once(&mut tally, &mut seen, front);
        }
        for more in [&b"\n"[..], b" ", b")", b"(trace)\n", b" (read 1))\n", b"\0"] {
            compare_once(&mut tally, &mut seen, &[&text, more].concat());
        }
    }
    assert!(seen[0] >= 500 && seen[1] >= 10_000 && seen[2] >= 5, "{seen:?}");
    tally.at_least(12_000);
}

/// Texts of up to so many lines of these.
fn all_lines(tally: &mut Tally, seen: &mut Seen, text: &str, longest: usize) {
    compare_once(tally, seen, text.as_bytes());
    if longest == 0 {
        return;
    }
    let lines = ["(trace)\n", "(trace\n", " (trace\n", " (read 1)\n", " (read 2)\n", " (read 1))\n", " (read 1)))\n"];
    let faulty =
        ["(read 1)\n", "  (read 1)\n", " (read 4294967296)\n", " (read 4294967296))\n", ")\n", "\n", " (read 1)"];
    for line in lines.into_iter().chain(faulty) {
        all_lines(tally, seen, &format!("{text}{line}"), longest - 1);
    }
}

#[test]
fn all_texts_of_few_lines() {
    let (mut tally, mut seen) = (Tally::new("all log texts of few lines"), Seen::default());
    all_lines(&mut tally, &mut seen, "", 4);
    assert!(seen[0] >= 7 && seen[1] >= 30_000 && seen[2] >= 300, "{seen:?}");
    tally.at_least(40_000);
}

#[test]
fn numbers_of_extents() {
    let (mut tally, mut seen) = (Tally::new("numbers of extents"), Seen::default());
    let numbers = "|0|1|00|01|10|4294967294|4294967295|4294967296|4294967297|8589934592|9999999999|0000000003|\
                   00000000003|10000000000|42949672950|99999999999|18446744073709551619|+3|-3| 3|3 |3.|3a|a|0x3|\
                   3)|)3|(3|3 3|\u{0663}";
    for number in numbers.split('|') {
        for end in ["))\n", ")\n (read 1))\n", ")))\n", "))", ")\n"] {
            compare_once(&mut tally, &mut seen, format!("(trace\n (read {number}{end}").as_bytes());
            compare_once(&mut tally, &mut seen, format!("(trace\n (read 3)\n (read {number}{end}").as_bytes());
        }
    }
    assert!(seen[0] >= 20 && seen[1] >= 200 && seen[2] >= 20, "{seen:?}");
    tally.at_least(300);
}

/// Texts refused with 1, each with one fault, or with a second one on the same line or a later one.
const FAULTY: [&str; 35] = [
    "",
    "\n",
    "(traces\n (read 7))\n",
    "(trace))\n",
    " (trace)\n",
    "(trace\r\n (read 7))\n",
    "(trace\n (read 7)\r\n (read 3))\n",
    "(trace\n (read 7)\n (read 3)))\n",
    "(trace\n (read 7\n (read 3))\n",
    "(trace\n (read 7)\n\n (read 3))\n",
    "(trace\n(read 7)\n (read 3))\n",
    "(trace\n (read  7))\n",
    "(trace\n (read 7) \n (read 3))\n",
    "(trace\n (read 7)\n)\n",
    "(trace\n (read 07))\n",
    "(trace\n (read ))\n",
    "(trace\n (read -7))\n",
    "(trace\n (read 7a))\n",
    "(trace\n (read 7)\n (read 42949672950)\n (read 3))\n",
    "(trace\n (read 4294967295)))\n (read 3))\n",
    "(trace\n (read 7)\n (read 77777777777777777777777777",
    "(tracetracetracetracetrace)\n",
    "(trace\n (read 7)\n (rea",
    "(trace\n (read 7)\n (read 3))",
    "(trace\n (read 7)\n (read 3)\n",
    "(trace\n",
    "(trace)",
    "(trace\n (read 7))\nxy",
    "(trace\n (read 7))\n\n",
    "(trace\n (read 7))\n (read 3))\n",
    "(trace)\n (read 7))\n",
    "(trace\n\n (read 5000000000))\n",
    "(trace\n (read 5000000000)))\n",
    "(trace\n (read 5000000000)",
    "(trace\n (read 42949672950)))\n (read 3))\n",
];

/// Texts refused with 2, some with a fault on a later line.
const ABOVE: [&str; 6] = [
    "(trace\n (read 4294967296))\n",
    "(trace\n (read 7)\n (read 9999999999)\n (read 3))\n",
    "(trace\n (read 5000000000)\n\n (read 3))\n",
    "(trace\n (read 5000000000)\n (read 77777777777777777777\n",
    "(trace\n (read 5000000000)\n (read 77777777777777777777",
    "(trace\n (read 5000000000)\n (re",
];

#[test]
fn texts_with_one_fault_or_two() {
    let mut tally = Tally::new("log texts with one fault or two");
    let faulty = FAULTY.iter().map(|text| (text, refusal::LINE));
    for (text, number) in faulty.chain(ABOVE.iter().map(|text| (text, refusal::NUMBER))) {
        tally.same(logs::list(text.as_bytes()), Err(number), text);
        for room in [0, LISTING_BYTES] {
            tally.same(calls::list(text.as_bytes(), room), Err(number), text);
        }
    }
    tally.at_least(120);
}

#[test]
fn every_length_and_many_numbers_of_extents() {
    let mut tally = Tally::new("listings of every length");
    let mut random = Random::new(136);
    let few = made::extents(&mut random, 7);
    let trace = made::trace_over(&mut random, &few, 1030);
    for len in 0..=trace.len() {
        let text = logs::text(&trace[..len]);
        tally.same(calls::list(&text, LISTING_BYTES), logs::list(&text), &(&trace, len));
    }
    for count in spread::numbers_of_extents(8) {
        let extents = made::extents(&mut random, count);
        let text = logs::text(&[extents.clone(), random.shuffled(&extents)].concat());
        compare(&mut tally, &text);
    }
    tally.at_least(1031 + MAX_EXTENTS as u64);
}

#[test]
fn at_the_limit_of_extents() {
    let (mut tally, mut seen) = (Tally::new("log texts at the limit of extents and past it"), Seen::default());
    let mut random = Random::new(134);
    for count in [MAX_EXTENTS - 1, MAX_EXTENTS, MAX_EXTENTS + 1, MAX_EXTENTS + 44] {
        for _ in 0..6 {
            let extents = made::extents(&mut random, count);
            let log = [extents.clone(), made::trace_over(&mut random, &extents, 100)].concat();
            compare(&mut tally, &logs::text(&log));
            compare_once(&mut tally, &mut seen, &logs::text(&log));
            compare_once(&mut tally, &mut seen, &[&logs::text(&log), &b"x"[..]].concat());
        }
    }
    assert_eq!((seen[0], seen[1], seen[9]), (12, 12, 24));
    let full: String = (0..MAX_EXTENTS).map(|extent| format!(" (read {extent})\n")).collect();
    for (line, number) in [
        (format!("(read {MAX_EXTENTS})\n"), 9),
        (format!("(read {MAX_EXTENTS}))\n"), 9),
        (format!("(read {MAX_EXTENTS})\n\n"), 9),
        (format!("(read {MAX_EXTENTS})"), 1),
        (format!("(read 0{MAX_EXTENTS})\n"), 1),
        (format!("(read {MAX_EXTENTS})))\n"), 1),
        ("(read 4294967296)\n".to_string(), 2),
        ("(read 5000000000))\n".to_string(), 2),
    ] {
        tally.same(calls::list(format!("(trace\n{full} {line}").as_bytes(), 0), Err(number), &line);
    }
    let ended = format!("(trace\n{full} (read {}))\n", MAX_EXTENTS - 1);
    tally.same(calls::list(ended.as_bytes(), 0), Err(refusal::ROOM), &ended);
    tally.at_least(200);
}

#[test]
fn random_bytes() {
    let (mut tally, mut seen) = (Tally::new("random bytes as log texts"), Seen::default());
    let mut random = Random::new(135);
    for _ in 0..30_000 {
        let text: Vec<u8> = (0..random.below(20)).map(|_| random.of(b"(trace) d01\n")).collect();
        compare_once(&mut tally, &mut seen, &[b"(trace\n (rea", &text[..]].concat());
        compare_once(&mut tally, &mut seen, &text);
    }
    assert!(seen[1] >= 50_000, "{seen:?}");
    tally.at_least(60_000);
}
