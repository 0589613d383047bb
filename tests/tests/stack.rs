//! Every call on a thread with the stack that the header states, and one page for the thread itself. What each call needs
//! at least is printed by `cargo test --release --offline --test stack -- --ignored --nocapture`.

use jemqolu_tests::header::number;
use jemqolu_tests::plain::logs::{self, LISTING_BYTES};
use jemqolu_tests::plain::plans::{Plan, LEVEL_WORDS, MAX_DEPTH, MAX_PARTS};
use jemqolu_tests::plain::session::{self, SLOTS};
use jemqolu_tests::plain::splits::{MAX_CUSTOMERS, MAX_STORE};
use jemqolu_tests::plain::summary::MOST_WORDS;
use jemqolu_tests::plain::{names, COLD_BASE, MAX_EXTENTS, MAX_READS};
use jemqolu_tests::{ffi, refusal, Answer};
use std::process::{Command, Stdio};
use std::{env, thread};

/// What a thread itself takes of its stack: a page, and no less on Linux with glibc.
const THREAD_BYTES: usize = 4_096;

/// Where the least stack of a call is sought: the call and the bytes that it has, all others having ample.
const SOUGHT: &str = "JEMQOLU_TEST_STACK";
/// More stack than any call needs.
const AMPLE: usize = 1 << 20;
/// By how much the stacks that are tried differ.
const PAGE: usize = 4_096;
/// The least stack that is tried; glibc gives a thread some 24 KB at least.
const LEAST: usize = 6 * PAGE;

/// The stack of a call: what the header states, or what is tried where the least is sought.
fn stack_of(call: &str) -> usize {
    let Ok(sought) = env::var(SOUGHT) else { return number("STACK_BYTES") as usize };
    match sought.split_once(' ') {
        Some((one, bytes)) if one == call => bytes.parse().expect("a number of bytes"),
        _ => AMPLE,
    }
}

/// The answer of a call on a thread with little stack; more than it has ends the program.
#[track_caller]
fn with_little_stack(name: &str, call: impl FnOnce() -> Answer<usize> + Send) -> Answer<usize> {
    let bytes = stack_of(name) + THREAD_BYTES;
    thread::scope(|scope| {
        let thread = thread::Builder::new().stack_size(bytes).spawn_scoped(scope, call);
        thread.expect("a thread").join().expect("a call that returns")
    })
}

/// A trace of all reads that a log may have, over all extents that it may have.
fn long_trace() -> Vec<u32> {
    (0..MAX_READS as u32).map(|read| read.wrapping_mul(0x9E37_79B9) >> (32 - MAX_EXTENTS.ilog2())).collect()
}

/// A plan of so many reads, as deep and as wide as plans may be.
fn large_plan(reads: u64) -> Plan {
    let mut inner = Plan::Seg(1);
    let mut left = reads - 1;
    for _ in 0..MAX_DEPTH {
        let mut parts: Vec<Plan> = vec![Plan::Seg(1); MAX_PARTS - 2];
        parts.insert(7, inner);
        inner = Plan::Join(parts);
        left -= MAX_PARTS as u64 - 2;
    }
    let Plan::Join(mut parts) = inner else { unreachable!("a join") };
    parts.push(Plan::Seg(left));
    Plan::Join(parts)
}

#[test]
fn summaries() {
    let trace = long_trace();
    let (mut a, mut b, mut out, mut share) = ([0; MOST_WORDS], [0; MOST_WORDS], [0; MOST_WORDS], 0.0);
    assert_eq!(with_little_stack("summarize", || ffi::summarize(&trace[..1 << 19], &mut a)), Ok(MOST_WORDS));
    assert_eq!(with_little_stack("summarize", || ffi::summarize(&trace[1 << 19..], &mut b)), Ok(MOST_WORDS));
    assert_eq!(with_little_stack("join", || ffi::join(&a, &b, &mut out)), Ok(MOST_WORDS));
    let mut distances = vec![0; 1 << 19];
    assert_eq!(with_little_stack("distances", || ffi::distances(&a, &trace[1 << 19..], &mut distances)), Ok(1 << 19));
    assert!(with_little_stack("misses", || ffi::misses(&out, 9)).is_ok());
    assert_eq!(with_little_stack("share", || ffi::share(&out, 9, &mut share)), Ok(1));
    let (cold, mut words_read) = (MAX_EXTENTS as u32, 0);
    assert!(with_little_stack("smallest", || ffi::smallest(&out, cold, &mut words_read)).is_ok_and(|size| size > 0));
    let refused = with_little_stack("smallest", || ffi::smallest(&out, cold - 1, &mut words_read));
    assert_eq!(refused, Err(refusal::MISSES));
}

#[test]
fn splits() {
    let (trace, mut one) = (long_trace(), [0; MOST_WORDS]);
    assert_eq!(with_little_stack("summarize", || ffi::summarize(&trace, &mut one)), Ok(MOST_WORDS));
    let summaries = one.repeat(MAX_CUSTOMERS);
    let mut shares = [0; MAX_CUSTOMERS];
    for leasts in [[0; MAX_CUSTOMERS], [MAX_STORE / MAX_CUSTOMERS as u32; MAX_CUSTOMERS]] {
        assert!(with_little_stack("split", || ffi::split(MAX_STORE, &leasts, &summaries, &mut shares)).is_ok());
        assert!(shares.iter().sum::<u32>() > 0, "{shares:?}");
    }
    assert!(with_little_stack("split", || ffi::split(MAX_STORE, &[MAX_STORE; 8], &summaries, &mut shares)).is_err());
}

#[test]
fn one_more_read() {
    let (trace, mut change) = (long_trace(), 0);
    let (log, new) = (&trace[1..], MAX_EXTENTS as u32);
    for (place, size) in [(0, 9), (log.len() / 2, MAX_EXTENTS as u32), (log.len(), u32::MAX)] {
        assert_eq!(with_little_stack("one_more", || ffi::one_more(log, place, trace[0], size, &mut change)), Ok(0));
    }
    let mut refused = |log: &[u32], place: usize, extent: u32| {
        with_little_stack("one_more", || ffi::one_more(log, place, extent, 9, &mut change))
    };
    assert_eq!(refused(log, log.len() + 1, new), Err(refusal::NUMBER));
    assert_eq!(refused(&trace, log.len(), new), Err(refusal::READS));
    assert_eq!(refused(log, log.len(), new), Err(refusal::EXTENTS));
}

#[test]
fn texts() {
    let trace = long_trace();
    let (mut work, mut out, mut listing) = (vec![1; LEVEL_WORDS * MAX_DEPTH], [0; MOST_WORDS], [0; LISTING_BYTES]);
    let text = large_plan(MAX_READS).text();
    assert_eq!(with_little_stack("plan", || ffi::plan(&text, &trace, &mut work, &mut out)), Ok(MOST_WORDS));
    let text = logs::text(&trace);
    assert!(with_little_stack("list", || ffi::list(&text, &mut listing)).is_ok());
}

#[test]
fn sessions() {
    let (mut words, mut out, mut share) = (session::new(), [0; MOST_WORDS], 0.0);
    let (mut sums_read, mut slots_looked) = (0, 0);
    assert_eq!(with_little_stack("session_new", || ffi::session_new(&mut words)), Ok(session::WORDS));
    let mut read = |_: usize, extent: &u32| ffi::session_read(&mut words, *extent, &mut sums_read, &mut slots_looked);
    assert!(with_little_stack("session_read", || long_trace()[..4 * SLOTS].iter().try_fold(0, &mut read)).is_ok());
    assert_eq!(with_little_stack("session_summary", || ffi::session_summary(&words, &mut out)), Ok(MOST_WORDS));
    assert!(with_little_stack("session_misses", || ffi::session_misses(&words, 9)).is_ok());
    assert_eq!(with_little_stack("session_share", || ffi::session_share(&words, 9, &mut share)), Ok(1));
}

#[test]
fn moments() {
    let (mut words, mut names) = (session::of(&long_trace()[..4 * SLOTS]), vec![1; names::WORDS]);
    assert_eq!(with_little_stack("names_new", || ffi::names_new(&mut names)), Ok(names::WORDS));
    assert_eq!(with_little_stack("session_return", || ffi::session_return(&mut words, &names, 8)), Err(refusal::NAME));
    assert_eq!(with_little_stack("session_name", || ffi::session_name(&words, &mut names, 8)), Ok(0));
    assert_eq!(with_little_stack("session_return", || ffi::session_return(&mut words, &names, 8)), Ok(0));
    names[names::WORDS - 1] += 2 * SLOTS as u32;
    assert_eq!(with_little_stack("session_return", || ffi::session_return(&mut words, &names, 8)), Err(refusal::STATE));
    words[session::NEXT] += 2 * SLOTS as u32;
    assert_eq!(with_little_stack("session_name", || ffi::session_name(&words, &mut names, 8)), Err(refusal::STATE));
}

#[test]
fn watches() {
    let (mut words, mut share) = ([0; 4], 0.0);
    assert_eq!(with_little_stack("watch_new", || ffi::watch_new(9, &mut words)), Ok(4));
    assert_eq!(with_little_stack("watch_read", || ffi::watch_read(&mut words, COLD_BASE + 1)), Ok(0));
    assert_eq!(with_little_stack("watch_read", || ffi::watch_read(&mut words, 3)), Ok(0));
    assert_eq!(with_little_stack("watch_misses", || ffi::watch_misses(&words)), Ok(1));
    assert_eq!(with_little_stack("watch_share", || ffi::watch_share(&words, &mut share)), Ok(1));
}

/// All calls, with the test that makes them.
const CALLS: [(&str, &[&str]); 7] = [
    ("summaries", &["summarize", "join", "distances", "misses", "share", "smallest"]),
    ("splits", &["split"]),
    ("one_more_read", &["one_more"]),
    ("texts", &["plan", "list"]),
    ("sessions", &["session_new", "session_read", "session_summary", "session_misses", "session_share"]),
    ("moments", &["names_new", "session_name", "session_return"]),
    ("watches", &["watch_new", "watch_read", "watch_misses", "watch_share"]),
];

/// Whether so many bytes of stack suffice for a call in a test, which runs in a program of its own, since too few end it.
fn suffices(test: &str, call: &str, bytes: usize) -> bool {
    let mut program = Command::new(env::current_exe().expect("the path of this program"));
    program.args(["--exact", test]).env(SOUGHT, format!("{call} {bytes}"));
    program.stdout(Stdio::null()).stderr(Stdio::null()).status().expect("a run of this program").success()
}

/// The least number of pages of stack that a call in a test needs, or the least that can be tried.
fn least_pages(test: &str, call: &str) -> usize {
    let (mut short, mut enough) = (LEAST / PAGE - 1, AMPLE / PAGE);
    assert!(suffices(test, call, AMPLE), "{call} with ample stack");
    while enough - short > 1 {
        let middle = (short + enough) / 2;
        if suffices(test, call, middle * PAGE) {
            enough = middle;
        } else {
            short = middle;
        }
    }
    enough
}

#[test]
#[ignore = "seeks what the header states"]
fn the_least_stack_of_each_call() {
    let mut most = 0;
    for (test, call) in CALLS.iter().flat_map(|(test, calls)| calls.iter().map(move |call| (test, call))) {
        let bytes = PAGE * least_pages(test, call);
        println!("jemqolu_{call}: {bytes} bytes{}", if bytes == LEAST { " or less" } else { "" });
        most = most.max(bytes);
    }
    println!("all calls: {most} bytes; the header states {}", number("STACK_BYTES"));
}
