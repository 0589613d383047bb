//! The header: its calls are those declared in `ffi`, and its limits and refusals those of the definitions.

use jemqolu_tests::header::{number, HEADER};
use jemqolu_tests::plain::session::{self, COUNT, COUNTS, FIRSTS, NEXT, POINTS, READS, RIGHTS, SLOT, SLOTS};
use jemqolu_tests::plain::{logs, names, plans, splits, summary, watch, COLD_BASE, MAX_EXTENTS, MAX_READS};
use jemqolu_tests::refusal;

/// A number below a million as the header's text writes it.
fn with_comma(number: usize) -> String {
    match (number / 1000, number % 1000) {
        (0, ones) => ones.to_string(),
        (thousands, ones) => format!("{thousands},{ones:03}"),
    }
}

/// The declarations as they stand in the header, line ends and indents aside.
const CALLS: [&str; 22] = [
    "jemqolu_summarize(const uint32_t *reads, size_t reads_len, uint32_t *out, size_t out_len)",
    "jemqolu_join(const uint32_t *a, size_t a_len, const uint32_t *b, size_t b_len, uint32_t *out, size_t out_len)",
    "jemqolu_distances(const uint32_t *prefix, size_t prefix_len, const uint32_t *reads, size_t reads_len, \
     uint32_t *out, size_t out_len)",
    "jemqolu_misses(const uint32_t *words, size_t words_len, uint32_t size)",
    "jemqolu_share(const uint32_t *words, size_t words_len, uint32_t size, double *share)",
    "jemqolu_smallest(const uint32_t *words, size_t words_len, uint32_t misses, uint32_t *words_read)",
    "jemqolu_split(uint32_t store, const uint32_t *leasts, size_t leasts_len, \
     const uint32_t *summaries, size_t summaries_len, uint32_t *shares, size_t shares_len)",
    "jemqolu_one_more(const uint32_t *log, size_t log_len, size_t place, uint32_t extent, uint32_t size, \
     int64_t *change)",
    "jemqolu_plan(const uint8_t *text, size_t text_len, const uint32_t *log, size_t log_len, \
     uint32_t *work, size_t work_len, uint32_t *out, size_t out_len)",
    "jemqolu_list(const uint8_t *text, size_t text_len, uint8_t *out, size_t out_len)",
    "jemqolu_session_new(uint32_t *session, size_t session_len)",
    "jemqolu_session_read(uint32_t *session, size_t session_len, uint32_t extent, \
     uint32_t *sums_read, uint32_t *slots_looked)",
    "jemqolu_session_summary(const uint32_t *session, size_t session_len, uint32_t *out, size_t out_len)",
    "jemqolu_session_misses(const uint32_t *session, size_t session_len, uint32_t size)",
    "jemqolu_session_share(const uint32_t *session, size_t session_len, uint32_t size, double *share)",
    "jemqolu_names_new(uint32_t *names, size_t names_len)",
    "jemqolu_session_name(const uint32_t *session, size_t session_len, \
     uint32_t *names, size_t names_len, uint32_t name)",
    "jemqolu_session_return(uint32_t *session, size_t session_len, \
     const uint32_t *names, size_t names_len, uint32_t name)",
    "jemqolu_watch_new(uint32_t size, uint32_t *watch, size_t watch_len)",
    "jemqolu_watch_read(uint32_t *watch, size_t watch_len, uint32_t word)",
    "jemqolu_watch_misses(const uint32_t *watch, size_t watch_len)",
    "jemqolu_watch_share(const uint32_t *watch, size_t watch_len, double *share)",
];

#[test]
fn the_header_declares_these_calls_and_no_others() {
    let one_line = |text: &str| text.split_whitespace().collect::<Vec<&str>>().join(" ");
    let declared = HEADER.split("\nint64_t ").skip(1).map(|rest| one_line(&rest[..rest.find(';').unwrap()]));
    assert_eq!(declared.collect::<Vec<String>>(), CALLS);
}

#[test]
fn the_header_has_the_limits_of_the_definitions() {
    assert_eq!(number("MAX_READS"), MAX_READS);
    assert_eq!(number("MAX_EXTENTS"), MAX_EXTENTS as u64);
    assert_eq!(number("MAX_PLAN_BYTES"), plans::MAX_BYTES as u64);
    assert_eq!(number("MAX_JOINS"), plans::MAX_DEPTH as u64);
    assert_eq!(number("MAX_PARTS"), plans::MAX_PARTS as u64);
    assert_eq!(number("MAX_SEG"), MAX_READS);
    assert_eq!(number("MAX_STORE"), u64::from(splits::MAX_STORE));
    assert_eq!(number("MAX_CUSTOMERS"), splits::MAX_CUSTOMERS as u64);
    assert_eq!(number("MAX_NAMES"), u64::from(names::MAX_NAMES));
    assert_eq!(number("COLD_BASE"), u64::from(COLD_BASE));
    assert_eq!(number("SUMMARY_WORDS"), summary::MOST_WORDS as u64);
    assert_eq!(number("LEVEL_WORDS"), plans::LEVEL_WORDS as u64);
    assert_eq!(number("WORK_WORDS"), (plans::LEVEL_WORDS * plans::MAX_DEPTH) as u64);
    assert_eq!(number("SESSION_WORDS"), session::WORDS as u64);
    assert_eq!(number("WATCH_WORDS"), watch::WORDS as u64);
    assert_eq!(number("NAME_WORDS"), names::NAME_WORDS as u64);
    assert_eq!(number("NAMES_WORDS"), names::WORDS as u64);
    let longest_row = format!(" (at {MAX_EXTENTS} {MAX_READS})\n").len();
    assert!(logs::LISTING_BYTES >= (MAX_EXTENTS + 3) * longest_row);
    assert_eq!(number("LISTING_BYTES"), logs::LISTING_BYTES as u64);
}

#[test]
fn the_header_has_the_words_of_a_session() {
    let has = |words: &str, what: &str| {
        let line = HEADER.lines().find_map(|line| line.strip_prefix(&format!(" *   {words} ")));
        assert!(line.is_some_and(|line| line.trim_start().starts_with(what)), "{words}: {what}");
    };
    let [of_firsts, of_counts, of_slots, of_rights] =
        [FIRSTS, COUNTS, SLOT, RIGHTS].map(|range| format!("words {}..{}", range.start, range.end - 1));
    has(&format!("word {READS}"), "L,");
    has(&of_firsts, "F,");
    has(&of_counts, &format!("H, word {} + d ", with_comma(COUNTS.start - 1)));
    has(&of_slots, &format!("{} slots:", with_comma(SLOTS)));
    has(&format!("word {COUNT}"), "the count of all marks:");
    let point = "one for each branching point of the binary tree over the slots:";
    let first = with_comma(RIGHTS.start);
    has(&of_rights, &format!("{} right-hand sums, {point} word {first} + p has", with_comma(POINTS)));
    has(&format!("word {NEXT}"), "the next slot");
}

#[test]
fn the_header_numbers_the_branching_points() {
    let bare = HEADER.lines().map(|line| line.trim_start_matches([' ', '*', '/']));
    let text = bare.collect::<Vec<&str>>().join(" ");
    let slots = with_comma(SLOTS);
    for said in [
        "has the marks under the right child of point p.",
        "The lowest points come first, then each level above them, the root last:",
        "the children of point p are 2p, the left one, and 2p + 1,",
        &format!("a number below {slots} being that of a slot, {slots} + q that of point q"),
        &format!("A new session. Lent: {} words.", with_comma(session::WORDS)),
        &format!("Names of which none is set. Lent: {} words,", with_comma(names::WORDS)),
    ] {
        assert!(text.contains(said), "{said}");
    }
}

#[test]
fn the_header_names_the_refusals() {
    let named = |name: &str| -> i64 {
        let start = format!("JEMQOLU_REFUSED_{name} = ");
        let line = HEADER.lines().find_map(|line| line.trim_start().strip_prefix(&start));
        let digits = line.and_then(|line| line.split([',', ' ']).next());
        digits.and_then(|digits| digits.parse().ok()).unwrap_or_else(|| panic!("no refusal {name} in the header"))
    };
    assert_eq!(["LINE", "NUMBER", "SEGS"].map(named), [refusal::LINE, refusal::NUMBER, refusal::SEGS]);
    assert_eq!(["PLAN", "SUMMARY", "ROOM"].map(named), [refusal::PLAN, refusal::SUMMARY, refusal::ROOM]);
    assert_eq!(["STATE", "READS", "EXTENTS"].map(named), [refusal::STATE, refusal::READS, refusal::EXTENTS]);
    assert_eq!(["SHARES", "NAME", "MISSES"].map(named), [refusal::SHARES, refusal::NAME, refusal::MISSES]);
    assert_eq!(HEADER.matches("    JEMQOLU_REFUSED_").count(), 12);
}
