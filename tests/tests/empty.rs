//! Slices of length 0 whose pointer points at nothing.

use jemqolu_tests::plain::names::NAME_WORDS;
use jemqolu_tests::plain::session;
use jemqolu_tests::{ffi, refusal};

#[test]
fn a_slice_of_no_words_may_have_any_pointer() {
    let (mut share, mut sums_read, mut slots_looked, mut words_read) = (2.5, 77, 78, 79);
    let mut out = [9; 3];
    assert_eq!(ffi::summarize(&[], &mut out), Ok(2));
    assert_eq!(out, [0, 0, 9]);
    assert_eq!(ffi::summarize(&[], &mut []), Err(refusal::ROOM));
    assert_eq!(ffi::join(&[], &[], &mut []), Err(refusal::SUMMARY));
    assert_eq!(ffi::join(&[0, 0], &[], &mut []), Err(refusal::SUMMARY));
    assert_eq!(ffi::join(&[0, 0], &[0, 0], &mut []), Err(refusal::ROOM));
    assert_eq!(ffi::distances(&[], &[], &mut []), Err(refusal::SUMMARY));
    assert_eq!(ffi::distances(&[0, 0], &[], &mut []), Ok(0));
    assert_eq!(ffi::distances(&[0, 0], &[4], &mut []), Err(refusal::ROOM));
    assert_eq!(ffi::misses(&[], 1), Err(refusal::SUMMARY));
    assert_eq!(ffi::share(&[], 1, &mut share), Err(refusal::SUMMARY));
    assert_eq!(ffi::smallest(&[], 0, &mut words_read), Err(refusal::SUMMARY));
    assert_eq!(ffi::smallest(&[], u32::MAX, &mut words_read), Err(refusal::SUMMARY));
    assert_eq!(ffi::split(0, &[], &[], &mut []), Err(refusal::NUMBER));
    assert_eq!(ffi::split(0, &[0], &[], &mut []), Err(refusal::SUMMARY));
    assert_eq!(ffi::split(0, &[1], &[0, 0], &mut []), Err(refusal::SHARES));
    assert_eq!(ffi::split(0, &[0], &[0, 0], &mut []), Err(refusal::ROOM));
    assert_eq!(ffi::session_new(&mut []), Err(refusal::ROOM));
    assert_eq!(ffi::session_read(&mut [], 1, &mut sums_read, &mut slots_looked), Err(refusal::STATE));
    assert_eq!(ffi::session_summary(&[], &mut []), Err(refusal::STATE));
    assert_eq!(ffi::session_summary(&session::new(), &mut []), Err(refusal::ROOM));
    assert_eq!(ffi::session_misses(&[], 1), Err(refusal::STATE));
    assert_eq!(ffi::session_share(&[], 1, &mut share), Err(refusal::STATE));
    assert_eq!(ffi::session_misses(&session::new(), 1), Ok(0));
    assert_eq!(ffi::session_share(&session::new(), 1, &mut share), Ok(0));
    assert_eq!(ffi::names_new(&mut []), Err(refusal::ROOM));
    assert_eq!(ffi::session_name(&[], &mut [], 9), Err(refusal::NUMBER));
    assert_eq!(ffi::session_name(&[], &mut [], 1), Err(refusal::STATE));
    assert_eq!(ffi::session_name(&session::new(), &mut [], 1), Err(refusal::ROOM));
    assert_eq!(ffi::session_return(&mut [], &[], 0), Err(refusal::NUMBER));
    assert_eq!(ffi::session_return(&mut [], &[], 8), Err(refusal::NAME));
    assert_eq!(ffi::session_return(&mut [], &[0; NAME_WORDS], 1), Err(refusal::NAME));
    assert_eq!(ffi::session_return(&mut [], &[1; NAME_WORDS], 1), Err(refusal::STATE));
    assert_eq!(ffi::session_return(&mut [], &[&[1][..], &session::new()].concat(), 1), Err(refusal::ROOM));
    assert_eq!(ffi::watch_new(1, &mut []), Err(refusal::ROOM));
    assert_eq!(ffi::watch_read(&mut [], 1), Err(refusal::STATE));
    assert_eq!(ffi::watch_misses(&[]), Err(refusal::STATE));
    assert_eq!(ffi::watch_share(&[], &mut share), Err(refusal::STATE));
    assert_eq!((share, sums_read, slots_looked, words_read), (2.5, 77, 78, 79));
}

#[test]
fn a_log_of_no_reads_may_have_any_pointer() {
    let mut change = 79;
    for place in [1, 2, usize::MAX] {
        assert_eq!(ffi::one_more(&[], place, 5, 3, &mut change), Err(refusal::NUMBER));
    }
    assert_eq!(change, 79);
    assert_eq!(ffi::one_more(&[], 0, 5, 3, &mut change), Ok(0));
    assert_eq!(change, 1);
}

#[test]
fn a_slice_of_no_bytes_may_have_any_pointer() {
    let mut out = [9; 3];
    assert_eq!(ffi::plan(&[], &[], &mut [], &mut []), Err(refusal::LINE));
    assert_eq!(ffi::plan(b"(seg 0)\n", &[], &mut [], &mut []), Err(refusal::ROOM));
    assert_eq!(ffi::plan(b"(seg 0)\n", &[], &mut [], &mut out), Ok(2));
    assert_eq!(out, [0, 0, 9]);
    assert_eq!(ffi::list(&[], &mut []), Err(refusal::LINE));
    assert_eq!(ffi::list(b"(trace)\n", &mut []), Err(refusal::ROOM));
}
