//! The calls on guarded memory. Each one fails where the library changes an input, a guard, a cell past its answer, or
//! on a refusal anything at all.

use crate::guard::{Cell, Lent};
use crate::plain::names;
use crate::plain::plans::{Carried, LEVEL_WORDS};
use crate::plain::session::{self, Reading};
use crate::plain::smallest::Smallest;
use crate::plain::splits::Split;
use crate::plain::watch;
use crate::{ffi, Answer};

/// What a call wrote to `out`, or its refusal.
#[track_caller]
fn written<T: Cell>(answer: Answer<usize>, out: &Lent<T>) -> Answer<Vec<T>> {
    out.written(answer.unwrap_or(0));
    answer.map(|len| out.written(len).to_vec())
}

/// A hit share, or none where there are no reads but cold ones; `lent` is the place for it.
#[track_caller]
fn shared(answer: Answer<usize>, lent: &Lent<f64>) -> Answer<Option<f64>> {
    let count = answer.unwrap_or(0);
    let share = lent.written(count).first().copied();
    answer.map(|_| share)
}

/// The summary of a trace, in a buffer of `room` words.
#[track_caller]
pub fn summarize(reads: &[u32], room: usize) -> Answer<Vec<u32>> {
    let (reads, mut out) = (Lent::holding(reads), Lent::room(room));
    let answer = ffi::summarize(reads.cells(), out.cells_mut());
    reads.assert_kept();
    written(answer, &out)
}

/// The join of two summaries, in a buffer of `room` words.
#[track_caller]
pub fn join(a: &[u32], b: &[u32], room: usize) -> Answer<Vec<u32>> {
    let (a, b, mut out) = (Lent::holding(a), Lent::holding(b), Lent::room(room));
    let answer = ffi::join(a.cells(), b.cells(), out.cells_mut());
    a.assert_kept();
    b.assert_kept();
    written(answer, &out)
}

/// The words of a part's reads after a prefix, in a buffer of `room` words.
#[track_caller]
pub fn distances(prefix: &[u32], reads: &[u32], room: usize) -> Answer<Vec<u32>> {
    let (prefix, reads, mut out) = (Lent::holding(prefix), Lent::holding(reads), Lent::room(room));
    let answer = ffi::distances(prefix.cells(), reads.cells(), out.cells_mut());
    prefix.assert_kept();
    reads.assert_kept();
    written(answer, &out)
}

/// The misses of a summary at a size.
#[track_caller]
pub fn misses(words: &[u32], size: u32) -> Answer<u64> {
    let words = Lent::holding(words);
    let answer = ffi::misses(words.cells(), size);
    words.assert_kept();
    answer.map(|misses| misses as u64)
}

/// The hit share of a summary at a size.
#[track_caller]
pub fn share(words: &[u32], size: u32) -> Answer<Option<f64>> {
    let (words, mut share) = (Lent::holding(words), Lent::room(1));
    let answer = ffi::share(words.cells(), size, &mut share.cells_mut()[0]);
    words.assert_kept();
    shared(answer, &share)
}

/// The smallest cache that misses at most so many times, and the words of H read.
#[track_caller]
pub fn smallest(words: &[u32], misses: u32) -> Answer<Smallest> {
    let (words, mut words_read) = (Lent::holding(words), Lent::room(1));
    let answer = ffi::smallest(words.cells(), misses, &mut words_read.cells_mut()[0]);
    words.assert_kept();
    let read = written(answer.map(|_| 1), &words_read);
    read.and_then(|read| answer.map(|size| Smallest { size, words_read: read[0] }))
}

/// The split of a store, in a buffer of `room` words.
#[track_caller]
pub fn split(store: u32, leasts: &[u32], summaries: &[u32], room: usize) -> Answer<Split> {
    let (leasts, summaries, mut shares) = (Lent::holding(leasts), Lent::holding(summaries), Lent::room(room));
    let answer = ffi::split(store, leasts.cells(), summaries.cells(), shares.cells_mut());
    leasts.assert_kept();
    summaries.assert_kept();
    let count = answer.map(|_| leasts.cells().len());
    written(count, &shares).and_then(|shares| answer.map(|misses| Split { misses: misses as u64, shares }))
}

/// What one more read does to the misses at a size.
#[track_caller]
pub fn one_more(log: &[u32], place: usize, extent: u32, size: u32) -> Answer<i64> {
    let (log, mut change) = (Lent::holding(log), Lent::room(1));
    let answer = ffi::one_more(log.cells(), place, extent, size, &mut change.cells_mut()[0]);
    log.assert_kept();
    assert_eq!(answer.unwrap_or(0), 0, "the answer of a call that is done");
    written(answer.map(|_| 1), &change).map(|cells| cells[0])
}

/// A plan carried out, in so many work words and a buffer of `room` words.
#[track_caller]
pub fn plan(text: &[u8], log: &[u32], work: usize, room: usize) -> Answer<Carried> {
    let (text, log) = (Lent::holding(text), Lent::holding(log));
    let (mut work, mut out) = (Lent::<u32>::room(work), Lent::room(room));
    let answer = ffi::plan(text.cells(), log.cells(), work.cells_mut(), out.cells_mut());
    text.assert_kept();
    log.assert_kept();
    let cleared = work.cells().iter().take_while(|word| **word == 0).count();
    work.written(if answer.is_ok() { cleared } else { 0 });
    assert_eq!(cleared % LEVEL_WORDS, 0, "work words cleared to the middle of a level");
    written(answer, &out).map(|words| Carried { words, cleared })
}

/// The listing of a log text, in a buffer of `room` bytes.
#[track_caller]
pub fn list(text: &[u8], room: usize) -> Answer<Vec<u8>> {
    let (text, mut out) = (Lent::holding(text), Lent::room(room));
    let answer = ffi::list(text.cells(), out.cells_mut());
    text.assert_kept();
    written(answer, &out)
}

/// A new session in a buffer of `room` words.
#[track_caller]
pub fn session_new(room: usize) -> Answer<Vec<u32>> {
    let mut session = Lent::room(room);
    let answer = ffi::session_new(session.cells_mut());
    written(answer, &session)
}

/// One more read of a session, which is changed there.
#[track_caller]
pub fn session_read(words: &mut [u32], extent: u32) -> Answer<Reading> {
    let (mut session, mut sums_read, mut slots_looked) = (Lent::holding(words), Lent::room(1), Lent::room(1));
    let places = (&mut sums_read.cells_mut()[0], &mut slots_looked.cells_mut()[0]);
    let answer = ffi::session_read(session.cells_mut(), extent, places.0, places.1);
    match answer {
        Ok(word) => {
            words[..session::WORDS].copy_from_slice(session.written(session::WORDS));
            Ok(Reading { word, sums_read: sums_read.written(1)[0], slots_looked: slots_looked.written(1)[0] })
        }
        Err(number) => {
            session.assert_kept();
            sums_read.assert_kept();
            slots_looked.assert_kept();
            Err(number)
        }
    }
}

/// The summary of a session's reads, in a buffer of `room` words.
#[track_caller]
pub fn session_summary(session: &[u32], room: usize) -> Answer<Vec<u32>> {
    let (session, mut out) = (Lent::holding(session), Lent::room(room));
    let answer = ffi::session_summary(session.cells(), out.cells_mut());
    session.assert_kept();
    written(answer, &out)
}

/// The misses of a session at a size.
#[track_caller]
pub fn session_misses(session: &[u32], size: u32) -> Answer<u64> {
    let session = Lent::holding(session);
    let answer = ffi::session_misses(session.cells(), size);
    session.assert_kept();
    answer.map(|misses| misses as u64)
}

/// The hit share of a session at a size.
#[track_caller]
pub fn session_share(session: &[u32], size: u32) -> Answer<Option<f64>> {
    let (session, mut share) = (Lent::holding(session), Lent::room(1));
    let answer = ffi::session_share(session.cells(), size, &mut share.cells_mut()[0]);
    session.assert_kept();
    shared(answer, &share)
}

/// Names of which none is set, in a buffer of `room` words.
#[track_caller]
pub fn names_new(room: usize) -> Answer<Vec<u32>> {
    let mut names = Lent::room(room);
    let answer = ffi::names_new(names.cells_mut());
    written(answer, &names)
}

/// A session put under a name, whose place is changed there.
#[track_caller]
pub fn session_name(session: &[u32], words: &mut [u32], name: u32) -> Answer<u64> {
    let (session, mut names) = (Lent::holding(session), Lent::holding(words));
    let answer = ffi::session_name(session.cells(), names.cells_mut(), name);
    session.assert_kept();
    match answer {
        Ok(_) => words[names::place(name)].copy_from_slice(names.written_at(names::place(name))),
        Err(_) => names.assert_kept(),
    }
    answer.map(|value| value as u64)
}

/// A return to the session under a name, which comes to the front of the words.
#[track_caller]
pub fn session_return(words: &mut [u32], names: &[u32], name: u32) -> Answer<u64> {
    let (mut session, names) = (Lent::holding(words), Lent::holding(names));
    let answer = ffi::session_return(session.cells_mut(), names.cells(), name);
    names.assert_kept();
    match answer {
        Ok(_) => words[..session::WORDS].copy_from_slice(session.written(session::WORDS)),
        Err(_) => session.assert_kept(),
    }
    answer.map(|value| value as u64)
}

/// A new watch in a buffer of `room` words.
#[track_caller]
pub fn watch_new(size: u32, room: usize) -> Answer<Vec<u32>> {
    let mut watch = Lent::room(room);
    let answer = ffi::watch_new(size, watch.cells_mut());
    written(answer, &watch)
}

/// One more read's word for a watch, which is changed there.
#[track_caller]
pub fn watch_read(words: &mut [u32], word: u32) -> Answer<u64> {
    let mut watch = Lent::holding(words);
    let answer = ffi::watch_read(watch.cells_mut(), word);
    match answer {
        Ok(_) => words[..watch::WORDS].copy_from_slice(watch.written(watch::WORDS)),
        Err(_) => watch.assert_kept(),
    }
    answer.map(|value| value as u64)
}

/// The misses of a watch.
#[track_caller]
pub fn watch_misses(watch: &[u32]) -> Answer<u64> {
    let watch = Lent::holding(watch);
    let answer = ffi::watch_misses(watch.cells());
    watch.assert_kept();
    answer.map(|misses| misses as u64)
}

/// The hit share of a watch.
#[track_caller]
pub fn watch_share(watch: &[u32]) -> Answer<Option<f64>> {
    let (watch, mut share) = (Lent::holding(watch), Lent::room(1));
    let answer = ffi::watch_share(watch.cells(), &mut share.cells_mut()[0]);
    watch.assert_kept();
    shared(answer, &share)
}
