//! The calls of include/jemqolu.h, on slices.

use crate::Answer;

mod raw {
    extern "C" {
        pub fn jemqolu_summarize(reads: *const u32, reads_len: usize, out: *mut u32, out_len: usize) -> i64;
        pub fn jemqolu_join(
            a: *const u32,
            a_len: usize,
            b: *const u32,
            b_len: usize,
            out: *mut u32,
            out_len: usize,
        ) -> i64;
        pub fn jemqolu_distances(
            prefix: *const u32,
            prefix_len: usize,
            reads: *const u32,
            reads_len: usize,
            out: *mut u32,
            out_len: usize,
        ) -> i64;
        pub fn jemqolu_misses(words: *const u32, words_len: usize, size: u32) -> i64;
        pub fn jemqolu_share(words: *const u32, words_len: usize, size: u32, share: *mut f64) -> i64;
        pub fn jemqolu_smallest(words: *const u32, words_len: usize, misses: u32, words_read: *mut u32) -> i64;
        pub fn jemqolu_split(
            store: u32,
            leasts: *const u32,
            leasts_len: usize,
            summaries: *const u32,
            summaries_len: usize,
            shares: *mut u32,
            shares_len: usize,
        ) -> i64;
        pub fn jemqolu_one_more(
            log: *const u32,
            log_len: usize,
            place: usize,
            extent: u32,
            size: u32,
            change: *mut i64,
        ) -> i64;
        pub fn jemqolu_plan(
            text: *const u8,
            text_len: usize,
            log: *const u32,
            log_len: usize,
            work: *mut u32,
            work_len: usize,
            out: *mut u32,
            out_len: usize,
        ) -> i64;
        pub fn jemqolu_list(text: *const u8, text_len: usize, out: *mut u8, out_len: usize) -> i64;
        pub fn jemqolu_session_new(session: *mut u32, session_len: usize) -> i64;
        pub fn jemqolu_session_read(
            session: *mut u32,
            session_len: usize,
            extent: u32,
            sums_read: *mut u32,
            slots_looked: *mut u32,
        ) -> i64;
        pub fn jemqolu_session_summary(session: *const u32, session_len: usize, out: *mut u32, out_len: usize) -> i64;
        pub fn jemqolu_session_misses(session: *const u32, session_len: usize, size: u32) -> i64;
        pub fn jemqolu_session_share(session: *const u32, session_len: usize, size: u32, share: *mut f64) -> i64;
        pub fn jemqolu_names_new(names: *mut u32, names_len: usize) -> i64;
        pub fn jemqolu_session_name(
            session: *const u32,
            session_len: usize,
            names: *mut u32,
            names_len: usize,
            name: u32,
        ) -> i64;
        pub fn jemqolu_session_return(
            session: *mut u32,
            session_len: usize,
            names: *const u32,
            names_len: usize,
            name: u32,
        ) -> i64;
        pub fn jemqolu_watch_new(size: u32, watch: *mut u32, watch_len: usize) -> i64;
        pub fn jemqolu_watch_read(watch: *mut u32, watch_len: usize, word: u32) -> i64;
        pub fn jemqolu_watch_misses(watch: *const u32, watch_len: usize) -> i64;
        pub fn jemqolu_watch_share(watch: *const u32, watch_len: usize, share: *mut f64) -> i64;
    }
}

/// An answer of 0 or more, or the number of a refusal.
fn answer(raw: i64) -> Answer<usize> {
    usize::try_from(raw).map_err(|_| -raw)
}

/// The summary of `reads`; the words written.
pub fn summarize(reads: &[u32], out: &mut [u32]) -> Answer<usize> {
    answer(unsafe { raw::jemqolu_summarize(reads.as_ptr(), reads.len(), out.as_mut_ptr(), out.len()) })
}

/// The summary of `a`, then `b`; the words written.
pub fn join(a: &[u32], b: &[u32], out: &mut [u32]) -> Answer<usize> {
    answer(unsafe { raw::jemqolu_join(a.as_ptr(), a.len(), b.as_ptr(), b.len(), out.as_mut_ptr(), out.len()) })
}

/// The words of `reads` after a prefix, each a distance or a cold read; how many are written.
pub fn distances(prefix: &[u32], reads: &[u32], out: &mut [u32]) -> Answer<usize> {
    answer(unsafe {
        raw::jemqolu_distances(prefix.as_ptr(), prefix.len(), reads.as_ptr(), reads.len(), out.as_mut_ptr(), out.len())
    })
}

/// The misses of a cache of `size` extents.
pub fn misses(words: &[u32], size: u32) -> Answer<usize> {
    answer(unsafe { raw::jemqolu_misses(words.as_ptr(), words.len(), size) })
}

/// The hit share of a cache of `size` extents; 1, or 0 where there are no reads but cold ones.
pub fn share(words: &[u32], size: u32, share: &mut f64) -> Answer<usize> {
    answer(unsafe { raw::jemqolu_share(words.as_ptr(), words.len(), size, share) })
}

/// The smallest cache that misses at most so many times; its size.
pub fn smallest(words: &[u32], misses: u32, words_read: &mut u32) -> Answer<usize> {
    answer(unsafe { raw::jemqolu_smallest(words.as_ptr(), words.len(), misses, words_read) })
}

/// The split of a store among customers; the misses in all.
pub fn split(store: u32, leasts: &[u32], summaries: &[u32], shares: &mut [u32]) -> Answer<usize> {
    answer(unsafe {
        raw::jemqolu_split(
            store,
            leasts.as_ptr(),
            leasts.len(),
            summaries.as_ptr(),
            summaries.len(),
            shares.as_mut_ptr(),
            shares.len(),
        )
    })
}

/// What a read of `extent` put in before the one at `place` does to the misses of a cache of `size` extents; 0.
pub fn one_more(log: &[u32], place: usize, extent: u32, size: u32, change: &mut i64) -> Answer<usize> {
    answer(unsafe { raw::jemqolu_one_more(log.as_ptr(), log.len(), place, extent, size, change) })
}

/// The summary of `log` by a joining plan; the words written.
pub fn plan(text: &[u8], log: &[u32], work: &mut [u32], out: &mut [u32]) -> Answer<usize> {
    answer(unsafe {
        raw::jemqolu_plan(
            text.as_ptr(),
            text.len(),
            log.as_ptr(),
            log.len(),
            work.as_mut_ptr(),
            work.len(),
            out.as_mut_ptr(),
            out.len(),
        )
    })
}

/// The listing of a log text; the bytes written.
pub fn list(text: &[u8], out: &mut [u8]) -> Answer<usize> {
    answer(unsafe { raw::jemqolu_list(text.as_ptr(), text.len(), out.as_mut_ptr(), out.len()) })
}

/// A new session; its words.
pub fn session_new(session: &mut [u32]) -> Answer<usize> {
    answer(unsafe { raw::jemqolu_session_new(session.as_mut_ptr(), session.len()) })
}

/// One more read of a session; its word.
pub fn session_read(session: &mut [u32], extent: u32, sums_read: &mut u32, slots_looked: &mut u32) -> Answer<usize> {
    answer(unsafe { raw::jemqolu_session_read(session.as_mut_ptr(), session.len(), extent, sums_read, slots_looked) })
}

/// The summary of a session's reads; the words written.
pub fn session_summary(session: &[u32], out: &mut [u32]) -> Answer<usize> {
    answer(unsafe { raw::jemqolu_session_summary(session.as_ptr(), session.len(), out.as_mut_ptr(), out.len()) })
}

/// The misses of a cache of `size` extents that reads a session's log.
pub fn session_misses(session: &[u32], size: u32) -> Answer<usize> {
    answer(unsafe { raw::jemqolu_session_misses(session.as_ptr(), session.len(), size) })
}

/// The hit share of a cache of `size` extents that reads a session's log; 1, or 0 where there are no reads but cold ones.
pub fn session_share(session: &[u32], size: u32, share: &mut f64) -> Answer<usize> {
    answer(unsafe { raw::jemqolu_session_share(session.as_ptr(), session.len(), size, share) })
}

/// Names of which none is set; their words.
pub fn names_new(names: &mut [u32]) -> Answer<usize> {
    answer(unsafe { raw::jemqolu_names_new(names.as_mut_ptr(), names.len()) })
}

/// A session put under a name; 0.
pub fn session_name(session: &[u32], names: &mut [u32], name: u32) -> Answer<usize> {
    answer(unsafe { raw::jemqolu_session_name(session.as_ptr(), session.len(), names.as_mut_ptr(), names.len(), name) })
}

/// A return to the session under a name; 0.
pub fn session_return(session: &mut [u32], names: &[u32], name: u32) -> Answer<usize> {
    answer(unsafe {
        raw::jemqolu_session_return(session.as_mut_ptr(), session.len(), names.as_ptr(), names.len(), name)
    })
}

/// A new watch on a cache of `size` extents; its words.
pub fn watch_new(size: u32, watch: &mut [u32]) -> Answer<usize> {
    answer(unsafe { raw::jemqolu_watch_new(size, watch.as_mut_ptr(), watch.len()) })
}

/// One more read's word for a watch; 0.
pub fn watch_read(watch: &mut [u32], word: u32) -> Answer<usize> {
    answer(unsafe { raw::jemqolu_watch_read(watch.as_mut_ptr(), watch.len(), word) })
}

/// The misses so far.
pub fn watch_misses(watch: &[u32]) -> Answer<usize> {
    answer(unsafe { raw::jemqolu_watch_misses(watch.as_ptr(), watch.len()) })
}

/// The hit share so far; 1, or 0 where there are no reads but cold ones.
pub fn watch_share(watch: &[u32], share: &mut f64) -> Answer<usize> {
    answer(unsafe { raw::jemqolu_watch_share(watch.as_ptr(), watch.len(), share) })
}
