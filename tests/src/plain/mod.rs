//! The definitions as plain code: slow, short, and written from the requirements alone.

pub mod cache;
pub mod forms;
pub mod full_session;
pub mod last_slots;
pub mod logs;
pub mod moments;
pub mod names;
pub mod one_more;
pub mod plans;
pub mod session;
pub mod smallest;
pub mod split_tables;
pub mod splits;
pub mod summary;
pub mod texts;
pub mod trace;
pub mod watch;

/// The most reads of a log.
pub const MAX_READS: u64 = 1_048_576;
/// The most different extents of a log.
pub const MAX_EXTENTS: usize = 1024;

/// A cold read is written as this plus its number: how many different extents the log has had, its own included.
pub const COLD_BASE: u32 = 65_536;

/// Hits divided by the reads that some size could have served, which are the reads that are not cold; none where there are
/// no such reads.
pub fn hit_share(hits: u64, servable: u64) -> Option<f64> {
    (servable > 0).then(|| hits as f64 / servable as f64)
}
