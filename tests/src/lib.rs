//! The library as C calls it, a plain implementation of the same definitions, and the inputs that both are given.

pub mod calls;
pub mod damage;
pub mod ffi;
pub mod guard;
pub mod header;
pub mod long_logs;
pub mod made;
pub mod parts;
pub mod plain;
pub mod random;
pub mod refusal;
pub mod room;
pub mod runs;
pub mod spread;
pub mod summary_damage;
pub mod tally;

/// What a call answers, or the number of its refusal.
pub type Answer<T> = Result<T, i64>;
