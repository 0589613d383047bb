//! The refusals by their numbers.

/// A text line with which no text of the rule can go on, or an end too early.
pub const LINE: i64 = 1;
/// An extent, a seg or a store that is too large, a watched word that is neither a distance nor a cold read, a number
/// of customers or a name that is not 1 to 8, or a place past a log's end.
pub const NUMBER: i64 = 2;
/// The segs of a plan do not add up to the log.
pub const SEGS: i64 = 3;
/// A plan text too long, a join too deep, or one part too many.
pub const PLAN: i64 = 4;
/// Words that are not a well-formed summary.
pub const SUMMARY: i64 = 5;
/// Fewer cells lent than the answer needs.
pub const ROOM: i64 = 6;
/// A session or a watch that is not sound.
pub const STATE: i64 = 7;
/// Too many reads would result.
pub const READS: i64 = 8;
/// Too many different extents would result.
pub const EXTENTS: i64 = 9;
/// The least shares add up to more than the store.
pub const SHARES: i64 = 10;
/// A return to a name that is not set.
pub const NAME: i64 = 11;
/// A number of misses allowed that is below the cold reads.
pub const MISSES: i64 = 12;
