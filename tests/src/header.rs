//! The header for C, as text.

/// The whole text.
pub const HEADER: &str = include_str!("../../include/jemqolu.h");

/// The number that the header defines JEMQOLU_`name` to be.
#[track_caller]
pub fn number(name: &str) -> u64 {
    let line = HEADER.lines().find_map(|line| line.strip_prefix(&format!("#define JEMQOLU_{name} ")));
    let number = line.and_then(|line| line.split_whitespace().next());
    number.and_then(|number| number.parse().ok()).unwrap_or_else(|| panic!("no number {name} in the header"))
}
