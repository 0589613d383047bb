//! Comparisons, counted.

use std::fmt::Debug;

/// The comparisons of one test, counted so that a loop that never runs is seen.
pub struct Tally {
    topic: &'static str,
    made: u64,
}

impl Tally {
    pub fn new(topic: &'static str) -> Self {
        Tally { topic, made: 0 }
    }

    /// One comparison of the library's answer for `input` with the one wanted.
    #[track_caller]
    pub fn same<T: PartialEq + Debug>(&mut self, got: T, wanted: T, input: &dyn Debug) {
        self.made += 1;
        assert!(
            got == wanted,
            "{}: got {}, wanted {}, for {}",
            self.topic,
            shortened(&got),
            shortened(&wanted),
            shortened(input)
        );
    }

    /// Ends the count; fails where it is below what the test sets out to make.
    #[track_caller]
    pub fn at_least(self, least: u64) {
        println!("{}: {} comparisons", self.topic, self.made);
        assert!(self.made >= least, "{}: only {} comparisons of {least}", self.topic, self.made);
    }
}

/// The printed form, its middle left out where it is long.
fn shortened(value: &dyn Debug) -> String {
    let text = format!("{value:?}");
    let chars = text.chars().count();
    if chars <= 3000 {
        return text;
    }
    let front: String = text.chars().take(2000).collect();
    let back: String = text.chars().skip(chars - 1000).collect();
    format!("{front} .. {back}")
}
