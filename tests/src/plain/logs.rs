//! Log texts: the reader, and the listing.

use super::trace::{self, Stack};
use super::{texts, MAX_EXTENTS, MAX_READS};
use crate::{refusal, Answer};

/// Bytes that any listing fits into: the lines before the rows of all sizes, and these rows.
pub const LISTING_BYTES: usize = 64 + 23 * MAX_EXTENTS;

/// The text of a log.
pub fn text(trace: &[u32]) -> Vec<u8> {
    let Some((last, front)) = trace.split_last() else { return b"(trace)\n".to_vec() };
    let mut text = String::from("(trace\n");
    for extent in front {
        text += &format!(" (read {extent})\n");
    }
    text += &format!(" (read {last}))\n");
    text.into_bytes()
}

/// A log text read so far.
struct Reader {
    begun: bool,
    whole: bool,
    trace: Vec<u32>,
    extents: Vec<u32>,
}

impl Reader {
    /// One more line of the text.
    fn line(&mut self, line: &[u8]) -> Answer<()> {
        if self.whole {
            return Err(refusal::LINE);
        }
        if !self.begun {
            self.begun = true;
            self.whole = line == b"(trace)";
            return if self.whole || line == b"(trace" { Ok(()) } else { Err(refusal::LINE) };
        }
        let form = texts::indented(line, 1).ok_or(refusal::LINE)?;
        let (extent, closing) = texts::numbered(form, "read").ok_or(refusal::LINE)?;
        if closing > 1 {
            return Err(refusal::LINE);
        }
        let extent = u32::try_from(extent).map_err(|_| refusal::NUMBER)?;
        self.read(extent)?;
        self.whole = closing == 1;
        Ok(())
    }

    /// One more read of the log.
    fn read(&mut self, extent: u32) -> Answer<()> {
        if self.trace.len() as u64 + 1 > MAX_READS {
            return Err(refusal::READS);
        }
        if !self.extents.contains(&extent) {
            if self.extents.len() + 1 > MAX_EXTENTS {
                return Err(refusal::EXTENTS);
            }
            self.extents.push(extent);
        }
        self.trace.push(extent);
        Ok(())
    }
}

/// The log of a text, or the refusal of its earliest faulty line.
pub fn read(text: &[u8]) -> Answer<Vec<u32>> {
    let (lines, rest) = texts::lines(text);
    let mut reader = Reader { begun: false, whole: false, trace: Vec::new(), extents: Vec::new() };
    for line in lines {
        reader.line(line)?;
    }
    if reader.whole && rest.is_empty() {
        Ok(reader.trace)
    } else {
        Err(refusal::LINE)
    }
}

/// The listing of a log.
pub fn listing(trace: &[u32]) -> Vec<u8> {
    let mut words = Stack(Vec::new()).distances(trace);
    words.sort_unstable();
    let cold = words.iter().filter(|word| trace::is_cold(**word)).count();
    let mut rows = vec![format!("(reads {})", trace.len()), format!("(cold {cold})")];
    for size in 1..=trace::firsts(trace).len() as u32 {
        // the words of cold reads are the largest, so the hits come first
        let hits = words.partition_point(|word| trace::is_hit(*word, size));
        rows.push(format!("(at {size} {})", words.len() - hits));
    }
    format!("(sizing\n {})\n", rows.join("\n ")).into_bytes()
}

/// The call for the listing of a log text.
pub fn list(text: &[u8]) -> Answer<Vec<u8>> {
    read(text).map(|trace| listing(&trace))
}
