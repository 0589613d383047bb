//! Joining plans: their text, the reader of it, and how they are carried out.

use super::{summary, texts, trace, MAX_EXTENTS, MAX_READS};
use crate::{refusal, Answer};

/// The work words of each level of joins: two summaries.
pub const LEVEL_WORDS: usize = 2 * summary::MOST_WORDS;
/// The most bytes of a plan text.
pub const MAX_BYTES: usize = 65_536;
/// The most joins open together.
pub const MAX_DEPTH: usize = 8;
/// The most parts of a join.
pub const MAX_PARTS: usize = 16;

/// A joining plan.
#[derive(Clone, PartialEq, Eq, Debug)]
pub enum Plan {
    /// The next so many reads of the log.
    Seg(u64),
    /// Two or more plans, joined from left to right.
    Join(Vec<Plan>),
}

/// A plan carried out: the summary written, and the work words that are 0 afterwards.
#[derive(Clone, PartialEq, Eq, Debug)]
pub struct Carried {
    pub words: Vec<u32>,
    pub cleared: usize,
}

impl Plan {
    /// The largest number of joins open together.
    pub fn depth(&self) -> usize {
        match self {
            Plan::Seg(_) => 0,
            Plan::Join(parts) => 1 + parts.iter().map(Plan::depth).max().unwrap_or(0),
        }
    }

    /// The reads of all segs.
    pub fn reads(&self) -> u64 {
        match self {
            Plan::Seg(reads) => *reads,
            Plan::Join(parts) => parts.iter().map(Plan::reads).sum(),
        }
    }

    /// The text of the plan.
    pub fn text(&self) -> Vec<u8> {
        self.lines(0, 0).into_bytes()
    }

    /// The plan's lines under so many open joins, of which `closing` end with it.
    fn lines(&self, open: usize, closing: usize) -> String {
        let indent = " ".repeat(open);
        match self {
            Plan::Seg(reads) => format!("{indent}(seg {reads}){}\n", ")".repeat(closing)),
            Plan::Join(parts) => {
                let last = parts.len() - 1;
                let closing = |part: usize| if part == last { closing + 1 } else { 0 };
                let inner = parts.iter().enumerate().map(|(place, part)| part.lines(open + 1, closing(place)));
                format!("{indent}(join\n{}", inner.collect::<String>())
            }
        }
    }

    /// The summary of the next reads of a log, which are taken from it.
    fn carried(&self, log: &mut &[u32]) -> Vec<u32> {
        match self {
            Plan::Seg(reads) => {
                let (part, rest) = log.split_at(*reads as usize);
                *log = rest;
                summary::of(part)
            }
            Plan::Join(parts) => {
                let mut joined = parts[0].carried(log);
                for part in &parts[1..] {
                    joined = summary::join(&joined, &part.carried(log)).expect("a join within the limits");
                }
                joined
            }
        }
    }
}

/// A plan text read so far: the parts of each open join, and the whole plan once it is there.
struct Reader {
    open: Vec<Vec<Plan>>,
    parts_begun: Vec<usize>,
    whole: Option<Plan>,
}

impl Reader {
    /// One more line of the text.
    fn line(&mut self, line: &[u8]) -> Answer<()> {
        if self.whole.is_some() {
            return Err(refusal::LINE);
        }
        let form = texts::indented(line, self.open.len()).ok_or(refusal::LINE)?;
        if form == b"(join" {
            self.begin()?;
            if self.open.len() == MAX_DEPTH {
                return Err(refusal::PLAN);
            }
            self.open.push(Vec::new());
            self.parts_begun.push(0);
            return Ok(());
        }
        let (reads, closing) = texts::numbered(form, "seg").ok_or(refusal::LINE)?;
        if !self.can_close(closing) {
            return Err(refusal::LINE);
        }
        if reads > MAX_READS {
            return Err(refusal::NUMBER);
        }
        self.begin()?;
        self.end(Plan::Seg(reads), closing);
        Ok(())
    }

    /// Whether so many joins may end with a seg: each has two parts or more, the seg among the innermost one's.
    fn can_close(&self, closing: usize) -> bool {
        let open = self.open.len();
        let parts = |join: usize| self.parts_begun[join] + usize::from(join + 1 == open);
        closing <= open && (open - closing..open).all(|join| parts(join) >= 2)
    }

    /// Begins a part of the innermost join.
    fn begin(&mut self) -> Answer<()> {
        let Some(parts) = self.parts_begun.last_mut() else { return Ok(()) };
        if *parts == MAX_PARTS {
            return Err(refusal::PLAN);
        }
        *parts += 1;
        Ok(())
    }

    /// Ends a part, and so many joins with it.
    fn end(&mut self, part: Plan, closing: usize) {
        let mut part = part;
        for _ in 0..closing {
            let mut parts = self.open.pop().expect("an open join");
            self.parts_begun.pop();
            parts.push(part);
            part = Plan::Join(parts);
        }
        match self.open.last_mut() {
            Some(parts) => parts.push(part),
            None => self.whole = Some(part),
        }
    }
}

/// The plan of a text, or the refusal of its earliest faulty line.
pub fn read(text: &[u8]) -> Answer<Plan> {
    if text.len() > MAX_BYTES {
        return Err(refusal::PLAN);
    }
    let (lines, rest) = texts::lines(text);
    let mut reader = Reader { open: Vec::new(), parts_begun: Vec::new(), whole: None };
    for line in lines {
        reader.line(line)?;
    }
    if rest.is_empty() {
        reader.whole.ok_or(refusal::LINE)
    } else {
        Err(refusal::LINE)
    }
}

/// The call for a plan carried out on a log, all but what is refused for the buffers' lengths.
pub fn carry_out(text: &[u8], log: &[u32]) -> Answer<Carried> {
    let plan = read(text)?;
    if plan.reads() != log.len() as u64 {
        return Err(refusal::SEGS);
    }
    if log.len() as u64 > MAX_READS {
        return Err(refusal::READS);
    }
    if trace::firsts(log).len() > MAX_EXTENTS {
        return Err(refusal::EXTENTS);
    }
    let mut rest = log;
    let words = plan.carried(&mut rest);
    assert!(rest.is_empty(), "a plan takes the whole log");
    Ok(Carried { words, cleared: LEVEL_WORDS * plan.depth() })
}

/// The call for a plan, with so many work words and a buffer of `room` words.
pub fn within(carried: &Answer<Carried>, work: usize, room: usize) -> Answer<Carried> {
    match carried {
        Ok(carried) if carried.cleared > work || carried.words.len() > room => Err(refusal::ROOM),
        _ => carried.clone(),
    }
}
