//! Lists of reads, namings and returns, carried out by the library beside the plain account of logs.

use crate::plain::moments::Moments;
use crate::plain::names::{self, Call};
use crate::plain::session::{self, Reading};
use crate::random::Random;
use crate::tally::Tally;
use crate::{calls, Answer};

/// Numbers given as names: all names, those next to them, and some whose place, modulo 2^32, is that of a name.
const GIVEN: [u32; 14] = [0, 1, 2, 3, 4, 5, 6, 7, 8, 9, 10, 1 << 31, (1 << 31) + 1, u32::MAX];

/// A list of so many calls: reads of these extents, with one naming and one return among so many.
pub fn list(random: &mut Random, extents: &[u32], count: usize, among: usize) -> Vec<Call> {
    let call = |_| match random.below(among) {
        0 => Call::Name(random.of(&GIVEN)),
        1 => Call::Return(random.of(&GIVEN)),
        _ => Call::Read(random.of(extents)),
    };
    (0..count).map(call).collect()
}

/// The answer of a naming or a return, which is 0 where it is done.
#[track_caller]
fn done(answer: Answer<u64>) -> Answer<Option<Reading>> {
    assert_eq!(answer.unwrap_or(0), 0, "the answer of a call that is done");
    answer.map(|_| None)
}

/// A call of the library on a session and names; what a read answers.
#[track_caller]
pub fn call(session: &mut [u32], names: &mut [u32], call: Call) -> Answer<Option<Reading>> {
    match call {
        Call::Read(extent) => calls::session_read(session, extent).map(Some),
        Call::Name(name) => done(calls::session_name(session, names, name)),
        Call::Return(name) => done(calls::session_return(session, names, name)),
    }
}

/// The library's session and names, the plain account of the same calls, and the plain session that reads its log alone.
pub struct Run {
    pub session: Vec<u32>,
    pub names: Vec<u32>,
    pub plain: Moments,
    alone: Vec<u32>,
}

impl Run {
    /// A new session, with room for the names from 1 to `room`.
    pub fn new(room: u32) -> Self {
        let mut names = calls::names_new(names::WORDS).expect("new names");
        names.truncate(names::place(room).end);
        let session = calls::session_new(session::WORDS).expect("a new session");
        Run { session, names, plain: Moments::new(room), alone: session::new() }
    }

    /// One more call, its answer and the words after it compared; a read's word, or 0.
    #[track_caller]
    pub fn call(&mut self, tally: &mut Tally, one: Call) -> Answer<usize> {
        let got = call(&mut self.session, &mut self.names, one);
        let wanted = self.plain.answer(one);
        let context = (one, &self.plain.log);
        tally.same(got, wanted, &context);
        if wanted.is_ok() {
            match one {
                Call::Read(extent) => _ = session::accept(&mut self.alone, extent),
                Call::Name(name) => {
                    let named = [&[1], &self.alone[..]].concat();
                    tally.same(&self.names[names::place(name)], &named, &context);
                }
                Call::Return(_) => self.alone = session::of(&self.plain.log),
            }
        }
        tally.same(&self.session, &self.alone, &context);
        got.map(|reading| reading.map_or(0, |reading| reading.word))
    }
}
