//! Names as words, a place for each, and the calls on any such words.

use super::session::{self, Reading};
use crate::{refusal, Answer};
use std::ops::Range;

/// The names are the numbers from 1 to this.
pub const MAX_NAMES: u32 = 8;
/// The words of a name's place: whether it is set, and the session under it.
pub const NAME_WORDS: usize = 1 + session::WORDS;
/// The words of all names.
pub const WORDS: usize = MAX_NAMES as usize * NAME_WORDS;

/// A call on a session with names: a read of an extent, a naming, or a return.
#[derive(Clone, Copy, PartialEq, Eq, Debug)]
pub enum Call {
    Read(u32),
    Name(u32),
    Return(u32),
}

/// Names of which none is set.
pub fn new() -> Vec<u32> {
    vec![0; WORDS]
}

/// Where a name's words stand.
pub fn place(name: u32) -> Range<usize> {
    let end = name as usize * NAME_WORDS;
    end - NAME_WORDS..end
}

/// Whether a number is a name.
pub fn is_name(number: u32) -> bool {
    (1..=MAX_NAMES).contains(&number)
}

/// The call for a naming; a refusal leaves the names as they were.
pub fn name(session: &[u32], names: &mut [u32], name: u32) -> Answer<u64> {
    if !is_name(name) {
        return Err(refusal::NUMBER);
    }
    if !session::sound(session) {
        return Err(refusal::STATE);
    }
    let words = names.get_mut(place(name)).ok_or(refusal::ROOM)?;
    words[0] = 1;
    words[1..].copy_from_slice(&session[..session::WORDS]);
    Ok(0)
}

/// The call for a return; a refusal leaves the session as it was.
pub fn return_to(session: &mut [u32], names: &[u32], name: u32) -> Answer<u64> {
    if !is_name(name) {
        return Err(refusal::NUMBER);
    }
    let words = names.get(place(name)).filter(|words| words[0] != 0).ok_or(refusal::NAME)?;
    if !session::sound(&words[1..]) {
        return Err(refusal::STATE);
    }
    session.get_mut(..session::WORDS).ok_or(refusal::ROOM)?.copy_from_slice(&words[1..]);
    Ok(0)
}

/// Any of the calls; what a read answers.
pub fn answer(session: &mut [u32], names: &mut [u32], call: Call) -> Answer<Option<Reading>> {
    match call {
        Call::Read(extent) => session::read(session, extent).map(Some),
        Call::Name(number) => name(session, names, number).map(|_| None),
        Call::Return(number) => return_to(session, names, number).map(|_| None),
    }
}
