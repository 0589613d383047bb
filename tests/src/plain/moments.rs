//! Named moments by logs alone: the log now, and the log under each name.

use super::last_slots::LastSlots;
use super::names::{is_name, Call};
use super::session::Reading;
use super::{trace, MAX_EXTENTS, MAX_READS};
use crate::{refusal, Answer};
use std::collections::HashMap;

/// The log now and the slots of its last reads, the logs under the names that are set, and how many names there is room
/// for.
pub struct Moments {
    pub log: Vec<u32>,
    last: LastSlots,
    named: HashMap<u32, Vec<u32>>,
    room: u32,
}

impl Moments {
    /// No read and no name yet, with room for the names from 1 to `room`.
    pub fn new(room: u32) -> Self {
        Moments { log: Vec::new(), last: LastSlots::default(), named: HashMap::new(), room }
    }

    /// One more call: what a read answers. A refused call changes nothing.
    pub fn answer(&mut self, call: Call) -> Answer<Option<Reading>> {
        match call {
            Call::Read(extent) => return self.read(extent).map(Some),
            Call::Name(name) | Call::Return(name) if !is_name(name) => return Err(refusal::NUMBER),
            Call::Name(name) if name > self.room => return Err(refusal::ROOM),
            Call::Name(name) => _ = self.named.insert(name, self.log.clone()),
            Call::Return(name) => {
                self.log = self.named.get(&name).ok_or(refusal::NAME)?.clone();
                self.last = LastSlots::after(&self.log);
            }
        }
        Ok(None)
    }

    /// A read that is accepted is appended to the log.
    fn read(&mut self, extent: u32) -> Answer<Reading> {
        if self.log.len() as u64 + 1 > MAX_READS {
            return Err(refusal::READS);
        }
        if !self.log.contains(&extent) && trace::different(&self.log) + 1 > MAX_EXTENTS {
            return Err(refusal::EXTENTS);
        }
        let word = trace::word_after(&self.log, extent) as usize;
        let (sums_read, slots_looked) = self.last.read(extent);
        self.log.push(extent);
        Ok(Reading { word, sums_read, slots_looked })
    }
}
