//! What a session answers, by the log alone: a number for each extent's last read, and no row of slots.

use super::session::{Reading, DIGITS, SLOTS};
use super::trace::Stack;
use std::collections::HashMap;

/// The zeros of a slot's number written in as many binary digits as the last slot's needs.
pub fn zeros(slot: usize) -> u32 {
    DIGITS - slot.count_ones()
}

/// The slot of the last read of each extent, and the next slot.
#[derive(Default)]
pub struct LastSlots {
    slots: HashMap<u32, usize>,
    next: usize,
}

impl LastSlots {
    /// The slots after these reads.
    pub fn after(reads: &[u32]) -> Self {
        let mut last = LastSlots::default();
        for extent in reads {
            last.read(*extent);
        }
        last
    }

    /// Numbers the slots from 0 on, in their order.
    fn renumber(&mut self) {
        let mut by_slot: Vec<(usize, u32)> = self.slots.iter().map(|(extent, slot)| (*slot, *extent)).collect();
        by_slot.sort_unstable();
        self.slots = by_slot.iter().enumerate().map(|(slot, (_, extent))| (*extent, slot)).collect();
        self.next = self.slots.len();
    }

    /// One more read: the number of sums read, which is that of the zeros in the extent's slot, or 0 for a cold read; and
    /// the number of slots looked at, which is the next slot less the extent's, or all of the next slot for a cold read.
    pub fn read(&mut self, extent: u32) -> (u32, u32) {
        if self.next == SLOTS {
            self.renumber();
        }
        let counts = match self.slots.insert(extent, self.next) {
            Some(slot) => (zeros(slot), self.next - slot),
            None => (0, self.next),
        };
        self.next += 1;
        (counts.0, counts.1 as u32)
    }
}

/// What a session answers to each read of a trace within the limits.
pub fn readings(trace: &[u32]) -> Vec<Reading> {
    let (mut stack, mut last) = (Stack(Vec::new()), LastSlots::default());
    let mut reading = |extent: u32| {
        let (sums_read, slots_looked) = last.read(extent);
        Reading { word: stack.read(extent) as usize, sums_read, slots_looked }
    };
    trace.iter().map(|extent| reading(*extent)).collect()
}
