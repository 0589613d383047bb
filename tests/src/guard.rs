//! Memory lent to a call, between guards.

use std::fmt::Debug;
use std::ops::Range;

/// Cells on each side of what is lent; odd, so that what is lent starts at no rounder address than its kind needs.
const GUARD: usize = 7;

/// A kind of cell that can be lent.
pub trait Cell: Copy + PartialEq + Debug {
    /// What stands in a guard, and in a buffer before anything is written to it; never 0.
    fn filler(place: usize) -> Self;
}

impl Cell for u32 {
    fn filler(place: usize) -> Self {
        (place as u32).wrapping_mul(0x9E37_79B2) | 1
    }
}

impl Cell for u8 {
    fn filler(place: usize) -> Self {
        (place as u8).wrapping_mul(0x3A) | 1
    }
}

impl Cell for i64 {
    fn filler(place: usize) -> Self {
        (place as i64).wrapping_mul(-0x61C8_8646_80B5_83EC) | 1
    }
}

impl Cell for f64 {
    fn filler(place: usize) -> Self {
        place as f64 + 2.25
    }
}

/// Lent cells between guards, with what stood in all of them before the call.
pub struct Lent<T> {
    all: Vec<T>,
    before: Vec<T>,
}

impl<T: Cell> Lent<T> {
    /// These contents between guards.
    pub fn holding(contents: &[T]) -> Self {
        let mut all: Vec<T> = (0..GUARD).map(T::filler).collect();
        all.extend_from_slice(contents);
        all.extend((0..GUARD).map(|place| T::filler(GUARD + place)));
        Lent { before: all.clone(), all }
    }

    /// So many cells of filler between guards.
    pub fn room(len: usize) -> Self {
        let all: Vec<T> = (0..len + 2 * GUARD).map(T::filler).collect();
        Lent { before: all.clone(), all }
    }

    /// What is lent.
    pub fn cells(&self) -> &[T] {
        &self.all[GUARD..self.all.len() - GUARD]
    }

    /// What is lent, to be written to.
    pub fn cells_mut(&mut self) -> &mut [T] {
        let end = self.all.len() - GUARD;
        &mut self.all[GUARD..end]
    }

    /// The cells of these places, which were written; fails where another cell or a guard has changed.
    #[track_caller]
    pub fn written_at(&self, places: Range<usize>) -> &[T] {
        assert!(places.end <= self.cells().len(), "{places:?} written of {} cells lent", self.cells().len());
        let (front, past) = (GUARD + places.start, GUARD + places.end);
        assert!(self.all[..front] == self.before[..front], "a cell or the guard before {places:?} has changed");
        assert!(self.all[past..] == self.before[past..], "a cell or the guard past {places:?} has changed");
        &self.cells()[places]
    }

    /// The first cells, which were written; fails where a cell past them or a guard has changed.
    #[track_caller]
    pub fn written(&self, len: usize) -> &[T] {
        self.written_at(0..len)
    }

    /// Fails where a cell or a guard has changed.
    #[track_caller]
    pub fn assert_kept(&self) {
        self.written(0);
    }

    /// Takes the present contents as those before the next call.
    pub fn settle(&mut self) {
        self.before.copy_from_slice(&self.all);
    }
}
