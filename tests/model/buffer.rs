//! The buffers that a caller lends, each between guards.
use std::ops::{Deref, DerefMut};

/// What a buffer is made of: words, or the bytes of a table. A guard is some of these.
pub trait Unit: Copy + PartialEq {
    const GUARD: Self;
}

impl Unit for u64 {
    const GUARD: u64 = 0x5ca1_ab1e_0ddb_a115;
}

impl Unit for u8 {
    const GUARD: u8 = 0x5c;
}

const GUARD_UNITS: usize = 4;

/// Reads and writes as its content. Two are equal if contents and guards are; the model, which sees the content alone, leaves the
/// guards whole.
#[derive(PartialEq, Eq)]
pub struct Buffer<T: Unit = u64> {
    units: Vec<T>,
}

impl<T: Unit> Buffer<T> {
    pub fn of(content: impl IntoIterator<Item = T>) -> Buffer<T> {
        let mut units = vec![T::GUARD; GUARD_UNITS];
        units.extend(content);
        units.extend([T::GUARD; GUARD_UNITS]);
        Buffer { units }
    }

    /// Cuts the content short, or makes it longer by what is drawn.
    pub fn resize(&mut self, length: usize, draw: impl FnMut() -> T) {
        self.units.truncate(GUARD_UNITS + length.min(self.len()));
        self.units.resize_with(GUARD_UNITS + length, draw);
        self.units.extend([T::GUARD; GUARD_UNITS]);
    }

    pub fn guards_hold(&self) -> bool {
        let after = self.units.len() - GUARD_UNITS;
        self.units[..GUARD_UNITS].iter().chain(&self.units[after..]).all(|&unit| unit == T::GUARD)
    }
}

impl Buffer {
    /// Writes to the guard behind the content, as a fault would.
    pub fn write_behind(&mut self) {
        let after = self.units.len() - GUARD_UNITS;
        self.units[after] ^= 1;
    }
}

impl<T: Unit> Deref for Buffer<T> {
    type Target = [T];
    fn deref(&self) -> &[T] {
        &self.units[GUARD_UNITS..self.units.len() - GUARD_UNITS]
    }
}

impl<T: Unit> DerefMut for Buffer<T> {
    fn deref_mut(&mut self) -> &mut [T] {
        let after = self.units.len() - GUARD_UNITS;
        &mut self.units[GUARD_UNITS..after]
    }
}

impl<T: Unit> Clone for Buffer<T> {
    fn clone(&self) -> Buffer<T> {
        Buffer { units: self.units.clone() }
    }

    /// Without a new allocation: a copy is made for every call.
    fn clone_from(&mut self, other: &Buffer<T>) {
        self.units.clone_from(&other.units);
    }
}
