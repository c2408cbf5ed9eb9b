//! A table of the book: a fixed number of slots, and no memory from the heap.

use std::fmt;
use std::ops::{Deref, DerefMut};

/// A row of values in the first of its slots. It reads as a slice.
#[derive(Clone, Copy)]
pub struct Table<T, const SLOTS: usize> {
    slots: [T; SLOTS],
    used: usize,
}

impl<T: Copy + Default, const SLOTS: usize> Table<T, SLOTS> {
    /// Puts a value into the next slot, which has to be free.
    pub fn push(&mut self, value: T) {
        self.slots[self.used] = value;
        self.used += 1;
    }

    /// Takes the value at the index out; those after it move up.
    pub fn remove(&mut self, index: usize) {
        self.slots.copy_within(index + 1..self.used, index);
        self.used -= 1;
    }

    /// Keeps the values that stay, in their order.
    pub fn retain(&mut self, mut stays: impl FnMut(&T) -> bool) {
        let mut kept = 0;
        for index in 0..self.used {
            let value = self.slots[index];
            if stays(&value) {
                self.slots[kept] = value;
                kept += 1;
            }
        }
        self.used = kept;
    }
}

impl<T: Copy + Default, const SLOTS: usize> Default for Table<T, SLOTS> {
    /// Every slot is free.
    fn default() -> Self {
        Table {
            slots: [T::default(); SLOTS],
            used: 0,
        }
    }
}

impl<T: Copy + Default, const SLOTS: usize> Extend<T> for Table<T, SLOTS> {
    fn extend<I: IntoIterator<Item = T>>(&mut self, values: I) {
        for value in values {
            self.push(value);
        }
    }
}

impl<T: Copy + Default, const SLOTS: usize> FromIterator<T> for Table<T, SLOTS> {
    fn from_iter<I: IntoIterator<Item = T>>(values: I) -> Self {
        let mut table = Table::default();
        table.extend(values);
        table
    }
}

impl<T, const SLOTS: usize> Deref for Table<T, SLOTS> {
    type Target = [T];

    fn deref(&self) -> &[T] {
        &self.slots[..self.used]
    }
}

impl<T, const SLOTS: usize> DerefMut for Table<T, SLOTS> {
    fn deref_mut(&mut self) -> &mut [T] {
        &mut self.slots[..self.used]
    }
}

/// What free slots hold does not count.
impl<T: PartialEq, const SLOTS: usize> PartialEq for Table<T, SLOTS> {
    fn eq(&self, other: &Self) -> bool {
        self[..] == other[..]
    }
}

impl<T: Eq, const SLOTS: usize> Eq for Table<T, SLOTS> {}

impl<T: fmt::Debug, const SLOTS: usize> fmt::Debug for Table<T, SLOTS> {
    fn fmt(&self, out: &mut fmt::Formatter) -> fmt::Result {
        self[..].fmt(out)
    }
}
