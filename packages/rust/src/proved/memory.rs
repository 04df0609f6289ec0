//! What Rattle's standard library has in another form than Rust's: an allocator that is passed, and lists whose growth can
//! fail. All else in this crate is made of the proved sources; this module is written by hand.

use alloc::vec::Vec as Plain;
use core::ops::{Deref, DerefMut};

/// The allocator of the program.
#[derive(Clone, Copy, Debug, Default)]
pub struct Global;

/// There is no memory for what was asked.
#[derive(Clone, Copy, Debug, PartialEq, Eq)]
pub struct AllocError;

impl core::fmt::Display for AllocError {
    fn fmt(&self, f: &mut core::fmt::Formatter<'_>) -> core::fmt::Result {
        f.write_str("memory allocation failed")
    }
}

impl core::error::Error for AllocError {}

/// A field of a type, in which an `Option` of that type keeps whether there is a value.
#[derive(Clone, Copy, PartialEq, Eq)]
#[repr(u8)]
pub(in crate::proved) enum Niche {
    /// The only value.
    Here,
}

/// A list whose growth can fail.
#[derive(Clone, Debug, Default, PartialEq, Eq)]
pub struct Vec<T>(Plain<T>);

impl<T> Vec<T> {
    /// The empty list.
    #[inline]
    pub fn new(_: Global) -> Vec<T> {
        Vec(Plain::new())
    }

    /// An empty list with room for this number of items. `AllocError` where there is no memory for them.
    #[inline]
    pub fn with_capacity(_: Global, capacity: usize) -> Result<Vec<T>, AllocError> {
        let mut items = Plain::new();
        items.try_reserve_exact(capacity).map_err(|_| AllocError)?;
        Ok(Vec(items))
    }

    /// Adds an item at the end. `AllocError`, with the list as before, where there is no memory for it.
    #[inline]
    pub fn push(&mut self, item: T) -> Result<(), AllocError> {
        self.0.try_reserve(1).map_err(|_| AllocError)?;
        self.0.push(item);
        Ok(())
    }

    /// Puts an item at a place, and moves those after it. `AllocError`, with the list as before, where there is no memory for it.
    ///
    /// # Panics
    ///
    /// Where the place is past the end.
    #[inline]
    pub fn insert(&mut self, place: usize, item: T) -> Result<(), AllocError> {
        self.0.try_reserve(1).map_err(|_| AllocError)?;
        self.0.insert(place, item);
        Ok(())
    }

    /// Removes the item at a place, and returns it. The items after it move down.
    ///
    /// # Panics
    ///
    /// Where the place is not below the length.
    #[inline]
    pub fn remove(&mut self, place: usize) -> T {
        self.0.remove(place)
    }

    /// Adds copies of these items at the end. `AllocError`, with the list as before, where there is no memory for them.
    #[inline]
    pub fn extend_from_slice(&mut self, items: &[T]) -> Result<(), AllocError>
    where
        T: Copy,
    {
        self.0.try_reserve(items.len()).map_err(|_| AllocError)?;
        self.0.extend_from_slice(items);
        Ok(())
    }

    /// The items.
    #[inline]
    pub fn as_slice(&self) -> &[T] {
        &self.0
    }

    /// Leaves the first items, this number of them.
    #[inline]
    pub fn truncate(&mut self, len: usize) {
        self.0.truncate(len);
    }

    /// Leaves the items that pass a test, in their order.
    #[inline]
    pub fn retain(&mut self, test: impl FnMut(&T) -> bool) {
        self.0.retain(test);
    }

    /// Leaves one of equal items that follow each other.
    #[inline]
    pub fn dedup(&mut self)
    where
        T: PartialEq,
    {
        self.0.dedup();
    }

    /// Puts the items in order, and leaves equal ones in theirs. It never fails: where there is no memory for its work, Rust ends
    /// the program.
    #[inline]
    pub fn sort(&mut self) -> Result<(), AllocError>
    where
        T: Ord,
    {
        self.0.sort();
        Ok(())
    }

    /// As [`Vec::sort`], by a key.
    #[inline]
    pub fn sort_by_key<K: Ord>(&mut self, key: impl FnMut(&T) -> K) -> Result<(), AllocError> {
        self.0.sort_by_key(key);
        Ok(())
    }
}

impl<T> Deref for Vec<T> {
    type Target = [T];

    #[inline]
    fn deref(&self) -> &[T] {
        &self.0
    }
}

impl<T> DerefMut for Vec<T> {
    #[inline]
    fn deref_mut(&mut self) -> &mut [T] {
        &mut self.0
    }
}

impl<T> From<Vec<T>> for Plain<T> {
    #[inline]
    fn from(items: Vec<T>) -> Plain<T> {
        items.0
    }
}

impl<T> From<Plain<T>> for Vec<T> {
    #[inline]
    fn from(items: Plain<T>) -> Vec<T> {
        Vec(items)
    }
}
