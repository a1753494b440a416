//! Of the original's words.rs the shifted union, verbatim; `Words` is a stand-in,
//! plain word storage with the few methods that the rows use.

use std::marker::PhantomData;
use std::ops::{Deref, DerefMut, RangeInclusive};

include!(concat!(env!("OUT_DIR"), "/core/words.rs"));

#[derive(Clone, Debug, Default)]
pub struct Words<T, S = Vec<T>> {
    storage: S,
    element: PhantomData<T>,
}

impl<T, S> Words<T, S> {
    pub fn new(storage: S) -> Self {
        Self { storage, element: PhantomData }
    }

    pub fn storage_mut(&mut self) -> &mut S {
        &mut self.storage
    }
}

impl<T> Words<T> {
    pub fn capacity(&self) -> usize {
        self.storage.capacity()
    }
}

impl<S> Words<u64, S> {
    /// Word and flag of one position.
    pub fn locate(index: usize) -> (usize, u64) {
        (index / WORD_BITS, 1 << (index % WORD_BITS))
    }
}

impl<S: AsRef<[u64]>> Words<u64, S> {
    pub fn contains(&self, index: usize) -> bool {
        let (word, flag) = Self::locate(index);
        self.storage.as_ref()[word] & flag != 0
    }
}

impl<S: AsMut<[u64]>> Words<u64, S> {
    pub fn insert(&mut self, index: usize) {
        let (word, flag) = Self::locate(index);
        self.storage.as_mut()[word] |= flag;
    }

    pub fn remove(&mut self, index: usize) {
        let (word, flag) = Self::locate(index);
        self.storage.as_mut()[word] &= !flag;
    }
}

impl<T, S: AsRef<[T]>> Deref for Words<T, S> {
    type Target = [T];
    fn deref(&self) -> &[T] {
        self.storage.as_ref()
    }
}

impl<T, S: AsRef<[T]> + AsMut<[T]>> DerefMut for Words<T, S> {
    fn deref_mut(&mut self) -> &mut [T] {
        self.storage.as_mut()
    }
}
