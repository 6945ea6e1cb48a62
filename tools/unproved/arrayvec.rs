//! As much of the crate arrayvec as the program asks for: a list with room for a fixed number of items.
use std::ops::{Deref, DerefMut};

#[derive(Clone, Debug)]
pub struct ArrayVec<T, const N: usize>(Vec<T>);

#[derive(Debug)]
pub struct CapacityError;

impl<T, const N: usize> ArrayVec<T, N> {
    pub fn new() -> Self {
        ArrayVec(Vec::with_capacity(N))
    }
    pub fn len(&self) -> usize {
        self.0.len()
    }
    pub fn capacity(&self) -> usize {
        N
    }
    pub fn clear(&mut self) {
        self.0.clear();
    }
    pub fn push(&mut self, item: T) {
        assert!(self.0.len() < N);
        self.0.push(item);
    }
    pub fn insert(&mut self, at: usize, item: T) {
        assert!(self.0.len() < N);
        self.0.insert(at, item);
    }
    pub fn as_slice(&self) -> &[T] {
        &self.0
    }
}

impl<T: Clone, const N: usize> ArrayVec<T, N> {
    pub fn try_extend_from_slice(&mut self, items: &[T]) -> Result<(), CapacityError> {
        if self.0.len() + items.len() > N {
            return Err(CapacityError);
        }
        self.0.extend_from_slice(items);
        Ok(())
    }
}

impl<T, const N: usize> Deref for ArrayVec<T, N> {
    type Target = [T];
    fn deref(&self) -> &[T] {
        &self.0
    }
}

impl<T, const N: usize> DerefMut for ArrayVec<T, N> {
    fn deref_mut(&mut self) -> &mut [T] {
        &mut self.0
    }
}
