//! A vector that says when there is no memory.
use super::alloc::{AllocError, Global};
use core::ops::{Deref, DerefMut, Index, IndexMut};
use core::slice::{Iter, IterMut, SliceIndex};

/// A vector that says when there is no memory.
#[derive(Debug)]
pub struct Vec<T>(::alloc::vec::Vec<T>);

impl<T> Vec<T> {
    pub fn new(_: Global) -> Vec<T> {
        Vec(::alloc::vec::Vec::new())
    }

    pub fn with_capacity(_: Global, room: usize) -> Result<Vec<T>, AllocError> {
        let mut items = ::alloc::vec::Vec::new();
        items.try_reserve_exact(room).map_err(|_| AllocError)?;
        Ok(Vec(items))
    }

    #[inline]
    pub fn push(&mut self, item: T) -> Result<(), AllocError> {
        if self.0.len() == self.0.capacity() {
            self.0.try_reserve(1).map_err(|_| AllocError)?;
        }
        self.0.push(item);
        Ok(())
    }

    pub fn extend_from_slice(&mut self, items: &[T]) -> Result<(), AllocError>
    where
        T: Clone,
    {
        self.0.try_reserve(items.len()).map_err(|_| AllocError)?;
        self.0.extend_from_slice(items);
        Ok(())
    }

    #[inline]
    pub fn as_slice(&self) -> &[T] {
        &self.0
    }

    #[inline]
    pub fn as_mut_slice(&mut self) -> &mut [T] {
        &mut self.0
    }

    #[inline]
    pub fn clear(&mut self) {
        self.0.clear();
    }

    #[inline]
    pub fn truncate(&mut self, len: usize) {
        self.0.truncate(len);
    }

    #[inline]
    pub fn pop(&mut self) -> Option<T> {
        self.0.pop()
    }

    #[inline]
    pub fn capacity(&self) -> usize {
        self.0.capacity()
    }
}

impl<T> Deref for Vec<T> {
    type Target = [T];

    #[inline(always)]
    fn deref(&self) -> &[T] {
        &self.0
    }
}

impl<T> DerefMut for Vec<T> {
    #[inline(always)]
    fn deref_mut(&mut self) -> &mut [T] {
        &mut self.0
    }
}

impl<T, I: SliceIndex<[T]>> Index<I> for Vec<T> {
    type Output = I::Output;

    #[inline(always)]
    fn index(&self, at: I) -> &I::Output {
        &self.0[at]
    }
}

impl<T, I: SliceIndex<[T]>> IndexMut<I> for Vec<T> {
    #[inline(always)]
    fn index_mut(&mut self, at: I) -> &mut I::Output {
        &mut self.0[at]
    }
}

impl<'a, T> IntoIterator for &'a Vec<T> {
    type Item = &'a T;
    type IntoIter = Iter<'a, T>;

    fn into_iter(self) -> Iter<'a, T> {
        self.0.iter()
    }
}

impl<'a, T> IntoIterator for &'a mut Vec<T> {
    type Item = &'a mut T;
    type IntoIter = IterMut<'a, T>;

    fn into_iter(self) -> IterMut<'a, T> {
        self.0.iter_mut()
    }
}

/// `vec![in alloc; item; count]` of the sources.
pub fn filled<T: Clone>(alloc: Global, item: T, count: usize) -> Result<Vec<T>, AllocError> {
    let mut items = Vec::with_capacity(alloc, count)?;
    items.0.resize(count, item);
    Ok(items)
}

/// `collect` of the sources.
pub trait CollectIn: Iterator + Sized {
    fn collect_in(self, alloc: Global) -> Result<Vec<Self::Item>, AllocError> {
        let mut items = Vec::new(alloc);
        for item in self {
            items.push(item)?;
        }
        Ok(items)
    }
}

impl<I: Iterator> CollectIn for I {}

/// `to_vec` of the sources.
pub trait CopiedIn<T> {
    fn copied_in(&self, alloc: Global) -> Result<Vec<T>, AllocError>;
}

impl<T: Clone> CopiedIn<T> for [T] {
    fn copied_in(&self, alloc: Global) -> Result<Vec<T>, AllocError> {
        let mut items = Vec::with_capacity(alloc, self.len())?;
        items.0.extend_from_slice(self);
        Ok(items)
    }
}
