//! A vector with room for N items, as the library `arrayvec` has it.

/// More than there is room for.
#[derive(Debug)]
pub struct CapacityError;

/// At most N items.
pub struct ArrayVec<T: Copy + Default, const N: usize> {
    items: [T; N],
    len: usize,
}

impl<T: Copy + Default, const N: usize> ArrayVec<T, N> {
    #[inline]
    #[allow(clippy::new_without_default)] // as the library has it
    pub fn new() -> ArrayVec<T, N> {
        ArrayVec {
            items: [T::default(); N],
            len: 0,
        }
    }

    #[inline]
    pub fn as_slice(&self) -> &[T] {
        &self.items[..self.len]
    }

    #[inline]
    pub fn remaining_capacity(&self) -> usize {
        N - self.len
    }

    #[inline]
    pub fn try_extend_from_slice(&mut self, more: &[T]) -> Result<(), CapacityError> {
        if self.remaining_capacity() < more.len() {
            return Err(CapacityError);
        }
        self.items[self.len..self.len + more.len()].copy_from_slice(more);
        self.len += more.len();
        Ok(())
    }
}
