//! What the sources of the C interface ask for: a box that says when there is no memory, and can be taken apart.
pub use lakmozet::parts::kit::{marker, prelude, sync, Vec};

use std::alloc::Layout;
use std::marker::PhantomData;
use std::ops::{Deref, DerefMut};

/// Memory that may run out.
pub mod alloc {
    pub use lakmozet::parts::kit::alloc::{AllocError, Global};

    /// Where memory comes from: there is one.
    pub trait Allocator: Copy {
        const ONE: Self;
    }

    impl Allocator for Global {
        const ONE: Global = Global;
    }
}

use alloc::{AllocError, Allocator, Global};

/// A box that says when there is no memory.
pub struct Box<T, A = Global>(std::boxed::Box<T>, PhantomData<A>);

impl<T> Box<T, Global> {
    pub fn new(_: Global, value: T) -> Result<Box<T, Global>, AllocError> {
        const { assert!(size_of::<T>() != 0) };
        // SAFETY: a T has a size.
        let at = unsafe { std::alloc::alloc(Layout::new::<T>()) } as *mut T;
        if at.is_null() {
            return Err(AllocError);
        }
        // SAFETY: there is memory for a T, as a box asks for it.
        unsafe {
            at.write(value);
            Ok(Box::from_raw(Global, at))
        }
    }
}

impl<T, A: Allocator> Box<T, A> {
    pub fn into_raw_with_allocator(value: Box<T, A>) -> (*mut T, A) {
        (std::boxed::Box::into_raw(value.0), A::ONE)
    }

    /// # Safety
    ///
    /// The pointer is of a box that was taken apart, and belongs to no other.
    pub unsafe fn from_raw(_: A, at: *mut T) -> Box<T, A> {
        // SAFETY: as the caller says.
        Box(unsafe { std::boxed::Box::from_raw(at) }, PhantomData)
    }
}

impl<T, A> Deref for Box<T, A> {
    type Target = T;

    fn deref(&self) -> &T {
        &self.0
    }
}

impl<T, A> DerefMut for Box<T, A> {
    fn deref_mut(&mut self) -> &mut T {
        &mut self.0
    }
}
