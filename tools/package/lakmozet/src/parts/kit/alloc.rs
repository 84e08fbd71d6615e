//! Memory that may run out.
use core::marker::PhantomData;

/// Where memory comes from: the one allocator of Rust.
#[derive(Clone, Copy, Debug)]
pub struct Global;

/// There was no memory.
#[derive(Clone, Copy, Debug, PartialEq, Eq)]
pub struct AllocError;

/// There was no memory for a value, which would come back with it.
pub struct AllocFailed<T>(PhantomData<T>);
