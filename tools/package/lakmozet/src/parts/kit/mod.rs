//! What the standard library and the small libraries of the sources have and Rust's have not, as far as the sources use it.
pub mod alloc;
pub mod arrayvec;
pub mod byteorder;
pub mod collections;
pub mod fast_float;
pub mod itoa;
pub mod marker;
pub mod rand_core;
pub mod rand_pcg;
pub mod sha2;
pub mod signs;
pub mod string;
pub mod sync;
pub mod vec;

pub use string::String;
pub use vec::{filled, CollectIn, CopiedIn, Vec};

/// What each source sees.
pub mod prelude {
    pub use super::signs::{CastSigned, CastUnsigned};
    pub use super::string::ReplacedIn;
    pub use super::{CollectIn, CopiedIn, String, Vec};
}
