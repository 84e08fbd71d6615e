//! Generators of words, as the library `rand_core` has them.
pub mod utils {
    /// A generator of words.
    pub trait NextWord {
        fn next_word(&mut self) -> u32;
    }
}
