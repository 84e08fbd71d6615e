//! A text that says when there is no memory.
use super::alloc::{AllocError, Global};
use core::borrow::Borrow;
use core::fmt;
use core::ops::Deref;

/// A text that says when there is no memory.
#[derive(PartialEq, Eq, PartialOrd, Ord, Debug)]
pub struct String(::alloc::string::String);

impl String {
    pub fn new(_: Global) -> String {
        String(::alloc::string::String::new())
    }

    pub fn from_str(alloc: Global, text: &str) -> Result<String, AllocError> {
        let mut copy = String::new(alloc);
        copy.push_str(text)?;
        Ok(copy)
    }

    pub fn push_str(&mut self, text: &str) -> Result<(), AllocError> {
        self.0.try_reserve(text.len()).map_err(|_| AllocError)?;
        self.0.push_str(text);
        Ok(())
    }

    pub fn push(&mut self, c: char) -> Result<(), AllocError> {
        self.push_str(c.encode_utf8(&mut [0; 4]))
    }

    #[allow(clippy::should_implement_trait)] // Rust's can't say that there is no memory
    pub fn clone(&self) -> Result<String, AllocError> {
        String::from_str(Global, &self.0)
    }

    pub fn as_str(&self) -> &str {
        &self.0
    }
}

impl Deref for String {
    type Target = str;

    fn deref(&self) -> &str {
        &self.0
    }
}

impl Borrow<str> for String {
    fn borrow(&self) -> &str {
        &self.0
    }
}

impl fmt::Write for String {
    fn write_str(&mut self, text: &str) -> fmt::Result {
        self.push_str(text).map_err(|_| fmt::Error)
    }
}

impl fmt::Display for String {
    fn fmt(&self, f: &mut fmt::Formatter<'_>) -> fmt::Result {
        f.write_str(&self.0)
    }
}

/// `replace` of the sources.
pub trait ReplacedIn {
    fn replaced_in(&self, alloc: Global, old: &str, new: &str) -> Result<String, AllocError>;
}

impl ReplacedIn for str {
    fn replaced_in(&self, alloc: Global, old: &str, new: &str) -> Result<String, AllocError> {
        let mut copy = String::new(alloc);
        for (i, piece) in self.split(old).enumerate() {
            if i > 0 {
                copy.push_str(new)?;
            }
            copy.push_str(piece)?;
        }
        Ok(copy)
    }
}
