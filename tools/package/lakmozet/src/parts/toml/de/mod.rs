//! Reads documents.
mod document;
mod tables;
mod value;

use super::value::Table;
use crate::parts::kit::alloc::Global;
use crate::parts::toml_parser::ParseError;
use core::ops::Range;

/// Why a text is refused.
pub struct Error {
    fault: ParseError,
    /// How many bytes the text has.
    length: usize,
}

impl Error {
    /// Whether an allocation failed, which says nothing of the text.
    pub fn is_memory(&self) -> bool {
        self.fault == ParseError::OutOfMemory
    }

    /// The bytes of the text that its reader didn't expect. An error of memory has none.
    pub fn span(&self) -> Option<Range<usize>> {
        let ParseError::At(_, from, to) = self.fault else {
            return None;
        };
        // (a fault counts from the end)
        let end = self.length.saturating_sub(to);
        Some(self.length.saturating_sub(from).min(end)..end)
    }
}

/// The table of a document.
pub fn table_from_str(alloc: Global, text: &str) -> Result<Table, Error> {
    document::document(alloc, text).map_err(|fault| Error {
        fault,
        length: text.len(),
    })
}
