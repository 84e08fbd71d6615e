//! The map of a table, in the order of its keys.
pub use crate::parts::kit::collections::BTreeMap as Map;
