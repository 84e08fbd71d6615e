//! Reads TOML 1.1 into an owned tree of values: the toolchain's own reader, behind the calls that the sources make.
pub mod de;
pub mod map;
pub mod value;

pub use de::table_from_str;
pub use value::{Table, Value};
