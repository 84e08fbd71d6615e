//! Values of TOML.
use super::map::Map;
use crate::parts::kit::{String, Vec};
use crate::parts::toml_datetime::Datetime;

/// An array of a document.
pub type Array = Vec<Value>;

/// A table of a document.
pub type Table = Map<String, Value>;

/// A value of a document.
pub enum Value {
    String(String),
    Integer(i64),
    Float(f64),
    Boolean(bool),
    Datetime(Datetime),
    Array(Array),
    Table(Table),
}

impl Value {
    pub fn as_integer(&self) -> Option<i64> {
        match self {
            Value::Integer(n) => Some(*n),
            _ => None,
        }
    }

    pub fn as_bool(&self) -> Option<bool> {
        match self {
            Value::Boolean(b) => Some(*b),
            _ => None,
        }
    }

    pub fn as_array(&self) -> Option<&Array> {
        match self {
            Value::Array(items) => Some(items),
            _ => None,
        }
    }

    pub fn as_table(&self) -> Option<&Table> {
        match self {
            Value::Table(members) => Some(members),
            _ => None,
        }
    }
}
