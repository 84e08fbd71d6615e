//! What contracts see types by: nothing here.
use super::sync::ledger::Ledger;

pub use core::marker::PhantomData;

/// How contracts see a type.
pub trait Model {}

/// The name of a ledger.
pub struct Brand;

impl Ledger for Brand {}
