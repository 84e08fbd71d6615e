//! The C interface: `include/lakmozet.h` says what each call does, and what a caller owes.
#[rustfmt::skip]
mod exports;
mod kit;
mod parts;
#[cfg(target_family = "wasm")]
mod web;
