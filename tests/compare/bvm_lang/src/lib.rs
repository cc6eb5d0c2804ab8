//! The reference loader, program.rs unchanged, and what is read off its answers.

extern crate alloc;

mod host;
mod numbers;
// Unchanged, so parts that only the interpreter used are left without a user.
#[allow(dead_code)]
mod program;
mod table;

#[cfg(test)]
mod checksum;

pub use host::Host;
pub use numbers::six_numbers;
pub use program::{LoadError, LoadErrorKind, Program};
pub use table::{descends, parent, rust_words};
