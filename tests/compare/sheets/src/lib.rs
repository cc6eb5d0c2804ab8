//! Sheets and host lists by docs/FORMAT.md: bytes, words, plain data, and from there the Rust's module and host.

mod blocks;
pub mod build;
mod decode;
mod edition;
mod encode;
pub mod op;
mod plain;
mod reader;
mod renumber;
mod rust;

pub use blocks::{
    check_word, read_blocks, refit, with_edition, write_blocks, BLOCK, MOST_BLOCKS, WORDS,
};
pub use decode::{decode_hosts, decode_sheet};
pub use edition::Edition;
pub use encode::{encode_hosts, encode_sheet, Role, Words};
pub use plain::{
    CalleeKind, Constant, Export, ExportKind, Function, Global, Handler, HookBinding, HostEntry,
    Import, Param, ShapeEntry, Sheet, Table, TypeEntry, ValueType, DYN, STR,
};
pub use renumber::renumber;
pub use rust::{rust_host, rust_module};

/// Words that table and work must have each for a sheet of `n` words.
pub fn needed(n: u32) -> u64 {
    64 + 8 * u64::from(n)
}
