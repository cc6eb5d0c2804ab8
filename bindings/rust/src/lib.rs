//! A loader for bytecode modules of tariffs, proved for all inputs.
//!
//! [`load`] takes the bytes of a sheet and of a host list, which nobody need check first, and either
//! refuses the sheet ([`LoadError`]) or writes its linked table into a borrowed slice ([`Linked`]).
//! [`Linked::descends`] then says which type belongs to which family, [`Linked::family_size`] how many do,
//! [`Linked::chain_length`] how far a type is from its root, and [`Linked::nearest`] which family of two types is the nearest.
//!
//! ```
//! use paqlluri::{load, table_words, work_words, TypeId};
//! # const SAMPLES: (&[u8], &[u8]) = (
//! #     include_bytes!(concat!(env!("CARGO_MANIFEST_DIR"), "/../../samples/lifts.sheet")),
//! #     include_bytes!(concat!(env!("CARGO_MANIFEST_DIR"), "/../../samples/hosts")),
//! # );
//! # fn main() -> Result<(), paqlluri::LoadError> {
//! # let (sheet, hosts) = SAMPLES;
//!
//! let mut table = vec![0; table_words(sheet.len())];
//! let mut work = vec![0; work_words(sheet.len())];
//! let linked = load(sheet, hosts, &mut table, &mut work)?;
//!
//! let (lift, passenger, goods, hydraulic) = (TypeId(0), TypeId(1), TypeId(2), TypeId(3));
//! assert!(linked.descends(hydraulic, goods) && linked.descends(hydraulic, lift));
//! assert!(!linked.descends(hydraulic, passenger));
//! assert_eq!(linked.family_size(goods), 2);
//! assert_eq!((linked.chain_length(lift), linked.chain_length(hydraulic)), (1, 3));
//! assert_eq!(linked.nearest(hydraulic, passenger), Some(lift));
//! # Ok(())
//! # }
//! ```
//!
//! The loader itself is not Rust: this crate links `libpaqlluri.a`, which `tools/library` proves and
//! writes, and the proofs are about that. There is no heap, no global and no dependency; a call takes less than
//! 96 KiB of stack where the host list has at most 512 entries, and 1.6 MB more where it has more or says so, which
//! the stack of a thread of std holds; threads may call at once.

#![no_std]
#![deny(missing_docs, unsafe_code, unsafe_op_in_unsafe_fn)]
#![warn(clippy::pedantic)]

mod error;
pub mod raw;

use core::error::Error;
use core::fmt;

pub use error::{BrokenLayout, FuncId, LoadError, LoadErrorKind, StrId, TypeKind, What};

/// The version of this crate and of the calls, as in CHANGELOG.md.
pub const VERSION: &str = env!("CARGO_PKG_VERSION");

/// The bytes of a block, the words in it without its check word, and the most blocks of a sheet.
const BLOCK: usize = 512;
const BLOCK_WORDS: usize = 127;
const MOST_BLOCKS: usize = 4096;

/// The number of a type.
#[derive(Clone, Copy, Debug, PartialEq, Eq, PartialOrd, Ord, Hash)]
pub struct TypeId(pub u32);

/// Words that are surely enough for the table of a sheet of so many bytes.
///
/// Just needed are 64 + 8N, N being the sheet's own count of words; a table so long is never
/// refused as too short. No sheet needs more than [`MOST_WORDS`].
#[must_use]
pub const fn table_words(sheet_len: usize) -> usize {
    // Over the most blocks the sheet is refused whatever the lengths are.
    let blocks = sheet_len / BLOCK;
    let blocks = if blocks < MOST_BLOCKS {
        blocks
    } else {
        MOST_BLOCKS
    };
    64 + 8 * BLOCK_WORDS * blocks
}

/// Words that are surely enough for the work slice under a sheet of so many bytes: as many as for the table.
#[must_use]
pub const fn work_words(sheet_len: usize) -> usize {
    table_words(sheet_len)
}

/// Words that are enough for any sheet.
pub const MOST_WORDS: usize = table_words(MOST_BLOCKS * BLOCK);

/// Loads a sheet under a host list into the borrowed slice `table`.
///
/// The first word of a sheet is its edition, 1 or 2, that of a host list 1. A chain of parents has at most
/// 256 types in edition 1 and 64 in edition 2. The names of exports are read in edition 2 alone: each is a
/// string of the sheet, and no two have the same bytes. The optional arguments of an import may be left out
/// in edition 2 alone. Nothing else depends on the edition.
///
/// Accepted: the first words of `table` are the linked table, and those after them are as before.
/// Refused: no word of `table` is changed. `work` is all zero after the call, except that
/// [`Decode`](LoadErrorKind::Decode), [`BadHostList`](LoadErrorKind::BadHostList) and
/// [`ShortSlice`](LoadErrorKind::ShortSlice) leave it as it was; what it holds before does not matter.
///
/// # Errors
///
/// The first rule that the sheet breaks, in the order of the rules.
///
/// ```
/// # use paqlluri::{load, LoadErrorKind};
/// let error = load(b"any bytes may come", b"", &mut [], &mut []).unwrap_err();
/// assert_eq!(error.kind(), LoadErrorKind::Decode);
/// ```
///
/// # Panics
///
/// Never: the numbers that it is given are proved to be an answer's.
pub fn load<'a>(
    sheet: &[u8],
    hosts: &[u8],
    table: &'a mut [u32],
    work: &mut [u32],
) -> Result<Linked<'a>, LoadError> {
    match raw::load(sheet, hosts, table, work) {
        [0, _, length, ..] => Ok(Linked {
            words: &table[..length as usize],
        }),
        numbers => Err(LoadError::from_numbers(numbers).expect("load answers no other numbers")),
    }
}

/// How many struct types a sheet declares.
///
/// No rule is tried, so that a sheet which [`load`] refuses by a rule is counted too.
///
/// # Errors
///
/// [`BrokenLayout`], which is kind 1, where the layout is broken.
///
/// ```
/// use paqlluri::{count_structs, BrokenLayout};
/// # let sheet = include_bytes!(concat!(env!("CARGO_MANIFEST_DIR"), "/../../samples/lifts.sheet"));
///
/// assert_eq!(count_structs(sheet), Ok(4));
/// assert_eq!(count_structs(b"any bytes may come"), Err(BrokenLayout));
/// ```
pub fn count_structs(sheet: &[u8]) -> Result<u32, BrokenLayout> {
    match raw::count_structs(sheet) {
        [0, count] => Ok(count),
        // There is no other kind than 0 and 1.
        _ => Err(BrokenLayout),
    }
}

/// The chain length of type `t` by any words: what [`Linked::chain_length`] says of a linked table.
///
/// Of words that [`load`] did not write it is the third word of the type's span, whatever that is.
///
/// # Errors
///
/// [`NotLinked`], which is kind 25, where the words are no linked table, whatever the type is.
///
/// ```
/// use paqlluri::{chain_length, NotLinked, TypeId};
///
/// // Type 0 has the span from 0 to 2, type 1 the one from 1 to 2 in it.
/// let words = [2, 17, 0, 0, 0, 0, 0, 0, 0, 10, 2, 0, 2, 1, 1, 2, 2];
/// assert_eq!(chain_length(&words, TypeId(1)), Ok(2));
/// assert_eq!(chain_length(&words, TypeId(2)), Ok(0));
/// // Two words a span, behind a first word of 1.
/// let words = [1, 15, 0, 0, 0, 0, 0, 0, 0, 10, 2, 0, 2, 1, 2];
/// assert_eq!(chain_length(&words, TypeId(1)), Err(NotLinked));
/// ```
pub fn chain_length(words: &[u32], t: TypeId) -> Result<u32, NotLinked> {
    match raw::chain_length(words, t.0) {
        [0, length] => Ok(length),
        // There is no other kind than 0 and 25.
        _ => Err(NotLinked),
    }
}

/// The nearest family of types `t` and `u` by any words: what [`Linked::nearest`] says of a linked table.
///
/// Of words that [`load`] did not write it is the lowest-numbered type among those of least post minus pre whose span holds
/// both.
///
/// # Errors
///
/// [`NotLinked`], which is kind 25, where the words are no linked table, whatever the types are.
///
/// ```
/// use paqlluri::{nearest, NotLinked, TypeId};
///
/// // Type 0 has the span from 0 to 2, type 1 the one from 1 to 2 in it.
/// let words = [2, 17, 0, 0, 0, 0, 0, 0, 0, 10, 2, 0, 2, 1, 1, 2, 2];
/// assert_eq!(nearest(&words, TypeId(1), TypeId(0)), Ok(Some(TypeId(0))));
/// assert_eq!(nearest(&words, TypeId(1), TypeId(2)), Ok(None));
/// assert_eq!(nearest(&words[1..], TypeId(1), TypeId(2)), Err(NotLinked));
/// ```
pub fn nearest(words: &[u32], t: TypeId, u: TypeId) -> Result<Option<TypeId>, NotLinked> {
    match raw::nearest(words, t.0, u.0) {
        [0, family] => Ok(Some(TypeId(family))),
        [25, _] => Err(NotLinked),
        // There is no other kind than 0, 1 and 25.
        _ => Ok(None),
    }
}

/// A linked table: the words that [`load`] wrote, or stored ones.
///
/// It begins with the word 2, whatever the sheet's edition, and its spans have three words for each type: pre, post and the chain length.
#[derive(Clone, Copy, Debug, PartialEq, Eq)]
pub struct Linked<'a> {
    words: &'a [u32],
}

impl<'a> Linked<'a> {
    /// A stored table, which may have further words after it.
    ///
    /// What is looked at is what the family queries rely on: the first word, the length, and where the spans stand.
    /// Whether [`load`] wrote the rest is not known; any answer of [`descends`](Self::descends),
    /// [`family_size`](Self::family_size), [`chain_length`](Self::chain_length) and [`nearest`](Self::nearest) is then one
    /// about these words.
    ///
    /// # Errors
    ///
    /// [`NotLinked`], which is kind 25, where the words are no linked table. So it is of a stored table that begins with 1 and
    /// has two words a span: its sheet is to be loaded again.
    ///
    /// ```
    /// # use paqlluri::{Linked, NotLinked};
    /// assert_eq!(Linked::from_words(&[1, 2, 3]), Err(NotLinked));
    /// ```
    pub fn from_words(words: &'a [u32]) -> Result<Linked<'a>, NotLinked> {
        match raw::descends(words, 0, 0) {
            25 => Err(NotLinked),
            // The second word is the length, which does not exceed the slice's.
            _ => Ok(Linked {
                words: &words[..words[1] as usize],
            }),
        }
    }

    /// The table's words, to be stored or read.
    #[must_use]
    pub fn words(&self) -> &'a [u32] {
        self.words
    }

    /// Whether type `t` is type `a` or descends from it by declared parents.
    ///
    /// Numbers that are no struct type of the sheet, or no type at all, descend from nothing.
    #[must_use]
    pub fn descends(&self, t: TypeId, a: TypeId) -> bool {
        raw::descends(self.words, t.0, a.0) == 1
    }

    /// How many types descend from type `a`, itself included.
    ///
    /// From numbers that are no struct type of the sheet, or no type at all, none does. The sizes of the types without
    /// a parent add up to [`count_structs`] of the sheet.
    ///
    /// ```
    /// # use paqlluri::{load, LoadError, TypeId};
    /// # fn main() -> Result<(), LoadError> {
    /// # let sheet = include_bytes!(concat!(env!("CARGO_MANIFEST_DIR"), "/../../samples/lifts.sheet"));
    /// # let hosts = include_bytes!(concat!(env!("CARGO_MANIFEST_DIR"), "/../../samples/hosts"));
    /// # let (mut table, mut work) = ([0; 4096], [0; 4096]);
    /// let linked = load(sheet, hosts, &mut table, &mut work)?;
    /// // Lift, PassengerLift, GoodsLift and HydraulicGoodsLift below that; a func type; no type.
    /// let sizes = [0, 1, 2, 3, 4, 99].map(|a| linked.family_size(TypeId(a)));
    /// assert_eq!(sizes, [4, 1, 2, 1, 0, 0]);
    /// # Ok(())
    /// # }
    /// ```
    #[must_use]
    // Two words that are written and then popped as one cost more than the query.
    #[inline]
    pub fn family_size(&self, a: TypeId) -> u32 {
        // These words are a linked table, so the kind is 0.
        let [_, size] = raw::family_size(self.words, a.0);
        size
    }

    /// How many types are on the chain of type `t`, from itself up to its root: 1 at a root, and one more than its parent's
    /// elsewhere.
    ///
    /// Numbers that are no struct type of the sheet, or no type at all, have no chain: 0. No parent is walked, as the length
    /// stands in the table.
    ///
    /// ```
    /// # use paqlluri::{load, LoadError, TypeId};
    /// # fn main() -> Result<(), LoadError> {
    /// # let sheet = include_bytes!(concat!(env!("CARGO_MANIFEST_DIR"), "/../../samples/lifts.sheet"));
    /// # let hosts = include_bytes!(concat!(env!("CARGO_MANIFEST_DIR"), "/../../samples/hosts"));
    /// # let (mut table, mut work) = ([0; 4096], [0; 4096]);
    /// let linked = load(sheet, hosts, &mut table, &mut work)?;
    /// // Lift, PassengerLift, GoodsLift and HydraulicGoodsLift below that; a func type; no type.
    /// let lengths = [0, 1, 2, 3, 4, 99].map(|t| linked.chain_length(TypeId(t)));
    /// assert_eq!(lengths, [1, 2, 2, 3, 0, 0]);
    /// # Ok(())
    /// # }
    /// ```
    #[must_use]
    // As for `family_size`.
    #[inline]
    pub fn chain_length(&self, t: TypeId) -> u32 {
        // These words are a linked table, so the kind is 0.
        let [_, length] = raw::chain_length(self.words, t.0);
        length
    }

    /// The nearest family of types `t` and `u`: of the types that both descend from, a type counting among its own
    /// ancestors, the one with the longest chain of declared parents.
    ///
    /// There is none where their roots differ, or where a number is no struct type of the sheet or no type at all. The order
    /// of the two does not matter, and three types have one nearest family however they are grouped.
    ///
    /// ```
    /// # use paqlluri::{load, LoadError, TypeId};
    /// # fn main() -> Result<(), LoadError> {
    /// # let sheet = include_bytes!(concat!(env!("CARGO_MANIFEST_DIR"), "/../../samples/lifts.sheet"));
    /// # let hosts = include_bytes!(concat!(env!("CARGO_MANIFEST_DIR"), "/../../samples/hosts"));
    /// # let (mut table, mut work) = ([0; 4096], [0; 4096]);
    /// let linked = load(sheet, hosts, &mut table, &mut work)?;
    /// // HydraulicGoodsLift with Lift, PassengerLift, GoodsLift above it, itself, a func type, no type.
    /// let nearest = [0, 1, 2, 3, 4, 99].map(|u| linked.nearest(TypeId(3), TypeId(u)));
    /// let found = [0, 0, 2, 3].map(|family| Some(TypeId(family)));
    /// assert_eq!(nearest[..4], found);
    /// assert_eq!(nearest[4..], [None, None]);
    /// # Ok(())
    /// # }
    /// ```
    #[must_use]
    pub fn nearest(&self, t: TypeId, u: TypeId) -> Option<TypeId> {
        // These words are a linked table, so the kind is not 25.
        nearest(self.words, t, u).unwrap_or(None)
    }
}

/// The words are no linked table: kind 25.
#[derive(Clone, Copy, Debug, PartialEq, Eq, Hash)]
pub struct NotLinked;

impl fmt::Display for NotLinked {
    fn fmt(&self, f: &mut fmt::Formatter<'_>) -> fmt::Result {
        f.write_str("not a linked table")
    }
}

impl Error for NotLinked {}
