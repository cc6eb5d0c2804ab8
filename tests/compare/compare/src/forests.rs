//! Sheets of types alone that several tests look at.

use sheets::build::{func, strings, structure};
use sheets::{Sheet, TypeEntry, DYN};

pub(crate) fn sheet(types: Vec<TypeEntry>) -> Sheet {
    Sheet {
        strings: strings(&[""]),
        types,
        ..Sheet::default()
    }
}

/// Structs with these parents.
pub(crate) fn forest(parents: impl IntoIterator<Item = Option<u32>>) -> Sheet {
    sheet(parents.into_iter().map(|p| structure(p, &[])).collect())
}

/// Roots 2, 5 and 9 with other types between them; children stand before and behind their parents.
pub(crate) fn mixed() -> Sheet {
    sheet(vec![
        structure(Some(3), &[]),
        TypeEntry::Coroutine,
        structure(None, &[]),
        structure(Some(5), &[]),
        TypeEntry::Array(DYN),
        structure(None, &[]),
        structure(Some(3), &[]),
        func(&[], &[]),
        structure(Some(2), &[]),
        structure(None, &[]),
        structure(Some(0), &[]),
    ])
}

/// A chain of 256 and, from there on, further children of its last but one: the largest total there is.
pub(crate) fn deepest(structs: u32) -> Sheet {
    forest((0..structs).map(|t| t.min(255).checked_sub(1)))
}
