//! Descent by declared parents, by brute force, and images under a renumbering.

use std::iter::successors;

use sheets::{Sheet, TypeEntry};

/// The parent that a struct type declares, if it declares one; none at all for what is no struct.
pub(crate) fn parent_of(sheet: &Sheet, t: u32) -> Option<Option<u32>> {
    match sheet.types.get(t as usize) {
        Some(TypeEntry::Struct { parent, .. }) => Some(*parent),
        _ => None,
    }
}

/// A struct type, then those that its declared parents lead to, as far as an accepted sheet has them; none for what is no struct.
pub fn chain(sheet: &Sheet, t: u32) -> impl Iterator<Item = u32> + '_ {
    let entry = |n| parent_of(sheet, n).map(|parent| (n, parent));
    let walk = successors(entry(t), move |&(_, parent)| parent.and_then(entry));
    let most = sheet.edition.most_on_chain() as usize;
    walk.map(|(n, _)| n).take(most)
}

/// Whether both numbers are struct types and `a` is `t` or is reached from it by declared parents.
pub fn descends_by_parents(sheet: &Sheet, t: u32, a: u32) -> bool {
    let parent = |n| parent_of(sheet, n);
    if parent(t).is_none() || parent(a).is_none() {
        return false;
    }
    // A walk longer than the number of types goes in a circle.
    let mut at = t;
    for _ in 0..=sheet.types.len() {
        if at == a {
            return true;
        }
        match parent(at) {
            Some(Some(next)) => at = next,
            _ => return false,
        }
    }
    false
}

/// The image of a number; numbers without a type are their own.
pub fn image(images: &[u32], t: u32) -> u32 {
    images.get(t as usize).copied().unwrap_or(t)
}
