//! Parameter lists, call shapes and constants without a fault.

use sheets::{Constant, Param, ShapeEntry, TypeEntry, ValueType, DYN};

use crate::{Draft, Rng};

/// Whether a parameter of this type may be by reference.
pub fn by_reference(draft: &Draft, v: ValueType) -> bool {
    let cell = |t: u32| draft.sheet.types.get(t as usize) == Some(&TypeEntry::Cell(DYN));
    v == DYN || v.target().is_some_and(cell)
}

/// Some string numbers, none twice.
fn names(rng: &mut Rng, draft: &Draft, count: usize) -> Vec<u32> {
    let mut all = rng.permutation(draft.sheet.strings.len().min(40));
    all.truncate(count);
    all
}

/// A parameter list that fits these parameters.
pub fn param_list(rng: &mut Rng, draft: &Draft, params: &[ValueType]) -> Vec<Param> {
    let mut names = names(rng, draft, params.len());
    let optional_from = rng.within(0, params.len());
    let mut list = Vec::new();
    for (i, &v) in params.iter().enumerate() {
        let by_ref = by_reference(draft, v) && rng.coin();
        let optional = i >= optional_from;
        let name = if rng.coin() { names.pop() } else { None };
        list.push(Param {
            flags: u32::from(by_ref) + 2 * u32::from(optional),
            name,
        });
    }
    list
}

/// A call shape of up to so many entries.
pub fn shape(rng: &mut Rng, draft: &Draft, most: usize) -> Vec<ShapeEntry> {
    let length = rng.within(0, most);
    let mut names = names(rng, draft, length);
    let named_from = rng.within(0, length);
    let mut entries = Vec::new();
    for i in 0..length {
        // A spread may stand anywhere; names of others than named ones are not read.
        let named = i >= named_from && !rng.one_in(4);
        let (kind, name) = match names.pop() {
            Some(name) if named => (1, name),
            _ if i >= named_from => (2, rng.word()),
            _ => (2 * rng.index(2), rng.word()),
        };
        entries.push(ShapeEntry { kind, name });
    }
    entries
}

/// Constants, each of depth 64 at most.
pub fn constants(rng: &mut Rng, count: usize, strings: usize) -> Vec<Constant> {
    let mut depths: Vec<u32> = Vec::new();
    let mut constants = Vec::new();
    for i in 0..count {
        let children: Vec<u32> = (0..rng.within(0, 4)).map(|_| rng.index(i.max(1))).collect();
        let deepest = children
            .iter()
            .map(|&c| 1 + depths.get(c as usize).unwrap_or(&64));
        let depth = deepest.max().unwrap_or(0);
        let (constant, depth) = match rng.below(4) {
            0 if depth <= 64 => (Constant::Array(children), depth),
            1 if depth <= 64 && children.len().is_multiple_of(2) => {
                let pairs = children.chunks(2).map(|c| (c[0], c[1])).collect();
                (Constant::Map(pairs), depth)
            }
            2 => (Constant::Str(rng.index(strings)), 0),
            _ => (Constant::Plain(rng.word(), rng.word()), 0),
        };
        constants.push(constant);
        depths.push(depth);
    }
    constants
}
