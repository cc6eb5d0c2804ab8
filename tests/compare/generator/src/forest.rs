//! Type lists: struct forests in random number order among other types, some of them equal.

use sheets::build::func;
use sheets::{TypeEntry, ValueType, DYN};

use crate::draft::value_type;
use crate::Rng;

/// How many of what a type list has to do with.
#[derive(Clone, Copy, Debug)]
pub struct Counts {
    pub structs: usize,
    pub others: usize,
    pub funcs: usize,
    pub strings: usize,
    pub functions: usize,
    pub most_on_chain: u32,
}

/// A type list without a fault.
pub fn types(rng: &mut Rng, counts: Counts) -> Vec<TypeEntry> {
    let n = counts.structs + counts.others + counts.funcs;
    let places = rng.permutation(n);
    let (structs, rest) = places.split_at(counts.structs);
    let (funcs, others) = rest.split_at(counts.funcs);
    let mut types = vec![TypeEntry::Coroutine; n];
    for &t in others {
        types[t as usize] = other(rng, n);
    }
    for &t in funcs {
        types[t as usize] = signature(rng, n);
    }
    repeat_some(rng, &mut types, rest);
    grow_forest(rng, &mut types, structs, counts);
    types
}

/// A type that is neither struct nor func.
fn other(rng: &mut Rng, n: usize) -> TypeEntry {
    match rng.below(6) {
        0 => TypeEntry::Coroutine,
        1 => TypeEntry::Cell(DYN),
        2 => TypeEntry::Cell(value_type(rng, n)),
        3 => TypeEntry::Array(value_type(rng, n)),
        4 => TypeEntry::Map(value_type(rng, n), value_type(rng, n)),
        _ => TypeEntry::Iter(value_type(rng, n), value_type(rng, n)),
    }
}

/// A func type: often the shape of a hook, of start or of the scheduler.
fn signature(rng: &mut Rng, n: usize) -> TypeEntry {
    match rng.below(8) {
        0 => func(&[], &[]),
        1 => func(&[DYN], &[DYN]),
        2 => func(&[DYN; 2], &[DYN]),
        3 => func(&[DYN; 3], &[]),
        4 => func(&[DYN; 3], &[DYN]),
        _ => {
            let some = |rng: &mut Rng, most| {
                let length = rng.within(0, most);
                (0..length).map(|_| value_type(rng, n)).collect::<Vec<_>>()
            };
            func(&some(rng, 4), &some(rng, 1))
        }
    }
}

/// Makes some of the types equal to another one.
fn repeat_some(rng: &mut Rng, types: &mut [TypeEntry], places: &[u32]) {
    let kind = |t: &TypeEntry| matches!(t, TypeEntry::Func { .. });
    for &t in places {
        let from = rng.pick(places) as usize;
        // A func stays a func, so that signatures stay signatures.
        if rng.one_in(3) && kind(&types[from]) == kind(&types[t as usize]) {
            types[t as usize] = types[from].clone();
        }
    }
}

/// Gives the structs names, parents that come earlier in the given order, fields and methods.
fn grow_forest(rng: &mut Rng, types: &mut [TypeEntry], order: &[u32], counts: Counts) {
    let n = types.len();
    let strings = counts.strings;
    let style = rng.below(4);
    let mut length = vec![1; n];
    let mut fields_of: Vec<Vec<(u32, ValueType)>> = vec![Vec::new(); n];
    for (i, &t) in order.iter().enumerate() {
        let parent = match style {
            0 => None,
            // Long chains.
            1 => i.checked_sub(1).map(|last| order[last]),
            // One wide family.
            2 => (i > 0).then(|| order[0]),
            _ if rng.one_in(4) => None,
            _ => rng.choose(&order[..i]),
        };
        let parent = parent.filter(|&p| length[p as usize] < counts.most_on_chain);
        let mut fields = Vec::new();
        if let Some(p) = parent {
            length[t as usize] = length[p as usize] + 1;
            fields = fields_of[p as usize].clone();
        }
        if fields.len() < 12 && rng.coin() {
            for _ in 0..rng.within(0, 3) {
                fields.push((rng.index(strings), value_type(rng, n)));
            }
        }
        let mut methods = Vec::new();
        if counts.functions > 0 && rng.one_in(3) {
            for _ in 0..rng.within(1, 3) {
                methods.push((rng.index(strings), rng.index(counts.functions)));
            }
        }
        fields_of[t as usize] = fields.clone();
        types[t as usize] = TypeEntry::Struct {
            name: rng.index(strings),
            parent,
            fields,
            methods,
        };
    }
}
