//! Function records and code without a fault.

use sheets::{Function, Handler, Table, TypeEntry, ValueType, DYN};

use crate::code::write_code;
use crate::lists::{param_list, shape};
use crate::scale::Scale;
use crate::{Draft, Rng};

/// Adds so many functions: every record first, so that code can name any of them.
pub fn add_functions(rng: &mut Rng, draft: &mut Draft, scale: &Scale, count: usize) {
    let sigs = draft.func_types();
    for _ in 0..count {
        let sig = rng.pick(&sigs);
        let f = record(rng, draft, scale, sig);
        draft.sheet.functions.push(f);
    }
    for at in 0..count {
        let length = rng.within(1, scale.code);
        add_handlers(rng, &mut draft.sheet.functions[at], length);
        add_tables(rng, &mut draft.sheet.functions[at], length);
        write_code(rng, draft, at, length);
    }
}

fn record(rng: &mut Rng, draft: &Draft, scale: &Scale, sig: u32) -> Function {
    let params = draft.signature(sig).map_or(Vec::new(), |s| s.0.to_vec());
    let mut regs: Vec<_> = params.iter().map(|&v| equal(rng, draft, v)).collect();
    let more = match rng.below(30) {
        0 => scale.registers * 20,
        _ => rng.within(0, scale.registers),
    };
    regs.extend((0..more).map(|_| draft.value_type(rng)));
    let strings = draft.sheet.strings.len();
    let types = draft.sheet.types.len();
    let few = |rng: &mut Rng, most: usize| 0..rng.within(0, most);
    Function {
        sig,
        regs,
        params: rng.one_in(3).then(|| param_list(rng, draft, &params)),
        shapes: few(rng, 2).map(|_| shape(rng, draft, 4)).collect(),
        captures: if rng.one_in(3) {
            few(rng, 3).map(|_| draft.value_type(rng)).collect()
        } else {
            Vec::new()
        },
        names: few(rng, 3).map(|_| rng.index(strings)).collect(),
        type_refs: few(rng, scale.type_refs)
            .map(|_| rng.index(types))
            .collect(),
        ..Function::default()
    }
}

/// A register type that is canonically the same: at times another reference to an equal type.
fn equal(rng: &mut Rng, draft: &Draft, v: ValueType) -> ValueType {
    let types = &draft.sheet.types;
    let Some(t) = v.target().filter(|_| types.len() <= 200 && rng.coin()) else {
        return v;
    };
    let entry = &types[t as usize];
    if matches!(entry, TypeEntry::Struct { .. }) {
        return v;
    }
    ValueType::reference(rng.pick(&draft.types_with(|other| other == entry)))
}

/// Handlers over code of this length, if there is a dyn register to catch in.
fn add_handlers(rng: &mut Rng, f: &mut Function, length: usize) {
    let dynamic: Vec<u32> = (0u32..65536)
        .zip(&f.regs)
        .filter(|(_, &v)| v == DYN)
        .map(|(r, _)| r)
        .collect();
    let count = match rng.below(12) {
        0..=6 => 0,
        7..=9 => rng.within(1, 3),
        // Around the border where a catch table begins.
        _ => rng.within(7, 11),
    };
    if dynamic.is_empty() {
        return;
    }
    for _ in 0..count {
        let start = rng.below(length);
        f.handlers.push(Handler {
            start: start as u32,
            end: rng.within(start + 1, length) as u32,
            target: rng.index(length),
            catch: rng.pick(&dynamic),
        });
    }
}

fn add_tables(rng: &mut Rng, f: &mut Function, length: usize) {
    for _ in 0..rng.within(0, 2) {
        let targets = (0..rng.within(0, 3)).map(|_| rng.index(length)).collect();
        f.tables.push(Table {
            targets,
            default: rng.index(length),
        });
    }
}
