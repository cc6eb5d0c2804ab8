//! Borders of parameter lists, scheduler, hooks, start and exports.

use sheets::build::{
    export, func, function, hook_function, hook_import, import, listed, ret_void, strings,
};
use sheets::{
    ExportKind, Function, Global, HostEntry, Param, ShapeEntry, Sheet, TypeEntry, ValueType, DYN,
    STR,
};

use super::Border;
use crate::{Draft, Rng};

pub const BORDERS: &[Border] = &[
    ("parameter flags 0 to 4", flags),
    ("names twice, by number or by text", names_twice),
    ("scheduler's shape", scheduler),
    ("shapes of every hook", hooks),
    ("start", start),
    ("exports", exports),
    ("registers equal canonically", registers),
];

/// Types 0 and 1 are cells of dyn and of str, 2 the signature.
fn draft(params: &[ValueType], results: &[ValueType]) -> Draft {
    let types = vec![
        TypeEntry::Cell(DYN),
        TypeEntry::Cell(STR),
        func(params, results),
    ];
    Draft {
        sheet: Sheet {
            strings: strings(&["a", "b", "a"]),
            types,
            ..Sheet::default()
        },
        hosts: vec![HostEntry {
            module: b"a".to_vec(),
            name: b"b".to_vec(),
            scheduler: false,
        }],
    }
}

fn of_signature(params: &[ValueType]) -> Function {
    Function {
        sig: 2,
        ..function(params, &[ret_void()])
    }
}

const TYPES: [ValueType; 5] = [DYN, STR, ValueType(4), ValueType(16), ValueType(17)];

/// Hangs the list on a function or on an import.
fn with_list(rng: &mut Rng, params: &[ValueType], list: Vec<Param>) -> Draft {
    let mut out = draft(params, &[]);
    if rng.coin() {
        out.sheet.functions.push(of_signature(params));
        out.sheet.functions[0].params = Some(list);
    } else {
        out.sheet.imports.push(import(0, 1, 2));
        out.sheet.imports[0].params = Some(list);
    }
    out
}

fn flags(rng: &mut Rng) -> Draft {
    let n = rng.within(1, 3);
    let params: Vec<_> = (0..n).map(|_| rng.pick(&TYPES)).collect();
    let most = if rng.one_in(4) { 5 } else { 4 };
    let list = (0..n).map(|_| Param {
        flags: rng.index(most),
        name: None,
    });
    let list = list.collect();
    with_list(rng, &params, list)
}

fn names_twice(rng: &mut Rng) -> Draft {
    let names = [rng.index(4), rng.index(4)];
    if rng.coin() {
        let name = |n: u32| n.checked_sub(1);
        let list = names.map(|n| Param {
            flags: 0,
            name: name(n),
        });
        return with_list(rng, &[DYN; 2], list.to_vec());
    }
    let mut f = of_signature(&[]);
    let named = |name| ShapeEntry { kind: 1, name };
    f.shapes.push(names.map(named).to_vec());
    let mut out = draft(&[], &[]);
    out.sheet.functions.push(f);
    out
}

fn scheduler(rng: &mut Rng) -> Draft {
    let some = |rng: &mut Rng| {
        let n = rng.pick(&[0, 1, 1, 1, 2]);
        let params = (0..n).map(|_| rng.pick(&[DYN, DYN, DYN, STR]));
        params.collect::<Vec<_>>()
    };
    let params = some(rng);
    let results = some(rng);
    let results = &results[..results.len().min(1)];
    let mut out = draft(&params, results);
    out.sheet.imports.push(import(rng.pick(&[0, 2]), 1, 2));
    out.hosts[0].scheduler = !rng.one_in(4);
    out
}

/// A callee of a hook's shape or with one thing changed, bound to that hook and perhaps to others.
fn hooks(rng: &mut Rng) -> Draft {
    // Every hook, and those with a shape of their own more often.
    let hook = rng.index(31);
    let hook = rng.pick(&[hook, hook, 7, 8, 9]);
    let (count, result) = crate::hook_shape(hook);
    let mut params = vec![DYN; count];
    let mut results = vec![DYN; usize::from(result)];
    let mut captures = 0;
    match rng.below(12) {
        0 => params.push(DYN),
        1 => drop(params.pop()),
        2 => params[rng.below(count)] = rng.pick(&TYPES),
        3 if result => results.clear(),
        3 => results.push(DYN),
        4 => results = vec![rng.pick(&TYPES)],
        5 => captures = 1,
        _ => {}
    }
    let mut out = draft(&params, &results);
    out.sheet.imports.push(import(0, 1, 2));
    out.sheet.imports[0].params = listed(&vec![2; params.len()]).filter(|_| rng.coin());
    out.sheet.functions.push(of_signature(&params));
    out.sheet.functions[0].captures = vec![DYN; captures];
    for _ in 0..rng.within(1, 3) {
        // Any other hook mostly has another shape.
        let hook = if rng.one_in(8) { rng.index(31) } else { hook };
        let index = u32::from(rng.one_in(12));
        out.sheet.hooks.push(if rng.coin() {
            hook_function(hook, index)
        } else {
            hook_import(hook, index)
        });
    }
    out
}

fn start(rng: &mut Rng) -> Draft {
    let params = vec![DYN; rng.pick(&[0, 0, 0, 1])];
    let results = vec![DYN; rng.pick(&[0, 0, 0, 1])];
    let mut out = draft(&params, &results);
    let mut f = of_signature(&params);
    f.captures = vec![DYN; rng.pick(&[0, 0, 1])];
    out.sheet.functions.push(f);
    out.sheet.start = Some(rng.pick(&[0, 0, 0, 1, u32::MAX - 1]));
    out
}

fn exports(rng: &mut Rng) -> Draft {
    let mut out = draft(&[], &[]);
    out.sheet.functions.push(of_signature(&[]));
    out.sheet.globals.push(Global {
        ty: DYN,
        init: None,
    });
    for _ in 0..rng.within(1, 3) {
        let kinds = [
            (ExportKind::Function, 1),
            (ExportKind::Global, 1),
            (ExportKind::Type, 3),
        ];
        let (kind, len) = rng.pick(&kinds);
        let index = len - u32::from(!rng.one_in(3));
        let name = rng.pick(&[0, 1, 2, 3, u32::MAX]);
        out.sheet.exports.push(export(kind, name, index));
    }
    out
}

/// Parameter and register refer to equal types under two numbers, or to types that only look equal.
fn registers(rng: &mut Rng) -> Draft {
    let choices = [2, 3, 4, 5].map(|t| ValueType::reference(t + 1));
    let (param, register) = (rng.pick(&choices), rng.pick(&choices));
    let mut out = draft(&[param], &[]);
    let [a, b] = [0, 1].map(ValueType::reference);
    out.sheet.types.extend([
        func(&[a], &[]),
        func(&[a], &[]),
        func(&[b], &[]),
        sheets::build::structure(None, &[]),
    ]);
    out.sheet.functions.push(of_signature(&[register]));
    out
}
