//! One record or instruction with several faults: which one is reported shows the order of the tests.

use sheets::build::{
    abc, aw, export, func, function, hook_function, import, listed, ret_void, strings,
};
use sheets::{
    op, ExportKind, Function, Handler, HostEntry, Import, Param, ShapeEntry, Sheet, TypeEntry,
    ValueType, DYN, STR,
};

use super::Border;
use crate::{Draft, Rng};

pub const BORDERS: &[Border] = &[
    ("one type, several faults", one_type),
    ("one import, several faults", one_import),
    ("one record, several faults", one_record),
    ("one call, several faults", one_call),
    ("regions, several faults", regions),
    ("types made by instructions", made),
    ("hooks, start and exports, several faults", ends),
];

const I8: ValueType = ValueType(1);

/// Two strings; types: 0 func of nothing, 1 func of two dyn, 2 coroutine.
fn draft() -> Draft {
    Draft {
        sheet: Sheet {
            strings: strings(&["a", "b"]),
            types: vec![func(&[], &[]), func(&[DYN; 2], &[]), TypeEntry::Coroutine],
            ..Sheet::default()
        },
        hosts: Vec::new(),
    }
}

/// In range or not; absent numbers differ, so that the report tells which one was found.
fn number(rng: &mut Rng, len: usize) -> u32 {
    if rng.coin() {
        rng.index(len)
    } else {
        (len + rng.below(40)) as u32
    }
}

fn reference(rng: &mut Rng) -> ValueType {
    ValueType::reference(number(rng, 4))
}

fn one_type(rng: &mut Rng) -> Draft {
    let mut out = draft();
    let few = |rng: &mut Rng| 0..rng.within(0, 2);
    out.sheet.functions = vec![function(&[], &[ret_void()])];
    out.sheet.types.push(match rng.below(5) {
        0 => TypeEntry::Map(reference(rng), reference(rng)),
        1 => TypeEntry::Iter(reference(rng), reference(rng)),
        2 => TypeEntry::Func {
            params: few(rng).map(|_| reference(rng)).collect(),
            results: few(rng).map(|_| reference(rng)).collect(),
        },
        _ => TypeEntry::Struct {
            name: number(rng, 2),
            parent: rng.one_in(3).then(|| number(rng, 4)),
            fields: few(rng).map(|_| (number(rng, 2), reference(rng))).collect(),
            methods: few(rng).map(|_| (number(rng, 2), number(rng, 1))).collect(),
        },
    });
    out
}

fn params(rng: &mut Rng, length: usize) -> Vec<Param> {
    let param = |_| Param {
        flags: rng.index(5),
        name: rng.one_in(3).then(|| rng.index(3)),
    };
    (0..length).map(param).collect()
}

fn one_import(rng: &mut Rng) -> Draft {
    let mut out = draft();
    let scheduled = out.sig(&[DYN], &[DYN]);
    let sig = rng.pick(&[0, scheduled, scheduled, 2, 9]);
    let mut entry = import(number(rng, 2), number(rng, 2), sig);
    if rng.coin() {
        entry.module = rng.index(2);
        entry.name = rng.index(2);
    }
    if rng.coin() {
        let length = rng.below(3);
        entry.params = Some(params(rng, length));
    }
    out.sheet.imports.push(entry);
    for (module, name) in [("a", "a"), ("a", "b"), ("b", "a"), ("b", "b")] {
        if !rng.one_in(4) {
            out.hosts.push(HostEntry {
                module: module.into(),
                name: name.into(),
                scheduler: rng.coin(),
            });
        }
    }
    out
}

fn one_record(rng: &mut Rng) -> Draft {
    let mut out = draft();
    let sig = rng.pick(&[0, 1, 1, 1, 1, 1, 1, 1, 2, 9]);
    let count = if sig == 1 { 2 } else { 0 };
    let mut f = function(&vec![DYN; count], &[ret_void()]);
    f.sig = sig;
    if rng.one_in(6) {
        f.regs.push(ValueType::reference(7));
    }
    if rng.one_in(6) && count > 0 {
        f.regs[1] = STR;
    }
    if rng.one_in(3) {
        f.params = Some(params(rng, count));
    }
    if rng.coin() {
        let kind = rng.pick(&[0, 1, 3]);
        f.shapes = vec![vec![ShapeEntry { kind, name: 5 }]];
    }
    if rng.coin() {
        f.captures = vec![ValueType::reference(8)];
    }
    if rng.coin() {
        f.names = vec![0, 6];
    }
    if rng.coin() {
        f.type_refs = vec![0, 9];
    }
    out.sheet.functions.push(f);
    out
}

/// An import of two dyn, with any list or none.
fn import_of_two(rng: &mut Rng) -> Import {
    let lists = [None, listed(&[0, 2]), listed(&[2, 2]), listed(&[0, 0])];
    Import {
        params: rng.pick(&lists),
        ..import(0, 0, 1)
    }
}

/// Up to two regions over the first three of four positions.
fn few_regions(rng: &mut Rng) -> Vec<Handler> {
    let count = rng.within(0, 2);
    let region = |_| {
        let start = rng.index(3);
        Handler {
            start,
            end: start + 1 + rng.index(3 - start as usize),
            target: 0,
            catch: 0,
        }
    };
    (0..count).map(region).collect()
}

/// A call in a small frame, by a random count, of a callee with or without captures, under regions or not.
fn one_call(rng: &mut Rng) -> Draft {
    let mut out = draft();
    out.hosts.push(sheets::build::user("a", "a"));
    out.sheet.imports.push(import_of_two(rng));
    let callee = |sig, captures| Function {
        sig,
        captures: vec![DYN; captures],
        ..function(&[DYN; 2], &[ret_void()])
    };
    let regs = rng.within(1, 5);
    let code = rng.pick(&[7, 7, 7, 8, 8, 15, 15, 20, 20, 21, 22]);
    let w = match code {
        op::TAIL_CALL_INDIRECT | op::CALL_IMPORT => 0,
        _ => rng.within(1, 4) as u32,
    };
    // Callees 3 and 4 and the import take two.
    let right = if code == op::CALL_IMPORT || w > 2 {
        2
    } else {
        0
    };
    let d = if rng.coin() {
        right
    } else {
        rng.index(4) as u8
    };
    let a = rng.below(regs) as u16;
    let mut lines = vec![ret_void(); 4];
    lines[rng.below(3)] = aw(code, d, a, w);
    let mut caller = function(&vec![DYN; regs], &lines);
    caller.handlers = few_regions(rng);
    out.sheet.functions = vec![
        caller,
        callee(0, 0),
        callee(0, 1),
        callee(1, 0),
        callee(1, 1),
    ];
    out
}

/// Handlers and tables with any ends, targets and catch registers about their borders.
fn regions(rng: &mut Rng) -> Draft {
    let mut out = draft();
    let length = rng.within(1, 3);
    let mut f = function(&[DYN, I8], &vec![ret_void(); length]);
    let past = length + usize::from(rng.one_in(3));
    for _ in 0..rng.within(1, 3) {
        let start = rng.index(length);
        f.handlers.push(Handler {
            start,
            end: rng.within(start as usize, past) as u32,
            target: rng.index(past),
            catch: rng.pick(&[0, 0, 0, 0, 0, 1, 2, 65536]),
        });
    }
    if rng.coin() {
        f.tables.push(sheets::Table {
            targets: vec![rng.index(past)],
            default: number(rng, past),
        });
    }
    out.sheet.functions.push(f);
    out
}

/// NewStruct to NewCell over types of every kind, and additions that promote into any register.
fn made(rng: &mut Rng) -> Draft {
    let mut out = draft();
    out.sheet.types.extend([
        sheets::build::structure(None, &[]),
        TypeEntry::Array(DYN),
        TypeEntry::Map(DYN, DYN),
        TypeEntry::Cell(DYN),
        TypeEntry::Iter(DYN, DYN),
        TypeEntry::Coroutine,
    ]);
    let regs = [DYN, STR, ValueType::reference(3), I8];
    let inst = if !rng.one_in(3) {
        abc(rng.within(24, 27) as u8, 0, 0, rng.below(9) as u16, 0)
    } else {
        let code = rng.pick(&[op::I_ADD, op::D_ADD, op::D_ADD]);
        let d = rng.pick(&[2, 3, 3, 7]);
        abc(code, d, rng.below(4) as u16, 0, 0)
    };
    out.sheet.functions.push(Function {
        type_refs: (0..9).collect(),
        ..function(&regs, &[inst, ret_void()])
    });
    out
}

fn ends(rng: &mut Rng) -> Draft {
    let mut out = draft();
    let captures = rng.below(2);
    out.sheet.functions = vec![Function {
        captures: vec![DYN; captures],
        ..function(&[], &[ret_void()])
    }];
    if rng.coin() {
        let f = rng.pick(&[0, 3, 4]);
        out.sheet.hooks.push(hook_function(rng.index(31), f));
    }
    if rng.coin() {
        out.sheet.start = Some(rng.pick(&[0, 0, 5, 6]));
    }
    for _ in 0..rng.within(0, 3) {
        let kind = rng.pick(&ExportKind::ALL);
        let (name, index) = (rng.pick(&[0, 1, 5, 6]), rng.pick(&[0, 0, 7, 8]));
        out.sheet.exports.push(export(kind, name, index));
    }
    out
}
