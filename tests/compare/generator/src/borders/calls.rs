//! Borders of registers, windows, argument counts and handlers.

use sheets::build::{abc, aw, func, function, ret_void, strings, user};
use sheets::{op, Function, Handler, ShapeEntry, Sheet, TypeEntry, ValueType, DYN};

use super::Border;
use crate::{Draft, Rng};

pub const BORDERS: &[Border] = &[
    ("window at the frame", window),
    ("argument counts about 255", argc),
    ("closure of many captures", closure),
    ("shape of many entries", long_shape),
    ("about eight handlers", handlers),
    ("tail call at a region's end", tail_call),
    ("record before code", record_before_code),
    ("modifiers", modifiers),
];

pub const WIDE: &[Border] = &[
    ("about 65,536 registers", registers),
    ("window after the last register", last_window),
];

const I8: ValueType = ValueType(1);

fn draft(types: Vec<TypeEntry>, functions: Vec<Function>) -> Draft {
    Draft {
        sheet: Sheet {
            strings: strings(&["s"]),
            types,
            functions,
            ..Sheet::default()
        },
        hosts: vec![user("s", "s")],
    }
}

/// Every code with a window, its last register at the frame's end or one past it.
fn window(rng: &mut Rng) -> Draft {
    let regs = rng.within(2, 12);
    let code = rng.pick(&[7, 8, 15, 16, 17, 18, 19, 20, 21, 22, 23, 28, 29]);
    let a = rng.below(regs);
    let first = match code {
        op::TAIL_CALL | op::TAIL_CALL_INDIRECT | op::STR_CONCAT_N | op::STR_SLICE => a,
        _ => a + 1,
    };
    let n = (regs - first + rng.within(0, 1)) as u8;
    let a = a as u16;
    let callee = Function {
        sig: 1,
        ..function(&vec![DYN; n.into()], &[ret_void()])
    };
    let closed = Function {
        captures: vec![DYN; n.into()],
        ..function(&[], &[ret_void()])
    };
    let inst = match code {
        op::STR_CONCAT_N => abc(code, n, 0, a, 0),
        op::STR_SLICE => abc(code, 0, 0, 0, a),
        op::MAKE_CLOSURE => aw(code, 0, a, 2),
        op::CALL_IMPORT => aw(code, n, a, 0),
        op::TAIL_CALL | op::CALL | op::CORO_NEW => aw(code, n, a, 1),
        _ => abc(code, n, a, 0, 0),
    };
    let entry = ShapeEntry { kind: 0, name: 0 };
    let caller = Function {
        shapes: vec![vec![entry; n.into()]],
        ..function(&vec![DYN; regs], &[inst, ret_void()])
    };
    let types = vec![func(&[], &[]), func(&vec![DYN; n.into()], &[])];
    let mut out = draft(types, vec![caller, callee, closed]);
    out.sheet.imports.push(sheets::build::import(0, 0, 1));
    out
}

fn argc(rng: &mut Rng) -> Draft {
    let params = rng.within(254, 257);
    let d = rng.pick(&[254, 255, 0, 1]);
    let code = rng.pick(&[op::CALL, op::TAIL_CALL, op::CORO_NEW, op::CALL_IMPORT]);
    let w = u32::from(code != op::CALL_IMPORT);
    let caller = function(&[I8; 260], &[aw(code, d, 0, w), ret_void()]);
    let callee = Function {
        sig: 1,
        ..function(&vec![I8; params], &[ret_void()])
    };
    let types = vec![func(&[], &[]), func(&vec![I8; params], &[])];
    let mut out = draft(types, vec![caller, callee]);
    out.sheet.imports.push(sheets::build::import(0, 0, 1));
    out
}

fn closure(rng: &mut Rng) -> Draft {
    let captures = rng.within(299, 301);
    let regs = rng.pick(&[2, 301, 302]);
    let closed = Function {
        captures: vec![I8; captures],
        ..function(&[], &[ret_void()])
    };
    let maker = function(
        &vec![I8; regs],
        &[aw(op::MAKE_CLOSURE, 7, 1, 1), ret_void()],
    );
    draft(vec![func(&[], &[])], vec![maker, closed])
}

fn long_shape(rng: &mut Rng) -> Draft {
    let length = rng.within(254, 258);
    let mut shape = vec![ShapeEntry { kind: 2, name: 9 }; length];
    shape[0] = ShapeEntry { kind: 1, name: 0 };
    let regs = length + rng.below(3);
    let f = Function {
        shapes: vec![shape],
        ..function(
            &vec![I8; regs],
            &[abc(op::D_CALL_SHAPE, 0, 0, 0, 0), ret_void()],
        )
    };
    draft(vec![func(&[], &[])], vec![f])
}

/// Regions that start, end and overlap anywhere; a table above eight of them.
fn handlers(rng: &mut Rng) -> Draft {
    let length = rng.within(1, 12);
    let mut handlers = Vec::new();
    for _ in 0..rng.within(7, 12) {
        let start = rng.below(length);
        handlers.push(Handler {
            start: start as u32,
            end: rng.within(start + 1, length) as u32,
            target: rng.index(length),
            catch: rng.index(2),
        });
    }
    let f = Function {
        handlers,
        ..function(&[DYN; 2], &vec![ret_void(); length])
    };
    draft(vec![func(&[], &[])], vec![f])
}

/// A tail call on either side of a region's end, under one of two regions or none.
fn tail_call(rng: &mut Rng) -> Draft {
    let region = |rng: &mut Rng| {
        let start = rng.below(4);
        Handler {
            start: start as u32,
            end: rng.within(start + 1, 4) as u32,
            target: 0,
            catch: 0,
        }
    };
    let mut code = vec![ret_void(); 5];
    let at = rng.below(5);
    code[at] = if rng.coin() {
        aw(op::TAIL_CALL, 0, 0, 0)
    } else {
        abc(op::TAIL_CALL_INDIRECT, 1, 0, 0, 0)
    };
    let f = Function {
        handlers: vec![region(rng), region(rng)],
        ..function(&[DYN], &code)
    };
    draft(vec![func(&[], &[])], vec![f])
}

/// Function 0 has a fault in its code, function 1 in its record.
fn record_before_code(rng: &mut Rng) -> Draft {
    let code = function(&[DYN], &[abc(op::MOVE, 0, 0, 9, 0)]);
    let record = Function {
        sig: rng.index(3),
        names: vec![rng.index(2)],
        ..function(&[I8], &[ret_void()])
    };
    draft(vec![func(&[], &[]), func(&[DYN], &[])], vec![code, record])
}

/// Every D below 16 and some that are congruent to one of them.
fn modifiers(rng: &mut Rng) -> Draft {
    let code = rng.pick(&[9, 10, 30, 31, 32, 33]);
    let small = rng.index(16) as u8;
    let near = match code {
        op::RAISE | op::FROM_DYN => rng.within(11, 13) as u8,
        _ => rng.within(2, 8) as u8,
    };
    let far = small + rng.pick(&[16, 64, 128]);
    let d = rng.pick(&[small, near, near, near, far]);
    let inst = abc(code, d, 0, 1, 0);
    draft(
        vec![func(&[], &[])],
        vec![function(&[DYN; 2], &[inst, ret_void()])],
    )
}

fn registers(rng: &mut Rng) -> Draft {
    let count = rng.within(65535, 65538);
    let mut regs = vec![I8; count];
    if rng.one_in(3) {
        regs[count - 1] = ValueType::reference(9);
    } else if rng.coin() {
        regs[65534..].fill(DYN);
    }
    draft(vec![func(&[], &[])], vec![function(&regs, &[ret_void()])])
}

fn last_window(rng: &mut Rng) -> Draft {
    let code = rng.pick(&[8, 16, 17, 18, 19, 28, 29]);
    let d = rng.pick(&[0, 1, 255]);
    let last = 65535;
    let inst = abc(code, d, last, last, last);
    draft(
        vec![func(&[], &[])],
        vec![function(&vec![DYN; 65536], &[inst, ret_void()])],
    )
}
