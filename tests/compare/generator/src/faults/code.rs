//! Faults of rule 7 beside fields: ends, handlers, tables, calls, modifiers.

use sheets::build::{abc, aw, function, ret_void};
use sheets::{op, Function, Handler, Table, TypeEntry, ValueType, DYN};

use super::{dynamic, fault, function_mut, place, some_function, widen, Fault};
use crate::{Draft, Rng};

pub const FAULTS: &[Fault] = &[
    fault("no code", 6, 0, |rng, d| function_mut(rng, d).code.clear()),
    fault("code that falls through", 7, 0, falls_through),
    fault("handler", 13, 0, handler),
    fault("catch register of 32 bits", 13, 0, wide_catch),
    fault("catch register not dyn", 14, 0, catch_not_dyn),
    fault("table target", 3, 9, table_target),
    fault("argument count of a function", 8, 0, arity),
    fault("callee with captures", 9, 0, captures),
    fault("promote", 10, 0, promote),
    fault("no struct", 11, 1, |rng, d| {
        type_kind(rng, d, op::NEW_STRUCT)
    }),
    fault("no array", 11, 2, |rng, d| type_kind(rng, d, op::NEW_ARRAY)),
    fault("no map", 11, 3, |rng, d| type_kind(rng, d, op::NEW_MAP)),
    fault("no cell", 11, 4, |rng, d| type_kind(rng, d, op::NEW_CELL)),
    fault("modifier", 12, 0, modifier),
    fault("tail call under a handler", 15, 0, tail_call),
];

fn falls_through(rng: &mut Rng, draft: &mut Draft) {
    let f = function_mut(rng, draft);
    let r = dynamic(f);
    let code = rng.pick(&[op::MOVE, op::BRANCH, op::RAISE, op::I_ADD]);
    f.code.push(abc(code, 0, r, 0, 0));
}

/// A handler that holds over code of this length.
fn whole(f: &mut Function) -> Handler {
    let catch = dynamic(f).into();
    Handler {
        start: 0,
        end: f.code.len() as u32,
        target: 0,
        catch,
    }
}

fn handler(rng: &mut Rng, draft: &mut Draft) {
    let f = function_mut(rng, draft);
    let mut h = whole(f);
    let length = f.code.len();
    match rng.below(5) {
        0 => h.start = h.end,
        1 => (h.start, h.end) = (h.end, 0),
        2 => h.end = rng.absent(length).max(length as u32 + 1),
        3 => h.target = rng.absent(length),
        _ => h.catch = rng.absent(f.regs.len()),
    }
    let at = rng.below(f.handlers.len() + 1);
    f.handlers.insert(at, h);
}

fn wide_catch(rng: &mut Rng, draft: &mut Draft) {
    let f = function_mut(rng, draft);
    let mut h = whole(f);
    h.catch += 65536;
    f.handlers.push(h);
}

fn catch_not_dyn(rng: &mut Rng, draft: &mut Draft) {
    let f = function_mut(rng, draft);
    let mut h = whole(f);
    f.regs.push(ValueType(rng.index(12)));
    h.catch = f.regs.len() as u32 - 1;
    // A second, broken handler after it is not reached.
    f.handlers.push(h);
    if rng.coin() {
        f.handlers.push(Handler { end: h.start, ..h });
    }
}

fn table_target(rng: &mut Rng, draft: &mut Draft) {
    let f = function_mut(rng, draft);
    let absent = rng.absent(f.code.len());
    let (targets, default) = match rng.below(2) {
        0 => (vec![0, absent], absent),
        _ => (vec![0], absent),
    };
    f.tables.push(Table { targets, default });
}

/// A list of its own makes no argument of a function optional.
fn arity(rng: &mut Rng, draft: &mut Draft) {
    let callee = some_function(rng, draft);
    let sig = draft.sheet.functions[callee].sig;
    let expected = draft.signature(sig).map_or(0, |s| s.0.len());
    let less = expected.saturating_sub(1);
    let more = if rng.one_in(8) { 255 } else { expected + 2 };
    let found = rng.pick(&[expected + 1, more, less]) as u8;
    let f = function_mut(rng, draft);
    widen(f, found);
    let code = rng.pick(&[op::CALL, op::TAIL_CALL, op::CORO_NEW]);
    place(rng, f, aw(code, found, 0, callee as u32));
}

fn captures(rng: &mut Rng, draft: &mut Draft) {
    let params = vec![DYN; rng.within(0, 2)];
    let sig = draft.sig(&params, &[]);
    draft.sheet.functions.push(Function {
        sig,
        captures: vec![DYN],
        ..function(&params, &[ret_void()])
    });
    let callee = draft.sheet.functions.len() as u32 - 1;
    // At times with a wrong count too, which comes first.
    let argc = params.len() as u8 + u8::from(rng.one_in(5));
    let f = function_mut(rng, draft);
    widen(f, argc);
    let code = rng.pick(&[op::CALL, op::TAIL_CALL, op::CORO_NEW]);
    place(rng, f, aw(code, argc, 0, callee));
}

fn promote(rng: &mut Rng, draft: &mut Draft) {
    let f = function_mut(rng, draft);
    let (code, a) = if rng.coin() {
        (op::I_ADD, dynamic(f))
    } else {
        // Str is a reference too, but not dyn.
        f.regs.push(ValueType(rng.pick(&[0, 4, 10, 11, 11])));
        (op::D_ADD, f.regs.len() as u16 - 1)
    };
    place(rng, f, abc(code, 3, a, 0, 0));
}

fn type_kind(rng: &mut Rng, draft: &mut Draft, code: u8) {
    let wrong = draft.types_with(|t| match t {
        TypeEntry::Struct { .. } => code != op::NEW_STRUCT,
        TypeEntry::Array(_) => code != op::NEW_ARRAY,
        TypeEntry::Map(..) => code != op::NEW_MAP,
        TypeEntry::Cell(_) => code != op::NEW_CELL,
        _ => true,
    });
    let wrong = match rng.choose(&wrong) {
        Some(t) => t,
        None => draft.entry(TypeEntry::Coroutine),
    };
    let f = function_mut(rng, draft);
    f.type_refs.push(wrong);
    let b = f.type_refs.len() as u16 - 1;
    let a = dynamic(f);
    place(rng, f, abc(code, 0, a, b, 0));
}

fn modifier(rng: &mut Rng, draft: &mut Draft) {
    let f = function_mut(rng, draft);
    let r = dynamic(f);
    let (code, d) = match rng.below(3) {
        0 => (op::FROM_DYN, 13),
        1 => {
            let any = rng.within(12, 255) as u8;
            (op::RAISE, rng.pick(&[12, 12, 13, any]))
        }
        _ => {
            let code = rng.pick(&[op::FLOAT_TO_BITS, op::BITS_TO_FLOAT]);
            (code, rng.pick(&[0, 1, 2, 2, 5, 6, 6, 9, 35, 131]))
        }
    };
    place(rng, f, abc(code, d, r, r, 0));
}

fn tail_call(rng: &mut Rng, draft: &mut Draft) {
    let sig = draft.sig(&[], &[]);
    draft.sheet.functions.push(Function {
        sig,
        ..function(&[], &[ret_void()])
    });
    let callee = draft.sheet.functions.len() as u32 - 1;
    let f = function_mut(rng, draft);
    let r = dynamic(f);
    let inst = if rng.coin() {
        aw(op::TAIL_CALL, 0, r, callee)
    } else {
        abc(op::TAIL_CALL_INDIRECT, 0, r, r, 0)
    };
    f.code.insert(0, inst);
    // Two regions, of which one ends before the call: the other still covers it.
    let mut h = whole(f);
    if rng.coin() {
        f.code.insert(0, abc(op::MOVE, 0, r, r, 0));
        f.handlers.push(Handler { end: 1, ..h });
        h.end += 1;
    }
    f.handlers.push(h);
}
