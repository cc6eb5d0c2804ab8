//! Faults of rule 7 in an instruction's fields and windows.

use sheets::build::{abc, aw};
use sheets::op;

use super::{fault, function_mut, place, register, some_function, Fault};
use crate::{Draft, Rng};

pub const FAULTS: &[Fault] = &[
    fault("register field", 3, 5, register_field),
    fault("window past the frame", 3, 5, window),
    fault("branch target", 3, 8, |rng, d| {
        w(rng, d, &[op::JMP, op::BRANCH])
    }),
    fault("table", 3, 10, |rng, d| w(rng, d, &[op::SWITCH])),
    fault("constant", 3, 4, |rng, d| w(rng, d, &[op::LOAD_CONST])),
    fault("global", 3, 7, |rng, d| w(rng, d, &[op::LOAD_GLOBAL])),
    fault("function", 3, 2, |rng, d| {
        w(
            rng,
            d,
            &[op::TAIL_CALL, op::CALL, op::CORO_NEW, op::MAKE_CLOSURE],
        );
    }),
    fault("import", 3, 6, |rng, d| w(rng, d, &[op::CALL_IMPORT])),
    fault("name", 3, 11, name),
    fault("type ref", 3, 12, |rng, d| {
        b(
            rng,
            d,
            &[op::NEW_STRUCT, op::NEW_ARRAY, op::NEW_MAP, op::NEW_CELL],
        );
    }),
    fault("capture", 3, 13, |rng, d| b(rng, d, &[op::LOAD_CAPTURE])),
    fault("shape", 3, 14, |rng, d| b(rng, d, &[op::D_CALL_SHAPE])),
];

/// Codes with a register in A.
const WITH_A: [u8; 32] = [
    2, 3, 5, 6, 7, 8, 9, 10, 11, 12, 13, 14, 15, 16, 17, 18, 19, 20, 21, 22, 23, 24, 25, 26, 27,
    28, 29, 30, 31, 32, 33, 34,
];
/// Codes with a register in B.
const WITH_B: [u8; 15] = [8, 9, 10, 13, 16, 17, 18, 19, 28, 29, 30, 32, 33, 34, 34];

fn register_field(rng: &mut Rng, draft: &mut Draft) {
    let f = function_mut(rng, draft);
    let r = register(rng, f);
    let absent = rng.absent(f.regs.len()).min(65535) as u16;
    let d = rng.index(256) as u8;
    let inst = match rng.below(3) {
        0 => abc(rng.pick(&WITH_A), d, absent, r, r),
        1 => abc(rng.pick(&WITH_B), d, r, absent, r),
        _ => abc(
            rng.pick(&[op::I_ADD, op::D_ADD, op::STR_SLICE]),
            d,
            r,
            r,
            absent,
        ),
    };
    place(rng, f, inst);
}

/// A window that ends one register past the frame, or further.
fn window(rng: &mut Rng, draft: &mut Draft) {
    let callee = some_function(rng, draft) as u32;
    let f = function_mut(rng, draft);
    let a = register(rng, f);
    let room = f.regs.len() - usize::from(a);
    let past = |rng: &mut Rng, room: usize| (room + rng.within(1, 4)).min(255) as u8;
    let inst = match rng.below(6) {
        0 => abc(op::TAIL_CALL_INDIRECT, past(rng, room), a, 0, 0),
        1 => abc(op::STR_CONCAT_N, past(rng, room), 0, a, 0),
        2 => {
            let last = (f.regs.len() - 1) as u16;
            abc(op::STR_SLICE, 0, a, a, last)
        }
        3 => {
            let code = rng.pick(&[op::CALL, op::CORO_NEW]);
            aw(code, past(rng, room - 1), a, callee)
        }
        _ => {
            let code = rng.pick(&[16, 17, 18, 19]);
            abc(code, past(rng, room - 1), a, 0, 0)
        }
    };
    place(rng, f, inst);
}

/// How many there are of what W of this code names.
fn length(draft: &Draft, at: usize, code: u8) -> usize {
    let f = &draft.sheet.functions[at];
    match code {
        op::JMP | op::BRANCH => f.code.len() + 2,
        op::SWITCH => f.tables.len(),
        op::LOAD_CONST => draft.sheet.constants.len(),
        op::LOAD_GLOBAL => draft.sheet.globals.len(),
        op::CALL_IMPORT => draft.sheet.imports.len(),
        op::LOAD_CAPTURE => f.captures.len(),
        op::D_CALL_SHAPE => f.shapes.len(),
        op::NEW_STRUCT..=op::NEW_CELL => f.type_refs.len(),
        _ => draft.sheet.functions.len(),
    }
}

fn w(rng: &mut Rng, draft: &mut Draft, codes: &[u8]) {
    let at = some_function(rng, draft);
    let code = rng.pick(codes);
    let absent = rng.absent(length(draft, at, code));
    let f = &mut draft.sheet.functions[at];
    let a = register(rng, f);
    place(rng, f, aw(code, 0, a, absent));
}

fn b(rng: &mut Rng, draft: &mut Draft, codes: &[u8]) {
    let at = some_function(rng, draft);
    let code = rng.pick(codes);
    let absent = rng.absent(length(draft, at, code)).min(65535) as u16;
    let f = &mut draft.sheet.functions[at];
    let a = register(rng, f);
    place(rng, f, abc(code, 0, a, absent, 0));
}

fn name(rng: &mut Rng, draft: &mut Draft) {
    let f = function_mut(rng, draft);
    let absent = rng.absent(f.names.len()).min(65535) as u16;
    let r = register(rng, f);
    place(rng, f, abc(op::LOAD_NAME, 0, r, r, absent));
}
