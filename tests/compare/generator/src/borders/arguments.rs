//! Borders of the arguments of imports. They choose the edition themselves.

use sheets::build::{
    abc, aw, func, function, hook_import, import, listed, ret_void, strings, user,
};
use sheets::{op, Edition, Function, Import, Param, Sheet, DYN};

use super::Border;
use crate::{hook_shape, Draft, Rng};

pub const BORDERS: &[Border] = &[
    ("arguments about the fewest and the most", counts),
    ("arguments at the frame's end", frames),
    ("arguments of about 256 parameters", many_parameters),
    ("imports with different lists", different_lists),
    ("functions with optional parameters", functions),
    ("hooks of imports with optional parameters", hooks),
];

/// Which fault is found shows the order of the tests.
pub const SEVERAL: &[Border] = &[("calls of imports, several faults", several)];

/// Type 0 is a func of nothing; every import is bound to the one host function.
fn draft(rng: &mut Rng) -> Draft {
    Draft {
        sheet: Sheet {
            edition: rng.pick(&Edition::ALL),
            strings: strings(&["a", "b"]),
            types: vec![func(&[], &[])],
            ..Sheet::default()
        },
        hosts: vec![user("a", "b")],
    }
}

/// A list of n parameters, the first r of them mandatory, any of them by reference.
fn list(rng: &mut Rng, r: usize, n: usize) -> Option<Vec<Param>> {
    let flags = |i: usize| rng.index(2) + 2 * u32::from(i >= r);
    listed(&(0..n).map(flags).collect::<Vec<_>>())
}

/// No list, or one where none, all or some are mandatory.
fn some_list(rng: &mut Rng, n: usize) -> Option<Vec<Param>> {
    let some = rng.within(1.min(n), n);
    let r = rng.pick(&[0, n, some, some, some]);
    let list = list(rng, r, n);
    list.filter(|_| !rng.one_in(5))
}

/// Adds an import of n dyn with this list.
fn add(draft: &mut Draft, n: usize, params: Option<Vec<Param>>) -> u32 {
    let sig = draft.sig(&vec![DYN; n], &[]);
    let imports = &mut draft.sheet.imports;
    imports.push(Import {
        params,
        ..import(0, 1, sig)
    });
    imports.len() as u32 - 1
}

/// As many as are mandatory by the list in any edition, and as many as there are.
fn mandatory(draft: &Draft, import: u32) -> (usize, usize) {
    let mut second = draft.clone();
    second.sheet.edition = Edition::Second;
    second.arguments(import).expect("an import")
}

/// A count on either side of the mandatory ones and of all, or between.
fn about(rng: &mut Rng, (r, n): (usize, usize)) -> u8 {
    let between = rng.within(r, n);
    let counts = [r.saturating_sub(1), r, between, n, n + 1, n + 1];
    rng.pick(&counts).min(255) as u8
}

/// Adds a function of so many dyn with this code.
fn add_code(draft: &mut Draft, regs: usize, code: &[u64]) {
    let code = [code, &[ret_void()]].concat();
    draft
        .sheet
        .functions
        .push(function(&vec![DYN; regs], &code));
}

fn counts(rng: &mut Rng) -> Draft {
    let mut out = draft(rng);
    let n = rng.within(0, 5);
    let params = some_list(rng, n);
    let import = add(&mut out, n, params);
    let d = about(rng, mandatory(&out, import));
    let a = rng.below(3);
    let regs = a + 1 + usize::from(d) + rng.below(2);
    add_code(&mut out, regs, &[aw(op::CALL_IMPORT, d, a as u16, import)]);
    out
}

/// The frame has room for just the mandatory arguments, for all, or for one less, and the count may be wrong as well.
fn frames(rng: &mut Rng) -> Draft {
    let mut out = draft(rng);
    let n = rng.within(0, 4);
    let params = some_list(rng, n);
    let import = add(&mut out, n, params);
    let (r, n) = mandatory(&out, import);
    let room = rng.pick(&[r, r, n, n + 1, r.saturating_sub(1), n.saturating_sub(1)]);
    let d = match rng.below(4) {
        0 => room as u8,
        1 => room as u8 + 1,
        _ => about(rng, (r, n)),
    };
    let a = rng.below(3);
    let call = aw(op::CALL_IMPORT, d, a as u16, import);
    add_code(&mut out, a + 1 + room, &[call]);
    out
}

/// Mandatory parameters, and all of them.
const MANY: [(usize, usize); 12] = [
    (0, 254),
    (0, 255),
    (0, 256),
    (0, 257),
    (1, 256),
    (254, 256),
    (255, 256),
    (256, 256),
    (255, 300),
    (256, 257),
    (256, 257),
    (256, 300),
];

fn many_parameters(rng: &mut Rng) -> Draft {
    let mut out = draft(rng);
    let (r, n) = rng.pick(&MANY);
    let params = list(rng, r, n);
    let import = add(&mut out, n, params);
    let d = rng.pick(&[0, 1, r.saturating_sub(1), r, 254, 255]).min(255);
    let regs = d + 1 - usize::from(d > 0 && rng.one_in(8));
    add_code(&mut out, regs, &[aw(op::CALL_IMPORT, d as u8, 0, import)]);
    out
}

/// Calls of several imports from several functions, one after the other; often one of them has one argument too few or too many.
fn different_lists(rng: &mut Rng) -> Draft {
    let mut out = draft(rng);
    for _ in 0..rng.within(2, 6) {
        // Often as many as another.
        let n = rng.pick(&[0, 1, 2, 3, 3, 3, 4]);
        let params = some_list(rng, n);
        add(&mut out, n, params);
    }
    let imports = out.sheet.imports.len();
    let calls = rng.within(2, 16);
    let wrong = rng.below(2 * calls);
    let mut code = Vec::new();
    for k in 0..calls {
        let import = rng.index(imports);
        let (r, n) = out.arguments(import).expect("an import");
        let between = rng.within(r, n);
        let d = match k == wrong {
            true => rng.pick(&[r.saturating_sub(1), n + 1]),
            false => rng.pick(&[r, between, n]),
        };
        code.push(aw(op::CALL_IMPORT, d as u8, 0, import));
        if rng.one_in(4) {
            add_code(&mut out, 6, &code);
            code.clear();
        }
    }
    add_code(&mut out, 6, &code);
    out
}

/// A function with a list of its own, called behind an import with the same list.
fn functions(rng: &mut Rng) -> Draft {
    let mut out = draft(rng);
    let n = rng.within(1, 4);
    let params = some_list(rng, n);
    let import = add(&mut out, n, params.clone());
    let (fewest, most) = out.arguments(import).expect("an import");
    let code = rng.pick(&[op::CALL, op::TAIL_CALL, op::CORO_NEW]);
    let about = about(rng, mandatory(&out, import));
    let d = rng.pick(&[n as u8, about, about]);
    let calls = [
        aw(op::CALL_IMPORT, rng.within(fewest, most) as u8, 0, import),
        aw(code, d, 0, 1),
    ];
    add_code(&mut out, 6, &calls[rng.below(2)..]);
    let sig = out.sheet.imports[import as usize].sig;
    out.sheet.functions.push(Function {
        sig,
        params,
        ..function(&vec![DYN; n], &[ret_void()])
    });
    out
}

/// A hook goes by the signature: the mandatory parameters may be as many as it has, or not.
fn hooks(rng: &mut Rng) -> Draft {
    let mut out = draft(rng);
    let hook = rng.index(31);
    let (count, result) = hook_shape(hook);
    let n = rng.pick(&[count, count, count + 1, count + 1, count - 1]);
    let r = rng.pick(&[0, count.min(n), n]);
    let params = list(rng, r, n);
    let sig = out.sig(&vec![DYN; n], &vec![DYN; usize::from(result)]);
    out.sheet.imports.push(Import {
        params,
        ..import(0, 1, sig)
    });
    out.sheet.hooks.push(hook_import(hook, 0));
    let d = about(rng, (r, n));
    if rng.coin() {
        add_code(&mut out, 6, &[aw(op::CALL_IMPORT, d, 0, 0)]);
    }
    out
}

/// Something at a position of eight registers, where import 0 has three parameters and one is mandatory; absent numbers tell where.
fn step(rng: &mut Rng, edition: Edition, position: u16) -> u64 {
    let right = if edition.may_leave_out() {
        1 + rng.index(3) as u8
    } else {
        3
    };
    match rng.below(24) {
        0 => abc(op::MOVE, 0, 0, 20 + position, 0),
        1 => abc(op::I_ADD, 3, 0, 0, 0),
        2 => aw(op::CALL_IMPORT, 3, 20 + position, 9),
        3 => aw(op::CALL_IMPORT, 9, 0, 20 + u32::from(position)),
        // The window and the count are wrong.
        4 => aw(op::CALL_IMPORT, 4 + position as u8, 6, 0),
        5 => aw(op::CALL_IMPORT, 0, 7, 0),
        6 => aw(op::CALL_IMPORT, 4 + rng.index(2) as u8, 0, 0),
        7 | 8 => aw(op::CALL_IMPORT, 1 + rng.index(2) as u8, 0, 0),
        _ => aw(op::CALL_IMPORT, right, rng.index(4) as u16, 0),
    }
}

/// Calls of one import among other instructions, faults before them, behind them and in other rules.
fn several(rng: &mut Rng) -> Draft {
    let mut out = draft(rng);
    let mut params = list(rng, 1, 3);
    if rng.one_in(8) {
        // Rule 5 comes first: a mandatory one behind an optional.
        params = listed(&[2, 0, 2]);
    }
    add(&mut out, 3, params);
    for _ in 0..rng.within(1, 2) {
        let steps = 0..rng.within(1, 5) as u16;
        let code: Vec<u64> = steps
            .map(|position| step(rng, out.sheet.edition, position))
            .collect();
        add_code(&mut out, 8, &code);
    }
    let last = out.sheet.functions.len() - 1;
    match rng.below(8) {
        0 => out.sheet.functions[last].names.push(7),
        1 => out.sheet.start = Some(9),
        2 => out.sheet.hooks.push(hook_import(0, 0)),
        _ => {}
    }
    out
}
