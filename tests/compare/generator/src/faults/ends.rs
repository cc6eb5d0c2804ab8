//! Faults of rule 8: hooks and start.

use sheets::build::{function, hook_function, hook_import, ret_void};
use sheets::{Function, ValueType, DYN};

use super::{fault, Fault};
use crate::valid::hook_shape;
use crate::{Draft, Rng};

pub const FAULTS: &[Fault] = &[
    fault("hook's function", 3, 2, hook_function_absent),
    fault("hook's import", 3, 6, hook_import_absent),
    fault("hook's shape", 19, 0, hook_of_another_shape),
    fault("start function", 3, 2, start_absent),
    fault("start's shape", 20, 0, start_shape),
    fault("start with captures", 9, 0, start_captures),
];

/// Puts the binding anywhere among the others; each one is judged.
fn bind(rng: &mut Rng, draft: &mut Draft, binding: sheets::HookBinding) {
    let at = rng.below(draft.sheet.hooks.len() + 1);
    draft.sheet.hooks.insert(at, binding);
}

fn hook_function_absent(rng: &mut Rng, draft: &mut Draft) {
    let absent = rng.absent(draft.sheet.functions.len());
    let binding = hook_function(rng.index(31), absent);
    bind(rng, draft, binding);
}

fn hook_import_absent(rng: &mut Rng, draft: &mut Draft) {
    let absent = rng.absent(draft.sheet.imports.len());
    let binding = hook_import(rng.index(31), absent);
    bind(rng, draft, binding);
}

fn add(draft: &mut Draft, params: &[ValueType], results: &[ValueType], captures: usize) -> u32 {
    let sig = draft.sig(params, results);
    draft.sheet.functions.push(Function {
        sig,
        captures: vec![DYN; captures],
        ..function(params, &[ret_void()])
    });
    draft.sheet.functions.len() as u32 - 1
}

fn hook_of_another_shape(rng: &mut Rng, draft: &mut Draft) {
    let hook = rng.index(31);
    let (count, result) = hook_shape(hook);
    let plain = ValueType(rng.index(12));
    let mut params = vec![DYN; count];
    let mut results = vec![DYN; usize::from(result)];
    let mut captures = 0;
    match rng.below(6) {
        0 => params.push(DYN),
        1 => drop(params.pop()),
        2 => params[rng.below(count)] = plain,
        3 if result => results.clear(),
        3 => results.push(DYN),
        4 => results = vec![plain],
        _ => captures = 1,
    }
    let function = add(draft, &params, &results, captures);
    let imports = draft.sheet.imports.len();
    // An import of any shape mostly does not fit either.
    let binding = if imports > 0 && rng.one_in(3) {
        hook_import(hook, rng.index(imports))
    } else {
        hook_function(hook, function)
    };
    bind(rng, draft, binding);
}

fn start_absent(rng: &mut Rng, draft: &mut Draft) {
    draft.sheet.start = Some(rng.absent(draft.sheet.functions.len()));
}

fn start_shape(rng: &mut Rng, draft: &mut Draft) {
    let captures = rng.below(2);
    let any = draft.value_type(rng);
    let start = match rng.below(3) {
        0 => add(draft, &[any], &[], captures),
        1 => add(draft, &[], &[any], captures),
        _ => add(draft, &[DYN], &[any], captures),
    };
    draft.sheet.start = Some(start);
}

fn start_captures(rng: &mut Rng, draft: &mut Draft) {
    let captures = rng.within(1, 3);
    draft.sheet.start = Some(add(draft, &[], &[], captures));
}
