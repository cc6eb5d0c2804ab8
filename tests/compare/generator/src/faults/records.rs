//! Faults of rule 6: function records.

use sheets::build::{function, ret_void};
use sheets::{Function, TypeEntry, ValueType, DYN};

use super::params::{bad_param_list, bad_shape, some_params};
use super::{fault, function_mut, some_function, Fault};
use crate::{Draft, Rng};

pub const FAULTS: &[Fault] = &[
    fault("function's signature", 3, 1, signature),
    fault("function's signature no func", 4, 0, signature_no_func),
    fault("register's type", 3, 1, register_type),
    fault("registers are not the parameters", 5, 0, registers),
    fault("registers fewer than parameters", 5, 0, too_few_registers),
    fault(
        "register of another equal-looking struct",
        5,
        0,
        other_struct,
    ),
    fault("function's parameter list", 21, 0, parameter_list),
    fault("call shape", 22, 0, shape),
    fault("capture's type", 3, 1, capture_type),
    fault("function's names", 3, 3, names),
    fault("function's type refs", 3, 1, type_refs),
];

fn signature(rng: &mut Rng, draft: &mut Draft) {
    let at = some_function(rng, draft);
    let absent = rng.absent(draft.sheet.types.len());
    draft.sheet.functions[at].sig = absent;
}

fn signature_no_func(rng: &mut Rng, draft: &mut Draft) {
    let other = draft.entry(TypeEntry::Coroutine);
    function_mut(rng, draft).sig = other;
}

fn register_type(rng: &mut Rng, draft: &mut Draft) {
    let at = some_function(rng, draft);
    let absent = ValueType::reference(rng.absent(draft.sheet.types.len()));
    draft.sheet.functions[at].regs.push(absent);
}

/// A function of this signature, whose code needs no register.
fn add(draft: &mut Draft, params: &[ValueType], regs: &[ValueType]) {
    let sig = draft.sig(params, &[]);
    draft.sheet.functions.push(Function {
        sig,
        ..function(regs, &[ret_void()])
    });
}

fn registers(rng: &mut Rng, draft: &mut Draft) {
    let params = some_params(rng, draft);
    let mut regs = params.clone();
    let at = rng.below(regs.len());
    regs[at] = if regs[at] == DYN { ValueType(3) } else { DYN };
    regs.push(DYN);
    add(draft, &params, &regs);
}

fn too_few_registers(rng: &mut Rng, draft: &mut Draft) {
    let params = some_params(rng, draft);
    add(draft, &params, &params[1..]);
}

fn other_struct(rng: &mut Rng, draft: &mut Draft) {
    let name = rng.index(draft.sheet.strings.len());
    let entry = TypeEntry::Struct {
        name,
        parent: None,
        fields: Vec::new(),
        methods: Vec::new(),
    };
    draft.sheet.types.extend([entry.clone(), entry]);
    let last = draft.sheet.types.len() as u32 - 1;
    let [a, b] = [last, last - 1].map(ValueType::reference);
    add(draft, &[a], &[b]);
}

fn parameter_list(rng: &mut Rng, draft: &mut Draft) {
    let params = some_params(rng, draft);
    let list = bad_param_list(rng, draft, &params);
    add(draft, &params, &params);
    if let Some(f) = draft.sheet.functions.last_mut() {
        f.params = Some(list);
    }
}

fn shape(rng: &mut Rng, draft: &mut Draft) {
    let shape = bad_shape(rng, draft);
    function_mut(rng, draft).shapes.push(shape);
}

fn capture_type(rng: &mut Rng, draft: &mut Draft) {
    let at = some_function(rng, draft);
    let absent = ValueType::reference(rng.absent(draft.sheet.types.len()));
    draft.sheet.functions[at].captures.push(absent);
}

fn names(rng: &mut Rng, draft: &mut Draft) {
    let absent = rng.absent(draft.sheet.strings.len());
    function_mut(rng, draft).names.push(absent);
}

fn type_refs(rng: &mut Rng, draft: &mut Draft) {
    let at = some_function(rng, draft);
    let absent = rng.absent(draft.sheet.types.len());
    draft.sheet.functions[at].type_refs.push(absent);
}
