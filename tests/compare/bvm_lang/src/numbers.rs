//! The six numbers of a refusal: kind, word, number, second, function + 1, position + 1.

use crate::program::{LoadError, LoadErrorKind};

/// Words of kind 3, from 1 up, by the names that program.rs gives them.
const OUT_OF_RANGE: [&str; 14] = [
    "type",
    "function",
    "string",
    "constant",
    "register",
    "import",
    "global",
    "branch target",
    "table target",
    "table",
    "name",
    "type ref",
    "capture",
    "call shape",
];

/// Words of kind 11, from 1 up.
const WRONG_TYPE_KIND: [&str; 4] = ["a struct", "an array", "a map", "a cell"];

fn word(names: &[&str], name: &str) -> u32 {
    let place = names.iter().position(|&n| n == name);
    place.expect("program.rs names no other word") as u32 + 1
}

/// The six numbers; `strings` gives an unresolved import's string numbers, since the error has texts only.
pub fn six_numbers(error: &LoadError, strings: impl Fn(&str, &str) -> (u32, u32)) -> [u32; 6] {
    let (kind, word, number, second) = match error.kind() {
        LoadErrorKind::Decode(_) => (1, 0, 0, 0),
        LoadErrorKind::UnresolvedImport { module, name } => {
            let (module, name) = strings(module, name);
            (2, 0, module, name)
        }
        LoadErrorKind::OutOfRange { what, index } => (3, word(&OUT_OF_RANGE, what), *index, 0),
        LoadErrorKind::BadSignature => (4, 0, 0, 0),
        LoadErrorKind::ParamMismatch => (5, 0, 0, 0),
        LoadErrorKind::EmptyCode => (6, 0, 0, 0),
        LoadErrorKind::FallsThrough => (7, 0, 0, 0),
        LoadErrorKind::ArityMismatch { expected, found } => (8, 0, *expected, *found),
        LoadErrorKind::CalleeHasCaptures => (9, 0, 0, 0),
        LoadErrorKind::PromoteNotDynamic => (10, 0, 0, 0),
        LoadErrorKind::WrongTypeKind { expected } => (11, word(&WRONG_TYPE_KIND, expected), 0, 0),
        LoadErrorKind::BadModifier => (12, 0, 0, 0),
        LoadErrorKind::InvalidHandler => (13, 0, 0, 0),
        LoadErrorKind::CatchNotDyn => (14, 0, 0, 0),
        LoadErrorKind::TailCallInTry => (15, 0, 0, 0),
        LoadErrorKind::BadParent => (16, 0, 0, 0),
        LoadErrorKind::InheritanceTooDeep => (17, 0, 0, 0),
        LoadErrorKind::BadConstant => (18, 0, 0, 0),
        LoadErrorKind::BadHook(hook) => (19, 0, u32::from(hook.code()), 0),
        LoadErrorKind::BadStart => (20, 0, 0, 0),
        LoadErrorKind::BadParamList => (21, 0, 0, 0),
        LoadErrorKind::BadCallShape => (22, 0, 0, 0),
    };
    let func = error.func().map_or(0, |f| f.0 + 1);
    let position = error.pc().map_or(0, |pc| pc + 1);
    [kind, word, number, second, func, position]
}
