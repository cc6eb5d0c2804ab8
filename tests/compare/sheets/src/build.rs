//! Small pieces for writing sheets by hand and by the generator.

use crate::op;
use crate::plain::*;

/// An instruction with fields A, B and C.
pub fn abc(code: u8, d: u8, a: u16, b: u16, c: u16) -> u64 {
    aw(code, d, a, u32::from(c) << 16 | u32::from(b))
}

/// An instruction with fields A and W.
pub fn aw(code: u8, d: u8, a: u16, w: u32) -> u64 {
    u64::from(w) << 32 | u64::from(a) << 16 | u64::from(d) << 8 | u64::from(code)
}

/// The instruction that returns nothing.
pub fn ret_void() -> u64 {
    aw(op::RET_VOID, 0, 0, 0)
}

/// A func type.
pub fn func(params: &[ValueType], results: &[ValueType]) -> TypeEntry {
    TypeEntry::Func {
        params: params.to_vec(),
        results: results.to_vec(),
    }
}

/// A struct without methods, named by string 0.
pub fn structure(parent: Option<u32>, fields: &[(u32, ValueType)]) -> TypeEntry {
    TypeEntry::Struct {
        name: 0,
        parent,
        fields: fields.to_vec(),
        methods: Vec::new(),
    }
}

/// A function of signature 0 with these registers and code.
pub fn function(regs: &[ValueType], code: &[u64]) -> Function {
    Function {
        regs: regs.to_vec(),
        code: code.to_vec(),
        ..Function::default()
    }
}

/// Strings from texts.
pub fn strings(texts: &[&str]) -> Vec<Vec<u8>> {
    texts.iter().map(|t| t.as_bytes().to_vec()).collect()
}

/// A host function of the user.
pub fn user(module: &str, name: &str) -> HostEntry {
    HostEntry {
        module: module.into(),
        name: name.into(),
        scheduler: false,
    }
}

/// The scheduler under a pair.
pub fn scheduler(module: &str, name: &str) -> HostEntry {
    HostEntry {
        scheduler: true,
        ..user(module, name)
    }
}

/// An import without a parameter list.
pub fn import(module: u32, name: u32, sig: u32) -> Import {
    Import {
        module,
        name,
        sig,
        params: None,
    }
}

/// A parameter list with these flags, without names.
pub fn listed(flags: &[u32]) -> Option<Vec<Param>> {
    let param = |&flags: &u32| Param { flags, name: None };
    Some(flags.iter().map(param).collect())
}

/// A hook bound to a function.
pub fn hook_function(hook: u32, index: u32) -> HookBinding {
    HookBinding {
        hook,
        callee: CalleeKind::Function,
        index,
    }
}

/// A hook bound to an import.
pub fn hook_import(hook: u32, index: u32) -> HookBinding {
    HookBinding {
        hook,
        callee: CalleeKind::Import,
        index,
    }
}

/// An export.
pub fn export(kind: ExportKind, name: u32, index: u32) -> Export {
    Export { kind, name, index }
}
