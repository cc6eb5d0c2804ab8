//! Hooks and what they are bound to.

use core::fmt;

use crate::{FuncId, ImportId};

/// A hook; docs/FORMAT.md, "Hook shapes" names the first ten, the others share one shape.
#[derive(Clone, Copy, Debug, PartialEq, Eq)]
pub enum Hook {
    Neg,
    BitNot,
    Truthy,
    Iter,
    Len,
    Spawn,
    Abs,
    SetIndex,
    SetProp,
    CallShape,
    /// Hooks 10 to 30.
    Other(u8),
}

const NAMED: [Hook; 10] = [
    Hook::Neg,
    Hook::BitNot,
    Hook::Truthy,
    Hook::Iter,
    Hook::Len,
    Hook::Spawn,
    Hook::Abs,
    Hook::SetIndex,
    Hook::SetProp,
    Hook::CallShape,
];

impl Hook {
    /// The hook of a number, if listed (0 to 30).
    pub fn from_code(code: u32) -> Option<Hook> {
        match code {
            0..=9 => Some(NAMED[code as usize]),
            10..=30 => Some(Hook::Other(code as u8)),
            _ => None,
        }
    }

    /// The hook's number.
    pub fn code(self) -> u8 {
        match self {
            Hook::Other(code) => code,
            named => NAMED.iter().position(|&h| h == named).unwrap_or(0) as u8,
        }
    }
}

impl fmt::Display for Hook {
    fn fmt(&self, f: &mut fmt::Formatter<'_>) -> fmt::Result {
        write!(f, "{self:?}")
    }
}

/// What a hook calls.
#[derive(Clone, Copy, Debug, PartialEq, Eq)]
pub enum Callee {
    Func(FuncId),
    Import(ImportId),
}

/// A hook bound to a callee.
#[derive(Clone, Copy, Debug, PartialEq, Eq)]
pub struct HookBinding {
    pub hook: Hook,
    pub callee: Callee,
}
