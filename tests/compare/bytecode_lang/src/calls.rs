//! Parameter lists and call shapes, and the tests of them that program.rs leaves to this crate.

use std::collections::BTreeSet;

use crate::{StrId, ValType};

/// A list or shape that breaks its rules.
#[derive(Clone, Copy, Debug, PartialEq, Eq)]
pub struct Invalid;

const BY_REF: u32 = 1;
const OPTIONAL: u32 = 2;

/// A parameter; the flags stay as stored, since unlisted bits are judged in `validate`.
#[derive(Clone, Copy, Debug, PartialEq, Eq)]
pub struct Param {
    pub name: Option<StrId>,
    pub by_ref: bool,
    flags: u32,
}

impl Param {
    pub fn new(flags: u32, name: Option<StrId>) -> Param {
        Param {
            name,
            by_ref: flags & BY_REF != 0,
            flags,
        }
    }

    fn optional(&self) -> bool {
        self.flags & OPTIONAL != 0
    }
}

/// A parameter list.
#[derive(Clone, Debug, PartialEq, Eq)]
pub struct ParamList {
    pub params: Vec<Param>,
}

impl ParamList {
    /// Listed flags only, none mandatory after an optional, no name number twice.
    pub fn validate(&self) -> Result<(), Invalid> {
        let mut names = BTreeSet::new();
        let mut optional_before = false;
        for p in &self.params {
            let unlisted = p.flags & !(BY_REF | OPTIONAL) != 0;
            let mandatory_after = optional_before && !p.optional();
            let repeated = p.name.is_some_and(|n| !names.insert(n));
            if unlisted || mandatory_after || repeated {
                return Err(Invalid);
            }
            optional_before = p.optional();
        }
        Ok(())
    }

    /// As many as the signature; by reference only dyn or a reference to a type.
    pub fn fits(&self, sig: &[ValType]) -> Result<(), Invalid> {
        let by_ref_ok =
            |(p, ty): (&Param, &ValType)| !p.by_ref || matches!(ty, ValType::Dyn | ValType::Ref(_));
        if self.params.len() == sig.len() && self.params.iter().zip(sig).all(by_ref_ok) {
            Ok(())
        } else {
            Err(Invalid)
        }
    }
}

/// An entry of a call shape.
#[derive(Clone, Copy, Debug, PartialEq, Eq)]
pub enum ArgKind {
    Positional,
    Named(StrId),
    Spread,
    /// A kind from 3 up, judged in `validate`.
    Unlisted(u32),
}

/// A call shape.
#[derive(Clone, Debug, PartialEq, Eq)]
pub struct CallShape {
    pub args: Vec<ArgKind>,
}

impl CallShape {
    /// Listed kinds only, no positional after a named, no name number twice.
    pub fn validate(&self) -> Result<(), Invalid> {
        let mut names = BTreeSet::new();
        for arg in &self.args {
            let ok = match *arg {
                ArgKind::Positional => names.is_empty(),
                ArgKind::Named(n) => names.insert(n),
                ArgKind::Spread => true,
                ArgKind::Unlisted(_) => false,
            };
            if !ok {
                return Err(Invalid);
            }
        }
        Ok(())
    }
}
