//! Value types and type entries. `Ord` is for the map of canonical numbers, where only equality matters.

use crate::{FuncId, StrId, TypeId};

/// A value type.
#[derive(Clone, Copy, Debug, PartialEq, Eq, PartialOrd, Ord)]
pub enum ValType {
    Bool,
    I8,
    I16,
    I32,
    I64,
    U8,
    U16,
    U32,
    U64,
    F32,
    F64,
    Str,
    Dyn,
    Ref(TypeId),
}

impl ValType {
    /// Whether a value of this type is a reference: 11, 12 and from 16 up in the sheet.
    pub fn is_reference(self) -> bool {
        matches!(self, ValType::Str | ValType::Dyn | ValType::Ref(_))
    }
}

/// A func type's parameters and results.
#[derive(Clone, Debug, PartialEq, Eq, PartialOrd, Ord)]
pub struct FuncSig {
    pub params: Vec<ValType>,
    pub results: Vec<ValType>,
}

/// A field of a struct, compared as stored.
#[derive(Clone, Copy, Debug, PartialEq, Eq, PartialOrd, Ord)]
pub struct FieldDef {
    pub name: StrId,
    pub ty: ValType,
}

/// A method of a struct.
#[derive(Clone, Copy, Debug, PartialEq, Eq, PartialOrd, Ord)]
pub struct MethodDef {
    pub name: StrId,
    pub func: FuncId,
}

/// A struct type.
#[derive(Clone, Debug, PartialEq, Eq, PartialOrd, Ord)]
pub struct StructDef {
    pub name: StrId,
    pub parent: Option<TypeId>,
    pub fields: Vec<FieldDef>,
    pub methods: Vec<MethodDef>,
}

/// A type entry.
#[derive(Clone, Debug, PartialEq, Eq, PartialOrd, Ord)]
pub enum TypeDef {
    Func(FuncSig),
    Struct(StructDef),
    Array(ValType),
    Map { key: ValType, value: ValType },
    Cell(ValType),
    Iter { key: ValType, value: ValType },
    Coroutine,
}
