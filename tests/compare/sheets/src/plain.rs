//! The plain data of a sheet: its lists as they stand, with the sheet's own numbers.

use crate::Edition;

/// A value type as the sheet numbers it; 16 + t is a reference to type t.
#[derive(Clone, Copy, Debug, PartialEq, Eq, PartialOrd, Ord)]
pub struct ValueType(pub u32);

pub const STR: ValueType = ValueType(11);
pub const DYN: ValueType = ValueType(12);

impl ValueType {
    /// A reference to a type.
    pub fn reference(t: u32) -> ValueType {
        ValueType(16 + t)
    }

    /// The type that it refers to.
    pub fn target(self) -> Option<u32> {
        self.0.checked_sub(16)
    }

    /// Whether the number is listed; 13 to 15 are not.
    pub fn listed(self) -> bool {
        self.0 <= 12 || self.0 >= 16
    }
}

#[derive(Clone, Debug, PartialEq, Eq)]
pub enum TypeEntry {
    Func {
        params: Vec<ValueType>,
        results: Vec<ValueType>,
    },
    Struct {
        name: u32,
        parent: Option<u32>,
        /// Name and type.
        fields: Vec<(u32, ValueType)>,
        /// Name and function.
        methods: Vec<(u32, u32)>,
    },
    Array(ValueType),
    Map(ValueType, ValueType),
    Cell(ValueType),
    Iter(ValueType, ValueType),
    Coroutine,
}

#[derive(Clone, Debug, PartialEq, Eq)]
pub enum Constant {
    Plain(u32, u32),
    Str(u32),
    Array(Vec<u32>),
    Map(Vec<(u32, u32)>),
}

#[derive(Clone, Copy, Debug, PartialEq, Eq)]
pub struct Param {
    pub flags: u32,
    pub name: Option<u32>,
}

impl Param {
    /// Flag 2; by reference (1) makes none optional.
    pub fn is_optional(&self) -> bool {
        self.flags & 2 != 0
    }
}

#[derive(Clone, Debug, PartialEq, Eq)]
pub struct Import {
    pub module: u32,
    pub name: u32,
    pub sig: u32,
    pub params: Option<Vec<Param>>,
}

#[derive(Clone, Debug, PartialEq, Eq)]
pub struct Global {
    pub ty: ValueType,
    pub init: Option<u32>,
}

/// The name stands there for every kind and is read for kind 1 only.
#[derive(Clone, Copy, Debug, PartialEq, Eq)]
pub struct ShapeEntry {
    pub kind: u32,
    pub name: u32,
}

#[derive(Clone, Copy, Debug, PartialEq, Eq)]
pub struct Handler {
    pub start: u32,
    pub end: u32,
    pub target: u32,
    pub catch: u32,
}

#[derive(Clone, Debug, PartialEq, Eq)]
pub struct Table {
    pub targets: Vec<u32>,
    pub default: u32,
}

#[derive(Clone, Debug, Default, PartialEq, Eq)]
pub struct Function {
    pub sig: u32,
    pub regs: Vec<ValueType>,
    pub params: Option<Vec<Param>>,
    pub shapes: Vec<Vec<ShapeEntry>>,
    pub captures: Vec<ValueType>,
    pub names: Vec<u32>,
    pub type_refs: Vec<u32>,
    pub handlers: Vec<Handler>,
    pub tables: Vec<Table>,
    /// Two words each, the low one first.
    pub code: Vec<u64>,
}

#[derive(Clone, Copy, Debug, PartialEq, Eq)]
pub enum CalleeKind {
    Function,
    Import,
}

#[derive(Clone, Copy, Debug, PartialEq, Eq)]
pub struct HookBinding {
    pub hook: u32,
    pub callee: CalleeKind,
    pub index: u32,
}

#[derive(Clone, Copy, Debug, PartialEq, Eq)]
pub enum ExportKind {
    Function,
    Global,
    Type,
}

impl ExportKind {
    pub const ALL: [ExportKind; 3] = [ExportKind::Function, ExportKind::Global, ExportKind::Type];
}

#[derive(Clone, Copy, Debug, PartialEq, Eq)]
pub struct Export {
    pub kind: ExportKind,
    pub name: u32,
    pub index: u32,
}

/// A sheet; strings are bytes so that broken ones can be written too.
#[derive(Clone, Debug, Default, PartialEq, Eq)]
pub struct Sheet {
    pub edition: Edition,
    pub strings: Vec<Vec<u8>>,
    pub types: Vec<TypeEntry>,
    pub constants: Vec<Constant>,
    pub imports: Vec<Import>,
    pub globals: Vec<Global>,
    pub functions: Vec<Function>,
    pub hooks: Vec<HookBinding>,
    pub start: Option<u32>,
    pub exports: Vec<Export>,
}

/// An entry of a host list.
#[derive(Clone, Debug, PartialEq, Eq)]
pub struct HostEntry {
    pub module: Vec<u8>,
    pub name: Vec<u8>,
    pub scheduler: bool,
}
