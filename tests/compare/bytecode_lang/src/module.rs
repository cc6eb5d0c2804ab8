//! A decoded module: the lists that the loader reads.

use core::fmt;

use crate::{
    CallShape, CatchReg, ConstId, FuncId, GlobalId, HookBinding, Inst, ParamList, StrId, Target,
    TypeDef, TypeId, ValType,
};

/// A constant.
#[derive(Clone, Debug, PartialEq, Eq)]
pub enum Const {
    Plain(u32, u32),
    Str(StrId),
    Array(Vec<ConstId>),
    Map(Vec<(ConstId, ConstId)>),
}

/// An import.
#[derive(Clone, Debug)]
pub struct Import {
    pub module: StrId,
    pub name: StrId,
    pub sig: TypeId,
    pub params: Option<ParamList>,
}

/// A global.
#[derive(Clone, Debug)]
pub struct Global {
    pub ty: ValType,
    pub init: Option<ConstId>,
}

/// A try region.
#[derive(Clone, Debug)]
pub struct Handler {
    pub start: u32,
    pub end: u32,
    pub target: Target,
    pub catch: CatchReg,
}

/// A switch table.
#[derive(Clone, Debug)]
pub struct Table {
    pub targets: Vec<Target>,
    pub default: Target,
}

/// A row of a line table; no sheet has one.
#[derive(Clone, Debug)]
pub struct Line {
    pub pc: u32,
    pub file: StrId,
    pub line: u32,
    pub column: u32,
}

/// What an export names.
#[derive(Clone, Copy, Debug)]
pub enum ExportItem {
    Func(FuncId),
    Global(GlobalId),
    Type(TypeId),
}

/// An export.
#[derive(Clone, Debug)]
pub struct Export {
    pub name: StrId,
    pub item: ExportItem,
}

macro_rules! lists {
    ($($field:ident: $ty:ty),* $(,)?) => {$(
        pub fn $field(&self) -> &[$ty] {
            &self.$field
        }
    )*};
}

/// A function.
#[derive(Clone, Debug)]
pub struct Function {
    pub sig: TypeId,
    pub regs: Vec<ValType>,
    pub params: Option<ParamList>,
    pub shapes: Vec<CallShape>,
    pub captures: Vec<ValType>,
    pub names: Vec<StrId>,
    pub type_refs: Vec<TypeId>,
    pub handlers: Vec<Handler>,
    pub tables: Vec<Table>,
    pub code: Vec<Inst>,
}

impl Function {
    pub fn sig(&self) -> TypeId {
        self.sig
    }

    pub fn params(&self) -> Option<&ParamList> {
        self.params.as_ref()
    }

    /// Sheets hold no line tables.
    pub fn lines(&self) -> &[Line] {
        &[]
    }

    lists! {
        regs: ValType,
        shapes: CallShape,
        captures: ValType,
        names: StrId,
        type_refs: TypeId,
        handlers: Handler,
        tables: Table,
        code: Inst,
    }
}

/// A module.
#[derive(Clone, Debug, Default)]
pub struct Module {
    pub strings: Vec<String>,
    pub types: Vec<TypeDef>,
    pub consts: Vec<Const>,
    pub imports: Vec<Import>,
    pub globals: Vec<Global>,
    pub functions: Vec<Function>,
    pub hooks: Vec<HookBinding>,
    pub start: Option<FuncId>,
    pub exports: Vec<Export>,
}

impl Module {
    pub fn strings(&self) -> impl Iterator<Item = &str> {
        self.strings.iter().map(String::as_str)
    }

    pub fn string_count(&self) -> usize {
        self.strings.len()
    }

    pub fn string(&self, id: StrId) -> Option<&str> {
        self.strings.get(id.index()).map(String::as_str)
    }

    pub fn type_def(&self, id: TypeId) -> Option<&TypeDef> {
        self.types.get(id.index())
    }

    pub fn function(&self, id: FuncId) -> Option<&Function> {
        self.functions.get(id.index())
    }

    pub fn start(&self) -> Option<FuncId> {
        self.start
    }

    lists! {
        types: TypeDef,
        consts: Const,
        imports: Import,
        globals: Global,
        functions: Function,
        hooks: HookBinding,
        exports: Export,
    }
}

/// Bytes that are no module.
#[derive(Clone, Copy, Debug, PartialEq, Eq)]
pub struct DecodeError;

impl fmt::Display for DecodeError {
    fn fmt(&self, f: &mut fmt::Formatter<'_>) -> fmt::Result {
        f.write_str("no decoder for published bytes")
    }
}

/// Only for `Program::decode`, which is left out: the published byte format is not at hand.
pub fn decode(_bytes: &[u8]) -> Result<Module, DecodeError> {
    Err(DecodeError)
}
