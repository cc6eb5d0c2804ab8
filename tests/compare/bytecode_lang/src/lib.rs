//! Stand-in for the crate `bytecode_lang`: what program.rs uses of it, with the
//! meaning that it has in docs/FORMAT.md, "Stand-ins", "Instructions".

mod calls;
mod hook;
mod ids;
mod inst;
mod modifiers;
mod module;
mod opcode;
mod types;

pub use calls::{ArgKind, CallShape, Invalid, Param, ParamList};
pub use hook::{Callee, Hook, HookBinding};
pub use ids::{
    CatchReg, ConstId, FuncId, GlobalId, ImportId, Reg, ShapeId, StrId, TableId, Target, TypeId,
    TypeRef, Upval,
};
pub use inst::Inst;
pub use modifiers::{ErrorKind, IntOp, IntTy, Overflow, Policy, Prim};
pub use module::{
    decode, Const, DecodeError, Export, ExportItem, Function, Global, Handler, Import, Line,
    Module, Table,
};
pub use opcode::{Field, FieldKind, Opcode, Slot};
pub use types::{FieldDef, FuncSig, MethodDef, StructDef, TypeDef, ValType};
