//! Operation codes 0 to 34 and their fields, in the order A, B or W, C.

/// An operation code; its number is that of docs/FORMAT.md, "The 35 codes".
#[derive(Clone, Copy, Debug, PartialEq, Eq)]
#[repr(u8)]
pub enum Opcode {
    Unreachable,
    RetVoid,
    Ret,
    Throw,
    Jmp,
    Branch,
    Switch,
    TailCall,
    TailCallIndirect,
    IAdd,
    DAdd,
    LoadConst,
    LoadGlobal,
    LoadName,
    LoadCapture,
    Call,
    CallIndirect,
    DCall,
    CoroNewIndirect,
    Spawn,
    CoroNew,
    CallImport,
    MakeClosure,
    DCallShape,
    NewStruct,
    NewArray,
    NewMap,
    NewCell,
    StrConcatN,
    StrSlice,
    FromDyn,
    Raise,
    FloatToBits,
    BitsToFloat,
    Move,
}

/// Where a field stands in the instruction's 64 bits.
#[derive(Clone, Copy, Debug, PartialEq, Eq)]
pub enum Slot {
    A,
    B,
    C,
    W,
}

impl Slot {
    pub const fn shift(self) -> u32 {
        match self {
            Slot::A => 16,
            Slot::B | Slot::W => 32,
            Slot::C => 48,
        }
    }

    pub const fn width(self) -> u32 {
        match self {
            Slot::W => 32,
            _ => 16,
        }
    }
}

/// What a field indexes.
#[derive(Clone, Copy, Debug, PartialEq, Eq)]
#[non_exhaustive]
pub enum FieldKind {
    Reg,
    Target,
    Const,
    Func,
    Import,
    Global,
    Table,
    Name,
    TypeRef,
    Upval,
    Shape,
}

/// A field of an instruction.
#[derive(Clone, Copy, Debug, PartialEq, Eq)]
pub struct Field {
    pub slot: Slot,
    pub kind: FieldKind,
}

const fn field(slot: Slot, kind: FieldKind) -> Field {
    Field { slot, kind }
}

const A: Field = field(Slot::A, FieldKind::Reg);
const B: Field = field(Slot::B, FieldKind::Reg);
const C: Field = field(Slot::C, FieldKind::Reg);

const UPVAL: Field = field(Slot::B, FieldKind::Upval);
const SHAPE: Field = field(Slot::B, FieldKind::Shape);
const TYPE_REF: Field = field(Slot::B, FieldKind::TypeRef);
const NAME: Field = field(Slot::C, FieldKind::Name);
const TARGET: Field = field(Slot::W, FieldKind::Target);
const TABLE: Field = field(Slot::W, FieldKind::Table);
const FUNC: Field = field(Slot::W, FieldKind::Func);
const CONST: Field = field(Slot::W, FieldKind::Const);
const GLOBAL: Field = field(Slot::W, FieldKind::Global);
const IMPORT: Field = field(Slot::W, FieldKind::Import);

impl Opcode {
    /// The fields to be range-checked, in order.
    pub fn fields(self) -> &'static [Field] {
        match self {
            Opcode::Unreachable | Opcode::RetVoid => &[],
            Opcode::Ret | Opcode::Throw | Opcode::Raise => &[A],
            Opcode::Jmp => &[TARGET],
            Opcode::Branch => &[A, TARGET],
            Opcode::Switch => &[A, TABLE],
            Opcode::TailCall | Opcode::Call | Opcode::CoroNew | Opcode::MakeClosure => &[A, FUNC],
            Opcode::TailCallIndirect
            | Opcode::CallIndirect
            | Opcode::DCall
            | Opcode::CoroNewIndirect
            | Opcode::Spawn
            | Opcode::StrConcatN
            | Opcode::FromDyn
            | Opcode::FloatToBits
            | Opcode::BitsToFloat
            | Opcode::Move => &[A, B],
            Opcode::IAdd | Opcode::DAdd | Opcode::StrSlice => &[A, B, C],
            Opcode::LoadConst => &[A, CONST],
            Opcode::LoadGlobal => &[A, GLOBAL],
            Opcode::LoadName => &[A, B, NAME],
            Opcode::LoadCapture => &[A, UPVAL],
            Opcode::CallImport => &[A, IMPORT],
            Opcode::DCallShape => &[A, SHAPE],
            Opcode::NewStruct | Opcode::NewArray | Opcode::NewMap | Opcode::NewCell => {
                &[A, TYPE_REF]
            }
        }
    }
}
