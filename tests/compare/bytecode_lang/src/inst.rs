//! Instructions: 64 bits, from 0 up code (8), D (8), A (16), then B and C (16 each) or W (32).

use crate::{
    ConstId, ErrorKind, FuncId, GlobalId, ImportId, IntOp, IntTy, Opcode, Overflow, Policy, Prim,
    Reg, ShapeId, TableId, Target, TypeRef, Upval,
};

macro_rules! insts {
    (
        $($name:ident($($field:ident: $ty:ident = $slot:ident),*),)*
        @int $($int:ident,)*
        @dynamic $($dynamic:ident,)*
    ) => {
        /// An instruction. Those that program.rs only names share the code of their family.
        #[derive(Clone, Copy, Debug, PartialEq, Eq)]
        pub enum Inst {
            $($name { $($field: $ty),* },)*
            $($int {},)*
            $($dynamic { dst: Reg, pol: Policy },)*
        }

        const CODES: &[Opcode] = &[$(Opcode::$name),*];

        impl Inst {
            /// The instruction in a word, unless its code is unlisted; bits not named are unread.
            pub fn from_word(word: u64) -> Option<Inst> {
                let code = CODES.get(usize::from(word as u8))?;
                Some(match code {
                    $(Opcode::$name => Inst::$name { $($field: $ty::take(word, Place::$slot)),* },)*
                })
            }

            /// The operation code.
            pub fn opcode(&self) -> Opcode {
                match self {
                    $(Inst::$name { .. } => Opcode::$name,)*
                    $(Inst::$int {} => Opcode::IAdd,)*
                    $(Inst::$dynamic { .. } => Opcode::DAdd,)*
                }
            }

            /// The eight bytes, low first, with bits not named left 0.
            pub fn to_bytes(&self) -> [u8; 8] {
                let mut word = self.opcode() as u64;
                match *self {
                    $(Inst::$name { $($field),* } => { $(word |= $field.put(Place::$slot);)* })*
                    $(Inst::$int {} => {})*
                    $(Inst::$dynamic { dst, pol } => word |= dst.put(Place::A) | pol.put(Place::D),)*
                }
                word.to_le_bytes()
            }
        }
    };
}

insts! {
    Unreachable(),
    RetVoid(),
    Ret(src: Reg = A),
    Throw(src: Reg = A),
    Jmp(target: Target = W),
    Branch(cond: Reg = A, target: Target = W),
    Switch(index: Reg = A, table: TableId = W),
    TailCall(func: FuncId = W, args: Reg = A, argc: Count = D),
    TailCallIndirect(callee: Reg = B, args: Reg = A, argc: Count = D),
    IAdd(dst: Reg = A, lhs: Reg = B, rhs: Reg = C, op: IntOp = D),
    DAdd(dst: Reg = A, lhs: Reg = B, rhs: Reg = C, pol: Policy = D),
    LoadConst(dst: Reg = A, constant: ConstId = W),
    LoadGlobal(dst: Reg = A, global: GlobalId = W),
    LoadName(dst: Reg = A, obj: Reg = B, name: Name = C),
    LoadCapture(dst: Reg = A, upval: Upval = B),
    Call(dst: Reg = A, func: FuncId = W, argc: Count = D),
    CallIndirect(dst: Reg = A, callee: Reg = B, argc: Count = D),
    DCall(dst: Reg = A, callee: Reg = B, argc: Count = D),
    CoroNewIndirect(dst: Reg = A, callee: Reg = B, argc: Count = D),
    Spawn(dst: Reg = A, callee: Reg = B, argc: Count = D),
    CoroNew(dst: Reg = A, func: FuncId = W, argc: Count = D),
    CallImport(dst: Reg = A, import: ImportId = W, argc: Count = D),
    MakeClosure(dst: Reg = A, func: FuncId = W),
    DCallShape(dst: Reg = A, shape: ShapeId = B),
    NewStruct(dst: Reg = A, ty: TypeRef = B),
    NewArray(dst: Reg = A, ty: TypeRef = B),
    NewMap(dst: Reg = A, ty: TypeRef = B),
    NewCell(dst: Reg = A, ty: TypeRef = B),
    StrConcatN(dst: Reg = A, first: Reg = B, count: Count = D),
    StrSlice(dst: Reg = A, src: Reg = B, range: Reg = C),
    FromDyn(dst: Reg = A, src: Reg = B, to: Prim = D),
    Raise(src: Reg = A, kind: ErrorKind = D),
    FloatToBits(dst: Reg = A, src: Reg = B, ty: IntTy = D),
    BitsToFloat(dst: Reg = A, src: Reg = B, ty: IntTy = D),
    Move(dst: Reg = A, src: Reg = B),
    @int
    ISub, IMul, IDiv, IRem, IFloorDiv, IFloorMod, IAnd, IOr, IXor, IShl, IShr, IMin, IMax, INeg,
    IBitNot, IAbs, IPow, IntCast, F32ToInt, F64ToInt,
    @dynamic
    DSub, DMul, DDiv, DRem, DFloorDiv, DFloorMod, DAnd, DOr, DXor, DShl, DShr, DNeg, DBitNot,
    DPow, DAbs,
}

impl Inst {
    /// The overflow rule of an integer instruction.
    pub fn overflow(&self) -> Option<Overflow> {
        match *self {
            Inst::IAdd { op, .. } => Some(op.overflow()),
            _ => None,
        }
    }
}

/// An argument count.
type Count = u8;
/// A number in the function's name list.
type Name = u16;

/// A place in the instruction's bits.
#[derive(Clone, Copy)]
enum Place {
    D,
    A,
    B,
    C,
    W,
}

impl Place {
    fn shift(self) -> u32 {
        match self {
            Place::D => 8,
            Place::A => 16,
            Place::B | Place::W => 32,
            Place::C => 48,
        }
    }
}

/// An operand that can be read from and put into its place.
trait Operand {
    fn take(word: u64, place: Place) -> Self;
    fn put(self, place: Place) -> u64;
}

macro_rules! operands {
    ($($ty:ident, $bits:ident, $of:expr, $to:expr;)*) => {$(
        impl Operand for $ty {
            fn take(word: u64, place: Place) -> $ty {
                $of((word >> place.shift()) as $bits)
            }

            fn put(self, place: Place) -> u64 {
                u64::from($to(self)) << place.shift()
            }
        }
    )*};
}

operands! {
    Reg, u16, Reg, |v: Reg| v.0;
    Upval, u16, Upval, |v: Upval| v.0;
    ShapeId, u16, ShapeId, |v: ShapeId| v.0;
    TypeRef, u16, TypeRef, |v: TypeRef| v.0;
    Name, u16, |v| v, |v: Name| v;
    Target, u32, Target, |v: Target| v.0;
    TableId, u32, TableId, |v: TableId| v.0;
    FuncId, u32, FuncId, |v: FuncId| v.0;
    ConstId, u32, ConstId, |v: ConstId| v.0;
    GlobalId, u32, GlobalId, |v: GlobalId| v.0;
    ImportId, u32, ImportId, |v: ImportId| v.0;
    Count, u8, |v| v, |v: Count| v;
    IntOp, u8, IntOp, |v: IntOp| v.0;
    Policy, u8, Policy, |v: Policy| v.0;
    Prim, u8, Prim::from_code, |v: Prim| v.code();
    ErrorKind, u8, ErrorKind, |v: ErrorKind| v.0;
    IntTy, u8, IntTy, |v: IntTy| v.0;
}
