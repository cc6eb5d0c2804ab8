//! What an instruction's D means, where it is no argument count.

/// What happens on overflow; only Promote has a rule.
#[derive(Clone, Copy, Debug, PartialEq, Eq)]
pub enum Overflow {
    Promote,
    Other(u8),
}

impl Overflow {
    fn of(d: u8) -> Overflow {
        match d {
            3 => Overflow::Promote,
            _ => Overflow::Other(d),
        }
    }
}

/// D of an integer instruction.
#[derive(Clone, Copy, Debug, PartialEq, Eq)]
pub struct IntOp(pub u8);

impl IntOp {
    pub fn overflow(self) -> Overflow {
        Overflow::of(self.0)
    }
}

/// D of a dynamic instruction.
#[derive(Clone, Copy, Debug, PartialEq, Eq)]
pub struct Policy(pub u8);

impl Policy {
    pub fn overflow(self) -> Overflow {
        Overflow::of(self.0)
    }
}

/// D of FromDyn; 13 is Ref.
#[derive(Clone, Copy, Debug, PartialEq, Eq)]
pub enum Prim {
    Ref,
    Other(u8),
}

impl Prim {
    pub fn from_code(d: u8) -> Prim {
        match d {
            13 => Prim::Ref,
            _ => Prim::Other(d),
        }
    }

    pub fn code(self) -> u8 {
        match self {
            Prim::Ref => 13,
            Prim::Other(d) => d,
        }
    }
}

/// D of Raise.
#[derive(Clone, Copy, Debug, PartialEq, Eq)]
pub struct ErrorKind(pub u8);

impl ErrorKind {
    /// Kinds below 12 can be caught.
    pub fn is_catchable(self) -> bool {
        self.0 < 12
    }
}

/// D of FloatToBits and BitsToFloat, numbered as the integer value types.
#[derive(Clone, Copy, Debug, PartialEq, Eq)]
pub struct IntTy(pub u8);

impl IntTy {
    /// The width in bits; 0 for a number that is no integer type.
    pub fn bits(self) -> u32 {
        match self.0 {
            1 | 5 => 8,
            2 | 6 => 16,
            3 | 7 => 32,
            4 | 8 => 64,
            _ => 0,
        }
    }
}
