//! Numbers of things, a type for each kind of thing.

use core::fmt;

macro_rules! ids {
    ($($(#[$doc:meta])* $name:ident($word:ty),)*) => {$(
        $(#[$doc])*
        #[derive(Clone, Copy, Debug, PartialEq, Eq, PartialOrd, Ord, Hash)]
        pub struct $name(pub $word);

        impl $name {
            /// The number as an index.
            pub fn index(self) -> usize {
                self.0 as usize
            }
        }

        impl fmt::Display for $name {
            fn fmt(&self, f: &mut fmt::Formatter<'_>) -> fmt::Result {
                write!(f, "{}({})", stringify!($name), self.0)
            }
        }
    )*};
}

ids! {
    /// A type entry.
    TypeId(u32),
    /// A function.
    FuncId(u32),
    /// A string.
    StrId(u32),
    /// A constant.
    ConstId(u32),
    /// An import.
    ImportId(u32),
    /// A global.
    GlobalId(u32),
    /// A position in a function's code.
    Target(u32),
    /// A function's switch table.
    TableId(u32),
    /// A register operand of an instruction.
    Reg(u16),
    /// A handler's catch register: a whole word of the sheet, so 32 bits here.
    CatchReg(u32),
    /// An entry of a function's type refs.
    TypeRef(u16),
    /// An entry of a function's captures.
    Upval(u16),
    /// An entry of a function's call shapes.
    ShapeId(u16),
}
