//! How large a generated module is.

use crate::Rng;

/// The most of each list.
#[derive(Clone, Copy, Debug)]
pub struct Scale {
    pub strings: usize,
    pub structs: usize,
    pub others: usize,
    pub funcs: usize,
    pub constants: usize,
    pub imports: usize,
    pub globals: usize,
    pub functions: usize,
    pub registers: usize,
    pub type_refs: usize,
    pub code: usize,
    pub hooks: usize,
    pub exports: usize,
    /// One in so many modules has a string that crosses a block border.
    pub long_string: usize,
}

impl Scale {
    /// One block, at times two.
    pub fn tiny() -> Scale {
        Scale {
            strings: 2,
            structs: 3,
            others: 2,
            funcs: 2,
            constants: 2,
            imports: 2,
            globals: 1,
            functions: 2,
            registers: 4,
            type_refs: 3,
            code: 6,
            hooks: 2,
            exports: 2,
            long_string: 40,
        }
    }

    /// A few blocks.
    pub fn small() -> Scale {
        Scale {
            strings: 6,
            structs: 8,
            others: 6,
            funcs: 5,
            constants: 6,
            imports: 3,
            globals: 3,
            functions: 4,
            registers: 6,
            type_refs: 5,
            code: 10,
            hooks: 5,
            exports: 4,
            long_string: 6,
        }
    }

    /// Some dozens of blocks.
    pub fn medium() -> Scale {
        Scale {
            strings: 40,
            structs: 80,
            others: 40,
            funcs: 20,
            constants: 60,
            imports: 12,
            globals: 20,
            functions: 20,
            registers: 12,
            type_refs: 8,
            code: 40,
            hooks: 40,
            exports: 20,
            long_string: 2,
        }
    }

    /// Types only: families among other types.
    pub fn families() -> Scale {
        Scale {
            strings: 2,
            structs: 9,
            others: 4,
            funcs: 1,
            constants: 0,
            imports: 0,
            globals: 0,
            functions: 0,
            registers: 0,
            type_refs: 0,
            code: 1,
            hooks: 0,
            exports: 0,
            long_string: 1000,
        }
    }

    pub fn any(rng: &mut Rng) -> Scale {
        match rng.below(20) {
            0..=7 => Scale::tiny(),
            8..=18 => Scale::small(),
            _ => Scale::medium(),
        }
    }
}
