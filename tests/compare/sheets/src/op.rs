//! Operation codes by name, for writers of sheets.

pub const UNREACHABLE: u8 = 0;
pub const RET_VOID: u8 = 1;
pub const RET: u8 = 2;
pub const THROW: u8 = 3;
pub const JMP: u8 = 4;
pub const BRANCH: u8 = 5;
pub const SWITCH: u8 = 6;
pub const TAIL_CALL: u8 = 7;
pub const TAIL_CALL_INDIRECT: u8 = 8;
pub const I_ADD: u8 = 9;
pub const D_ADD: u8 = 10;
pub const LOAD_CONST: u8 = 11;
pub const LOAD_GLOBAL: u8 = 12;
pub const LOAD_NAME: u8 = 13;
pub const LOAD_CAPTURE: u8 = 14;
pub const CALL: u8 = 15;
pub const CALL_INDIRECT: u8 = 16;
pub const D_CALL: u8 = 17;
pub const CORO_NEW_INDIRECT: u8 = 18;
pub const SPAWN: u8 = 19;
pub const CORO_NEW: u8 = 20;
pub const CALL_IMPORT: u8 = 21;
pub const MAKE_CLOSURE: u8 = 22;
pub const D_CALL_SHAPE: u8 = 23;
pub const NEW_STRUCT: u8 = 24;
pub const NEW_ARRAY: u8 = 25;
pub const NEW_MAP: u8 = 26;
pub const NEW_CELL: u8 = 27;
pub const STR_CONCAT_N: u8 = 28;
pub const STR_SLICE: u8 = 29;
pub const FROM_DYN: u8 = 30;
pub const RAISE: u8 = 31;
pub const FLOAT_TO_BITS: u8 = 32;
pub const BITS_TO_FLOAT: u8 = 33;
pub const MOVE: u8 = 34;

/// Codes that end a function: 0 to 4 and 6 to 8.
pub fn terminates(code: u8) -> bool {
    code <= TAIL_CALL_INDIRECT && code != BRANCH
}
