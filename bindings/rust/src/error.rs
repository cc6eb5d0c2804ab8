//! Why a sheet was refused.

use core::cmp::Ordering;
use core::error::Error;
use core::fmt;

/// The number of a function.
#[derive(Clone, Copy, Debug, PartialEq, Eq, PartialOrd, Ord, Hash)]
pub struct FuncId(pub u32);

/// The number of a string.
#[derive(Clone, Copy, Debug, PartialEq, Eq, PartialOrd, Ord, Hash)]
pub struct StrId(pub u32);

/// What a number is out of the range of.
#[derive(Clone, Copy, Debug, PartialEq, Eq, Hash)]
#[non_exhaustive]
pub enum What {
    /// The types of the sheet.
    Types = 1,
    /// The functions of the sheet.
    Functions,
    /// The strings of the sheet.
    Strings,
    /// The constants of the sheet.
    Constants,
    /// The registers of the function, or the most that it may have.
    Registers,
    /// The imports of the sheet.
    Imports,
    /// The globals of the sheet.
    Globals,
    /// The positions of the function's code, for a branch.
    BranchTargets,
    /// The positions of the function's code, for a table.
    TableTargets,
    /// The tables of the function.
    Tables,
    /// The names of the function.
    Names,
    /// The type refs of the function.
    TypeRefs,
    /// The captures of the function.
    Captures,
    /// The call shapes of the function.
    CallShapes,
}

/// Each by its word, from 1 up, with what a single one is called.
const WHATS: [(What, &str); 14] = [
    (What::Types, "type"),
    (What::Functions, "function"),
    (What::Strings, "string"),
    (What::Constants, "constant"),
    (What::Registers, "register"),
    (What::Imports, "import"),
    (What::Globals, "global"),
    (What::BranchTargets, "branch target"),
    (What::TableTargets, "table target"),
    (What::Tables, "table"),
    (What::Names, "name"),
    (What::TypeRefs, "type ref"),
    (What::Captures, "capture"),
    (What::CallShapes, "call shape"),
];

/// The kind of type that an instruction wants.
#[derive(Clone, Copy, Debug, PartialEq, Eq, Hash)]
#[non_exhaustive]
pub enum TypeKind {
    /// A struct type.
    Struct = 1,
    /// An array type.
    Array,
    /// A map type.
    Map,
    /// A cell type.
    Cell,
}

/// Each by its word, from 1 up.
const TYPE_KINDS: [(TypeKind, &str); 4] = [
    (TypeKind::Struct, "a struct"),
    (TypeKind::Array, "an array"),
    (TypeKind::Map, "a map"),
    (TypeKind::Cell, "a cell"),
];

/// What is wrong, by the names of the loader that this one equals.
///
/// Kinds 25 ([`NotLinked`](crate::NotLinked)) and 26 are not among them: `load` never gives these.
#[derive(Clone, Copy, Debug, PartialEq, Eq, Hash)]
#[non_exhaustive]
pub enum LoadErrorKind {
    /// 1: the sheet's layout is broken.
    Decode,
    /// 2: no host function for an import.
    UnresolvedImport {
        /// The import's module.
        module: StrId,
        /// The import's name.
        name: StrId,
    },
    /// 3: a number is out of range.
    OutOfRange {
        /// Of what.
        what: What,
        /// The number.
        index: u32,
    },
    /// 4: a signature is no func type with at most one result, or no scheduler's.
    BadSignature,
    /// 5: the registers do not begin with the parameters.
    ParamMismatch,
    /// 6: a function has no code.
    EmptyCode,
    /// 7: the last instruction falls through.
    FallsThrough,
    /// 8: wrong number of arguments.
    ArityMismatch {
        /// How many the callee takes; where optional arguments may be left out the fewest if too few are found,
        /// and the most if too many are.
        expected: u32,
        /// How many the instruction gives.
        found: u32,
    },
    /// 9: a function with captures is called directly, or is the start.
    CalleeHasCaptures,
    /// 10: Promote into what is not dyn.
    PromoteNotDynamic,
    /// 11: a type of the wrong kind.
    WrongTypeKind {
        /// The kind that is wanted.
        expected: TypeKind,
    },
    /// 12: a wrong modifier.
    BadModifier,
    /// 13: a handler's range, target or register is wrong.
    InvalidHandler,
    /// 14: a catch register is not dyn.
    CatchNotDyn,
    /// 15: a tail call under a handler.
    TailCallInTry,
    /// 16: a parent is no struct, or its fields are not the first of the child's.
    BadParent,
    /// 17: over 256 types on a chain, 64 in edition 2, or a cycle.
    InheritanceTooDeep,
    /// 18: a constant holds itself or a later one, or nests over 64 deep.
    BadConstant,
    /// 19: a hook's callee has the wrong shape; the hook's number, 0 to 30.
    BadHook(u32),
    /// 20: the start function takes or gives something.
    BadStart,
    /// 21: a parameter list is wrong.
    BadParamList,
    /// 22: a call shape is wrong.
    BadCallShape,
    /// 23: the host list is broken or holds a pair twice.
    BadHostList,
    /// 24: table or work is shorter than 64 + 8N words.
    ShortSlice,
    /// 27: an export's name is no string of the sheet; the name. Edition 2 alone.
    ExportNameOutOfRange(StrId),
    /// 28: an export has the name of an earlier one; its place, from 0. Edition 2 alone.
    DuplicateExport(u32),
}

impl LoadErrorKind {
    /// Kind, word, number, second.
    fn numbers(self) -> [u32; 4] {
        let only = |kind| [kind, 0, 0, 0];
        match self {
            Self::Decode => only(1),
            Self::UnresolvedImport { module, name } => [2, 0, module.0, name.0],
            Self::OutOfRange { what, index } => [3, what as u32, index, 0],
            Self::BadSignature => only(4),
            Self::ParamMismatch => only(5),
            Self::EmptyCode => only(6),
            Self::FallsThrough => only(7),
            Self::ArityMismatch { expected, found } => [8, 0, expected, found],
            Self::CalleeHasCaptures => only(9),
            Self::PromoteNotDynamic => only(10),
            Self::WrongTypeKind { expected } => [11, expected as u32, 0, 0],
            Self::BadModifier => only(12),
            Self::InvalidHandler => only(13),
            Self::CatchNotDyn => only(14),
            Self::TailCallInTry => only(15),
            Self::BadParent => only(16),
            Self::InheritanceTooDeep => only(17),
            Self::BadConstant => only(18),
            Self::BadHook(hook) => [19, 0, hook, 0],
            Self::BadStart => only(20),
            Self::BadParamList => only(21),
            Self::BadCallShape => only(22),
            Self::BadHostList => only(23),
            Self::ShortSlice => only(24),
            Self::ExportNameOutOfRange(name) => [27, 0, name.0, 0],
            Self::DuplicateExport(place) => [28, 0, place, 0],
        }
    }

    /// The kind with these numbers; those that it does not use are not looked at.
    fn from_numbers([kind, word, number, second]: [u32; 4]) -> Option<Self> {
        let (module, name) = (StrId(number), StrId(second));
        let (expected, found) = (number, second);
        Some(match kind {
            1 => Self::Decode,
            2 => Self::UnresolvedImport { module, name },
            3 => Self::OutOfRange {
                what: by_word(&WHATS, word)?,
                index: number,
            },
            4 => Self::BadSignature,
            5 => Self::ParamMismatch,
            6 => Self::EmptyCode,
            7 => Self::FallsThrough,
            8 => Self::ArityMismatch { expected, found },
            9 => Self::CalleeHasCaptures,
            10 => Self::PromoteNotDynamic,
            11 => Self::WrongTypeKind {
                expected: by_word(&TYPE_KINDS, word)?,
            },
            12 => Self::BadModifier,
            13 => Self::InvalidHandler,
            14 => Self::CatchNotDyn,
            15 => Self::TailCallInTry,
            16 => Self::BadParent,
            17 => Self::InheritanceTooDeep,
            18 => Self::BadConstant,
            19 => Self::BadHook(number),
            20 => Self::BadStart,
            21 => Self::BadParamList,
            22 => Self::BadCallShape,
            23 => Self::BadHostList,
            24 => Self::ShortSlice,
            27 => Self::ExportNameOutOfRange(StrId(number)),
            28 => Self::DuplicateExport(number),
            _ => return None,
        })
    }

    /// What is wrong, without the numbers.
    fn words(self) -> &'static str {
        match self {
            Self::Decode => "the sheet's layout is broken",
            Self::UnresolvedImport { .. } => "no host function for an import",
            Self::OutOfRange { .. } => "a number is out of range",
            Self::BadSignature => {
                "a signature is no func type with at most one result, or no scheduler's"
            }
            Self::ParamMismatch => "the registers do not begin with the parameters",
            Self::EmptyCode => "a function has no code",
            Self::FallsThrough => "the last instruction falls through",
            Self::ArityMismatch { .. } => "wrong number of arguments",
            Self::CalleeHasCaptures => {
                "a function with captures is called directly, or is the start"
            }
            Self::PromoteNotDynamic => "Promote into what is not dyn",
            Self::WrongTypeKind { .. } => "a type of the wrong kind",
            Self::BadModifier => "a wrong modifier",
            Self::InvalidHandler => "a handler's range, target or register is wrong",
            Self::CatchNotDyn => "a catch register is not dyn",
            Self::TailCallInTry => "a tail call under a handler",
            Self::BadParent => {
                "a parent is no struct, or its fields are not the first of the child's"
            }
            Self::InheritanceTooDeep => "over 256 types on a chain, 64 in edition 2, or a cycle",
            Self::BadConstant => "a constant holds itself or a later one, or nests over 64 deep",
            Self::BadHook(_) => "a hook's callee has the wrong shape",
            Self::BadStart => "the start function takes or gives something",
            Self::BadParamList => "a parameter list is wrong",
            Self::BadCallShape => "a call shape is wrong",
            Self::BadHostList => "the host list is broken or holds a pair twice",
            Self::ShortSlice => "table or work is shorter than 64 + 8N words",
            Self::ExportNameOutOfRange(_) => "an export's name is no string of the sheet",
            Self::DuplicateExport(_) => "an export has the name of an earlier one",
        }
    }
}

/// The one with this word, from 1 up.
fn by_word<T: Copy>(names: &[(T, &str)], word: u32) -> Option<T> {
    let place = usize::try_from(word.checked_sub(1)?).ok()?;
    names.get(place).map(|&(one, _)| one)
}

impl fmt::Display for What {
    fn fmt(&self, f: &mut fmt::Formatter<'_>) -> fmt::Result {
        f.write_str(WHATS[*self as usize - 1].1)
    }
}

impl fmt::Display for TypeKind {
    fn fmt(&self, f: &mut fmt::Formatter<'_>) -> fmt::Result {
        f.write_str(TYPE_KINDS[*self as usize - 1].1)
    }
}

impl fmt::Display for LoadErrorKind {
    fn fmt(&self, f: &mut fmt::Formatter<'_>) -> fmt::Result {
        f.write_str(self.words())?;
        match self {
            Self::UnresolvedImport { module, name } => {
                write!(f, ": module string {}, name string {}", module.0, name.0)
            }
            Self::OutOfRange { what, index } => write!(f, ": {what} {index}"),
            Self::ArityMismatch { expected, found } => {
                let which = match found.cmp(expected) {
                    Ordering::Less => "too few, ",
                    Ordering::Equal => "",
                    Ordering::Greater => "too many, ",
                };
                write!(f, ": {which}{expected} expected, {found} found")
            }
            Self::WrongTypeKind { expected } => write!(f, ": {expected} is wanted"),
            Self::BadHook(hook) => write!(f, ": hook {hook}"),
            Self::ExportNameOutOfRange(name) => write!(f, ": string {}", name.0),
            Self::DuplicateExport(place) => write!(f, ": export {place}"),
            _ => Ok(()),
        }
    }
}

/// A refusal: what is wrong, and where.
#[derive(Clone, Copy, Debug, PartialEq, Eq, Hash)]
pub struct LoadError {
    kind: LoadErrorKind,
    func: Option<FuncId>,
    pc: Option<u32>,
}

impl LoadError {
    /// What is wrong.
    #[must_use]
    pub fn kind(&self) -> LoadErrorKind {
        self.kind
    }

    /// The function that is at fault, if it is one.
    #[must_use]
    pub fn func(&self) -> Option<FuncId> {
        self.func
    }

    /// The position of the instruction in that function's code, if it is one.
    #[must_use]
    pub fn pc(&self) -> Option<u32> {
        self.pc
    }

    /// The six numbers: kind, word, number, second, function + 1, position + 1; unused ones are 0.
    ///
    /// ```
    /// # use paqlluri::LoadError;
    /// let error = LoadError::from_numbers([3, 5, 9, 0, 1, 4]).unwrap();
    /// assert_eq!(error.numbers(), [3, 5, 9, 0, 1, 4]);
    /// let words = "a number is out of range: register 9, in function 0, instruction 3";
    /// assert_eq!(error.to_string(), words);
    /// ```
    #[must_use]
    pub fn numbers(&self) -> [u32; 6] {
        let [kind, word, number, second] = self.kind.numbers();
        // Neither wraps: both come from a number that was one more.
        let func = self.func.map_or(0, |f| f.0 + 1);
        let pc = self.pc.map_or(0, |pc| pc + 1);
        [kind, word, number, second, func, pc]
    }

    /// The refusal with these six numbers, if they are those of one: the way back from [`numbers`](Self::numbers).
    #[must_use]
    pub fn from_numbers(numbers: [u32; 6]) -> Option<LoadError> {
        let [kind, word, number, second, func, pc] = numbers;
        let error = LoadError {
            kind: LoadErrorKind::from_numbers([kind, word, number, second])?,
            func: func.checked_sub(1).map(FuncId),
            pc: pc.checked_sub(1),
        };
        (error.numbers() == numbers).then_some(error)
    }
}

impl fmt::Display for LoadError {
    fn fmt(&self, f: &mut fmt::Formatter<'_>) -> fmt::Result {
        self.kind.fmt(f)?;
        if let Some(FuncId(func)) = self.func {
            write!(f, ", in function {func}")?;
        }
        if let Some(pc) = self.pc {
            write!(f, ", instruction {pc}")?;
        }
        Ok(())
    }
}

impl Error for LoadError {}

/// The sheet's layout is broken: kind 1.
#[derive(Clone, Copy, Debug, PartialEq, Eq, Hash)]
pub struct BrokenLayout;

impl fmt::Display for BrokenLayout {
    fn fmt(&self, f: &mut fmt::Formatter<'_>) -> fmt::Result {
        LoadErrorKind::Decode.fmt(f)
    }
}

impl Error for BrokenLayout {}

/// So that `?` takes both where a sheet is counted and loaded.
impl From<BrokenLayout> for LoadError {
    fn from(_: BrokenLayout) -> LoadError {
        LoadError {
            kind: LoadErrorKind::Decode,
            func: None,
            pc: None,
        }
    }
}
