//! Calls of imports: how many arguments they have, and how many they could have.

use sheets::{op, Sheet, TypeEntry};

/// A call of an import, beside what its list and its signature say, in whatever edition.
#[derive(Clone, Copy)]
pub(crate) struct ImportCall {
    pub found: usize,
    pub mandatory: usize,
    pub all: usize,
}

impl ImportCall {
    /// What the instruction calls, if it calls an import that is there.
    fn of(sheet: &Sheet, inst: u64) -> Option<ImportCall> {
        if inst as u8 != op::CALL_IMPORT {
            return None;
        }
        let import = sheet.imports.get((inst >> 32) as usize)?;
        let TypeEntry::Func { params, .. } = sheet.types.get(import.sig as usize)? else {
            return None;
        };
        let all = params.len();
        let optional = import.params.iter().flatten().filter(|p| p.is_optional());
        Some(ImportCall {
            found: usize::from((inst >> 8) as u8),
            mandatory: all.saturating_sub(optional.count()),
            all,
        })
    }

    pub fn has_optional(&self) -> bool {
        self.mandatory < self.all
    }

    /// Whether it has all that are mandatory, and not all.
    pub fn leaves_out(&self) -> bool {
        self.mandatory <= self.found && self.found < self.all
    }
}

pub(crate) fn import_calls(sheet: &Sheet) -> impl Iterator<Item = ImportCall> + '_ {
    let code = sheet.functions.iter().flat_map(|f| &f.code);
    code.filter_map(|&inst| ImportCall::of(sheet, inst))
}

/// Whether an import is called without some of its optional arguments.
pub fn leaves_out_arguments(sheet: &Sheet) -> bool {
    import_calls(sheet).any(|call| call.leaves_out())
}

/// The call of an import that kind 8 is given of.
pub(crate) fn refused_call(sheet: &Sheet, numbers: [u32; 6]) -> Option<ImportCall> {
    let [8, .., function, position] = numbers else {
        return None;
    };
    let f = sheet.functions.get(function as usize - 1)?;
    let inst = f.code.get(position as usize - 1)?;
    ImportCall::of(sheet, *inst)
}
