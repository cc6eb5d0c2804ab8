//! Aimed faults: each breaks one rule of a module, which mostly was valid before.

mod arguments;
mod code;
mod ends;
mod exports;
mod fields;
mod imports;
mod params;
mod records;
mod types;

use sheets::build::{function, ret_void};
use sheets::{Function, DYN};

use crate::{Draft, Rng};

pub use exports::FAULTS as EXPORT_FAULTS;
pub use imports::add as add_import;

/// A fault and the kind and word that it aims at.
#[derive(Clone, Copy)]
pub struct Fault {
    pub name: &'static str,
    pub kind: u32,
    pub word: u32,
    pub apply: fn(&mut Rng, &mut Draft),
}

const fn fault(name: &'static str, kind: u32, word: u32, apply: fn(&mut Rng, &mut Draft)) -> Fault {
    Fault {
        name,
        kind,
        word,
        apply,
    }
}

/// Every aimed fault, in the order of the rules.
pub fn faults() -> Vec<Fault> {
    [
        types::FAULTS,
        imports::FAULTS,
        records::FAULTS,
        code::FAULTS,
        arguments::FAULTS,
        fields::FAULTS,
        ends::FAULTS,
        exports::FAULTS,
    ]
    .concat()
}

/// Some fault; each kind and word is as frequent as any other, however many faults aim at it.
pub fn some_fault(rng: &mut Rng) -> Fault {
    let all = faults();
    let mut aims: Vec<(u32, u32)> = all.iter().map(|f| (f.kind, f.word)).collect();
    aims.sort_unstable();
    aims.dedup();
    let aim = rng.pick(&aims);
    let aimed: Vec<Fault> = all
        .into_iter()
        .filter(|f| (f.kind, f.word) == aim)
        .collect();
    rng.pick(&aimed)
}

/// The number of some function, added if there is none.
fn some_function(rng: &mut Rng, draft: &mut Draft) -> usize {
    if draft.sheet.functions.is_empty() || rng.one_in(8) {
        let sig = draft.sig(&[], &[]);
        draft.sheet.functions.push(Function {
            sig,
            ..function(&[DYN], &[ret_void()])
        });
    }
    rng.below(draft.sheet.functions.len())
}

/// Some function to change.
fn function_mut<'d>(rng: &mut Rng, draft: &'d mut Draft) -> &'d mut Function {
    let at = some_function(rng, draft);
    &mut draft.sheet.functions[at]
}

/// Puts an instruction somewhere before the last, so that every target stays in range.
fn place(rng: &mut Rng, f: &mut Function, inst: u64) {
    let at = rng.below(f.code.len().max(1));
    f.code.insert(at.min(f.code.len()), inst);
    if f.code.len() == 1 {
        f.code.push(ret_void());
    }
}

/// Enough registers for a call with so many arguments at A = 0.
fn widen(f: &mut Function, argc: u8) {
    while f.regs.len() <= usize::from(argc) {
        f.regs.push(DYN);
    }
}

/// A register of the function, added if there is none.
fn register(rng: &mut Rng, f: &mut Function) -> u16 {
    if f.regs.is_empty() {
        f.regs.push(DYN);
    }
    rng.below(f.regs.len().min(65536)) as u16
}

/// A dyn register of the function, added if there is none.
fn dynamic(f: &mut Function) -> u16 {
    match f.regs.iter().position(|&v| v == DYN) {
        Some(r) => r as u16,
        None => {
            f.regs.push(DYN);
            (f.regs.len() - 1) as u16
        }
    }
}
