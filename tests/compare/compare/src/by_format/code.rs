//! Rule 7: code, one row of fields for each of the 35 codes.

use sheets::{Function, Import, Param, Sheet, TypeEntry};

use super::rules::{kind, range, signature, unless, Fault, DYN};

/// What a field names, with its word of kind 3.
#[derive(Clone, Copy, PartialEq, Eq)]
enum Field {
    None,
    Register,
    /// Of 32 bits, in W.
    Target,
    Table,
    Constant,
    Global,
    Function,
    Import,
    /// Of 16 bits, in B or C.
    Name,
    TypeRef,
    Capture,
    Shape,
}

/// Fields A, B or W, C.
fn row(code: u8) -> [Field; 3] {
    use Field::*;
    match code {
        0 | 1 => [None, None, None],
        2 | 3 | 31 => [Register, None, None],
        4 => [None, Target, None],
        5 => [Register, Target, None],
        6 => [Register, Table, None],
        7 | 15 | 20 | 22 => [Register, Function, None],
        9 | 10 | 29 => [Register, Register, Register],
        11 => [Register, Constant, None],
        12 => [Register, Global, None],
        13 => [Register, Register, Name],
        14 => [Register, Capture, None],
        21 => [Register, Import, None],
        23 => [Register, Shape, None],
        24..=27 => [Register, TypeRef, None],
        _ => [Register, Register, None],
    }
}

pub fn code(sheet: &Sheet, f: &Function) -> Result<(), Fault> {
    let length = f.code.len();
    let Some(&last) = f.code.last() else {
        return Err(kind(6));
    };
    let terminates = matches!(last as u8, 0..=4 | 6..=8);
    unless(terminates, [7, 0, 0, 0, 0, length as u32])?;
    for h in &f.handlers {
        let region = h.start < h.end && h.end as usize <= length;
        let in_range = (h.target as usize) < length && (h.catch as usize) < f.regs.len();
        unless(region && in_range, kind(13))?;
        unless(f.regs[h.catch as usize] == DYN, kind(14))?;
    }
    for t in &f.tables {
        for &target in t.targets.iter().chain([&t.default]) {
            range(9, target, length)?;
        }
    }
    for (position, &inst) in (0..).zip(&f.code) {
        let place = |[kind, word, number, second, f, _]: Fault| {
            [kind, word, number, second, f, position + 1]
        };
        fields(sheet, f, inst).map_err(place)?;
        own_rule(sheet, f, inst, position).map_err(place)?;
    }
    Ok(())
}

fn fields(sheet: &Sheet, f: &Function, inst: u64) -> Result<(), Fault> {
    let row = row(inst as u8);
    for (slot, field) in (0..).zip(row) {
        let half = (inst >> (16 + 16 * slot)) as u32 & 0xffff;
        let whole = (inst >> 32) as u32;
        match field {
            Field::None => {}
            Field::Register => range(5, half, f.regs.len())?,
            Field::Target => range(8, whole, f.code.len())?,
            Field::Table => range(10, whole, f.tables.len())?,
            Field::Constant => range(4, whole, sheet.constants.len())?,
            Field::Global => range(7, whole, sheet.globals.len())?,
            Field::Function => range(2, whole, sheet.functions.len())?,
            Field::Import => range(6, whole, sheet.imports.len())?,
            Field::Name => range(11, half, f.names.len())?,
            Field::TypeRef => range(12, half, f.type_refs.len())?,
            Field::Capture => range(13, half, f.captures.len())?,
            Field::Shape => range(14, half, f.shapes.len())?,
        }
    }
    Ok(())
}

/// The list by which arguments of an import may be left out.
fn optional_list<'s>(sheet: &Sheet, import: &'s Import) -> Option<&'s Vec<Param>> {
    let list = import.params.as_ref();
    list.filter(|_| sheet.edition.may_leave_out())
}

/// Kind 8 unless there are as many arguments as are mandatory, and no more than the signature has parameters.
fn arity(sheet: &Sheet, sig: u32, list: Option<&Vec<Param>>, found: u8) -> Result<(), Fault> {
    let most = signature(sheet, sig)?.0.len() as u32;
    let mandatory = |list: &Vec<Param>| list.iter().filter(|p| !p.is_optional()).count() as u32;
    let (fewest, found) = (list.map_or(most, mandatory), u32::from(found));
    unless(fewest <= found, [8, 0, fewest, found, 0, 0])?;
    unless(found <= most, [8, 0, most, found, 0, 0])
}

/// So many registers from the first lie in the frame, else the window's last is named.
fn in_frame(f: &Function, first: usize, n: usize) -> Result<(), Fault> {
    let last = (first + n).wrapping_sub(1) as u32;
    unless(first + n <= f.regs.len(), [3, 5, last, 0, 0, 0])
}

/// Kind 11 unless the type is of the kind that the code makes.
fn made(t: &TypeEntry, code: u8) -> Result<(), Fault> {
    let (word, fits) = match code {
        24 => (1, matches!(t, TypeEntry::Struct { .. })),
        25 => (2, matches!(t, TypeEntry::Array(_))),
        26 => (3, matches!(t, TypeEntry::Map(..))),
        _ => (4, matches!(t, TypeEntry::Cell(_))),
    };
    unless(fits, [11, word, 0, 0, 0, 0])
}

fn own_rule(sheet: &Sheet, f: &Function, inst: u64, position: u32) -> Result<(), Fault> {
    let d = (inst >> 8) as u8;
    let a = (inst >> 16) as usize & 0xffff;
    let b = (inst >> 32) as usize & 0xffff;
    let c = (inst >> 48) as usize;
    let w = (inst >> 32) as usize;
    let window = |first: usize, n: usize| in_frame(f, first, n);
    let call = |first: usize| {
        let callee = &sheet.functions[w];
        window(first, d.into())?;
        arity(sheet, callee.sig, None, d)?;
        unless(callee.captures.is_empty(), kind(9))
    };
    let call_import = || {
        let import = &sheet.imports[w];
        window(a + 1, d.into())?;
        arity(sheet, import.sig, optional_list(sheet, import), d)
    };
    let covers = |h: &sheets::Handler| h.start <= position && position < h.end;
    let no_handler = || unless(!f.handlers.iter().any(covers), kind(15));
    match inst as u8 {
        7 => call(a).and_then(|()| no_handler()),
        8 => window(a, d.into()).and_then(|()| no_handler()),
        9 => unless(d != 3, kind(10)),
        10 => unless(d != 3 || f.regs[a] == DYN, kind(10)),
        15 | 20 => call(a + 1),
        16..=19 => window(a + 1, d.into()),
        21 => call_import(),
        22 => window(a + 1, sheet.functions[w].captures.len()),
        23 => window(a + 1, f.shapes[b].len()),
        24..=27 => made(&sheet.types[f.type_refs[b] as usize], inst as u8),
        28 => window(b, d.into()),
        29 => window(c, 2),
        30 => unless(d != 13, kind(12)),
        31 => unless(d < 12, kind(12)),
        32 | 33 => unless(matches!(d, 3 | 4 | 7 | 8), kind(12)),
        _ => Ok(()),
    }
}
