//! Rule 6: function records.

use sheets::{Function, ShapeEntry, Sheet};

use super::rules::{kind, no_twice, param_list, range, signature, unless, value_types, Fault};
use super::types::canonical_value;

pub fn record(sheet: &Sheet, f: &Function) -> Result<(), Fault> {
    let (params, _) = signature(sheet, f.sig)?;
    value_types(sheet, &f.regs)?;
    let count = f.regs.len();
    unless(count <= 65536, [3, 5, count as u32, 0, 0, 0])?;
    let same = |(p, r): (_, _)| canonical_value(sheet, p) == canonical_value(sheet, r);
    let pairs = params.iter().copied().zip(f.regs.iter().copied());
    let first = params.len() <= count && pairs.into_iter().all(same);
    unless(first, kind(5))?;
    param_list(sheet, &f.params, params)?;
    for entries in &f.shapes {
        unless(shape(sheet, entries), kind(22))?;
    }
    value_types(sheet, &f.captures)?;
    for &name in &f.names {
        range(3, name, sheet.strings.len())?;
    }
    for &t in &f.type_refs {
        range(1, t, sheet.types.len())?;
    }
    Ok(())
}

fn shape(sheet: &Sheet, entries: &[ShapeEntry]) -> bool {
    let kinds: Vec<u32> = entries.iter().map(|e| e.kind).collect();
    let named = entries.iter().filter(|e| e.kind == 1);
    let names: Vec<u32> = named.map(|e| e.name).collect();
    let first_named = kinds.iter().position(|&k| k == 1).unwrap_or(kinds.len());
    let positional_after = kinds[first_named..].contains(&0);
    let in_range = names.iter().all(|&n| (n as usize) < sheet.strings.len());
    kinds.iter().all(|&k| k < 3) && !positional_after && no_twice(&names) && in_range
}
