//! Rules 1 to 4: canonical numbers, types, parents, constants.

use sheets::{Constant, Sheet, TypeEntry, ValueType};

use super::rules::{kind, range, unless, value_type, value_types, Fault};

/// The first equal definition, as stored; a struct is only itself.
pub fn canonical(sheet: &Sheet, t: u32) -> u32 {
    let own = &sheet.types[t as usize];
    match own {
        TypeEntry::Struct { .. } => t,
        _ => sheet.types.iter().position(|e| e == own).expect("itself") as u32,
    }
}

pub fn canonical_string(sheet: &Sheet, s: u32) -> u32 {
    let own = &sheet.strings[s as usize];
    sheet.strings.iter().position(|e| e == own).expect("itself") as u32
}

/// A value type with its type canonical.
pub fn canonical_value(sheet: &Sheet, v: ValueType) -> ValueType {
    match v.0 {
        0..=12 => v,
        code => ValueType(16 + canonical(sheet, code - 16)),
    }
}

pub fn types(sheet: &Sheet) -> Result<(), Fault> {
    let string = |s: u32| range(3, s, sheet.strings.len());
    for entry in &sheet.types {
        match entry {
            TypeEntry::Func { params, results } => {
                unless(results.len() <= 1, kind(4))?;
                value_types(sheet, params)?;
                value_types(sheet, results)?;
            }
            TypeEntry::Struct {
                name,
                fields,
                methods,
                ..
            } => {
                fields.iter().try_for_each(|f| value_type(sheet, f.1))?;
                fields.iter().take(65536).try_for_each(|f| string(f.0))?;
                for &(name, function) in methods {
                    range(2, function, sheet.functions.len())?;
                    string(name)?;
                }
                string(*name)?;
            }
            TypeEntry::Array(v) | TypeEntry::Cell(v) => value_type(sheet, *v)?,
            TypeEntry::Map(k, v) | TypeEntry::Iter(k, v) => value_types(sheet, &[*k, *v])?,
            TypeEntry::Coroutine => {}
        }
    }
    Ok(())
}

/// How many numbers are met from `t` up, at most `most`.
fn met(sheet: &Sheet, t: u32, most: u32) -> u32 {
    match sheet.types.get(t as usize) {
        Some(TypeEntry::Struct {
            parent: Some(p), ..
        }) if most > 1 => 1 + met(sheet, *p, most - 1),
        _ => 1,
    }
}

pub fn parents(sheet: &Sheet) -> Result<(), Fault> {
    let most = sheet.edition.most_on_chain();
    for (t, entry) in (0..).zip(&sheet.types) {
        let TypeEntry::Struct {
            parent: Some(parent),
            fields,
            ..
        } = entry
        else {
            continue;
        };
        let prefix = match sheet.types.get(*parent as usize) {
            Some(TypeEntry::Struct { fields: above, .. }) => fields.starts_with(above),
            _ => false,
        };
        unless(prefix, kind(16))?;
        unless(met(sheet, t, most + 1) <= most, kind(17))?;
    }
    Ok(())
}

pub fn constants(sheet: &Sheet) -> Result<(), Fault> {
    let mut depths: Vec<u32> = Vec::new();
    for constant in &sheet.constants {
        let children: Vec<u32> = match constant {
            Constant::Str(s) => {
                range(3, *s, sheet.strings.len())?;
                Vec::new()
            }
            Constant::Plain(..) => Vec::new(),
            Constant::Array(items) => items.clone(),
            Constant::Map(pairs) => pairs.iter().flat_map(|&(k, v)| [k, v]).collect(),
        };
        let below = children.iter().all(|&c| (c as usize) < depths.len());
        unless(below, kind(18))?;
        let deepest = children.iter().map(|&c| 1 + depths[c as usize]).max();
        let depth = deepest.unwrap_or(0);
        unless(depth <= 64, kind(18))?;
        depths.push(depth);
    }
    Ok(())
}
