//! Renumbering of types: entry t moves to its image's place, and every mention follows.

use crate::plain::*;

/// The sheet renumbered; `image` gives each type's image, and numbers without a type are their own.
pub fn renumber(sheet: &Sheet, image: &[u32]) -> Sheet {
    let mut out = sheet.clone();
    let number = |t: u32| image.get(t as usize).copied().unwrap_or(t);
    let value = |v: &mut ValueType| {
        if let Some(t) = v.target() {
            *v = ValueType::reference(number(t));
        }
    };
    for (t, entry) in sheet.types.iter().enumerate() {
        let mut entry = entry.clone();
        match &mut entry {
            TypeEntry::Func { params, results } => {
                params.iter_mut().chain(results).for_each(value);
            }
            TypeEntry::Struct { parent, fields, .. } => {
                *parent = parent.map(number);
                fields.iter_mut().for_each(|(_, v)| value(v));
            }
            TypeEntry::Array(v) | TypeEntry::Cell(v) => value(v),
            TypeEntry::Map(k, v) | TypeEntry::Iter(k, v) => {
                value(k);
                value(v);
            }
            TypeEntry::Coroutine => {}
        }
        out.types[image[t] as usize] = entry;
    }
    for i in &mut out.imports {
        i.sig = number(i.sig);
    }
    for g in &mut out.globals {
        value(&mut g.ty);
    }
    for f in &mut out.functions {
        f.sig = number(f.sig);
        f.regs.iter_mut().chain(&mut f.captures).for_each(value);
        f.type_refs.iter_mut().for_each(|t| *t = number(*t));
    }
    for e in &mut out.exports {
        if e.kind == ExportKind::Type {
            e.index = number(e.index);
        }
    }
    out
}
