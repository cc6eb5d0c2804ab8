//! The linked table of an accepted sheet, from the sheet itself.

use sheets::{CalleeKind, Function, HostEntry, Sheet, TypeEntry, ValueType};

use super::rules::{lookup, signature};
use super::types::{canonical, canonical_string, canonical_value};

pub fn words(sheet: &Sheet, hosts: &[HostEntry]) -> Vec<u32> {
    let types = 0..sheet.types.len() as u32;
    let globals: Vec<u32> = sheet.globals.iter().map(|g| value(sheet, g.ty)).collect();
    let references = (0..).zip(&globals).filter(|(_, &v)| is_reference(v));
    let import = |i: &sheets::Import| {
        let place = lookup(sheet, hosts, i.module, i.name).expect("accepted");
        vec![canonical(sheet, i.sig), place as u32]
    };
    let sections = [
        counted(sheet.functions.iter().map(|f| function(sheet, f))),
        counted(sheet.types.iter().map(|t| entry(sheet, t))),
        counted(sheet.imports.iter().map(import)),
        counted((0..31).map(|h| vec![hook(sheet, h)])),
        counted(types.map(|t| vec![canonical(sheet, t)])),
        list(&globals),
        counted(references.map(|(i, _)| vec![i])),
        counted(spans(sheet).into_iter().map(Vec::from)),
    ];
    let mut starts = vec![10];
    for section in &sections {
        starts.push(starts[starts.len() - 1] + section.len() as u32);
    }
    let length = starts.pop().expect("nine starts");
    let mut words = vec![2, length];
    words.extend(starts);
    words.extend(sections.into_iter().flatten());
    words
}

/// A count of members, then their words.
fn counted(members: impl Iterator<Item = Vec<u32>>) -> Vec<u32> {
    let members: Vec<Vec<u32>> = members.collect();
    let mut words = vec![members.len() as u32];
    words.extend(members.into_iter().flatten());
    words
}

fn list(numbers: &[u32]) -> Vec<u32> {
    counted(numbers.iter().map(|&n| vec![n]))
}

fn value(sheet: &Sheet, v: ValueType) -> u32 {
    canonical_value(sheet, v).0
}

fn values(sheet: &Sheet, all: &[ValueType]) -> Vec<u32> {
    all.iter().map(|&v| value(sheet, v)).collect()
}

fn is_reference(v: u32) -> bool {
    v == 11 || v == 12 || v >= 16
}

/// The places of references, none above 65,535.
fn references(all: &[ValueType]) -> Vec<u32> {
    let places = (0u32..).zip(all).filter(|(_, v)| is_reference(v.0));
    places.map(|(i, _)| i.min(65535)).collect()
}

fn function(sheet: &Sheet, f: &Function) -> Vec<u32> {
    let (params, result) = signature(sheet, f.sig).expect("accepted");
    let names: Vec<u32> = f
        .names
        .iter()
        .map(|&s| canonical_string(sheet, s))
        .collect();
    let type_refs: Vec<u32> = f.type_refs.iter().map(|&t| canonical(sheet, t)).collect();
    let mut words = vec![
        canonical(sheet, f.sig),
        f.regs.len() as u32,
        params.len() as u32,
    ];
    words.extend(list(&values(sheet, &f.regs)));
    words.push(result.map_or(0, |v| value(sheet, v) + 1));
    words.extend(list(&references(&f.regs)));
    words.extend(list(&values(sheet, &f.captures)));
    words.extend(list(&names));
    words.extend(list(&type_refs));
    if f.handlers.len() <= 8 {
        words.push(0);
        return words;
    }
    words.push(1);
    let first = |position: u32| {
        let covers = |h: &sheets::Handler| h.start <= position && position < h.end;
        let lowest = f.handlers.iter().position(covers);
        lowest.map_or(u32::MAX, |h| h as u32)
    };
    let catch: Vec<u32> = (0..f.code.len() as u32).map(first).collect();
    words.extend(list(&catch));
    words
}

/// Pairs by rising canonical name, the first of equals kept.
fn by_name(sheet: &Sheet, pairs: impl Iterator<Item = (u32, u32)>) -> Vec<u32> {
    let mut kept: Vec<(u32, u32)> = Vec::new();
    for (name, what) in pairs {
        let name = canonical_string(sheet, name);
        if kept.iter().all(|&(n, _)| n != name) {
            kept.push((name, what));
        }
    }
    kept.sort_unstable();
    counted(kept.into_iter().map(|(name, what)| vec![name, what]))
}

fn entry(sheet: &Sheet, entry: &TypeEntry) -> Vec<u32> {
    let value = |v: &ValueType| value(sheet, *v);
    match entry {
        TypeEntry::Func { .. } => vec![0],
        TypeEntry::Struct {
            parent,
            fields,
            methods,
            ..
        } => {
            let types: Vec<ValueType> = fields.iter().map(|f| f.1).collect();
            let slots = fields.iter().map(|f| f.0).zip(0..65536);
            let parts = [
                vec![1, parent.map_or(0, |p| p + 1)],
                list(&values(sheet, &types)),
                list(&references(&types)),
                by_name(sheet, slots),
                by_name(sheet, methods.iter().copied()),
            ];
            parts.concat()
        }
        TypeEntry::Array(v) => vec![2, value(v)],
        TypeEntry::Map(k, v) => vec![3, value(k), value(v)],
        TypeEntry::Cell(v) => vec![4, value(v)],
        TypeEntry::Iter(k, v) => vec![5, value(k), value(v)],
        TypeEntry::Coroutine => vec![6],
    }
}

/// The last binding wins.
fn hook(sheet: &Sheet, hook: u32) -> u32 {
    let last = sheet.hooks.iter().rev().find(|b| b.hook == hook);
    last.map_or(0, |b| match b.callee {
        CalleeKind::Function => 1 + 2 * b.index,
        CalleeKind::Import => 2 + 2 * b.index,
    })
}

/// Pre, post and the chain length of each type.
fn spans(sheet: &Sheet) -> Vec<[u32; 3]> {
    let mut below = vec![Vec::new(); sheet.types.len() + 1];
    for (t, entry) in (0u32..).zip(&sheet.types) {
        if let TypeEntry::Struct { parent, .. } = entry {
            below[place_below(*parent)].push(t);
        }
    }
    let mut walk = Walk {
        below,
        entered: 0,
        spans: vec![[u32::MAX, 0, 0]; sheet.types.len()],
    };
    walk.enter_below(None, 1);
    walk.spans
}

/// Where the children of a struct are listed, or the roots.
fn place_below(above: Option<u32>) -> usize {
    above.map_or(0, |t| t as usize + 1)
}

/// The numbering walk.
struct Walk {
    /// The roots, then of each type its children, by rising number.
    below: Vec<Vec<u32>>,
    entered: u32,
    spans: Vec<[u32; 3]>,
}

impl Walk {
    /// Enters the roots, or below a struct its children; their chains have this length.
    fn enter_below(&mut self, above: Option<u32>, length: u32) {
        for t in std::mem::take(&mut self.below[place_below(above)]) {
            let pre = self.entered;
            self.entered += 1;
            self.enter_below(Some(t), length + 1);
            self.spans[t as usize] = [pre, self.entered, length];
        }
    }
}
