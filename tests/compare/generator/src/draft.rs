//! A sheet and its host list as plain data, before any byte of it is written.

use sheets::build::func;
use sheets::{Edition, Export, ExportKind, HostEntry, Sheet, TypeEntry, ValueType, DYN};

use crate::Rng;

/// Plain data of a sheet and a host list.
#[derive(Clone, Debug, Default)]
pub struct Draft {
    pub sheet: Sheet,
    pub hosts: Vec<HostEntry>,
}

impl Draft {
    /// A func type with these parameters and results, found or added.
    pub fn sig(&mut self, params: &[ValueType], results: &[ValueType]) -> u32 {
        let wanted = func(params, results);
        self.entry(wanted)
    }

    /// A type entry, found or added.
    pub fn entry(&mut self, wanted: TypeEntry) -> u32 {
        let types = &mut self.sheet.types;
        let place = types.iter().position(|t| *t == wanted);
        place.unwrap_or_else(|| {
            types.push(wanted);
            types.len() - 1
        }) as u32
    }

    /// The parameters and results of a func type.
    pub fn signature(&self, t: u32) -> Option<(&[ValueType], &[ValueType])> {
        match self.sheet.types.get(t as usize) {
            Some(TypeEntry::Func { params, results }) => Some((params, results)),
            _ => None,
        }
    }

    /// The fewest and the most arguments that a call of an import takes.
    pub fn arguments(&self, import: u32) -> Option<(usize, usize)> {
        let import = self.sheet.imports.get(import as usize)?;
        let most = self.signature(import.sig)?.0.len();
        let list = import.params.as_ref();
        let fewest = match list.filter(|_| self.sheet.edition.may_leave_out()) {
            Some(list) => list.iter().filter(|p| !p.is_optional()).count(),
            None => most,
        };
        Some((fewest, most))
    }

    /// A string, found or added.
    pub fn string(&mut self, text: &[u8]) -> u32 {
        let strings = &mut self.sheet.strings;
        let place = strings.iter().position(|s| s == text);
        place.unwrap_or_else(|| {
            strings.push(text.to_vec());
            strings.len() - 1
        }) as u32
    }

    /// A string whose bytes name no export, found or added.
    pub fn free_name(&mut self, rng: &mut Rng) -> u32 {
        let Sheet {
            strings, exports, ..
        } = &mut self.sheet;
        let named = exports.iter().filter_map(|e| strings.get(e.name as usize));
        let taken: Vec<&Vec<u8>> = named.collect();
        let free = (0..).zip(&*strings).filter(|(_, s)| !taken.contains(s));
        let free: Vec<u32> = free.map(|(i, _)| i).collect();
        rng.choose(&free).unwrap_or_else(|| {
            let last = strings.len();
            strings.push(format!("name {last}").into_bytes());
            last as u32
        })
    }

    /// How many items of a kind there are to export.
    pub fn items(&self, kind: ExportKind) -> usize {
        match kind {
            ExportKind::Function => self.sheet.functions.len(),
            ExportKind::Global => self.sheet.globals.len(),
            ExportKind::Type => self.sheet.types.len(),
        }
    }

    /// An item to export, unless there is none of the kind that was drawn.
    pub fn some_item(&self, rng: &mut Rng) -> Option<(ExportKind, u32)> {
        let kind = rng.pick(&ExportKind::ALL);
        let count = self.items(kind);
        (count > 0).then(|| (kind, rng.index(count)))
    }

    /// Puts the export anywhere among the others.
    pub fn insert_export(&mut self, rng: &mut Rng, export: Export) {
        let at = rng.below(self.sheet.exports.len() + 1);
        self.sheet.exports.insert(at, export);
    }

    /// Numbers of the types for which the test holds.
    pub fn types_with(&self, test: impl Fn(&TypeEntry) -> bool) -> Vec<u32> {
        (0u32..)
            .zip(&self.sheet.types)
            .filter(|(_, t)| test(t))
            .map(|(i, _)| i)
            .collect()
    }

    pub fn func_types(&self) -> Vec<u32> {
        self.types_with(|t| matches!(t, TypeEntry::Func { .. }))
    }

    pub fn structs(&self) -> Vec<u32> {
        self.types_with(|t| matches!(t, TypeEntry::Struct { .. }))
    }

    /// A value type: dyn often, a reference to a type often, else any of the plain ones.
    pub fn value_type(&self, rng: &mut Rng) -> ValueType {
        value_type(rng, self.sheet.types.len())
    }
}

/// The second edition for one sheet in three.
pub fn edition(rng: &mut Rng) -> Edition {
    rng.pick(&[Edition::First, Edition::First, Edition::Second])
}

/// A value type over so many types.
pub fn value_type(rng: &mut Rng, types: usize) -> ValueType {
    match rng.below(4) {
        0 => DYN,
        1 | 2 if types > 0 => ValueType::reference(rng.index(types)),
        _ => ValueType(rng.index(13)),
    }
}
