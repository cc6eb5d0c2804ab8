//! From plain data to words and bytes; each word keeps its role, so that damage can be aimed.

use crate::blocks::write_blocks;
use crate::plain::*;
use crate::Edition;

/// What a word is in its sheet or host list.
#[derive(Clone, Copy, Debug, PartialEq, Eq)]
pub enum Role {
    Edition,
    Length,
    Count,
    StringLength,
    StringBytes,
    /// The last word of a string, with bytes of padding.
    StringTail,
    TypeKind,
    ConstantKind,
    ValueType,
    /// The 0 or 1 before an optional list.
    Present,
    HookNumber,
    CalleeKind,
    ExportKind,
    HostKind,
    /// The low word of an instruction.
    Code,
    Number,
}

/// Words with their roles.
#[derive(Clone, Debug, Default)]
pub struct Words {
    pub words: Vec<u32>,
    pub roles: Vec<Role>,
}

impl Words {
    fn start(edition: Edition) -> Words {
        let mut out = Words::default();
        out.put(Role::Edition, edition.word());
        out.put(Role::Length, 0);
        out
    }

    fn end(mut self) -> Words {
        self.words[1] = self.words.len() as u32;
        self
    }

    /// The blocks, with check words that fit.
    pub fn to_bytes(&self) -> Vec<u8> {
        write_blocks(&self.words)
    }

    fn put(&mut self, role: Role, word: u32) {
        self.words.push(word);
        self.roles.push(role);
    }

    fn number(&mut self, word: u32) {
        self.put(Role::Number, word);
    }

    fn plus_one(&mut self, number: Option<u32>) {
        self.number(number.map_or(0, |n| n.wrapping_add(1)));
    }

    fn value_type(&mut self, v: ValueType) {
        self.put(Role::ValueType, v.0);
    }

    fn list<T>(&mut self, members: &[T], write: impl Fn(&mut Words, &T)) {
        self.put(Role::Count, members.len() as u32);
        members.iter().for_each(|m| write(self, m));
    }

    fn numbers(&mut self, members: &[u32]) {
        self.list(members, |w, &n| w.number(n));
    }

    fn value_types(&mut self, members: &[ValueType]) {
        self.list(members, |w, &v| w.value_type(v));
    }

    fn pairs(&mut self, members: &[(u32, u32)]) {
        self.list(members, |w, &(a, b)| {
            w.number(a);
            w.number(b);
        });
    }

    fn string(&mut self, bytes: &[u8]) {
        self.put(Role::StringLength, bytes.len() as u32);
        for four in bytes.chunks(4) {
            let mut word = [0; 4];
            word[..four.len()].copy_from_slice(four);
            let role = if four.len() == 4 {
                Role::StringBytes
            } else {
                Role::StringTail
            };
            self.put(role, u32::from_le_bytes(word));
        }
    }

    fn params(&mut self, params: &Option<Vec<Param>>) {
        self.put(Role::Present, u32::from(params.is_some()));
        if let Some(params) = params {
            self.list(params, |w, p| {
                w.number(p.flags);
                w.plus_one(p.name);
            });
        }
    }
}

/// The words of a sheet.
pub fn encode_sheet(sheet: &Sheet) -> Words {
    let mut w = Words::start(sheet.edition);
    w.list(&sheet.strings, |w, s| w.string(s));
    w.list(&sheet.types, type_entry);
    w.list(&sheet.constants, constant);
    w.list(&sheet.imports, |w, i| {
        w.number(i.module);
        w.number(i.name);
        w.number(i.sig);
        w.params(&i.params);
    });
    w.list(&sheet.globals, |w, g| {
        w.value_type(g.ty);
        w.plus_one(g.init);
    });
    w.list(&sheet.functions, function);
    w.list(&sheet.hooks, |w, h| {
        w.put(Role::HookNumber, h.hook);
        w.put(Role::CalleeKind, h.callee as u32);
        w.number(h.index);
    });
    w.plus_one(sheet.start);
    w.list(&sheet.exports, |w, e| {
        w.put(Role::ExportKind, e.kind as u32);
        w.number(e.name);
        w.number(e.index);
    });
    w.end()
}

/// The words of a host list.
pub fn encode_hosts(hosts: &[HostEntry]) -> Words {
    let mut w = Words::start(Edition::First);
    w.list(hosts, |w, h| {
        w.string(&h.module);
        w.string(&h.name);
        w.put(Role::HostKind, u32::from(h.scheduler));
    });
    w.end()
}

fn type_entry(w: &mut Words, entry: &TypeEntry) {
    let kind = |w: &mut Words, kind| w.put(Role::TypeKind, kind);
    match entry {
        TypeEntry::Func { params, results } => {
            kind(w, 0);
            w.value_types(params);
            w.value_types(results);
        }
        TypeEntry::Struct {
            name,
            parent,
            fields,
            methods,
        } => {
            kind(w, 1);
            w.number(*name);
            w.plus_one(*parent);
            w.list(fields, |w, &(name, ty)| {
                w.number(name);
                w.value_type(ty);
            });
            w.pairs(methods);
        }
        TypeEntry::Array(v) => {
            kind(w, 2);
            w.value_type(*v);
        }
        TypeEntry::Map(k, v) => {
            kind(w, 3);
            w.value_type(*k);
            w.value_type(*v);
        }
        TypeEntry::Cell(v) => {
            kind(w, 4);
            w.value_type(*v);
        }
        TypeEntry::Iter(k, v) => {
            kind(w, 5);
            w.value_type(*k);
            w.value_type(*v);
        }
        TypeEntry::Coroutine => kind(w, 6),
    }
}

fn constant(w: &mut Words, constant: &Constant) {
    let kind = |w: &mut Words, kind| w.put(Role::ConstantKind, kind);
    match constant {
        Constant::Plain(a, b) => {
            kind(w, 0);
            w.number(*a);
            w.number(*b);
        }
        Constant::Str(s) => {
            kind(w, 1);
            w.number(*s);
        }
        Constant::Array(items) => {
            kind(w, 2);
            w.numbers(items);
        }
        Constant::Map(entries) => {
            kind(w, 3);
            w.pairs(entries);
        }
    }
}

fn function(w: &mut Words, f: &Function) {
    w.number(f.sig);
    w.value_types(&f.regs);
    w.params(&f.params);
    w.list(&f.shapes, |w, shape| {
        w.list(shape, |w, entry| {
            w.number(entry.kind);
            w.number(entry.name);
        });
    });
    w.value_types(&f.captures);
    w.numbers(&f.names);
    w.numbers(&f.type_refs);
    w.list(&f.handlers, |w, h| {
        for n in [h.start, h.end, h.target, h.catch] {
            w.number(n);
        }
    });
    w.list(&f.tables, |w, t| {
        w.numbers(&t.targets);
        w.number(t.default);
    });
    w.list(&f.code, |w, &inst| {
        w.put(Role::Code, inst as u32);
        w.number((inst >> 32) as u32);
    });
}
