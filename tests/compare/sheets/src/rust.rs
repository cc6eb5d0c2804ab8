//! From plain data to the Rust's module and host.

use bvm_lang::Host;
use bytecode_lang as lang;
use bytecode_lang::{ConstId, FuncId, GlobalId, ImportId, StrId, TypeId};

use crate::plain::*;
use crate::Edition;

/// The host registry, or none when a pair stands twice.
pub fn rust_host(entries: &[HostEntry]) -> Option<Host> {
    let mut host = Host::new();
    let new = entries
        .iter()
        .all(|e| host.register(&text(&e.module), &text(&e.name), e.scheduler));
    new.then_some(host)
}

/// The module of a decoded sheet.
pub fn rust_module(sheet: &Sheet) -> lang::Module {
    // It knows the limit of the first edition alone.
    assert_eq!(sheet.edition, Edition::First, "the Rust is not asked");
    lang::Module {
        strings: sheet.strings.iter().map(|s| text(s)).collect(),
        types: sheet.types.iter().map(type_def).collect(),
        consts: sheet.constants.iter().map(constant).collect(),
        imports: sheet.imports.iter().map(import).collect(),
        globals: sheet.globals.iter().map(global).collect(),
        functions: sheet.functions.iter().map(function).collect(),
        hooks: sheet.hooks.iter().map(hook).collect(),
        start: sheet.start.map(FuncId),
        exports: sheet.exports.iter().map(export).collect(),
    }
}

fn text(bytes: &[u8]) -> String {
    String::from_utf8(bytes.to_vec()).expect("decoded strings are UTF-8")
}

fn val_type(v: ValueType) -> lang::ValType {
    use lang::ValType as V;
    const PLAIN: [V; 13] = [
        V::Bool,
        V::I8,
        V::I16,
        V::I32,
        V::I64,
        V::U8,
        V::U16,
        V::U32,
        V::U64,
        V::F32,
        V::F64,
        V::Str,
        V::Dyn,
    ];
    match v.target() {
        Some(t) => V::Ref(TypeId(t)),
        None => PLAIN[v.0 as usize],
    }
}

fn val_types(types: &[ValueType]) -> Vec<lang::ValType> {
    types.iter().map(|&v| val_type(v)).collect()
}

fn type_def(entry: &TypeEntry) -> lang::TypeDef {
    use lang::TypeDef as D;
    match entry {
        TypeEntry::Func { params, results } => D::Func(lang::FuncSig {
            params: val_types(params),
            results: val_types(results),
        }),
        TypeEntry::Struct {
            name,
            parent,
            fields,
            methods,
        } => D::Struct(lang::StructDef {
            name: StrId(*name),
            parent: parent.map(TypeId),
            fields: fields.iter().map(field).collect(),
            methods: methods.iter().map(method).collect(),
        }),
        TypeEntry::Array(v) => D::Array(val_type(*v)),
        TypeEntry::Map(k, v) => D::Map {
            key: val_type(*k),
            value: val_type(*v),
        },
        TypeEntry::Cell(v) => D::Cell(val_type(*v)),
        TypeEntry::Iter(k, v) => D::Iter {
            key: val_type(*k),
            value: val_type(*v),
        },
        TypeEntry::Coroutine => D::Coroutine,
    }
}

fn field(&(name, ty): &(u32, ValueType)) -> lang::FieldDef {
    lang::FieldDef {
        name: StrId(name),
        ty: val_type(ty),
    }
}

fn method(&(name, func): &(u32, u32)) -> lang::MethodDef {
    lang::MethodDef {
        name: StrId(name),
        func: FuncId(func),
    }
}

fn constant(c: &Constant) -> lang::Const {
    match c {
        Constant::Plain(a, b) => lang::Const::Plain(*a, *b),
        Constant::Str(s) => lang::Const::Str(StrId(*s)),
        Constant::Array(items) => lang::Const::Array(items.iter().map(|&k| ConstId(k)).collect()),
        Constant::Map(entries) => {
            let pair = |&(k, v): &(u32, u32)| (ConstId(k), ConstId(v));
            lang::Const::Map(entries.iter().map(pair).collect())
        }
    }
}

fn params(list: &Option<Vec<Param>>) -> Option<lang::ParamList> {
    let param = |p: &Param| lang::Param::new(p.flags, p.name.map(StrId));
    list.as_ref().map(|list| lang::ParamList {
        params: list.iter().map(param).collect(),
    })
}

fn import(i: &Import) -> lang::Import {
    lang::Import {
        module: StrId(i.module),
        name: StrId(i.name),
        sig: TypeId(i.sig),
        params: params(&i.params),
    }
}

fn global(g: &Global) -> lang::Global {
    lang::Global {
        ty: val_type(g.ty),
        init: g.init.map(ConstId),
    }
}

fn shape(entries: &[ShapeEntry]) -> lang::CallShape {
    let arg = |e: &ShapeEntry| match e.kind {
        0 => lang::ArgKind::Positional,
        1 => lang::ArgKind::Named(StrId(e.name)),
        2 => lang::ArgKind::Spread,
        other => lang::ArgKind::Unlisted(other),
    };
    lang::CallShape {
        args: entries.iter().map(arg).collect(),
    }
}

fn function(f: &Function) -> lang::Function {
    let inst = |&w: &u64| lang::Inst::from_word(w).expect("decoded codes are listed");
    lang::Function {
        sig: TypeId(f.sig),
        regs: val_types(&f.regs),
        params: params(&f.params),
        shapes: f.shapes.iter().map(|s| shape(s)).collect(),
        captures: val_types(&f.captures),
        names: f.names.iter().map(|&s| StrId(s)).collect(),
        type_refs: f.type_refs.iter().map(|&t| TypeId(t)).collect(),
        handlers: f.handlers.iter().map(handler).collect(),
        tables: f.tables.iter().map(table).collect(),
        code: f.code.iter().map(inst).collect(),
    }
}

fn handler(h: &Handler) -> lang::Handler {
    lang::Handler {
        start: h.start,
        end: h.end,
        target: lang::Target(h.target),
        catch: lang::CatchReg(h.catch),
    }
}

fn table(t: &Table) -> lang::Table {
    lang::Table {
        targets: t.targets.iter().map(|&n| lang::Target(n)).collect(),
        default: lang::Target(t.default),
    }
}

fn hook(b: &HookBinding) -> lang::HookBinding {
    lang::HookBinding {
        hook: lang::Hook::from_code(b.hook).expect("decoded hooks are listed"),
        callee: match b.callee {
            CalleeKind::Function => lang::Callee::Func(FuncId(b.index)),
            CalleeKind::Import => lang::Callee::Import(ImportId(b.index)),
        },
    }
}

fn export(e: &Export) -> lang::Export {
    lang::Export {
        name: StrId(e.name),
        item: match e.kind {
            ExportKind::Function => lang::ExportItem::Func(FuncId(e.index)),
            ExportKind::Global => lang::ExportItem::Global(GlobalId(e.index)),
            ExportKind::Type => lang::ExportItem::Type(TypeId(e.index)),
        },
    }
}
