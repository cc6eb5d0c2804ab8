//! From bytes to plain data, or none when the layout is broken.

use crate::blocks::{read_blocks, WORDS};
use crate::plain::*;
use crate::reader::Reader;
use crate::Edition;

/// The sheet and its length N in words.
pub fn decode_sheet(bytes: &[u8]) -> Option<(Sheet, u32)> {
    let words = read_blocks(bytes)?;
    let mut r = Reader::frame(&words, WORDS)?;
    let sheet = Sheet {
        edition: Edition::of_word(words[0])?,
        strings: r.list(Reader::string)?,
        types: r.list(type_entry)?,
        constants: r.list(constant)?,
        imports: r.list(import)?,
        globals: r.list(global)?,
        functions: r.list(function)?,
        hooks: r.list(hook)?,
        start: r.plus_one()?,
        exports: r.list(export)?,
    };
    r.done().then_some((sheet, words[1]))
}

/// The entries of a host list; pairs that stand twice are not looked for here.
pub fn decode_hosts(bytes: &[u8]) -> Option<Vec<HostEntry>> {
    let words = read_blocks(bytes)?;
    Edition::of_word(words[0]).filter(|&e| e == Edition::First)?;
    let mut r = Reader::frame(&words, WORDS)?;
    let entries = r.list(|r| {
        Some(HostEntry {
            module: r.string()?,
            name: r.string()?,
            scheduler: r.bit()?,
        })
    })?;
    r.done().then_some(entries)
}

fn value_type(r: &mut Reader) -> Option<ValueType> {
    Some(ValueType(r.word()?)).filter(|v| v.listed())
}

fn two_words(r: &mut Reader) -> Option<(u32, u32)> {
    Some((r.word()?, r.word()?))
}

fn type_entry(r: &mut Reader) -> Option<TypeEntry> {
    Some(match r.word()? {
        0 => TypeEntry::Func {
            params: r.list(value_type)?,
            results: r.list(value_type)?,
        },
        1 => TypeEntry::Struct {
            name: r.word()?,
            parent: r.plus_one()?,
            fields: r.list(|r| Some((r.word()?, value_type(r)?)))?,
            methods: r.list(two_words)?,
        },
        2 => TypeEntry::Array(value_type(r)?),
        3 => TypeEntry::Map(value_type(r)?, value_type(r)?),
        4 => TypeEntry::Cell(value_type(r)?),
        5 => TypeEntry::Iter(value_type(r)?, value_type(r)?),
        6 => TypeEntry::Coroutine,
        _ => return None,
    })
}

fn constant(r: &mut Reader) -> Option<Constant> {
    Some(match r.word()? {
        0 => Constant::Plain(r.word()?, r.word()?),
        1 => Constant::Str(r.word()?),
        2 => Constant::Array(r.words()?),
        3 => Constant::Map(r.list(two_words)?),
        _ => return None,
    })
}

fn param(r: &mut Reader) -> Option<Param> {
    Some(Param {
        flags: r.word()?,
        name: r.plus_one()?,
    })
}

fn import(r: &mut Reader) -> Option<Import> {
    Some(Import {
        module: r.word()?,
        name: r.word()?,
        sig: r.word()?,
        params: r.optional(param)?,
    })
}

fn global(r: &mut Reader) -> Option<Global> {
    Some(Global {
        ty: value_type(r)?,
        init: r.plus_one()?,
    })
}

fn function(r: &mut Reader) -> Option<Function> {
    Some(Function {
        sig: r.word()?,
        regs: r.list(value_type)?,
        params: r.optional(param)?,
        shapes: r.list(|r| r.list(shape_entry))?,
        captures: r.list(value_type)?,
        names: r.words()?,
        type_refs: r.words()?,
        handlers: r.list(handler)?,
        tables: r.list(table)?,
        code: r.list(instruction)?,
    })
}

fn shape_entry(r: &mut Reader) -> Option<ShapeEntry> {
    Some(ShapeEntry {
        kind: r.word()?,
        name: r.word()?,
    })
}

fn handler(r: &mut Reader) -> Option<Handler> {
    Some(Handler {
        start: r.word()?,
        end: r.word()?,
        target: r.word()?,
        catch: r.word()?,
    })
}

fn table(r: &mut Reader) -> Option<Table> {
    Some(Table {
        targets: r.words()?,
        default: r.word()?,
    })
}

/// Codes 0 to 34 are listed; D is no code.
fn instruction(r: &mut Reader) -> Option<u64> {
    let (low, high) = two_words(r)?;
    (low & 0xff <= 34).then_some(u64::from(high) << 32 | u64::from(low))
}

fn hook(r: &mut Reader) -> Option<HookBinding> {
    Some(HookBinding {
        hook: r.word().filter(|&h| h <= 30)?,
        callee: match r.word()? {
            0 => CalleeKind::Function,
            1 => CalleeKind::Import,
            _ => return None,
        },
        index: r.word()?,
    })
}

fn export(r: &mut Reader) -> Option<Export> {
    Some(Export {
        kind: match r.word()? {
            0 => ExportKind::Function,
            1 => ExportKind::Global,
            2 => ExportKind::Type,
            _ => return None,
        },
        name: r.word()?,
        index: r.word()?,
    })
}
