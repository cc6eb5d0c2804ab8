//! The linked table's words as far as the Rust has them, read off a loaded program, and its own family test.

use bytecode_lang::{Callee, ValType};

use crate::host::HostFn;
use crate::program::{FuncInfo, ImportInfo, Program, StructInfo, TypeInfo};
use crate::Host;

/// Whether struct `t` is `a` or descends from it, by the Rust.
pub fn descends(program: &Program, t: u32, a: u32) -> bool {
    program.descends(t, a)
}

/// The parent that a struct declares, by the Rust.
pub fn parent(program: &Program, t: u32) -> Option<u32> {
    program.struct_info(t)?.parent
}

/// The words of a table whose spans are pre and post alone: the Rust knows no chain length, so its first word and its length
/// are not those of a linked table.
pub fn rust_words(program: &Program, host: &Host) -> Vec<u32> {
    let mut sections: [Vec<u32>; 8] = Default::default();
    let [funcs, types, imports, hooks, canon, globals, refs, spans] = &mut sections;
    list(funcs, &program.funcs, function);
    list(types, &program.types, type_record);
    list(imports, 0..program.imports.len(), |out, i| {
        import(out, program, host, i);
    });
    list(hooks, program.hooks, |out, hook| {
        out.push(match hook {
            None => 0,
            Some(Callee::Func(f)) => 1 + 2 * f.0,
            Some(Callee::Import(i)) => 2 + 2 * i.0,
        });
    });
    numbers(canon, program.canon_ty.iter().copied());
    valtypes(globals, &program.global_types);
    numbers(refs, program.global_refs.iter().copied());
    list(spans, &program.types, span);
    assemble(&sections)
}

/// A first word, the length, the eight starts, then the sections.
fn assemble(sections: &[Vec<u32>; 8]) -> Vec<u32> {
    let mut words = vec![1, 0];
    let mut start = 10;
    for section in sections {
        words.push(word(start));
        start += section.len();
    }
    words[1] = word(start);
    words.extend(sections.iter().flatten());
    words
}

fn word(n: usize) -> u32 {
    u32::try_from(n).expect("a table's lengths fit a word")
}

/// A count, then the members.
fn list<T, I>(out: &mut Vec<u32>, members: I, mut write: impl FnMut(&mut Vec<u32>, T))
where
    I: IntoIterator<Item = T>,
    I::IntoIter: ExactSizeIterator,
{
    let members = members.into_iter();
    out.push(word(members.len()));
    members.for_each(|m| write(out, m));
}

fn numbers<I>(out: &mut Vec<u32>, members: I)
where
    I: IntoIterator<Item = u32>,
    I::IntoIter: ExactSizeIterator,
{
    list(out, members, Vec::push);
}

fn valtypes(out: &mut Vec<u32>, types: &[ValType]) {
    numbers(out, types.iter().map(|&v| valtype(v)));
}

/// A value type as the sheet numbers it.
fn valtype(v: ValType) -> u32 {
    match v {
        ValType::Bool => 0,
        ValType::I8 => 1,
        ValType::I16 => 2,
        ValType::I32 => 3,
        ValType::I64 => 4,
        ValType::U8 => 5,
        ValType::U16 => 6,
        ValType::U32 => 7,
        ValType::U64 => 8,
        ValType::F32 => 9,
        ValType::F64 => 10,
        ValType::Str => 11,
        ValType::Dyn => 12,
        ValType::Ref(t) => 16 + t.0,
    }
}

fn function(out: &mut Vec<u32>, f: &FuncInfo) {
    out.extend([f.sig, word(f.nregs), word(f.nparams)]);
    valtypes(out, &f.regs);
    out.push(f.result.map_or(0, |v| valtype(v) + 1));
    numbers(out, f.ref_regs.iter().map(|&r| u32::from(r)));
    valtypes(out, &f.captures);
    numbers(out, f.names.iter().copied());
    numbers(out, f.type_refs.iter().copied());
    match &f.catch_table {
        None => out.push(0),
        Some(table) => {
            out.push(1);
            numbers(out, table.iter().copied());
        }
    }
}

fn type_record(out: &mut Vec<u32>, info: &TypeInfo) {
    match info {
        TypeInfo::Func => out.push(0),
        TypeInfo::Struct(s) => struct_record(out, s),
        TypeInfo::Array(v) => out.extend([2, valtype(*v)]),
        TypeInfo::Map(k, v) => out.extend([3, valtype(*k), valtype(*v)]),
        TypeInfo::Cell(v) => out.extend([4, valtype(*v)]),
        TypeInfo::Iter(k, v) => out.extend([5, valtype(*k), valtype(*v)]),
        TypeInfo::Coroutine => out.push(6),
    }
}

/// A struct's fields in order, without the span, which has its own section.
fn struct_record(out: &mut Vec<u32>, s: &StructInfo) {
    out.extend([1, s.parent.map_or(0, |p| p + 1)]);
    valtypes(out, &s.fields);
    numbers(out, s.ref_fields.iter().map(|&r| u32::from(r)));
    list(out, s.field_names.iter(), |out, &(name, slot)| {
        out.extend([name, u32::from(slot)]);
    });
    list(out, s.methods.iter(), |out, &(name, func)| {
        out.extend([name, func]);
    });
}

/// The canonical signature and the place in the host list.
fn import(out: &mut Vec<u32>, program: &Program, host: &Host, i: usize) {
    let ImportInfo { sig, func, .. } = &program.imports[i];
    let declared = &program.module.imports()[i];
    let text = |id| program.module.string(id).unwrap_or("");
    let place = host
        .place(text(declared.module), text(declared.name))
        .expect("a bound import is in the host list");
    if let HostFn::User(found) = func {
        assert_eq!(*found, place, "lookup found another entry");
    }
    out.extend([*sig, place]);
}

/// pre and post; a type that is no struct lies under nothing.
fn span(out: &mut Vec<u32>, info: &TypeInfo) {
    out.extend(match info {
        TypeInfo::Struct(s) => [s.pre, s.post],
        _ => [u32::MAX, 0],
    });
}
