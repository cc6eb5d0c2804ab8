//! Rules 5 and 8: imports, globals, hooks, start, exports; and the pieces that rules share.

use std::collections::HashSet;

use sheets::{CalleeKind, ExportKind, HostEntry, Param, Sheet, TypeEntry, ValueType};

/// Six numbers.
pub type Fault = [u32; 6];

pub const DYN: ValueType = ValueType(12);

pub fn kind(kind: u32) -> Fault {
    [kind, 0, 0, 0, 0, 0]
}

pub fn in_function(fault: Fault, f: u32) -> Fault {
    let [kind, word, number, second, _, position] = fault;
    [kind, word, number, second, f + 1, position]
}

/// Refuses with this fault unless the condition holds.
pub fn unless(holds: bool, fault: Fault) -> Result<(), Fault> {
    holds.then_some(()).ok_or(fault)
}

/// Kind 3 unless the list has such a number.
pub fn range(word: u32, number: u32, len: usize) -> Result<(), Fault> {
    unless((number as usize) < len, [3, word, number, 0, 0, 0])
}

pub fn value_type(sheet: &Sheet, v: ValueType) -> Result<(), Fault> {
    match v.0 {
        0..=12 => Ok(()),
        code => range(1, code - 16, sheet.types.len()),
    }
}

pub fn value_types(sheet: &Sheet, all: &[ValueType]) -> Result<(), Fault> {
    all.iter().try_for_each(|&v| value_type(sheet, v))
}

/// The parameters and the result of a signature.
pub fn signature(sheet: &Sheet, sig: u32) -> Result<(&[ValueType], Option<ValueType>), Fault> {
    range(1, sig, sheet.types.len())?;
    match &sheet.types[sig as usize] {
        TypeEntry::Func { params, results } => Ok((params, results.first().copied())),
        _ => Err(kind(4)),
    }
}

/// Kind 21 unless the list holds for these parameters.
pub fn param_list(
    sheet: &Sheet,
    list: &Option<Vec<Param>>,
    params: &[ValueType],
) -> Result<(), Fault> {
    let Some(list) = list else { return Ok(()) };
    let listed = list.iter().all(|p| p.flags < 4);
    let ordered = list
        .windows(2)
        .all(|w| !w[0].is_optional() || w[1].is_optional());
    let names: Vec<u32> = list.iter().filter_map(|p| p.name).collect();
    let fits = list.len() == params.len();
    let cell = |v: ValueType| {
        let t = v.0.checked_sub(16);
        t.is_some_and(|t| sheet.types[t as usize] == TypeEntry::Cell(DYN))
    };
    let by_reference = list
        .iter()
        .zip(params)
        .all(|(p, &v)| p.flags & 1 == 0 || v == DYN || cell(v));
    let named = names.iter().all(|&n| (n as usize) < sheet.strings.len());
    let holds = listed && ordered && no_twice(&names) && fits && by_reference && named;
    unless(holds, kind(21))
}

pub fn no_twice(numbers: &[u32]) -> bool {
    (0..numbers.len()).all(|i| !numbers[..i].contains(&numbers[i]))
}

/// The place in the host list of an import's texts.
pub fn lookup(sheet: &Sheet, hosts: &[HostEntry], module: u32, name: u32) -> Option<usize> {
    let text = |s: u32| &sheet.strings[s as usize];
    hosts
        .iter()
        .position(|h| &h.module == text(module) && &h.name == text(name))
}

pub fn imports(sheet: &Sheet, hosts: &[HostEntry]) -> Result<(), Fault> {
    for i in &sheet.imports {
        let (params, result) = signature(sheet, i.sig)?;
        range(3, i.module.max(i.name), sheet.strings.len())?;
        let place = lookup(sheet, hosts, i.module, i.name);
        let place = place.ok_or([2, 0, i.module, i.name, 0, 0])?;
        let shape = params == [DYN] && result == Some(DYN);
        unless(shape || !hosts[place].scheduler, kind(4))?;
        param_list(sheet, &i.params, params)?;
    }
    Ok(())
}

pub fn globals(sheet: &Sheet) -> Result<(), Fault> {
    for g in &sheet.globals {
        value_type(sheet, g.ty)?;
        if let Some(constant) = g.init {
            range(4, constant, sheet.constants.len())?;
        }
    }
    Ok(())
}

pub fn hooks(sheet: &Sheet) -> Result<(), Fault> {
    for h in &sheet.hooks {
        let (sig, captures) = match h.callee {
            CalleeKind::Function => {
                range(2, h.index, sheet.functions.len())?;
                let f = &sheet.functions[h.index as usize];
                (f.sig, f.captures.len())
            }
            CalleeKind::Import => {
                range(6, h.index, sheet.imports.len())?;
                (sheet.imports[h.index as usize].sig, 0)
            }
        };
        let (params, result) = signature(sheet, sig)?;
        let (count, wanted) = match h.hook {
            0..=6 => (1, Some(DYN)),
            7 | 8 => (3, None),
            9 => (3, Some(DYN)),
            _ => (2, Some(DYN)),
        };
        let holds = captures == 0 && params == vec![DYN; count] && result == wanted;
        unless(holds, [19, 0, h.hook, 0, 0, 0])?;
    }
    Ok(())
}

pub fn start(sheet: &Sheet) -> Result<(), Fault> {
    let Some(start) = sheet.start else {
        return Ok(());
    };
    range(2, start, sheet.functions.len())?;
    let f = &sheet.functions[start as usize];
    let (params, result) = signature(sheet, f.sig)?;
    unless(params.is_empty() && result.is_none(), kind(20))?;
    unless(f.captures.is_empty(), kind(9))
}

pub fn exports(sheet: &Sheet) -> Result<(), Fault> {
    let mut exported = HashSet::new();
    for (place, e) in (0..).zip(&sheet.exports) {
        match e.kind {
            ExportKind::Function => range(2, e.index, sheet.functions.len()),
            ExportKind::Global => range(7, e.index, sheet.globals.len()),
            ExportKind::Type => range(1, e.index, sheet.types.len()),
        }?;
        if sheet.edition.reads_export_names() {
            let name = sheet.strings.get(e.name as usize);
            let name = name.ok_or([27, 0, e.name, 0, 0, 0])?;
            unless(exported.insert(name), [28, 0, place, 0, 0, 0])?;
        }
    }
    Ok(())
}
