//! Large sheets: a module with one list filled up to a wanted number of words.

use sheets::build::{aw, export, function, hook_function, listed, ret_void, structure};
use sheets::{
    encode_hosts, encode_sheet, op, Constant, ExportKind, Function, Global, HostEntry, Import,
    Sheet, TypeEntry, ValueType, DYN,
};

use crate::faults::{add_import, EXPORT_FAULTS};
use crate::texts::long;
use crate::{Draft, Rng};

/// The number of a function for hooks of one dyn, which is added, and one of nothing behind it.
fn add_hooked(draft: &mut Draft) -> u32 {
    let hooked = draft.sheet.functions.len() as u32;
    for (regs, results) in [(&[DYN][..], &[DYN][..]), (&[], &[])] {
        let sig = draft.sig(regs, results);
        draft.sheet.functions.push(Function {
            sig,
            ..function(regs, &[ret_void()])
        });
    }
    hooked
}

/// Adds members of one list until the sheet has about so many words, never more.
pub fn fill(rng: &mut Rng, draft: &mut Draft, words: usize) {
    let none = draft.sig(&[], &[]);
    let hooked = add_hooked(draft);
    let have = encode_sheet(&draft.sheet).words.len();
    let Some(room) = words.checked_sub(have) else {
        return;
    };
    let types = draft.sheet.types.len();
    let sheet = &mut draft.sheet;
    match rng.below(12) {
        0 => sheet.types.extend((0..room).map(|_| TypeEntry::Coroutine)),
        1 => sheet.types.extend((0..room / 2).map(|_| array(rng, types))),
        2 => add_structs(rng, sheet, room / 5),
        3 => sheet.strings.extend((0..room).map(|_| Vec::new())),
        4 if room > 8 => sheet.strings.push(long(rng, 4 * (room - 8))),
        5 => sheet
            .constants
            .extend((0..room / 3).map(|_| Constant::Plain(1, 2))),
        6 => sheet.globals.extend((0..room / 2).map(|_| Global {
            ty: DYN,
            init: None,
        })),
        7 => sheet.functions.extend((0..room / 12).map(|_| Function {
            sig: none,
            ..function(&[], &[ret_void()])
        })),
        8 => sheet
            .hooks
            .extend((0..room / 3).map(|k| hook_function(k as u32 % 7, hooked))),
        9 => add_exports(rng, draft, words),
        10 => add_calls(rng, draft, words),
        _ => {
            let code = &mut sheet.functions[hooked as usize].code;
            code.extend((0..room / 2).map(|_| ret_void()));
        }
    }
}

/// An array of one of many types, so that some are equal.
fn array(rng: &mut Rng, types: usize) -> TypeEntry {
    TypeEntry::Array(ValueType::reference(rng.index(types)))
}

/// Types exported under any names, or each under a string of its own; now and then one export among them has a fault.
fn add_exports(rng: &mut Rng, draft: &mut Draft, words: usize) {
    if rng.one_in(3) {
        (rng.pick(EXPORT_FAULTS).apply)(rng, draft);
    }
    let room = room(draft, words);
    let sheet = &mut draft.sheet;
    let (first, types) = (sheet.strings.len() as u32, sheet.types.len());
    let own_names = sheet.edition.reads_export_names() || rng.one_in(3);
    // An export takes three words, and the string of eight bytes that it alone is named by three more.
    let count = room / if own_names { 6 } else { 3 };
    if own_names {
        let texts = (0..count).map(|k| format!("{k:08x}").into_bytes());
        sheet.strings.extend(texts);
    }
    sheet.exports.extend((first..).take(count).map(|own| {
        let name = if own_names { own } else { rng.word() };
        export(ExportKind::Type, name, rng.index(types))
    }));
    rng.shuffle(&mut sheet.exports);
}

/// How many words are left of so many.
fn room(draft: &Draft, words: usize) -> usize {
    words.saturating_sub(encode_sheet(&draft.sheet).words.len())
}

/// Imports of one host function, each with a list of its own, and then calls of any of them; now and then one call has a fault.
fn add_calls(rng: &mut Rng, draft: &mut Draft, words: usize) {
    let params = rng.within(0, 40);
    let sig = draft.sig(&vec![DYN; params], &[]);
    let bound = add_import(rng, draft, sig, false);
    let first = draft.sheet.imports[bound].clone();
    for _ in 0..room(draft, words) / 2 / (5 + 2 * params) {
        let mandatory = rng.within(0, params);
        let flags = |i: usize| rng.index(2) + 2 * u32::from(i >= mandatory);
        let flags: Vec<u32> = (0..params).map(flags).collect();
        draft.sheet.imports.push(Import {
            params: listed(&flags),
            ..first.clone()
        });
    }
    let imports = draft.sheet.imports.len() - bound;
    let sig = draft.sig(&[], &[]);
    // A function takes ten words beside its registers and its code, which ends with an instruction more.
    let count = room(draft, words).saturating_sub(10 + params + 2 + 2) / 2;
    let wrong = rng.below(3 * count.max(1));
    let call = |k: usize| {
        let import = bound as u32 + rng.index(imports);
        let (fewest, most) = draft.arguments(import).unwrap_or_default();
        let right = rng.within(fewest, most);
        let d = if k == wrong { most + 1 } else { right };
        aw(op::CALL_IMPORT, d as u8, 0, import)
    };
    let mut code: Vec<u64> = (0..count).map(call).collect();
    code.push(ret_void());
    draft.sheet.functions.push(Function {
        sig,
        ..function(&vec![DYN; params + 2], &code)
    });
}

/// A large forest with chains up to the limit.
fn add_structs(rng: &mut Rng, sheet: &mut Sheet, count: usize) {
    let (first, most) = (sheet.types.len(), sheet.edition.most_on_chain());
    let mut length: Vec<u32> = Vec::new();
    for k in 0..count {
        let near = k.saturating_sub(rng.within(1, 4));
        let far = rng.below(k.max(1));
        let parent = rng.pick(&[near, near, far]);
        let root = k == 0 || length[parent] >= most || rng.one_in(2000);
        length.push(if root { 1 } else { length[parent] + 1 });
        let parent = (!root).then_some((first + parent) as u32);
        sheet.types.push(structure(parent, &[]));
    }
}

/// Adds host entries until the list has about so many words, never more.
pub fn fill_hosts(rng: &mut Rng, draft: &mut Draft, words: usize) {
    let have = encode_hosts(&draft.hosts).words.len();
    let Some(room) = words.checked_sub(have) else {
        return;
    };
    // An entry takes five words: no module text, a name of eight bytes, the kind.
    for k in 0..room / 5 {
        draft.hosts.push(HostEntry {
            module: Vec::new(),
            name: format!("{k:08}").into_bytes(),
            scheduler: rng.coin(),
        });
    }
}
