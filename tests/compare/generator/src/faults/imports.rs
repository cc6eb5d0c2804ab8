//! Faults of rule 5: imports and globals, and of the host list that imports are bound by.

use sheets::build::import;
use sheets::{Global, HostEntry, Import, TypeEntry, ValueType, DYN};

use super::params::{bad_param_list, some_params};
use super::{fault, Fault};
use crate::{Draft, Rng};

pub const FAULTS: &[Fault] = &[
    fault("import's signature", 3, 1, absent_signature),
    fault("import's signature no func", 4, 0, signature_no_func),
    fault("import's strings", 3, 3, absent_strings),
    fault("import nobody registered", 2, 0, unresolved),
    fault("host entry gone", 2, 0, host_entry_gone),
    fault("host strings split differently", 2, 0, split_differently),
    fault("scheduler of another shape", 4, 0, scheduler_shape),
    fault("import's parameter list", 21, 0, parameter_list),
    fault("global's type", 3, 1, global_type),
    fault("global's constant", 3, 4, global_constant),
];

/// Adds an import that is bound to a host entry.
pub fn add(rng: &mut Rng, draft: &mut Draft, sig: u32, scheduler: bool) -> usize {
    let strings = draft.sheet.strings.len();
    let mut pair = (rng.index(strings), rng.index(strings));
    let text = |draft: &Draft, s: u32| draft.sheet.strings[s as usize].clone();
    let taken = |draft: &Draft, (m, n)| {
        let (module, name) = (text(draft, m), text(draft, n));
        draft
            .hosts
            .iter()
            .any(|h| h.module == module && h.name == name)
    };
    if taken(draft, pair) {
        let fresh = draft.string(b"fresh");
        pair = (
            fresh,
            draft.string(format!("{}", draft.hosts.len()).as_bytes()),
        );
    }
    if !taken(draft, pair) {
        let (module, name) = (text(draft, pair.0), text(draft, pair.1));
        draft.hosts.push(HostEntry {
            module,
            name,
            scheduler,
        });
    }
    draft.sheet.imports.push(import(pair.0, pair.1, sig));
    draft.sheet.imports.len() - 1
}

fn some_import<'d>(rng: &mut Rng, draft: &'d mut Draft) -> &'d mut Import {
    let at = match draft.sheet.imports.len() {
        0 => {
            let sig = draft.sig(&[], &[]);
            add(rng, draft, sig, false)
        }
        n => rng.below(n),
    };
    &mut draft.sheet.imports[at]
}

fn absent_signature(rng: &mut Rng, draft: &mut Draft) {
    some_import(rng, draft);
    let absent = rng.absent(draft.sheet.types.len());
    some_import(rng, draft).sig = absent;
}

fn signature_no_func(rng: &mut Rng, draft: &mut Draft) {
    let other = draft.entry(TypeEntry::Coroutine);
    some_import(rng, draft).sig = other;
}

fn absent_strings(rng: &mut Rng, draft: &mut Draft) {
    let absent = rng.absent(draft.sheet.strings.len());
    let import = some_import(rng, draft);
    match rng.below(3) {
        0 => import.module = absent,
        1 => import.name = absent,
        _ => (import.module, import.name) = (absent, absent.saturating_add(1)),
    }
}

/// Strings under new numbers, at times twice in the sheet.
fn unresolved(rng: &mut Rng, draft: &mut Draft) {
    if rng.coin() {
        draft.sheet.strings.push(b"nobody".to_vec());
    }
    draft.sheet.strings.push(b"nobody".to_vec());
    let name = draft.sheet.strings.len() as u32 - 1;
    let at = some_import(rng, draft);
    match rng.below(3) {
        0 => at.module = name,
        1 => at.name = name,
        _ => (at.module, at.name) = (name, name),
    }
}

fn host_entry_gone(rng: &mut Rng, draft: &mut Draft) {
    some_import(rng, draft);
    // Another fault may have emptied the list already.
    if !draft.hosts.is_empty() {
        let at = rng.below(draft.hosts.len());
        draft.hosts.remove(at);
    }
}

/// The pair's texts together are the same, but cut at another place.
fn split_differently(rng: &mut Rng, draft: &mut Draft) {
    let sig = draft.sig(&[], &[]);
    let (ab, c) = (draft.string(b"ab"), draft.string(b"c"));
    draft.sheet.imports.push(import(ab, c, sig));
    draft
        .hosts
        .retain(|h| h.module != b"ab" && h.module != b"a");
    draft.hosts.push(HostEntry {
        module: b"a".to_vec(),
        name: b"bc".to_vec(),
        scheduler: rng.coin(),
    });
}

fn scheduler_shape(rng: &mut Rng, draft: &mut Draft) {
    let plain = ValueType(rng.index(12));
    let sig = match rng.below(6) {
        0 => draft.sig(&[], &[]),
        1 => draft.sig(&[DYN], &[]),
        2 => draft.sig(&[], &[DYN]),
        3 => draft.sig(&[DYN, DYN], &[DYN]),
        4 => draft.sig(&[plain], &[DYN]),
        _ => draft.sig(&[DYN], &[plain]),
    };
    add(rng, draft, sig, true);
}

fn parameter_list(rng: &mut Rng, draft: &mut Draft) {
    let params = some_params(rng, draft);
    let sig = draft.sig(&params, &[]);
    let list = bad_param_list(rng, draft, &params);
    let at = add(rng, draft, sig, false);
    draft.sheet.imports[at].params = Some(list);
}

fn global_type(rng: &mut Rng, draft: &mut Draft) {
    let ty = ValueType::reference(rng.absent(draft.sheet.types.len()));
    let init = rng.coin().then(|| rng.index(9));
    draft.sheet.globals.push(Global { ty, init });
}

fn global_constant(rng: &mut Rng, draft: &mut Draft) {
    let absent = rng.absent(draft.sheet.constants.len());
    let ty = draft.value_type(rng);
    let init = Some(absent);
    draft.sheet.globals.push(Global { ty, init });
}
