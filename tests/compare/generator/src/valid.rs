//! Modules without a fault, with a host list that resolves their imports.

use sheets::build::export;
use sheets::{CalleeKind, Global, HookBinding, HostEntry, Import, ValueType, DYN};

use crate::draft::edition;
use crate::forest::{types, Counts};
use crate::functions::add_functions;
use crate::lists::{constants, param_list};
use crate::scale::Scale;
use crate::texts::{long, text};
use crate::{Draft, Rng};

/// A module that the loader accepts.
pub fn valid(rng: &mut Rng, scale: &Scale) -> Draft {
    let mut draft = Draft::default();
    draft.sheet.edition = edition(rng);
    add_strings(rng, &mut draft, scale);
    let strings = draft.sheet.strings.len();
    let functions = rng.within(0, scale.functions);
    let imports = rng.within(0, scale.imports);
    let funcs = rng
        .within(0, scale.funcs)
        .max(usize::from(functions + imports > 0));
    let counts = Counts {
        structs: rng.within(0, scale.structs),
        others: rng.within(0, scale.others),
        funcs,
        strings,
        functions,
        most_on_chain: draft.sheet.edition.most_on_chain(),
    };
    draft.sheet.types = types(rng, counts);
    let count = rng.within(0, scale.constants);
    draft.sheet.constants = constants(rng, count, strings);
    for _ in 0..imports {
        add_import(rng, &mut draft);
    }
    for _ in 0..rng.within(0, scale.globals) {
        let constants = draft.sheet.constants.len();
        let init = (constants > 0 && rng.coin()).then(|| rng.index(constants));
        let ty = draft.value_type(rng);
        draft.sheet.globals.push(Global { ty, init });
    }
    add_functions(rng, &mut draft, scale, functions);
    add_hooks(rng, &mut draft, scale);
    add_start(rng, &mut draft);
    add_exports(rng, &mut draft, scale);
    add_hosts(rng, &mut draft);
    draft
}

/// At least one string; equal texts under two numbers are frequent.
fn add_strings(rng: &mut Rng, draft: &mut Draft, scale: &Scale) {
    for _ in 0..rng.within(1, scale.strings) {
        draft.sheet.strings.push(text(rng));
    }
    if rng.one_in(scale.long_string) {
        let bytes = rng.within(400, 1200);
        draft.sheet.strings.push(long(rng, bytes));
    }
}

/// An import and, unless its pair is there, a host entry for it.
fn add_import(rng: &mut Rng, draft: &mut Draft) {
    let sigs = draft.func_types();
    let strings = draft.sheet.strings.len();
    let (module, name) = (rng.index(strings), rng.index(strings));
    // Mostly with parameters, so that there is something to leave out.
    let [one, other] = [rng.pick(&sigs), rng.pick(&sigs)];
    let length = |&sig: &u32| draft.signature(sig).map_or(0, |s| s.0.len());
    let sig = if length(&one) > 0 { one } else { other };
    let (params, results) = draft.signature(sig).expect("a func type");
    let schedules = params == [DYN] && results == [DYN];
    let params = params.to_vec();
    let list = (!rng.one_in(3)).then(|| param_list(rng, draft, &params));
    draft.sheet.imports.push(Import {
        module,
        name,
        sig,
        params: list,
    });
    let pair = (
        draft.sheet.strings[module as usize].clone(),
        draft.sheet.strings[name as usize].clone(),
    );
    match find(&draft.hosts, &pair) {
        Some(place) => draft.hosts[place].scheduler &= schedules,
        None => draft.hosts.push(HostEntry {
            module: pair.0,
            name: pair.1,
            scheduler: schedules && rng.coin(),
        }),
    }
}

fn find(hosts: &[HostEntry], (module, name): &(Vec<u8>, Vec<u8>)) -> Option<usize> {
    hosts
        .iter()
        .position(|h| h.module == *module && h.name == *name)
}

/// Host entries that no import names, all in random order.
fn add_hosts(rng: &mut Rng, draft: &mut Draft) {
    for _ in 0..rng.within(0, 3) {
        let pair = (text(rng), text(rng));
        if find(&draft.hosts, &pair).is_none() {
            draft.hosts.push(HostEntry {
                module: pair.0,
                name: pair.1,
                scheduler: rng.coin(),
            });
        }
    }
    rng.shuffle(&mut draft.hosts);
}

/// Parameter count and result of a hook's callee.
pub fn hook_shape(hook: u32) -> (usize, bool) {
    match hook {
        0..=6 => (1, true),
        7 | 8 => (3, false),
        9 => (3, true),
        _ => (2, true),
    }
}

/// Hooks that this signature could serve.
fn hooks_for(params: &[ValueType], results: &[ValueType]) -> Vec<u32> {
    let dynamic = params.iter().chain(results).all(|&v| v == DYN);
    let shape = (params.len(), !results.is_empty());
    let fits = |&h: &u32| dynamic && hook_shape(h) == shape;
    (0..31).filter(fits).collect()
}

fn add_hooks(rng: &mut Rng, draft: &mut Draft, scale: &Scale) {
    for _ in 0..rng.within(0, scale.hooks) {
        let (functions, imports) = (draft.sheet.functions.len(), draft.sheet.imports.len());
        if functions + imports == 0 {
            return;
        }
        let at = rng.below(functions + imports);
        let (callee, index, sig) = if at < functions {
            let f = &draft.sheet.functions[at];
            if !f.captures.is_empty() {
                continue;
            }
            (CalleeKind::Function, at, f.sig)
        } else {
            let index = at - functions;
            (CalleeKind::Import, index, draft.sheet.imports[index].sig)
        };
        let (params, results) = draft.signature(sig).expect("a func type");
        if let Some(hook) = rng.choose(&hooks_for(params, results)) {
            let index = index as u32;
            draft.sheet.hooks.push(HookBinding {
                hook,
                callee,
                index,
            });
        }
    }
}

fn add_start(rng: &mut Rng, draft: &mut Draft) {
    let plain =
        |f: &sheets::Function| f.captures.is_empty() && draft.signature(f.sig) == Some((&[], &[]));
    let starts: Vec<u32> = (0u32..)
        .zip(&draft.sheet.functions)
        .filter(|(_, f)| plain(f))
        .map(|(i, _)| i)
        .collect();
    draft.sheet.start = rng.choose(&starts).filter(|_| rng.coin());
}

/// Exports in range, each with a name of its own where names are read, and else at times.
fn add_exports(rng: &mut Rng, draft: &mut Draft, scale: &Scale) {
    let own_names = draft.sheet.edition.reads_export_names() || rng.one_in(3);
    for _ in 0..rng.within(0, scale.exports) {
        let Some((kind, index)) = draft.some_item(rng) else {
            continue;
        };
        let name = if own_names {
            draft.free_name(rng)
        } else {
            any_name(rng, draft)
        };
        draft.sheet.exports.push(export(kind, name, index));
    }
}

/// A name that need not be read: any word, a string, one past the strings, or that of another export.
fn any_name(rng: &mut Rng, draft: &Draft) -> u32 {
    let strings = draft.sheet.strings.len();
    let [any, string, absent] = [rng.word(), rng.index(strings), rng.absent(strings)];
    let other = rng.choose(&draft.sheet.exports).map_or(string, |e| e.name);
    rng.pick(&[any, string, absent, other])
}
