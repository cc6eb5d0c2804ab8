//! Borders of export names. They choose the edition themselves.

use sheets::build::{export, func, function, ret_void, strings};
use sheets::{Edition, ExportKind, Global, Sheet, TypeEntry, DYN};

use super::Border;
use crate::faults::EXPORT_FAULTS;
use crate::{Draft, Rng};

pub const BORDERS: &[Border] = &[
    ("export name about the last string", last_string),
    ("export names of few texts", few_texts),
    ("exports of each kind under one name", each_kind),
    ("many exports", many),
];

/// Which fault is found shows the order of the tests.
pub const SEVERAL: &[Border] = &[("exports, several faults", several)];

/// One item of each kind, in either edition.
fn draft(rng: &mut Rng, texts: &[&str]) -> Draft {
    Draft {
        sheet: Sheet {
            edition: rng.pick(&Edition::ALL),
            strings: strings(texts),
            types: vec![func(&[], &[]), TypeEntry::Coroutine],
            globals: vec![Global {
                ty: DYN,
                init: None,
            }],
            functions: vec![function(&[], &[ret_void()])],
            ..Sheet::default()
        },
        hosts: Vec::new(),
    }
}

/// Items of any kind under these names.
fn add_exports(rng: &mut Rng, draft: &mut Draft, names: &[u32]) {
    let item = |&name| export(rng.pick(&ExportKind::ALL), name, 0);
    let exports: Vec<_> = names.iter().map(item).collect();
    draft.sheet.exports.extend(exports);
}

/// Every name is of one string alone, but for one that is the last string's number or past it.
fn last_string(rng: &mut Rng) -> Draft {
    let texts = ["b", "a", "", "c", "ab"];
    let count = rng.within(1, texts.len());
    let mut out = draft(rng, &texts[..count]);
    let mut names = rng.permutation(count);
    names.truncate(rng.within(1, count));
    let (n, at) = (count as u32, rng.below(names.len()));
    names[at] = rng.pick(&[n - 1, n - 1, n, n + 1, 1 << 31, u32::MAX]);
    add_exports(rng, &mut out, &names);
    out
}

/// Texts that are equal, that begin alike, that differ by zero bytes, or that look alike.
fn few_texts(rng: &mut Rng) -> Draft {
    let all = ["", "\0", "a", "a\0", "ab", "abcd", "abcde", "é", "e\u{301}"];
    let texts: Vec<_> = (0..rng.within(2, 6)).map(|_| rng.pick(&all)).collect();
    let mut out = draft(rng, &texts);
    let names: Vec<_> = (0..rng.within(2, 4))
        .map(|_| rng.index(texts.len()))
        .collect();
    add_exports(rng, &mut out, &names);
    out
}

fn each_kind(rng: &mut Rng) -> Draft {
    let mut out = draft(rng, &["a", "b", "a", "c", "d"]);
    let names = [(); 3].map(|()| rng.index(5));
    let items = ExportKind::ALL.into_iter().zip(names);
    out.sheet.exports = items.map(|(kind, name)| export(kind, name, 0)).collect();
    rng.shuffle(&mut out.sheet.exports);
    out
}

/// Two of three faults, of index, name's range and repeat, in one export or in two; absent numbers tell which one was found.
fn several(rng: &mut Rng) -> Draft {
    let mut out = draft(rng, &["a", "b", "c", "d", "e", "a"]);
    add_exports(rng, &mut out, &[0, 1, 2, 3, 4]);
    let mut faults = [0, 1, 2];
    rng.shuffle(&mut faults);
    // The first export stays as it is, for the others to repeat it.
    let first = rng.within(1, 4);
    let second = rng.within(first, 4);
    for (place, fault) in [(first, faults[0]), (second, faults[1])] {
        let e = &mut out.sheet.exports[place];
        match fault {
            0 => e.index = 20 + place as u32,
            1 => e.name = 10 + place as u32,
            _ => e.name = rng.pick(&[0, 5]),
        }
    }
    out
}

/// Many names in any order, and up to two faults anywhere among them.
fn many(rng: &mut Rng) -> Draft {
    let count = rng.within(40, 300);
    let texts: Vec<_> = (0..count).map(|k| format!("{k:x}")).collect();
    let texts: Vec<_> = texts.iter().map(String::as_str).collect();
    let mut out = draft(rng, &texts);
    let mut names = rng.permutation(count);
    names.truncate(rng.within(20, count));
    add_exports(rng, &mut out, &names);
    for _ in 0..rng.within(0, 2) {
        (rng.pick(EXPORT_FAULTS).apply)(rng, &mut out);
    }
    out
}
