//! A call needs no more stack than the bindings say.

use std::thread;

use sheets::build::{
    aw, export, func, function, import, listed, ret_void, strings, structure, user,
};
use sheets::{
    encode_hosts, encode_sheet, op, refit, with_edition, Edition, ExportKind, Import, Sheet, DYN,
};
use versus::{Library, Loader};

/// What the bindings say of short host lists, and something for the thread itself.
const STACK: usize = (96 + 16) * 1024;

/// What the bindings say of any bytes.
const MOST_STACK: usize = 2 * 1024 * 1024;

/// What a call answers on a thread with so much stack.
fn on<T: Send + 'static>(stack: usize, call: impl FnOnce() -> T + Send + 'static) -> T {
    let thread = thread::Builder::new().stack_size(stack).spawn(call);
    thread.expect("a thread").join().expect("an answer")
}

/// The kind of load's answer.
fn kind_on(stack: usize, sheet: Vec<u8>, hosts: Vec<u8>) -> u32 {
    let words = paqlluri::table_words(sheet.len());
    let (mut table, mut work) = (vec![0; words], vec![0; words]);
    let call = move || Library.load(&sheet, &hosts, &mut table, &mut work);
    on(stack, call)[0]
}

/// A sheet of so many types, by their parents.
fn forest(types: u32, parent: fn(u32) -> Option<u32>) -> Vec<u8> {
    encode_sheet(&Sheet {
        strings: vec![b"Lift".to_vec()],
        types: (0..types).map(|t| structure(parent(t), &[])).collect(),
        ..Sheet::default()
    })
    .to_bytes()
}

/// A sheet of one chain of so many types.
fn chain(types: u32) -> Vec<u8> {
    forest(types, |t| t.checked_sub(1))
}

/// The table of a sheet that is accepted.
fn table(sheet: &[u8]) -> Vec<u32> {
    let words = paqlluri::table_words(sheet.len());
    let (mut table, mut work) = (vec![0; words], vec![0; words]);
    assert_eq!(Library.load(sheet, &list(0), &mut table, &mut work)[0], 0);
    table
}

/// A list of so many functions.
fn list(entries: usize) -> Vec<u8> {
    let entries: Vec<_> = (0..entries).map(|k| user("", &format!("{k:x}"))).collect();
    encode_hosts(&entries).to_bytes()
}

#[test]
fn the_longest_chains_fit_the_stack() {
    for (edition, types, kind) in [
        (1, 256, 0),
        (1, 257, 17),
        (2, 64, 0),
        (2, 65, 17),
        (2, 257, 17),
    ] {
        let sheet = with_edition(&chain(types), edition);
        assert_eq!(kind_on(STACK, sheet, list(0)), kind);
    }
}

#[test]
fn counts_and_sizes_fit_the_small_stack() {
    for types in [256, 257, 100_000] {
        let sheet = chain(types);
        let count = move || Library.count_structs(&sheet);
        assert_eq!(on(STACK, count), [0, types]);
    }
    let table = table(&chain(256));
    let sizes = move || [0, 255, 256].map(|a| Library.family_size(&table, a));
    assert_eq!(on(STACK, sizes), [[0, 256], [0, 1], [0, 0]]);
}

#[test]
fn chain_lengths_fit_the_small_stack() {
    let table = table(&chain(256));
    let lengths = move || [0, 255, 256].map(|t| Library.chain_length(&table, t));
    assert_eq!(on(STACK, lengths), [[0, 1], [0, 256], [0, 0]]);
}

#[test]
fn nearest_families_fit_the_small_stack() {
    let table_of_chain = table(&chain(256));
    let nearest = move || [0, 255, 256].map(|u| Library.nearest(&table_of_chain, 255, u));
    assert_eq!(on(STACK, nearest), [[0, 0], [0, 255], [1, 0]]);
    let table_of_fan = table(&forest(100_000, |t| t.checked_sub(1).map(|_| 0)));
    let nearest = move || [0, 1, 99_999].map(|u| Library.nearest(&table_of_fan, 99_999, u));
    assert_eq!(on(STACK, nearest), [[0, 0], [0, 0], [0, 99_999]]);
}

#[test]
fn many_export_names_fit_the_small_stack() {
    let text = |k: u32| format!("{k:x}").into_bytes();
    let own = |name| export(ExportKind::Type, name, 0);
    let mut sheet = Sheet {
        edition: Edition::Second,
        strings: (0..80_000).map(text).collect(),
        types: vec![structure(None, &[])],
        exports: (0..80_000).map(own).collect(),
        ..Sheet::default()
    };
    let kind = |sheet: &Sheet| kind_on(STACK, encode_sheet(sheet).to_bytes(), list(0));
    assert_eq!(kind(&sheet), 0);
    sheet.exports.push(own(0));
    assert_eq!(kind(&sheet), 28);
}

#[test]
fn many_arguments_fit_the_small_stack() {
    let mut code = vec![aw(op::CALL_IMPORT, 0, 0, 0); 80_000];
    code.push(ret_void());
    let mut sheet = Sheet {
        edition: Edition::Second,
        strings: strings(&["", "0"]),
        types: vec![func(&[], &[]), func(&vec![DYN; 80_000], &[])],
        imports: vec![Import {
            params: listed(&vec![2; 80_000]),
            ..import(0, 1, 1)
        }],
        functions: vec![function(&[DYN], &code)],
        ..Sheet::default()
    };
    let kind = |sheet: &Sheet| kind_on(STACK, encode_sheet(sheet).to_bytes(), list(1));
    assert_eq!(kind(&sheet), 0);
    sheet.imports[0].params = listed(&[&[0][..], &vec![2; 79_999]].concat());
    assert_eq!(kind(&sheet), 8);
}

#[test]
fn a_list_of_512_fits_the_small_stack() {
    assert_eq!(kind_on(STACK, chain(256), list(512)), 0);
}

#[test]
fn longer_lists_fit_the_stack_of_a_thread() {
    for entries in [513, 60_000] {
        assert_eq!(kind_on(MOST_STACK, chain(256), list(entries)), 0);
    }
}

#[test]
fn a_count_that_is_not_there_fits_too() {
    for count in [513, u32::MAX / 2, u32::MAX] {
        let mut hosts = list(0);
        hosts[8..12].copy_from_slice(&count.to_le_bytes());
        refit(&mut hosts);
        assert_eq!(kind_on(MOST_STACK, chain(2), hosts), 23);
    }
}
