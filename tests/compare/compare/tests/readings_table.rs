//! Worked examples on the linked table and the family query, numbered as in docs/DECISIONS.md.

use compare::{answer_plain, length_in, query, Linked};
use sheets::build::{
    func, function, hook_function, hook_import, import, ret_void, strings, structure, user,
};
use sheets::{encode_sheet, Function, Global, Sheet, TypeEntry, ValueType, DYN, STR};

const I64: ValueType = ValueType(4);

fn reference(t: u32) -> ValueType {
    ValueType::reference(t)
}

fn table(sheet: &Sheet) -> Vec<u32> {
    let hosts = [user("x", "y"), user("s", "s")];
    answer_plain(sheet, &hosts).table.expect("accepted")
}

fn linked(sheet: &Sheet) -> Linked {
    Linked::read(&table(sheet)).expect("a linked table")
}

#[test]
fn function_record() {
    // 4.1: nregs stands twice.
    let sheet = Sheet {
        types: vec![
            TypeEntry::Coroutine,
            TypeEntry::Coroutine,
            func(&[reference(0)], &[]),
        ],
        functions: vec![Function {
            sig: 2,
            ..function(&[reference(1)], &[ret_void()])
        }],
        ..Sheet::default()
    };
    let record = [2, 1, 1, 1, 16, 0, 1, 0, 0, 0, 0, 0];
    assert_eq!(linked(&sheet).functions, [record]);
    assert_eq!(linked(&sheet).canonical, [0, 0, 2]);
}

#[test]
fn whole_table() {
    // 4.2, 4.3, 4.5: counts of members, canonical names, results and parents + 1.
    let fields = vec![(2, STR), (1, I64), (0, DYN), (1, reference(1))];
    let sheet = Sheet {
        strings: strings(&["a", "b", "a", "s"]),
        types: vec![
            TypeEntry::Struct {
                name: 0,
                parent: Some(1),
                fields: fields.clone(),
                methods: vec![(1, 0), (2, 0), (0, 1)],
            },
            structure(None, &[]),
            func(&[DYN], &[DYN]),
            func(&[DYN], &[DYN]),
            TypeEntry::Map(STR, reference(3)),
        ],
        imports: vec![import(3, 3, 3)],
        globals: vec![
            Global {
                ty: I64,
                init: None,
            },
            Global {
                ty: reference(3),
                init: None,
            },
        ],
        functions: vec![
            Function {
                sig: 3,
                names: vec![2, 1],
                type_refs: vec![3],
                captures: vec![],
                ..function(&[DYN, I64], &[ret_void()])
            },
            Function {
                sig: 2,
                captures: vec![reference(3)],
                ..function(&[DYN], &[ret_void()])
            },
        ],
        hooks: vec![hook_function(0, 0), hook_import(0, 0), hook_function(5, 0)],
        ..Sheet::default()
    };
    let l = linked(&sheet);
    let first: &[u32] = &[2, 2, 1, 2, 12, 4, 13, 1, 0, 0, 2, 0, 1, 1, 2, 0];
    let second: &[u32] = &[2, 1, 1, 1, 12, 13, 1, 0, 1, 18, 0, 0, 0];
    assert_eq!(l.functions, [first, second]);
    let structure: &[u32] = &[
        1, 2, 4, 11, 4, 12, 17, 3, 0, 2, 3, 2, 0, 0, 1, 1, 2, 0, 0, 1, 0,
    ];
    let root: &[u32] = &[1, 0, 0, 0, 0, 0];
    let map: &[u32] = &[3, 11, 18];
    assert_eq!(l.types, [structure, root, &[0], &[0], map]);
    assert_eq!(l.imports, [(2, 1)]);
    assert_eq!(l.hooks.len(), 31);
    assert_eq!((l.hooks[0], l.hooks[5]), (2, 1));
    assert_eq!(l.canonical, [0, 1, 2, 2, 4]);
    assert_eq!(l.global_types, [4, 18]);
    assert_eq!(l.reference_globals, [1]);
    let none = [u32::MAX, 0, 0];
    assert_eq!(l.spans, [[1, 2, 2], [0, 2, 1], none, none, none]);
}

#[test]
fn names_rise_by_number() {
    // 4.3: by the canonical string's number, not by text.
    let sheet = Sheet {
        strings: strings(&["b", "a"]),
        types: vec![structure(None, &[(0, I64), (1, I64)])],
        ..Sheet::default()
    };
    assert_eq!(
        linked(&sheet).types[0],
        [1, 0, 2, 4, 4, 0, 2, 0, 0, 1, 1, 0]
    );
}

#[test]
fn references_past_slot_65535() {
    // 4.4: they repeat 65,535, also beside a true slot 65,535.
    let mut fields = vec![(0, I64); 65538];
    for field in &mut fields[65535..] {
        field.1 = DYN;
    }
    let sheet = Sheet {
        strings: strings(&[""]),
        types: vec![structure(None, &fields)],
        ..Sheet::default()
    };
    let record = &linked(&sheet).types[0];
    let after_fields = 2 + 1 + 65538;
    let rest = [3, 65535, 65535, 65535, 1, 0, 0, 0];
    assert_eq!(record[after_fields..], rest);
}

#[test]
fn length_of_a_full_sheet() {
    // 4.6: coroutines alone reach L = 5N - 6.
    let sheet = Sheet {
        types: vec![TypeEntry::Coroutine; 520_181],
        ..Sheet::default()
    };
    let n = encode_sheet(&sheet).words.len();
    assert_eq!(n, 520_192);
    assert_eq!(table(&sheet).len(), 2_600_954);
    assert_eq!(5 * n - 6, 2_600_954);
}

#[test]
fn queries() {
    let sheet = Sheet {
        strings: strings(&[""]),
        types: vec![
            structure(Some(1), &[]),
            structure(None, &[]),
            TypeEntry::Coroutine,
        ],
        ..Sheet::default()
    };
    let good = table(&sheet);
    let start = good[9];
    assert_eq!(query(&good, 0, 1), 1);
    assert_eq!(query(&good, 1, 0), 0);
    assert_eq!(query(&good, 0, 0), 1);
    // 5.3: a number that is no struct never descends, not even from itself.
    assert_eq!(query(&good, 2, 2), 0);
    assert_eq!(query(&good, 2, 1), 0);
    assert_eq!(query(&good, 3, 3), 0);
    assert_eq!(query(&good, u32::MAX, 1 << 31), 0);
    // Words past L and the other starts are not looked at.
    let mut more = good.clone();
    more.extend([9, 9]);
    more[2..9].fill(u32::MAX);
    assert_eq!(query(&more, 0, 1), 1);
    // 5.1, 5.2: 25 comes before unknown numbers.
    let change = |at: usize, word: u32| {
        let mut bad = good.clone();
        bad[at] = word;
        [query(&bad, 0, 1), query(&bad, 99, 99)]
    };
    let length = good[1];
    assert_eq!(change(0, 1), [25, 25]);
    assert_eq!(change(0, 3), [25, 25]);
    assert_eq!(change(1, length + 1), [25, 25]);
    assert_eq!(change(1, length - 1), [25, 25]);
    assert_eq!(change(1, 9), [25, 25]);
    assert_eq!(change(9, 9), [25, 25]);
    assert_eq!(change(9, length), [25, 25]);
    assert_eq!(change(9, u32::MAX), [25, 25]);
    assert_eq!(change(start as usize, 4), [25, 25]);
    assert_eq!(change(start as usize, 0x5555_5555), [25, 25]);
    assert_eq!(change(start as usize, 0x5555_5556), [25, 25]);
    assert_eq!(change(start as usize, 1 << 31), [25, 25]);
    assert_eq!(change(start as usize, u32::MAX), [25, 25]);
    assert_eq!(change(start as usize, 1)[0], 0);
    assert_eq!(query(&good[..9], 0, 1), 25);
    assert_eq!(query(&[], 0, 1), 25);
}

#[test]
fn chain_lengths() {
    let sheet = Sheet {
        strings: strings(&[""]),
        types: vec![
            structure(Some(3), &[]),
            TypeEntry::Coroutine,
            structure(None, &[]),
            structure(Some(2), &[]),
        ],
        ..Sheet::default()
    };
    let mut table = table(&sheet);
    for (t, length) in [(0, 3), (1, 0), (2, 1), (3, 2), (4, 0), (u32::MAX, 0)] {
        assert_eq!(length_in(&table, t), [0, length], "{t}");
    }
    // On words that no load wrote it is whatever stands there, and no other query reads it.
    let (third, families) = (table[9] as usize + 3, query(&table, 0, 2));
    table[third] = u32::MAX;
    assert_eq!(
        (length_in(&table, 0), query(&table, 0, 2)),
        ([0, u32::MAX], families)
    );
    // 25 comes before unknown numbers.
    table[0] = 1;
    assert_eq!([length_in(&table, 0), length_in(&table, 99)], [[25, 0]; 2]);
}
