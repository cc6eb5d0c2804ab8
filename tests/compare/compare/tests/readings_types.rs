//! Worked examples on types, parents, constants, imports and globals, numbered as in docs/DECISIONS.md.

use compare::answer_plain;
use sheets::build::{func, import, scheduler, strings, structure, user};
use sheets::{Constant, Global, HostEntry, Import, Sheet, TypeEntry, ValueType, DYN};

const I8: ValueType = ValueType(1);

fn numbers(sheet: &Sheet) -> [u32; 6] {
    answer_plain(sheet, &[]).numbers
}

fn reference(t: u32) -> ValueType {
    ValueType::reference(t)
}

fn types(types: Vec<TypeEntry>) -> Sheet {
    Sheet {
        strings: strings(&["s"]),
        types,
        ..Sheet::default()
    }
}

#[test]
fn imports_and_globals() {
    let texts = strings(&["a", "b", "a", "b"]);
    let with = |strings: &Vec<Vec<u8>>, imports: Vec<Import>| Sheet {
        strings: strings.clone(),
        types: vec![func(&[], &[]), func(&[DYN], &[DYN]), TypeEntry::Coroutine],
        imports,
        ..Sheet::default()
    };
    // 2.1: string numbers as the import stores them.
    let unresolved = with(&texts, vec![import(2, 3, 0)]);
    assert_eq!(numbers(&unresolved), [2, 0, 2, 3, 0, 0]);
    let first = with(&texts, vec![import(2, 3, 0), import(0, 1, 0)]);
    assert_eq!(numbers(&first), [2, 0, 2, 3, 0, 0]);
    // 2.4: the larger string number, whichever is absent.
    let one = strings(&["a"]);
    for (module, name, larger) in [(5, 1, 5), (1, 5, 5), (0, 7, 7), (7, 0, 7), (9, 9, 9)] {
        let absent = with(&one, vec![import(module, name, 0)]);
        assert_eq!(numbers(&absent), [3, 3, larger, 0, 0, 0]);
    }
    // Signature before strings, strings before lookup.
    assert_eq!(
        numbers(&with(&one, vec![import(5, 5, 9)])),
        [3, 1, 9, 0, 0, 0]
    );
    assert_eq!(numbers(&with(&one, vec![import(5, 5, 2)]))[0], 4);
    // The scheduler takes one dyn to dyn.
    let hosted = |sig, host: HostEntry| {
        answer_plain(&with(&texts, vec![import(0, 1, sig)]), &[host]).numbers[0]
    };
    assert_eq!(hosted(0, user("a", "b")), 0);
    assert_eq!(hosted(0, scheduler("a", "b")), 4);
    assert_eq!(hosted(1, scheduler("a", "b")), 0);
    assert_eq!(hosted(1, user("ab", "")), 2);
    // 2.2: the type, not 16 + t.
    let global = |ty, init| Sheet {
        globals: vec![Global { ty, init }],
        ..Sheet::default()
    };
    assert_eq!(numbers(&global(reference(7), None)), [3, 1, 7, 0, 0, 0]);
    assert_eq!(numbers(&global(reference(7), Some(3))), [3, 1, 7, 0, 0, 0]);
    assert_eq!(numbers(&global(DYN, Some(3))), [3, 4, 3, 0, 0, 0]);
}

#[test]
fn types_and_parents() {
    let two_results = func(&[], &[I8, I8]);
    let array = |t| TypeEntry::Array(reference(t));
    let fields = |parent, fields: &[(u32, ValueType)]| structure(parent, fields);
    let method = |name, function| TypeEntry::Struct {
        name: 9,
        parent: None,
        fields: vec![],
        methods: vec![(name, function)],
    };
    let coroutine = || TypeEntry::Coroutine;
    let rows = [
        ("2.2 array", vec![array(9)], [3, 1, 9]),
        (
            "3.2 type of field 1 first",
            vec![fields(None, &[(7, I8), (0, reference(8))])],
            [3, 1, 8],
        ),
        (
            "3.2 then names of fields",
            vec![fields(None, &[(7, I8), (0, DYN)])],
            [3, 3, 7],
        ),
        ("3.2 function of a method", vec![method(7, 6)], [3, 2, 6]),
        (
            "3.2 struct name last",
            vec![TypeEntry::Struct {
                name: 9,
                parent: None,
                fields: vec![],
                methods: vec![],
            }],
            [3, 3, 9],
        ),
        (
            "3.2 results first",
            vec![func(&[reference(9)], &[I8, I8])],
            [4, 0, 0],
        ),
        (
            "3.2 params then result",
            vec![func(&[reference(9)], &[reference(8)])],
            [3, 1, 9],
        ),
        (
            "key before value",
            vec![TypeEntry::Map(reference(8), reference(9))],
            [3, 1, 8],
        ),
        (
            "key before value",
            vec![TypeEntry::Iter(reference(8), reference(9))],
            [3, 1, 8],
        ),
        (
            "3.3 rule 3 after all types",
            vec![structure(Some(9), &[]), array(9)],
            [3, 1, 9],
        ),
        (
            "3.4 type by type",
            vec![fields(Some(1), &[(0, I8)]), fields(Some(0), &[])],
            [17, 0, 0],
        ),
        (
            "3.4 the other order",
            vec![fields(Some(1), &[]), fields(Some(0), &[(0, I8)])],
            [16, 0, 0],
        ),
        ("absent parent", vec![structure(Some(9), &[])], [16, 0, 0]),
        (
            "parent no struct",
            vec![coroutine(), structure(Some(0), &[])],
            [16, 0, 0],
        ),
        (
            "6.1 in one order",
            vec![array(9), two_results.clone()],
            [3, 1, 9],
        ),
        ("6.1 in the other", vec![two_results, array(9)], [4, 0, 0]),
        ("3.1 reference to itself", vec![array(0)], [0, 0, 55]),
    ];
    for (name, entries, expected) in rows {
        assert_eq!(numbers(&types(entries))[..3], expected, "{name}");
    }
    // 3.7: as stored in both words of a field.
    let prefix = |parent, child| {
        numbers(&Sheet {
            strings: strings(&["s", "s"]),
            types: vec![
                coroutine(),
                coroutine(),
                fields(None, &[parent]),
                fields(Some(2), &[child, (0, I8)]),
            ],
            ..Sheet::default()
        })[0]
    };
    assert_eq!(prefix((0, reference(0)), (0, reference(0))), 0);
    assert_eq!(prefix((0, reference(0)), (1, reference(0))), 16);
    assert_eq!(prefix((0, reference(0)), (0, reference(1))), 16);
}

#[test]
fn chains_with_an_absent_top() {
    // 3.6: a last number that is absent or no struct counts.
    let chain = |length: u32, lowest_first: bool, top: u32| {
        let mut types = Vec::new();
        for k in 0..length {
            let parent = match (lowest_first, k + 1 == length, k) {
                (true, false, _) => k + 1,
                (true, true, _) | (false, _, 0) => top,
                (false, _, _) => k - 1,
            };
            types.push(structure(Some(parent), &[]));
        }
        types.push(TypeEntry::Coroutine);
        numbers(&self::types(types))[0]
    };
    for top in [9999, 256] {
        assert_eq!(chain(256, true, top), 17);
        assert_eq!(chain(256, false, top), 16);
    }
    for top in [9999, 255] {
        assert_eq!(chain(255, true, top), 16);
        assert_eq!(chain(255, false, top), 16);
    }
}

#[test]
fn fields_past_slot_65535() {
    // 3.2, 3.7: names there are not read, but they are compared.
    let names = |last: u32| {
        let mut fields = vec![(0, I8); 65536];
        fields.push((last, I8));
        fields
    };
    let with = |parent: &[_], child: &[_]| {
        numbers(&types(vec![
            structure(None, parent),
            structure(Some(0), child),
        ]))
    };
    assert_eq!(with(&names(77), &names(77))[0], 0);
    assert_eq!(with(&names(77), &names(78))[0], 16);
    let mut read = names(0);
    read[65535].0 = 77;
    assert_eq!(with(&read, &read), [3, 3, 77, 0, 0, 0]);
}

#[test]
fn constants() {
    let with = |constants| Sheet {
        strings: strings(&["s"]),
        constants,
        ..Sheet::default()
    };
    let string = with(vec![Constant::Str(1)]);
    assert_eq!(numbers(&string), [3, 3, 1, 0, 0, 0]);
    let plain = || Constant::Plain(u32::MAX, 0);
    let in_order = with(vec![plain(), Constant::Map(vec![(0, 1)]), Constant::Str(9)]);
    assert_eq!(numbers(&in_order), [18, 0, 0, 0, 0, 0]);
    let empty = with(vec![
        Constant::Array(vec![]),
        Constant::Map(vec![]),
        Constant::Str(0),
    ]);
    assert_eq!(numbers(&empty)[0], 0);
}
