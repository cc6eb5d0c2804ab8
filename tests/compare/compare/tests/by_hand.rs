//! The rows of docs/FORMAT.md, "Worked rows", each by its name.

use compare::{answer_plain, Linked};
use sheets::build::{abc, aw, func, function, hook_function, ret_void, strings, structure};
use sheets::{
    check_word, encode_sheet, op, Constant, Function, Handler, Sheet, TypeEntry, ValueType, DYN,
};

const NONE: u32 = u32::MAX;

fn numbers(sheet: &Sheet) -> [u32; 6] {
    answer_plain(sheet, &[]).numbers
}

fn linked(sheet: &Sheet) -> Linked {
    let table = answer_plain(sheet, &[]).table;
    Linked::read(&table.expect("accepted")).expect("a linked table")
}

fn kind(sheet: &Sheet) -> u32 {
    numbers(sheet)[0]
}

fn structs(parents: &[Option<u32>]) -> Sheet {
    Sheet {
        strings: strings(&[""]),
        types: parents.iter().map(|&p| structure(p, &[])).collect(),
        ..Sheet::default()
    }
}

fn chain(length: u32) -> Sheet {
    let parents: Vec<_> = (0..length).map(|k| k.checked_sub(1)).collect();
    structs(&parents)
}

fn types(types: &[TypeEntry]) -> Sheet {
    Sheet {
        types: types.to_vec(),
        ..Sheet::default()
    }
}

/// Constant k an array of constant k - 1, so that the last has this depth.
fn nested(depth: u32) -> Sheet {
    let array = |k: u32| Constant::Array(vec![k]);
    let mut constants = vec![Constant::Plain(0, 0)];
    constants.extend((0..depth).map(array));
    Sheet {
        constants,
        ..Sheet::default()
    }
}

fn one_function(f: Function) -> Sheet {
    Sheet {
        types: vec![func(&[], &[])],
        functions: vec![f],
        ..Sheet::default()
    }
}

/// A function of seven instructions with these regions.
fn handled(regions: &[(u32, u32)]) -> Sheet {
    let handler = |&(start, end): &(u32, u32)| Handler {
        start,
        end,
        target: 6,
        catch: 0,
    };
    one_function(Function {
        handlers: regions.iter().map(handler).collect(),
        ..function(&[DYN], &[ret_void(); 7])
    })
}

/// Five registers and a call of function 1, which takes two.
fn call(a: u16) -> Sheet {
    Sheet {
        types: vec![func(&[], &[]), func(&[DYN, DYN], &[])],
        functions: vec![
            function(&[DYN; 5], &[aw(op::CALL, 2, a, 1), ret_void()]),
            Function {
                sig: 1,
                ..function(&[DYN; 2], &[ret_void()])
            },
        ],
        ..Sheet::default()
    }
}

fn set_index(results: &[ValueType]) -> Sheet {
    Sheet {
        types: vec![func(&[DYN; 3], results)],
        functions: vec![function(&[DYN; 3], &[ret_void()])],
        hooks: vec![hook_function(7, 0)],
        ..Sheet::default()
    }
}

#[test]
fn rows_of_tried_by_hand() {
    let empty = Sheet::default();
    let words = encode_sheet(&empty);
    let bytes = words.to_bytes();
    let reference = ValueType::reference;
    let two_coroutines = types(&[TypeEntry::Coroutine, TypeEntry::Coroutine]);
    let with_arrays = types(&[
        TypeEntry::Coroutine,
        TypeEntry::Coroutine,
        TypeEntry::Array(reference(0)),
        TypeEntry::Array(reference(1)),
    ]);
    let family = linked(&structs(&[Some(2), Some(2), None]));
    let nine = [
        (2, 6),
        (0, 4),
        (0, 1),
        (0, 1),
        (0, 1),
        (0, 1),
        (0, 1),
        (0, 1),
        (0, 1),
    ];
    let nine = linked(&handled(&nine));
    let self_constant = Sheet {
        constants: vec![Constant::Array(vec![0])],
        ..Sheet::default()
    };
    // Function 0 falls through, function 1 names an absent signature: rule 6 of both comes first.
    let late_signature = Sheet {
        types: vec![func(&[], &[])],
        functions: vec![
            function(&[DYN], &[abc(op::MOVE, 0, 0, 0, 0)]),
            Function {
                sig: 9,
                ..function(&[], &[ret_void()])
            },
        ],
        ..Sheet::default()
    };
    let coroutine_first = Sheet {
        strings: strings(&[""]),
        types: vec![TypeEntry::Coroutine, structure(None, &[])],
        ..Sheet::default()
    };
    let rows: Vec<(&str, Vec<u32>, Vec<u32>)> = vec![
        (
            "empty sheet: words",
            words.words.clone(),
            [&[1, 11][..], &[0; 9]].concat(),
        ),
        (
            "empty sheet: check word",
            vec![check_word(0, &bytes)],
            vec![56],
        ),
        (
            "empty sheet: one block",
            vec![bytes.len() as u32],
            vec![512],
        ),
        (
            "empty sheet: answer",
            numbers(&empty).to_vec(),
            vec![0, 0, 49, 0, 0, 0],
        ),
        (
            "family: span of struct 0",
            family.spans[0].to_vec(),
            vec![1, 2, 2],
        ),
        (
            "family: span of struct 1",
            family.spans[1].to_vec(),
            vec![2, 3, 2],
        ),
        (
            "family: span of struct 2, the root",
            family.spans[2].to_vec(),
            vec![0, 3, 1],
        ),
        ("self-parent", vec![kind(&structs(&[Some(0)]))], vec![17]),
        ("256 on a chain", vec![kind(&chain(256))], vec![0]),
        ("257 on a chain", vec![kind(&chain(257))], vec![17]),
        (
            "two coroutines",
            linked(&two_coroutines).canonical,
            vec![0, 0],
        ),
        (
            "arrays of equal types stay apart",
            linked(&with_arrays).canonical,
            vec![0, 0, 2, 3],
        ),
        (
            "constant 0 an array of itself",
            vec![kind(&self_constant)],
            vec![18],
        ),
        ("constants of depth 64", vec![kind(&nested(64))], vec![0]),
        ("constants of depth 65", vec![kind(&nested(65))], vec![18]),
        (
            "nine handlers: catch table",
            nine.catch_tables[0].clone().expect("above eight"),
            vec![1, 1, 0, 0, 0, 0, NONE],
        ),
        (
            "eight handlers: no catch table",
            vec![linked(&handled(&[(0, 1); 8])).catch_tables[0].is_some() as u32],
            vec![0],
        ),
        (
            "call at A = 2 passes the window",
            vec![kind(&call(2))],
            vec![0],
        ),
        (
            "call at A = 3",
            numbers(&call(3)).to_vec(),
            vec![3, 5, 5, 0, 1, 1],
        ),
        (
            "hook 7 with three dyn",
            vec![kind(&set_index(&[]))],
            vec![0],
        ),
        (
            "hook 7 with a result",
            numbers(&set_index(&[DYN])).to_vec(),
            vec![19, 0, 7, 0, 0, 0],
        ),
        (
            "hook 7 in the table",
            vec![linked(&set_index(&[])).hooks[7]],
            vec![1],
        ),
        (
            "no struct: span under nothing",
            linked(&coroutine_first).spans[0].to_vec(),
            vec![NONE, 0, 0],
        ),
        (
            "no struct: the first root keeps 0-1",
            linked(&coroutine_first).spans[1].to_vec(),
            vec![0, 1, 1],
        ),
        (
            "function 1's signature before function 0's code",
            numbers(&late_signature).to_vec(),
            vec![3, 1, 9, 0, 2, 0],
        ),
    ];
    assert!(rows.len() >= 24);
    for (name, found, expected) in rows {
        assert_eq!(found, expected, "{name}");
    }
}
