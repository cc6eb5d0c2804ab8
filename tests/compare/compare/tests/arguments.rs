//! Worked examples on the arguments of imports: the second edition lets optional ones be left out, the first does not.

use std::slice;

use compare::{answer_plain, Answer};
use sheets::build::{
    abc, aw, func, function, hook_import, import, listed, ret_void, strings, user,
};
use sheets::{op, Edition, Function, Import, Param, Sheet, ValueType, DYN};

/// How many parameters an import has, all dyn, and its list.
type Params = (usize, Option<Vec<Param>>);

/// As many parameters as flags.
fn flagged(flags: &[u32]) -> Params {
    (flags.len(), listed(flags))
}

/// The first r of n parameters are mandatory.
fn mandatory(r: usize, n: usize) -> Params {
    flagged(&[vec![0; r], vec![2; n - r]].concat())
}

/// Function 0 has so many dyn and this code; type 1 + n is a func of n dyn.
fn sheet(imports: &[Params], regs: usize, code: &[u64]) -> Sheet {
    let most = imports.iter().map(|(n, _)| *n).max().unwrap_or(0);
    let mut types = vec![func(&[], &[])];
    types.extend((0..=most).map(|n| func(&vec![DYN; n], &[])));
    let bound = |(n, params): &Params| Import {
        params: params.clone(),
        ..import(0, 0, 1 + *n as u32)
    };
    Sheet {
        strings: strings(&["a", "b"]),
        types,
        imports: imports.iter().map(bound).collect(),
        functions: vec![of_code(regs, code)],
        ..Sheet::default()
    }
}

fn of_code(regs: usize, code: &[u64]) -> Function {
    function(&vec![DYN; regs], &[code, &[ret_void()]].concat())
}

/// The call of an import with so many arguments behind register 0.
fn call(import: u32, found: u32) -> u64 {
    aw(op::CALL_IMPORT, found as u8, 0, import)
}

/// What the two editions answer.
fn answers(sheet: &Sheet) -> [Answer; 2] {
    Edition::ALL.map(|edition| {
        let sheet = Sheet {
            edition,
            ..sheet.clone()
        };
        answer_plain(&sheet, &[user("a", "a")])
    })
}

/// The six numbers of the two editions, without the length of a table.
fn numbers(sheet: &Sheet) -> [[u32; 6]; 2] {
    answers(sheet).map(|answer| match answer.table {
        Some(_) => ACCEPTED,
        None => answer.numbers,
    })
}

const ACCEPTED: [u32; 6] = [0; 6];

/// Kind 8 in function 0 at this position.
fn wrong(expected: u32, found: u32, position: u32) -> [u32; 6] {
    [8, 0, expected, found, 1, position + 1]
}

/// What is said of a call at this position, where from r to n arguments are right.
fn judged([r, n]: [u32; 2], found: u32, position: u32) -> [u32; 6] {
    match found {
        _ if found < r => wrong(r, found, position),
        _ if found > n => wrong(n, found, position),
        _ => ACCEPTED,
    }
}

/// What the two editions say of one call with so many arguments in a frame of 256.
fn called(import: &Params, found: u32) -> [[u32; 6]; 2] {
    numbers(&sheet(slice::from_ref(import), 256, &[call(0, found)]))
}

#[test]
fn one_mandatory_of_two() {
    let import = flagged(&[0, 2]);
    assert_eq!(called(&import, 0), [wrong(2, 0, 0), wrong(1, 0, 0)]);
    assert_eq!(called(&import, 1), [wrong(2, 1, 0), ACCEPTED]);
    assert_eq!(called(&import, 2), [ACCEPTED; 2]);
    assert_eq!(called(&import, 3), [wrong(2, 3, 0); 2]);
    assert_eq!(called(&import, 255), [wrong(2, 255, 0); 2]);
}

#[test]
fn none_or_all_mandatory() {
    for all_optional in [flagged(&[2, 2]), flagged(&[3, 3])] {
        assert_eq!(called(&all_optional, 0), [wrong(2, 0, 0), ACCEPTED]);
    }
    for all_mandatory in [flagged(&[0, 0]), flagged(&[1, 1]), (2, None)] {
        assert_eq!(called(&all_mandatory, 0), [wrong(2, 0, 0); 2]);
        assert_eq!(called(&all_mandatory, 1), [wrong(2, 1, 0); 2]);
        assert_eq!(called(&all_mandatory, 2), [ACCEPTED; 2]);
        assert_eq!(called(&all_mandatory, 3), [wrong(2, 3, 0); 2]);
    }
    for no_member in [flagged(&[]), (0, None)] {
        assert_eq!(called(&no_member, 0), [ACCEPTED; 2]);
        assert_eq!(called(&no_member, 1), [wrong(0, 1, 0); 2]);
    }
}

/// All lists of up to four, and all counts up to one past the last.
#[test]
fn by_reference_is_not_optional() {
    let sizes = (0..=4).flat_map(|n| (0..=n).map(move |r| (r, n)));
    for (r, n) in sizes {
        for by_reference in 0..1u32 << n {
            let flags = |i| (by_reference >> i & 1) + 2 * u32::from(i >= r);
            let flags: Vec<u32> = (0..n).map(flags).collect();
            for found in 0..=n + 1 {
                let expected = [[n, n], [r, n]].map(|counts| judged(counts, found, 0));
                assert_eq!(called(&flagged(&flags), found), expected, "{flags:?}");
            }
        }
    }
}

#[test]
fn names_and_types_do_not_matter() {
    let named = |flags, name| Param { flags, name };
    let list = [named(0, Some(1)), named(2, None), named(2, Some(0))];
    let import = (3, Some(list.to_vec()));
    assert_eq!(called(&import, 0), [wrong(3, 0, 0), wrong(1, 0, 0)]);
    assert_eq!(called(&import, 1), [wrong(3, 1, 0), ACCEPTED]);
    // Of other types, and with a result.
    let mut sheet = sheet(&[flagged(&[0, 2])], 2, &[call(0, 1)]);
    sheet.types[3] = func(&[ValueType(11), ValueType(4)], &[DYN]);
    assert_eq!(numbers(&sheet), [wrong(2, 1, 0), ACCEPTED]);
}

/// The window is that of D, and comes first.
#[test]
fn window_before_arity() {
    let in_frame = |regs, a, found| {
        let call = aw(op::CALL_IMPORT, found, a, 0);
        numbers(&sheet(&[flagged(&[0, 2])], regs, &[call]))
    };
    let past = |last| [[3, 5, last, 0, 1, 1]; 2];
    // Registers for one argument are enough for one.
    assert_eq!(in_frame(2, 0, 1), [wrong(2, 1, 0), ACCEPTED]);
    assert_eq!(in_frame(2, 0, 2), past(2));
    assert_eq!(in_frame(5, 3, 1), [wrong(2, 1, 0), ACCEPTED]);
    assert_eq!(in_frame(5, 4, 1), past(5));
    // Where the number is wrong as well.
    assert_eq!(in_frame(2, 0, 3), past(3));
    assert_eq!(in_frame(2, 1, 255), past(256));
    assert_eq!(in_frame(4, 0, 3), [wrong(2, 3, 0); 2]);
    // No argument has a window that always holds.
    assert_eq!(in_frame(1, 0, 0), [wrong(2, 0, 0), wrong(1, 0, 0)]);
    // The fields come before both.
    assert_eq!(in_frame(1, 1, 9), past(1));
    assert_eq!(in_frame(0, 0, 0), past(0));
    let absent = sheet(&[flagged(&[0, 2])], 2, &[call(1, 9)]);
    assert_eq!(numbers(&absent), [[3, 6, 1, 0, 1, 1]; 2]);
}

/// D has 8 bits, and no count is cut to them.
#[test]
fn about_256_parameters() {
    for n in [255, 256, 257, 300] {
        for r in [0, 1, 254, 255, 256, n] {
            let r = r.min(n);
            for found in [0, 1, 253, 254, 255] {
                let counts = [[n as u32; 2], [r as u32, n as u32]];
                let expected = counts.map(|counts| judged(counts, found, 0));
                assert_eq!(called(&mandatory(r, n), found), expected, "{r} of {n}");
            }
        }
    }
    assert_eq!(called(&mandatory(0, 256), 0), [wrong(256, 0, 0), ACCEPTED]);
    assert_eq!(called(&mandatory(256, 257), 255)[1], wrong(256, 255, 0));
    assert_eq!(called(&mandatory(256, 257), 0)[1], wrong(256, 0, 0));
}

/// Each call goes by its own import, whichever came before it.
#[test]
fn several_imports() {
    let imports = [
        flagged(&[0, 2, 2]),
        (3, None),
        flagged(&[2]),
        flagged(&[]),
        flagged(&[0, 1, 1]),
    ];
    let counts = [[1, 3], [3, 3], [0, 1], [0, 0], [3, 3]];
    for (i, [fewest, _]) in (0..).zip(counts) {
        for (j, own) in (0..).zip(counts) {
            for found in 0..=4 {
                let code = [call(i, fewest), call(j, found)];
                let [_, second] = numbers(&sheet(&imports, 6, &code));
                assert_eq!(second, judged(own, found, 1), "{i}, then {j} with {found}");
            }
        }
    }
}

#[test]
fn several_functions() {
    let imports = [flagged(&[0, 2]), flagged(&[2, 2])];
    let mut sheet = sheet(&imports, 4, &[call(0, 1)]);
    sheet.functions.push(of_code(4, &[call(1, 0), call(0, 2)]));
    assert_eq!(numbers(&sheet), [wrong(2, 1, 0), ACCEPTED]);
    sheet.functions.push(of_code(4, &[call(1, 1), call(0, 0)]));
    assert_eq!(numbers(&sheet), [wrong(2, 1, 0), [8, 0, 1, 0, 3, 2]]);
}

/// Instruction by instruction; other rules stand where they stood.
#[test]
fn one_fault_after_the_other() {
    let import = [flagged(&[0, 2])];
    let [left_out, too_few, too_many] = [1, 0, 3].map(|found| call(0, found));
    let absent = abc(op::MOVE, 0, 0, 9, 0);
    let at = |position: u32| [3, 5, 9, 0, 1, position + 1];
    for (code, expected) in [
        ([absent, too_few], [at(0); 2]),
        ([too_few, absent], [wrong(2, 0, 0), wrong(1, 0, 0)]),
        ([absent, left_out], [at(0); 2]),
        ([left_out, absent], [wrong(2, 1, 0), at(1)]),
        ([left_out, too_many], [wrong(2, 1, 0), wrong(2, 3, 1)]),
        ([left_out, too_few], [wrong(2, 1, 0), wrong(1, 0, 1)]),
        ([too_many, too_few], [wrong(2, 3, 0); 2]),
    ] {
        assert_eq!(numbers(&sheet(&import, 4, &code)), expected, "{code:?}");
    }
    // The last instruction, and the record of a later function, come before; start comes behind.
    let mut falls = sheet(&import, 4, &[too_few]);
    falls.functions[0].code.pop();
    assert_eq!(numbers(&falls), [[7, 0, 0, 0, 1, 1]; 2]);
    let mut record = sheet(&import, 4, &[too_few]);
    record.functions.push(of_code(0, &[]));
    record.functions[1].names.push(7);
    assert_eq!(numbers(&record), [[3, 3, 7, 0, 2, 0]; 2]);
    let mut start = sheet(&import, 4, &[left_out]);
    start.start = Some(9);
    assert_eq!(numbers(&start), [wrong(2, 1, 0), [3, 2, 9, 0, 0, 0]]);
}

/// A list that does not hold, or has another length than the signature, is refused before any call.
#[test]
fn lists_are_judged_first() {
    for flags in [&[2, 0][..], &[0, 4], &[0], &[0, 2, 2]] {
        for found in 0..=3 {
            let import = (2, listed(flags));
            assert_eq!(called(&import, found), [[21, 0, 0, 0, 0, 0]; 2]);
        }
    }
}

/// A list of its own changes nothing for a function.
#[test]
fn functions_take_all() {
    for code in [op::CALL, op::TAIL_CALL, op::CORO_NEW] {
        for flags in [[0, 2], [2, 2], [0, 0]] {
            for found in 0..=3 {
                // Beside an import with the same list.
                let call = aw(code, found as u8, 0, 1);
                let mut sheet = sheet(&[flagged(&flags)], 5, &[call]);
                sheet.functions.push(Function {
                    sig: 3,
                    params: listed(&flags),
                    ..of_code(2, &[])
                });
                let expected = [judged([2, 2], found, 0); 2];
                assert_eq!(numbers(&sheet), expected, "{code}, {flags:?}");
            }
        }
    }
}

/// A hook goes by the signature, however many of the parameters are optional.
#[test]
fn hooks_take_all() {
    let sizes = (1..=4).flat_map(|n| (0..=n).map(move |r| (r, n)));
    for (r, n) in sizes {
        for (hook, count, results) in [(0, 1, &[DYN][..]), (7, 3, &[]), (10, 2, &[DYN])] {
            let mut sheet = sheet(&[mandatory(r, n)], 1, &[]);
            sheet.types[1 + n] = func(&vec![DYN; n], results);
            sheet.hooks.push(hook_import(hook, 0));
            let refused = [19, 0, hook, 0, 0, 0];
            let expected = if n == count { ACCEPTED } else { refused };
            assert_eq!(numbers(&sheet), [expected; 2], "{hook}: {r} of {n}");
        }
    }
}

/// The table holds no call: it is the same with all arguments, and in both editions.
#[test]
fn the_table_is_the_same() {
    let imports = [flagged(&[0, 2]), flagged(&[2, 2])];
    let [first, second] = answers(&sheet(&imports, 4, &[call(0, 2), call(1, 2)]));
    let [_, fewest] = answers(&sheet(&imports, 4, &[call(0, 1), call(1, 0)]));
    assert!(first.table.is_some());
    assert_eq!([second, fewest], [first.clone(), first]);
}
