//! Worked examples on function records, parameter lists, shapes and windows, numbered as in docs/DECISIONS.md.

use compare::answer_plain;
use sheets::build::{abc, aw, func, function, import, ret_void, strings, structure, user};
use sheets::{op, Function, Import, Param, ShapeEntry, Sheet, TypeEntry, ValueType, DYN, STR};

const I8: ValueType = ValueType(1);
const I64: ValueType = ValueType(4);

fn numbers(sheet: &Sheet) -> [u32; 6] {
    answer_plain(sheet, &[]).numbers
}

fn reference(t: u32) -> ValueType {
    ValueType::reference(t)
}

fn functions(types: Vec<TypeEntry>, functions: Vec<Function>) -> Sheet {
    Sheet {
        strings: strings(&["s", "s"]),
        types,
        functions,
        ..Sheet::default()
    }
}

fn of_sig(sig: u32, f: Function) -> Function {
    Function { sig, ..f }
}

#[test]
fn function_records() {
    let none = || vec![func(&[], &[])];
    let ret = [ret_void()];
    // 2.3: the count, after the register types were judged.
    let many = functions(none(), vec![function(&vec![I8; 65537], &ret)]);
    assert_eq!(numbers(&many), [3, 5, 65537, 0, 1, 0]);
    let mut regs = vec![I8; 65537];
    regs[65536] = reference(9);
    let typed = functions(none(), vec![function(&regs, &ret)]);
    assert_eq!(numbers(&typed), [3, 1, 9, 0, 1, 0]);
    let most = functions(none(), vec![function(&vec![I8; 65536], &ret)]);
    assert_eq!(numbers(&most)[0], 0);
    // 2.2: lists of the record name types and strings, not type refs and names.
    let refs = Function {
        type_refs: vec![0, 5],
        ..function(&[], &ret)
    };
    assert_eq!(numbers(&functions(none(), vec![refs])), [3, 1, 5, 0, 1, 0]);
    let names = Function {
        names: vec![0, 5],
        type_refs: vec![9],
        ..function(&[], &ret)
    };
    assert_eq!(numbers(&functions(none(), vec![names])), [3, 3, 5, 0, 1, 0]);
    let captures = Function {
        captures: vec![reference(6)],
        names: vec![9],
        ..function(&[], &ret)
    };
    assert_eq!(
        numbers(&functions(none(), vec![captures])),
        [3, 1, 6, 0, 1, 0]
    );
    // 3.8: parameters are compared by canonical types; structs are only themselves.
    let equal = |first: TypeEntry, second: TypeEntry, register| {
        let types = vec![first, second, func(&[reference(0)], &[])];
        let f = of_sig(2, function(&[reference(register)], &ret));
        numbers(&functions(types, vec![f]))
    };
    let coroutine = || TypeEntry::Coroutine;
    assert_eq!(equal(coroutine(), coroutine(), 1)[0], 0);
    let mismatch = [5, 0, 0, 0, 1, 0];
    assert_eq!(
        equal(structure(None, &[]), structure(None, &[]), 1),
        mismatch
    );
    assert_eq!(equal(TypeEntry::Array(DYN), coroutine(), 1), mismatch);
    assert_eq!(
        numbers(&functions(
            vec![func(&[DYN], &[])],
            vec![function(&[], &ret)]
        )),
        mismatch
    );
}

#[test]
fn parameter_lists() {
    let types = || {
        vec![
            func(&[DYN, DYN], &[]),
            TypeEntry::Cell(DYN),
            TypeEntry::Cell(I64),
            func(&[STR, reference(1)], &[]),
            func(&[reference(2), I64], &[]),
        ]
    };
    let function_21 = [21, 0, 0, 0, 1, 0];
    let judge = |sig: u32, list: &[(u32, Option<u32>)]| {
        let entries = types();
        let TypeEntry::Func { params, .. } = &entries[sig as usize] else {
            unreachable!()
        };
        let list = list.iter().map(|&(flags, name)| Param { flags, name });
        let f = Function {
            params: Some(list.collect()),
            ..of_sig(sig, function(params, &[ret_void()]))
        };
        numbers(&functions(entries, vec![f]))
    };
    // 3.9, 3.10: flags are bits; names are compared by number.
    assert_eq!(judge(0, &[(0, None), (0, None)])[0], 0);
    assert_eq!(judge(0, &[(3, Some(0)), (3, Some(1))])[0], 0);
    assert_eq!(judge(0, &[(1, Some(0)), (2, None)])[0], 0);
    assert_eq!(judge(0, &[(4, None), (0, None)]), function_21);
    assert_eq!(judge(0, &[(0, None), (1 << 31, None)]), function_21);
    assert_eq!(judge(0, &[(2, None), (0, None)]), function_21);
    assert_eq!(judge(0, &[(2, None), (1, None)]), function_21);
    assert_eq!(judge(0, &[(0, Some(1)), (0, Some(1))]), function_21);
    assert_eq!(judge(0, &[(0, Some(2)), (0, None)]), function_21);
    assert_eq!(judge(0, &[(0, None)]), function_21);
    assert_eq!(judge(0, &[(0, None); 3]), function_21);
    // By reference: dyn, or a cell of dyn.
    assert_eq!(judge(3, &[(0, None), (1, None)])[0], 0);
    assert_eq!(judge(3, &[(1, None), (0, None)]), function_21);
    assert_eq!(judge(4, &[(1, None), (0, None)]), function_21);
    assert_eq!(judge(4, &[(0, None), (1, None)]), function_21);
    // 2.5: of an import, without a function.
    let import_list = Sheet {
        strings: strings(&["a"]),
        types: types(),
        imports: vec![Import {
            params: Some(vec![Param {
                flags: 4,
                name: None,
            }]),
            ..import(0, 0, 0)
        }],
        ..Sheet::default()
    };
    let answer = answer_plain(&import_list, &[user("a", "a")]);
    assert_eq!(answer.numbers, [21, 0, 0, 0, 0, 0]);
}

#[test]
fn call_shapes() {
    let judge = |entries: &[(u32, u32)]| {
        let shape = entries
            .iter()
            .map(|&(kind, name)| ShapeEntry { kind, name });
        let f = Function {
            shapes: vec![vec![], shape.collect()],
            ..function(&[], &[ret_void()])
        };
        numbers(&functions(vec![func(&[], &[])], vec![f]))
    };
    let bad = [22, 0, 0, 0, 1, 0];
    assert_eq!(
        judge(&[(0, 0), (2, 0), (0, 0), (1, 0), (2, 0), (1, 1)])[0],
        0
    );
    assert_eq!(judge(&[(1, 0), (0, 0)]), bad);
    assert_eq!(judge(&[(1, 0), (2, 0), (0, 0)]), bad);
    assert_eq!(judge(&[(1, 1), (2, 0), (1, 1)]), bad);
    assert_eq!(judge(&[(1, 2)]), bad);
    assert_eq!(judge(&[(3, 0)]), bad);
    // 3.11: more than 255 entries, spreads after the named one.
    let mut long = vec![(1, 0)];
    long.extend([(2, 0); 300]);
    assert_eq!(judge(&long)[0], 0);
}

#[test]
fn windows_and_arity() {
    let none = || vec![func(&[], &[])];
    // 2.6, 2.7: a window past the frame names its own last register.
    let spawn = |regs: usize, a, d| {
        let f = function(&vec![I8; regs], &[abc(op::SPAWN, d, a, 0, 0), ret_void()]);
        numbers(&functions(none(), vec![f]))
    };
    assert_eq!(spawn(5, 3, 4), [3, 5, 7, 0, 1, 1]);
    assert_eq!(spawn(5, 3, 1)[0], 0);
    assert_eq!(spawn(65536, 65535, 1), [3, 5, 65536, 0, 1, 1]);
    assert_eq!(spawn(65536, 65535, 0)[0], 0);
    let closed = Function {
        captures: vec![I8; 300],
        ..function(&[], &[ret_void()])
    };
    let maker = function(&[I8; 2], &[aw(op::MAKE_CLOSURE, 0, 1, 1), ret_void()]);
    let closure = functions(none(), vec![maker, closed]);
    assert_eq!(numbers(&closure), [3, 5, 301, 0, 1, 1]);
    // 2.8: 256 parameters are no zero.
    let callee = of_sig(1, function(&[I8; 256], &[ret_void()]));
    let caller = |d| function(&[I8; 300], &[aw(op::CALL, d, 0, 1), ret_void()]);
    let types = || vec![func(&[], &[]), func(&[I8; 256], &[])];
    let wide = |d| numbers(&functions(types(), vec![caller(d), callee.clone()]));
    assert_eq!(wide(0), [8, 0, 256, 0, 1, 1]);
    assert_eq!(wide(255), [8, 0, 256, 255, 1, 1]);
}
