//! Worked examples on rules 7 and 8, numbered as in docs/DECISIONS.md.

use compare::answer_plain;
use sheets::build::{
    abc, aw, func, function, hook_function, hook_import, import, ret_void, strings, user,
};
use sheets::{
    op, Export, ExportKind, Function, Handler, HookBinding, Import, Param, Sheet, Table, TypeEntry,
    ValueType, DYN,
};

const I8: ValueType = ValueType(1);

fn numbers(sheet: &Sheet) -> [u32; 6] {
    answer_plain(sheet, &[user("s", "s")]).numbers
}

/// Function 0 to be tried, 1 of one parameter, 2 with a capture, 3 with both.
fn beside_callees(f: Function) -> Sheet {
    let callee = |sig, captures: &[ValueType]| Function {
        sig,
        captures: captures.to_vec(),
        ..function(&[DYN], &[ret_void()])
    };
    Sheet {
        strings: strings(&["s"]),
        types: vec![func(&[], &[]), func(&[DYN], &[]), TypeEntry::Coroutine],
        imports: vec![import(0, 0, 1)],
        functions: vec![f, callee(1, &[]), callee(0, &[DYN]), callee(1, &[DYN])],
        ..Sheet::default()
    }
}

fn code(regs: usize, code: &[u64]) -> [u32; 6] {
    numbers(&beside_callees(function(&vec![DYN; regs], code)))
}

fn under_handler(regs: usize, inst: u64) -> [u32; 6] {
    let f = Function {
        handlers: vec![Handler {
            start: 0,
            end: 1,
            target: 0,
            catch: 0,
        }],
        ..function(&vec![DYN; regs], &[inst])
    };
    numbers(&beside_callees(f))
}

#[test]
fn ends_of_code() {
    assert_eq!(code(1, &[]), [6, 0, 0, 0, 1, 0]);
    let step = abc(op::MOVE, 0, 0, 0, 0);
    // 2.5: position + 1 is the code's length.
    assert_eq!(code(1, &[ret_void(), step, step]), [7, 0, 0, 0, 1, 3]);
    for code_number in 0..35 {
        let ends = op::terminates(code_number);
        let falls = code(0, &[aw(code_number, 0, 9, 9)])[0] == 7;
        assert_eq!(falls, !ends, "code {code_number}");
    }
}

#[test]
fn handlers_one_by_one() {
    let judge = |handlers: &[[u32; 4]]| {
        let handler = |&[start, end, target, catch]: &[u32; 4]| Handler {
            start,
            end,
            target,
            catch,
        };
        let f = Function {
            handlers: handlers.iter().map(handler).collect(),
            ..function(&[DYN, I8], &[ret_void(); 2])
        };
        numbers(&beside_callees(f))
    };
    let invalid = [13, 0, 0, 0, 1, 0];
    assert_eq!(judge(&[[0, 2, 1, 0]])[0], 0);
    assert_eq!(judge(&[[1, 1, 1, 0]]), invalid);
    assert_eq!(judge(&[[0, 3, 1, 0]]), invalid);
    assert_eq!(judge(&[[0, 2, 2, 0]]), invalid);
    assert_eq!(judge(&[[0, 2, 1, 2]]), invalid);
    // 3.13: a catch register has 32 bits.
    assert_eq!(judge(&[[0, 2, 1, 65536]]), invalid);
    // 3.14: 13 and 14 handler by handler.
    let not_dyn = [14, 0, 0, 0, 1, 0];
    assert_eq!(judge(&[[0, 2, 1, 1], [1, 1, 1, 0]]), not_dyn);
    assert_eq!(judge(&[[1, 1, 1, 0], [0, 2, 1, 1]]), invalid);
    assert_eq!(judge(&[[1, 1, 1, 1]]), invalid);
}

#[test]
fn tables_before_instructions() {
    let f = |targets: &[u32], default| Function {
        tables: vec![Table {
            targets: targets.to_vec(),
            default,
        }],
        ..function(&[], &[aw(op::JMP, 0, 0, 7)])
    };
    let judge = |targets: &[u32], default| numbers(&beside_callees(f(targets, default)));
    assert_eq!(judge(&[0, 5], 6), [3, 9, 5, 0, 1, 0]);
    assert_eq!(judge(&[0], 6), [3, 9, 6, 0, 1, 0]);
    assert_eq!(judge(&[0], 0), [3, 8, 7, 0, 1, 1]);
}

#[test]
fn fields_in_order() {
    let ret = ret_void();
    // 3.16: an empty window still needs its register.
    assert_eq!(code(0, &[aw(op::TAIL_CALL, 0, 0, 0)]), [3, 5, 0, 0, 1, 1]);
    assert_eq!(
        code(0, &[abc(op::STR_CONCAT_N, 0, 0, 0, 0), ret]),
        [3, 5, 0, 0, 1, 1]
    );
    assert_eq!(code(1, &[abc(op::STR_CONCAT_N, 0, 0, 0, 0), ret])[0], 0);
    assert_eq!(
        code(1, &[abc(op::STR_CONCAT_N, 2, 0, 0, 0), ret]),
        [3, 5, 1, 0, 1, 1]
    );
    assert_eq!(
        code(1, &[abc(op::STR_SLICE, 0, 0, 0, 0), ret]),
        [3, 5, 1, 0, 1, 1]
    );
    assert_eq!(code(2, &[abc(op::STR_SLICE, 0, 0, 0, 0), ret])[0], 0);
    // 3.17: A before W.
    assert_eq!(code(2, &[aw(op::TAIL_CALL, 0, 3, 7)]), [3, 5, 3, 0, 1, 1]);
    assert_eq!(code(4, &[aw(op::TAIL_CALL, 0, 3, 7)]), [3, 2, 7, 0, 1, 1]);
    let words = [
        (op::JMP, 8),
        (op::BRANCH, 8),
        (op::SWITCH, 10),
        (op::TAIL_CALL, 2),
        (op::LOAD_CONST, 4),
        (op::LOAD_GLOBAL, 7),
        (op::CALL, 2),
        (op::CORO_NEW, 2),
        (op::CALL_IMPORT, 6),
        (op::MAKE_CLOSURE, 2),
    ];
    for (code_number, word) in words {
        let inst = aw(code_number, 0, 0, 0x1_0007);
        assert_eq!(
            code(1, &[inst, ret])[..3],
            [3, word, 0x1_0007],
            "code {code_number}"
        );
    }
    let sixteen = [
        (op::LOAD_CAPTURE, 13),
        (op::D_CALL_SHAPE, 14),
        (op::NEW_STRUCT, 12),
        (op::NEW_CELL, 12),
    ];
    for (code_number, word) in sixteen {
        let inst = abc(code_number, 0, 0, 7, 0);
        assert_eq!(
            code(1, &[inst, ret])[..3],
            [3, word, 7],
            "code {code_number}"
        );
    }
    let name = abc(op::LOAD_NAME, 0, 0, 0, 7);
    assert_eq!(code(1, &[name, ret]), [3, 11, 7, 0, 1, 1]);
    let three = abc(op::I_ADD, 3, 0, 7, 8);
    assert_eq!(code(1, &[three, ret]), [3, 5, 7, 0, 1, 1]);
}

#[test]
fn calls_in_order() {
    let ret = ret_void();
    // 3.18: window before arity, arity before captures, captures before the handler.
    for (code_number, first) in [(op::CALL, 1), (op::CORO_NEW, 1), (op::TAIL_CALL, 0)] {
        let call = |d, w| code(3, &[aw(code_number, d, 0, w), ret]);
        assert_eq!(call(9, 1), [3, 5, first + 8, 0, 1, 1]);
        assert_eq!(call(2, 1), [8, 0, 1, 2, 1, 1]);
        assert_eq!(call(0, 3), [8, 0, 1, 0, 1, 1]);
        assert_eq!(call(1, 3), [9, 0, 0, 0, 1, 1]);
        assert_eq!(call(0, 2), [9, 0, 0, 0, 1, 1]);
        assert_eq!(call(1, 1)[0], 0);
    }
    assert_eq!(under_handler(3, aw(op::TAIL_CALL, 9, 0, 1))[..3], [3, 5, 8]);
    assert_eq!(under_handler(3, aw(op::TAIL_CALL, 0, 0, 1))[0], 8);
    assert_eq!(under_handler(3, aw(op::TAIL_CALL, 1, 0, 3))[0], 9);
    assert_eq!(
        under_handler(3, aw(op::TAIL_CALL, 1, 0, 1)),
        [15, 0, 0, 0, 1, 1]
    );
    let indirect = |d| abc(op::TAIL_CALL_INDIRECT, d, 0, 0, 0);
    assert_eq!(under_handler(3, indirect(4))[..3], [3, 5, 3]);
    assert_eq!(under_handler(3, indirect(3)), [15, 0, 0, 0, 1, 1]);
    assert_eq!(code(3, &[indirect(3)])[0], 0);
    // Imports: window, then in the first edition arity by the signature's count, whatever is optional (3.21).
    let imported = |d| code(3, &[aw(op::CALL_IMPORT, d, 0, 0), ret]);
    assert_eq!(imported(9), [3, 5, 9, 0, 1, 1]);
    assert_eq!(imported(2), [8, 0, 1, 2, 1, 1]);
    assert_eq!(imported(1)[0], 0);
    let call = function(&[DYN; 3], &[aw(op::CALL_IMPORT, 0, 0, 0), ret]);
    let mut optional = beside_callees(call);
    optional.imports[0] = Import {
        params: Some(vec![Param {
            flags: 2,
            name: None,
        }]),
        ..import(0, 0, 1)
    };
    assert_eq!(numbers(&optional), [8, 0, 1, 0, 1, 1]);
}

#[test]
fn promote() {
    let judge = |code_number, d, register| {
        let f = function(&[register], &[abc(code_number, d, 0, 0, 0), ret_void()]);
        numbers(&beside_callees(f))[0]
    };
    // 3.19: IAdd always.
    assert_eq!(judge(op::I_ADD, 3, DYN), 10);
    assert_eq!(judge(op::I_ADD, 3, I8), 10);
    assert_eq!(judge(op::I_ADD, 7, I8), 0);
    assert_eq!(judge(op::D_ADD, 3, DYN), 0);
    assert_eq!(judge(op::D_ADD, 3, I8), 10);
    assert_eq!(judge(op::D_ADD, 2, I8), 0);
}

#[test]
fn hooks_start_exports() {
    let three = [DYN; 3];
    let with = |hooks: Vec<HookBinding>, start| Sheet {
        hooks,
        start,
        exports: vec![Export {
            kind: ExportKind::Type,
            name: 9999,
            index: 99,
        }],
        types: vec![func(&[DYN], &[DYN]), func(&three, &[]), func(&[], &[])],
        strings: strings(&["s"]),
        imports: vec![import(0, 0, 0)],
        functions: vec![
            function(&[DYN], &[ret_void()]),
            Function {
                sig: 2,
                captures: vec![I8],
                ..function(&[], &[ret_void()])
            },
            Function {
                sig: 2,
                ..function(&[], &[ret_void()])
            },
        ],
        ..Sheet::default()
    };
    let judge = |hooks, start| numbers(&with(hooks, start));
    let exports = [3, 1, 99, 0, 0, 0];
    // 3.20: every binding is judged, also one that a later one replaces.
    let replaced = vec![hook_function(0, 2), hook_function(0, 0)];
    assert_eq!(judge(replaced, None), [19, 0, 0, 0, 0, 0]);
    assert_eq!(judge(vec![hook_function(6, 0)], None), exports);
    assert_eq!(judge(vec![hook_import(6, 0)], None), exports);
    assert_eq!(judge(vec![hook_import(7, 0)], None), [19, 0, 7, 0, 0, 0]);
    assert_eq!(
        judge(vec![hook_function(30, 0)], None),
        [19, 0, 30, 0, 0, 0]
    );
    assert_eq!(
        judge(vec![hook_function(0, 3)], Some(9)),
        [3, 2, 3, 0, 0, 0]
    );
    assert_eq!(judge(vec![hook_import(0, 1)], Some(9)), [3, 6, 1, 0, 0, 0]);
    // Start: range, 20, 9, all without a function; then exports.
    assert_eq!(judge(vec![], Some(3)), [3, 2, 3, 0, 0, 0]);
    assert_eq!(judge(vec![], Some(0)), [20, 0, 0, 0, 0, 0]);
    assert_eq!(judge(vec![], Some(1)), [9, 0, 0, 0, 0, 0]);
    assert_eq!(judge(vec![], Some(2)), exports);
}
