//! Worked examples on export names: the second edition reads them, export by export, the first does not.

use compare::{answer_plain, Answer};
use sheets::build::{export, func, function, hook_function, ret_void, strings};
use sheets::ExportKind::{Function, Global, Type};
use sheets::{Edition, Export, ExportKind, Sheet, TypeEntry, DYN};

/// Two items of each kind, these strings, and these exports.
fn sheet(texts: &[&str], exports: &[Export]) -> Sheet {
    let global = sheets::Global {
        ty: DYN,
        init: None,
    };
    Sheet {
        strings: strings(texts),
        types: vec![func(&[], &[]), TypeEntry::Coroutine],
        globals: vec![global.clone(), global],
        functions: vec![function(&[], &[ret_void()]); 2],
        exports: exports.to_vec(),
        ..Sheet::default()
    }
}

fn answers(sheet: &Sheet) -> [Answer; 2] {
    Edition::ALL.map(|edition| {
        let sheet = Sheet {
            edition,
            ..sheet.clone()
        };
        answer_plain(&sheet, &[])
    })
}

/// Kind, word and number of the second edition's refusal; the first reads no name.
fn refused(texts: &[&str], exports: &[Export]) -> [u32; 3] {
    let [first, second] = answers(&sheet(texts, exports));
    let indices_hold = exports.iter().all(|e| e.index < 2);
    assert_eq!(first.table.is_some(), indices_hold, "{first:?}");
    assert!(indices_hold || first.numbers[0] == 3, "{first:?}");
    let [kind, word, number, rest @ ..] = second.numbers;
    assert_eq!((second.table, rest), (None, [0, 0, 0]));
    [kind, word, number]
}

/// Both editions accept it, with one table.
fn assert_accepted(texts: &[&str], exports: &[Export]) {
    let [first, second] = answers(&sheet(texts, exports));
    assert!(first.table.is_some(), "{first:?}");
    assert_eq!(first, second);
}

/// Exports of type 0 with these names.
fn types(names: &[u32]) -> Vec<Export> {
    names.iter().map(|&name| export(Type, name, 0)).collect()
}

#[test]
fn a_name_is_a_string_of_the_sheet() {
    assert_eq!(refused(&["a"], &types(&[9])), [27, 0, 9]);
    for texts in [&["a"][..], &["a", "b", "c"], &["", "b"]] {
        let strings = texts.len() as u32;
        for kind in ExportKind::ALL {
            assert_accepted(texts, &[export(kind, strings - 1, 1)]);
            for name in [strings, strings + 1, 1 << 31, u32::MAX] {
                assert_eq!(refused(texts, &[export(kind, name, 1)]), [27, 0, name]);
            }
        }
    }
    assert_eq!(refused(&[], &types(&[0])), [27, 0, 0]);
    assert_accepted(&[], &[]);
}

#[test]
fn names_have_different_bytes() {
    assert_eq!(refused(&["a", "a"], &types(&[0, 1])), [28, 0, 1]);
    assert_eq!(refused(&["a", "a"], &types(&[1, 1])), [28, 0, 1]);
    assert_eq!(refused(&["", "a", ""], &types(&[2, 1, 0])), [28, 0, 2]);
    // A beginning of another, one with a zero byte more, one of equal looks.
    for texts in [["a", "ab"], ["a", "a\0"], ["", "\0"], ["é", "e\u{301}"]] {
        assert_accepted(&texts, &types(&[0, 1]));
        assert_accepted(&texts, &types(&[1, 0]));
    }
    // Strings that no export names may be equal.
    assert_accepted(&["a", "a", "b", "b"], &types(&[1, 2]));
}

#[test]
fn names_are_compared_across_kinds() {
    for first in ExportKind::ALL {
        for second in ExportKind::ALL {
            let exports = |name| [export(first, 0, 0), export(second, name, 1)];
            assert_eq!(refused(&["a", "a"], &exports(0)), [28, 0, 1]);
            assert_eq!(refused(&["a", "a"], &exports(1)), [28, 0, 1]);
            assert_accepted(&["a", "b"], &exports(1));
        }
    }
    // One item may have two names.
    assert_accepted(
        &["a", "b"],
        &[export(Function, 0, 1), export(Function, 1, 1)],
    );
}

#[test]
fn a_repeat_is_told_by_the_first_later_place() {
    let texts = ["a", "b", "a", "c"];
    assert_eq!(refused(&texts, &types(&[0, 0, 0])), [28, 0, 1]);
    assert_eq!(refused(&texts, &types(&[2, 0, 0])), [28, 0, 1]);
    assert_eq!(refused(&texts, &types(&[0, 1, 0, 1])), [28, 0, 2]);
    assert_eq!(refused(&texts, &types(&[0, 1, 1, 0])), [28, 0, 2]);
    assert_eq!(refused(&texts, &types(&[3, 1, 0, 3])), [28, 0, 3]);
    // Far apart, by number and by bytes.
    let many: Vec<String> = (0..300).map(|k| (k % 299).to_string()).collect();
    let many: Vec<&str> = many.iter().map(String::as_str).collect();
    let names: Vec<u32> = (0..299).collect();
    assert_accepted(&many, &types(&names));
    for last in [0, 299] {
        let names = [&names[..], &[last]].concat();
        assert_eq!(refused(&many, &types(&names)), [28, 0, 299]);
    }
}

#[test]
fn index_then_range_then_repeat_and_then_the_next_export() {
    let texts = ["a", "b"];
    let absent = export(Type, 9, 0);
    let wrong = export(Type, 0, 7);
    let both = export(Type, 9, 7);
    let [a, b] = [0, 1].map(|name| export(Type, name, 0));
    for (exports, expected) in [
        // Within one export.
        (&[both][..], [3, 1, 7]),
        (&[a, wrong], [3, 1, 7]),
        // Across exports.
        (&[absent, wrong], [27, 0, 9]),
        (&[wrong, absent], [3, 1, 7]),
        (&[a, a, absent], [28, 0, 1]),
        (&[a, absent, a], [27, 0, 9]),
        (&[absent, a, a], [27, 0, 9]),
        (&[a, a, wrong], [28, 0, 1]),
        (&[a, wrong, a], [3, 1, 7]),
        (&[a, b, a, both], [28, 0, 2]),
        // The number of the name, also where others are absent.
        (&[export(Function, 3, 0), absent], [27, 0, 3]),
        (&[export(Function, 2, 5), absent], [3, 2, 5]),
        (&[a, export(Global, 2, 6)], [3, 7, 6]),
    ] {
        assert_eq!(refused(&texts, exports), expected, "{exports:?}");
    }
}

/// Hooks and start come before every export.
#[test]
fn names_come_last() {
    let with = |start, hooks: &[_]| {
        let sheet = Sheet {
            start,
            hooks: hooks.to_vec(),
            ..sheet(&["a"], &types(&[9]))
        };
        answers(&sheet).map(|answer| answer.numbers[..3].to_vec())
    };
    let refused = |numbers: [u32; 3]| [numbers; 2].map(|n| n.to_vec());
    assert_eq!(with(Some(7), &[]), refused([3, 2, 7]));
    assert_eq!(with(None, &[hook_function(5, 0)]), refused([19, 0, 5]));
    let [first, second] = with(Some(0), &[]);
    assert_eq!((first[0], &second[..]), (0, &[27, 0, 9][..]));
}
