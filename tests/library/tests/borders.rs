//! Borders at 65,536 fields, registers, exports and imports, of 256 and of 64 types on a chain, of arguments of imports, of export names,
//! of 24, and of what is a linked table: the library is held to the reference, or in edition 2 to the format, just below, at and past
//! each.

use compare::{length_in, nearest_in, query, size_in};
use generator::{Case, Rng};
use sheets::build::{
    aw, export, func, function, import, listed, ret_void, strings, structure, user,
};
use sheets::{
    encode_hosts, encode_sheet, needed, op, with_edition, Edition, ExportKind, Function, Import,
    Sheet, TypeEntry, ValueType, DYN, STR,
};
use versus::{Checker, Library, Loader};

const BORDER: [usize; 3] = [65_535, 65_536, 65_537];

fn case(sheet: &Sheet) -> Case {
    let words = encode_sheet(sheet);
    let room = needed(words.words.len() as u32) as u32;
    Case {
        label: "border".to_string(),
        sheet: words.to_bytes(),
        hosts: encode_hosts(&[user("desk", "price")]).to_bytes(),
        table_len: room,
        work_len: room,
    }
}

/// The kind, word and number that the library and the reference agree on.
fn agreed(case: &Case) -> [u32; 3] {
    let mut checker = Checker::new(&Library);
    let same = checker.given(&mut Rng::new(1, 1), case);
    assert_eq!(same, Ok(()));
    let (answer, _) = loaded(case);
    [answer[0], answer[1], answer[2]]
}

/// The library's answer, and the table after it.
fn loaded(case: &Case) -> ([u32; 6], Vec<u32>) {
    let words = |n| vec![0; n as usize];
    let (mut table, mut work) = (words(case.table_len), words(case.work_len));
    let answer = Library.load(&case.sheet, &case.hosts, &mut table, &mut work);
    (answer, table)
}

fn fields(last: (u32, ValueType), count: usize) -> Sheet {
    let mut fields = vec![(0, DYN); count];
    fields[count - 1] = last;
    Sheet {
        strings: strings(&["slot"]),
        types: vec![structure(None, &fields)],
        ..Sheet::default()
    }
}

fn registers(register: u16, count: usize) -> Sheet {
    Sheet {
        types: vec![func(&[], &[])],
        functions: vec![function(
            &vec![DYN; count],
            &[aw(op::RET, 0, register, 0), ret_void()],
        )],
        ..Sheet::default()
    }
}

#[test]
fn fields_are_listed_up_to_the_last_slot() {
    for count in BORDER {
        assert_eq!(agreed(&case(&fields((0, DYN), count)))[0], 0);
        assert_eq!(agreed(&case(&fields((0, STR), count)))[0], 0);
    }
}

#[test]
fn names_are_read_up_to_slot_65_535() {
    for (count, expected) in BORDER.into_iter().zip([[3, 3], [3, 3], [0, 0]]) {
        assert_eq!(agreed(&case(&fields((7, DYN), count)))[..2], expected);
    }
}

#[test]
fn types_are_read_in_every_slot() {
    for count in BORDER {
        let typed = fields((0, ValueType::reference(9)), count);
        assert_eq!(agreed(&case(&typed)), [3, 1, 9]);
    }
}

#[test]
fn a_function_has_at_most_65_536_registers() {
    for (count, kind) in BORDER.into_iter().zip([0, 0, 3]) {
        assert_eq!(agreed(&case(&registers(0, count)))[0], kind);
    }
    assert_eq!(agreed(&case(&registers(65_535, 65_536)))[0], 0);
    assert_eq!(agreed(&case(&registers(65_535, 65_535))), [3, 5, 65_535]);
}

#[test]
fn one_word_too_few_is_short() {
    for sheet in [
        Sheet::default(),
        fields((0, DYN), 65_537),
        registers(0, 65_537),
    ] {
        let enough = case(&sheet);
        assert_ne!(agreed(&enough)[0], 24);
        for (table, work) in [(1, 0), (0, 1), (1, 1)] {
            let short = Case {
                table_len: enough.table_len - table,
                work_len: enough.work_len - work,
                ..case(&sheet)
            };
            assert_eq!(agreed(&short)[0], 24);
        }
    }
}

/// Types without members, each with the parent that is given for its number, and a type that is no struct.
fn forest(edition: Edition, structs: u32, parent: impl Fn(u32) -> Option<u32>) -> Sheet {
    let mut types: Vec<_> = (0..structs).map(|t| structure(parent(t), &[])).collect();
    types.push(TypeEntry::Coroutine);
    Sheet {
        edition,
        strings: strings(&[""]),
        types,
        ..Sheet::default()
    }
}

/// A chain whose root is the first, and one whose root is the last, the root with this parent.
fn chains(edition: Edition, structs: u32, top: Option<u32>) -> [Sheet; 2] {
    let rising = |t: u32| t.checked_sub(1).or(top);
    let falling = |t: u32| if t + 1 < structs { Some(t + 1) } else { top };
    [
        forest(edition, structs, rising),
        forest(edition, structs, falling),
    ]
}

#[test]
fn a_chain_has_at_most_256_types_or_64() {
    let lengths = [1, 2, 63, 64, 65, 66, 255, 256, 257];
    for (edition, most) in [(Edition::First, 256), (Edition::Second, 64)] {
        for structs in lengths {
            let kind = if structs > most { 17 } else { 0 };
            for sheet in chains(edition, structs, None) {
                assert_eq!(agreed(&case(&sheet))[0], kind, "{edition:?}, {structs}");
            }
        }
        // The last number met counts: absent, or no struct.
        for top in [most + 1, most] {
            let kinds = chains(edition, most, Some(top)).map(|sheet| agreed(&case(&sheet))[0]);
            assert_eq!(kinds, [16, 17], "{edition:?}");
            let kinds = chains(edition, most - 1, Some(top)).map(|sheet| agreed(&case(&sheet))[0]);
            assert_eq!(kinds, [16, 16], "{edition:?}");
        }
        let own_parent = forest(edition, 1, |_| Some(0));
        assert_eq!(agreed(&case(&own_parent))[0], 17, "{edition:?}");
    }
}

#[test]
fn sheets_have_two_editions_and_host_lists_one() {
    for (word, kinds) in [(0, [1, 23]), (1, [0, 0]), (2, [0, 23]), (3, [1, 23])] {
        let mut other = case(&Sheet::default());
        other.sheet = with_edition(&other.sheet, word);
        let mut list = case(&Sheet::default());
        list.hosts = with_edition(&list.hosts, word);
        assert_eq!([other, list].map(|case| agreed(&case)[0]), kinds, "{word}");
    }
}

/// What is agreed on where a type is exported under each of these names; edition 1 reads none.
fn exported(texts: &[&str], names: &[u32]) -> [u32; 3] {
    let exports = names.iter().map(|&name| export(ExportKind::Type, name, 0));
    let sheet = Sheet {
        strings: strings(texts),
        types: vec![TypeEntry::Coroutine],
        exports: exports.collect(),
        ..Sheet::default()
    };
    let mut case = case(&sheet);
    assert_eq!(agreed(&case)[0], 0);
    case.sheet = with_edition(&case.sheet, Edition::Second.word());
    agreed(&case)
}

#[test]
fn an_export_is_named_by_a_string() {
    for count in [1, 2, 126, 127, 128] {
        let texts: Vec<String> = (0..count).map(|k| k.to_string()).collect();
        let texts: Vec<&str> = texts.iter().map(String::as_str).collect();
        assert_eq!(exported(&texts, &[0])[0], 0);
        assert_eq!(exported(&texts, &[count - 1])[0], 0);
        for name in [count, count + 1, 1 << 31, u32::MAX] {
            assert_eq!(exported(&texts, &[0, name]), [27, 0, name]);
        }
    }
    assert_eq!(exported(&[], &[0]), [27, 0, 0]);
}

#[test]
fn export_names_are_told_apart_by_their_bytes() {
    let long = |end: &str| "x".repeat(2_000) + end;
    let [y, z, same] = ["y", "z", "y"].map(long);
    for [a, b] in [["", "\0"], ["a", "a\0"], ["abcd", "abcde"], [&y, &z]] {
        assert_eq!(exported(&[a, b], &[0, 1])[0], 0);
        assert_eq!(exported(&[a, b], &[1, 0])[0], 0);
        assert_eq!(exported(&[a, b, a], &[0, 1, 2]), [28, 0, 2]);
    }
    assert_eq!(exported(&[&y, &same], &[0, 1]), [28, 0, 1]);
    assert_eq!(exported(&["", ""], &[1, 0]), [28, 0, 1]);
    assert_eq!(exported(&["a"], &[0, 0, 0]), [28, 0, 1]);
}

#[test]
fn repeats_are_found_however_far_apart() {
    for count in BORDER {
        let texts: Vec<String> = (0..count).map(|k| format!("{k:x}")).collect();
        let mut texts: Vec<&str> = texts.iter().map(String::as_str).collect();
        let own: Vec<u32> = (0..count as u32).rev().collect();
        let after = |name| [&own[..], &[name]].concat();
        assert_eq!(exported(&texts, &own)[0], 0);
        let place = count as u32;
        for name in [0, own[0]] {
            assert_eq!(exported(&texts, &after(name)), [28, 0, place]);
        }
        assert_eq!(exported(&texts, &after(place)), [27, 0, place]);
        // The first name's bytes once more.
        texts.push(texts[count - 1]);
        assert_eq!(exported(&texts, &after(place)), [28, 0, place]);
    }
}

/// Imports of n dyn, of which the first r are mandatory, and a function of so many registers with these calls: import, A and D.
fn calling(imports: &[(usize, usize)], regs: usize, calls: &[(u32, u16, u8)]) -> Sheet {
    let mut sheet = Sheet {
        strings: strings(&["desk", "price"]),
        types: vec![func(&[], &[])],
        ..Sheet::default()
    };
    for &(r, n) in imports {
        let own = func(&vec![DYN; n], &[]);
        if sheet.types.last() != Some(&own) {
            sheet.types.push(own);
        }
        sheet.imports.push(Import {
            params: listed(&[vec![0; r], vec![2; n - r]].concat()),
            ..import(0, 1, sheet.types.len() as u32 - 1)
        });
    }
    let call = |&(import, a, d): &_| aw(op::CALL_IMPORT, d, a, import);
    let mut code: Vec<u64> = calls.iter().map(call).collect();
    code.push(ret_void());
    sheet.functions = vec![function(&vec![DYN; regs], &code)];
    sheet
}

/// What is agreed on in each edition.
fn in_each(sheet: &Sheet) -> [[u32; 3]; 2] {
    let [mut first, mut second] = [case(sheet), case(sheet)];
    first.sheet = with_edition(&first.sheet, Edition::First.word());
    second.sheet = with_edition(&second.sheet, Edition::Second.word());
    [first, second].map(|case| {
        let [kind, word, number] = agreed(&case);
        [kind, word, if kind == 0 { 0 } else { number }]
    })
}

/// What is to be said of so many arguments where from r to n are right.
fn arity((r, n): (usize, usize), d: u8) -> [u32; 3] {
    match usize::from(d) {
        found if found < r => [8, 0, r as u32],
        found if found > n => [8, 0, n as u32],
        _ => [0; 3],
    }
}

#[test]
fn an_import_takes_its_mandatory_arguments_to_all() {
    for n in [0usize, 1, 2, 3, 126, 127, 128, 254, 255, 256, 257, 300] {
        for r in [0, 1, 2, n / 2, n.saturating_sub(1), n] {
            let r = r.min(n);
            for d in [0, 1, r, r + 1, n, n + 1, 254, 255].map(|d| d.min(255) as u8) {
                let sheet = calling(&[(r, n)], 257, &[(0, 0, d)]);
                let expected = [(n, n), (r, n)].map(|counts| arity(counts, d));
                assert_eq!(in_each(&sheet), expected, "{r} to {n}: {d}");
            }
        }
    }
}

#[test]
fn long_lists_are_counted_whole() {
    for r in BORDER {
        for d in [0, 1, 255] {
            let sheet = calling(&[(r, r + 1)], 256, &[(0, 0, d)]);
            let [all, mandatory] = [r + 1, r].map(|n| [8, 0, n as u32]);
            assert_eq!(in_each(&sheet), [all, mandatory]);
        }
        let sheet = calling(&[(0, r)], 1, &[(0, 0, 0)]);
        assert_eq!(in_each(&sheet), [[8, 0, r as u32], [0; 3]]);
    }
}

#[test]
fn a_window_ends_with_its_arguments() {
    for (a, d, last) in [
        (65_534, 1, 65_535),
        (65_535, 1, 65_536),
        (65_535, 0, 65_535),
    ] {
        let sheet = calling(&[(0, 2)], 65_536, &[(0, a, d)]);
        let past = [3, 5, last];
        let expected = if last > 65_535 {
            [past; 2]
        } else {
            [[8, 0, 2], [0; 3]]
        };
        assert_eq!(in_each(&sheet), expected, "{a}, {d}");
    }
    // Too many in number too.
    assert_eq!(
        in_each(&calling(&[(0, 2)], 3, &[(0, 0, 3)])),
        [[3, 5, 3]; 2]
    );
}

/// Each import has a count of its own, however many there are.
#[test]
fn many_imports_have_their_own_counts() {
    for count in BORDER {
        let imports: Vec<_> = (0..count).map(|i| (i % 3 % 2, 1)).collect();
        let last = count as u32 - 1;
        let places = [0, 1, 2, last / 2, last - 2, last - 1, last];
        let fewest = |i: u32| imports[i as usize].0 as u8;
        let all_fewest: Vec<_> = places.iter().map(|&i| (i, 0, fewest(i))).collect();
        let sheet = calling(&imports, 2, &all_fewest);
        assert_eq!(in_each(&sheet), [[8, 0, 1], [0; 3]]);
        for i in places.into_iter().filter(|&i| fewest(i) == 1) {
            let sheet = calling(&imports, 2, &[&all_fewest[..], &[(i, 0, 0)]].concat());
            assert_eq!(in_each(&sheet), [[8, 0, 1]; 2]);
        }
        let sheet = calling(
            &imports,
            2,
            &[&all_fewest[..], &[(last + 1, 0, 0)]].concat(),
        );
        assert_eq!(in_each(&sheet)[1], [3, 6, last + 1]);
    }
}

/// What is counted of imports is not mixed with what is counted of functions, however many there are of either.
#[test]
fn arguments_and_captures_are_told_apart() {
    for (imports, functions) in [(3, 5_000), (5_000, 3), (5_000, 5_000)] {
        let counts: Vec<_> = (0..imports).map(|i| (i % 3, 2)).collect();
        let calls: Vec<_> = (0..imports).map(|i| (i as u32, 0, (i % 3) as u8)).collect();
        let mut sheet = calling(&counts, 5, &calls);
        let closed = |k: usize| Function {
            captures: vec![DYN; k % 4],
            ..function(&[], &[ret_void()])
        };
        sheet.functions.extend((0..functions).map(closed));
        // The captures of the last function end with the frame, or one register past it.
        let made = |a| aw(op::MAKE_CLOSURE, 0, a, functions as u32);
        let last = (functions - 1) % 4;
        let code = &mut sheet.functions[0].code;
        let at = code.len() - 1;
        code.splice(at..at, [made(4 - last as u16), ret_void()]);
        assert_eq!(in_each(&sheet), [[8, 0, 2], [0; 3]]);
        sheet.functions[0].code[at + 1] = made(5 - last as u16);
        assert_eq!(in_each(&sheet)[1], [3, 5, 5]);
        sheet.functions[0].code[at + 1] = aw(op::CALL_IMPORT, 0, 0, 2);
        assert_eq!(in_each(&sheet)[1], [8, 0, 2]);
    }
}

#[test]
fn chains_have_their_lengths() {
    let accepted = [
        (Edition::First, [1, 2, 255, 256]),
        (Edition::Second, [1, 2, 63, 64]),
    ];
    let each = |(edition, lengths): (_, [u32; 4])| lengths.map(|structs| (edition, structs));
    for (edition, structs) in accepted.into_iter().flat_map(each) {
        let [rising, falling] = chains(edition, structs, None);
        let [(_, up), (_, down)] = [&rising, &falling].map(|sheet| loaded(&case(sheet)));
        for t in 0..structs {
            assert_eq!(Library.chain_length(&up, t), [0, t + 1]);
            assert_eq!(Library.chain_length(&down, t), [0, structs - t]);
        }
        for t in [structs, structs + 1, structs + 2, u32::MAX] {
            assert_eq!(Library.chain_length(&up, t), [0, 0]);
        }
    }
}

/// A table of these words from the spans' count on, which stands at this place.
fn lent(start: usize, count: u32, spans: &[u32]) -> Vec<u32> {
    let mut table = vec![7; start];
    (table[0], table[9]) = (2, start as u32);
    table.push(count);
    table.extend(spans);
    table[1] = table.len() as u32;
    table
}

/// Every query gives 25 where this is no linked table, and else what its definition says, of known and unknown numbers.
fn assert_linked(table: &[u32], linked: bool) {
    for t in [0, 1, 2, 3, 1 << 31, u32::MAX] {
        let length = Library.chain_length(table, t);
        assert_eq!(length, length_in(table, t), "{t}: {table:?}");
        assert_eq!(length[0], if linked { 0 } else { 25 }, "{t}: {table:?}");
        assert_eq!(
            Library.family_size(table, t),
            size_in(table, t),
            "{t}: {table:?}"
        );
        for u in [0, 1, u32::MAX] {
            assert_eq!(
                Library.descends(table, t, u),
                query(table, t, u),
                "{t}, {u}: {table:?}"
            );
            assert_eq!(
                Library.nearest(table, t, u),
                nearest_in(table, t, u),
                "{t}, {u}: {table:?}"
            );
        }
    }
}

/// Two spans and a third word that no load writes.
const SPANS: [u32; 6] = [0, 2, 9, 1, 2, u32::MAX];

#[test]
fn a_table_begins_with_2() {
    let mut table = lent(10, 2, &SPANS);
    for first in [0, 1, 2, 3, 4, 1 << 31, u32::MAX] {
        table[0] = first;
        assert_linked(&table, first == 2);
    }
}

#[test]
fn spans_have_three_words() {
    for start in [10, 11, 40] {
        for words in 0..=SPANS.len() {
            for count in 0..=3 {
                let table = lent(start, count, &SPANS[..words]);
                assert_linked(&table, 3 * count as usize <= words);
            }
        }
        // One word too short, by its own word, by the slice, and by both; words behind it do not matter.
        let table = lent(start, 2, &SPANS);
        assert_linked(&table[..table.len() - 1], false);
        assert_linked(&[&table[..], &[0; 3]].concat(), true);
        let mut short = table.clone();
        short[1] -= 1;
        assert_linked(&short, false);
        assert_linked(&short[..short.len() - 1], false);
    }
    // Two words a span, as a first word of 1 says, or behind a 2.
    let mut pairs = lent(10, 2, &[0, 2, 1, 2]);
    for first in [1, 2] {
        pairs[0] = first;
        assert_linked(&pairs, false);
    }
}

#[test]
fn counts_do_not_wrap() {
    let third = 1_431_655_765;
    let counts = [
        third - 1,
        third,
        third + 1,
        third + 2,
        third + 3,
        1 << 30,
        (1 << 31) - 1,
        1 << 31,
        (1 << 31) + 1,
    ];
    // Three times these is 1 and 4 in 32 bits.
    let two_thirds = [2_863_311_531, 2_863_311_532];
    for count in counts
        .into_iter()
        .chain(two_thirds)
        .chain([u32::MAX - 1, u32::MAX])
    {
        for start in [10, 11, 40] {
            assert_linked(&lent(start, count, &SPANS), false);
            assert_linked(&lent(start, count, &[0; 300]), false);
        }
    }
}
