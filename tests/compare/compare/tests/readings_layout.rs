//! Worked examples on blocks, layout, host lists and lengths, numbered as in docs/DECISIONS.md.

use compare::{answer, answer_plain};
use sheets::build::{abc, aw, func, function, ret_void, scheduler, strings, user};
use sheets::{
    check_word, encode_hosts, encode_sheet, op, refit, write_blocks, Edition, Function, HostEntry,
    Role, ShapeEntry, Sheet, DYN,
};

fn kind(sheet: &[u8], hosts: &[u8]) -> u32 {
    answer(sheet, hosts, u32::MAX, u32::MAX).numbers[0]
}

fn no_hosts() -> Vec<u8> {
    encode_hosts(&[]).to_bytes()
}

fn empty() -> Vec<u8> {
    encode_sheet(&Sheet::default()).to_bytes()
}

/// A sheet of exactly this many words, filled by one string.
fn of_words(n: usize) -> Sheet {
    Sheet {
        strings: vec![vec![b'x'; 4 * (n - 12)]],
        ..Sheet::default()
    }
}

/// A sheet that has every list.
fn every_list() -> Sheet {
    use sheets::build::{hook_function, import};
    use sheets::{Constant, Export, ExportKind, Global, TypeEntry};
    Sheet {
        edition: Edition::First,
        strings: strings(&["abc"]),
        types: vec![func(&[DYN], &[DYN]), TypeEntry::Array(DYN)],
        constants: vec![Constant::Plain(1, 2)],
        imports: vec![import(0, 0, 0)],
        globals: vec![Global {
            ty: DYN,
            init: None,
        }],
        functions: vec![function(&[DYN], &[aw(op::RET, 0, 0, 0)])],
        hooks: vec![hook_function(0, 0)],
        start: None,
        exports: vec![Export {
            kind: ExportKind::Type,
            name: 0,
            index: 1,
        }],
    }
}

#[test]
fn check_words() {
    let mut block = empty();
    assert_eq!(check_word(0, &block), 56);
    // 1.2: equal as a whole word, not congruent.
    block[508..].copy_from_slice(&(56u32 + 65521).to_le_bytes());
    assert_eq!(kind(&block, &no_hosts()), 1);
    // Blocks that change places keep their bytes but not their numbers.
    let two = encode_sheet(&of_words(200)).to_bytes();
    let swapped = [&two[512..], &two[..512]].concat();
    assert_eq!(kind(&two, &no_hosts()), 0);
    assert_eq!(kind(&swapped, &no_hosts()), 1);
}

#[test]
fn length_ends_in_the_last_block() {
    for (n, blocks) in [(127, 1), (128, 2), (254, 2), (255, 3)] {
        let bytes = encode_sheet(&of_words(n)).to_bytes();
        assert_eq!(bytes.len(), blocks * 512);
        assert_eq!(kind(&bytes, &no_hosts()), 0, "N = {n}");
        // 1.3: one more block of zeros.
        let mut more = [bytes, vec![0; 512]].concat();
        refit(&mut more);
        assert_eq!(kind(&more, &no_hosts()), 1, "N = {n}");
    }
    let mut after_the_end = encode_sheet(&of_words(126)).words;
    after_the_end.push(1);
    assert_eq!(kind(&write_blocks(&after_the_end), &no_hosts()), 1);
    // Words that the lists do not fill.
    let mut unread = encode_sheet(&of_words(100)).words;
    unread.push(0);
    unread[1] += 1;
    assert_eq!(kind(&write_blocks(&unread), &no_hosts()), 1);
}

#[test]
fn block_counts() {
    let most = encode_sheet(&of_words(4096 * 127)).to_bytes();
    assert_eq!(most.len(), 4096 * 512);
    assert_eq!(kind(&most, &no_hosts()), 0);
    let more = encode_sheet(&of_words(4096 * 127 + 1)).to_bytes();
    assert_eq!(kind(&more, &no_hosts()), 1);
    assert_eq!(kind(&[], &no_hosts()), 1);
    assert_eq!(kind(&empty()[..511], &no_hosts()), 1);
    assert_eq!(kind(&[empty(), vec![0]].concat(), &no_hosts()), 1);
}

#[test]
fn hostile_counts() {
    // 1.4: any count or string length made huge stops at N.
    let words = encode_sheet(&every_list());
    for (at, role) in words.roles.iter().enumerate() {
        if matches!(role, Role::Count | Role::StringLength) {
            for huge in [u32::MAX, u32::MAX - 3, 1 << 31, 1 << 30, 0xffff] {
                let mut damaged = words.words.clone();
                damaged[at] = huge;
                assert_eq!(kind(&write_blocks(&damaged), &no_hosts()), 1, "word {at}");
            }
        }
    }
}

#[test]
fn unlisted_codes() {
    // 1.7: every code of every list, one past its last.
    let words = encode_sheet(&every_list());
    let hosts = encode_hosts(&[user("abc", "abc")]).to_bytes();
    assert_eq!(kind(&words.to_bytes(), &hosts), 0);
    let mut tried = 0;
    for (at, role) in words.roles.iter().enumerate() {
        let unlisted: &[u32] = match role {
            Role::Edition => &[0, 3, u32::MAX],
            Role::TypeKind => &[7, 255, u32::MAX],
            Role::ConstantKind => &[4, u32::MAX],
            Role::ValueType => &[13, 14, 15],
            Role::Present | Role::CalleeKind => &[2, u32::MAX],
            Role::HookNumber => &[31, 32, u32::MAX],
            Role::ExportKind => &[3, u32::MAX],
            Role::Code => &[35, 255],
            Role::StringTail => &[0xff63_6261],
            _ => &[],
        };
        for &code in unlisted {
            let mut damaged = words.words.clone();
            damaged[at] = code;
            assert_eq!(kind(&write_blocks(&damaged), &hosts), 1, "{role:?} {code}");
            tried += 1;
        }
    }
    assert!(tried >= 30);
}

#[test]
fn d_is_no_code() {
    let types = vec![func(&[], &[])];
    let with = |inst| Sheet {
        types: types.clone(),
        functions: vec![function(&[DYN], &[inst, ret_void()])],
        ..Sheet::default()
    };
    let numbers = |inst| answer_plain(&with(inst), &[]).numbers;
    assert_eq!(numbers(abc(op::FROM_DYN, 200, 0, 0, 0))[0], 0);
    assert_eq!(numbers(abc(op::I_ADD, 200, 0, 0, 0))[0], 0);
    let modifier = [12, 0, 0, 0, 1, 1];
    assert_eq!(numbers(abc(op::RAISE, 200, 0, 0, 0)), modifier);
    assert_eq!(numbers(abc(op::FLOAT_TO_BITS, 0, 0, 0, 0)), modifier);
    // 1.8: a Raise that cannot be caught reaches rule 7.
    assert_eq!(numbers(abc(op::RAISE, 11, 0, 0, 0))[0], 0);
    assert_eq!(numbers(abc(op::RAISE, 12, 0, 0, 0)), modifier);
    for d in 0..=255u8 {
        let ok = matches!(d, 3 | 4 | 7 | 8);
        for code in [op::FLOAT_TO_BITS, op::BITS_TO_FLOAT] {
            let expected = if ok { 0 } else { 12 };
            assert_eq!(numbers(abc(code, d, 0, 0, 0))[0], expected, "D = {d}");
        }
        let expected = if d == 13 { 12 } else { 0 };
        assert_eq!(
            numbers(abc(op::FROM_DYN, d, 0, 0, 0))[0],
            expected,
            "D = {d}"
        );
    }
}

#[test]
fn shape_names_are_read_for_kind_1_only() {
    // 1.5: the name word stands there for every kind.
    let with = |kind| Sheet {
        types: vec![func(&[], &[])],
        functions: vec![Function {
            shapes: vec![vec![ShapeEntry {
                kind,
                name: u32::MAX,
            }]],
            ..function(&[], &[ret_void()])
        }],
        ..Sheet::default()
    };
    let numbers = |kind| answer_plain(&with(kind), &[]).numbers;
    assert_eq!(numbers(0)[0], 0);
    assert_eq!(numbers(2)[0], 0);
    assert_eq!(numbers(1), [22, 0, 0, 0, 1, 0]);
    assert_eq!(numbers(3), [22, 0, 0, 0, 1, 0]);
}

#[test]
fn host_lists() {
    let hosts = |entries: &[HostEntry]| kind(&empty(), &encode_hosts(entries).to_bytes());
    let list = encode_hosts(&[]);
    assert_eq!(list.words, [1, 3, 0]);
    assert_eq!(check_word(0, &list.to_bytes()), 16);
    assert_eq!(hosts(&[]), 0);
    assert_eq!(kind(&empty(), &[]), 23);
    // 1.9: pairs as pairs, whatever their kinds.
    assert_eq!(hosts(&[user("a", "b"), user("a", "b")]), 23);
    assert_eq!(hosts(&[user("a", "b"), scheduler("a", "b")]), 23);
    assert_eq!(hosts(&[user("ab", "c"), user("a", "bc")]), 0);
    assert_eq!(hosts(&[user("", "abc"), user("abc", "")]), 0);
    let mut words = encode_hosts(&[user("a", "b")]).words;
    *words.last_mut().expect("the kind") = 2;
    assert_eq!(kind(&empty(), &write_blocks(&words)), 23);
    // The sheet is judged first.
    assert_eq!(kind(&[], &[]), 1);
}

#[test]
fn lengths() {
    // 1.10: by the given lengths only; the host list's own length does not matter.
    let long: Vec<_> = (0..40).map(|i| user("module", &i.to_string())).collect();
    let long = encode_hosts(&long).to_bytes();
    for hosts in [no_hosts(), long] {
        let kind = |table, work| answer(&empty(), &hosts, table, work).numbers;
        assert_eq!(kind(152, 152), [0, 0, 49, 0, 0, 0]);
        assert_eq!(kind(151, 152), [24, 0, 0, 0, 0, 0]);
        assert_eq!(kind(152, 151), [24, 0, 0, 0, 0, 0]);
        assert_eq!(kind(0, 0)[0], 24);
    }
    // 1, 23, 24, then the rules.
    assert_eq!(answer(&[], &[], 0, 0).numbers[0], 1);
    assert_eq!(answer(&empty(), &[], 0, 0).numbers[0], 23);
    let refused = Sheet {
        start: Some(0),
        ..Sheet::default()
    };
    let refused = encode_sheet(&refused).to_bytes();
    assert_eq!(answer(&refused, &no_hosts(), 151, 152).numbers[0], 24);
    let start = [3, 2, 0, 0, 0, 0];
    assert_eq!(answer(&refused, &no_hosts(), 152, 152).numbers, start);
}
