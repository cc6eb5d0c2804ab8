//! Worked examples on the editions: the chain limit of each, and what does not depend on the edition.

use compare::{answer, answer_plain};
use sheets::build::{strings, structure, user};
use sheets::{
    decode_hosts, decode_sheet, encode_hosts, encode_sheet, renumber, with_edition, Constant,
    Edition, Sheet, TypeEntry,
};

fn sheet(edition: Edition, types: Vec<TypeEntry>) -> Sheet {
    Sheet {
        edition,
        strings: strings(&[""]),
        types,
        ..Sheet::default()
    }
}

/// So many structs, each the parent of the next, the first with this parent; then a coroutine.
fn falling(structs: u32, top: Option<u32>) -> Vec<TypeEntry> {
    let parent = |t: u32| t.checked_sub(1).map_or(top, Some);
    let mut types: Vec<_> = (0..structs).map(|t| structure(parent(t), &[])).collect();
    types.push(TypeEntry::Coroutine);
    types
}

/// The kinds of such a chain, with the topmost first and with the lowest first.
fn kinds(edition: Edition, structs: u32, top: Option<u32>) -> [u32; 2] {
    let topmost_first = sheet(edition, falling(structs, top));
    let mut image: Vec<u32> = (0..structs).rev().collect();
    image.push(structs);
    let lowest_first = renumber(&topmost_first, &image);
    assert_eq!(lowest_first.edition, edition);
    [topmost_first, lowest_first].map(|sheet| answer_plain(&sheet, &[]).numbers[0])
}

#[test]
fn limits_are_256_and_64() {
    assert_eq!(Edition::ALL.map(Edition::most_on_chain), [256, 64]);
    for (structs, expected) in [
        (1, [0, 0]),
        (63, [0, 0]),
        (64, [0, 0]),
        (65, [0, 17]),
        (66, [0, 17]),
        (255, [0, 17]),
        (256, [0, 17]),
        (257, [17, 17]),
    ] {
        let found = Edition::ALL.map(|e| kinds(e, structs, None));
        assert_eq!(found, expected.map(|kind| [kind; 2]), "{structs}");
    }
}

#[test]
fn the_last_number_met_counts_whatever_it_is() {
    for (edition, structs) in [(Edition::First, 256), (Edition::Second, 64)] {
        // Absent, far out, and the coroutine.
        for top in [structs + 1, u32::MAX - 1, structs] {
            assert_eq!(kinds(edition, structs, Some(top)), [16, 17]);
            assert_eq!(kinds(edition, structs - 1, Some(top)), [16, 16]);
        }
    }
    // As many as the second edition has are few in the first.
    assert_eq!(kinds(Edition::First, 64, Some(99)), [16, 16]);
    assert_eq!(kinds(Edition::Second, 256, Some(999)), [16, 17]);
}

#[test]
fn circles_are_too_long_under_every_limit() {
    for edition in Edition::ALL {
        for structs in [1, 2, 64, 65, 256, 257] {
            assert_eq!(kinds(edition, structs, Some(structs - 1)), [17, 17]);
        }
    }
}

#[test]
fn other_editions_are_broken() {
    let empty = encode_sheet(&Sheet::default()).to_bytes();
    let hosts = encode_hosts(&[user("desk", "price")]).to_bytes();
    let numbers = |sheet: &[u8], hosts: &[u8]| answer(sheet, hosts, 200, 200).numbers;
    for (word, kind) in [(0, 1), (1, 0), (2, 0), (3, 1), (4, 1), (u32::MAX, 1)] {
        let sheet = with_edition(&empty, word);
        assert_eq!(numbers(&sheet, &hosts)[0], kind, "{word}");
        assert_eq!(decode_sheet(&sheet).is_some(), kind == 0, "{word}");
        // The first edition is the only one of a host list.
        let hosts = with_edition(&hosts, word);
        let kind = if word == 1 { 0 } else { 23 };
        assert_eq!(numbers(&empty, &hosts)[0], kind, "{word}");
        assert_eq!(decode_hosts(&hosts).is_some(), kind == 0, "{word}");
    }
}

#[test]
fn a_sheet_is_read_back_in_its_edition() {
    for edition in Edition::ALL {
        let sheet = sheet(edition, falling(3, None));
        let words = encode_sheet(&sheet);
        assert_eq!(words.words[0], edition.word());
        let read = decode_sheet(&words.to_bytes());
        assert_eq!(read, Some((sheet, words.words.len() as u32)));
    }
}

/// Constants nest to 64 in both, and tables and lengths are the same.
#[test]
fn nothing_else_depends_on_the_edition() {
    for (depth, kind) in [(64, 0), (65, 18)] {
        let nested = |k: u32| Constant::Array(k.checked_sub(1).into_iter().collect());
        let [first, second] = Edition::ALL.map(|edition| {
            let sheet = Sheet {
                constants: (0..=depth).map(nested).collect(),
                ..sheet(edition, falling(64, None))
            };
            answer_plain(&sheet, &[])
        });
        assert_eq!((first.numbers[0], &first), (kind, &second));
    }
    let [first, second] = Edition::ALL.map(|e| encode_sheet(&sheet(e, falling(65, Some(0)))));
    for len in [0, 151, 200] {
        let hosts = encode_hosts(&[]).to_bytes();
        let found = [&first, &second].map(|words| answer(&words.to_bytes(), &hosts, len, u32::MAX));
        assert_eq!(found.map(|a| a.numbers[0]), [24, 24]);
    }
}
