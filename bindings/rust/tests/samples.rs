//! The library on the samples, on chains, exports and calls of both editions, and on wrong words.

use paqlluri::{
    chain_length, count_structs, load, nearest, raw, table_words, work_words, BrokenLayout, FuncId,
    Linked, LoadError, LoadErrorKind, NotLinked, StrId, TypeId, What, MOST_WORDS,
};

const EMPTY: &[u8] = include_bytes!("../../../samples/empty.sheet");
const LIFTS: &[u8] = include_bytes!("../../../samples/lifts.sheet");
const SELF_PARENT: &[u8] = include_bytes!("../../../samples/self-parent.sheet");
const LONGEST_CHAIN: &[u8] = include_bytes!("../../../samples/longest-chain.sheet");
const CHAIN_TOO_LONG: &[u8] = include_bytes!("../../../samples/chain-too-long.sheet");
const EXPORT_NAME_MISSING: &[u8] = include_bytes!("../../../samples/export-name-missing.sheet");
const EXPORT_TWICE: &[u8] = include_bytes!("../../../samples/export-twice.sheet");
const SURCHARGE_LEFT_OUT: &[u8] = include_bytes!("../../../samples/surcharge-left-out.sheet");
const SURCHARGE_MISSING: &[u8] = include_bytes!("../../../samples/surcharge-missing.sheet");
const SURCHARGE_TWICE: &[u8] = include_bytes!("../../../samples/surcharge-twice.sheet");
const HOSTS: &[u8] = include_bytes!("../../../samples/hosts");
const README: &str = include_str!("../../../README.md");

/// Words that neither a table nor a cleared work slice has.
const BEFORE: u32 = 0xa5a5_a5a5;

/// These words in blocks with their check words.
fn blocks(words: &[u32]) -> Vec<u8> {
    let mut bytes = Vec::new();
    for (number, part) in (0..).zip(words.chunks(127)) {
        let mut own: Vec<u8> = part.iter().flat_map(|w| w.to_le_bytes()).collect();
        own.resize(508, 0);
        let sum: u32 = (1..).zip(&own).map(|(k, &b)| k * u32::from(b)).sum();
        bytes.extend(own);
        bytes.extend(((number + sum) % 65521).to_le_bytes());
    }
    bytes
}

/// An empty host list; load takes it in edition 1.
fn no_hosts(edition: u32) -> Vec<u8> {
    blocks(&[edition, 3, 0])
}

/// One empty string, and structs without members named by it, each the parent of the next.
fn chain(edition: u32, types: u32) -> Vec<u8> {
    let mut words = vec![edition, 12 + 5 * types, 1, 0, types];
    for parent in 0..types {
        words.extend([1, 0, parent, 0, 0]);
    }
    words.extend([0; 7]);
    blocks(&words)
}

/// The verdict in slices of so many words, and the slices after it.
fn tried(sheet: &[u8], hosts: &[u8], words: usize) -> (Result<usize, LoadError>, [Vec<u32>; 2]) {
    let (mut table, mut work) = (vec![BEFORE; words], vec![BEFORE; words]);
    let verdict = load(sheet, hosts, &mut table, &mut work).map(|linked| linked.words().len());
    (verdict, [table, work])
}

fn kind(verdict: Result<usize, LoadError>) -> LoadErrorKind {
    verdict.expect_err("refused").kind()
}

#[test]
fn the_lifts_are_accepted_and_have_families() {
    let words = table_words(LIFTS.len());
    let (verdict, [table, work]) = tried(LIFTS, HOSTS, words);
    assert_eq!(verdict, Ok(174));
    assert!(table[174..].iter().all(|&w| w == BEFORE));
    assert!(work.iter().all(|&w| w == 0));
    let linked = Linked::from_words(&table).expect("a linked table");
    assert_eq!(linked.words(), &table[..174]);
    // Lift; PassengerLift and GoodsLift below it; HydraulicGoodsLift below GoodsLift; func types.
    let parents = [None, Some(0), Some(0), Some(2)];
    for t in 0..9 {
        for a in 0..9 {
            let mut above = (t < 4).then_some(t);
            while above.is_some_and(|n| n != a) {
                above = above.and_then(|n| parents[n as usize]);
            }
            let declared = above.is_some();
            assert_eq!(
                linked.descends(TypeId(t), TypeId(a)),
                declared,
                "{t} from {a}"
            );
        }
    }
    assert!(!linked.descends(TypeId(u32::MAX), TypeId(u32::MAX)));
}

#[test]
fn the_lifts_families_have_sizes() {
    let (_, [mut table, _]) = tried(LIFTS, HOSTS, table_words(LIFTS.len()));
    let expected = [4, 1, 2, 1, 0, 0, 0, 0, 0];
    let linked = Linked::from_words(&table).expect("a linked table");
    for (a, size) in (0..).zip(expected) {
        assert_eq!(linked.family_size(TypeId(a)), size, "{a}");
        assert_eq!(raw::family_size(&table, a), [0, size], "{a}");
        // As many as descend from it by the other query.
        let below = (0..9).filter(|&t| linked.descends(TypeId(t), TypeId(a)));
        assert_eq!(below.count(), size as usize, "{a}");
    }
    assert_eq!(linked.family_size(TypeId(u32::MAX)), 0);
    // Lift is the only root.
    assert_eq!(count_structs(LIFTS), Ok(linked.family_size(TypeId(0))));
    for words in [&[][..], &table[..9], &table[..173], &table[1..]] {
        assert_eq!(raw::family_size(words, 0), [25, 0]);
        assert_eq!(raw::family_size(words, u32::MAX), [25, 0]);
    }
    // Post of Lift below its pre, on words that no load wrote.
    let pre = table[9] as usize + 1;
    table[pre] = 5;
    assert_eq!(raw::family_size(&table, 0), [0, 0]);
    assert_eq!(raw::family_size(&table, 2), [0, 2]);
}

/// By all three calls where the words are a linked table.
fn assert_length(words: &[u32], t: u32, expected: Result<u32, NotLinked>) {
    let numbers = expected.map_or([25, 0], |length| [0, length]);
    assert_eq!(raw::chain_length(words, t), numbers, "{t}");
    assert_eq!(chain_length(words, TypeId(t)), expected, "{t}");
    let linked = Linked::from_words(words);
    assert_eq!(linked.map(|l| l.chain_length(TypeId(t))), expected, "{t}");
}

#[test]
fn the_lifts_have_chain_lengths() {
    let (_, [mut table, _]) = tried(LIFTS, HOSTS, table_words(LIFTS.len()));
    // Func types, and no types.
    let others = [4, 5, 6, 7, 8, 1 << 31, u32::MAX].map(|t| (t, 0));
    for (t, length) in [(0, 1), (1, 2), (2, 2), (3, 3)].into_iter().chain(others) {
        assert_length(&table, t, Ok(length));
        assert_length(&table[..174], t, Ok(length));
    }
    for words in [&[][..], &table[..9], &table[..173], &table[1..]] {
        assert_length(words, 3, Err(NotLinked));
        assert_length(words, u32::MAX, Err(NotLinked));
    }
    // On words that no load wrote it is what stands there, and no other query reads it.
    let third = table[9] as usize + 3;
    for word in [0, 257, u32::MAX] {
        table[third] = word;
        assert_length(&table, 0, Ok(word));
        assert_length(&table, 1, Ok(2));
        assert_nearest(&table, [3, 1], Ok(Some(0)));
        assert_eq!(raw::family_size(&table, 0), [0, 4]);
        assert_eq!(raw::descends(&table, 3, 0), 1);
    }
}

/// The table with two words a span, behind this first word.
fn without_lengths(table: &[u32], first: u32) -> Vec<u32> {
    let (before, spans) = table.split_at(table[9] as usize + 1);
    let pairs = spans.chunks(3).flat_map(|span| &span[..2]);
    let mut words: Vec<u32> = before.iter().chain(pairs).copied().collect();
    (words[0], words[1]) = (first, words.len() as u32);
    words
}

#[test]
fn tables_of_another_format_are_none() {
    let (_, [table, _]) = tried(LIFTS, HOSTS, table_words(LIFTS.len()));
    let mut others = [1, 2, 3]
        .map(|first| without_lengths(&table[..174], first))
        .to_vec();
    assert!(others.iter().all(|words| words.len() == 167));
    for first in [0, 1, 3] {
        others.push([&[first], &table[1..]].concat());
    }
    for words in others {
        for t in [0, 3, 99] {
            assert_length(&words, t, Err(NotLinked));
            assert_nearest(&words, [t, 0], Err(NotLinked));
            assert_eq!(raw::family_size(&words, t), [25, 0]);
            assert_eq!(raw::descends(&words, t, 0), 25);
        }
    }
    assert_eq!(NotLinked.to_string(), "not a linked table");
}

/// A pair in both orders, by all three calls where the words are a linked table.
fn assert_nearest(words: &[u32], [t, u]: [u32; 2], expected: Result<Option<u32>, NotLinked>) {
    let numbers = match expected {
        Ok(Some(family)) => [0, family],
        Ok(None) => [1, 0],
        Err(NotLinked) => [25, 0],
    };
    let family = expected.map(|family| family.map(TypeId));
    for (t, u) in [(t, u), (u, t)] {
        assert_eq!(raw::nearest(words, t, u), numbers, "{t} and {u}");
        let (t, u) = (TypeId(t), TypeId(u));
        assert_eq!(nearest(words, t, u), family, "{t:?} and {u:?}");
        let linked = Linked::from_words(words);
        assert_eq!(linked.map(|l| l.nearest(t, u)), family, "{t:?} and {u:?}");
    }
}

#[test]
fn the_lifts_have_nearest_families() {
    let (_, [table, _]) = tried(LIFTS, HOSTS, table_words(LIFTS.len()));
    let expected = [[0, 0, 0, 0], [0, 1, 0, 0], [0, 0, 2, 2], [0, 0, 2, 3]];
    for (t, families) in (0..).zip(expected) {
        for (u, family) in (0..).zip(families) {
            assert_nearest(&table, [t, u], Ok(Some(family)));
            assert_nearest(&table[..174], [t, u], Ok(Some(family)));
        }
        // Func types, and no types.
        for u in [4, 5, 6, 7, 8, 1 << 31, u32::MAX] {
            assert_nearest(&table, [t, u], Ok(None));
            assert_nearest(&table, [u, u], Ok(None));
        }
    }
    for words in [&[][..], &table[..9], &table[..173], &table[1..]] {
        assert_nearest(words, [0, 0], Err(NotLinked));
        assert_nearest(words, [3, u32::MAX], Err(NotLinked));
    }
}

#[test]
fn nearest_families_of_words_that_no_load_wrote() {
    // Two spans that are equal, a narrower one, one with post below pre, one that nothing holds; no struct.
    #[rustfmt::skip]
    let mut words = [
        2, 29, 0, 0, 0, 0, 0, 0, 0, 10,
        6, 0, 4, 7, 0, 4, 0, 1, 2, 1, 3, 1, 1, 9, 9, 257, u32::MAX, 0, 5,
    ];
    let found = [
        (0, 1, 0),
        (1, 1, 0),
        (2, 2, 2),
        (2, 1, 0),
        (3, 3, 0),
        (3, 2, 0),
    ];
    for (t, u, family) in found {
        assert_nearest(&words, [t, u], Ok(Some(family)));
    }
    for pair in [[4, 4], [5, 5], [4, 0], [6, 0], [u32::MAX, 6]] {
        assert_nearest(&words, pair, Ok(None));
    }
    assert_nearest(&words[..28], [6, 0], Err(NotLinked));
    // One span more than there is; as many that three times the number is 2 or 5 in 32 bits; half of all; the most.
    for count in [7, 0x5555_5556, 0x5555_5557, 1 << 31, u32::MAX] {
        words[10] = count;
        assert_nearest(&words, [0, 0], Err(NotLinked));
        assert_nearest(&words, [count, u32::MAX], Err(NotLinked));
        assert_length(&words, 0, Err(NotLinked));
    }
}

#[test]
fn the_samples_of_edition_2() {
    let (verdict, [table, _]) = tried(LONGEST_CHAIN, HOSTS, table_words(LONGEST_CHAIN.len()));
    assert_eq!(verdict, Ok(689));
    let linked = Linked::from_words(&table).expect("a linked table");
    let (first, last) = (TypeId(0), TypeId(63));
    assert!(linked.descends(last, first) && !linked.descends(first, last));
    assert_eq!([first, last].map(|t| linked.family_size(t)), [64, 1]);
    assert_eq!([first, last].map(|t| linked.chain_length(t)), [1, 64]);
    assert_nearest(&table, [63, 31], Ok(Some(31)));
    let (verdict, _) = tried(CHAIN_TOO_LONG, HOSTS, table_words(CHAIN_TOO_LONG.len()));
    let error = verdict.expect_err("refused");
    assert_eq!(error.numbers(), [17, 0, 0, 0, 0, 0]);
    let words = "over 256 types on a chain, 64 in edition 2, or a cycle";
    assert_eq!(error.to_string(), words);
}

#[test]
fn each_edition_has_its_own_limit() {
    let hosts = no_hosts(1);
    let accepted = [1, 63, 64, 65, 255, 256].map(|types| (1, types));
    for (edition, types) in accepted.into_iter().chain([(2, 1), (2, 63), (2, 64)]) {
        let sheet = chain(edition, types);
        let (verdict, [table, _]) = tried(&sheet, &hosts, table_words(sheet.len()));
        let words = 49 + 10 * types as usize;
        assert_eq!(verdict, Ok(words), "{types} in edition {edition}");
        // The table's first word is not the sheet's edition.
        assert_eq!(table[0], 2);
        assert_length(&table, types - 1, Ok(types));
    }
    for (edition, types) in [(1, 257), (2, 65), (2, 256), (2, 257)] {
        let sheet = chain(edition, types);
        let (verdict, [table, work]) = tried(&sheet, &hosts, table_words(sheet.len()));
        let too_deep = LoadErrorKind::InheritanceTooDeep;
        assert_eq!(kind(verdict), too_deep, "{types} in edition {edition}");
        assert!(table.iter().all(|&w| w == BEFORE) && work.iter().all(|&w| w == 0));
        assert_eq!(count_structs(&sheet), Ok(types));
    }
}

#[test]
fn other_editions_are_broken() {
    for edition in [0, 3, 4, 257, u32::MAX] {
        for types in [1, 64, 65] {
            let sheet = chain(edition, types);
            let (verdict, slices) = tried(&sheet, HOSTS, table_words(sheet.len()));
            assert_eq!(kind(verdict), LoadErrorKind::Decode, "edition {edition}");
            assert!(slices.concat().iter().all(|&w| w == BEFORE));
            assert_eq!(count_structs(&sheet), Err(BrokenLayout));
        }
    }
    // A host list has edition 1, whatever the sheet's is.
    let sheet = chain(2, 64);
    for edition in [0, 2, 3, u32::MAX] {
        for sheet in [EMPTY, &sheet] {
            let (verdict, slices) = tried(sheet, &no_hosts(edition), table_words(sheet.len()));
            let bad_list = LoadErrorKind::BadHostList;
            assert_eq!(kind(verdict), bad_list, "edition {edition}");
            assert!(slices.concat().iter().all(|&w| w == BEFORE));
        }
    }
}

/// Strings "a" twice, "b" and ""; a func type, a global and a function; exports of kind, name and index.
fn exporting(edition: u32, exports: &[[u32; 3]]) -> Vec<u8> {
    let count = exports.len() as u32;
    let mut words = vec![edition, 35 + 3 * count];
    words.extend([4, 1, 97, 1, 97, 1, 98, 0]);
    words.extend([1, 0, 0, 0]);
    words.extend([0, 0]);
    words.extend([1, 4, 0]);
    words.extend([1, 0, 0, 0, 0, 0, 0, 0, 0, 0, 1, 1, 0]);
    words.extend([0, 0, count]);
    words.extend(exports.as_flattened());
    blocks(&words)
}

/// Edition 2 gives this kind, if any, without a place; edition 1 does so only of an index.
fn assert_exports(exports: &[[u32; 3]], expected: Option<LoadErrorKind>) {
    let of_index = expected.filter(|kind| matches!(kind, LoadErrorKind::OutOfRange { .. }));
    for (edition, expected) in [(1, of_index), (2, expected)] {
        let sheet = exporting(edition, exports);
        let (verdict, [table, work]) = tried(&sheet, HOSTS, table_words(sheet.len()));
        let found = verdict.err().map(|e| (e.kind(), e.func(), e.pc()));
        let expected = expected.map(|kind| (kind, None, None));
        assert_eq!(found, expected, "{exports:?} in edition {edition}");
        assert_eq!(table[0], if found.is_some() { BEFORE } else { 2 });
        assert!(work.iter().all(|&w| w == 0));
    }
}

#[test]
fn names_of_exports_are_read_in_edition_2() {
    let missing = |name| Some(LoadErrorKind::ExportNameOutOfRange(StrId(name)));
    let twice = |place| Some(LoadErrorKind::DuplicateExport(place));
    assert_exports(&[], None);
    assert_exports(&[[0, 0, 0], [1, 2, 0], [2, 3, 0]], None);
    assert_exports(&[[2, 3, 0], [2, 4, 0]], missing(4));
    assert_exports(&[[1, u32::MAX, 0]], missing(u32::MAX));
    // Equal bytes of two strings, of a function and a type.
    assert_exports(&[[0, 0, 0], [2, 1, 0]], twice(1));
    assert_exports(&[[0, 2, 0], [1, 1, 0], [2, 0, 0]], twice(2));
    assert_exports(&[[2, 0, 0], [2, 0, 0], [2, 0, 0]], twice(1));
    assert_exports(&[[2, 3, 0], [1, 3, 0]], twice(1));
    // The range before the repeat, and both before the next export.
    assert_exports(&[[2, 9, 0], [2, 9, 0]], missing(9));
    assert_exports(&[[2, 0, 0], [2, 0, 0], [2, 9, 0]], twice(1));
}

#[test]
fn an_index_comes_before_its_name() {
    let what = What::Types;
    let no_type = Some(LoadErrorKind::OutOfRange { what, index: 7 });
    assert_exports(&[[2, 9, 7]], no_type);
    assert_exports(&[[2, 0, 0], [2, 0, 7]], no_type);
}

#[test]
fn the_samples_of_exports() {
    let missing = "an export's name is no string of the sheet: string 9";
    let twice = "an export has the name of an earlier one: export 1";
    let samples = [
        (EXPORT_NAME_MISSING, [27, 0, 9, 0, 0, 0], missing),
        (EXPORT_TWICE, [28, 0, 1, 0, 0, 0], twice),
    ];
    for (sheet, numbers, words) in samples {
        let (verdict, [table, work]) = tried(sheet, HOSTS, table_words(sheet.len()));
        let error = verdict.expect_err("refused");
        assert_eq!(error.numbers(), numbers);
        assert_eq!(error.to_string(), words);
        assert!(table.iter().all(|&w| w == BEFORE) && work.iter().all(|&w| w == 0));
        assert_eq!(count_structs(sheet), Ok(1));
    }
}

/// The direct calls of functions, and that of imports.
const OF_FUNCTIONS: [u32; 3] = [7, 15, 20];
const OF_IMPORTS: u32 = 21;

/// Function 1 calls import 0 or function 0, which have as many parameters as flags, all dyn, and the list of these or none.
fn calling(edition: u32, code: u32, flags: &[u32], listed: bool, given: u32) -> Vec<u8> {
    let count = flags.len() as u32;
    let mut list = vec![1, count];
    list.extend(flags.iter().flat_map(|&flag| [flag, 0]));
    let list = if listed { &list } else { &vec![0] };
    let dyns = |count| vec![12; count];
    // One empty string, the types of callees and caller, the import.
    let mut words = vec![edition, 0, 1, 0, 2, 0, count];
    words.extend(dyns(flags.len()));
    words.extend([0, 0, 0, 0, 0, 1, 0, 0, 0]);
    words.extend(list);
    // No globals, two functions; the first returns.
    words.extend([0, 2, 0, count]);
    words.extend(dyns(flags.len()));
    words.extend(list);
    words.extend([0, 0, 0, 0, 0, 0, 1, 1, 0, 1, 256]);
    words.extend(dyns(256));
    words.extend([0, 0, 0, 0, 0, 0, 0, 2, code | given << 8, 0, 1, 0]);
    words.extend([0, 0, 0]);
    words[1] = words.len() as u32;
    blocks(&words)
}

/// The call is refused by this limit, if any, or accepted.
fn assert_call(sheet: &[u8], limit: Option<u32>, found: u32) {
    let one_host = blocks(&[1, 6, 1, 0, 0, 0]);
    let (verdict, [table, work]) = tried(sheet, &one_host, table_words(sheet.len()));
    let refusal = verdict.err().map(|e| (e.kind(), e.func(), e.pc()));
    let expected = limit.map(|expected| {
        let kind = LoadErrorKind::ArityMismatch { expected, found };
        (kind, Some(FuncId(1)), Some(0))
    });
    assert_eq!(refusal, expected);
    assert_eq!(table[0], if limit.is_some() { BEFORE } else { 2 });
    assert!(work.iter().all(|&w| w == 0));
}

/// The limits of edition 2 and of edition 1, which functions and imports without a list have too.
fn assert_calls(flags: &[u32], given: u32, second: Option<u32>, first: Option<u32>) {
    for (edition, limit) in [(2, second), (1, first)] {
        let import = calling(edition, OF_IMPORTS, flags, true, given);
        assert_call(&import, limit, given);
        let import = calling(edition, OF_IMPORTS, flags, false, given);
        assert_call(&import, first, given);
        for code in OF_FUNCTIONS {
            let function = calling(edition, code, flags, true, given);
            assert_call(&function, first, given);
        }
    }
}

#[test]
fn optional_arguments_are_left_out_in_edition_2() {
    assert_calls(&[0, 2], 0, Some(1), Some(2));
    assert_calls(&[0, 2], 1, None, Some(2));
    assert_calls(&[0, 2], 2, None, None);
    assert_calls(&[0, 2], 3, Some(2), Some(2));
    // By reference is not optional.
    assert_calls(&[0, 1], 1, Some(2), Some(2));
    assert_calls(&[1, 3], 1, None, Some(2));
    assert_calls(&[2], 0, None, Some(1));
    assert_calls(&[], 0, None, None);
    assert_calls(&[], 1, Some(0), Some(0));
}

#[test]
fn over_255_parameters_are_called_if_few_are_mandatory() {
    for given in [0, 1, 255] {
        assert_calls(&[2; 256], given, None, Some(256));
        assert_calls(&[0; 256], given, Some(256), Some(256));
    }
    let mut flags = [0; 300];
    flags[255..].fill(2);
    assert_calls(&flags, 254, Some(255), Some(300));
    assert_calls(&flags, 255, None, Some(300));
    flags[255] = 1;
    assert_calls(&flags, 255, Some(256), Some(300));
}

#[test]
fn the_samples_of_arguments() {
    let words = table_words(SURCHARGE_LEFT_OUT.len());
    assert_eq!(tried(SURCHARGE_LEFT_OUT, HOSTS, words).0, Ok(75));
    let missing =
        "wrong number of arguments: too few, 2 expected, 1 found, in function 0, instruction 1";
    let twice =
        "wrong number of arguments: too many, 2 expected, 3 found, in function 0, instruction 3";
    let samples = [
        (SURCHARGE_MISSING, [8, 0, 2, 1, 1, 2], missing),
        (SURCHARGE_TWICE, [8, 0, 2, 3, 1, 4], twice),
    ];
    for (sheet, numbers, said) in samples {
        let (verdict, [table, work]) = tried(sheet, HOSTS, words);
        let error = verdict.expect_err("refused");
        assert_eq!(error.numbers(), numbers);
        assert_eq!(error.to_string(), said);
        assert!(table.iter().all(|&w| w == BEFORE) && work.iter().all(|&w| w == 0));
    }
}

#[test]
fn structs_are_counted_from_the_declarations() {
    // A rule is broken in the last two, and none is tried.
    let sheets = [
        (EMPTY, 0),
        (LIFTS, 4),
        (LONGEST_CHAIN, 64),
        (SELF_PARENT, 1),
        (CHAIN_TOO_LONG, 65),
    ];
    for (sheet, structs) in sheets {
        assert_eq!(count_structs(sheet), Ok(structs));
        assert_eq!(raw::count_structs(sheet), [0, structs]);
    }
    for sheet in [&[][..], &LIFTS[..512], &LIFTS[1..], HOSTS] {
        assert_eq!(count_structs(sheet), Err(BrokenLayout));
        assert_eq!(raw::count_structs(sheet), [1, 0]);
    }
}

/// The size of the first family and the count of all structs, by one `?` for both calls.
fn loaded_and_counted(sheet: &[u8]) -> Result<[u32; 2], LoadError> {
    let structs = count_structs(sheet)?;
    let (mut table, mut work) = ([0; 4096], [0; 4096]);
    let linked = load(sheet, HOSTS, &mut table, &mut work)?;
    Ok([linked.family_size(TypeId(0)), structs])
}

#[test]
fn a_broken_layout_is_one_to_load_too() {
    assert_eq!(loaded_and_counted(LIFTS), Ok([4, 4]));
    let error = loaded_and_counted(&LIFTS[1..]).expect_err("no sheet");
    assert_eq!(error.numbers(), [1, 0, 0, 0, 0, 0]);
    assert_eq!(Err(error), tried(&LIFTS[1..], HOSTS, 4096).0);
    assert_eq!(error.to_string(), BrokenLayout.to_string());
}

#[test]
fn refusals_say_why_and_leave_the_table() {
    let words = table_words(LIFTS.len());
    let (verdict, [table, work]) = tried(LIFTS, &no_hosts(1), words);
    let error = verdict.expect_err("no host function");
    let (module, name) = (StrId(9), StrId(10));
    assert_eq!(
        error.kind(),
        LoadErrorKind::UnresolvedImport { module, name }
    );
    assert_eq!(
        (error.numbers(), error.func(), error.pc()),
        ([2, 0, 9, 10, 0, 0], None, None)
    );
    assert!(table.iter().all(|&w| w == BEFORE) && work.iter().all(|&w| w == 0));
    let (verdict, _) = tried(SELF_PARENT, HOSTS, words);
    assert_eq!(kind(verdict), LoadErrorKind::InheritanceTooDeep);
}

#[test]
fn kinds_1_23_and_24_touch_nothing() {
    let enough = table_words(EMPTY.len());
    let cases = [
        (&EMPTY[1..], HOSTS, enough, LoadErrorKind::Decode),
        (EMPTY, EMPTY, enough, LoadErrorKind::BadHostList),
        (EMPTY, &[], enough, LoadErrorKind::BadHostList),
        (EMPTY, HOSTS, 64 + 8 * 11 - 1, LoadErrorKind::ShortSlice),
        (EMPTY, HOSTS, 0, LoadErrorKind::ShortSlice),
    ];
    for (sheet, hosts, words, expected) in cases {
        let (verdict, [table, work]) = tried(sheet, hosts, words);
        assert_eq!(kind(verdict), expected);
        assert!(table.iter().chain(&work).all(|&w| w == BEFORE));
    }
    assert_eq!(tried(EMPTY, HOSTS, 64 + 8 * 11).0, Ok(49));
}

#[test]
fn lengths_are_enough_for_any_sheet() {
    assert_eq!((table_words(0), table_words(512)), (64, 64 + 8 * 127));
    assert_eq!(table_words(usize::MAX), MOST_WORDS);
    assert_eq!(work_words(512 * 4096), MOST_WORDS);
    assert_eq!(MOST_WORDS, 4_161_600);
}

#[test]
fn stored_words_are_looked_at() {
    let (_, [table, _]) = tried(EMPTY, HOSTS, 152);
    assert_eq!(
        Linked::from_words(&table[..49]).map(|l| l.words().len()),
        Ok(49)
    );
    for words in [&[][..], &table[..9], &table[..48], &table[1..]] {
        assert_eq!(Linked::from_words(words), Err(NotLinked));
    }
    let altered = |at: usize, word| {
        let mut words = table.clone();
        words[at] = word;
        Linked::from_words(&words).is_err()
    };
    assert!(altered(0, 1) && altered(0, 3) && altered(1, 153) && altered(9, 9) && altered(9, 49));
}

#[test]
fn numbers_go_back_and_forth() {
    let mut seen = 0;
    for kind in 0..30 {
        for word in 0..16 {
            for numbers in [
                [kind, word, 0, 0, 0, 0],
                [kind, word, 7, 0, 1, 0],
                [kind, word, 7, 8, 1, u32::MAX],
            ] {
                if let Some(error) = LoadError::from_numbers(numbers) {
                    assert_eq!(error.numbers(), numbers);
                    seen += 1;
                }
            }
        }
    }
    // Each kind but 3 and 11 once with zeros, 14 and 4 words; 7 alone fits 2, 3, 8, 19, 27 and 28; 7 and 8 fit 2 and 8.
    assert_eq!(seen, (24 + 14 + 4) + (14 + 5) + 2);
    assert_eq!(LoadError::from_numbers([0, 0, 49, 0, 0, 0]), None);
}

#[test]
fn kinds_are_called_as_in_the_readme() {
    let table = README
        .split("## The six numbers")
        .nth(1)
        .expect("a section");
    let cells: Vec<&str> = table
        .lines()
        .filter(|line| line.starts_with("| "))
        .flat_map(|line| line.split('|').map(str::trim))
        .collect();
    let (words_of_3, _) = README
        .split_once("Words of kind 3: ")
        .and_then(|(_, rest)| rest.split_once(".\n"))
        .expect("the words of kind 3");
    // Load never gives 25 and 26.
    for kind in (1..=24).chain([27, 28]) {
        let place = cells.iter().position(|c| *c == kind.to_string());
        let words = cells[place.expect("a row") + 1];
        let plain = words.split(" (").next().expect("words");
        let error = LoadError::from_numbers([kind, u32::from([3, 11].contains(&kind)), 0, 0, 0, 0]);
        let said = error.expect("a kind").to_string();
        assert!(said.starts_with(plain), "{kind}: {said:?}, {plain:?}");
    }
    for (word, name) in words_of_3
        .split(", ")
        .map(|w| w.split_once(' ').expect("a word"))
    {
        let word = word.parse().expect("a number");
        let said = LoadError::from_numbers([3, word, 8, 0, 0, 0]).expect("a word of kind 3");
        assert_eq!(
            said.to_string(),
            format!("a number is out of range: {name} 8")
        );
    }
}
