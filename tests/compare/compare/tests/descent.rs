//! Descent, the sizes of families, chain lengths and the nearest families by spans, by the Rust's own test and by declared
//! parents, on generated sheets.

use bvm_lang::descends;
use compare::{
    asked_numbers, chain, chain_lengths, descends_by_parents, family_sizes, length_in, load,
    nearest_in, nearest_numbers, query, size_in, Ancestors,
};
use generator::{case, valid, Draft, Rng, Scale};
use sheets::{decode_sheet, encode_hosts, encode_sheet, Sheet};

/// Compares the sizes of all families and the lengths of all chains, and for all pairs of numbers the three tests and the
/// nearest family; false when the sheet is refused.
fn agree(rng: &mut Rng, sheet: &Sheet, bytes: &[u8], hosts: &[u8]) -> bool {
    let Ok(accepted) = load(bytes, hosts, u32::MAX, u32::MAX) else {
        return false;
    };
    let table = accepted.table();
    for (a, size) in (0..).zip(family_sizes(sheet)) {
        assert_eq!(size_in(&table, a), [0, size], "{a}: {sheet:?}");
    }
    for (t, length) in (0..).zip(chain_lengths(sheet)) {
        assert_eq!(length_in(&table, t), [0, length], "{t}: {sheet:?}");
    }
    let numbers = asked_numbers(rng, sheet.types.len(), 24);
    for &t in &numbers {
        let above = Ancestors::of(sheet, t);
        for &a in &numbers {
            let nearest = nearest_numbers(above.nearest(chain(sheet, a)));
            assert_eq!(nearest_in(&table, t, a), nearest, "{t}, {a}: {sheet:?}");
            let declared = descends_by_parents(sheet, t, a);
            assert_eq!(
                query(&table, t, a),
                u32::from(declared),
                "{t} from {a}: {sheet:?}"
            );
            if let Some(program) = accepted.program() {
                let by_rust = descends(program, t, a);
                assert_eq!(by_rust, declared, "{t} from {a}: {sheet:?}");
            }
        }
    }
    true
}

#[test]
fn spans_equal_brute_force_on_100_000_sheets() {
    let hosts = encode_hosts(&[]).to_bytes();
    let mut accepted = 0;
    for index in 0..100_000 {
        let mut rng = Rng::new(3, index);
        let rng = &mut rng;
        let Draft { mut sheet, .. } = valid(rng, &Scale::families());
        // One in ten loses or changes a parent, so that refused sheets are among them.
        if rng.one_in(10) {
            let parent = rng.choose(&[0, 1, 2, 3, 99]);
            let t = rng.below(sheet.types.len().max(1));
            if let Some(sheets::TypeEntry::Struct { parent: p, .. }) = sheet.types.get_mut(t) {
                *p = parent;
            }
        }
        let bytes = encode_sheet(&sheet).to_bytes();
        accepted += u32::from(agree(rng, &sheet, &bytes, &hosts));
    }
    assert!((90_000..99_990).contains(&accepted), "{accepted} accepted");
}

#[test]
fn spans_equal_brute_force_on_cases() {
    let mut accepted = 0;
    for index in 0..5_000 {
        let case = case(4, index);
        let mut rng = Rng::new(5, index);
        if let Some((sheet, _)) = decode_sheet(&case.sheet) {
            accepted += u32::from(agree(&mut rng, &sheet, &case.sheet, &case.hosts));
        }
    }
    assert!(accepted >= 1_500, "{accepted} accepted");
}
