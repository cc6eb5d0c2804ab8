//! Borders of types, parents and constants.

use sheets::build::{func, strings, structure};
use sheets::{renumber, Constant, Edition, Sheet, TypeEntry, ValueType, DYN};

use super::Border;
use crate::{Draft, Rng};

/// Borders that choose the edition themselves.
pub const CHAINS: &[Border] = &[
    ("chain of about a limit", chain),
    ("chain without a root", chain_without_root),
];

pub const BORDERS: &[Border] = &[
    ("both orders of a cycle", cycle_of_two),
    ("constants of depth about 64", depth),
    ("types equal through references", equal_through_references),
    ("prefix equal by text or by type", prefix),
    ("families without members", forest),
];

pub const WIDE: &[Border] = &[("fields past slot 65,535", wide_struct)];

fn draft(types: Vec<TypeEntry>) -> Draft {
    Draft {
        sheet: Sheet {
            strings: strings(&["", "s", "s"]),
            types,
            ..Sheet::default()
        },
        hosts: Vec::new(),
    }
}

/// The types in declared, reversed or random order.
fn reorder(rng: &mut Rng, draft: Draft) -> Draft {
    let n = draft.sheet.types.len();
    let image: Vec<u32> = match rng.below(3) {
        0 => (0..n as u32).collect(),
        1 => (0..n as u32).rev().collect(),
        _ => rng.permutation(n),
    };
    Draft {
        sheet: renumber(&draft.sheet, &image),
        hosts: draft.hosts,
    }
}

/// An edition, and a number near its limit or, at times, near the other's.
fn near_limit(rng: &mut Rng) -> (Edition, u32) {
    let [edition, other] = [(); 2].map(|()| rng.pick(&Edition::ALL));
    let limited = if rng.coin() { edition } else { other };
    let most = limited.most_on_chain();
    (edition, rng.pick(&[most - 1, most, most + 1, most + 2]))
}

fn of_edition(edition: Edition, mut draft: Draft) -> Draft {
    draft.sheet.edition = edition;
    draft
}

fn chain(rng: &mut Rng) -> Draft {
    let (edition, length) = near_limit(rng);
    let link = |k: u32| structure(k.checked_sub(1), &[]);
    let mut types: Vec<_> = (0..length).map(link).collect();
    // Children off the chain, at its middle, beside its end and below it.
    let parent = rng.pick(&[length / 2, length - 2, length - 1]);
    for _ in 0..rng.pick(&[0, 1, 2, 40]) {
        types.push(structure(Some(parent), &[]));
    }
    reorder(rng, of_edition(edition, draft(types)))
}

/// The topmost of a chain has a parent that is no struct, that is absent, or that is the lowest.
fn chain_without_root(rng: &mut Rng) -> Draft {
    let (edition, length) = near_limit(rng);
    let top = rng.pick(&[0, 9999, length]);
    let mut types = vec![TypeEntry::Coroutine, structure(Some(top), &[])];
    types.extend((1..length).map(|k| structure(Some(k), &[])));
    reorder(rng, of_edition(edition, draft(types)))
}

/// A struct with a field and one without are each other's parents: 16 or 17, by their order.
fn cycle_of_two(rng: &mut Rng) -> Draft {
    let with_field = structure(Some(1), &[(1, DYN)]);
    let types = vec![with_field, structure(Some(0), &[])];
    reorder(rng, draft(types))
}

fn depth(rng: &mut Rng) -> Draft {
    let mut out = draft(Vec::new());
    let leaf = rng.below(4);
    out.sheet.constants.push(match leaf {
        0 => Constant::Plain(0, 0),
        1 => Constant::Str(1),
        2 => Constant::Array(Vec::new()),
        _ => Constant::Map(Vec::new()),
    });
    for k in 0..rng.within(63, 66) as u32 {
        out.sheet.constants.push(if rng.coin() {
            Constant::Array(vec![k])
        } else {
            Constant::Map(vec![(0, k)])
        });
    }
    out
}

fn equal_through_references(rng: &mut Rng) -> Draft {
    let [a, b, c] = [0, 1, 2].map(ValueType::reference);
    let types = match rng.below(4) {
        0 => vec![
            TypeEntry::Coroutine,
            TypeEntry::Coroutine,
            TypeEntry::Array(a),
            TypeEntry::Array(b),
        ],
        1 => vec![
            TypeEntry::Coroutine,
            TypeEntry::Coroutine,
            func(&[a], &[]),
            func(&[b], &[]),
        ],
        2 => vec![
            TypeEntry::Array(a),
            TypeEntry::Array(a),
            TypeEntry::Array(b),
            TypeEntry::Array(c),
        ],
        _ => vec![
            TypeEntry::Map(a, b),
            TypeEntry::Iter(a, b),
            TypeEntry::Map(a, b),
            TypeEntry::Map(b, a),
        ],
    };
    reorder(rng, draft(types))
}

fn prefix(rng: &mut Rng) -> Draft {
    let [a, b] = [0, 1].map(ValueType::reference);
    let choices = [(1, a), (2, a), (1, b), (2, b)];
    let (parent, child) = (rng.pick(&choices), rng.pick(&choices));
    let types = vec![
        TypeEntry::Coroutine,
        TypeEntry::Coroutine,
        structure(None, &[parent]),
        structure(Some(2), &[child, (0, DYN)]),
    ];
    reorder(rng, draft(types))
}

/// Only structs without members, up to a few blocks of them.
fn forest(rng: &mut Rng) -> Draft {
    let n = rng.within(1, 120);
    let mut types = Vec::new();
    for k in 0..n {
        let root = k == 0 || rng.one_in(6);
        let parent = (!root).then(|| rng.index(k));
        types.push(structure(parent, &[]));
    }
    reorder(rng, draft(types))
}

/// Names past slot 65,535 are not read but compared, and references there are listed as 65,535.
fn wide_struct(rng: &mut Rng) -> Draft {
    let n = rng.within(65535, 65540);
    let mut fields = vec![(0, ValueType(1)); n];
    for field in &mut fields[65530..] {
        field.1 = rng.pick(&[ValueType(2), DYN, ValueType::reference(0)]);
    }
    if rng.coin() {
        // An absent name on the last slot, which is read up to slot 65,535.
        fields[n - 1].0 = 99;
    }
    let mut types = vec![structure(None, &fields)];
    if rng.coin() {
        if rng.coin() {
            fields[n - 1].0 = 2;
        }
        types.push(structure(Some(0), &fields));
    }
    reorder(rng, draft(types))
}
