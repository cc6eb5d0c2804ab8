//! Faults of rules 2 to 4: types, parents, constants.

use sheets::{Constant, Edition, TypeEntry, ValueType, DYN};

use super::{fault, Fault};
use crate::draft::value_type;
use crate::{Draft, Rng};

pub const FAULTS: &[Fault] = &[
    fault("type named in a type", 3, 1, absent_type),
    fault("method's function", 3, 2, method_function),
    fault("string of a struct", 3, 3, struct_string),
    fault("two results", 4, 0, two_results),
    fault("absent parent", 16, 0, absent_parent),
    fault("parent that is no struct", 16, 0, parent_no_struct),
    fault("fields that are no prefix", 16, 0, no_prefix),
    fault("fields equal but for a number", 16, 0, equal_but_for_number),
    fault("cycle of parents", 17, 0, cycle),
    fault("cycle through a family", 17, 0, family_cycle),
    fault("chain one too long", 17, 0, long_chain),
    fault(
        "chain one too long for one edition",
        17,
        0,
        chain_for_one_edition,
    ),
    fault("string of a constant", 3, 3, constant_string),
    fault("constant not below", 18, 0, constant_not_below),
    fault("constants too deep", 18, 0, constants_too_deep),
];

/// A struct without members, added at the end.
fn bare(rng: &mut Rng, draft: &mut Draft, parent: Option<u32>) -> u32 {
    let name = rng.index(draft.sheet.strings.len());
    draft.sheet.types.push(TypeEntry::Struct {
        name,
        parent,
        fields: Vec::new(),
        methods: Vec::new(),
    });
    draft.sheet.types.len() as u32 - 1
}

/// Some struct, added if there is none.
fn some_struct(rng: &mut Rng, draft: &mut Draft) -> u32 {
    match rng.choose(&draft.structs()) {
        Some(t) => t,
        None => bare(rng, draft, None),
    }
}

fn value_types(entry: &mut TypeEntry) -> Vec<&mut ValueType> {
    match entry {
        TypeEntry::Func { params, results } => params.iter_mut().chain(results).collect(),
        TypeEntry::Struct { fields, .. } => fields.iter_mut().map(|(_, v)| v).collect(),
        TypeEntry::Array(v) | TypeEntry::Cell(v) => vec![v],
        TypeEntry::Map(k, v) | TypeEntry::Iter(k, v) => vec![k, v],
        TypeEntry::Coroutine => Vec::new(),
    }
}

fn absent_type(rng: &mut Rng, draft: &mut Draft) {
    let absent = ValueType::reference(rng.absent(draft.sheet.types.len()));
    let mut places: Vec<_> = draft.sheet.types.iter_mut().flat_map(value_types).collect();
    match places.len() {
        0 => draft
            .sheet
            .types
            .push(TypeEntry::Array(ValueType::reference(99))),
        n => *places[rng.below(n)] = absent,
    }
}

fn method_function(rng: &mut Rng, draft: &mut Draft) {
    let absent = rng.absent(draft.sheet.functions.len());
    let name = rng.index(draft.sheet.strings.len() + 1);
    let t = some_struct(rng, draft) as usize;
    if let TypeEntry::Struct { methods, .. } = &mut draft.sheet.types[t] {
        let at = rng.below(methods.len() + 1);
        methods.insert(at, (name, absent));
    }
}

fn struct_string(rng: &mut Rng, draft: &mut Draft) {
    let absent = rng.absent(draft.sheet.strings.len());
    let t = some_struct(rng, draft) as usize;
    if let TypeEntry::Struct {
        name,
        fields,
        methods,
        ..
    } = &mut draft.sheet.types[t]
    {
        let mut names: Vec<&mut u32> = vec![name];
        names.extend(fields.iter_mut().map(|f| &mut f.0));
        names.extend(methods.iter_mut().map(|m| &mut m.0));
        let at = rng.below(names.len());
        *names[at] = absent;
    }
}

fn two_results(rng: &mut Rng, draft: &mut Draft) {
    let n = draft.sheet.types.len() + 1;
    let more = rng.within(1, 2);
    let entry = TypeEntry::Func {
        params: (0..rng.within(0, 2)).map(|_| value_type(rng, n)).collect(),
        results: vec![DYN; 1 + more],
    };
    match rng.choose(&draft.func_types()).filter(|_| rng.coin()) {
        Some(t) => draft.sheet.types[t as usize] = entry,
        None => draft.sheet.types.push(entry),
    }
}

fn set_parent(draft: &mut Draft, t: u32, to: u32) {
    if let TypeEntry::Struct { parent, .. } = &mut draft.sheet.types[t as usize] {
        *parent = Some(to);
    }
}

fn absent_parent(rng: &mut Rng, draft: &mut Draft) {
    let t = some_struct(rng, draft);
    let to = rng.absent(draft.sheet.types.len());
    set_parent(draft, t, to);
}

fn parent_no_struct(rng: &mut Rng, draft: &mut Draft) {
    let t = some_struct(rng, draft);
    let others = draft.types_with(|e| !matches!(e, TypeEntry::Struct { .. }));
    let to = match rng.choose(&others) {
        Some(to) => to,
        None => {
            draft.sheet.types.push(TypeEntry::Coroutine);
            draft.sheet.types.len() as u32 - 1
        }
    };
    set_parent(draft, t, to);
}

/// A parent with a field and a child of it.
fn with_field(rng: &mut Rng, draft: &mut Draft, of: (u32, ValueType), child: &[(u32, ValueType)]) {
    let parent = bare(rng, draft, None);
    let below = bare(rng, draft, Some(parent));
    for (t, all) in [(parent, &[of][..]), (below, child)] {
        if let TypeEntry::Struct { fields, .. } = &mut draft.sheet.types[t as usize] {
            *fields = all.to_vec();
        }
    }
}

fn no_prefix(rng: &mut Rng, draft: &mut Draft) {
    let name = rng.index(draft.sheet.strings.len());
    let child: &[_] = match rng.below(3) {
        0 => &[],
        1 => &[(name, ValueType(2))],
        _ => &[(name, ValueType(2)), (name, DYN)],
    };
    with_field(rng, draft, (name, DYN), child);
}

/// Another string number with equal text, or a reference to another equal type.
fn equal_but_for_number(rng: &mut Rng, draft: &mut Draft) {
    let name = rng.index(draft.sheet.strings.len());
    if rng.coin() {
        let text = draft.sheet.strings[name as usize].clone();
        draft.sheet.strings.push(text);
        let other = draft.sheet.strings.len() as u32 - 1;
        with_field(rng, draft, (name, DYN), &[(other, DYN), (name, DYN)]);
    } else {
        let entry = TypeEntry::Array(draft.value_type(rng));
        draft.sheet.types.extend([entry.clone(), entry]);
        let last = draft.sheet.types.len() as u32 - 1;
        let [a, b] = [last, last - 1].map(ValueType::reference);
        with_field(rng, draft, (name, a), &[(name, b)]);
    }
}

fn cycle(rng: &mut Rng, draft: &mut Draft) {
    let first = draft.sheet.types.len() as u32;
    let length = rng.within(1, 4) as u32;
    for k in 0..length {
        bare(rng, draft, Some(first + (k + 1) % length));
    }
    // A family that hangs under the cycle.
    if rng.coin() {
        bare(rng, draft, Some(first));
    }
}

/// A struct's own root gets it as parent; 16 where the fields differ.
fn family_cycle(rng: &mut Rng, draft: &mut Draft) {
    let t = some_struct(rng, draft);
    let mut root = t;
    for _ in 0..300 {
        match draft.sheet.types.get(root as usize) {
            Some(TypeEntry::Struct {
                parent: Some(p), ..
            }) => root = *p,
            _ => break,
        }
    }
    if (root as usize) < draft.sheet.types.len() {
        set_parent(draft, root, t);
    }
}

fn add_chain(rng: &mut Rng, draft: &mut Draft, length: u32) {
    let mut parent = None;
    for _ in 0..length {
        parent = Some(bare(rng, draft, parent));
    }
}

fn long_chain(rng: &mut Rng, draft: &mut Draft) {
    let length = draft.sheet.edition.most_on_chain() + 1;
    add_chain(rng, draft, length);
}

/// No fault in the first edition.
fn chain_for_one_edition(rng: &mut Rng, draft: &mut Draft) {
    let length = Edition::Second.most_on_chain() + 1;
    add_chain(rng, draft, length);
}

fn constant_string(rng: &mut Rng, draft: &mut Draft) {
    let absent = rng.absent(draft.sheet.strings.len());
    draft.sheet.constants.push(Constant::Str(absent));
}

fn constant_not_below(rng: &mut Rng, draft: &mut Draft) {
    let constants = &mut draft.sheet.constants;
    let own = constants.len() as u32;
    let child = rng.pick(&[own, own, own + 1, u32::MAX]);
    let below = rng.index(own.max(1) as usize);
    constants.push(match rng.below(3) {
        0 => Constant::Array(vec![below, child]),
        1 => Constant::Map(vec![(below, child)]),
        _ => Constant::Map(vec![(child, below)]),
    });
}

fn constants_too_deep(rng: &mut Rng, draft: &mut Draft) {
    let constants = &mut draft.sheet.constants;
    constants.push(Constant::Array(vec![]));
    for _ in 0..65 {
        let last = constants.len() as u32 - 1;
        constants.push(if rng.coin() {
            Constant::Array(vec![0, last])
        } else {
            Constant::Map(vec![(last, 0)])
        });
    }
}
