//! Parameter lists and call shapes that break a rule.

use sheets::{Param, ShapeEntry, ValueType, DYN};

use crate::lists::{by_reference, param_list};
use crate::{Draft, Rng};

/// A parameter list for these parameters with one fault.
pub fn bad_param_list(rng: &mut Rng, draft: &Draft, params: &[ValueType]) -> Vec<Param> {
    let mut list = param_list(rng, draft, params);
    let strings = draft.sheet.strings.len();
    let n = list.len();
    match rng.below(6) {
        0 if n > 0 => list[rng.below(n)].flags |= rng.pick(&[4, 8, 1 << 31]),
        1 if n > 1 => {
            let optional = rng.below(n - 1);
            list[optional].flags |= 2;
            list[rng.within(optional + 1, n - 1)].flags &= 1;
        }
        2 if n > 1 => {
            let name = Some(rng.index(strings));
            let second = rng.within(1, n - 1);
            list[rng.below(second)].name = name;
            list[second].name = name;
        }
        3 if n > 0 => list[rng.below(n)].name = Some(rng.absent(strings)),
        4 => {
            let refused = (0..n).filter(|&i| !by_reference(draft, params[i]));
            match rng.choose(&refused.collect::<Vec<_>>()) {
                Some(i) => list[i].flags |= 1,
                None => list.push(ANY),
            }
        }
        5 if n > 0 => drop(list.pop()),
        _ => list.push(ANY),
    }
    list
}

const ANY: Param = Param {
    flags: 2,
    name: None,
};

/// A call shape with one fault.
pub fn bad_shape(rng: &mut Rng, draft: &Draft) -> Vec<ShapeEntry> {
    let strings = draft.sheet.strings.len();
    let name = rng.index(strings);
    let named = ShapeEntry { kind: 1, name };
    let other = |kind| ShapeEntry {
        kind,
        name: u32::MAX,
    };
    match rng.below(4) {
        0 => vec![other(0), other(rng.pick(&[3, 4, 255, u32::MAX]))],
        1 => vec![named, other(2), other(0)],
        2 => vec![other(0), named, other(2), named],
        _ => vec![ShapeEntry {
            kind: 1,
            name: rng.absent(strings),
        }],
    }
}

/// Parameters to hang a list on: dyn, plain ones and references.
pub fn some_params(rng: &mut Rng, draft: &Draft) -> Vec<ValueType> {
    let mut params = vec![DYN];
    for _ in 0..rng.within(0, 2) {
        params.push(draft.value_type(rng));
    }
    params
}
