//! Faults of rule 7 in the arguments of an import.

use sheets::build::aw;
use sheets::{op, DYN};

use super::imports::add;
use super::{fault, function_mut, place, widen, Fault};
use crate::lists::param_list;
use crate::{Draft, Rng};

pub const FAULTS: &[Fault] = &[
    fault("arguments of an import, too few", 8, 0, too_few),
    fault("arguments of an import, too many", 8, 0, too_many),
];

/// The number of an import for which the test of its fewest and most arguments holds, mostly with a list, added if there is none.
fn some_import(rng: &mut Rng, draft: &mut Draft, fits: impl Fn(usize, usize) -> bool) -> u32 {
    let imports = 0..draft.sheet.imports.len() as u32;
    let fitting = imports.filter(|&i| draft.arguments(i).is_some_and(|(r, n)| fits(r, n)));
    let fitting: Vec<u32> = fitting.collect();
    if let Some(import) = rng.choose(&fitting).filter(|_| rng.coin()) {
        return import;
    }
    let params = vec![DYN; rng.within(1, 4)];
    let mut list = param_list(rng, draft, &params);
    // One is mandatory, so that there can be too few.
    list[0].flags &= 1;
    let sig = draft.sig(&params, &[]);
    let import = add(rng, draft, sig, false);
    draft.sheet.imports[import].params = (!rng.one_in(5)).then_some(list);
    import as u32
}

fn call(rng: &mut Rng, draft: &mut Draft, import: u32, found: usize) {
    let f = function_mut(rng, draft);
    widen(f, found as u8);
    place(rng, f, aw(op::CALL_IMPORT, found as u8, 0, import));
}

/// One less than the fewest, or any number below them.
fn too_few(rng: &mut Rng, draft: &mut Draft) {
    let import = some_import(rng, draft, |fewest, _| (1..=256).contains(&fewest));
    let fewest = draft.arguments(import).map_or(1, |(fewest, _)| fewest);
    let any = rng.below(fewest);
    let found = rng.pick(&[fewest - 1, fewest - 1, any]);
    call(rng, draft, import, found);
}

fn too_many(rng: &mut Rng, draft: &mut Draft) {
    let import = some_import(rng, draft, |_, most| most < 255);
    let most = draft.arguments(import).map_or(0, |(_, most)| most);
    let any = rng.within(most + 1, 255);
    let found = rng.pick(&[most + 1, most + 1, most + 1, any]);
    call(rng, draft, import, found);
}
