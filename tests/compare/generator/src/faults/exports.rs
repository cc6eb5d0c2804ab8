//! Faults of rule 8: exports. A name is no fault where names are not read.

use sheets::build::export;
use sheets::{ExportKind, TypeEntry};

use super::{fault, Fault};
use crate::{Draft, Rng};

pub const FAULTS: &[Fault] = &[
    fault("exported function", 3, 2, |rng, d| {
        absent_item(rng, d, ExportKind::Function)
    }),
    fault("exported global", 3, 7, |rng, d| {
        absent_item(rng, d, ExportKind::Global)
    }),
    fault("exported type", 3, 1, |rng, d| {
        absent_item(rng, d, ExportKind::Type)
    }),
    fault("export name absent", 27, 0, absent_name),
    fault("export name twice", 28, 0, |rng, d| repeat_name(rng, d, 2)),
    fault("export name three times", 28, 0, |rng, d| {
        repeat_name(rng, d, 3)
    }),
    fault("export names of equal bytes", 28, 0, repeat_bytes),
];

/// The name is whatever it is: the item is looked for first.
fn absent_item(rng: &mut Rng, draft: &mut Draft, kind: ExportKind) {
    let taken = rng.choose(&draft.sheet.exports).map_or(0, |e| e.name);
    let any = rng.word();
    let name = rng.pick(&[any, taken]);
    let absent = rng.absent(draft.items(kind));
    draft.insert_export(rng, export(kind, name, absent));
}

/// Places of so many exports, in random order; what is missing is added, under names of its own.
fn some_places(rng: &mut Rng, draft: &mut Draft, count: usize) -> Vec<usize> {
    while draft.sheet.exports.len() < count {
        let item = draft.some_item(rng);
        let (kind, index) =
            item.unwrap_or_else(|| (ExportKind::Type, draft.entry(TypeEntry::Coroutine)));
        let name = draft.free_name(rng);
        draft.insert_export(rng, export(kind, name, index));
    }
    let mut places = rng.permutation(draft.sheet.exports.len());
    places.truncate(count);
    places.into_iter().map(|place| place as usize).collect()
}

fn absent_name(rng: &mut Rng, draft: &mut Draft) {
    let place = some_places(rng, draft, 1)[0];
    let absent = rng.absent(draft.sheet.strings.len());
    draft.sheet.exports[place].name = rng.pick(&[absent, absent, u32::MAX]);
}

/// So many exports get the name of one of them.
fn repeat_name(rng: &mut Rng, draft: &mut Draft, count: usize) {
    let places = some_places(rng, draft, count);
    let name = draft.sheet.exports[places[0]].name;
    for place in places {
        draft.sheet.exports[place].name = name;
    }
}

/// Two exports have names of two numbers and of one text.
fn repeat_bytes(rng: &mut Rng, draft: &mut Draft) {
    let places = some_places(rng, draft, 2);
    let sheet = &mut draft.sheet;
    let name = sheet.exports[places[0]].name as usize;
    let text = sheet.strings.get(name).cloned().unwrap_or_default();
    sheet.exports[places[1]].name = sheet.strings.len() as u32;
    sheet.strings.push(text);
}
