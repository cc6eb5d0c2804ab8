//! Modules at the borders of the rules: on the last number that holds, or one past it.

mod arguments;
mod calls;
mod families;
mod layout;
mod names;
mod several;
mod shapes;

use crate::draft::edition;
use crate::{Draft, Rng};

/// A border and how to make a module there.
pub type Border = (&'static str, fn(&mut Rng) -> Draft);

/// A module at one of these borders, in either edition, and the border's name.
pub fn at_border(rng: &mut Rng, all: &[Border]) -> (&'static str, Draft) {
    let (name, make) = rng.pick(all);
    let mut draft = make(rng);
    draft.sheet.edition = edition(rng);
    (name, draft)
}

/// Borders that fit a few blocks.
pub fn borders() -> Vec<Border> {
    [
        families::BORDERS,
        calls::BORDERS,
        shapes::BORDERS,
        layout::BORDERS,
    ]
    .concat()
}

/// Chains at the limits of both editions.
pub fn chains() -> Vec<Border> {
    families::CHAINS.to_vec()
}

/// Export names in both editions.
pub fn export_names() -> Vec<Border> {
    [names::BORDERS, names::SEVERAL].concat()
}

/// Arguments of imports in both editions.
pub fn import_arguments() -> Vec<Border> {
    [arguments::BORDERS, arguments::SEVERAL].concat()
}

/// One place with several faults.
pub fn several_faults() -> Vec<Border> {
    [several::BORDERS, names::SEVERAL, arguments::SEVERAL].concat()
}

/// Borders at 65,536, which take hundreds of blocks.
pub fn wide_borders() -> Vec<Border> {
    [families::WIDE, calls::WIDE].concat()
}
