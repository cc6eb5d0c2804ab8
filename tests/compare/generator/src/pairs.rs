//! Renumbered pairs: two sheets of one edition that differ by one renumbering of types, and one host list.

use sheets::renumber;

use crate::borders::{at_border, borders, chains, export_names, import_arguments};
use crate::cases::faulty_draft;
use crate::{loose, valid, Draft, Rng, Scale};

/// A module, the images of its types, and the module renumbered.
#[derive(Clone, Debug)]
pub struct Pair {
    pub first: Draft,
    pub images: Vec<u32>,
    pub second: Draft,
}

/// Pair `open_index` of a seed.
pub fn pair(seed: u64, index: u64) -> Pair {
    let mut rng = Rng::new(seed, index);
    let rng = &mut rng;
    let first = match rng.below(10) {
        0..=5 => {
            let scale = Scale::any(rng);
            valid(rng, &scale)
        }
        6 if rng.coin() => {
            let own_edition = [chains(), export_names(), import_arguments()].concat();
            rng.pick(&own_edition).1(rng)
        }
        6 => at_border(rng, &borders()).1,
        7 => loose(rng),
        _ => faulty_draft(rng, Scale::any).1,
    };
    let images = rng.permutation(first.sheet.types.len());
    let second = Draft {
        sheet: renumber(&first.sheet, &images),
        hosts: first.hosts.clone(),
    };
    Pair {
        first,
        images,
        second,
    }
}
