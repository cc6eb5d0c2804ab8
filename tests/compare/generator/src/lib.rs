//! Seeded cases: mostly valid modules, aimed faults, damage and renumberings.

mod borders;
mod bulk;
mod cases;
mod code;
mod damage;
mod draft;
mod faults;
mod forest;
mod functions;
mod lists;
mod loose;
mod pairs;
mod rng;
mod scale;
mod texts;
mod valid;

pub use borders::{
    borders, chains, export_names, import_arguments, several_faults, wide_borders, Border,
};
pub use cases::{case, Case};
pub use draft::Draft;
pub use faults::{faults, Fault};
pub use loose::loose;
pub use pairs::{pair, Pair};
pub use rng::Rng;
pub use scale::Scale;
pub use valid::{hook_shape, valid};
