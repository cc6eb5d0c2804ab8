//! A loader against the reference: every answer, every lent word, every family, case by case.

mod checker;
mod damage;
mod families;
mod lengths;
mod lent;
mod loader;
mod nearest;
mod run;
mod tally;

pub use checker::{Checker, Difference};
pub use lent::Lent;
pub use loader::{Library, Loader};
pub use run::{run, Plan};
pub use tally::Tally;
