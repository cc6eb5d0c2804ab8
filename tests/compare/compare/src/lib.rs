//! The reference loader's answers to sheets, and what other loaders are compared with.

mod answer;
mod arguments;
mod by_format;
mod coverage;
mod descent;
mod editions;
mod families;
#[cfg(test)]
mod forests;
mod lengths;
mod linked;
mod nearest;
mod options;
mod query;
mod renumbered;
mod reports;
mod stored;
mod table;
mod words;

pub use answer::{answer, answer_plain, load, Answer};
pub use arguments::leaves_out_arguments;
pub use by_format::by_format;
pub use coverage::{Coverage, FULL_RUN};
pub use descent::{chain, descends_by_parents, image};
pub use editions::shown_border;
pub use families::{family_sizes, is_root, report, struct_count};
pub use lengths::chain_lengths;
pub use linked::Linked;
pub use nearest::Ancestors;
pub use options::Options;
pub use query::{length_in, nearest_in, nearest_numbers, query, size_in};
pub use renumbered::{asked_numbers, length_difference, nearest_difference, pair_difference};
pub use reports::hold_reports;
pub use stored::{read_cases, write_cases, StoredCase};
pub use table::{said_by, Accepted};
pub use words::{describe_case, line_of};
