//! The linked table that an accepted sheet is to get: what the Rust has of it, and the words that are held to something else.

use bvm_lang::{rust_words, Host, Program};
use sheets::{Edition, Sheet};

use crate::chain_lengths;

/// The first word of a linked table.
pub(crate) const FIRST_WORD: u32 = 2;

/// A sheet that is accepted, and what is made of it.
pub struct Accepted {
    pub sheet: Sheet,
    pub(crate) made: Made,
}

/// What the judge of an edition makes of a sheet.
pub(crate) enum Made {
    /// The Rust, of the first.
    Rust { program: Box<Program>, host: Host },
    /// The format written out, of the second: the table.
    Format(Vec<u32>),
}

impl Accepted {
    /// The words that a loader is to write.
    pub fn table(&self) -> Vec<u32> {
        match &self.made {
            Made::Rust { program, host } => {
                completed(&rust_words(program, host), &chain_lengths(&self.sheet))
            }
            Made::Format(table) => table.clone(),
        }
    }

    /// What the Rust makes of it, of the first edition.
    pub fn program(&self) -> Option<&Program> {
        match &self.made {
            Made::Rust { program, .. } => Some(program.as_ref()),
            Made::Format(_) => None,
        }
    }

    /// The same, for who keeps nothing else.
    pub fn into_program(self) -> Option<Program> {
        match self.made {
            Made::Rust { program, .. } => Some(*program),
            Made::Format(_) => None,
        }
    }
}

/// The Rust's words, and what it leaves out: the first word, a length that is larger by the number of types, and behind each
/// pre and post the chain length.
fn completed(rust: &[u32], lengths: &[u32]) -> Vec<u32> {
    let (before, spans) = rust.split_at(first_span(rust));
    assert_eq!(spans.len(), 2 * lengths.len(), "a span for each type");
    let mut words = before.to_vec();
    (words[0], words[1]) = (FIRST_WORD, rust[1] + lengths.len() as u32);
    for (span, &length) in spans.chunks(2).zip(lengths) {
        words.extend([span[0], span[1], length]);
    }
    words
}

/// Where the first span begins, behind their count.
fn first_span(words: &[u32]) -> usize {
    words[9] as usize + 1
}

/// What says which word is to stand at this place of a table.
pub fn said_by(edition: Edition, table: &[u32], place: usize) -> &'static str {
    if edition != Edition::First {
        return "by the format";
    }
    match place.checked_sub(first_span(table)) {
        Some(at) if at % 3 == 2 => "by declared parents",
        None if place == 0 => "by the format",
        None if place == 1 => "by the reference's length and the number of types",
        _ => "by the reference",
    }
}

#[cfg(test)]
mod tests {
    use super::*;
    use crate::forests::{forest, mixed};
    use crate::{answer_plain, load};
    use sheets::{encode_hosts, encode_sheet};

    fn accepted(sheet: &Sheet) -> Accepted {
        let hosts = encode_hosts(&[]).to_bytes();
        let bytes = encode_sheet(sheet).to_bytes();
        load(&bytes, &hosts, u32::MAX, u32::MAX).expect("an accepted sheet")
    }

    #[test]
    fn spans_of_a_family() {
        let table = accepted(&forest([Some(2), Some(2), None])).table();
        assert_eq!((table[0], table[1], table.len()), (2, 79, 79));
        assert_eq!(table[table[9] as usize..], [3, 1, 2, 2, 2, 3, 2, 0, 3, 1]);
    }

    #[test]
    fn only_the_first_word_the_length_and_third_words_are_not_the_references() {
        let accepted = accepted(&mixed());
        let Made::Rust { program, host } = &accepted.made else {
            panic!("the Rust judges the first edition");
        };
        let (rust, table) = (rust_words(program, host), accepted.table());
        let says = |place| said_by(Edition::First, &table, place);
        let of_reference: Vec<u32> = (0..table.len())
            .filter(|&k| says(k) == "by the reference")
            .map(|k| table[k])
            .collect();
        assert_eq!(of_reference[..], rust[2..]);
        assert_eq!((table[0], table[1] as usize), (2, rust.len() + 11));
        assert_eq!(table.len(), rust.len() + 11);
        let last = table.len() - 1;
        let told = [0, 1, 2, last - 2, last - 1, last].map(says);
        let (reference, parents) = ("by the reference", "by declared parents");
        let length = "by the reference's length and the number of types";
        assert_eq!(
            told,
            [
                "by the format",
                length,
                reference,
                reference,
                reference,
                parents
            ]
        );
    }

    #[test]
    fn the_format_has_all_words_of_the_second_edition() {
        let second = Sheet {
            edition: Edition::Second,
            ..mixed()
        };
        let [first, second] = [mixed(), second].map(|sheet| accepted(&sheet));
        assert!(first.program().is_some() && second.program().is_none());
        // The first word is the table's and not the edition.
        assert_eq!(second.table(), first.table());
        assert_eq!(second.table()[0], 2);
        assert_eq!(
            said_by(Edition::Second, &second.table(), 2),
            "by the format"
        );
    }

    #[test]
    fn without_types_nothing_is_put_in() {
        let empty = Sheet::default();
        assert_eq!(accepted(&empty).table().len(), 49);
        assert_eq!(answer_plain(&empty, &[]).numbers, [0, 0, 49, 0, 0, 0]);
    }
}
