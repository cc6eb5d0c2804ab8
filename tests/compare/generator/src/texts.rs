//! Strings: short ones, equal ones, empty ones, and multi-byte ones long enough to cross a block border.

use crate::Rng;

const WORDS: [&str; 12] = [
    "",
    "a",
    "b",
    "ab",
    "rate",
    "lift",
    "tür",
    "тариф",
    "料金",
    "🛗",
    "a\u{0}",
    "\u{10ffff}",
];

const CHARACTERS: [char; 8] = ['x', 'é', 'Ж', '€', '日', '\u{ffff}', '𝄞', '\u{10ffff}'];

/// One string.
pub fn text(rng: &mut Rng) -> Vec<u8> {
    if rng.one_in(3) {
        return mixed(rng, 6);
    }
    rng.pick(&WORDS).as_bytes().to_vec()
}

/// Up to so many characters of one to four bytes.
pub fn mixed(rng: &mut Rng, most: usize) -> Vec<u8> {
    let length = rng.within(0, most);
    let text: String = (0..length).map(|_| rng.pick(&CHARACTERS)).collect();
    text.into_bytes()
}

/// A string of at least this many bytes, nearly all of them inside multi-byte characters.
pub fn long(rng: &mut Rng, bytes: usize) -> Vec<u8> {
    let mut text = String::from(["", "x", "xx", "xxx"][rng.below(4)]);
    while text.len() < bytes {
        text.push(rng.pick(&CHARACTERS[1..]));
    }
    text.into_bytes()
}
