//! What wrong rules of edition 2 take a sheet for: another one, of which the library then says what they would say.

use compare::answer;
use sheets::{decode_sheet, encode_sheet, Edition, Sheet};

use super::relabel;

/// Pairs of exports are looked at one by one, so not in larger sheets.
const MOST_EXPORTS: usize = 1_000;

pub fn numbers(sheet: &Sheet, hosts: &[u8]) -> [u32; 6] {
    let sheet = encode_sheet(sheet).to_bytes();
    answer(&sheet, hosts, u32::MAX, u32::MAX).numbers
}

/// A sheet of edition 2 that is to be answered with this kind becomes what a wrong loader takes it for.
pub fn misread(
    sheet: &mut Vec<u8>,
    hosts: &[u8],
    right: u32,
    alter: impl Fn(&mut Sheet, [u32; 6]) -> bool,
) {
    let Some((mut plain, length)) = decode_sheet(sheet) else {
        return;
    };
    if plain.edition == Edition::First || plain.exports.len() > MOST_EXPORTS {
        return;
    }
    let numbers = numbers(&plain, hosts);
    if numbers[0] == right && alter(&mut plain, numbers) {
        // As long as before, by empty strings that nothing names, so that the slices are neither too short nor long enough by it.
        let less = length as usize - encode_sheet(&plain).words.len();
        plain.strings.resize(plain.strings.len() + less, Vec::new());
        *sheet = encode_sheet(&plain).to_bytes();
    }
}

/// Edition 1 is read as 2, where that gives this kind.
pub fn first_read(sheet: &mut Vec<u8>, hosts: &[u8], kind: u32) {
    let mut second = sheet.clone();
    relabel(&mut second, 1, 2);
    if answer(&second, hosts, u32::MAX, u32::MAX).numbers[0] == kind {
        *sheet = second;
    }
}
