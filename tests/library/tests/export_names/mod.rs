//! Wrong rules of export names are caught, each of which differs from the right one in one thing.

use sheets::{Edition, Export, Sheet};

use super::assert_caught_given;
use super::misread::{first_read, misread, numbers};

/// No name is read.
fn unread(sheet: &mut Sheet) -> bool {
    sheet.edition = Edition::First;
    true
}

fn text<'s>(sheet: &'s Sheet, e: &Export) -> Option<&'s [u8]> {
    sheet.strings.get(e.name as usize).map(Vec::as_slice)
}

#[test]
fn a_name_that_passes() {
    assert_caught_given(&[
        // Every number, every repeat, one number past the last string.
        (
            |sheet, hosts| misread(sheet, hosts, 27, |plain, _| unread(plain)),
            "expected [27, 0, ",
        ),
        (
            |sheet, hosts| misread(sheet, hosts, 28, |plain, _| unread(plain)),
            "expected [28, 0, ",
        ),
        (
            |sheet, hosts| {
                misread(sheet, hosts, 27, |plain, _| {
                    let passes = |e: &Export| e.name as usize <= plain.strings.len();
                    plain.exports.iter().all(passes) && unread(plain)
                });
            },
            "expected [27, 0, ",
        ),
    ]);
}

/// An export and its place.
type Placed<'s> = (usize, &'s Export);

/// A repeat is one only where it is also this.
fn only(sheet: &mut Vec<u8>, hosts: &[u8], also: impl Fn(Placed, Placed) -> bool) {
    misread(sheet, hosts, 28, |plain, _| {
        let placed = || plain.exports.iter().enumerate();
        let repeats = |a: Placed, b: Placed| text(plain, a.1) == text(plain, b.1) && also(a, b);
        let is_found = placed().any(|b| placed().take(b.0).any(|a| repeats(a, b)));
        !is_found && unread(plain)
    });
}

#[test]
fn a_repeat_that_passes() {
    let right = "expected [28, 0, ";
    assert_caught_given(&[
        // Other numbers, other kinds, no neighbours, far apart, the first.
        (
            |sheet, hosts| only(sheet, hosts, |(_, a), (_, b)| a.name == b.name),
            right,
        ),
        (
            |sheet, hosts| only(sheet, hosts, |(_, a), (_, b)| a.kind == b.kind),
            right,
        ),
        (
            |sheet, hosts| only(sheet, hosts, |(i, _), (j, _)| i + 1 == j),
            right,
        ),
        (
            |sheet, hosts| only(sheet, hosts, |(i, _), (j, _)| j - i <= 16),
            right,
        ),
        (|sheet, hosts| only(sheet, hosts, |(i, _), _| i > 0), right),
    ]);
}

/// A text is no name where it is this.
fn no_name(sheet: &mut Vec<u8>, hosts: &[u8], is_none: impl Fn(&Sheet, &Export) -> bool) {
    misread(sheet, hosts, 0, |plain, _| {
        let place = plain.exports.iter().position(|e| is_none(plain, e));
        place.is_some_and(|place| {
            plain.exports[place].name = u32::MAX;
            true
        })
    });
}

/// Two texts are one name where what is read of them is.
fn one_name(sheet: &mut Vec<u8>, hosts: &[u8], read: fn(&[u8]) -> &[u8]) {
    misread(sheet, hosts, 0, |plain, _| {
        let as_read = |e: &Export| text(plain, e).map(read);
        let names: Vec<_> = plain.exports.iter().map(as_read).collect();
        let earlier = |j: usize| names[..j].iter().position(|name| *name == names[j]);
        let found = (0..names.len()).find_map(|j| earlier(j).map(|i| (i, j)));
        found.is_some_and(|(i, j)| {
            plain.exports[j].name = plain.exports[i].name;
            true
        })
    });
}

/// What stands before the zero bytes at the end.
fn without_zeros(text: &[u8]) -> &[u8] {
    let end = text
        .iter()
        .rposition(|&b| b != 0)
        .map_or(0, |last| last + 1);
    &text[..end]
}

#[test]
fn a_name_that_does_not_pass() {
    assert_caught_given(&[
        // The last string, the empty one.
        (
            |sheet, hosts| {
                no_name(sheet, hosts, |plain, e| {
                    e.name as usize + 1 == plain.strings.len()
                });
            },
            "answered [27, 0, ",
        ),
        (
            |sheet, hosts| no_name(sheet, hosts, |plain, e| text(plain, e) == Some(b"")),
            "answered [27, 0, ",
        ),
        // Zero bytes at the end left out, four bytes read.
        (
            |sheet, hosts| one_name(sheet, hosts, without_zeros),
            "answered [28, 0, ",
        ),
        (
            |sheet, hosts| one_name(sheet, hosts, |text| &text[..text.len().min(4)]),
            "answered [28, 0, ",
        ),
        (
            |sheet, hosts| first_read(sheet, hosts, 27),
            "answered [27, 0, ",
        ),
        (
            |sheet, hosts| first_read(sheet, hosts, 28),
            "answered [28, 0, ",
        ),
    ]);
}

/// Every index is tested before the names, where this kind is right.
fn indices_first(sheet: &mut Vec<u8>, hosts: &[u8], right: u32) {
    misread(sheet, hosts, right, |plain, _| {
        unread(plain) && numbers(plain, hosts)[0] == 3
    });
}

/// Names that are no string come first, or last, where that gives another kind.
fn strings_apart(sheet: &mut Vec<u8>, hosts: &[u8], [right, wrong]: [u32; 2], strings_first: bool) {
    misread(sheet, hosts, right, |plain, _| {
        let strings = plain.strings.len();
        let is_string = |e: &Export| (e.name as usize) < strings;
        plain.exports.sort_by_key(|e| is_string(e) != strings_first);
        numbers(plain, hosts)[0] == wrong
    });
}

/// The name of an export is tested before its index, where that gives this kind.
fn name_first(sheet: &mut Vec<u8>, hosts: &[u8], wrong: u32) {
    misread(sheet, hosts, 3, |plain, [_, _, index, ..]| {
        let Some(place) = plain.exports.iter().position(|e| e.index == index) else {
            return false;
        };
        plain.exports[place].index = 0;
        let number = match wrong {
            27 => plain.exports[place].name,
            _ => place as u32,
        };
        numbers(plain, hosts)[..3] == [wrong, 0, number]
    });
}

#[test]
fn an_order_of_export_tests() {
    assert_caught_given(&[
        (
            |sheet, hosts| indices_first(sheet, hosts, 27),
            "answered [3, ",
        ),
        (
            |sheet, hosts| indices_first(sheet, hosts, 28),
            "answered [3, ",
        ),
        (
            |sheet, hosts| strings_apart(sheet, hosts, [28, 27], false),
            "expected [28, 0, ",
        ),
        (
            |sheet, hosts| strings_apart(sheet, hosts, [27, 28], true),
            "expected [27, 0, ",
        ),
        (|sheet, hosts| name_first(sheet, hosts, 27), "expected [3, "),
        (|sheet, hosts| name_first(sheet, hosts, 28), "expected [3, "),
    ]);
}
