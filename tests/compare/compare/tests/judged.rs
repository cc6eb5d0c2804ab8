//! The stored sheets of the program `judge` (crates/judge, written by ../data/rules.py): what it must print is the reference's answer.

mod program;

/// The program writes no table, so an accepted sheet's length is 0.
fn numbers(name: &str) -> [u32; 6] {
    let mut numbers = program::numbers("judge", name, "hosts");
    if numbers[0] == 0 {
        numbers[2] = 0;
    }
    numbers
}

#[test]
fn every_line_is_the_references() {
    program::assert_lines("judge", numbers);
}

#[test]
fn every_sheet_is_named_once() {
    program::assert_named("judge");
}
