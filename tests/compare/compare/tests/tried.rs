//! The stored files of the program `trial` (crates/trial, written by ../data/trial.py): what it must print is the reference's answer.

mod program;

/// A name that begins with H is that of a host list, for the empty sheet.
fn numbers(name: &str) -> [u32; 6] {
    if name.starts_with('H') {
        return program::numbers("trial", "empty", name);
    }
    program::numbers("trial", name, "hosts")
}

#[test]
fn every_line_is_the_references() {
    program::assert_lines("trial", numbers);
}

#[test]
fn every_file_is_named_once() {
    program::assert_named("trial");
}
