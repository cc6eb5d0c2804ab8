//! A program's stored files (crates/NAME: data, args, stdout), and the reference's answers to them.

use std::path::PathBuf;

use compare::answer;
use sheets::BLOCK;

/// A program takes at most so many bytes; more, or no file, counts as no bytes.
const MOST: usize = 16 * BLOCK;

fn folder(program: &str) -> PathBuf {
    PathBuf::from(env!("CARGO_MANIFEST_DIR")).join("../../../crates").join(program)
}

pub fn lines(program: &str, name: &str) -> Vec<String> {
    let text = std::fs::read_to_string(folder(program).join(name)).expect("it is stored");
    text.lines().map(str::to_string).collect()
}

fn bytes(program: &str, name: &str) -> Vec<u8> {
    let bytes = std::fs::read(folder(program).join("data").join(name)).unwrap_or_default();
    if bytes.len() > MOST {
        Vec::new()
    } else {
        bytes
    }
}

/// The six numbers of a stored sheet under a stored host list.
pub fn numbers(program: &str, sheet: &str, hosts: &str) -> [u32; 6] {
    answer(&bytes(program, sheet), &bytes(program, hosts), u32::MAX, u32::MAX).numbers
}

/// Every line that the program must print is its argument and the numbers given for it.
pub fn assert_lines(program: &str, numbers: impl Fn(&str) -> [u32; 6]) {
    let (names, expected) = (lines(program, "args"), lines(program, "stdout"));
    assert_eq!(names.len(), expected.len());
    let differ: Vec<_> = names
        .iter()
        .zip(&expected)
        .map(|(name, expected)| (expected, format!("{name} {}", numbers(name).map(|n| n.to_string()).join(" "))))
        .filter(|(expected, found)| *expected != found)
        .map(|(expected, found)| format!("stored {expected}, reference {found}"))
        .collect();
    assert!(differ.is_empty(), "{}", differ.join("\n"));
}

/// Each stored file but the host list is an argument once, and one argument names no file.
pub fn assert_named(program: &str) {
    let data = std::fs::read_dir(folder(program).join("data")).expect("it is stored");
    let mut stored: Vec<_> = data
        .map(|entry| entry.expect("an entry").file_name())
        .map(|name| name.into_string().expect("text"))
        .filter(|name| name != "hosts")
        .collect();
    stored.push("missing-file".to_string());
    stored.sort();
    let mut names = lines(program, "args");
    names.sort();
    assert_eq!(stored, names);
}
