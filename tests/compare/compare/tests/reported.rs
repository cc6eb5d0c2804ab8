//! The stored files of the program `report` (crates/report, written by ../data/report.py): what it must print is the report by brute force.

use std::env::set_current_dir;
use std::path::PathBuf;

use compare::report;

/// What cannot be opened has no bytes.
fn bytes(name: &str) -> Vec<u8> {
    std::fs::read(name).unwrap_or_default()
}

#[test]
fn every_line_is_that_of_brute_force() {
    let folder = PathBuf::from(env!("CARGO_MANIFEST_DIR")).join("../../../crates/report");
    let text = |name: &str| std::fs::read_to_string(folder.join(name)).expect("it is stored");
    let (args, stored) = (text("args"), text("stdout"));
    // Names may be as long as the system takes them, with no folder before them.
    set_current_dir(folder.join("data")).expect("it is stored");
    let files: Vec<_> = args.lines().map(bytes).collect();
    let found = report(&bytes("hosts"), &files);
    assert!(files.len() > 1 && found.len() > files.len() + 1);
    for (k, (found, stored)) in found.iter().zip(stored.lines()).enumerate() {
        assert_eq!(found, stored, "line {k}");
    }
    assert_eq!(found.len(), stored.lines().count());
}
