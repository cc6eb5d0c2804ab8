//! The samples: the six numbers in samples/README.md, by which ../sheet and ../check try the tools, are the reference's answers.

use std::path::PathBuf;

use compare::answer;

fn sample(name: &str) -> Vec<u8> {
    let folder = PathBuf::from(env!("CARGO_MANIFEST_DIR")).join("../../../samples");
    std::fs::read(folder.join(name)).expect("it is stored")
}

fn numbers(name: &str, hosts: &str) -> [u32; 6] {
    answer(&sample(name), &sample(hosts), u32::MAX, u32::MAX).numbers
}

/// Names and six numbers of the table in README.md.
fn listed() -> Vec<(String, Vec<u32>)> {
    let text = String::from_utf8(sample("README.md")).expect("it is UTF-8");
    let mut rows = Vec::new();
    for line in text.lines() {
        let cells: Vec<&str> = line.trim_matches('|').split(" | ").map(str::trim).collect();
        let found: Vec<u32> = cells[cells.len() - 1]
            .split(' ')
            .filter_map(|w| w.parse().ok())
            .collect();
        if cells.len() == 3 && found.len() == 6 {
            rows.push((cells[0].to_string(), found));
        }
    }
    rows
}

#[test]
fn samples_are_answered_as_the_reference_does() {
    let rows = listed();
    assert_eq!(rows.len(), 35);
    for (name, expected) in rows {
        let found = match name.as_str() {
            "hosts-twice" => numbers("empty.sheet", "hosts-twice"),
            _ => numbers(&format!("{name}.sheet"), "hosts"),
        };
        assert_eq!(found[..], expected[..], "{name}");
    }
    assert_eq!(numbers("lifts.sheet", "hosts"), [0, 0, 174, 0, 0, 0]);
}
