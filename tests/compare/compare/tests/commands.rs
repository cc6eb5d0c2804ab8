//! The commands: what they print and how they end.

use std::path::PathBuf;
use std::process::{Command, Output};

fn compare(args: &[&str]) -> Output {
    let program = env!("CARGO_BIN_EXE_compare");
    Command::new(program).args(args).output().expect("it runs")
}

fn code(args: &[&str]) -> Option<i32> {
    compare(args).status.code()
}

fn stdout(args: &[&str]) -> String {
    String::from_utf8(compare(args).stdout).expect("text")
}

fn file(name: &str) -> PathBuf {
    PathBuf::from(env!("CARGO_TARGET_TMPDIR")).join(name)
}

#[test]
fn wrong_arguments_end_with_2() {
    let wrong: [&[&str]; 14] = [
        &[],
        &["what"],
        &["coverage", "--seed"],
        &["coverage", "--seed", "x"],
        &["coverage", "--seed", "1", "--seed", "2"],
        &["cases", "--count", "1"],
        &["cases", "--max-blocks", "0", "--out", "file"],
        &["check"],
        &["show", "file"],
        &["antt", "--max-words", "127"],
        &["numbers", "hosts"],
        &["report"],
        &["reports"],
        &["reports", "program", "--count", "1"],
    ];
    for args in wrong {
        assert_eq!(code(args), Some(2), "{args:?}");
    }
    assert_eq!(code(&["check", "/nowhere/at/all"]), Some(1));
}

#[test]
fn coverage_prints_every_kind() {
    let text = stdout(&["coverage", "--seed", "1", "--cases", "50"]);
    let lines: Vec<_> = text.lines().collect();
    assert_eq!(lines.len(), 6);
    assert!(lines[0].starts_with("kind 0:"));
    assert!([" 24:", " 27:", " 28:"]
        .iter()
        .all(|kind| lines[0].contains(kind)));
    assert!([" 25:", " 26:"].iter().all(|kind| !lines[0].contains(kind)));
    assert!(lines[1].contains(" 14:"));
    assert!(
        lines[4].starts_with("accepted sheets by longest chain 0:")
            && lines[4].contains(" 254-256:")
    );
    assert!(lines[5].starts_with("editions edition 1 accepted:"));
}

#[test]
fn stored_cases_are_checked_and_shown() {
    let path = file("stored.cases");
    let path = path.to_str().expect("text");
    assert_eq!(
        code(&["cases", "--seed", "5", "--count", "40", "--out", path]),
        Some(0)
    );
    assert!(stdout(&["check", path]).starts_with("40 cases agree\n"));
    assert!(stdout(&["show", path, "3"]).contains("answer: "));
    assert_eq!(code(&["show", path, "40"]), Some(1));
    // A stored answer that is not the reference's is found: the first case's kind.
    let mut bytes = std::fs::read(path).expect("it was written");
    bytes[8 + 16] ^= 1;
    std::fs::write(path, bytes).expect("it is written");
    assert_eq!(code(&["check", path]), Some(1));
}

#[test]
fn lines_for_other_tools() {
    let text = stdout(&["antt", "--seed", "1", "--count", "30", "--max-words", "256"]);
    assert_eq!(text.lines().count(), 30);
    for line in text.lines() {
        let parts: Vec<_> = line.split(" | ").collect();
        assert_eq!(parts.len(), 6);
        assert!(parts[0].split_whitespace().count() <= 1024);
        let numbers: Vec<u32> = parts[4]
            .split(' ')
            .map(|n| n.parse().expect("a number"))
            .collect();
        assert_eq!(numbers.len(), 6);
        match numbers[0] {
            0 => assert_eq!(parts[5].split(' ').count(), numbers[2] as usize),
            _ => assert_eq!(parts[5], "-"),
        }
    }
}

#[test]
fn numbers_of_a_sheet_under_a_host_list() {
    let (hosts, sheet) = (file("hosts"), file("sheet"));
    std::fs::write(&hosts, sheets::encode_hosts(&[]).to_bytes()).expect("it is written");
    let empty = sheets::encode_sheet(&sheets::Sheet::default()).to_bytes();
    std::fs::write(&sheet, empty).expect("it is written");
    let (hosts, sheet) = (hosts.to_str().expect("text"), sheet.to_str().expect("text"));
    let line = format!("{sheet} 0 0 49 0 0 0\n");
    assert_eq!(stdout(&["numbers", hosts, sheet, sheet]), line.repeat(2));
    assert_eq!(code(&["numbers", hosts, "/nowhere/at/all"]), Some(1));
}

#[test]
fn the_report_on_files() {
    let samples = PathBuf::from(env!("CARGO_MANIFEST_DIR")).join("../../../samples");
    let sample = |name: &str| samples.join(name).to_str().expect("text").to_string();
    let (hosts, lifts, ring) = (
        sample("hosts"),
        sample("lifts.sheet"),
        sample("self-parent.sheet"),
    );
    let families = "0 0 174 0 0 0\n0 4\n1 1\n2 2\n3 1\n";
    let printed = stdout(&["report", &hosts, &lifts, "/nowhere/at/all", &ring, &lifts]);
    let refused = "1 0 0 0 0 0\n17 0 0 0 0 0\n";
    assert_eq!(printed, [families, refused, families, "8 16\n"].concat());
    assert_eq!(
        stdout(&["report", "/nowhere/at/all", &lifts]),
        "23 0 0 0 0 0\n0 0\n"
    );
    assert_eq!(stdout(&["report", &hosts]), "0 0\n");
}
