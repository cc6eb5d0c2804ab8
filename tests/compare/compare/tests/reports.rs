//! The command `reports`: a program that prints what brute force says passes, and one that differs in anything is caught.

use std::fs;
use std::os::unix::fs::PermissionsExt;
use std::path::{Path, PathBuf};
use std::process::{Command, Output};

/// An empty folder of that name.
fn folder(name: &str) -> PathBuf {
    let folder = Path::new(env!("CARGO_TARGET_TMPDIR")).join(name);
    if folder.exists() {
        fs::remove_dir_all(&folder).expect("it is removed");
    }
    fs::create_dir(&folder).expect("it is made");
    folder
}

/// Holds to brute force a script that prints it, with something done to it; temporary folders are made in `place`.
fn held(place: &Path, done: &str) -> Output {
    let program = place.with_extension("script");
    let compare = env!("CARGO_BIN_EXE_compare");
    let script = format!("#!/bin/sh\n\"{compare}\" report hosts \"$@\" {done}\n");
    fs::write(&program, script).expect("it is written");
    fs::set_permissions(&program, fs::Permissions::from_mode(0o755)).expect("it may be run");
    let mut command = Command::new(compare);
    command.env("TMPDIR", place).arg("reports").arg(&program);
    let options = ["--seed", "3", "--cases", "450"];
    command.args(options).output().expect("it runs")
}

fn left(place: &Path) -> Vec<PathBuf> {
    let entries = fs::read_dir(place).expect("it is there");
    entries
        .map(|entry| entry.expect("an entry").path())
        .collect()
}

#[test]
fn what_brute_force_prints_passes() {
    let place = folder("same");
    let output = held(&place, "");
    let text = String::from_utf8(output.stdout).expect("text");
    assert_eq!(output.status.code(), Some(0), "{text}");
    assert!(text.starts_with("450 sheets (") && text.contains(" in 3 batches, "));
    assert!(text.ends_with(" lines: no difference\n"), "{text}");
    assert!(left(&place).is_empty());
}

#[test]
fn what_differs_is_caught() {
    let wrong = [
        ("a-number", "| sed '7s/.$/x/'", ", line 7: "),
        ("the-sums", "| sed '$s/ / 1/'", ": the program prints "),
        (
            "a-size",
            "| sed -E 's/^([0-9]+) 2$/\\1 3/'",
            ": the program prints ",
        ),
        ("a-line-less", "| sed '5d'", ", line "),
        ("a-line-more", "; echo 0 0", "brute force nothing"),
        ("no-sums", "| sed '$d'", "the program prints nothing, "),
        ("no-last-end", "| head -c -1", "\", brute force \""),
        (
            "nothing",
            ">/dev/null",
            ", line 1: the program prints nothing, ",
        ),
        ("status", "; exit 3", "after the last line: exit status: 3"),
        ("killed", "; kill -9 $$", "after the last line: signal: 9"),
    ];
    for (name, done, said) in wrong {
        let place = folder(name);
        let output = held(&place, done);
        let text = String::from_utf8(output.stderr).expect("text");
        assert_eq!(output.status.code(), Some(1), "{name}: {text}");
        assert!(
            text.starts_with("seed 3, batch ") && text.contains(said),
            "{name}: {text}"
        );
        // The batch is kept, and the message says where.
        let kept = left(&place);
        assert_eq!(kept.len(), 1, "{name}");
        assert!(
            text.ends_with(&format!("\nkept as {}\n", kept[0].display())),
            "{text}"
        );
        assert!(kept[0].join("0").exists(), "{name}");
    }
}

#[test]
fn what_cannot_be_run_leaves_nothing() {
    let place = folder("none");
    let program = place.with_extension("text");
    fs::write(&program, "no program").expect("it is written");
    for program in [program.as_path(), Path::new("/nowhere/at/all")] {
        let mut command = Command::new(env!("CARGO_BIN_EXE_compare"));
        command.env("TMPDIR", &place).arg("reports").arg(program);
        let output = command.output().expect("it runs");
        let text = String::from_utf8(output.stderr).expect("text");
        assert_eq!(
            (output.status.code(), output.stdout.len()),
            (Some(1), 0),
            "{text}"
        );
        assert!(text.contains(program.to_str().expect("text")), "{text}");
        assert!(left(&place).is_empty());
    }
}
