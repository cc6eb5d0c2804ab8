//! Commands over the reference loader; see README.md.

use std::collections::HashMap;
use std::io::Write;
use std::process::ExitCode;

use compare::{
    answer, describe_case, hold_reports, line_of, read_cases, report, shown_border, write_cases,
    Coverage, Options, StoredCase, FULL_RUN,
};
use generator::case;
use sheets::BLOCK;

const USAGE: &str = "usage:
  compare coverage [--seed S] [--cases N]
  compare cases [--seed S] [--count N] [--max-blocks B] --out FILE
  compare check FILE
  compare show FILE K
  compare numbers HOSTS SHEET...
  compare report HOSTS FILE...
  compare reports PROGRAM [--seed S] [--cases N]
  compare antt [--seed S] [--count N] [--max-words W]
numbers are decimal; seed 1 by default";

fn main() -> ExitCode {
    let args: Vec<String> = std::env::args().skip(1).collect();
    match run(&args) {
        Some(Ok(())) => ExitCode::SUCCESS,
        Some(Err(message)) => {
            eprintln!("{message}");
            ExitCode::from(1)
        }
        None => {
            eprintln!("{USAGE}");
            ExitCode::from(2)
        }
    }
}

/// None when the arguments are wrong.
fn run(args: &[String]) -> Option<Result<(), String>> {
    let (command, rest) = args.split_first()?;
    match command.as_str() {
        "coverage" => {
            let options = Options::read(rest, &["--seed", "--cases"])?;
            let cases = options.number("--cases", FULL_RUN)?;
            Some(coverage(options.number("--seed", 1)?, cases))
        }
        "cases" => {
            let names = ["--seed", "--count", "--max-blocks", "--out"];
            let options = Options::read(rest, &names)?;
            let blocks = options.number("--max-blocks", 2)? as usize;
            let (seed, count) = (
                options.number("--seed", 1)?,
                options.number("--count", 100)?,
            );
            let bytes = blocks.checked_mul(BLOCK).filter(|&b| b >= BLOCK)?;
            let stored = small_cases(seed, count, bytes);
            let out = options.text("--out")?;
            Some(write_file(out, &write_cases(&stored)))
        }
        "antt" => {
            let options = Options::read(rest, &["--seed", "--count", "--max-words"])?;
            let words = options.number("--max-words", 256)? as usize;
            // Less than one block of 128 words would leave broken sheets only.
            let bytes = words.checked_mul(4).filter(|&b| b >= BLOCK)?;
            let (seed, count) = (
                options.number("--seed", 1)?,
                options.number("--count", 100)?,
            );
            let lines = small_cases(seed, count, bytes);
            let lines: Vec<_> = lines.iter().map(|c| line_of(c) + "\n").collect();
            Some(print(&lines.concat()))
        }
        _ => on_files(command, rest),
    }
}

/// The commands whose first argument is a file.
fn on_files(command: &str, files: &[String]) -> Option<Result<(), String>> {
    match (command, files) {
        ("check", [file]) => Some(check(file)),
        ("show", [file, k]) => Some(show(file, k.parse().ok()?)),
        ("numbers", [_, _, ..]) => Some(numbers(&files[0], &files[1..])),
        ("report", [hosts, sheets @ ..]) => Some(print_report(hosts, sheets)),
        ("reports", [program, rest @ ..]) => {
            let options = Options::read(rest, &["--seed", "--cases"])?;
            let cases = options.number("--cases", FULL_RUN)?;
            let held = hold_reports(program, options.number("--seed", 1)?, cases);
            Some(held.and_then(|text| print(&text)))
        }
        _ => None,
    }
}

fn coverage(seed: u64, cases: u64) -> Result<(), String> {
    let mut coverage = Coverage::default();
    for index in 0..cases {
        let case = case(seed, index);
        let answer = answer(&case.sheet, &case.hosts, case.table_len, case.work_len);
        coverage.add(&case.sheet, &case.hosts, answer.numbers);
    }
    print(&coverage.to_string())?;
    let missed = coverage.missed();
    if cases >= FULL_RUN && !missed.is_empty() {
        return Err(format!("missed: {}", missed.join(", ")));
    }
    Ok(())
}

/// Cases of a seed whose sheet and host list have at most so many bytes, spread over kinds, words and borders of the editions.
fn small_cases(seed: u64, count: u64, most_bytes: usize) -> Vec<StoredCase> {
    let mut taken: HashMap<_, u64> = HashMap::new();
    let mut cases = Vec::new();
    for index in 0.. {
        if cases.len() as u64 == count {
            break;
        }
        let c = case(seed, index);
        if c.sheet.len() > most_bytes || c.hosts.len() > most_bytes {
            continue;
        }
        let answer = answer(&c.sheet, &c.hosts, c.table_len, c.work_len);
        let [kind, word, ..] = answer.numbers;
        let border = shown_border(&c.sheet, &c.hosts, answer.numbers);
        // A quarter may be accepted at no border; a border, or else another kind or word, gets one in 100, and more once all were met.
        let aim = border.ok_or((kind, word));
        let plain = aim == Err((0, 0));
        let share = if plain { count / 4 } else { count / 100 };
        let most = share.max(1) + index / 5_000;
        let taken = taken.entry(aim).or_default();
        if *taken < most {
            *taken += 1;
            cases.push(StoredCase {
                sheet: c.sheet,
                hosts: c.hosts,
                table_len: c.table_len,
                work_len: c.work_len,
                answer,
            });
        }
    }
    cases
}

/// Prints, without a panic when the reader has gone.
fn print(text: &str) -> Result<(), String> {
    let written = std::io::stdout().write_all(text.as_bytes());
    written.map_err(|e| format!("output: {e}"))
}

fn write_file(path: &str, bytes: &[u8]) -> Result<(), String> {
    std::fs::write(path, bytes).map_err(|e| format!("{path}: {e}"))
}

fn read_bytes(path: &str) -> Result<Vec<u8>, String> {
    std::fs::read(path).map_err(|e| format!("{path}: {e}"))
}

fn read_file(path: &str) -> Result<Vec<StoredCase>, String> {
    read_cases(&read_bytes(path)?).ok_or_else(|| format!("{path}: no file of stored cases"))
}

fn check(path: &str) -> Result<(), String> {
    let cases = read_file(path)?;
    let mut coverage = Coverage::default();
    for (k, c) in cases.iter().enumerate() {
        let found = answer(&c.sheet, &c.hosts, c.table_len, c.work_len);
        if found.numbers != c.answer.numbers {
            let (stored, found) = (c.answer.numbers, found.numbers);
            return Err(format!("case {k}: stored {stored:?}, answered {found:?}"));
        }
        if found.table != c.answer.table {
            return Err(format!("case {k}: the tables differ"));
        }
        coverage.add(&c.sheet, &c.hosts, found.numbers);
    }
    print(&format!("{} cases agree\n{coverage}", cases.len()))
}

fn show(path: &str, k: usize) -> Result<(), String> {
    let cases = read_file(path)?;
    let case = cases.get(k).ok_or_else(|| format!("{path}: no case {k}"))?;
    print(&describe_case(case))
}

/// The six numbers of each sheet under one host list, with slices long enough.
fn numbers(hosts: &str, sheets: &[String]) -> Result<(), String> {
    let hosts = read_bytes(hosts)?;
    for path in sheets {
        let numbers = answer(&read_bytes(path)?, &hosts, u32::MAX, u32::MAX).numbers;
        let numbers = numbers.map(|n| n.to_string()).join(" ");
        print(&format!("{path} {numbers}\n"))?;
    }
    Ok(())
}

/// The report on the families of files, as the program of that name is to print it; what cannot be read has no bytes.
fn print_report(hosts: &str, files: &[String]) -> Result<(), String> {
    let bytes = |path: &str| read_bytes(path).unwrap_or_default();
    let files: Vec<_> = files.iter().map(|path| bytes(path)).collect();
    let lines = report(&bytes(hosts), &files);
    print(&(lines.join("\n") + "\n"))
}
