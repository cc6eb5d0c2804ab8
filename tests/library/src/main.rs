//! The library against the reference; see docs/COMPARISON.md.

use std::fs;
use std::path::{Path, PathBuf};
use std::process::ExitCode;
use std::thread;
use std::time::Instant;

use compare::{read_cases, write_cases, Options, FULL_RUN};
use generator::{Case, Rng};
use versus::{run, Checker, Difference, Library, Plan};

const USAGE: &str = "usage:
  versus run [--seed S] [--cases N] [--from K] [--jobs J] [--host-blocks B]
  versus check FILE
numbers are decimal; seed 1, 5000 cases from case 0, and as many jobs as processors by default";

fn main() -> ExitCode {
    let args: Vec<String> = std::env::args().skip(1).collect();
    match command(&args) {
        Some(Ok(text)) => {
            println!("{text}");
            ExitCode::SUCCESS
        }
        Some(Err(message)) => {
            eprintln!("versus: {message}");
            ExitCode::from(1)
        }
        None => {
            eprintln!("{USAGE}");
            ExitCode::from(2)
        }
    }
}

/// None when the arguments are wrong.
fn command(args: &[String]) -> Option<Result<String, String>> {
    let (name, rest) = args.split_first()?;
    match (name.as_str(), rest) {
        ("run", _) => Some(cases(&plan(rest)?)),
        ("check", [file]) => Some(check(file)),
        _ => None,
    }
}

fn plan(args: &[String]) -> Option<Plan> {
    let names = ["--seed", "--cases", "--from", "--jobs", "--host-blocks"];
    let options = Options::read(args, &names)?;
    let processors = thread::available_parallelism().map_or(1, |n| n.get() as u64);
    Some(Plan {
        seed: options.number("--seed", 1)?,
        from: options.number("--from", 0)?,
        cases: options.number("--cases", FULL_RUN)?,
        jobs: options.number("--jobs", processors)? as usize,
        host_blocks: options.number("--host-blocks", u64::MAX)?,
    })
}

fn cases(plan: &Plan) -> Result<String, String> {
    let start = Instant::now();
    let tally = run(&Library, plan).map_err(|found| keep(plan, &found))?;
    let seconds = start.elapsed().as_secs_f64();
    let missed = tally.missed();
    if plan.cases >= FULL_RUN && !missed.is_empty() {
        return Err(format!("no case has hit {}\n{tally}", missed.join(", ")));
    }
    let rate = tally.cases as f64 / seconds;
    Ok(format!(
        "{tally}{seconds:.0} seconds, {rate:.0} cases a second"
    ))
}

/// Writes the cases that differ beside the build, and says where.
fn keep(plan: &Plan, found: &Difference) -> String {
    let folder = Path::new(env!("CARGO_MANIFEST_DIR")).join("target/versus");
    let path = folder.join(format!("seed-{}-case-{}", plan.seed, found.index));
    let bytes = write_cases(&found.cases);
    match fs::create_dir_all(&folder).and_then(|()| fs::write(&path, bytes)) {
        Ok(()) => format!("{}\nkept as {}", found.what, path.display()),
        Err(e) => format!("{}\nnot kept: {}: {e}", found.what, path.display()),
    }
}

/// Holds the library to the reference on stored cases.
fn check(file: &str) -> Result<String, String> {
    let bytes = fs::read(PathBuf::from(file)).map_err(|e| format!("{file}: {e}"))?;
    let cases = read_cases(&bytes).ok_or_else(|| format!("{file}: no file of stored cases"))?;
    let mut checker = Checker::new(&Library);
    for (k, c) in (0..).zip(cases) {
        let case = Case {
            label: String::new(),
            sheet: c.sheet,
            hosts: c.hosts,
            table_len: c.table_len,
            work_len: c.work_len,
        };
        let checked = checker.given(&mut Rng::new(1, k), &case);
        checked.map_err(|what| format!("{file}: case {k}: {what}"))?;
    }
    Ok(checker.tally.to_string())
}
