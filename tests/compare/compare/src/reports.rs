//! The program `report` on generated sheets, batch by batch, against the report by brute force.

use std::collections::HashSet;
use std::fs;
use std::path::Path;
use std::process::Command;

use generator::{case, Case, Rng};
use sheets::build::user;
use sheets::{decode_hosts, encode_hosts, rust_host, HostEntry};

use crate::families::MOST_BYTES;
use crate::{report, FULL_RUN};

/// So many sheets are given at a time.
const BATCH: u64 = 200;

/// A large run says something where at least one in so many sheets is accepted.
const ACCEPTED_IN: u64 = 10;

/// What was compared.
#[derive(Clone, Copy, Debug, Default, PartialEq, Eq)]
struct Tally {
    sheets: u64,
    batches: u64,
    names: u64,
    too_long: u64,
    accepted: u64,
    with_structs: u64,
    lines: u64,
}

/// Sheets, each under its number as a name, the names to give, and the host list, if there is one.
struct Batch {
    sheets: Vec<Vec<u8>>,
    names: Vec<usize>,
    hosts: Option<Vec<u8>>,
}

/// Holds a program to the report by brute force on so many sheets of a seed; says how many were compared, or what differs.
pub fn hold_reports(program: &str, seed: u64, cases: u64) -> Result<String, String> {
    // It is run in another folder.
    let program = fs::canonicalize(program).map_err(|e| format!("{program}: {e}"))?;
    let mut tally = Tally::default();
    for number in 0..cases.div_ceil(BATCH) {
        let start = number * BATCH;
        let batch = Batch::draw(seed, start..cases.min(start.saturating_add(BATCH)));
        let lines = batch.lines();
        let name = format!("reports-{}-seed-{seed}-batch-{number}", std::process::id());
        let folder = std::env::temp_dir().join(name);
        // One that is there already is not ours to remove.
        fs::create_dir(&folder).map_err(|e| told(&folder, &e))?;
        let ran = batch
            .write(&folder)
            .and_then(|()| batch.run(&program, &folder));
        let found = ran.map(|(status, printed)| difference(&lines, &status, &printed));
        if let Ok(Some(what)) = found {
            let place = folder.display();
            return Err(format!(
                "seed {seed}, batch {number}, {what}\nkept as {place}"
            ));
        }
        let removed = fs::remove_dir_all(&folder);
        found.and(removed.map_err(|e| told(&folder, &e)))?;
        tally.add(&batch, &lines);
    }
    tally.told()
}

fn told(path: &Path, e: &std::io::Error) -> String {
    format!("{}: {e}", path.display())
}

impl Batch {
    fn draw(seed: u64, indices: std::ops::Range<u64>) -> Batch {
        // Another source than that of any case.
        let mut rng = Rng::new(!seed, indices.start);
        let cases: Vec<_> = indices.map(|index| case(seed, index)).collect();
        let hosts = host_list(&mut rng, &cases);
        let mut names: Vec<_> = (0..cases.len()).collect();
        for _ in 0..rng.below(4) {
            // A sheet once more, or a name that is not there.
            let (at, name) = (rng.below(names.len() + 1), rng.below(cases.len()));
            names.insert(at, if rng.coin() { name } else { cases.len() + name });
        }
        Batch {
            sheets: cases.into_iter().map(|case| case.sheet).collect(),
            names,
            hosts,
        }
    }

    /// What the program is to print.
    fn lines(&self) -> Vec<String> {
        let bytes = |&name: &usize| self.sheets.get(name).cloned().unwrap_or_default();
        let files: Vec<_> = self.names.iter().map(bytes).collect();
        report(self.hosts.as_deref().unwrap_or_default(), &files)
    }

    /// Writes the files into an empty folder.
    fn write(&self, folder: &Path) -> Result<(), String> {
        let sheets = self.sheets.iter().enumerate();
        let sheets = sheets.map(|(name, bytes)| (name.to_string(), bytes));
        let hosts = self.hosts.iter().map(|bytes| ("hosts".to_string(), bytes));
        for (name, bytes) in sheets.chain(hosts) {
            let path = folder.join(name);
            fs::write(&path, bytes).map_err(|e| told(&path, &e))?;
        }
        Ok(())
    }

    /// The program's exit status, in words, and standard output.
    fn run(&self, program: &Path, folder: &Path) -> Result<(String, Vec<u8>), String> {
        let mut command = Command::new(program);
        command.args(self.names.iter().map(usize::to_string));
        let output = command.current_dir(folder).output();
        let output = output.map_err(|e| told(program, &e))?;
        Ok((output.status.to_string(), output.stdout))
    }
}

fn is_intact(hosts: &[u8]) -> bool {
    let entries = decode_hosts(hosts).filter(|_| hosts.len() <= MOST_BYTES);
    entries.is_some_and(|entries| rust_host(&entries).is_some())
}

/// Mostly the pairs of all cases, so that many imports are found, or the list of one case; now and then one that is not taken.
fn host_list(rng: &mut Rng, cases: &[Case]) -> Option<Vec<u8>> {
    let lists = cases.iter().map(|case| &case.hosts);
    let (intact, broken): (Vec<_>, Vec<_>) = lists.partition(|hosts| is_intact(hosts));
    match rng.below(16) {
        0 => None,
        1 => rng.choose(&broken).cloned(),
        2 => Some(encode_hosts(&too_many(pairs(&intact))).to_bytes()),
        3..=5 => rng.choose(&intact).cloned(),
        _ => Some(fitting(pairs(&intact))),
    }
}

/// The pairs of intact lists, each once.
fn pairs(intact: &[&Vec<u8>]) -> Vec<HostEntry> {
    let entries = intact.iter().filter_map(|hosts| decode_hosts(hosts));
    let mut pairs: Vec<_> = entries.flatten().collect();
    let mut met = HashSet::new();
    pairs.retain(|pair| met.insert((pair.module.clone(), pair.name.clone())));
    pairs
}

/// The bytes of a list of as many of these as a program takes.
fn fitting(mut pairs: Vec<HostEntry>) -> Vec<u8> {
    loop {
        let bytes = encode_hosts(&pairs).to_bytes();
        if bytes.len() <= MOST_BYTES {
            return bytes;
        }
        pairs.truncate(pairs.len() - pairs.len().div_ceil(8));
    }
}

/// These and others behind them: over 16 blocks, and intact.
fn too_many(mut pairs: Vec<HostEntry>) -> Vec<HostEntry> {
    let more = (0..MOST_BYTES / 16).map(|k| user("further", &format!("{k:08}")));
    pairs.extend(more);
    pairs
}

/// Whether a line of the report says that a sheet is accepted.
fn is_accepted(line: &str) -> bool {
    line.starts_with("0 ") && !is_pair(line)
}

/// Whether a line has two numbers: a type and its size, or the sums.
fn is_pair(line: &str) -> bool {
    line.split(' ').count() == 2
}

impl Tally {
    fn add(&mut self, batch: &Batch, lines: &[String]) {
        // The last line is that of the sums.
        let on_sheets = &lines[..lines.len() - 1];
        let followed = |pair: &&[String]| is_accepted(&pair[0]) && is_pair(&pair[1]);
        self.batches += 1;
        self.sheets += batch.sheets.len() as u64;
        self.names += batch.names.len() as u64;
        let too_long = |sheet: &&Vec<u8>| sheet.len() > MOST_BYTES;
        self.too_long += batch.sheets.iter().filter(too_long).count() as u64;
        self.accepted += on_sheets.iter().filter(|line| is_accepted(line)).count() as u64;
        self.with_structs += on_sheets.windows(2).filter(followed).count() as u64;
        self.lines += lines.len() as u64;
    }

    /// One line; an error where a large run has hardly accepted a sheet.
    fn told(&self) -> Result<String, String> {
        let given = format!("{} sheets ({} over 16 blocks)", self.sheets, self.too_long);
        let accepted = format!(
            "{} accepted, {} of them with structs",
            self.accepted, self.with_structs
        );
        let [batches, names, lines] = [self.batches, self.names, self.lines];
        let text =
            format!("{given} in {batches} batches, {names} names: {accepted}; {lines} lines");
        if self.sheets >= FULL_RUN && self.accepted * ACCEPTED_IN < names {
            return Err(format!("{text}: too few are accepted"));
        }
        Ok(format!("{text}: no difference\n"))
    }
}

/// Where the program does not print these lines, and end with 0, in words.
fn difference(lines: &[String], status: &str, printed: &[u8]) -> Option<String> {
    let expected = lines.join("\n") + "\n";
    // Each line with its end, so that one without it differs.
    let split = |text| <[u8]>::split_inclusive(text, |&b| b == b'\n').map(Some);
    let both = split(expected.as_bytes()).chain([None]);
    let mut both = (1..).zip(both.zip(split(printed).chain([None])));
    if let Some((number, (expected, printed))) = both.find(|(_, (e, p))| e != p) {
        let (expected, printed) = (shown(expected), shown(printed));
        return Some(format!(
            "line {number}: the program prints {printed}, brute force {expected}"
        ));
    }
    (status != "exit status: 0").then(|| format!("after the last line: {status}"))
}

fn shown(line: Option<&[u8]>) -> String {
    line.map_or("nothing".to_string(), |line| {
        format!("{:?}", String::from_utf8_lossy(line))
    })
}

#[cfg(test)]
mod tests {
    use super::*;

    #[test]
    fn what_a_batch_adds() {
        let batch = Batch {
            sheets: vec![vec![0; MOST_BYTES], vec![0; MOST_BYTES + 1]],
            names: vec![0, 1, 5],
            hosts: None,
        };
        let lines = [
            "0 0 79 0 0 0",
            "0 1",
            "1 2",
            "0 0 49 0 0 0",
            "1 0 0 0 0 0",
            "2 3",
        ];
        let mut tally = Tally::default();
        tally.add(&batch, &lines.map(str::to_string));
        let expected = Tally {
            sheets: 2,
            batches: 1,
            names: 3,
            too_long: 1,
            accepted: 2,
            with_structs: 1,
            lines: 6,
        };
        assert_eq!(tally, expected);
    }

    #[test]
    fn a_large_run_that_accepts_too_few_fails() {
        let of = |sheets, accepted| Tally {
            sheets,
            names: sheets,
            accepted,
            ..Tally::default()
        };
        assert!(of(FULL_RUN, FULL_RUN / ACCEPTED_IN).told().is_ok());
        assert!(of(FULL_RUN, FULL_RUN / ACCEPTED_IN - 1).told().is_err());
        assert!(of(FULL_RUN - 1, 0).told().is_ok());
    }

    #[test]
    fn host_lists_are_taken_or_not() {
        let cases: Vec<_> = (0..BATCH).map(|index| case(1, index)).collect();
        let lists: Vec<_> = cases.iter().map(|case| &case.hosts).collect();
        let intact: Vec<_> = lists.into_iter().filter(|hosts| is_intact(hosts)).collect();
        assert!(is_intact(&fitting(pairs(&intact))));
        let longer = encode_hosts(&too_many(pairs(&intact))).to_bytes();
        let entries = decode_hosts(&longer).expect("it is intact");
        assert!(rust_host(&entries).is_some() && longer.len() > MOST_BYTES);
        assert!(is_intact(&fitting(entries)));
    }
}
