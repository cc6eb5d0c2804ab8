//! Loads a sheet under a host list, prints the six numbers, then says of each pair of types whether one
//! descends from the other, how many types do, how long the chain of the first is, and which family of the two is the
//! nearest: `load SHEET HOSTS [T A]...`.
//! Exit status: 0 accepted, 1 refused, 2 not tried.

use std::env;
use std::fs;
use std::process::ExitCode;

use paqlluri::{load, table_words, work_words, TypeId};

fn main() -> ExitCode {
    let arguments: Vec<String> = env::args().skip(1).collect();
    let [sheet, hosts, numbers @ ..] = arguments.as_slice() else {
        eprintln!("usage: load SHEET HOSTS [T A]...");
        return ExitCode::from(2);
    };
    match (read(sheet), read(hosts), pairs(numbers)) {
        (Ok(sheet), Ok(hosts), Ok(pairs)) => judge(&sheet, &hosts, &pairs),
        (Err(why), ..) | (_, Err(why), _) | (.., Err(why)) => {
            eprintln!("load: {why}");
            ExitCode::from(2)
        }
    }
}

fn read(path: &str) -> Result<Vec<u8>, String> {
    fs::read(path).map_err(|e| format!("{path}: {e}"))
}

fn pairs(numbers: &[String]) -> Result<Vec<[TypeId; 2]>, String> {
    let number = |n: &String| n.parse().map(TypeId).map_err(|e| format!("{n}: {e}"));
    let pair = |pair: &[String]| match pair {
        [t, a] => Ok([number(t)?, number(a)?]),
        _ => Err("types come in pairs".to_string()),
    };
    numbers.chunks(2).map(pair).collect()
}

fn judge(sheet: &[u8], hosts: &[u8], pairs: &[[TypeId; 2]]) -> ExitCode {
    let mut table = vec![0; table_words(sheet.len())];
    let mut work = vec![0; work_words(sheet.len())];
    match load(sheet, hosts, &mut table, &mut work) {
        Ok(linked) => {
            println!("0 0 {} 0 0 0", linked.words().len());
            for &[t, a] in pairs {
                let answer = if linked.descends(t, a) { "yes" } else { "no" };
                println!("{} descends from {}: {answer}", t.0, a.0);
                println!("types that descend from {}: {}", a.0, linked.family_size(a));
                println!("chain length of {}: {}", t.0, linked.chain_length(t));
                let nearest = linked.nearest(t, a).map(|family| family.0.to_string());
                let nearest = nearest.as_deref().unwrap_or("none");
                println!("nearest family of {} and {}: {nearest}", t.0, a.0);
            }
            ExitCode::SUCCESS
        }
        Err(error) => {
            println!("{}", error.numbers().map(|n| n.to_string()).join(" "));
            eprintln!("{error}");
            ExitCode::from(1)
        }
    }
}
