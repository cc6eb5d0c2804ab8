//! How many cases hit each kind and each word.

use std::fmt;

use sheets::{decode_sheet, Sheet};

use crate::editions::Editions;
use crate::lengths::longest_chain;

/// Kinds that a sheet, a host list or lengths can meet: all but 25, which is the query's, and 26, which cannot occur.
const KINDS: [std::ops::Range<usize>; 2] = [0..25, 27..29];

/// A run of at least so many cases fails if it misses a kind or a word.
pub const FULL_RUN: u64 = 5000;

/// The longest chain of a sheet: it has no struct, roots alone, something between, or is at the limit or just below.
const CHAINS: [&str; 4] = ["0", "1", "2-253", "254-256"];

/// Hits by kind, by word of kinds 3 and 11, of accepted sheets by operation code and by the longest chain, and by edition.
#[derive(Clone, Debug)]
pub struct Coverage {
    kinds: [u64; KINDS[1].end],
    out_of_range: [u64; 14],
    wrong_type_kind: [u64; 4],
    codes: [u64; 35],
    chains: [u64; CHAINS.len()],
    editions: Editions,
}

impl Default for Coverage {
    fn default() -> Coverage {
        Coverage {
            kinds: [0; KINDS[1].end],
            out_of_range: [0; 14],
            wrong_type_kind: [0; 4],
            codes: [0; 35],
            chains: [0; CHAINS.len()],
            editions: Editions::default(),
        }
    }
}

impl Coverage {
    /// Counts the six numbers of a sheet under a host list, and its codes and longest chain if it is accepted.
    pub fn add(&mut self, sheet: &[u8], hosts: &[u8], numbers: [u32; 6]) {
        self.editions.add(sheet, hosts, numbers);
        let [kind, word, ..] = numbers;
        self.kinds[kind as usize] += 1;
        match kind {
            3 => self.out_of_range[word as usize - 1] += 1,
            11 => self.wrong_type_kind[word as usize - 1] += 1,
            _ => {}
        }
        if let Some((sheet, _)) = decode_sheet(sheet).filter(|_| kind == 0) {
            self.add_codes(&sheet);
            self.add_chain(&sheet);
        }
    }

    fn add_chain(&mut self, sheet: &Sheet) {
        let place = match longest_chain(sheet) {
            0 => 0,
            1 => 1,
            2..=253 => 2,
            _ => 3,
        };
        self.chains[place] += 1;
    }

    fn add_codes(&mut self, sheet: &Sheet) {
        let mut seen = [false; 35];
        for inst in sheet.functions.iter().flat_map(|f| &f.code) {
            seen[usize::from(*inst as u8)] = true;
        }
        for (hits, seen) in self.codes.iter_mut().zip(seen) {
            *hits += u64::from(seen);
        }
    }

    /// Adds what another run has hit.
    pub fn merge(&mut self, other: &Coverage) {
        let both = |to: &mut [u64], from: &[u64]| {
            to.iter_mut().zip(from).for_each(|(to, from)| *to += from);
        };
        both(&mut self.kinds, &other.kinds);
        both(&mut self.out_of_range, &other.out_of_range);
        both(&mut self.wrong_type_kind, &other.wrong_type_kind);
        both(&mut self.codes, &other.codes);
        both(&mut self.chains, &other.chains);
        self.editions.merge(&other.editions);
    }

    /// What no case has hit, in words.
    pub fn missed(&self) -> Vec<String> {
        let mut missed = Vec::new();
        let mut look = |name: &str, first: usize, hits: &[u64]| {
            for (i, _) in hits.iter().enumerate().filter(|(_, &h)| h == 0) {
                missed.push(format!("{name} {}", first + i));
            }
        };
        for kinds in KINDS {
            look("kind", kinds.start, &self.kinds[kinds]);
        }
        look("kind 3 word", 1, &self.out_of_range);
        look("kind 11 word", 1, &self.wrong_type_kind);
        look("accepted code", 0, &self.codes);
        let chains = CHAINS.iter().zip(self.chains);
        let unmet = chains.filter(|&(_, hits)| hits == 0);
        missed.extend(unmet.map(|(length, _)| format!("accepted longest chain {length}")));
        missed.extend(self.editions.missed());
        missed
    }
}

impl fmt::Display for Coverage {
    fn fmt(&self, f: &mut fmt::Formatter<'_>) -> fmt::Result {
        let cells = |first: usize, hits: &[u64]| {
            let numbered = hits.iter().zip(first..);
            let cells: Vec<_> = numbered.map(|(h, i)| format!("{i}:{h}")).collect();
            cells.join(" ")
        };
        let kinds = KINDS.map(|kinds| cells(kinds.start, &self.kinds[kinds]));
        writeln!(f, "kind {}", kinds.join(" "))?;
        writeln!(f, "kind 3 word {}", cells(1, &self.out_of_range))?;
        writeln!(f, "kind 11 word {}", cells(1, &self.wrong_type_kind))?;
        writeln!(f, "accepted sheets with code {}", cells(0, &self.codes))?;
        let chains = CHAINS.iter().zip(self.chains);
        let cells: Vec<_> = chains.map(|(length, h)| format!("{length}:{h}")).collect();
        writeln!(f, "accepted sheets by longest chain {}", cells.join(" "))?;
        self.editions.fmt(f)
    }
}
