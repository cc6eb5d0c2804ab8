//! docs/FORMAT.md written out once more, over plain data and without program.rs or its stand-ins, for both editions:
//! the reference must answer as it says, word for word, and the second edition has no other judge.

mod code;
mod records;
mod rules;
mod table;
mod types;

use std::collections::HashSet;

use sheets::{decode_hosts, decode_sheet, needed, HostEntry, Sheet};

use crate::Answer;

/// The answer to bytes, by the format.
pub fn by_format(sheet: &[u8], hosts: &[u8], table_len: u32, work_len: u32) -> Answer {
    let refused = |numbers| Answer {
        numbers,
        table: None,
    };
    let Some((sheet, n)) = decode_sheet(sheet) else {
        return refused(rules::kind(1));
    };
    let Some(hosts) = decode_hosts(hosts).filter(|hosts| no_pair_twice(hosts)) else {
        return refused(rules::kind(23));
    };
    if u64::from(table_len) < needed(n) || u64::from(work_len) < needed(n) {
        return refused(rules::kind(24));
    }
    match first_fault(&sheet, &hosts) {
        Err(numbers) => refused(numbers),
        Ok(()) => {
            let table = table::words(&sheet, &hosts);
            Answer {
                numbers: [0, 0, table.len() as u32, 0, 0, 0],
                table: Some(table),
            }
        }
    }
}

fn no_pair_twice(hosts: &[HostEntry]) -> bool {
    let mut met = HashSet::new();
    hosts.iter().all(|h| met.insert((&h.module, &h.name)))
}

/// Rules 2 to 8, in this order.
fn first_fault(sheet: &Sheet, hosts: &[HostEntry]) -> Result<(), rules::Fault> {
    types::types(sheet)?;
    types::parents(sheet)?;
    types::constants(sheet)?;
    rules::imports(sheet, hosts)?;
    rules::globals(sheet)?;
    for (f, function) in (0..).zip(&sheet.functions) {
        records::record(sheet, function).map_err(|e| rules::in_function(e, f))?;
    }
    for (f, function) in (0..).zip(&sheet.functions) {
        code::code(sheet, function).map_err(|e| rules::in_function(e, f))?;
    }
    rules::hooks(sheet)?;
    rules::start(sheet)?;
    rules::exports(sheet)
}
