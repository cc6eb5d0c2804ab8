//! The answer to a sheet: layout (1), host list (23), lengths (24), then `Program::load`, or for the second edition the format
//! written out.

use bvm_lang::{six_numbers, Program};
use sheets::{
    decode_hosts, decode_sheet, encode_hosts, encode_sheet, needed, rust_host, rust_module,
    Edition, HostEntry, Sheet,
};

use crate::table::Made;
use crate::{by_format, Accepted};

/// The six numbers, and the table's words when the sheet is accepted.
#[derive(Clone, Debug, PartialEq, Eq)]
pub struct Answer {
    pub numbers: [u32; 6],
    pub table: Option<Vec<u32>>,
}

/// What a loader is to answer, given the lengths of the lent slices in words.
pub fn answer(sheet: &[u8], hosts: &[u8], table_len: u32, work_len: u32) -> Answer {
    match load(sheet, hosts, table_len, work_len) {
        Err(numbers) => Answer {
            numbers,
            table: None,
        },
        Ok(accepted) => {
            let table = accepted.table();
            Answer {
                numbers: [0, 0, table.len() as u32, 0, 0, 0],
                table: Some(table),
            }
        }
    }
}

/// The answer to plain data, with slices long enough.
pub fn answer_plain(sheet: &Sheet, hosts: &[HostEntry]) -> Answer {
    let sheet = encode_sheet(sheet).to_bytes();
    let hosts = encode_hosts(hosts).to_bytes();
    answer(&sheet, &hosts, u32::MAX, u32::MAX)
}

/// What is made of the sheet, or the six numbers of the refusal.
pub fn load(
    bytes: &[u8],
    hosts: &[u8],
    table_len: u32,
    work_len: u32,
) -> Result<Accepted, [u32; 6]> {
    let only = |kind| [kind, 0, 0, 0, 0, 0];
    let (sheet, n) = decode_sheet(bytes).ok_or(only(1))?;
    // program.rs has the rules of the first edition, and stays as it is.
    if sheet.edition != Edition::First {
        let Answer { numbers, table } = by_format(bytes, hosts, table_len, work_len);
        let made = Made::Format(table.ok_or(numbers)?);
        return Ok(Accepted { sheet, made });
    }
    let host = decode_hosts(hosts)
        .and_then(|entries| rust_host(&entries))
        .ok_or(only(23))?;
    if u64::from(table_len.min(work_len)) < needed(n) {
        return Err(only(24));
    }
    match Program::load(rust_module(&sheet), &host) {
        Ok(program) => Ok(Accepted {
            sheet,
            made: Made::Rust {
                program: Box::new(program),
                host,
            },
        }),
        Err(error) => Err(six_numbers(&error, |module, name| {
            string_numbers(&sheet, module, name)
        })),
    }
}

/// The string numbers of the first import with these texts: an earlier one would have been refused.
fn string_numbers(sheet: &Sheet, module: &str, name: &str) -> (u32, u32) {
    let text = |s: u32| sheet.strings.get(s as usize).map(Vec::as_slice);
    let wanted = (Some(module.as_bytes()), Some(name.as_bytes()));
    let import = sheet
        .imports
        .iter()
        .find(|i| (text(i.module), text(i.name)) == wanted)
        .expect("an unresolved import is in the sheet");
    (import.module, import.name)
}
