//! Stored cases: little-endian words, described in README.md.

use crate::Answer;

/// The number that a file of stored cases begins with.
const FORMAT: u32 = 1;

/// A case and its answer.
#[derive(Clone, Debug, PartialEq, Eq)]
pub struct StoredCase {
    pub sheet: Vec<u8>,
    pub hosts: Vec<u8>,
    pub table_len: u32,
    pub work_len: u32,
    pub answer: Answer,
}

/// The bytes of a file of cases.
pub fn write_cases(cases: &[StoredCase]) -> Vec<u8> {
    let mut out = Vec::new();
    put(&mut out, &[FORMAT, cases.len() as u32]);
    for case in cases {
        let table = case.answer.table.as_deref().unwrap_or(&[]);
        let lengths = [case.sheet.len() as u32, case.hosts.len() as u32];
        put(&mut out, &lengths);
        put(&mut out, &[case.table_len, case.work_len]);
        put(&mut out, &case.answer.numbers);
        put(&mut out, &[table.len() as u32]);
        put_bytes(&mut out, &case.sheet);
        put_bytes(&mut out, &case.hosts);
        put(&mut out, table);
    }
    out
}

fn put(out: &mut Vec<u8>, words: &[u32]) {
    out.extend(words.iter().flat_map(|w| w.to_le_bytes()));
}

fn put_bytes(out: &mut Vec<u8>, bytes: &[u8]) {
    out.extend(bytes);
    out.resize(out.len().next_multiple_of(4), 0);
}

/// The cases of a file, if it is one.
pub fn read_cases(bytes: &[u8]) -> Option<Vec<StoredCase>> {
    let mut rest = bytes;
    if word(&mut rest)? != FORMAT {
        return None;
    }
    let count = word(&mut rest)?;
    let mut cases = Vec::new();
    for _ in 0..count {
        cases.push(case(&mut rest)?);
    }
    rest.is_empty().then_some(cases)
}

fn case(rest: &mut &[u8]) -> Option<StoredCase> {
    let (sheet, hosts) = (word(rest)? as usize, word(rest)? as usize);
    let (table_len, work_len) = (word(rest)?, word(rest)?);
    let mut numbers = [0; 6];
    for number in &mut numbers {
        *number = word(rest)?;
    }
    let table = word(rest)? as usize;
    Some(StoredCase {
        sheet: take(rest, sheet)?.to_vec(),
        hosts: take(rest, hosts)?.to_vec(),
        table_len,
        work_len,
        answer: Answer {
            numbers,
            table: words(rest, table)?,
        },
    })
}

fn word(rest: &mut &[u8]) -> Option<u32> {
    let bytes = take(rest, 4)?;
    Some(u32::from_le_bytes([bytes[0], bytes[1], bytes[2], bytes[3]]))
}

/// So many bytes, and the padding to a whole word dropped.
fn take<'b>(rest: &mut &'b [u8], length: usize) -> Option<&'b [u8]> {
    let padded = length.next_multiple_of(4);
    if padded > rest.len() {
        return None;
    }
    let (bytes, after) = rest.split_at(padded);
    *rest = after;
    Some(&bytes[..length])
}

/// The table's words; none is a refusal, since an accepted sheet's table is never empty.
fn words(rest: &mut &[u8], count: usize) -> Option<Option<Vec<u32>>> {
    let bytes = take(rest, count.checked_mul(4)?)?;
    let word = |c: &[u8]| u32::from_le_bytes([c[0], c[1], c[2], c[3]]);
    let table: Vec<u32> = bytes.chunks(4).map(word).collect();
    Some((!table.is_empty()).then_some(table))
}
