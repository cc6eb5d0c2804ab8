//! A case in words, for readers and for other tools.

use sheets::{decode_hosts, decode_sheet};

use crate::{Linked, StoredCase};

pub(crate) fn spaced<T: ToString>(numbers: impl IntoIterator<Item = T>) -> String {
    let words: Vec<_> = numbers.into_iter().map(|n| n.to_string()).collect();
    words.join(" ")
}

/// One line: sheet bytes | host bytes | table length | work length | six numbers | table words or -.
pub fn line_of(case: &StoredCase) -> String {
    let table = case
        .answer
        .table
        .as_ref()
        .map_or_else(|| "-".to_string(), spaced);
    let parts = [
        spaced(&case.sheet),
        spaced(&case.hosts),
        case.table_len.to_string(),
        case.work_len.to_string(),
        spaced(case.answer.numbers),
        table,
    ];
    parts.join(" | ")
}

/// The case's lists, its answer and its table's sections.
pub fn describe_case(case: &StoredCase) -> String {
    let mut out = match decode_sheet(&case.sheet) {
        None => format!("sheet: {} bytes, layout broken\n", case.sheet.len()),
        Some((sheet, n)) => format!("sheet: N = {n}\n{sheet:#?}\n"),
    };
    out += &match decode_hosts(&case.hosts) {
        None => format!("hosts: {} bytes, layout broken\n", case.hosts.len()),
        Some(hosts) => format!("hosts: {hosts:#?}\n"),
    };
    out += &format!(
        "table {} words, work {} words\n",
        case.table_len, case.work_len
    );
    out += &format!("answer: {}\n", spaced(case.answer.numbers));
    if let Some(linked) = case.answer.table.as_deref().and_then(Linked::read) {
        out += &format!("table: {linked:#?}\n");
    }
    out
}
