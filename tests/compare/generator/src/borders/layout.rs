//! Borders of the layout: lengths at the ends of blocks, strings across them, host lists.

use sheets::build::{func, import, strings};
use sheets::{encode_sheet, HostEntry, Sheet};

use super::Border;
use crate::texts::{long, text};
use crate::{Draft, Rng};

pub const BORDERS: &[Border] = &[
    ("length at a block's end", length),
    ("string across blocks", across),
    ("host list of many blocks", hosts),
    ("pairs split differently", split),
];

/// N from 126 to 129, or from 253 to 256.
fn length(rng: &mut Rng) -> Draft {
    let n = rng.pick(&[126, 127, 128, 129, 253, 254, 255, 256]);
    let mut sheet = Sheet::default();
    sheet.strings.push(Vec::new());
    let left = n - encode_sheet(&sheet).words.len();
    // The last word of the string is whole or padded.
    let bytes = 4 * left - rng.below(4);
    sheet.strings[0] = vec![b'x'; bytes];
    Draft {
        sheet,
        hosts: Vec::new(),
    }
}

/// A character of two to four bytes over a block's end, by a string that begins before it.
fn across(rng: &mut Rng) -> Draft {
    let mut sheet = Sheet::default();
    for _ in 0..rng.within(0, 6) {
        sheet.strings.push(text(rng));
    }
    let bytes = rng.within(480, 2200);
    sheet.strings.push(long(rng, bytes));
    Draft {
        sheet,
        hosts: Vec::new(),
    }
}

fn hosts(rng: &mut Rng) -> Draft {
    let mut out = split(rng);
    for k in 0..rng.within(1, 60) {
        let mut name = text(rng);
        name.extend(k.to_string().bytes());
        let bytes = if rng.one_in(20) { 600 } else { 0 };
        out.hosts.push(HostEntry {
            module: long(rng, bytes),
            name,
            scheduler: rng.coin(),
        });
    }
    rng.shuffle(&mut out.hosts);
    out
}

/// Imports and host entries whose texts are cut at different places.
fn split(rng: &mut Rng) -> Draft {
    let cuts = ["", "a", "ab", "abc", "c", "bc"];
    let pairs = [(0, 3), (1, 5), (2, 4), (3, 0)];
    let mut out = Draft {
        sheet: Sheet {
            strings: strings(&cuts),
            types: vec![func(&[], &[])],
            ..Sheet::default()
        },
        hosts: Vec::new(),
    };
    for &(module, name) in &pairs {
        if !rng.one_in(6) {
            out.hosts.push(HostEntry {
                module: cuts[module].into(),
                name: cuts[name].into(),
                scheduler: rng.one_in(12),
            });
        }
        if rng.coin() {
            out.sheet
                .imports
                .push(import(module as u32, name as u32, 0));
        }
    }
    rng.shuffle(&mut out.hosts);
    rng.shuffle(&mut out.sheet.imports);
    out
}
