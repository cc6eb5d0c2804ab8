//! The reference answers as docs/FORMAT.md says; the second edition is the first but for the chain limit, the arguments of imports
//! and export names.

use compare::{answer, by_format, chain_lengths};
use generator::{case, Case};
use sheets::build::abc;
use sheets::{
    decode_sheet, encode_sheet, op, with_edition, Edition, Export, Param, Sheet, TypeEntry, BLOCK,
};

/// Cases of a seed that are not left out for their size, each with its number.
fn cases(seed: u64, count: u64) -> impl Iterator<Item = (u64, Case)> {
    let all = (0..count).map(move |index| (index, case(seed, index)));
    all.filter(|(_, c)| c.sheet.len() <= 24 * BLOCK && c.hosts.len() <= 24 * BLOCK)
}

fn edition(sheet: &[u8]) -> Option<Edition> {
    decode_sheet(sheet).map(|(sheet, _)| sheet.edition)
}

#[test]
fn the_reference_answers_as_the_format_says() {
    let mut compared = 0;
    for (index, c) in cases(14, 16_000) {
        // The format alone answers these.
        if edition(&c.sheet) == Some(Edition::Second) {
            continue;
        }
        let rust = answer(&c.sheet, &c.hosts, c.table_len, c.work_len);
        let format = by_format(&c.sheet, &c.hosts, c.table_len, c.work_len);
        assert_eq!(rust, format, "case {index}, {}", c.label);
        compared += 1;
    }
    assert!(compared >= 10_000, "{compared} compared");
}

/// An import's call in a function's code: its arguments, those that are mandatory, and all that there can be.
struct Call {
    found: u32,
    mandatory: u32,
    all: u32,
}

fn import_call(sheet: &Sheet, inst: u64) -> Option<Call> {
    let import = sheet.imports.get((inst >> 32) as usize)?;
    let TypeEntry::Func { params, .. } = sheet.types.get(import.sig as usize)? else {
        return None;
    };
    let all = params.len() as u32;
    // In a list that holds the mandatory ones are the first.
    let mandatory = |list: &Vec<Param>| list.iter().take_while(|p| p.flags < 2).count() as u32;
    (inst as u8 == op::CALL_IMPORT).then(|| Call {
        found: inst as u32 >> 8 & 0xff,
        mandatory: import.params.as_ref().map_or(all, mandatory),
        all,
    })
}

/// In the first edition, and each call that leaves out optional arguments alone is a DCall with the same A and D: that has the same
/// window, and any number of arguments.
fn given_all(sheet: &Sheet) -> (Sheet, usize) {
    let mut first = Sheet {
        edition: Edition::First,
        ..sheet.clone()
    };
    let mut left_out = 0;
    for inst in first.functions.iter_mut().flat_map(|f| &mut f.code) {
        let call = import_call(sheet, *inst);
        if call.is_some_and(|c| c.mandatory <= c.found && c.found < c.all) {
            let (d, a) = ((*inst >> 8) as u8, (*inst >> 16) as u16);
            *inst = abc(op::D_CALL, d, a, a, 0);
            left_out += 1;
        }
    }
    (first, left_out)
}

/// What the reference says, and of a call of an import without all that is mandatory that so many were expected.
fn with_mandatory(sheet: &Sheet, mut numbers: [u32; 6]) -> [u32; 6] {
    if let [8, _, all, found, f, position] = numbers {
        let code = &sheet.functions[f as usize - 1].code;
        let call = import_call(sheet, code[position as usize - 1]);
        if let Some(call) = call.filter(|c| c.found < c.mandatory) {
            assert_eq!((call.found, call.all), (found, all));
            numbers[2] = call.mandatory;
        }
    }
    numbers
}

/// The first fault, where it is an export's name: held to each name before, and the reference finds none up to that export's index.
fn name_fault(sheet: &Sheet, hosts: &[u8]) -> Option<[u32; 6]> {
    let text = |e: &Export| sheet.strings.get(e.name as usize);
    let is_accepted_up_to = |place: usize| {
        let exports = sheet.exports[..=place].to_vec();
        let sheet = Sheet {
            exports,
            ..given_all(sheet).0
        };
        let sheet = encode_sheet(&sheet).to_bytes();
        answer(&sheet, hosts, u32::MAX, u32::MAX).table.is_some()
    };
    let fault = |(place, own): (usize, &Export)| {
        let mut before = sheet.exports[..place].iter();
        if text(own).is_none() {
            Some((place, [27, 0, own.name, 0, 0, 0]))
        } else if before.any(|e| text(e) == text(own)) {
            Some((place, [28, 0, place as u32, 0, 0, 0]))
        } else {
            None
        }
    };
    let (place, numbers) = sheet.exports.iter().enumerate().find_map(fault)?;
    is_accepted_up_to(place).then_some(numbers)
}

/// How often the editions agreed, and how often each thing that they differ in was met.
#[derive(Debug, Default)]
struct Met {
    same: u32,
    accepted: u32,
    leaving_out: u32,
    longer: u32,
    too_few: u32,
    named: [u32; 2],
}

impl Met {
    /// What the format says of the second edition is what the reference says of the first, given all arguments, but where a chain is
    /// too long for it, arguments are fewer than are mandatory, or an export's name is no string or another's.
    fn hold(&mut self, plain: &Sheet, c: &Case) {
        let (given, left_out) = given_all(plain);
        let second = with_edition(&c.sheet, Edition::Second.word());
        let [first, second] = [encode_sheet(&given).to_bytes(), second]
            .map(|s| answer(&s, &c.hosts, c.table_len, c.work_len));
        let longest = chain_lengths(&given).into_iter().max().unwrap_or(0);
        // Where slices are too short nobody looks.
        let fault = name_fault(plain, &c.hosts).filter(|_| first.numbers[0] != 24);
        if first == second {
            self.same += 1;
            self.accepted += u32::from(first.table.is_some());
            self.leaving_out += u32::from(first.table.is_some() && left_out > 0);
            assert!(first.table.is_none() || longest <= 64);
            assert_eq!(with_mandatory(plain, first.numbers), first.numbers);
            assert_eq!(fault, None);
            return;
        }
        // Nothing before the rules differs.
        assert!(!matches!(first.numbers[0], 1 | 23 | 24));
        match second.numbers[0] {
            17 => {
                // 64 structs and the number above the topmost, or more.
                assert!(longest >= 64);
                assert_eq!(second.numbers, [17, 0, 0, 0, 0, 0]);
                self.longer += 1;
            }
            8 => {
                assert_eq!(with_mandatory(plain, first.numbers), second.numbers);
                self.too_few += 1;
            }
            kind => {
                assert_eq!(fault, Some(second.numbers));
                self.named[kind as usize - 27] += 1;
            }
        }
    }
}

#[test]
fn the_editions_differ_in_chains_arguments_and_export_names() {
    let mut met = Met::default();
    for (index, c) in cases(15, 16_000) {
        println!("case {index}, {}", c.label);
        if let Some((plain, _)) = decode_sheet(&c.sheet) {
            met.hold(&plain, &c);
        }
    }
    assert!(met.same >= 10_000 && met.accepted >= 3_000, "{met:?}");
    assert!(met.longer >= 100 && met.leaving_out >= 250, "{met:?}");
    assert!(met.too_few >= 80, "{met:?}");
    assert!(met.named.iter().all(|&n| n >= 300), "{met:?}");
}
