//! How many cases show what the editions differ in, and what they do not differ in.

use std::collections::HashSet;
use std::fmt;

use sheets::{decode_hosts, decode_sheet, read_blocks, with_edition, Edition, Sheet};

use crate::arguments::{import_calls, refused_call, ImportCall};
use crate::lengths::longest_chain;
use crate::{leaves_out_arguments, load};

/// What a case can show, that each edition is accepted first.
const SHOWN: [&str; 28] = [
    "edition 1 accepted",
    "edition 2 accepted",
    "edition 1 accepted, longest chain 65 or 66",
    "edition 2 accepted, longest chain 64",
    "edition 2 refused with 17, accepted in edition 1, longest chain 65",
    "edition 2 refused with 17, in edition 1 with 16",
    "edition 1 accepted, an export's name out of range",
    "edition 1 accepted, two exports of one name",
    "edition 2 accepted, an export named by the last string",
    "edition 2 refused with 27, one past the last string",
    "edition 2 refused with 27, accepted in edition 1",
    "edition 2 refused with 27, in edition 1 with 3",
    "edition 2 refused with 28, two strings of equal bytes",
    "edition 2 refused with 28, accepted in edition 1",
    "edition 2 refused with 28, in edition 1 with 3",
    "edition 2 accepted, an import of over 255 parameters called",
    "edition 2 accepted, an import called with its mandatory arguments alone",
    "edition 2 accepted, an import called without some optional arguments",
    "edition 2 refused with 8, over 255 mandatory arguments",
    "edition 2 refused with 8, one mandatory argument left out",
    "edition 2 refused with 8, one argument behind the last optional one",
    "edition 2 refused behind left-out arguments, in edition 1 with 8 for them",
    "edition 1 refused with 8, optional arguments left out",
    "edition 1 refused with 8, mandatory arguments left out too",
    "edition 1 refused with 8, one argument behind the last optional one",
    "sheet of edition 0 refused, else intact",
    "sheet of edition 3 refused, else intact",
    "host list of edition 2 refused, else intact",
];

/// How many of them an intact sheet can show by its chains, by its export names, and by its calls of imports.
const CHAINS: usize = 6;
const NAMES: usize = 9;
const ARGUMENTS: usize = 10;

/// Hits of each.
#[derive(Clone, Debug, Default)]
pub(crate) struct Editions([u64; SHOWN.len()]);

impl Editions {
    pub fn add(&mut self, sheet: &[u8], hosts: &[u8], numbers: [u32; 6]) {
        let hits = self.0.iter_mut().zip(shown(sheet, hosts, numbers));
        hits.for_each(|(hits, shown)| *hits += u64::from(shown));
    }

    pub fn merge(&mut self, other: &Editions) {
        let hits = self.0.iter_mut().zip(other.0);
        hits.for_each(|(to, from)| *to += from);
    }

    /// What no case has shown.
    pub fn missed(&self) -> impl Iterator<Item = String> + '_ {
        let unmet = SHOWN.iter().zip(self.0).filter(|&(_, hits)| hits == 0);
        unmet.map(|(name, _)| (*name).to_string())
    }
}

impl fmt::Display for Editions {
    fn fmt(&self, f: &mut fmt::Formatter<'_>) -> fmt::Result {
        let hits = SHOWN.iter().zip(self.0);
        let cells: Vec<_> = hits.map(|(name, h)| format!("{name}:{h}")).collect();
        writeln!(f, "editions {}", cells.join("; "))
    }
}

/// What the case with this answer shows beside an accepted edition, if it shows anything.
pub fn shown_border(sheet: &[u8], hosts: &[u8], numbers: [u32; 6]) -> Option<&'static str> {
    let all = SHOWN.into_iter().zip(shown(sheet, hosts, numbers));
    let mut borders = all.skip(Edition::ALL.len());
    borders.find(|&(_, shown)| shown).map(|(name, _)| name)
}

/// What the case with this answer shows.
fn shown(sheet: &[u8], hosts: &[u8], numbers: [u32; 6]) -> Vec<bool> {
    let nothing = vec![false; CHAINS + NAMES + ARGUMENTS];
    let judged = Judged::new(sheet, hosts, numbers);
    let by_rules = judged.map_or(nothing, |judged| {
        [&judged.chains()[..], &judged.names(), &judged.arguments()].concat()
    });
    let whole_sheet = |bytes: &[u8]| decode_sheet(bytes).is_some();
    let whole_list = |bytes: &[u8]| decode_hosts(bytes).is_some();
    let kind = numbers[0];
    let words = [
        kind == 1 && is_of_edition(sheet, 0, whole_sheet),
        kind == 1 && is_of_edition(sheet, 3, whole_sheet),
        kind == 23 && is_of_edition(hosts, 2, whole_list),
    ];
    [&by_rules[..], &words].concat()
}

/// An intact sheet and its answer.
struct Judged {
    sheet: Sheet,
    numbers: [u32; 6],
    /// What the first edition answers, and the longest chain, where the second refuses by a rule of its own or behind one.
    in_first: Option<([u32; 6], u32)>,
}

impl Judged {
    fn new(bytes: &[u8], hosts: &[u8], numbers: [u32; 6]) -> Option<Judged> {
        let (sheet, _) = decode_sheet(bytes)?;
        let own = match numbers[0] {
            17 | 27 | 28 => true,
            0 | 1 | 23 | 24 => false,
            _ => leaves_out_arguments(&sheet),
        };
        let own = own && sheet.edition == Edition::Second;
        let in_first = own.then(|| {
            let first = with_edition(bytes, Edition::First.word());
            let loaded = load(&first, hosts, u32::MAX, u32::MAX);
            loaded.map_or_else(|n| (n, 0), |a| ([0; 6], longest_chain(&a.sheet)))
        });
        Some(Judged {
            sheet,
            numbers,
            in_first,
        })
    }

    fn is_accepted(&self, edition: Edition) -> bool {
        self.numbers[0] == 0 && self.sheet.edition == edition
    }

    /// Whether the second edition refuses with the one kind where the first answers with the other.
    fn differs(&self, second: u32, first: u32) -> bool {
        let in_first = self.in_first.map(|(numbers, _)| numbers[0]);
        self.numbers[0] == second && in_first == Some(first)
    }

    /// Whether the second edition refuses, and the first with 8 at another place.
    fn refuses_behind(&self) -> bool {
        let place = |numbers: [u32; 6]| [numbers[4], numbers[5]];
        let elsewhere = |n: [u32; 6]| n[0] == 8 && place(n) != place(self.numbers);
        self.in_first.is_some_and(|(first, _)| elsewhere(first))
    }

    fn chains(&self) -> [bool; CHAINS] {
        let [first, second] = Edition::ALL.map(|edition| self.is_accepted(edition));
        let chain = if first || second {
            longest_chain(&self.sheet)
        } else {
            0
        };
        [
            first,
            second,
            first && (65..=66).contains(&chain),
            second && chain == 64,
            self.differs(17, 0) && self.in_first == Some(([0; 6], 65)),
            self.differs(17, 16),
        ]
    }

    fn names(&self) -> [bool; NAMES] {
        let [first, second] = Edition::ALL.map(|edition| self.is_accepted(edition));
        let Sheet {
            strings, exports, ..
        } = &self.sheet;
        let [kind, _, number, ..] = self.numbers;
        let named = |e: &sheets::Export| strings.get(e.name as usize);
        let mut met = HashSet::new();
        let mut repeats = exports
            .iter()
            .filter_map(named)
            .map(|text| !met.insert(text));
        let is_last = |e: &sheets::Export| e.name as usize + 1 == strings.len();
        let past_last = number as usize == strings.len();
        let repeated_number = || {
            let (before, from) = exports.split_at(number as usize);
            before.iter().any(|e| e.name == from[0].name)
        };
        [
            first && exports.iter().any(|e| named(e).is_none()),
            first && repeats.any(|repeat| repeat),
            second && exports.iter().any(is_last),
            kind == 27 && past_last,
            self.differs(27, 0),
            self.differs(27, 3),
            kind == 28 && !repeated_number(),
            self.differs(28, 0),
            self.differs(28, 3),
        ]
    }

    fn arguments(&self) -> [bool; ARGUMENTS] {
        let accepted = self.is_accepted(Edition::Second);
        let called = |test: fn(ImportCall) -> bool| accepted && import_calls(&self.sheet).any(test);
        let call = refused_call(&self.sheet, self.numbers).filter(ImportCall::has_optional);
        let refused = |edition, test: fn(ImportCall) -> bool| {
            self.sheet.edition == edition && call.is_some_and(test)
        };
        let [first, second] = Edition::ALL;
        [
            called(|c| c.all > 255),
            called(|c| c.found == c.mandatory && c.leaves_out()),
            called(|c| c.found > c.mandatory && c.leaves_out()),
            refused(second, |c| c.mandatory > 255),
            refused(second, |c| c.found + 1 == c.mandatory),
            refused(second, |c| c.found == c.all + 1),
            self.refuses_behind(),
            refused(first, |c| c.leaves_out()),
            refused(first, |c| c.found < c.mandatory),
            refused(first, |c| c.found == c.all + 1),
        ]
    }
}

/// Whether the bytes have this edition word, and would be whole with the first.
fn is_of_edition(bytes: &[u8], word: u32, whole: impl Fn(&[u8]) -> bool) -> bool {
    read_blocks(bytes).is_some_and(|words| words[0] == word)
        && whole(&with_edition(bytes, Edition::First.word()))
}

#[cfg(test)]
mod tests {
    use super::*;
    use crate::forests::{forest, sheet as of_types};
    use sheets::build::{
        abc, aw, export, func, function, import, listed, ret_void, strings, structure, user,
    };
    use sheets::{encode_hosts, encode_sheet, op, ExportKind, Import, DYN};

    /// So many structs, the lowest first, the topmost with this parent.
    fn chain(edition: Edition, structs: u32, top: Option<u32>) -> Vec<u8> {
        let parent = |t| if t + 1 < structs { Some(t + 1) } else { top };
        let sheet = Sheet {
            edition,
            ..forest((0..structs).map(parent))
        };
        encode_sheet(&sheet).to_bytes()
    }

    /// One type exported under these names of four strings, the first two equal; at last such an index.
    fn exporting(edition: Edition, names: &[u32], last: u32) -> Vec<u8> {
        let of_type = |&name| export(ExportKind::Type, name, 0);
        let mut sheet = Sheet {
            edition,
            strings: strings(&["a", "a", "b", "c"]),
            exports: names.iter().map(of_type).collect(),
            ..of_types(vec![structure(None, &[])])
        };
        sheet.exports.push(export(ExportKind::Type, 2, last));
        encode_sheet(&sheet).to_bytes()
    }

    /// An import whose parameters have these flags, called with so many arguments; then a move into this register of 256.
    fn calling(edition: Edition, flags: &[u32], found: u8, register: u16) -> Vec<u8> {
        let code = [
            aw(op::CALL_IMPORT, found, 0, 0),
            abc(op::MOVE, 0, register, 0, 0),
            ret_void(),
        ];
        let sheet = Sheet {
            edition,
            strings: strings(&["a"]),
            types: vec![func(&[], &[]), func(&vec![DYN; flags.len()], &[])],
            imports: vec![Import {
                params: listed(flags),
                ..import(0, 0, 1)
            }],
            functions: vec![function(&[DYN; 256], &code)],
            ..Sheet::default()
        };
        encode_sheet(&sheet).to_bytes()
    }

    fn hosts() -> Vec<u8> {
        encode_hosts(&[user("a", "a")]).to_bytes()
    }

    fn border(sheet: &[u8], hosts: &[u8]) -> Option<&'static str> {
        let loaded = load(sheet, hosts, u32::MAX, u32::MAX);
        let numbers = loaded.map_or_else(|numbers| numbers, |_| [0; 6]);
        shown_border(sheet, hosts, numbers)
    }

    #[test]
    fn each_border_is_told() {
        let hosts = hosts();
        let [first, second] = Edition::ALL;
        let over_255 = [&[0; 256][..], &[2]].concat();
        let told = [
            chain(first, 65, None),
            chain(second, 64, None),
            chain(second, 65, None),
            chain(second, 64, Some(99)),
            exporting(first, &[9], 0),
            exporting(first, &[0, 1], 0),
            exporting(second, &[3], 0),
            exporting(second, &[4], 0),
            exporting(second, &[5], 0),
            exporting(second, &[5], 7),
            exporting(second, &[0, 1], 0),
            exporting(second, &[0, 0], 0),
            exporting(second, &[0, 0], 7),
            calling(second, &[2; 256], 255, 0),
            calling(second, &[1, 2, 3], 1, 0),
            calling(second, &[1, 2, 3], 2, 0),
            calling(second, &over_255, 255, 0),
            calling(second, &[0, 1, 2], 1, 0),
            calling(second, &[0, 1, 2], 4, 0),
            calling(second, &[0, 2], 1, 256),
            calling(first, &[0, 2], 1, 0),
            calling(first, &[0, 1, 2], 0, 0),
            calling(first, &[0, 2], 3, 0),
            with_edition(&chain(first, 1, None), 0),
            with_edition(&chain(first, 1, None), 3),
        ];
        let mut told: Vec<_> = told.iter().map(|sheet| border(sheet, &hosts)).collect();
        told.push(border(&chain(first, 1, None), &with_edition(&hosts, 2)));
        assert_eq!(
            told,
            SHOWN[2..].iter().copied().map(Some).collect::<Vec<_>>()
        );
    }

    #[test]
    fn nothing_else_is_a_border() {
        let hosts = hosts();
        for edition in Edition::ALL {
            // Short, far too long, a ring, an absent parent above one struct.
            for (structs, top) in [
                (1, None),
                (63, None),
                (300, None),
                (64, Some(0)),
                (1, Some(9)),
            ] {
                assert_eq!(border(&chain(edition, structs, top), &hosts), None);
            }
            // Names that differ; and behind an index that is absent.
            for (names, last) in [(&[][..], 0), (&[1], 0), (&[1], 7)] {
                assert_eq!(border(&exporting(edition, names, last), &hosts), None);
            }
            // All arguments, also before another fault; none optional, and too few or too many; two too many.
            for (flags, found, register) in [
                (&[0, 2][..], 2, 0),
                (&[0, 2], 2, 256),
                (&[0, 1], 1, 0),
                (&[0, 1], 3, 0),
                (&[], 1, 0),
                (&[0, 2], 4, 0),
            ] {
                let sheet = calling(edition, flags, found, register);
                assert_eq!(border(&sheet, &hosts), None);
            }
        }
        let sheet = chain(Edition::First, 1, None);
        let mut broken = with_edition(&sheet, 3);
        // Edition 3, but a check word that does not fit; a block that is cut; a host list of edition 3.
        broken[508] ^= 1;
        assert_eq!(border(&broken, &hosts), None);
        assert_eq!(border(&with_edition(&sheet, 3)[..511], &hosts), None);
        assert_eq!(border(&sheet, &with_edition(&hosts, 3)), None);
    }
}
