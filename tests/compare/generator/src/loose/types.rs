//! Loose types, constants and host lists.

use sheets::{Constant, HostEntry, TypeEntry, ValueType};

use super::{Dice, Part};
use crate::forest::{types, Counts};
use crate::Draft;

impl Dice<'_> {
    /// A sound forest, of which some entries are then made anew.
    pub fn types(&mut self, draft: &mut Draft, functions: usize) {
        let counts = Counts {
            structs: self.rng.within(0, 3),
            others: self.rng.within(0, 3),
            funcs: self.rng.within(1, 3),
            strings: 3,
            functions,
            most_on_chain: draft.sheet.edition.most_on_chain(),
        };
        draft.sheet.types = types(self.rng, counts);
        let n = draft.sheet.types.len();
        for t in 0..n {
            let entry = self.moody(Part::Types, |dice| {
                dice.fault().then(|| dice.entry(n, functions))
            });
            if let Some(entry) = entry {
                draft.sheet.types[t] = entry;
            }
        }
    }

    fn entry(&mut self, n: usize, functions: usize) -> TypeEntry {
        match self.rng.below(9) {
            0 | 1 => TypeEntry::Func {
                params: self.named_types(n, 2),
                results: self.named_types(n, 2),
            },
            2..=4 => TypeEntry::Struct {
                name: self.number(3),
                parent: self.rng.coin().then(|| self.number(n)),
                fields: self
                    .times(2)
                    .map(|_| (self.number(3), self.named_type(n)))
                    .collect(),
                methods: self
                    .times(2)
                    .map(|_| (self.number(3), self.number(functions)))
                    .collect(),
            },
            5 => TypeEntry::Array(self.named_type(n)),
            6 | 7 => TypeEntry::Map(self.named_type(n), self.named_type(n)),
            _ => TypeEntry::Iter(self.named_type(n), self.named_type(n)),
        }
    }

    /// A reference more often than elsewhere.
    fn named_type(&mut self, n: usize) -> ValueType {
        if self.rng.coin() {
            ValueType::reference(self.number(n))
        } else {
            self.value_type(n)
        }
    }

    fn named_types(&mut self, n: usize, most: usize) -> Vec<ValueType> {
        self.times(most).map(|_| self.named_type(n)).collect()
    }

    pub fn constants(&mut self, draft: &mut Draft) {
        for own in self.times(3) {
            // Only children below, unless by a fault.
            let fault = self.moody(Part::Lists, Dice::fault);
            let child = match self.rng.index(own.max(1)) {
                _ if fault => own as u32 + self.rng.index(2),
                below => below,
            };
            let nested = own > 0 || fault;
            draft.sheet.constants.push(match self.rng.below(4) {
                0 if nested => Constant::Array(vec![0, child]),
                1 if nested => Constant::Map(vec![(0, child)]),
                2 => Constant::Str(self.number(3)),
                _ => Constant::Plain(0, 0),
            });
        }
    }

    /// All pairs that the strings make, but for some.
    pub fn hosts(&mut self, draft: &mut Draft) {
        for (module, name) in [(0, 0), (0, 1), (1, 0), (1, 1)] {
            if !self.fault() {
                draft.hosts.push(HostEntry {
                    module: draft.sheet.strings[module].clone(),
                    name: draft.sheet.strings[name].clone(),
                    scheduler: self.moody(Part::Lists, Dice::fault),
                });
            }
        }
        self.rng.shuffle(&mut draft.hosts);
    }
}
