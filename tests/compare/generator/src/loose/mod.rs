//! Small modules at random: each number in its list's range or, now and then, one past it.
//! A record in a bad mood has several faults, so that the order of tests within it is tried.

mod code;
mod ends;
mod records;
mod types;

use sheets::{ValueType, DYN};

use crate::draft::edition;
use crate::{Draft, Rng};

/// A part of the module that can be the only one with faults.
#[derive(Clone, Copy, PartialEq, Eq)]
enum Part {
    Types,
    Lists,
    Records,
    Regions,
    Code,
    Ends,
}

/// The parts in focus, by how many rules they have.
const PARTS: [Part; 12] = [
    Part::Types,
    Part::Types,
    Part::Lists,
    Part::Lists,
    Part::Records,
    Part::Records,
    Part::Regions,
    Part::Code,
    Part::Code,
    Part::Code,
    Part::Code,
    Part::Ends,
];

/// Draws numbers, one in `past` of them out of range.
struct Dice<'r> {
    rng: &'r mut Rng,
    past: usize,
    focus: Option<Part>,
}

/// A small module; how many faults it has depends on luck.
pub fn loose(rng: &mut Rng) -> Draft {
    // Faults anywhere, or many in one part and hardly any elsewhere.
    let focus = rng.coin().then(|| rng.pick(&PARTS));
    let past = match focus {
        Some(_) => 2000,
        None => rng.pick(&[8, 25, 80, 300]),
    };
    let mut dice = Dice { rng, past, focus };
    let mut draft = Draft::default();
    draft.sheet.edition = edition(dice.rng);
    let texts: [&[u8]; 3] = [b"a", b"b", b"a"];
    draft.sheet.strings = texts.map(<[u8]>::to_vec).to_vec();
    let functions = dice.rng.within(1, 3);
    dice.types(&mut draft, functions);
    dice.constants(&mut draft);
    dice.hosts(&mut draft);
    for _ in dice.times(2) {
        let import = dice.moody(Part::Lists, |dice| dice.import(&draft));
        draft.sheet.imports.push(import);
    }
    for _ in dice.times(2) {
        let global = dice.moody(Part::Lists, |dice| dice.global(&draft));
        draft.sheet.globals.push(global);
    }
    for _ in 0..functions {
        let f = dice.moody(Part::Records, |dice| dice.record(&draft));
        draft.sheet.functions.push(f);
    }
    for at in 0..functions {
        let f = dice.body(&draft, at);
        draft.sheet.functions[at] = f;
    }
    dice.ends(&mut draft);
    draft
}

impl Dice<'_> {
    fn fault(&mut self) -> bool {
        self.rng.one_in(self.past)
    }

    /// Now and then, and in the part in focus, everything goes wrong in one place.
    fn moody<T>(&mut self, part: Part, make: impl FnOnce(&mut Self) -> T) -> T {
        let before = self.past;
        if self.focus == Some(part) {
            self.past = self.rng.pick(&[2, 3, 6]);
        } else if self.rng.one_in(before / 2) {
            self.past = 2;
        }
        let made = make(self);
        self.past = before;
        made
    }

    /// A number of a list with so many members.
    fn number(&mut self, len: usize) -> u32 {
        if len == 0 || self.fault() {
            self.rng.absent(len)
        } else {
            self.rng.index(len)
        }
    }

    /// Such a number in 16 bits.
    fn half(&mut self, len: usize) -> u16 {
        self.number(len).min(65535) as u16
    }

    fn times(&mut self, most: usize) -> std::ops::Range<usize> {
        0..self.rng.within(0, most)
    }

    fn value_type(&mut self, types: usize) -> ValueType {
        match self.rng.below(4) {
            0 => ValueType(self.rng.index(13)),
            1 if types > 0 => ValueType::reference(self.number(types)),
            _ => DYN,
        }
    }

    /// A func type, mostly.
    fn signature(&mut self, draft: &Draft) -> u32 {
        match self.rng.choose(&draft.func_types()) {
            Some(t) if !self.fault() => t,
            _ => self.rng.index(draft.sheet.types.len() + 1),
        }
    }
}

/// The parameters of a signature, none if it is no func type.
fn params_of(draft: &Draft, sig: u32) -> Vec<ValueType> {
    draft.signature(sig).map_or(Vec::new(), |s| s.0.to_vec())
}
