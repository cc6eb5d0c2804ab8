//! Loose handlers, tables and code.

use sheets::build::aw;
use sheets::{op, Function, Handler, Table, DYN};

use super::{Dice, Part};
use crate::code::instruction;
use crate::Draft;

impl Dice<'_> {
    /// The function with handlers, tables and code.
    pub fn body(&mut self, draft: &Draft, at: usize) -> Function {
        let length = self.rng.within(1, 4);
        let mut f = draft.sheet.functions[at].clone();
        for _ in self.times(2) {
            if f.regs.contains(&DYN) || self.fault() {
                let handler = self.moody(Part::Regions, |dice| dice.handler(&f, length));
                f.handlers.push(handler);
            }
        }
        for _ in self.times(2) {
            let table = self.moody(Part::Regions, |dice| Table {
                targets: dice.times(2).map(|_| dice.number(length)).collect(),
                default: dice.number(length),
            });
            f.tables.push(table);
        }
        for position in 0..length {
            let sound = instruction(self.rng, draft, &f, length, position);
            let inst = self.moody(Part::Code, |dice| dice.loosen(draft, &f, length, sound));
            f.code.push(inst);
        }
        if self.rng.one_in(10 * self.past) {
            f.code.clear();
        }
        f
    }

    fn handler(&mut self, f: &Function, length: usize) -> Handler {
        let start = self.rng.index(length);
        let end = start + 1 + self.rng.index(length - start as usize);
        let dynamic = f.regs.iter().position(|&v| v == DYN);
        let catch = dynamic.filter(|_| !self.fault()).map(|r| r as u32);
        Handler {
            start,
            end: if self.fault() { self.rng.index(6) } else { end },
            target: self.number(length),
            catch: catch.unwrap_or(self.number(f.regs.len())),
        }
    }

    /// The instruction, or one with some of its operands drawn anew.
    fn loosen(&mut self, draft: &Draft, f: &Function, length: usize, sound: u64) -> u64 {
        if !self.fault() {
            return sound;
        }
        let [mut code, mut d, ..] = sound.to_le_bytes();
        let (mut a, mut w) = ((sound >> 16) as u16, (sound >> 32) as u32);
        // Mostly in range, so that the rules behind the fields are reached.
        let before = std::mem::replace(&mut self.past, 8);
        if self.rng.coin() {
            let any = self.rng.index(35) as u8;
            let calls = [7, 7, 8, 15, 20, 21, 22, 23, 28];
            let other = if self.rng.coin() {
                self.rng.pick(&calls)
            } else {
                any
            };
            // The end of the code stays an end, mostly.
            if !op::terminates(code) || op::terminates(other) || self.fault() {
                code = other;
            }
            w = self.w(draft, f, length, code);
        }
        if self.rng.coin() {
            d = self.rng.pick(&[0, 1, 2, 3, 4, 12, 13]);
        }
        if self.rng.coin() {
            a = self.half(f.regs.len());
        }
        if self.rng.coin() {
            w = self.w(draft, f, length, code);
        }
        self.past = before;
        aw(code, d, a, w)
    }

    fn w(&mut self, draft: &Draft, f: &Function, length: usize, code: u8) -> u32 {
        let sheet = &draft.sheet;
        match code {
            op::JMP | op::BRANCH => self.number(length),
            op::SWITCH => self.number(f.tables.len()),
            op::TAIL_CALL | op::CALL | op::CORO_NEW | op::MAKE_CLOSURE => {
                self.number(sheet.functions.len())
            }
            op::LOAD_CONST => self.number(sheet.constants.len()),
            op::LOAD_GLOBAL => self.number(sheet.globals.len()),
            op::CALL_IMPORT => self.number(sheet.imports.len()),
            _ => self.b_and_c(f, code),
        }
    }

    fn b_and_c(&mut self, f: &Function, code: u8) -> u32 {
        let b = match code {
            op::LOAD_CAPTURE => f.captures.len(),
            op::D_CALL_SHAPE => f.shapes.len(),
            op::NEW_STRUCT..=op::NEW_CELL => f.type_refs.len(),
            _ => f.regs.len(),
        };
        let c = match code {
            op::LOAD_NAME => f.names.len(),
            _ => f.regs.len(),
        };
        u32::from(self.half(b)) | u32::from(self.half(c)) << 16
    }
}
