//! Code without a fault: any of the 35 instructions, as far as the function and its sheet allow.

use sheets::{op, Function, TypeEntry, DYN};

use crate::{Draft, Rng};

/// Writes code of this length into function `at`; its other lists stand already.
pub fn write_code(rng: &mut Rng, draft: &mut Draft, at: usize, length: usize) {
    let mut code = Vec::new();
    for position in 0..length {
        let f = &draft.sheet.functions[at];
        code.push(instruction(rng, draft, f, length, position));
    }
    draft.sheet.functions[at].code = code;
}

/// An instruction for this position of a function with code of this length.
pub fn instruction(
    rng: &mut Rng,
    draft: &Draft,
    f: &Function,
    length: usize,
    position: usize,
) -> u64 {
    let scene = Scene {
        draft,
        f,
        length,
        covered: covered(f, position as u32),
    };
    scene.instruction(rng, position + 1 == length)
}

/// Whether a handler covers the position.
fn covered(f: &Function, position: u32) -> bool {
    f.handlers
        .iter()
        .any(|h| h.start <= position && position < h.end)
}

/// Where an instruction is to stand.
struct Scene<'d> {
    draft: &'d Draft,
    f: &'d Function,
    length: usize,
    covered: bool,
}

/// The operands of an instruction; those that it does not name hold anything.
struct Operands {
    d: u8,
    a: u16,
    w: u32,
}

impl Scene<'_> {
    fn instruction(&self, rng: &mut Rng, last: bool) -> u64 {
        for _ in 0..40 {
            let any = rng.index(35) as u8;
            let code = match last {
                true => rng.pick(&[0, 1, 2, 3, 4, 6, 7, 8]),
                // One code with many borders, as far as there are imports.
                false if rng.one_in(4) => op::CALL_IMPORT,
                false => any,
            };
            if let Some(o) = self.operands(rng, code) {
                return sheets::build::aw(code, o.d, o.a, o.w);
            }
        }
        sheets::build::ret_void()
    }

    /// A register with at least `after` more registers behind it.
    fn register(&self, rng: &mut Rng, after: usize) -> Option<u16> {
        let free = self.f.regs.len().checked_sub(after).filter(|&n| n > 0)?;
        // Windows that end with the frame, often.
        let last = rng.one_in(3) && free <= 65536;
        Some(if last { free - 1 } else { rng.below(free) } as u16)
    }

    /// A register and a count of registers from `skip` behind it that stay in the frame.
    fn window(&self, rng: &mut Rng, skip: usize) -> Option<(u16, u8)> {
        let first = self.register(rng, 0)?;
        let room = self.f.regs.len() - usize::from(first);
        let room = room.saturating_sub(skip).min(255);
        let full = rng.one_in(3);
        let count = if full { room } else { rng.within(0, room) };
        Some((first, count as u8))
    }

    fn operands(&self, rng: &mut Rng, code: u8) -> Option<Operands> {
        let junk = if rng.coin() { 0 } else { rng.bits() };
        let (mut d, mut a, mut w) = (junk as u8, (junk >> 8) as u16, (junk >> 32) as u32);
        let sheet = &self.draft.sheet;
        let some = |rng: &mut Rng, n: usize| (n > 0).then(|| rng.index(n));
        // B and C stand in the low and the high half of W.
        let low = |w: &mut u32, b: u32| *w = *w & 0xffff_0000 | b & 0xffff;
        let high = |w: &mut u32, c: u32| *w = *w & 0xffff | c << 16;
        if code > op::RET_VOID && code != op::JMP {
            a = self.register(rng, 0)?;
        }
        match code {
            op::JMP | op::BRANCH => w = rng.index(self.length),
            op::SWITCH => w = some(rng, self.f.tables.len())?,
            op::TAIL_CALL | op::CALL | op::CORO_NEW => {
                let (function, argc) = self.callee(rng)?;
                // A tail call's window begins at A itself.
                let behind = if code == op::TAIL_CALL {
                    argc.saturating_sub(1)
                } else {
                    argc
                };
                a = self.register(rng, behind)?;
                (w, d) = (function, argc as u8);
            }
            op::TAIL_CALL_INDIRECT => (a, d) = self.window(rng, 0)?,
            op::CALL_INDIRECT..=op::SPAWN => (a, d) = self.window(rng, 1)?,
            op::I_ADD if d == 3 => d = 2,
            op::D_ADD => {
                let dynamic = self.f.regs[usize::from(a)] == DYN;
                d = if dynamic && rng.coin() { 3 } else { d & 0xfc };
            }
            op::LOAD_CONST => w = some(rng, sheet.constants.len())?,
            op::LOAD_GLOBAL => w = some(rng, sheet.globals.len())?,
            op::LOAD_NAME => high(&mut w, some(rng, self.f.names.len().min(65536))?),
            op::LOAD_CAPTURE => low(&mut w, some(rng, self.f.captures.len().min(65536))?),
            op::CALL_IMPORT => {
                let (import, argc) = self.imported(rng)?;
                a = self.register(rng, argc)?;
                (w, d) = (import, argc as u8);
            }
            op::MAKE_CLOSURE => {
                w = some(rng, sheet.functions.len())?;
                a = self.register(rng, sheet.functions[w as usize].captures.len())?;
            }
            op::D_CALL_SHAPE => {
                let shape = some(rng, self.f.shapes.len().min(65536))?;
                low(&mut w, shape);
                a = self.register(rng, self.f.shapes[shape as usize].len())?;
            }
            op::NEW_STRUCT..=op::NEW_CELL => low(&mut w, self.type_ref(rng, code)?),
            op::STR_CONCAT_N => {
                let (first, count) = self.window(rng, 0)?;
                low(&mut w, first.into());
                d = count;
            }
            op::STR_SLICE => high(&mut w, self.register(rng, 1)?.into()),
            op::FROM_DYN if d == 13 => d = 14,
            op::RAISE => d %= 12,
            op::FLOAT_TO_BITS | op::BITS_TO_FLOAT => d = rng.pick(&[3, 4, 7, 8]),
            _ => {}
        }
        if matches!(code, op::TAIL_CALL | op::TAIL_CALL_INDIRECT) && self.covered {
            return None;
        }
        self.other_registers(rng, code, &mut w)?;
        Some(Operands { d, a, w })
    }

    /// B and C of the codes where they are registers.
    fn other_registers(&self, rng: &mut Rng, code: u8, w: &mut u32) -> Option<()> {
        let b = matches!(code, op::TAIL_CALL_INDIRECT..=op::D_ADD | op::LOAD_NAME
            | op::CALL_INDIRECT..=op::SPAWN | op::STR_SLICE | op::FROM_DYN
            | op::FLOAT_TO_BITS..=op::MOVE);
        if b {
            *w = *w & 0xffff_0000 | u32::from(self.register(rng, 0)?);
        }
        if matches!(code, op::I_ADD | op::D_ADD) {
            *w = *w & 0xffff | u32::from(self.register(rng, 0)?) << 16;
        }
        Some(())
    }

    /// A function without captures that fits an argument count, and that count.
    fn callee(&self, rng: &mut Rng) -> Option<(u32, usize)> {
        let functions = &self.draft.sheet.functions;
        let at = rng.below(functions.len());
        let f = &functions[at];
        let argc = self.draft.signature(f.sig)?.0.len();
        (f.captures.is_empty() && argc <= 255).then_some((at as u32, argc))
    }

    /// An import and an argument count that fits it: often its fewest.
    fn imported(&self, rng: &mut Rng) -> Option<(u32, usize)> {
        let imports = self.draft.sheet.imports.len();
        let import = (imports > 0).then(|| rng.index(imports))?;
        let (fewest, most) = self.draft.arguments(import)?;
        if fewest > 255 {
            return None;
        }
        let any = rng.within(fewest, most.min(255));
        Some((import, rng.pick(&[fewest, any])))
    }

    /// A type ref of the kind that the code makes.
    fn type_ref(&self, rng: &mut Rng, code: u8) -> Option<u32> {
        let fits = |t: u32| match self.draft.sheet.types.get(t as usize) {
            Some(TypeEntry::Struct { .. }) => code == op::NEW_STRUCT,
            Some(TypeEntry::Array(_)) => code == op::NEW_ARRAY,
            Some(TypeEntry::Map(..)) => code == op::NEW_MAP,
            Some(TypeEntry::Cell(_)) => code == op::NEW_CELL,
            _ => false,
        };
        let refs: Vec<u32> = (0u32..65536)
            .zip(&self.f.type_refs)
            .filter(|(_, &t)| fits(t))
            .map(|(i, _)| i)
            .collect();
        rng.choose(&refs)
    }
}
