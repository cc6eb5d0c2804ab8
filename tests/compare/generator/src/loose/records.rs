//! Loose imports, globals and function records.

use sheets::{Function, Global, Import, Param, ShapeEntry, ValueType};

use super::{params_of, Dice};
use crate::lists::{by_reference, param_list, shape};
use crate::Draft;

impl Dice<'_> {
    pub fn import(&mut self, draft: &Draft) -> Import {
        let sig = self.signature(draft);
        let params = params_of(draft, sig);
        Import {
            module: self.number(3),
            name: self.number(3),
            sig,
            params: (!self.rng.one_in(3)).then(|| self.params(draft, &params)),
        }
    }

    pub fn global(&mut self, draft: &Draft) -> Global {
        let constants = draft.sheet.constants.len();
        let wanted = constants > 0 || self.fault();
        Global {
            ty: self.value_type(draft.sheet.types.len()),
            init: wanted.then(|| self.number(constants)),
        }
    }

    /// A sound parameter list, or one where each part may be wrong.
    fn params(&mut self, draft: &Draft, params: &[ValueType]) -> Vec<Param> {
        let mut list = param_list(self.rng, draft, params);
        for (p, &v) in list.iter_mut().zip(params) {
            if self.fault() {
                p.flags = self.rng.index(5);
            }
            if self.fault() {
                p.name = Some(self.number(3));
            }
            // By reference where it may not be.
            if !by_reference(draft, v) && self.fault() {
                p.flags |= 1;
            }
        }
        if self.fault() {
            list.pop();
        }
        list
    }

    fn shape(&mut self, draft: &Draft) -> Vec<ShapeEntry> {
        let mut entries = shape(self.rng, draft, 3);
        for e in &mut entries {
            if self.fault() {
                e.kind = self.rng.index(4);
                e.name = self.number(3);
            }
        }
        entries
    }

    pub fn record(&mut self, draft: &Draft) -> Function {
        let types = draft.sheet.types.len();
        let sig = self.signature(draft);
        let params = params_of(draft, sig);
        let mut regs = params.clone();
        regs.extend(self.times(3).map(|_| self.value_type(types)));
        if self.fault() && !regs.is_empty() {
            regs[0] = self.value_type(types);
        }
        let captures = if self.rng.one_in(3) { 2 } else { 0 };
        Function {
            sig,
            params: self.rng.one_in(3).then(|| self.params(draft, &params)),
            regs,
            shapes: self.times(2).map(|_| self.shape(draft)).collect(),
            captures: self
                .times(captures)
                .map(|_| self.value_type(types))
                .collect(),
            names: self.times(2).map(|_| self.number(3)).collect(),
            type_refs: self.times(3).map(|_| self.number(types)).collect(),
            ..Function::default()
        }
    }
}
