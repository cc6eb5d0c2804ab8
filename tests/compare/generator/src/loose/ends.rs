//! Loose hooks, start and exports.

use sheets::build::export;
use sheets::{CalleeKind, Export, ExportKind, HookBinding};

use super::{Dice, Part};
use crate::{hook_shape, Draft};

impl Dice<'_> {
    pub fn ends(&mut self, draft: &mut Draft) {
        for _ in self.times(2) {
            let binding = self.moody(Part::Ends, |dice| dice.binding(draft));
            draft.sheet.hooks.extend(binding);
        }
        draft.sheet.start = self.moody(Part::Ends, |dice| dice.start(draft));
        for _ in self.times(3) {
            let export = self.moody(Part::Ends, |dice| dice.export(draft));
            draft.sheet.exports.push(export);
        }
    }

    /// A start function; mostly only if its signature fits.
    fn start(&mut self, draft: &Draft) -> Option<u32> {
        let start = self.number(draft.sheet.functions.len());
        let sig = draft.sheet.functions.get(start as usize).map(|f| f.sig);
        let fits = sig.is_some_and(|s| draft.signature(s) == Some((&[], &[])));
        (fits || self.fault()).then_some(start)
    }

    /// A binding; mostly only if its callee fits some hook.
    fn binding(&mut self, draft: &Draft) -> Option<HookBinding> {
        let (functions, imports) = (draft.sheet.functions.len(), draft.sheet.imports.len());
        let (callee, index) = if self.rng.coin() {
            (CalleeKind::Function, self.number(functions))
        } else {
            (CalleeKind::Import, self.number(imports))
        };
        let sig = match callee {
            CalleeKind::Function => draft.sheet.functions.get(index as usize).map(|f| f.sig),
            CalleeKind::Import => draft.sheet.imports.get(index as usize).map(|i| i.sig),
        };
        let shape = sig
            .and_then(|s| draft.signature(s))
            .map(|(params, results)| (params.len(), !results.is_empty()));
        let fitting: Vec<u32> = (0..31).filter(|&h| Some(hook_shape(h)) == shape).collect();
        let hook = match self.rng.choose(&fitting) {
            Some(hook) if !self.fault() => hook,
            _ if self.fault() => self.rng.index(31),
            _ => return None,
        };
        Some(HookBinding {
            hook,
            callee,
            index,
        })
    }

    fn export(&mut self, draft: &mut Draft) -> Export {
        let kind = match self.rng.below(3) {
            0 => ExportKind::Function,
            1 if !draft.sheet.globals.is_empty() => ExportKind::Global,
            _ => ExportKind::Type,
        };
        let index = self.number(draft.items(kind));
        export(kind, self.name(draft), index)
    }

    /// Any of a few names, and mostly the export's own where names are read.
    fn name(&mut self, draft: &mut Draft) -> u32 {
        let any = self.rng.index(5);
        let own = draft.sheet.edition.reads_export_names() && !self.rng.one_in(6);
        if own && !self.fault() {
            return draft.free_name(self.rng);
        }
        any
    }
}
