//! The nearest families against brute force on tables that load wrote, and against their definition on any others.

use compare::{asked_numbers, chain, descends_by_parents, nearest_in, nearest_numbers, Ancestors};
use generator::Rng;
use sheets::Sheet;

use crate::damage::{invented, some_number, Damage, ALTERED};
use crate::{Checker, Loader};

/// All pairs are asked for up to so many types: 99 of 100 accepted sheets have no more.
const ALL_PAIRS: usize = 260;

/// Above, all pairs of a sample are: of as many types as let their pairs read about so many spans.
const SPANS_READ: usize = 1 << 21;

/// How many triples of types are asked for on each accepted sheet.
const TRIPLES: usize = 16;

/// How many tables of invented spans are asked of for each accepted sheet, and with an altered word for each of these.
const INVENTED: usize = 4;
const ALTERED_INVENTED: usize = 2;

/// Of how many types all pairs are asked for.
fn sample(types: usize) -> usize {
    if types <= ALL_PAIRS {
        return types;
    }
    // Each pair reads every span.
    (SPANS_READ / types).isqrt().max(2)
}

/// What is asked next of a family that was found; none and 25 stay what they are.
fn then(first: [u32; 2], next: impl Fn(u32) -> [u32; 2]) -> [u32; 2] {
    match first {
        [0, family] => next(family),
        none => none,
    }
}

impl<L: Loader> Checker<'_, L> {
    /// All that is asked about nearest families once a sheet is accepted; the table is another after it.
    pub(crate) fn nearest_families(&mut self, rng: &mut Rng, sheet: &Sheet) -> Result<(), String> {
        let types = sheet.types.len();
        let asked = asked_numbers(rng, types, sample(types));
        self.tally.all_pairs += u64::from(types <= ALL_PAIRS);
        self.nearest_of_pairs(sheet, &asked)?;
        self.nearest_of_triples(rng, sheet, &asked)?;
        self.altered_nearest(rng, ALTERED)?;
        for _ in 0..INVENTED {
            self.invented_nearest(rng)?;
        }
        Ok(())
    }

    /// All pairs in both orders, on the table as load left it: the common ancestor with the longest chain.
    fn nearest_of_pairs(&mut self, sheet: &Sheet, asked: &[u32]) -> Result<(), String> {
        let walk = |&t| (t, chain(sheet, t).collect::<Vec<_>>());
        let chains: Vec<_> = asked.iter().map(walk).collect();
        for (k, &(t, _)) in chains.iter().enumerate() {
            let above = Ancestors::of(sheet, t);
            for (u, of_u) in &chains[k..] {
                let expected = nearest_numbers(above.nearest(of_u.iter().copied()));
                self.nearest(t, *u, "declared", expected)?;
                self.nearest(*u, t, "declared", expected)?;
            }
        }
        Ok(())
    }

    /// One nearest family on the table as it stands.
    fn nearest(&mut self, t: u32, u: u32, by: &str, expected: [u32; 2]) -> Result<(), String> {
        let found = self.loader.nearest(self.table.now(), t, u);
        self.tally.add_nearest(expected);
        if found != expected {
            return Err(format!(
                "nearest of {t} and {u}: answered {found:?}, {by} {expected:?}"
            ));
        }
        Ok(())
    }

    /// Triples, mostly of structs, on the table as load left it.
    fn nearest_of_triples(
        &mut self,
        rng: &mut Rng,
        sheet: &Sheet,
        asked: &[u32],
    ) -> Result<(), String> {
        let is_struct = |&t: &u32| descends_by_parents(sheet, t, t);
        let structs: Vec<u32> = asked.iter().copied().filter(is_struct).collect();
        for _ in 0..TRIPLES {
            let any = rng.one_in(8) || structs.is_empty();
            let members = if any { asked } else { &structs };
            let triple = [(); 3].map(|()| rng.pick(members));
            self.grouped(sheet, triple)?;
            self.both_descend(triple)?;
        }
        Ok(())
    }

    /// Three types grouped both ways, by the answers alone: the nearest of the ancestors that all of them have.
    fn grouped(&mut self, sheet: &Sheet, [t, u, v]: [u32; 3]) -> Result<(), String> {
        let nearest = |t, u| self.loader.nearest(self.table.now(), t, u);
        let first = then(nearest(t, u), |family| nearest(family, v));
        let second = then(nearest(u, v), |family| nearest(t, family));
        let common = Ancestors::of(sheet, t).and(chain(sheet, u));
        let expected = nearest_numbers(common.nearest(chain(sheet, v)));
        self.tally.add_triple(expected);
        if [first, second] != [expected; 2] {
            return Err(format!(
                "nearest of {t}, {u} and {v}: grouped {first:?} and {second:?}, declared {expected:?}"
            ));
        }
        Ok(())
    }

    /// Two types descend from a third exactly when their nearest family exists and does, by the answers alone.
    fn both_descend(&mut self, [t, u, a]: [u32; 3]) -> Result<(), String> {
        let table = self.table.now();
        let descends = |t| self.loader.descends(table, t, a) == 1;
        let both = descends(t) && descends(u);
        let nearest = self.loader.nearest(table, t, u);
        self.tally.both_descend += u64::from(both);
        if both != (nearest[0] == 0 && descends(nearest[1])) {
            return Err(format!(
                "both {t} and {u} descend from {a}: {both}, their nearest family {nearest:?}: {}",
                !both
            ));
        }
        Ok(())
    }

    /// The nearest family on tables of which a word is altered or the end is missing.
    fn altered_nearest(&mut self, rng: &mut Rng, tables: usize) -> Result<(), String> {
        let table = self.table.now_mut();
        for _ in 0..tables {
            let [t, u, other] = [(); 3].map(|()| some_number(rng, table));
            let hit = rng.pick(&[t, u, other]);
            let damage = Damage::draw_far(rng, table, hit);
            for (t, u) in [(t, u), (u, t), (t, t)] {
                let found = |words: &[u32]| self.loader.nearest(words, t, u);
                let held = damage.held(table, found, |words| nearest_in(words, t, u));
                let expected = held.map_err(|what| format!("nearest of {t} and {u}: {what}"))?;
                self.tally.add_nearest(expected);
            }
        }
        Ok(())
    }

    /// All pairs on a table of invented spans, then some with a word of it altered.
    fn invented_nearest(&mut self, rng: &mut Rng) -> Result<(), String> {
        let words = invented(rng);
        let types = words[words[9] as usize] as usize;
        self.table.lend(words.len()).copy_from_slice(&words);
        let asked = asked_numbers(rng, types, types);
        for &t in &asked {
            for &u in &asked {
                let expected = nearest_in(&words, t, u);
                self.nearest(t, u, "by invented spans", expected)
                    .map_err(|what| format!("{what}, words {words:?}"))?;
            }
        }
        self.altered_nearest(rng, ALTERED_INVENTED)
    }

    /// The nearest family on the words that stand in a table which load left alone.
    pub(crate) fn foreign_nearest(&mut self, rng: &mut Rng) -> Result<(), String> {
        let [t, u] = [(); 2].map(|()| rng.pick(&[0, 1, u32::MAX]));
        let expected = nearest_in(self.table.now(), t, u);
        self.nearest(t, u, "by words that were left alone", expected)
    }
}
