//! The sizes of families and the counts of structs against brute force.

use compare::{family_sizes, is_root, size_in, struct_count};
use generator::Rng;
use sheets::Sheet;

use crate::damage::{some_number, Damage, ALTERED};
use crate::{Checker, Loader};

impl<L: Loader> Checker<'_, L> {
    /// The size of every family, and of numbers that no type has, on the table as load left it: as many as descend by
    /// declared parents. Gives the sum over the roots.
    pub(crate) fn sizes(&mut self, sheet: &Sheet) -> Result<u32, String> {
        let sizes = family_sizes(sheet);
        let n = sizes.len() as u32;
        let mut of_roots = 0;
        for (a, size) in (0..n).zip(sizes) {
            self.size(a, [0, size])?;
            of_roots += if is_root(sheet, a) { size } else { 0 };
        }
        for a in [n, n + 1, 1 << 31, u32::MAX] {
            self.size(a, [0, 0])?;
        }
        Ok(of_roots)
    }

    /// One size on the table as it stands.
    fn size(&mut self, a: u32, expected: [u32; 2]) -> Result<(), String> {
        let found = self.loader.family_size(self.table.now(), a);
        self.tally.add_size(expected);
        if found != expected {
            return Err(format!(
                "size of {a}: answered {found:?}, declared {expected:?}"
            ));
        }
        Ok(())
    }

    /// The size on tables of which a word is altered or the end is missing.
    pub(crate) fn altered_sizes(&mut self, rng: &mut Rng) -> Result<(), String> {
        let table = self.table.now_mut();
        for _ in 0..ALTERED {
            let a = some_number(rng, table);
            let damage = Damage::draw(rng, table, a);
            let found = |words: &[u32]| self.loader.family_size(words, a);
            let held = damage.held(table, found, |words| size_in(words, a));
            let expected = held.map_err(|what| format!("size of {a}: {what}"))?;
            self.tally.add_size(expected);
        }
        Ok(())
    }

    /// The size on the words that stand in a table which load left alone.
    pub(crate) fn foreign_size(&mut self, rng: &mut Rng) -> Result<(), String> {
        let a = rng.pick(&[0, 1, u32::MAX]);
        self.size(a, size_in(self.table.now(), a))
    }

    /// The structs of a sheet counted, from its declarations alone. Gives how many there are, 0 where the layout is broken.
    pub(crate) fn count(&mut self, bytes: &[u8], intact: Option<&Sheet>) -> Result<u32, String> {
        let expected = intact.map_or([1, 0], |sheet| [0, struct_count(sheet)]);
        let found = self.loader.count_structs(bytes);
        self.tally.add_count(expected);
        if found != expected {
            return Err(format!(
                "structs: answered {found:?}, declared {expected:?}"
            ));
        }
        Ok(expected[1])
    }
}
