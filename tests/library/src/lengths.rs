//! The chain lengths against brute force on tables that load wrote, and against their definition on any others; and that no
//! other query reads them, nor takes a table without them.

use compare::{asked_numbers, chain_lengths, length_in, nearest_in, query, size_in};
use generator::Rng;
use sheets::Sheet;

use crate::damage::{first_span, invented, some_number, without_lengths, Damage, ALTERED};
use crate::{Checker, Loader};

/// How many tables of invented spans are asked of for each accepted sheet, and with an altered word for each of these.
const INVENTED: usize = 2;
const ALTERED_INVENTED: usize = 2;

/// How many pairs the other queries are asked for beside third words that no load writes.
const BESIDE: usize = 4;

impl<L: Loader> Checker<'_, L> {
    /// All that is asked about chain lengths on the table as load left it, or nearly; it is as before after it.
    pub(crate) fn chain_lengths(&mut self, rng: &mut Rng, sheet: &Sheet) -> Result<(), String> {
        self.lengths(sheet)?;
        self.altered_lengths(rng, ALTERED)?;
        self.any_lengths(rng)?;
        self.other_formats(rng)
    }

    /// The length of every chain, and of numbers that no type has: as many as a walk along declared parents meets.
    fn lengths(&mut self, sheet: &Sheet) -> Result<(), String> {
        let lengths = chain_lengths(sheet);
        let n = lengths.len() as u32;
        for (t, length) in (0..n).zip(lengths) {
            self.length(t, "declared", [0, length])?;
        }
        for t in [n, n + 1, 1 << 31, u32::MAX] {
            self.length(t, "declared", [0, 0])?;
        }
        Ok(())
    }

    /// One length on the table as it stands.
    fn length(&mut self, t: u32, by: &str, expected: [u32; 2]) -> Result<(), String> {
        let found = self.loader.chain_length(self.table.now(), t);
        self.tally.add_length(expected);
        if found != expected {
            return Err(format!(
                "chain length of {t}: answered {found:?}, {by} {expected:?}"
            ));
        }
        Ok(())
    }

    /// The length on tables of which a word is altered or the end is missing.
    fn altered_lengths(&mut self, rng: &mut Rng, tables: usize) -> Result<(), String> {
        let table = self.table.now_mut();
        for _ in 0..tables {
            let t = some_number(rng, table);
            let damage = Damage::draw_far(rng, table, t);
            let found = |words: &[u32]| self.loader.chain_length(words, t);
            let held = damage.held(table, found, |words| length_in(words, t));
            let expected = held.map_err(|what| format!("chain length of {t}: {what}"))?;
            self.tally.add_length(expected);
        }
        Ok(())
    }

    /// Any words in the place of all chain lengths: each is then the length, and the other queries answer as before.
    fn any_lengths(&mut self, rng: &mut Rng) -> Result<(), String> {
        let table = self.table.now_mut();
        let before = table[..table[1] as usize].to_vec();
        for place in (first_span(table) + 2..before.len()).step_by(3) {
            table[place] = rng.word();
        }
        for _ in 0..BESIDE {
            let [t, u] = [(); 2].map(|()| some_number(rng, &before));
            self.length(t, "by the word there", length_in(self.table.now(), t))?;
            self.beside_any_lengths(&before, t, u)?;
        }
        self.table.now_mut()[..before.len()].copy_from_slice(&before);
        Ok(())
    }

    /// What the other queries answer of a pair is what they answer on the words before.
    fn beside_any_lengths(&self, before: &[u32], t: u32, u: u32) -> Result<(), String> {
        let table = self.table.now();
        let found = (
            self.loader.descends(table, t, u),
            self.loader.family_size(table, t),
            self.loader.nearest(table, t, u),
        );
        let expected = (
            query(before, t, u),
            size_in(before, t),
            nearest_in(before, t, u),
        );
        if found != expected {
            return Err(format!(
                "{t} and {u} beside other chain lengths: answered {found:?}, before {expected:?}"
            ));
        }
        Ok(())
    }

    /// With another first word, and with two words a span behind a first word of 1, the words are no table to any query.
    fn other_formats(&mut self, rng: &mut Rng) -> Result<(), String> {
        let mut words = self.table.now().to_vec();
        let (types, length) = (words[words[9] as usize], words[1] as usize);
        let two_a_span = without_lengths(&words[..length]);
        for first in [1, 3] {
            words[0] = first;
            self.no_table(rng, types, &words, &format!("first word {first}"))?;
        }
        self.tally.without_lengths += 1;
        self.no_table(rng, types, &two_a_span, "two words a span")
    }

    /// 25 of a type, or of numbers that no type has.
    fn no_table(&self, rng: &mut Rng, types: u32, words: &[u32], what: &str) -> Result<(), String> {
        let [t, u] = [(); 2].map(|()| rng.pick(&[0, types.saturating_sub(1), types, u32::MAX]));
        let found = (
            self.loader.descends(words, t, u),
            self.loader.family_size(words, t),
            self.loader.chain_length(words, t),
            self.loader.nearest(words, t, u),
        );
        if found != (25, [25, 0], [25, 0], [25, 0]) {
            return Err(format!("{what}: answered {found:?} of {t} and {u}"));
        }
        Ok(())
    }

    /// All lengths on tables of invented spans, then some with a word of them altered.
    pub(crate) fn invented_lengths(&mut self, rng: &mut Rng) -> Result<(), String> {
        for _ in 0..INVENTED {
            let words = invented(rng);
            let types = words[words[9] as usize] as usize;
            self.table.lend(words.len()).copy_from_slice(&words);
            for t in asked_numbers(rng, types, types) {
                self.length(t, "by invented spans", length_in(&words, t))
                    .map_err(|what| format!("{what}, words {words:?}"))?;
            }
            self.altered_lengths(rng, ALTERED_INVENTED)?;
        }
        Ok(())
    }

    /// The length on the words that stand in a table which load left alone.
    pub(crate) fn foreign_length(&mut self, rng: &mut Rng) -> Result<(), String> {
        let t = rng.pick(&[0, 1, u32::MAX]);
        let expected = length_in(self.table.now(), t);
        self.length(t, "by words that were left alone", expected)
    }
}
