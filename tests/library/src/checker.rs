//! One case or pair at a time against the reference.

use bvm_lang::descends;
use compare::{
    answer, asked_numbers, descends_by_parents, length_difference, load, nearest_difference,
    pair_difference, query, said_by, Accepted, StoredCase,
};
use generator::{case, pair, Case, Draft, Rng};
use paqlluri::LoadError;
use sheets::{decode_sheet, encode_hosts, encode_sheet, needed, Edition, BLOCK};

use crate::{Lent, Loader, Tally};

/// All families are asked for up to so many types, those of a sample above.
const ASKED: usize = 24;

/// How many tables with an altered word are asked of for each accepted sheet.
const ALTERED: usize = 4;

/// What differs, and the cases that show it, with the reference's answers.
#[derive(Debug)]
pub struct Difference {
    pub index: u64,
    pub what: String,
    pub cases: Vec<StoredCase>,
}

/// Holds a loader to the reference, and counts.
pub struct Checker<'l, L> {
    pub(crate) loader: &'l L,
    pub(crate) table: Lent,
    work: Lent,
    pub tally: Tally,
}

impl<'l, L: Loader> Checker<'l, L> {
    pub fn new(loader: &'l L) -> Checker<'l, L> {
        Checker {
            loader,
            table: Lent::new(0xa5a5_a5a5),
            work: Lent::new(0x5a5a_5a5a),
            tally: Tally::default(),
        }
    }

    /// Case `open_index` of a seed, unless its host list has over so many blocks.
    pub fn case(&mut self, seed: u64, index: u64, host_blocks: u64) -> Result<(), Difference> {
        let case = case(seed, index);
        if case.hosts.len() as u64 > host_blocks.saturating_mul(BLOCK as u64) {
            self.tally.left_out += 1;
            return Ok(());
        }
        let rng = &mut Rng::new(!seed, index);
        self.given(rng, &case).map_err(|what| Difference {
            index,
            what: format!("case {index} of seed {seed} ({}): {what}", case.label),
            cases: vec![stored(&case)],
        })
    }

    /// A case, whatever it came from.
    pub fn given(&mut self, rng: &mut Rng, case: &Case) -> Result<(), String> {
        self.tally.cases += 1;
        let (numbers, accepted) = self.call(case)?;
        let intact = decode_sheet(&case.sheet).map(|(sheet, _)| sheet);
        let structs = self.count(&case.sheet, intact.as_ref())?;
        self.tally.coverage.add(&case.sheet, &case.hosts, numbers);
        let Some(accepted) = accepted else {
            self.foreign_size(rng)?;
            self.foreign_length(rng)?;
            return self.foreign_nearest(rng);
        };
        let sheet = &accepted.sheet;
        self.tally.accept(&case.sheet, numbers[2] as usize);
        self.families(rng, &accepted)?;
        self.altered(rng)?;
        let of_roots = self.sizes(sheet)?;
        if of_roots != structs {
            return Err(format!(
                "the root families have {of_roots} types, the sheet {structs} structs"
            ));
        }
        self.altered_sizes(rng)?;
        self.chain_lengths(rng, sheet)?;
        self.nearest_families(rng, sheet)?;
        self.invented_lengths(rng)
    }

    /// Pair `open_index` of a seed, as demand 3 says.
    pub fn pair(&mut self, seed: u64, index: u64) -> Result<(), Difference> {
        let pair = pair(seed, index);
        let cases = [with_room(&pair.first), with_room(&pair.second)];
        let rng = &mut Rng::new(!seed, index);
        self.tally.pairs += 1;
        self.two(rng, &cases, &pair.images)
            .map_err(|what| Difference {
                index,
                what: format!("pair {index} of seed {seed}: {what}"),
                cases: cases.iter().map(stored).collect(),
            })
    }

    fn two(&mut self, rng: &mut Rng, cases: &[Case; 2], images: &[u32]) -> Result<(), String> {
        let (numbers, accepted) = self.call(&cases[0])?;
        // The words that were written: none where it is refused.
        let written = accepted.as_ref().map_or(0, |_| numbers[2] as usize);
        let first = self.table.now()[..written].to_vec();
        let (others, also) = self.call(&cases[1])?;
        self.tally.other_kind_pairs += u64::from(numbers[0] != others[0]);
        match (accepted, also) {
            (Some(first), Some(_)) => self.tally.accept_pair(&first.sheet),
            (None, None) => return Ok(()),
            _ => return Err(format!("answered {numbers:?} and, renumbered, {others:?}")),
        }
        let second = &self.table.now()[..others[2] as usize];
        let asked = asked_numbers(rng, images.len(), ASKED);
        let all = asked_numbers(rng, images.len(), images.len());
        let (pairs, tables) = ((asked.len() * asked.len()) as u64, [&first[..], second]);
        self.tally.queries += 2 * pairs;
        self.tally.moved += pairs;
        self.tally.moved_lengths += all.len() as u64;
        let query = |table: &[u32], t, a| self.loader.descends(table, t, a);
        let nearest = |table: &[u32], t, u| self.loader.nearest(table, t, u);
        let length = |table: &[u32], t| self.loader.chain_length(table, t);
        let differs = pair_difference(images, &asked, tables, query)
            .or_else(|| nearest_difference(images, &asked, tables, nearest))
            .or_else(|| length_difference(images, &all, tables, length));
        match differs {
            Some(what) => Err(format!("tables of a renumbered pair differ in {what}")),
            None => Ok(()),
        }
    }

    /// One call against the reference's: the numbers, and every word of table and work.
    fn call(&mut self, case: &Case) -> Result<([u32; 6], Option<Accepted>), String> {
        let expected = load(&case.sheet, &case.hosts, case.table_len, case.work_len);
        let table = self.table.lend(case.table_len as usize);
        let work = self.work.lend(case.work_len as usize);
        let numbers = self.loader.load(&case.sheet, &case.hosts, table, work);
        let (expected, words, accepted) = match expected {
            Err(numbers) => (numbers, Vec::new(), None),
            Ok(accepted) => {
                let words = accepted.table();
                ([0, 0, words.len() as u32, 0, 0, 0], words, Some(accepted))
            }
        };
        if numbers != expected {
            return Err(format!("answered {numbers:?}, expected {expected:?}"));
        }
        let edition = accepted.as_ref().map(|a| a.sheet.edition);
        self.slices(numbers[0], edition.unwrap_or_default(), &words)?;
        let named = LoadError::from_numbers(numbers).map(|e| e.numbers());
        if accepted.is_none() && named != Some(numbers) {
            return Err(format!("{numbers:?} have no name"));
        }
        Ok((numbers, accepted))
    }

    /// The table begins with these words and is else as before; work is zero, or as before.
    fn slices(&self, kind: u32, edition: Edition, words: &[u32]) -> Result<(), String> {
        let table = self.table.now();
        if !table.starts_with(words) {
            let place = table.iter().zip(words).take_while(|(a, b)| a == b).count();
            let (found, expected) = (table.get(place), words.get(place));
            let by = said_by(edition, words, place);
            return Err(format!(
                "table word {place} is {found:?}, {by} {expected:?}"
            ));
        }
        if let Some(place) = self.table.changed_from(words.len()) {
            let last = words.len();
            return Err(format!("table word {place} is changed, {last} are written"));
        }
        if self.table.is_overrun() {
            return Err("a word beside the table is changed".to_string());
        }
        self.work_after(kind)
    }

    /// Work is zero, and as before after the kinds that touch nothing.
    fn work_after(&self, kind: u32) -> Result<(), String> {
        let work = match kind {
            1 | 23 | 24 => self.work.changed_from(0),
            _ => self.work.now().iter().position(|&word| word != 0),
        };
        if let Some(place) = work {
            return Err(format!("work word {place} after kind {kind}"));
        }
        if self.work.is_overrun() {
            return Err(format!("a word beside work is changed after kind {kind}"));
        }
        Ok(())
    }

    /// The query on the table as load left it, the Rust's own of the first edition, and the declared parents say the same.
    fn families(&mut self, rng: &mut Rng, accepted: &Accepted) -> Result<(), String> {
        let (sheet, program) = (&accepted.sheet, accepted.program());
        let asked = asked_numbers(rng, sheet.types.len(), ASKED);
        self.tally.queries += (asked.len() * asked.len()) as u64;
        for &t in &asked {
            for &a in &asked {
                let declared = descends_by_parents(sheet, t, a);
                let found = self.loader.descends(self.table.now(), t, a);
                let by_rust = program.is_none_or(|p| descends(p, t, a) == declared);
                if found != u32::from(declared) || !by_rust {
                    return Err(format!(
                        "{t} descends from {a}: answered {found}, declared {declared}"
                    ));
                }
            }
        }
        Ok(())
    }

    /// The query on tables of which a word is altered or the end is missing.
    fn altered(&mut self, rng: &mut Rng) -> Result<(), String> {
        let table = self.table.now_mut();
        let (length, spans) = (table[1], table[9]);
        for _ in 0..ALTERED {
            let places = [0, 1, 9, spans, spans + 1, spans + 3];
            let place = rng.pick(&places).min(length - 1) as usize;
            let (any, third) = (rng.word(), 0x5555_5555 + rng.index(3));
            let near = rng.pick(&[length - 1, length, length + 1]);
            let word = rng.pick(&[0, 1, 2, 3, 9, 10, spans, near, third, any]);
            let kept = std::mem::replace(&mut table[place], word);
            let end = rng.pick(&[9, 10, 11, length as usize - 1, length as usize, table.len()]);
            let (t, a) = (rng.index(4), rng.index(4));
            let found = self.loader.descends(&table[..end], t, a);
            let expected = query(&table[..end], t, a);
            if found != expected {
                return Err(format!(
                    "{t} from {a}: {found} and not {expected} with word {place} altered to {word}, the table cut to {end} words"
                ));
            }
            table[place] = kept;
        }
        self.tally.queries += ALTERED as u64;
        Ok(())
    }
}

/// A case of plain data with slices just long enough.
fn with_room(draft: &Draft) -> Case {
    let words = encode_sheet(&draft.sheet);
    let length = needed(words.words.len() as u32) as u32;
    Case {
        label: String::new(),
        sheet: words.to_bytes(),
        hosts: encode_hosts(&draft.hosts).to_bytes(),
        table_len: length,
        work_len: length,
    }
}

fn stored(case: &Case) -> StoredCase {
    StoredCase {
        sheet: case.sheet.clone(),
        hosts: case.hosts.clone(),
        table_len: case.table_len,
        work_len: case.work_len,
        answer: answer(&case.sheet, &case.hosts, case.table_len, case.work_len),
    }
}
