//! What a run has met.

use std::fmt;

use compare::{leaves_out_arguments, Coverage};
use sheets::{Edition, Sheet, BLOCK};

/// Counts of a run.
#[derive(Clone, Debug, Default)]
pub struct Tally {
    /// Hits by kind, word, code, longest chain and edition, of cases alone.
    pub coverage: Coverage,
    pub cases: u64,
    /// Cases with a host list over the wanted size.
    pub left_out: u64,
    pub accepted: u64,
    /// The fewest and the most blocks of an accepted sheet.
    pub blocks: Option<(usize, usize)>,
    pub largest_table: usize,
    pub pairs: u64,
    /// By edition, and those of the second with several exports, and with optional arguments of an import left out.
    pub accepted_pairs: [u64; 2],
    pub exporting_pairs: u64,
    pub leaving_out_pairs: u64,
    pub other_kind_pairs: u64,
    pub queries: u64,
    /// Sizes of families that were asked for, and those of them that are kind 25.
    pub sizes: u64,
    pub not_linked: u64,
    /// Sheets whose structs were counted, and those of them that are kind 1.
    pub counts: u64,
    pub broken: u64,
    /// Chain lengths that were asked for: of 0, of 1, from 2 to 256, over 256, and kind 25.
    pub lengths: [u64; 5],
    /// Chain lengths that were compared with those of a renumbered sheet.
    pub moved_lengths: u64,
    /// Tables of two words a span that were asked of.
    pub without_lengths: u64,
    /// Nearest families that were asked for: those that are found, none, and kind 25.
    pub nearest: [u64; 3],
    /// Accepted sheets of which all pairs were asked for.
    pub all_pairs: u64,
    /// Triples of types that have a nearest family, that have none, and whose first two descend from the third.
    pub triples: [u64; 2],
    pub both_descend: u64,
    /// Nearest families that were compared with those of a renumbered sheet.
    pub moved: u64,
}

impl Tally {
    pub fn accept(&mut self, sheet: &[u8], table_words: usize) {
        let blocks = sheet.len() / BLOCK;
        self.accepted += 1;
        self.widen((blocks, blocks));
        self.largest_table = self.largest_table.max(table_words);
    }

    pub fn accept_pair(&mut self, sheet: &Sheet) {
        self.accepted_pairs[sheet.edition as usize - 1] += 1;
        let exporting = sheet.edition == Edition::Second && sheet.exports.len() > 1;
        self.exporting_pairs += u64::from(exporting);
        self.leaving_out_pairs += u64::from(leaves_out_arguments(sheet));
    }

    fn widen(&mut self, (few, many): (usize, usize)) {
        let (low, high) = self.blocks.unwrap_or((few, many));
        self.blocks = Some((low.min(few), high.max(many)));
    }

    pub fn add_size(&mut self, [kind, _]: [u32; 2]) {
        self.sizes += 1;
        self.not_linked += u64::from(kind == 25);
    }

    pub fn add_count(&mut self, [kind, _]: [u32; 2]) {
        self.counts += 1;
        self.broken += u64::from(kind == 1);
    }

    pub fn add_length(&mut self, answer: [u32; 2]) {
        let place = match answer {
            [0, 0] => 0,
            [0, 1] => 1,
            [0, 2..=256] => 2,
            [0, _] => 3,
            _ => 4,
        };
        self.lengths[place] += 1;
    }

    pub fn add_nearest(&mut self, [kind, _]: [u32; 2]) {
        let place = match kind {
            0 | 1 => kind as usize,
            _ => 2,
        };
        self.nearest[place] += 1;
    }

    pub fn add_triple(&mut self, [kind, _]: [u32; 2]) {
        self.triples[usize::from(kind != 0)] += 1;
    }

    /// What no case has hit, in words.
    pub fn missed(&self) -> Vec<String> {
        let mut missed = self.coverage.missed();
        let ([found, none, not_linked], [together, apart]) = (self.nearest, self.triples);
        let [no_chain, of_root, longer, over, no_table] = self.lengths;
        let [first_pairs, second_pairs] = self.accepted_pairs;
        let others = [
            (first_pairs, "an accepted pair of edition 1"),
            (second_pairs, "an accepted pair of edition 2"),
            (
                self.exporting_pairs,
                "an accepted pair of edition 2 with several exports",
            ),
            (
                self.leaving_out_pairs,
                "an accepted pair of edition 2 that leaves out arguments",
            ),
            (self.counts - self.broken, "a count of kind 0"),
            (self.broken, "a count of kind 1"),
            (self.not_linked, "a size of kind 25"),
            (no_chain, "a chain length of 0"),
            (of_root, "a chain length of 1"),
            (longer, "a chain length from 2 to 256"),
            (over, "a chain length over 256, which no load writes"),
            (no_table, "a chain length of kind 25"),
            (self.moved_lengths, "a chain length of a renumbered pair"),
            (self.without_lengths, "a table of two words a span"),
            (found, "a nearest family of kind 0"),
            (none, "a nearest family of kind 1"),
            (not_linked, "a nearest family of kind 25"),
            (together, "a triple of kind 0"),
            (apart, "a triple of kind 1"),
            (self.both_descend, "a family that both descend from"),
            (self.moved, "a nearest family of a renumbered pair"),
        ];
        let unmet = others.iter().filter(|(hits, _)| *hits == 0);
        missed.extend(unmet.map(|(_, name)| (*name).to_string()));
        missed
    }

    /// Adds what another part of the run has met.
    pub fn merge(&mut self, other: &Tally) {
        self.coverage.merge(&other.coverage);
        self.cases += other.cases;
        self.left_out += other.left_out;
        self.accepted += other.accepted;
        if let Some(blocks) = other.blocks {
            self.widen(blocks);
        }
        self.largest_table = self.largest_table.max(other.largest_table);
        self.pairs += other.pairs;
        add(&mut self.accepted_pairs, &other.accepted_pairs);
        self.exporting_pairs += other.exporting_pairs;
        self.leaving_out_pairs += other.leaving_out_pairs;
        self.other_kind_pairs += other.other_kind_pairs;
        self.queries += other.queries;
        self.sizes += other.sizes;
        self.not_linked += other.not_linked;
        self.counts += other.counts;
        self.broken += other.broken;
        add(&mut self.lengths, &other.lengths);
        self.moved_lengths += other.moved_lengths;
        self.without_lengths += other.without_lengths;
        add(&mut self.nearest, &other.nearest);
        self.all_pairs += other.all_pairs;
        add(&mut self.triples, &other.triples);
        self.both_descend += other.both_descend;
        self.moved += other.moved;
    }

    /// The lines about what the reference does not have.
    fn fmt_families(&self, f: &mut fmt::Formatter<'_>) -> fmt::Result {
        writeln!(
            f,
            "{} sizes of families agree, {} of them kind 25",
            self.sizes, self.not_linked
        )?;
        writeln!(
            f,
            "{} counts of structs agree, {} of them kind 1",
            self.counts, self.broken
        )?;
        self.fmt_lengths(f)?;
        let ([_, none, not_linked], [_, apart]) = (self.nearest, self.triples);
        let [asked, triples] = [&self.nearest[..], &self.triples].map(|n| n.iter().sum::<u64>());
        writeln!(
            f,
            "{asked} nearest families agree, {none} of them kind 1, {not_linked} kind 25; all pairs of {} sheets",
            self.all_pairs
        )?;
        writeln!(
            f,
            "{triples} triples of types agree, {apart} of them kind 1; in {} the first two descend from the third",
            self.both_descend
        )?;
        writeln!(
            f,
            "{} nearest families of renumbered pairs agree",
            self.moved
        )
    }

    fn fmt_lengths(&self, f: &mut fmt::Formatter<'_>) -> fmt::Result {
        let [none, root, _, over, not_linked] = self.lengths;
        writeln!(
            f,
            "{} chain lengths agree, {none} of them 0, {root} of them 1, {over} over 256, {not_linked} kind 25",
            self.lengths.iter().sum::<u64>()
        )?;
        writeln!(
            f,
            "{} chain lengths of renumbered pairs agree; {} tables of two words a span are none",
            self.moved_lengths, self.without_lengths
        )
    }
}

fn add(to: &mut [u64], from: &[u64]) {
    to.iter_mut().zip(from).for_each(|(to, from)| *to += from);
}

impl fmt::Display for Tally {
    fn fmt(&self, f: &mut fmt::Formatter<'_>) -> fmt::Result {
        let (few, many) = self.blocks.unwrap_or_default();
        let [first, second] = self.accepted_pairs;
        writeln!(
            f,
            "{} cases agree, {} of them accepted ({few} to {many} blocks, tables of up to {} words)",
            self.cases, self.accepted, self.largest_table
        )?;
        writeln!(
            f,
            "{} renumbered pairs agree, {first} of edition 1 and {second} of edition 2 accepted, {} of these with several exports \
             and {} with arguments left out; {} refused by two kinds",
            self.pairs, self.exporting_pairs, self.leaving_out_pairs, self.other_kind_pairs
        )?;
        writeln!(f, "{} family queries agree", self.queries)?;
        self.fmt_families(f)?;
        if self.left_out > 0 {
            writeln!(f, "{} cases left out: large host lists", self.left_out)?;
        }
        self.coverage.fmt(f)
    }
}
