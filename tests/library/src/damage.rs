//! Tables that no load wrote: one word altered and the end missing, or invented spans.

use std::mem::replace;

use generator::Rng;

/// How many tables with an altered word are asked of for each accepted sheet.
pub(crate) const ALTERED: usize = 8;

/// A table of invented spans has at most so many types.
const MOST_INVENTED: usize = 7;

/// A third and two thirds of 2^32, rounded down: three times a count wraps in 32 bits just above them.
const THIRDS: [u32; 2] = [0x5555_5555, 0xaaaa_aaaa];

/// One word of a table altered, and the table cut.
pub(crate) struct Damage {
    place: usize,
    word: u32,
    end: usize,
}

impl Damage {
    /// To the header, to the count of the spans, or to the span of type `a`, near a number that matters there.
    pub(crate) fn draw(rng: &mut Rng, table: &[u32], a: u32) -> Damage {
        let (length, spans) = (table[1], table[9]);
        let count = table[spans as usize];
        // Where it has none, that of the first type, or what stands behind the table.
        let own = spans + 1 + if a < count { 3 * a } else { 0 };
        let (pre, post) = (table[own as usize], table[own as usize + 1]);
        let places = [0, 1, 9, spans, own, own, own + 1, own + 1, own + 2, own + 2];
        let place = rng.pick(&places) as usize;
        let near = rng.pick(&[
            0,
            2,
            10,
            spans,
            length,
            table.len() as u32,
            count,
            pre,
            post,
            THIRDS[0] + 1,
        ]);
        let (any, half) = (rng.word(), 1 << 31);
        let word = rng.pick(&[near, near.wrapping_add(1), near.wrapping_sub(1), half, any]);
        let (last, all) = (length as usize, table.len());
        let cut = rng.pick(&[0, 9, 10, 11, last - 1, last]);
        let end = if rng.one_in(4) { cut } else { all };
        Damage { place, word, end }
    }

    /// The same, now and then with a word that is some thirds of 2^32 more: three times a count is then nearly the same in 32
    /// bits.
    pub(crate) fn draw_far(rng: &mut Rng, table: &[u32], a: u32) -> Damage {
        let mut damage = Damage::draw(rng, table, a);
        if rng.one_in(6) {
            let far = rng.pick(&THIRDS) + rng.index(2);
            damage.word = damage.word.wrapping_add(far);
        }
        damage
    }

    /// Holds what is found on the damaged table to what is expected of it, and gives that; the table is then as before.
    pub(crate) fn held(
        &self,
        table: &mut [u32],
        found: impl Fn(&[u32]) -> [u32; 2],
        expected: impl Fn(&[u32]) -> [u32; 2],
    ) -> Result<[u32; 2], String> {
        let Damage { place, word, end } = *self;
        let kept = replace(&mut table[place], word);
        let (found, expected) = (found(&table[..end]), expected(&table[..end]));
        table[place] = kept;
        if found != expected {
            return Err(format!(
                "{found:?} and not {expected:?} with word {place} altered to {word}, the table cut to {end} words"
            ));
        }
        Ok(expected)
    }
}

/// A type of the table, or a number that none has.
pub(crate) fn some_number(rng: &mut Rng, table: &[u32]) -> u32 {
    let count = table[table[9] as usize];
    let unknown = rng.pick(&[count, count + 1, u32::MAX]);
    let known = rng.index(count.max(1) as usize);
    if rng.one_in(5) {
        unknown
    } else {
        known
    }
}

/// Where the first span of a table begins, behind their count.
pub(crate) fn first_span(table: &[u32]) -> usize {
    table[9] as usize + 1
}

/// A table that load wrote, with two words a span and a first word of 1.
pub(crate) fn without_lengths(table: &[u32]) -> Vec<u32> {
    let (before, spans) = table.split_at(first_span(table));
    let pairs = spans.chunks(3).flat_map(|span| &span[..2]);
    let mut words: Vec<u32> = before.iter().chain(pairs).copied().collect();
    (words[0], words[1]) = (1, words.len() as u32);
    words
}

/// A table of few types and small numbers, so that many spans are equal or have post below pre; with words behind it. Now and
/// then it begins with another word than a table does.
pub(crate) fn invented(rng: &mut Rng) -> Vec<u32> {
    let start = rng.pick(&[10, 10, 11, 14]);
    let (count, most) = (rng.index(MOST_INVENTED + 1), rng.within(2, 7));
    let mut table = vec![0; start];
    (table[0], table[9]) = (rng.pick(&[2, 2, 2, 2, 2, 2, 1, 3]), start as u32);
    table.push(count);
    for _ in 0..3 * count {
        let (small, any) = (rng.index(most), rng.word());
        let large = rng.pick(&[1 << 31, u32::MAX - 1, u32::MAX, any]);
        table.push(if rng.one_in(8) { large } else { small });
    }
    table[1] = table.len() as u32;
    table.extend([1, 2, 3]);
    table
}
