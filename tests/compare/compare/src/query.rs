//! The family queries over any words: who descends from whom, how many do, how long a chain is, and which family of two is the
//! nearest; 25 where they are no linked table.

use crate::table::FIRST_WORD;

/// Pre, post and the chain length of a type.
type Span = [u32; 3];

/// Whether `t` descends from `a` by the spans of this table.
pub fn query(table: &[u32], t: u32, a: u32) -> u32 {
    match spans(table) {
        None => 25,
        Some(spans) => u32::from(within(spans, t, a)),
    }
}

/// How many types descend from `a` by the spans of this table: 0 and the size, or 25 and 0.
pub fn size_in(table: &[u32], a: u32) -> [u32; 2] {
    match spans(table) {
        None => [25, 0],
        // No span is narrower than empty, whatever stands there.
        Some(spans) => match span(spans, a) {
            Some([pre, post, _]) if pre < post => [0, post - pre],
            _ => [0, 0],
        },
    }
}

/// The chain length that stands in the span of `t`: 0 and that word, 0 and 0 where `t` is no type, or 25 and 0.
pub fn length_in(table: &[u32], t: u32) -> [u32; 2] {
    match spans(table) {
        None => [25, 0],
        Some(spans) => [0, span(spans, t).map_or(0, |[_, _, length]| length)],
    }
}

/// The lowest-numbered type among those of least post minus pre whose span holds both `t` and `u`: 0 and the type, 1 and 0
/// where there is none, or 25 and 0.
pub fn nearest_in(table: &[u32], t: u32, u: u32) -> [u32; 2] {
    let Some(spans) = spans(table) else {
        return [25, 0];
    };
    let holding = (0..)
        .zip(spans)
        .filter(|&(f, _)| within(spans, t, f) && within(spans, u, f));
    let width = |[pre, post, _]: Span| i64::from(post) - i64::from(pre);
    let widths: Vec<(u32, i64)> = holding.map(|(f, &span)| (f, width(span))).collect();
    let least = widths.iter().map(|&(_, width)| width).min();
    let narrowest = widths.iter().filter(|&&(_, width)| Some(width) == least);
    nearest_numbers(narrowest.map(|&(f, _)| f).min())
}

/// Kind and family: 0 and the type, or 1 and 0 where there is none.
pub fn nearest_numbers(family: Option<u32>) -> [u32; 2] {
    family.map_or([1, 0], |family| [0, family])
}

/// All spans; sums are in 64 bits, so that no count wraps.
fn spans(table: &[u32]) -> Option<&[Span]> {
    if table.len() < 10 || table[0] != FIRST_WORD {
        return None;
    }
    let (length, start) = (u64::from(table[1]), u64::from(table[9]));
    // The count word itself lies before the end.
    if length > table.len() as u64 || start < 10 || start >= length {
        return None;
    }
    let count = u64::from(table[start as usize]);
    let end = start + 1 + 3 * count;
    (end <= length).then(|| table[start as usize + 1..end as usize].as_chunks().0)
}

/// The span of a number, if there is one for it.
fn span(spans: &[Span], n: u32) -> Option<Span> {
    spans.get(usize::try_from(n).ok()?).copied()
}

fn within(spans: &[Span], t: u32, a: u32) -> bool {
    match (span(spans, t), span(spans, a)) {
        (Some([pre_t, ..]), Some([pre_a, post_a, _])) => pre_a <= pre_t && pre_t < post_a,
        _ => false,
    }
}

#[cfg(test)]
mod tests {
    use super::*;

    /// A header of ten words and four spans; the third is turned round, the fourth has pre and post of no struct.
    #[rustfmt::skip]
    const TABLE: [u32; 24] = [
        2, 23, 0, 0, 0, 0, 0, 0, 0, 10,
        4, 0, 3, 1, 1, 2, 9, 5, 2, 0, u32::MAX, 0, u32::MAX, 7,
    ];

    #[test]
    fn sizes_are_never_below_none() {
        for (a, size) in [(0, 3), (1, 1), (2, 0), (3, 0), (4, 0), (u32::MAX, 0)] {
            assert_eq!(size_in(&TABLE, a), [0, size], "{a}");
        }
    }

    #[test]
    fn lengths_are_whatever_stands_there() {
        let lengths = [(0, 1), (1, 9), (2, 0), (3, u32::MAX)];
        for (t, length) in lengths
            .into_iter()
            .chain([(4, 0), (1 << 31, 0), (u32::MAX, 0)])
        {
            assert_eq!(length_in(&TABLE, t), [0, length], "{t}");
        }
    }

    /// The sample with one word altered.
    fn altered(place: usize, word: u32) -> [u32; 24] {
        let mut table = TABLE;
        table[place] = word;
        table
    }

    #[test]
    fn words_that_are_no_table_have_no_families() {
        for (place, word) in [
            (0, 1),
            (0, 3),
            (1, 22),
            (1, 25),
            (9, 9),
            (9, 23),
            (9, u32::MAX),
        ] {
            assert_no_table(&altered(place, word), &format!("word {place}: {word}"));
        }
        // Three times one of the middle six is 4294967295, 2, 5, 11, 1 or 4 in 32 bits.
        let (third, two_thirds) = (0x5555_5555, 0xaaaa_aaab);
        let counts = [
            third,
            third + 1,
            third + 2,
            third + 4,
            two_thirds,
            two_thirds + 1,
        ];
        for count in counts
            .into_iter()
            .chain([5, 1 << 31, u32::MAX - 1, u32::MAX])
        {
            assert_no_table(&altered(10, count), &format!("count {count}"));
        }
        for end in 0..23 {
            assert_no_table(&TABLE[..end], &format!("{end} words"));
        }
    }

    /// 25 by every query, also of numbers that are no types.
    fn assert_no_table(table: &[u32], what: &str) {
        for (t, u) in [(0, 0), (0, 4), (1 << 31, 0), (u32::MAX, u32::MAX)] {
            assert_eq!(query(table, t, u), 25, "{what}: {t} from {u}");
            assert_eq!(size_in(table, t), [25, 0], "{what}: {t}");
            assert_eq!(length_in(table, t), [25, 0], "{what}: {t}");
            assert_eq!(nearest_in(table, t, u), [25, 0], "{what}: {t} and {u}");
        }
    }

    #[test]
    fn two_words_a_span_are_no_table() {
        let pairs = [4, 0, 3, 1, 2, 5, 2, u32::MAX, 0];
        for first in [1, 2] {
            let header = [first, 19, 0, 0, 0, 0, 0, 0, 0, 10];
            let words = [&header[..], &pairs].concat();
            assert_no_table(&words, &format!("first word {first}"));
            // Words behind it do not make it one.
            assert_no_table(&[&words[..], &[0; 9]].concat(), "with further words");
        }
    }

    #[test]
    fn words_that_are_just_a_table() {
        let size = |place, word| size_in(&altered(place, word), 0);
        assert_eq!((size(10, 0), size(10, 1)), ([0, 0], [0, 3]));
        // At 11 the count is 0, at 12 it is 3 and fits: 1 1 2, 9 5 2, 0 4294967295 0.
        assert_eq!((size(9, 11), size(9, 12)), ([0, 0], [0, 0]));
        let lengths = [0, 1, 2, 3].map(|t| length_in(&altered(9, 12), t));
        assert_eq!(lengths, [[0, 2], [0, 2], [0, 0], [0, 0]]);
        assert_eq!(length_in(&altered(9, 11), 0), [0, 0]);
        let nearest = |place, word| nearest_in(&altered(place, word), 0, 0);
        assert_eq!((nearest(10, 0), nearest(10, 1)), ([1, 0], [0, 0]));
        assert_eq!((nearest(9, 11), nearest(9, 12)), ([1, 0], [0, 2]));
        assert_eq!(nearest_in(&TABLE[..23], 0, 0), [0, 0]);
        // Further words after the table, and none.
        assert_eq!((nearest(1, 24), nearest(1, 23)), ([0, 0], [0, 0]));
    }

    /// A table of these spans, each with this third word.
    fn table_of(spans: &[[u32; 2]], third: u32) -> Vec<u32> {
        let count = spans.len() as u32;
        let header = vec![2, 11 + 3 * count, 0, 0, 0, 0, 0, 0, 0, 10, count];
        let spans = spans.iter().flat_map(|&[pre, post]| [pre, post, third]);
        header.into_iter().chain(spans).collect()
    }

    /// A pair in both orders, whatever the third words are: the family, if there is one.
    fn assert_nearest(spans: &[[u32; 2]], t: u32, u: u32, family: Option<u32>) {
        let expected = nearest_numbers(family);
        for third in [0, 1, u32::MAX] {
            let table = table_of(spans, third);
            assert_eq!(nearest_in(&table, t, u), expected, "{t} and {u}: {spans:?}");
            assert_eq!(nearest_in(&table, u, t), expected, "{u} and {t}: {spans:?}");
        }
    }

    #[test]
    fn nearest_families_by_spans() {
        // 2 and 3 below 1, which is below 0; 4 alone; 5 is no struct.
        let spans = [[0, 4], [1, 4], [2, 3], [3, 4], [4, 5], [u32::MAX, 0]];
        for (t, u, family) in [(2, 3, 1), (2, 1, 1), (0, 3, 0), (2, 2, 2), (4, 4, 4)] {
            assert_nearest(&spans, t, u, Some(family));
        }
        let others = [(4, 0), (5, 5), (5, 0), (6, 0), (6, 6)];
        for (t, u) in others.into_iter().chain([(1 << 31, 2), (u32::MAX, 5)]) {
            assert_nearest(&spans, t, u, None);
        }
    }

    #[test]
    fn the_lowest_of_equal_spans() {
        let equal = [[0, 9], [1, 3], [1, 3], [1, 3], [2, 5]];
        assert_nearest(&equal, 3, 2, Some(1));
        // Also of a type with itself.
        for t in [1, 2, 3] {
            assert_nearest(&equal, t, t, Some(1));
        }
        // As wide, at another place: the lower of those that hold both.
        assert_nearest(&[[4, 7], [1, 4], [0, 3], [2, 9]], 1, 1, Some(1));
        assert_nearest(&[[4, 7], [1, 4], [2, 5], [2, 9]], 2, 3, Some(1));
        // A narrower span that holds only one of them, or none.
        assert_nearest(&equal, 4, 4, Some(1));
        assert_nearest(&equal, 0, 4, Some(0));
        assert_nearest(&[[0, 9], [5, 6], [7, 8], [2, 3]], 1, 2, Some(0));
    }

    #[test]
    fn spans_that_are_turned_hold_nothing() {
        assert_nearest(&[[5, 3]], 0, 0, None);
        assert_nearest(&[[5, 5]], 0, 0, None);
        // What is asked is where a type begins, not where it ends.
        assert_nearest(&[[5, 3], [4, 6]], 0, 0, Some(1));
        assert_nearest(&[[5, 3], [4, 6], [u32::MAX, 0]], 0, 1, Some(1));
        // Spans that wrap would hold these: the first is then as wide as the second, the third is narrower.
        let most = u32::MAX;
        let wrapped = [[3, 2], [0, most], [most, 1]];
        assert_nearest(&wrapped, 0, 1, Some(1));
        assert_nearest(&wrapped, 1, 1, Some(1));
        assert_nearest(&wrapped, 2, 2, None);
        let wide = [[0, most], [1 << 31, most], [most - 1, most]];
        assert_nearest(&wide, 2, 1, Some(1));
        assert_nearest(&wide, 2, 0, Some(0));
    }
}
