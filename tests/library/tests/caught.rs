//! Wrong loaders are caught: each of these differs from the library in one number or word.

mod export_names;
mod import_arguments;
mod misread;

use std::ops::RangeBounds;

use compare::{chain_lengths, leaves_out_arguments, read_cases, write_cases};
use sheets::{decode_sheet, encode_sheet, read_blocks, with_edition, Edition, TypeEntry};
use versus::{run, Difference, Library, Loader, Plan};

const PLAN: Plan = Plan {
    seed: 3,
    from: 0,
    cases: 400,
    jobs: 1,
    host_blocks: 64,
};

/// Cases enough that each edition has chains just at its limit, and arguments of imports and names of exports with every fault.
const LONG_PLAN: Plan = Plan {
    cases: 5_000,
    ..PLAN
};

/// What is done to a sheet and to a host list before the call.
type AlterGiven = fn(&mut Vec<u8>, &mut Vec<u8>);

/// What is done to an answer and to the slices after it.
type Alter = fn(&mut [u32; 6], &mut [u32], &mut [u32]);

/// What is done to a family answer, given the table and the two types.
type AlterQuery = fn(u32, &[u32], [u32; 2]) -> u32;

/// What is done to a family's size, given the table and the type.
type AlterSize = fn(&mut [u32; 2], &[u32], u32);

/// What is done to a chain length, given the table and the type.
type AlterLength = fn(&mut [u32; 2], &[u32], u32);

/// What is done to a nearest family, given the table and the pair.
type AlterNearest = fn(&mut [u32; 2], &[u32], [u32; 2]);

/// What is done to a count, given the sheet.
type AlterCount = fn(&mut [u32; 2], &[u8]);

struct Wrong {
    given: AlterGiven,
    load: Alter,
    query: AlterQuery,
    size: AlterSize,
    length: AlterLength,
    nearest: AlterNearest,
    count: AlterCount,
}

/// The library with nothing altered.
const RIGHT: Wrong = Wrong {
    given: |_, _| (),
    load: |_, _, _| (),
    query: |answer, _, _| answer,
    size: |_, _, _| (),
    length: |_, _, _| (),
    nearest: |_, _, _| (),
    count: |_, _| (),
};

impl Loader for Wrong {
    fn load(&self, sheet: &[u8], hosts: &[u8], table: &mut [u32], work: &mut [u32]) -> [u32; 6] {
        let (mut sheet, mut hosts) = (sheet.to_vec(), hosts.to_vec());
        (self.given)(&mut sheet, &mut hosts);
        let mut numbers = Library.load(&sheet, &hosts, table, work);
        (self.load)(&mut numbers, table, work);
        numbers
    }

    fn descends(&self, table: &[u32], t: u32, a: u32) -> u32 {
        (self.query)(Library.descends(table, t, a), table, [t, a])
    }

    fn family_size(&self, table: &[u32], a: u32) -> [u32; 2] {
        let mut answer = Library.family_size(table, a);
        (self.size)(&mut answer, table, a);
        answer
    }

    fn chain_length(&self, table: &[u32], t: u32) -> [u32; 2] {
        let mut answer = Library.chain_length(table, t);
        (self.length)(&mut answer, table, t);
        answer
    }

    fn nearest(&self, table: &[u32], t: u32, u: u32) -> [u32; 2] {
        let mut answer = Library.nearest(table, t, u);
        (self.nearest)(&mut answer, table, [t, u]);
        answer
    }

    fn count_structs(&self, sheet: &[u8]) -> [u32; 2] {
        let mut answer = Library.count_structs(sheet);
        (self.count)(&mut answer, sheet);
        answer
    }
}

fn found<L: Loader>(loader: &L) -> Difference {
    *run(loader, &LONG_PLAN).expect_err("a difference")
}

/// What is said of the first case that differs.
fn caught(alter: Alter) -> String {
    let load = alter;
    found(&Wrong { load, ..RIGHT }).what
}

fn caught_query(query: AlterQuery) -> String {
    found(&Wrong { query, ..RIGHT }).what
}

fn caught_size(size: AlterSize) -> String {
    found(&Wrong { size, ..RIGHT }).what
}

/// Each of these ways is the first to tell it in some case.
fn assert_caught(wrong: &Wrong, ways: &[&str]) {
    let of_case = |from| {
        let cases = 1;
        run(
            wrong,
            &Plan {
                from,
                cases,
                ..LONG_PLAN
            },
        )
    };
    for way in ways {
        let tells = |from| of_case(from).is_err_and(|found| found.what.contains(way));
        assert!((0..LONG_PLAN.cases).any(tells), "{way}");
    }
}

fn assert_caught_nearest(nearest: AlterNearest, ways: &[&str]) {
    assert_caught(&Wrong { nearest, ..RIGHT }, ways);
}

fn assert_caught_length(length: AlterLength, ways: &[&str]) {
    assert_caught(&Wrong { length, ..RIGHT }, ways);
}

fn caught_count(count: AlterCount) -> String {
    found(&Wrong { count, ..RIGHT }).what
}

fn assert_says(what: &str, part: &str) {
    assert!(what.contains(part), "{what}");
}

#[test]
fn the_library_is_not_caught() {
    for tally in [run(&Library, &PLAN), run(&RIGHT, &PLAN)] {
        let tally = tally.expect("no difference");
        assert_eq!((tally.cases + tally.left_out, tally.pairs), (400, 100));
        assert!(
            tally.not_linked > 400 && tally.sizes > 3 * tally.not_linked,
            "{tally}"
        );
        assert_eq!(tally.counts, tally.cases);
        assert!(
            tally.broken > 20 && tally.counts > 3 * tally.broken,
            "{tally}"
        );
        assert!(tally.lengths.iter().all(|&n| n > 300), "{tally}");
        assert!(
            tally.moved_lengths > 500 && tally.without_lengths > 100,
            "{tally}"
        );
        assert_eq!(tally.without_lengths, tally.accepted);
        assert!(tally.nearest.iter().all(|&n| n > 1_000), "{tally}");
        assert!(tally.triples.iter().all(|&n| n > 400), "{tally}");
        assert!(tally.both_descend > 400 && tally.moved > 1_000, "{tally}");
        assert!(tally.all_pairs > 100, "{tally}");
    }
}

#[test]
fn a_number_of_the_answer() {
    let alters: [Alter; 10] = [
        |n, _, _| n[0] = if n[0] == 16 { 17 } else { n[0] },
        |n, _, _| n[1] += u32::from(n[0] == 3),
        |n, _, _| n[2] ^= u32::from(n[0] == 0),
        |n, _, _| n[2] += u32::from(n[0] == 8),
        |n, _, _| n[3] ^= u32::from(n[0] == 8),
        |n, _, _| n[4] = n[4].saturating_sub(1),
        |n, _, _| n[5] = n[5].saturating_sub(1),
        // The name that is out of range, the place of a repeat, a function where there is none.
        |n, _, _| n[2] ^= u32::from(n[0] == 27),
        |n, _, _| n[2] += u32::from(n[0] == 28),
        |n, _, _| n[4] += u32::from(n[0] >= 27),
    ];
    for alter in alters {
        assert_says(&caught(alter), "answered");
    }
}

#[test]
fn a_word_of_the_table() {
    let global: Alter = |n, table, _| {
        if n[0] == 0 {
            // The count of the globals that are references.
            table[table[8] as usize] += 1;
        }
    };
    let post: Alter = |n, table, _| {
        if n[0] == 0 && has_types(table) {
            table[n[2] as usize - 2] ^= 1;
        }
    };
    let after: Alter = |n, table, _| {
        if n[0] == 0 {
            table[n[2] as usize] ^= 1;
        }
    };
    let end: Alter = |n, table, _| {
        if n[0] == 0 {
            *table.last_mut().expect("a word") = 0;
        }
    };
    let refused: Alter = |n, table, _| {
        if n[0] == 7 {
            table[30] = 0;
        }
    };
    for load in [global, post] {
        // One of edition 1, and one of edition 2.
        let ways = ["by the reference Some", "by the format Some"];
        assert_caught(&Wrong { load, ..RIGHT }, &ways);
    }
    for alter in [after, end, refused] {
        assert_says(&caught(alter), "is changed");
    }
}

/// Whether a table that load wrote has a span.
fn has_types(table: &[u32]) -> bool {
    table[table[9] as usize] > 0
}

/// Does something to the chain length of each type that load wrote: all behind the first, every third word.
fn to_lengths(numbers: &[u32; 6], table: &mut [u32], alter: impl Fn(u32) -> u32) {
    if numbers[0] == 0 {
        let spans = table[9] as usize;
        let places = (spans + 3..numbers[2] as usize).step_by(3);
        places.for_each(|place| table[place] = alter(table[place]));
    }
}

#[test]
fn a_word_of_the_table_that_the_reference_does_not_have() {
    let first: Alter = |n, table, _| {
        if n[0] == 0 {
            table[0] = 1;
        }
    };
    assert_says(
        &caught(first),
        "table word 0 is Some(1), by the format Some(2)",
    );
    let length: Alter = |n, table, _| {
        if n[0] == 0 && has_types(table) {
            table[1] -= 1;
        }
    };
    assert_says(&caught(length), "table word 1 is ");
    let third: [Alter; 5] = [
        // From 0 at a root, from 2; one for what is no struct; one too small on long chains alone; none at all.
        |n, table, _| to_lengths(n, table, |length| length.saturating_sub(1)),
        |n, table, _| to_lengths(n, table, |length| length + u32::from(length > 0)),
        |n, table, _| to_lengths(n, table, |length| length.max(1)),
        |n, table, _| to_lengths(n, table, |length| length.min(254)),
        |n, table, _| to_lengths(n, table, |_| 0),
    ];
    for load in third {
        assert_caught(&Wrong { load, ..RIGHT }, &["by declared parents"]);
    }
}

/// The table with two words a span, and L, as a loader without chain lengths would write it.
#[test]
fn a_table_without_chain_lengths() {
    let without: Alter = |n, table, _| {
        if n[0] == 0 {
            let spans = table[9] as usize;
            let types = table[spans];
            for t in 0..types as usize {
                let pair = [1, 2].map(|k| table[spans + 3 * t + k]);
                table[spans + 1 + 2 * t..][..2].copy_from_slice(&pair);
            }
            n[2] -= types;
            table[1] = n[2];
        }
    };
    assert_says(&caught(without), "answered [0, 0, ");
}

#[test]
fn a_word_of_work() {
    let left: Alter = |n, _, work| {
        if n[0] == 0 {
            *work.last_mut().expect("a word") = 1;
        }
    };
    let cleared: Alter = |n, _, work| {
        if n[0] == 24 {
            work.iter_mut().take(1).for_each(|word| *word = 0);
        }
    };
    let touched: Alter = |n, _, work| {
        if n[0] == 1 || n[0] == 23 {
            work.iter_mut().for_each(|word| *word = 0);
        }
    };
    for alter in [left, cleared, touched] {
        assert_says(&caught(alter), "work word");
    }
}

#[test]
fn a_family_answer() {
    let alters: [AlterQuery; 6] = [
        |answer, _, [t, a]| if t == a { 0 } else { answer },
        |answer, _, types| {
            if types == [1, 0] {
                1 - answer % 25
            } else {
                answer
            }
        },
        |answer, _, [t, _]| if t == u32::MAX { 1 } else { answer },
        |answer, _, _| answer.min(1),
        |answer, table, _| answer % (25 + u32::from(!is_linked_in_32_bits(table))),
        |_, _, _| 0,
    ];
    for alter in alters {
        assert_says(&caught_query(alter), "from");
    }
}

/// Pre and post of a known type, where the words are a linked table.
fn span(table: &[u32], a: u32) -> Option<(u32, u32)> {
    let [0, _] = Library.family_size(table, a) else {
        return None;
    };
    let spans = table[9] as usize;
    let own = spans + 1 + 3 * a as usize;
    (a < table[spans]).then(|| (table[own], table[own + 1]))
}

#[test]
fn a_size_of_a_family() {
    let declared: [AlterSize; 5] = [
        // One too small, of all and of types with others below them; one for what is no struct, and for what is no type.
        |size, _, _| size[1] = size[1].saturating_sub(1),
        |size, _, _| size[1] -= u32::from(size[1] > 1),
        |size, _, _| size[1] = size[1].max(1),
        |size, _, a| size[1] += u32::from(a == u32::MAX),
        // What stands for no struct subtracted all the same.
        |size, table, a| size[1] = span(table, a).map_or(0, |(pre, post)| post.wrapping_sub(pre)),
    ];
    for alter in declared {
        assert_says(&caught_size(alter), "declared");
    }
}

#[test]
fn a_size_on_words_that_no_load_wrote() {
    let altered: [AlterSize; 5] = [
        // 25 missed, also where a sum wraps, and given where post is below pre; a difference that wraps, and one that is turned
        // round.
        |size, table, _| size[0] *= u32::from(table.first() != Some(&2)),
        |size, table, _| size[0] %= 25 + u32::from(!is_linked_in_32_bits(table)),
        |size, table, a| {
            if span(table, a).is_some_and(|(pre, post)| post < pre && pre < u32::MAX) {
                *size = [25, 0];
            }
        },
        |size, table, a| {
            if let Some((pre, post)) = span(table, a).filter(|&(pre, _)| pre < u32::MAX) {
                size[1] = post.wrapping_sub(pre);
            }
        },
        |size, table, a| {
            if let Some((pre, post)) = span(table, a).filter(|&(pre, _)| pre < u32::MAX) {
                size[1] = post.abs_diff(pre);
            }
        },
    ];
    for alter in altered {
        assert_says(&caught_size(alter), "altered");
    }
    // On words that are no table at all.
    assert_says(&caught_size(|size, _, _| size[0] = 0), "size of");
}

/// A type with pre and post.
type Spanned = (u32, (u32, u32));

/// Each known type, where the words are a linked table.
fn spans(table: &[u32]) -> Vec<Spanned> {
    let known = |a| span(table, a).map(|span| (a, span));
    (0..).map_while(known).collect()
}

/// Those whose span holds all of these types.
fn holding(table: &[u32], types: [u32; 2]) -> Vec<Spanned> {
    let holds = |a| types.iter().all(|&t| Library.descends(table, t, a) == 1);
    let mut all = spans(table);
    all.retain(|&(a, _)| holds(a));
    all
}

/// Puts the first type of least width among these into the answer, unless that is 25.
fn answer(nearest: &mut [u32; 2], types: impl Iterator<Item = Spanned>) {
    let least = types.min_by_key(|&(_, (pre, post))| post.wrapping_sub(pre));
    if nearest[0] != 25 {
        *nearest = least.map_or([1, 0], |(a, _)| [0, a]);
    }
}

#[test]
fn a_nearest_family_by_another_rule() {
    let alters: [AlterNearest; 4] = [
        // The test of the first type alone, and of the second; the first that holds both.
        |nearest, table, [t, _]| answer(nearest, holding(table, [t, t]).into_iter()),
        |nearest, table, [_, u]| answer(nearest, holding(table, [u, u]).into_iter()),
        |nearest, table, types| answer(nearest, holding(table, types).into_iter().take(1)),
        // The least of all spans, if it holds both.
        |nearest, table, types| {
            let upright = |&(_, (pre, post)): &Spanned| pre < post;
            answer(nearest, spans(table).into_iter().filter(upright));
            let least = nearest[1];
            if nearest[0] == 0 && holding(table, types).iter().all(|&(a, _)| a != least) {
                *nearest = [1, 0];
            }
        },
    ];
    for alter in alters {
        assert_caught_nearest(alter, &["declared", "invented"]);
    }
}

#[test]
fn a_number_of_a_nearest_family() {
    let alters: [AlterNearest; 4] = [
        // 25 for numbers that no type has; none as 0 0; a number beside none; the second type where it is the lower.
        |nearest, table, types| {
            if types.iter().any(|&t| span(table, t).is_none()) {
                *nearest = [25, 0];
            }
        },
        |nearest, _, _| nearest[0] -= u32::from(nearest[0] == 1),
        |nearest, _, [t, _]| nearest[1] += t * u32::from(nearest[0] == 1),
        |nearest, _, [t, u]| {
            if t > u && nearest[0] == 0 {
                nearest[1] = u;
            }
        },
    ];
    for alter in alters {
        assert_caught_nearest(alter, &["declared"]);
    }
    // Not the image of what it is in the other sheet of a pair.
    assert_caught_nearest(|nearest, _, _| nearest[1] = 0, &["declared", "renumbered"]);
}

#[test]
fn a_nearest_family_on_words_that_no_load_wrote() {
    let alters: [AlterNearest; 3] = [
        // The last of equal spans; any type with itself; a difference that wraps where post is below pre.
        |nearest, table, types| answer(nearest, holding(table, types).into_iter().rev()),
        |nearest, table, [t, u]| {
            if t == u && span(table, t).is_some_and(|(pre, _)| pre < u32::MAX) {
                *nearest = [0, t];
            }
        },
        |nearest, table, types| {
            let [Some((t, _)), Some((u, _))] = types.map(|t| span(table, t)) else {
                return;
            };
            let holds = |&(_, (pre, post)): &Spanned| {
                let within = |t: u32| t.wrapping_sub(pre) < post.wrapping_sub(pre);
                pre < u32::MAX && within(t) && within(u)
            };
            answer(nearest, spans(table).into_iter().filter(holds));
        },
    ];
    for alter in alters {
        assert_caught_nearest(alter, &["altered", "invented"]);
    }
}

/// Whether the words would be a linked table if the end of the spans were a sum in 32 bits.
fn is_linked_in_32_bits(table: &[u32]) -> bool {
    let Some(&[2, length, .., start]) = table.first_chunk::<10>() else {
        return false;
    };
    let end = |count: &u32| count.wrapping_mul(3).wrapping_add(start + 1);
    let fits = |count| end(count) <= length;
    length as usize <= table.len() && start >= 10 && table.get(start as usize).is_some_and(fits)
}

#[test]
fn a_nearest_family_where_there_is_no_table() {
    let alters: [AlterNearest; 3] = [
        // 25 missed, where the first word is as it is to be, and where a sum wraps; 25 behind numbers that no type has.
        |nearest, table, _| nearest[0] %= 25 + u32::from(table.first() != Some(&2)),
        |nearest, table, _| nearest[0] %= 25 + u32::from(!is_linked_in_32_bits(table)),
        |nearest, _, types| {
            if types.contains(&u32::MAX) {
                *nearest = [1, 0];
            }
        },
    ];
    for alter in alters {
        assert_caught_nearest(alter, &["altered"]);
    }
    assert_caught_nearest(
        |nearest, _, _| nearest[0] %= 25,
        &["first word 1", "left alone"],
    );
}

/// Post of a known type; 0 of any other number.
fn post(table: &[u32], t: u32) -> u32 {
    span(table, t).map_or(0, |(_, post)| post)
}

#[test]
fn a_chain_length() {
    let declared: [AlterLength; 9] = [
        // That of the first type; post and pre in its place; the parent's, which is a root's own; one too small, and too large.
        |length, table, _| length[1] = Library.chain_length(table, 0)[1],
        |length, table, t| length[1] = post(table, t),
        |length, table, t| length[1] = span(table, t).map_or(0, |(pre, _)| pre),
        |length, _, _| length[1] -= u32::from(length[1] > 1),
        |length, _, _| length[1] = length[1].saturating_sub(1),
        |length, _, _| length[1] += u32::from(length[1] > 0),
        // One for what is no struct; not 0, and 25, for what is no type.
        |length, _, _| length[1] = length[1].max(1),
        |length, table, t| length[1] += u32::from(length[0] == 0 && span(table, t).is_none()),
        |length, table, t| {
            if span(table, t).is_none() {
                *length = [25, 0];
            }
        },
    ];
    for alter in declared {
        assert_caught_length(alter, &["chain length of", "declared"]);
    }
    // Not that of the type itself in the other sheet of a pair.
    let by_number: AlterLength = |length, _, t| length[1] = t;
    assert_caught_length(by_number, &["declared", "renumbered"]);
}

#[test]
fn a_chain_length_on_words_that_no_load_wrote() {
    let alters: [AlterLength; 4] = [
        // At most 256; 25 above; 0 where pre is that of no struct, and where the span is empty.
        |length, _, _| length[1] = length[1].min(256),
        |length, _, _| {
            if length[1] > 256 {
                *length = [25, 0];
            }
        },
        |length, table, t| {
            if span(table, t).is_some_and(|(pre, _)| pre == u32::MAX) {
                length[1] = 0;
            }
        },
        |length, table, t| {
            if span(table, t).is_some_and(|(pre, post)| pre >= post) {
                length[1] = 0;
            }
        },
    ];
    for alter in alters {
        assert_caught_length(alter, &["altered", "invented", "by the word there"]);
    }
}

/// The third word of a span of three, or 0, whatever the first word is.
fn length_behind_any_first_word(table: &[u32], t: u32) -> [u32; 2] {
    let Some(rest) = table.get(1..) else {
        return [25, 0];
    };
    Library.chain_length(&[&[2], rest].concat(), t)
}

/// Whether the words are a table of two words a span behind a first word of 1.
fn is_without_lengths(table: &[u32]) -> bool {
    let Some(&[1, length, .., start]) = table.first_chunk::<10>() else {
        return false;
    };
    let fits = |&count: &u32| u64::from(start) + 1 + 2 * u64::from(count) == u64::from(length);
    length as usize == table.len() && start >= 10 && table.get(start as usize).is_some_and(fits)
}

#[test]
fn a_chain_length_where_there_is_no_table() {
    // 25 as 0 0, always, where a sum wraps, and behind numbers that no type has.
    assert_caught_length(
        |length, _, _| length[0] = 0,
        &["altered", "left alone", "first word 1"],
    );
    let behind: AlterLength = |length, _, t| {
        if t == u32::MAX {
            *length = [0, 0];
        }
    };
    assert_caught_length(behind, &["altered", "left alone", "first word 1"]);
    let wraps: AlterLength =
        |length, table, _| length[0] %= 25 + u32::from(!is_linked_in_32_bits(table));
    assert_caught_length(wraps, &["altered"]);
    // Another first word taken, or one that is larger, with three words a span; and a table of two words a span.
    let any_first: AlterLength =
        |length, table, t| *length = length_behind_any_first_word(table, t);
    assert_caught_length(any_first, &["altered", "first word 1"]);
    let larger: AlterLength = |length, table, t| {
        if table.first() > Some(&2) {
            *length = length_behind_any_first_word(table, t);
        }
    };
    assert_caught_length(larger, &["altered", "first word 3"]);
    let without: AlterLength = |length, table, _| {
        if is_without_lengths(table) {
            *length = [0, 0];
        }
    };
    assert_caught_length(without, &["two words a span: "]);
}

#[test]
fn a_query_that_reads_chain_lengths() {
    // What holds of tables that load wrote, and of no others: who descends has no shorter chain,
    let query: AlterQuery = |answer, table, types| {
        let [[_, of_t], [_, of_a]] = types.map(|t| Library.chain_length(table, t));
        if answer == 1 && of_t < of_a {
            return 0;
        }
        answer
    };
    assert_caught(&Wrong { query, ..RIGHT }, &["beside other chain lengths"]);
    // who has no chain has no family,
    let size: AlterSize = |size, table, a| size[1] *= u32::from(is_likely(table, a));
    assert_caught(&Wrong { size, ..RIGHT }, &["beside other chain lengths"]);
    // and the nearest of two has the longest chain.
    let longest: AlterNearest = |nearest, table, types| {
        let length = |&(a, _): &Spanned| Library.chain_length(table, a)[1];
        let family = holding(table, types).into_iter().max_by_key(length);
        if nearest[0] != 25 {
            *nearest = family.map_or([1, 0], |(a, _)| [0, a]);
        }
    };
    assert_caught_nearest(longest, &["beside other chain lengths", "invented"]);
}

/// Whether a chain length is one that load writes.
fn is_likely(table: &[u32], t: u32) -> bool {
    let [_, length] = Library.chain_length(table, t);
    (1..=256).contains(&length)
}

/// The kind of load's answer, with words enough, under the host list of the samples.
fn loaded(sheet: &[u8]) -> u32 {
    let words = paqlluri::table_words(sheet.len());
    let hosts = include_bytes!("../../../samples/hosts");
    Library.load(sheet, hosts, &mut vec![0; words], &mut vec![0; words])[0]
}

#[test]
fn a_count_of_structs() {
    let alters: [AlterCount; 6] = [
        |count, _| count[1] += u32::from(count[0] == 0),
        |count, _| count[1] = count[1].saturating_sub(1),
        // A sheet that load refuses by a rule is not counted, nor are its structs; 1 and 0 are not told apart.
        |count, sheet| {
            if count[0] == 0 && loaded(sheet) != 0 {
                *count = [1, 0];
            }
        },
        |count, sheet| count[1] *= u32::from(loaded(sheet) == 0),
        |count, _| count[0] = 0,
        |count, _| *count = [1, 0],
    ];
    for alter in alters {
        assert_says(&caught_count(alter), "structs: answered");
    }
}

/// The edition word of whole blocks made another, where it is this.
fn relabel(bytes: &mut Vec<u8>, from: u32, to: u32) {
    if read_blocks(bytes).is_some_and(|words| words[0] == from) {
        *bytes = with_edition(bytes, to);
    }
}

/// The same, only where the longest chain has so many types, as far as edition 1 follows it.
fn relabel_chains(sheet: &mut Vec<u8>, from: u32, to: u32, types: impl RangeBounds<u32>) {
    let mut first = sheet.clone();
    relabel(&mut first, 2, 1);
    // Calls that only edition 2 accepts would be refused for another reason.
    let plain = decode_sheet(&first).map(|(plain, _)| plain);
    let plain = plain.filter(|plain| !leaves_out_arguments(plain));
    let longest = plain.and_then(|plain| chain_lengths(&plain).into_iter().max());
    if longest.is_some_and(|longest| types.contains(&longest)) {
        relabel(sheet, from, to);
    }
}

/// A struct of edition 2 with 64 types on its chain made its own parent, which is too long under every limit.
fn second_held_to_63(sheet: &mut Vec<u8>) {
    let Some((mut plain, _)) = decode_sheet(sheet) else {
        return;
    };
    let longest = chain_lengths(&plain).iter().position(|&n| n == 64);
    if let (Edition::Second, Some(t)) = (plain.edition, longest) {
        if let TypeEntry::Struct { parent, .. } = &mut plain.types[t] {
            *parent = Some(t as u32);
        }
        *sheet = encode_sheet(&plain).to_bytes();
    }
}

/// Each of these is caught, and the first difference says so.
fn assert_caught_given(alters: &[(AlterGiven, &str)]) {
    for &(given, part) in alters {
        let wrong = Wrong { given, ..RIGHT };
        let found = run(&wrong, &LONG_PLAN).expect_err(part);
        assert_says(&found.what, part);
    }
}

#[test]
fn an_edition() {
    assert_caught_given(&[
        // Limits of 65 and of 63 in edition 2; a last number met that does not count where it is no struct.
        (
            |sheet, _| relabel_chains(sheet, 2, 1, 64..=65),
            "expected [17, 0, ",
        ),
        (|sheet, _| second_held_to_63(sheet), "answered [17, 0, "),
        (
            |sheet, _| relabel_chains(sheet, 2, 1, 64..=64),
            "answered [16, 0, ",
        ),
        // One limit for both: 256, and 64.
        (
            |sheet, _| relabel_chains(sheet, 2, 1, 64..),
            "expected [17, 0, ",
        ),
        (
            |sheet, _| relabel_chains(sheet, 1, 2, 64..),
            "answered [17, 0, ",
        ),
        // Edition 2 not taken; 3 and 0 taken.
        (|sheet, _| relabel(sheet, 2, 3), "answered [1, 0, "),
        (|sheet, _| relabel(sheet, 3, 2), "expected [1, 0, "),
        (|sheet, _| relabel(sheet, 0, 1), "expected [1, 0, "),
        // A host list of edition 2 taken.
        (|_, hosts| relabel(hosts, 2, 1), "expected [23, 0, "),
    ]);
}

#[test]
fn a_count_in_an_edition() {
    let alters: [AlterCount; 2] = [
        // Edition 2 as a broken layout, and edition 3 as a whole one.
        |count, sheet| {
            if decode_sheet(sheet).is_some_and(|(plain, _)| plain.edition == Edition::Second) {
                *count = [1, 0];
            }
        },
        |count, sheet| {
            let mut sheet = sheet.to_vec();
            relabel(&mut sheet, 3, 2);
            *count = Library.count_structs(&sheet);
        },
    ];
    for alter in alters {
        assert_says(&caught_count(alter), "structs: answered");
    }
}

#[test]
fn cheap_loaders() {
    let refuses_all: Alter = |n, _, _| *n = [1, 0, 0, 0, 0, 0];
    let accepts_all: Alter = |n, _, _| *n = [0, 0, 49, 0, 0, 0];
    let short_with_space: Alter = |n, _, _| *n = [24, 0, 0, 0, 0, 0];
    for alter in [refuses_all, accepts_all, short_with_space] {
        assert_says(&caught(alter), "answered");
    }
    let writes_nothing: Alter = |n, table, _| {
        if n[0] == 0 {
            table[..n[2] as usize].fill(0);
        }
    };
    assert_says(&caught(writes_nothing), "table word 0 is Some(0)");
}

#[test]
fn the_first_case_is_found_by_any_number_of_jobs() {
    let load: Alter = |n, _, _| n[2] ^= u32::from(n[0] == 21);
    let wrong = Wrong { load, ..RIGHT };
    let one = run(&wrong, &PLAN).expect_err("a difference");
    for jobs in [2, 5] {
        let several = run(&wrong, &Plan { jobs, ..PLAN }).expect_err("a difference");
        assert_eq!((several.index, &several.what), (one.index, &one.what));
    }
    // From the next case on it is not found again there.
    let from = one.index + 1;
    let next = run(&wrong, &Plan { from, ..PLAN }).expect_err("a difference");
    assert!(next.index >= from);
    let cases = read_cases(&write_cases(&one.cases)).expect("a file of cases");
    assert_eq!(cases[0].answer.numbers[0], 21);
}
