//! Renumbered pairs as demand 3 says, their nearest families and their chain lengths.

use compare::{
    answer_plain, asked_numbers, leaves_out_arguments, length_difference, length_in,
    nearest_difference, nearest_in, pair_difference, query,
};
use generator::{pair, Pair, Rng};
use sheets::{encode_sheet, renumber, Edition};

/// What a pair's two answers were: both accepted, or the two kinds.
fn compare_pair(pair: &Pair, index: u64) -> (u32, u32) {
    let n = |sheet| encode_sheet(sheet).words.len();
    assert_eq!(n(&pair.first.sheet), n(&pair.second.sheet));
    assert_eq!(pair.first.sheet.edition, pair.second.sheet.edition);
    let first = answer_plain(&pair.first.sheet, &pair.first.hosts);
    let second = answer_plain(&pair.second.sheet, &pair.second.hosts);
    let kinds = (first.numbers[0], second.numbers[0]);
    match (first.table, second.table) {
        (Some(a), Some(b)) => compare_tables(pair, &a, &b, index),
        // Neither arguments nor names have a type's number.
        (None, None) if matches!(kinds.0, 8 | 27 | 28) => {
            assert_eq!(second.numbers, first.numbers, "pair {index}");
        }
        (None, None) => {}
        _ => panic!("pair {index}: kinds {kinds:?}"),
    }
    kinds
}

fn compare_tables(pair: &Pair, a: &[u32], b: &[u32], index: u64) {
    let asked = asked_numbers(&mut Rng::new(7, index), pair.images.len(), 20);
    let found = pair_difference(&pair.images, &asked, [a, b], query);
    assert_eq!(found, None, "pair {index}");
    let found = nearest_difference(&pair.images, &asked, [a, b], nearest_in);
    assert_eq!(found, None, "pair {index}");
    let found = length_difference(&pair.images, &asked, [a, b], length_in);
    assert_eq!(found, None, "pair {index}");
}

#[test]
fn pairs_agree_as_demand_3_says() {
    let (mut accepted, mut refused, mut other_kind) = (0, 0, 0);
    let mut accepted_second = 0;
    let (mut exported, mut misnamed) = (0, [0; 2]);
    let (mut leaving_out, mut wrong_count) = (0, 0);
    for index in 0..30_000 {
        let pair = pair(6, index);
        let (first, second) = compare_pair(&pair, index);
        let sheet = &pair.first.sheet;
        let in_second = sheet.edition == Edition::Second;
        accepted_second += u32::from(in_second && first == 0);
        exported += u32::from(in_second && first == 0 && sheet.exports.len() > 1);
        leaving_out += u32::from(first == 0 && leaves_out_arguments(sheet));
        wrong_count += u32::from(in_second && first == 8);
        if matches!(first, 27 | 28) {
            misnamed[first as usize - 27] += 1;
        }
        match first {
            0 => accepted += 1,
            _ => refused += 1,
        }
        other_kind += u32::from(first != second);
    }
    println!("{accepted} accepted, {refused} refused, {other_kind} of them by another kind");
    assert!(accepted >= 15_000, "{accepted} accepted");
    assert!(refused >= 5_000, "{refused} refused");
    let in_each = accepted_second.min(accepted - accepted_second);
    assert!(in_each >= 5_000, "{accepted_second} of the second edition");
    assert!(exported >= 2_000, "{exported} of them with exports");
    assert!(misnamed.iter().all(|&n| n >= 100), "{misnamed:?}");
    assert!(leaving_out >= 1_000, "{leaving_out} leave out arguments");
    assert!(wrong_count >= 100, "{wrong_count} have too few or too many");
    // The refusal's kind may differ, and now and then it does.
    assert!(other_kind > 0);
}

#[test]
fn renumbering_back_gives_the_sheet() {
    for index in 0..2_000 {
        let pair = pair(8, index);
        let mut back = vec![0; pair.images.len()];
        for (t, &to) in pair.images.iter().enumerate() {
            back[to as usize] = t as u32;
        }
        assert_eq!(renumber(&pair.second.sheet, &back), pair.first.sheet);
    }
}
