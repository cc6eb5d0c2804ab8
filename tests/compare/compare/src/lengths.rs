//! Chain lengths by brute force, from the declared parents alone.

use sheets::Sheet;

use crate::chain;

/// For each type of an accepted sheet how many numbers are on its chain: its own and those that declared parents lead to; 0 for
/// what is no struct.
pub fn chain_lengths(sheet: &Sheet) -> Vec<u32> {
    let types = 0..sheet.types.len() as u32;
    types.map(|t| chain(sheet, t).count() as u32).collect()
}

/// The longest of them, 0 where there is no struct.
pub(crate) fn longest_chain(sheet: &Sheet) -> u32 {
    chain_lengths(sheet).into_iter().max().unwrap_or(0)
}

#[cfg(test)]
mod tests {
    use super::*;
    use crate::descent::parent_of;
    use crate::forests::{deepest, forest, mixed, sheet};
    use crate::{descends_by_parents, family_sizes};
    use sheets::build::structure;
    use sheets::TypeEntry;

    #[test]
    fn lengths_of_a_mixed_forest() {
        assert_eq!(chain_lengths(&mixed()), [3, 0, 1, 2, 0, 1, 3, 0, 2, 1, 4]);
    }

    #[test]
    fn chains_fans_and_single_types() {
        assert_eq!(chain_lengths(&Sheet::default()), []);
        assert_eq!(chain_lengths(&sheet(vec![TypeEntry::Coroutine])), [0]);
        assert_eq!(chain_lengths(&forest([None; 3])), [1, 1, 1]);
        assert_eq!(chain_lengths(&forest([Some(2), Some(2), None])), [2, 2, 1]);
        let lengths = chain_lengths(&deepest(260));
        let rising: Vec<u32> = (1..=256).collect();
        assert_eq!(
            (&lengths[..256], &lengths[256..]),
            (&rising[..], &[256; 4][..])
        );
    }

    #[test]
    fn one_at_a_root_and_one_more_than_the_parent_elsewhere() {
        let branches = forest((0..90).map(|t| (t % 17 > 0).then_some(t / 3)));
        for sheet in [mixed(), deepest(300), branches] {
            let lengths = chain_lengths(&sheet);
            for (t, &length) in (0..).zip(&lengths) {
                let expected = match parent_of(&sheet, t) {
                    Some(Some(parent)) => lengths[parent as usize] + 1,
                    Some(None) => 1,
                    None => 0,
                };
                assert_eq!(length, expected, "{t}");
            }
        }
    }

    #[test]
    fn as_many_as_a_type_descends_from() {
        for sheet in [mixed(), deepest(300)] {
            let n = sheet.types.len() as u32;
            for (t, length) in (0..n).zip(chain_lengths(&sheet)) {
                let above = (0..n).filter(|&a| descends_by_parents(&sheet, t, a));
                assert_eq!(above.count() as u32, length, "{t}");
            }
            // Each pair of a type and one that it descends from is counted once by either.
            let [lengths, sizes] = [chain_lengths(&sheet), family_sizes(&sheet)];
            assert_eq!(lengths.iter().sum::<u32>(), sizes.iter().sum());
        }
    }

    #[test]
    fn walks_end_in_sheets_that_are_refused() {
        let ring = forest([Some(1), Some(0), Some(99), None]);
        assert_eq!(chain_lengths(&ring)[2..], [1, 1]);
        let no_struct = sheet(vec![TypeEntry::Coroutine, structure(Some(0), &[])]);
        assert_eq!(chain_lengths(&no_struct), [0, 1]);
    }
}
