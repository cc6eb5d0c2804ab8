//! The nearest family of types by brute force, from the declared parents alone.

use sheets::Sheet;

use crate::chain;

/// The ancestors of a type, itself among them, or those that several types have in common.
pub struct Ancestors {
    /// By number, how many types are on the chain of an ancestor; 0 for every other type.
    lengths: Vec<u32>,
}

impl Ancestors {
    /// Those of a type of an accepted sheet; what is no struct has none.
    pub fn of(sheet: &Sheet, t: u32) -> Ancestors {
        let walk: Vec<u32> = chain(sheet, t).collect();
        let mut lengths = vec![0; sheet.types.len()];
        // From the root down: each has a chain that is one longer than its parent's.
        for (&a, length) in walk.iter().rev().zip(1..) {
            lengths[a as usize] = length;
        }
        Ancestors { lengths }
    }

    fn length(&self, a: u32) -> u32 {
        self.lengths[a as usize]
    }

    fn common<'a>(
        &'a self,
        chain: impl IntoIterator<Item = u32> + 'a,
    ) -> impl Iterator<Item = u32> + 'a {
        chain.into_iter().filter(|&a| self.length(a) > 0)
    }

    /// Those that are on another chain too.
    pub fn and(&self, chain: impl IntoIterator<Item = u32>) -> Ancestors {
        let mut lengths = vec![0; self.lengths.len()];
        for a in self.common(chain) {
            lengths[a as usize] = self.length(a);
        }
        Ancestors { lengths }
    }

    /// Of those that are on another chain too the one with the longest chain of its own, if there is one.
    pub fn nearest(&self, chain: impl IntoIterator<Item = u32>) -> Option<u32> {
        self.common(chain).max_by_key(|&a| self.length(a))
    }
}

#[cfg(test)]
mod tests {
    use super::*;
    use crate::descends_by_parents;
    use crate::forests::{deepest, forest, mixed, sheet};
    use sheets::build::structure;
    use sheets::TypeEntry;

    fn nearest(sheet: &Sheet, t: u32, u: u32) -> Option<u32> {
        Ancestors::of(sheet, t).nearest(chain(sheet, u))
    }

    fn nearest_of_three(sheet: &Sheet, [t, u, v]: [u32; 3]) -> Option<u32> {
        let common = Ancestors::of(sheet, t).and(chain(sheet, u));
        common.nearest(chain(sheet, v))
    }

    /// How many types a type descends from, by all pairs.
    fn ancestors(sheet: &Sheet, t: u32) -> usize {
        let numbers = 0..sheet.types.len() as u32;
        numbers
            .filter(|&a| descends_by_parents(sheet, t, a))
            .count()
    }

    /// The one that all of these descend from and that descends from most, by all pairs; no two descend from as many.
    fn longest(sheet: &Sheet, types: &[u32]) -> Option<u32> {
        let holds_all = |&a: &u32| types.iter().all(|&t| descends_by_parents(sheet, t, a));
        let common: Vec<u32> = (0..sheet.types.len() as u32).filter(holds_all).collect();
        let most = common.iter().map(|&a| ancestors(sheet, a)).max();
        let mut longest = common
            .iter()
            .filter(|&&a| Some(ancestors(sheet, a)) == most);
        let first = longest.next().copied();
        assert_eq!(longest.next(), None);
        first
    }

    #[test]
    fn nearest_families_of_a_mixed_forest() {
        let mixed = mixed();
        for (t, u, family) in [(10, 6, 3), (0, 10, 0), (6, 5, 5), (3, 10, 3), (8, 2, 2)] {
            assert_eq!(nearest(&mixed, t, u), Some(family), "{t} and {u}");
            assert_eq!(nearest(&mixed, u, t), Some(family), "{u} and {t}");
        }
        for t in [0, 2, 3, 5, 6, 8, 9, 10] {
            assert_eq!(nearest(&mixed, t, t), Some(t), "{t}");
        }
        // Other roots, what is no struct, what is no type.
        for (t, u) in [(8, 10), (9, 2), (1, 1), (4, 7), (1, 3), (11, 0), (11, 11)] {
            assert_eq!(nearest(&mixed, t, u), None, "{t} and {u}");
            assert_eq!(nearest(&mixed, u, t), None, "{u} and {t}");
        }
        assert_eq!(nearest(&mixed, u32::MAX, 1 << 31), None);
    }

    #[test]
    fn chains_and_fans() {
        assert_eq!(nearest(&Sheet::default(), 0, 0), None);
        let fan = forest([Some(3), Some(3), Some(3), None, Some(3)]);
        assert_eq!(
            (nearest(&fan, 0, 4), nearest(&fan, 3, 1)),
            (Some(3), Some(3))
        );
        let deep = deepest(260);
        for (t, u, family) in [(255, 259, 254), (255, 17, 17), (0, 255, 0), (255, 255, 255)] {
            assert_eq!(nearest(&deep, t, u), Some(family), "{t} and {u}");
        }
    }

    #[test]
    fn the_common_ancestor_has_the_longest_chain() {
        let branches = forest((0..40).map(|t| (t % 17 > 0).then_some(t / 3)));
        for sheet in [mixed(), deepest(24), branches] {
            let n = sheet.types.len() as u32;
            for (t, u) in (0..=n).flat_map(|t| (0..=n).map(move |u| (t, u))) {
                let expected = longest(&sheet, &[t, u]);
                assert_eq!(nearest(&sheet, t, u), expected, "{t} and {u}");
                let three = [t, u, (5 * t + 3 * u) % n];
                let expected = longest(&sheet, &three);
                assert_eq!(nearest_of_three(&sheet, three), expected, "{three:?}");
            }
        }
    }

    #[test]
    fn walks_end_in_sheets_that_are_refused() {
        let ring = forest([Some(1), Some(0), Some(99), None]);
        assert_eq!(nearest(&ring, 0, 3), None);
        assert_eq!(nearest(&ring, 2, 2), Some(2));
        let no_struct = sheet(vec![TypeEntry::Coroutine, structure(Some(0), &[])]);
        assert_eq!(nearest(&no_struct, 1, 1), Some(1));
        assert_eq!(nearest(&no_struct, 1, 0), None);
    }
}
