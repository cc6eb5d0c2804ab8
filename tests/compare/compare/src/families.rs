//! Families by brute force, from the declarations alone: how many types descend from each, how many structs there are,
//! and the report over sheets.

use sheets::{decode_sheet, Sheet, BLOCK};

use crate::answer;
use crate::descent::{chain, parent_of};
use crate::words::spaced;

/// The most bytes that a program takes of a file; one with more counts as no bytes.
pub(crate) const MOST_BYTES: usize = 16 * BLOCK;

/// For each type of an accepted sheet how many types descend from it, itself included; 0 for what is no struct.
pub fn family_sizes(sheet: &Sheet) -> Vec<u32> {
    let mut sizes = vec![0; sheet.types.len()];
    for t in 0..sheet.types.len() as u32 {
        // It is one of its own, and one of each that its declared parents lead to.
        for a in chain(sheet, t) {
            sizes[a as usize] += 1;
        }
    }
    sizes
}

/// The numbers of the struct types, rising.
fn structs(sheet: &Sheet) -> impl Iterator<Item = u32> + '_ {
    (0..sheet.types.len() as u32).filter(|&t| parent_of(sheet, t).is_some())
}

/// How many struct types are declared.
pub fn struct_count(sheet: &Sheet) -> u32 {
    structs(sheet).count() as u32
}

/// Whether a type is a struct without a parent.
pub fn is_root(sheet: &Sheet, t: u32) -> bool {
    parent_of(sheet, t) == Some(None)
}

/// What a program takes of a file.
fn taken(file: &[u8]) -> &[u8] {
    if file.len() > MOST_BYTES {
        return &[];
    }
    file
}

/// The lines of the report on these files under a host list; a file that cannot be opened has no bytes.
pub fn report(hosts: &[u8], files: &[Vec<u8>]) -> Vec<String> {
    let mut lines = Vec::new();
    let (mut structs_total, mut sizes_total) = (0u128, 0u128);
    for file in files.iter().map(|file| taken(file)) {
        let numbers = answer(file, taken(hosts), u32::MAX, u32::MAX).numbers;
        lines.push(spaced(numbers));
        if numbers[0] != 0 {
            continue;
        }
        let (sheet, _) = decode_sheet(file).expect("an accepted sheet is intact");
        let sizes = family_sizes(&sheet);
        lines.extend(structs(&sheet).map(|t| spaced([t, sizes[t as usize]])));
        structs_total += u128::from(struct_count(&sheet));
        sizes_total += sizes.iter().map(|&size| u128::from(size)).sum::<u128>();
    }
    lines.push(format!("{structs_total} {sizes_total}"));
    lines
}

#[cfg(test)]
mod tests {
    use super::*;
    use crate::descends_by_parents;
    use crate::forests::{deepest, forest, mixed, sheet};
    use sheets::build::structure;
    use sheets::{encode_hosts, encode_sheet, TypeEntry};

    fn root_total(sheet: &Sheet) -> u32 {
        let sizes = family_sizes(sheet);
        let roots = (0..).zip(sizes).filter(|&(t, _)| is_root(sheet, t));
        roots.map(|(_, size)| size).sum()
    }

    #[test]
    fn families_of_a_mixed_forest() {
        assert_eq!(family_sizes(&mixed()), [2, 0, 2, 4, 0, 5, 1, 0, 1, 1, 1]);
        assert_eq!((struct_count(&mixed()), root_total(&mixed())), (8, 8));
        let roots: Vec<u32> = (0..12).filter(|&t| is_root(&mixed(), t)).collect();
        assert_eq!(roots, [2, 5, 9]);
    }

    #[test]
    fn chains_fans_and_single_types() {
        assert_eq!(family_sizes(&Sheet::default()), []);
        assert_eq!(family_sizes(&sheet(vec![TypeEntry::Coroutine])), [0]);
        assert_eq!(family_sizes(&forest([None; 3])), [1, 1, 1]);
        let fan = forest([Some(3), Some(3), Some(3), None, Some(3)]);
        assert_eq!(family_sizes(&fan), [1, 1, 1, 5, 1]);
        let chain = family_sizes(&deepest(256));
        assert!(chain.iter().eq((1..=256).rev().collect::<Vec<_>>().iter()));
        let sizes = family_sizes(&deepest(404));
        assert_eq!((sizes[0], sizes[254], sizes[255]), (404, 150, 1));
        assert_eq!(sizes.iter().sum::<u32>(), 70_784);
    }

    #[test]
    fn sizes_are_those_of_all_pairs() {
        for sheet in [
            mixed(),
            deepest(300),
            forest([None, Some(0), None, Some(1)]),
        ] {
            let n = sheet.types.len() as u32;
            for (a, size) in (0..n).zip(family_sizes(&sheet)) {
                let below = (0..n).filter(|&t| descends_by_parents(&sheet, t, a));
                assert_eq!(below.count() as u32, size, "{a}");
            }
            assert_eq!(root_total(&sheet), struct_count(&sheet));
        }
    }

    #[test]
    fn walks_end_in_sheets_that_are_refused() {
        let ring = forest([Some(1), Some(0), Some(99), None]);
        assert_eq!(family_sizes(&ring)[2..], [1, 1]);
        assert_eq!(struct_count(&ring), 4);
        let no_struct = sheet(vec![TypeEntry::Coroutine, structure(Some(0), &[])]);
        assert_eq!(
            (family_sizes(&no_struct), struct_count(&no_struct)),
            (vec![0, 1], 1)
        );
    }

    fn bytes(sheet: &Sheet) -> Vec<u8> {
        encode_sheet(sheet).to_bytes()
    }

    fn reported(files: &[Vec<u8>]) -> Vec<String> {
        report(&encode_hosts(&[]).to_bytes(), files)
    }

    #[test]
    fn lines_of_the_report() {
        assert_eq!(reported(&[]), ["0 0"]);
        let three = bytes(&forest([Some(2), Some(2), None]));
        let accepted = ["0 0 79 0 0 0", "0 1", "1 1", "2 3"];
        let refused = "1 0 0 0 0 0";
        let lines = reported(&[three.clone(), Vec::new()]);
        assert_eq!(lines, [&accepted[..], &[refused, "3 5"]].concat());
        // A file that is named twice counts twice, one that is refused by a rule not at all.
        let ring = bytes(&forest([Some(1), Some(0)]));
        let lines = reported(&[three.clone(), ring, three.clone()]);
        let expected = [&accepted[..], &["17 0 0 0 0 0"], &accepted, &["6 10"]];
        assert_eq!(lines, expected.concat());
        // 1 goes before 23.
        let lines = report(&[], &[three, Vec::new()]);
        assert_eq!(lines, ["23 0 0 0 0 0", refused, "0 0"]);
        let others = reported(&[bytes(&mixed())]);
        assert_eq!(others[1..4], ["0 2", "2 2", "3 4"]);
        assert_eq!(others.last().map(String::as_str), Some("8 17"));
    }

    #[test]
    fn over_16_blocks_count_as_no_bytes() {
        let most = bytes(&deepest(404));
        assert_eq!(most.len(), 8_192);
        let lines = reported(std::slice::from_ref(&most));
        assert_eq!((lines.len(), lines[405].as_str()), (406, "404 70784"));
        for more in [bytes(&deepest(405)), [most, vec![0]].concat()] {
            assert_eq!(reported(&[more]), ["1 0 0 0 0 0", "0 0"]);
        }
        let long = sheets::write_blocks(&vec![0; 16 * 127 + 1]);
        assert_eq!(report(&long, &[bytes(&mixed())])[0], "23 0 0 0 0 0");
    }
}
