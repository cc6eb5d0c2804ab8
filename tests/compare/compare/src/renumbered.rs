//! What demand 3 says of the tables of a renumbered pair, and which numbers are asked about.

use generator::Rng;

use crate::{image, Linked};

/// Every number of a type, or a sample of so many where there are more, and numbers that no type has.
pub fn asked_numbers(rng: &mut Rng, types: usize, most: usize) -> Vec<u32> {
    let mut numbers: Vec<u32> = if types <= most {
        (0..types as u32).collect()
    } else {
        (0..most).map(|_| rng.index(types)).collect()
    };
    let n = types as u32;
    numbers.extend([n, n + 1, 1 << 31, u32::MAX - 1, u32::MAX]);
    numbers
}

/// Where the tables of a sheet and of the renumbered one disagree, in words.
///
/// Families are compared for the asked numbers, everything else for all.
pub fn pair_difference(
    images: &[u32],
    asked: &[u32],
    [first, second]: [&[u32]; 2],
    query: impl Fn(&[u32], u32, u32) -> u32,
) -> Option<String> {
    if first.len() != second.len() {
        return Some("L".to_string());
    }
    for &t in asked {
        for &a in asked {
            let of_images = query(second, image(images, t), image(images, a));
            if query(first, t, a) != of_images {
                return Some(format!("whether {t} descends from {a}"));
            }
        }
    }
    let (Some(first), Some(second)) = (Linked::read(first), Linked::read(second)) else {
        return Some("one of them is no table".to_string());
    };
    if !same_partition(images, &first.canonical, &second.canonical) {
        return Some("which types share a canonical number".to_string());
    }
    if first.hooks != second.hooks {
        return Some("the hooks".to_string());
    }
    (first.catch_tables != second.catch_tables).then(|| "the catch tables".to_string())
}

/// Where the nearest family of two images is not the image of the nearest family, in words; kinds are to be the same.
pub fn nearest_difference(
    images: &[u32],
    asked: &[u32],
    [first, second]: [&[u32]; 2],
    nearest: impl Fn(&[u32], u32, u32) -> [u32; 2],
) -> Option<String> {
    for &t in asked {
        for &u in asked {
            let moved = match nearest(first, t, u) {
                [0, family] => [0, image(images, family)],
                none => none,
            };
            let of_images = nearest(second, image(images, t), image(images, u));
            if of_images != moved {
                return Some(format!(
                    "the nearest family of {t} and {u}: {of_images:?} and not {moved:?}"
                ));
            }
        }
    }
    None
}

/// Where the chain length of an image is not that of the type, in words; kinds are to be the same.
pub fn length_difference(
    images: &[u32],
    asked: &[u32],
    [first, second]: [&[u32]; 2],
    length: impl Fn(&[u32], u32) -> [u32; 2],
) -> Option<String> {
    let both = |t: u32| [length(first, t), length(second, image(images, t))];
    let mut differing = asked.iter().map(|&t| (t, both(t)));
    let (t, [of_type, of_image]) = differing.find(|(_, [a, b])| a != b)?;
    Some(format!(
        "the chain length of {t}: {of_image:?} and not {of_type:?}"
    ))
}

/// Types share a number exactly when their images do: each number goes with one number, both ways.
fn same_partition(images: &[u32], first: &[u32], second: &[u32]) -> bool {
    let n = images.len();
    if first.len() != n || second.len() != n {
        return false;
    }
    let (mut forth, mut back) = (vec![None; n], vec![None; n]);
    first.iter().zip(images).all(|(&number, &image)| {
        let other = second[image as usize];
        let (Some(to), Some(from)) = (forth.get_mut(number as usize), back.get_mut(other as usize))
        else {
            return false;
        };
        *to.get_or_insert(other) == other && *from.get_or_insert(number) == number
    })
}

#[cfg(test)]
mod tests {
    use super::*;
    use crate::{answer_plain, length_in, nearest_in, query};
    use generator::pair;

    /// Finds a renumbered pair that is accepted and has catch tables, types and two canonical numbers that differ.
    fn tables() -> (Vec<u32>, Vec<u32>, Vec<u32>) {
        let mut pairs = (0..).map(|index| pair(6, index));
        let found = pairs.find_map(|p| {
            let first = answer_plain(&p.first.sheet, &p.first.hosts).table?;
            let second = answer_plain(&p.second.sheet, &p.second.hosts).table?;
            let linked = Linked::read(&first)?;
            let caught = linked.catch_tables.iter().flatten().next().is_some();
            let some = caught && linked.canonical.iter().any(|&c| c != linked.canonical[0]);
            some.then_some((p.images, first, second))
        });
        found.expect("there are such pairs")
    }

    #[test]
    fn each_section_of_a_pair_is_compared() {
        let (images, first, second) = tables();
        assert_eq!(
            pair_difference(&images, &[0], [&first, &second], query),
            None
        );
        // Each word of a section altered in turn: what is then said to differ.
        let told = |section: usize| -> Vec<String> {
            let alter = |place| {
                let mut table = second.clone();
                table[place as usize] ^= 1;
                pair_difference(&images, &[0], [&first, &table], query)
            };
            let places = second[2 + section]..second[3 + section];
            places.filter_map(alter).collect()
        };
        for (section, name) in [(0, "catch tables"), (3, "hooks"), (4, "canonical")] {
            let told = told(section);
            assert!(told.iter().any(|what| what.contains(name)), "{told:?}");
        }
    }

    #[test]
    fn families_and_lengths_of_a_pair_are_compared() {
        let (images, first, second) = tables();
        let differ = |second: &[u32], asked: &[u32], query: &dyn Fn(&[u32], u32, u32) -> u32| {
            pair_difference(&images, asked, [&first, second], query).expect("a difference")
        };
        assert_eq!(differ(&second[1..], &[], &query), "L");
        // No number is left out: a lie about any one is told.
        let asked = asked_numbers(&mut Rng::new(1, 1), images.len(), usize::MAX);
        for &liar in &asked {
            let lies = |table: &[u32], t, a| match table == first && t == liar {
                true => 1 - query(table, t, a),
                false => query(table, t, a),
            };
            assert!(differ(&second, &asked, &lies).contains("descends"));
        }
    }

    type Nearest<'n> = &'n dyn Fn(&[u32], u32, u32) -> [u32; 2];

    #[test]
    fn nearest_families_of_a_pair_are_compared() {
        let (images, first, second) = tables();
        let asked = asked_numbers(&mut Rng::new(1, 1), images.len(), usize::MAX);
        let differ =
            |nearest: Nearest| nearest_difference(&images, &asked, [&first, &second], nearest);
        assert_eq!(differ(&nearest_in), None);
        // A lie about any one number is told, of the kind and of the family.
        for &liar in &asked {
            for place in [0, 1] {
                let lies = |table: &[u32], t, u| {
                    let mut answer = nearest_in(table, t, u);
                    answer[place] += u32::from(table == second && u == image(&images, liar));
                    answer
                };
                assert!(differ(&lies).is_some(), "{liar}");
            }
        }
        // The same number in both tables is no answer where they are renumbered.
        let unmoved = |_: &[u32], t, u| nearest_in(&first, t, u);
        assert!(differ(&unmoved).is_some());
    }

    #[test]
    fn chain_lengths_of_a_pair_are_compared() {
        let (images, first, second) = tables();
        let asked = asked_numbers(&mut Rng::new(1, 1), images.len(), usize::MAX);
        let differ = |length: &dyn Fn(&[u32], u32) -> [u32; 2]| {
            length_difference(&images, &asked, [&first, &second], length)
        };
        assert_eq!(differ(&length_in), None);
        // A lie about any one number is told, of the kind and of the length.
        for &liar in &asked {
            for place in [0, 1] {
                let lies = |table: &[u32], t| {
                    let mut answer = length_in(table, t);
                    answer[place] += u32::from(table == second && t == image(&images, liar));
                    answer
                };
                let told = differ(&lies).expect("a difference");
                assert!(
                    told.contains(&format!("the chain length of {liar}: ")),
                    "{told}"
                );
            }
        }
        // The same number in both tables is no answer where they are renumbered.
        let unmoved = |_: &[u32], t| length_in(&first, t);
        assert!(differ(&unmoved).is_some());
    }

    #[test]
    fn partitions_are_compared_both_ways() {
        let images = [2, 0, 1];
        assert!(same_partition(&images, &[0, 0, 2], &[0, 1, 0]));
        assert!(!same_partition(&images, &[0, 0, 2], &[0, 0, 0]));
        assert!(!same_partition(&images, &[0, 0, 0], &[0, 1, 0]));
        assert!(!same_partition(&images, &[0, 0, 9], &[0, 1, 0]));
        assert!(!same_partition(&images, &[0, 0], &[0, 1, 0]));
    }
}
