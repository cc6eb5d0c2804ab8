//! The generator's cases: coverage, lengths of tables, stored cases.

use compare::{answer, read_cases, write_cases, Coverage, Linked, StoredCase};
use generator::{
    borders, case, chains, export_names, import_arguments, loose, several_faults, wide_borders,
    Case, Rng,
};
use sheets::{decode_sheet, encode_hosts, encode_sheet, Edition, BLOCK};

/// The seed that the command takes by default.
const DEFAULT_SEED: u64 = 1;

fn answered(case: Case) -> StoredCase {
    StoredCase {
        answer: answer(&case.sheet, &case.hosts, case.table_len, case.work_len),
        sheet: case.sheet,
        hosts: case.hosts,
        table_len: case.table_len,
        work_len: case.work_len,
    }
}

#[test]
fn five_thousand_cases_hit_every_kind_and_word() {
    let mut coverage = Coverage::default();
    let mut most_blocks = 0;
    let mut least_blocks = usize::MAX;
    for index in 0..5_000 {
        let case = case(DEFAULT_SEED, index);
        let label = format!("case {index}, {}", case.label);
        let case = answered(case);
        coverage.add(&case.sheet, &case.hosts, case.answer.numbers);
        if matches!(case.answer.numbers[0], 27 | 28) {
            let (sheet, _) = decode_sheet(&case.sheet).expect("whole");
            assert_eq!(sheet.edition, Edition::Second, "{label}");
        }
        if let Some(table) = &case.answer.table {
            let (_, n) = decode_sheet(&case.sheet).expect("accepted");
            assert!(table.len() as u64 + 6 <= 5 * u64::from(n), "{label}");
            assert_eq!(case.answer.numbers[2] as usize, table.len(), "{label}");
            assert!(Linked::read(table).is_some(), "{label}");
            most_blocks = most_blocks.max(case.sheet.len() / BLOCK);
            least_blocks = least_blocks.min(case.sheet.len() / BLOCK);
        }
    }
    println!("{coverage}");
    assert_eq!(coverage.missed(), Vec::<String>::new());
    assert_eq!((least_blocks, most_blocks), (1, 4096));
}

#[test]
fn cases_are_repeatable() {
    for index in 0..200 {
        let (a, b) = (case(9, index), case(9, index));
        assert_eq!((a.sheet, a.hosts), (b.sheet, b.hosts));
        assert_eq!((a.table_len, a.work_len), (b.table_len, b.work_len));
    }
}

#[test]
fn borders_are_met_on_both_sides() {
    let judge = |(name, make): generator::Border, tries| {
        let mut accepted = 0;
        for index in 0..tries {
            let draft = make(&mut Rng::new(10, index));
            let sheet = encode_sheet(&draft.sheet).to_bytes();
            let hosts = encode_hosts(&draft.hosts).to_bytes();
            let answer = answer(&sheet, &hosts, u32::MAX, u32::MAX);
            accepted += u64::from(answer.table.is_some());
        }
        println!("{name}: {accepted} of {tries} accepted");
        (name, accepted, tries - accepted)
    };
    let one_sided = |name: &str| {
        let accepted = [
            "about eight handlers",
            "string across blocks",
            "length at a block's end",
            "families without members",
            "types equal through references",
        ];
        let refused = [
            "chain without a root",
            "both orders of a cycle",
            "record before code",
        ];
        accepted.contains(&name) || refused.contains(&name)
    };
    let rows = [borders(), chains(), export_names(), import_arguments()].concat();
    let rows = rows.into_iter().map(|b| judge(b, 200));
    let several = several_faults().into_iter().map(|b| judge(b, 200));
    let wide = wide_borders().into_iter().map(|b| judge(b, 24));
    for (name, accepted, refused) in rows.chain(several).chain(wide) {
        let both = accepted > 0 && refused > 0;
        assert!(both || one_sided(name), "{name}: {accepted} and {refused}");
    }
}

#[test]
fn stored_cases_come_back() {
    let cases: Vec<_> = (0..300)
        .map(|index| case(11, index))
        .filter(|c| c.sheet.len() <= 16 * BLOCK)
        .map(answered)
        .collect();
    let bytes = write_cases(&cases);
    assert_eq!(read_cases(&bytes), Some(cases));
    // Cut or lengthened, it is no file of cases.
    for length in [0, 3, 4, 7, 8, 20, bytes.len() - 1, bytes.len() - 4] {
        assert_eq!(read_cases(&bytes[..length]), None, "{length} bytes");
    }
    assert_eq!(read_cases(&[&bytes[..], &[0; 4]].concat()), None);
    let mut hostile = bytes.clone();
    hostile[8..12].fill(0xff);
    assert_eq!(read_cases(&hostile), None);
}

#[test]
fn characters_cross_block_borders() {
    // A continuation byte at a block's first place belongs to a character begun in the block before.
    let crossed = |case: &StoredCase| {
        let blocks = case.sheet.chunks(BLOCK).skip(1);
        case.answer.table.is_some() && blocks.clone().any(|b| b[0] & 0xc0 == 0x80)
    };
    let (_, make) = borders()
        .into_iter()
        .find(|(name, _)| *name == "string across blocks")
        .expect("that border");
    let mut hits = 0;
    for index in 0..100 {
        let draft = make(&mut Rng::new(12, index));
        hits += u32::from(crossed(&answered(Case {
            label: String::new(),
            sheet: encode_sheet(&draft.sheet).to_bytes(),
            hosts: encode_hosts(&[]).to_bytes(),
            table_len: u32::MAX,
            work_len: u32::MAX,
        })));
    }
    assert!(hits >= 50, "{hits} of 100");
}

#[test]
fn every_hook_is_bound_to_functions_and_to_imports() {
    let mut bound = [[0; 2]; 31];
    for index in 0..10_000 {
        let case = answered(case(DEFAULT_SEED, index));
        if case.answer.table.is_some() {
            let (sheet, _) = decode_sheet(&case.sheet).expect("accepted");
            for h in &sheet.hooks {
                bound[h.hook as usize][h.callee as usize] += 1;
            }
        }
    }
    for (hook, hits) in bound.iter().enumerate() {
        assert!(hits[0] > 0 && hits[1] > 0, "hook {hook}: {hits:?}");
    }
}

#[test]
fn loose_modules_have_none_one_or_several_faults() {
    let mut coverage = Coverage::default();
    let mut accepted = 0;
    for index in 0..5_000 {
        let draft = loose(&mut Rng::new(13, index));
        let sheet = encode_sheet(&draft.sheet).to_bytes();
        let hosts = encode_hosts(&draft.hosts).to_bytes();
        let answer = answer(&sheet, &hosts, u32::MAX, u32::MAX);
        accepted += u32::from(answer.table.is_some());
        coverage.add(&sheet, &hosts, answer.numbers);
    }
    println!("{accepted} of 5000 accepted\n{coverage}");
    assert!((500..4_500).contains(&accepted), "{accepted} accepted");
    // Layout, host list and lengths are whole; nearly all the rest is met.
    let (of_editions, missed): (Vec<_>, Vec<_>) = coverage
        .missed()
        .into_iter()
        .partition(|m| m.contains("edition"));
    assert!(missed.len() <= 8, "{missed:?}");
    // Chains and lists are short, edition words are right, and a count of arguments or an index behind a name seldom is wrong; both
    // editions are accepted.
    assert!(of_editions.len() <= 13, "{of_editions:?}");
}
