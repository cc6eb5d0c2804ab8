//! The cases of a seed: case k can be made again without the others.

use sheets::{encode_hosts, encode_sheet, needed, renumber, HostEntry, Words, MOST_BLOCKS, WORDS};

use crate::borders::{
    at_border, borders, chains, export_names, import_arguments, several_faults, wide_borders,
    Border,
};
use crate::bulk::{fill, fill_hosts};
use crate::damage::{change_edition, change_word, damage_bytes, damage_frame, damage_words};
use crate::faults::some_fault;
use crate::{loose, valid, Draft, Rng, Scale};

/// Bytes and lengths for one call of load, and how they were made.
#[derive(Clone, Debug)]
pub struct Case {
    pub label: String,
    pub sheet: Vec<u8>,
    pub hosts: Vec<u8>,
    pub table_len: u32,
    pub work_len: u32,
}

/// Case `open_index` of a seed.
pub fn case(seed: u64, index: u64) -> Case {
    let mut rng = Rng::new(seed, index);
    let rng = &mut rng;
    match rng.below(1000) {
        0..=95 => whole("valid", rng, Scale::any),
        96..=123 => of_own_edition(rng, &chains()),
        124..=181 => of_own_edition(rng, &export_names()),
        182..=251 => of_own_edition(rng, &import_arguments()),
        252..=364 => faulty(rng, Scale::any),
        365..=499 => {
            let draft = loose(rng);
            finish("loose".to_string(), rng, draft)
        }
        500..=599 => border(rng, &several_faults()),
        600..=719 => border(rng, &borders()),
        720..=829 => damaged(rng),
        830..=879 => host_damage(rng),
        880..=919 => short(rng),
        920..=959 => whole("families", rng, |_| Scale::families()),
        960..=974 => large(rng, 64),
        975..=977 => large(rng, 4096),
        _ => border(rng, &wide_borders()),
    }
}

fn border(rng: &mut Rng, all: &[Border]) -> Case {
    let (label, draft) = at_border(rng, all);
    finish(label.to_string(), rng, draft)
}

/// At a border that chooses the edition itself.
fn of_own_edition(rng: &mut Rng, all: &[Border]) -> Case {
    let (label, make) = rng.pick(all);
    let draft = make(rng);
    finish(label.to_string(), rng, draft)
}

fn whole(label: &str, rng: &mut Rng, scale: fn(&mut Rng) -> Scale) -> Case {
    let scale = scale(rng);
    let draft = valid(rng, &scale);
    finish(label.to_string(), rng, draft)
}

/// One fault, or two or three, of which the first in the Rust's order is to be found.
fn faulty(rng: &mut Rng, scale: fn(&mut Rng) -> Scale) -> Case {
    let (label, draft) = faulty_draft(rng, scale);
    finish(label, rng, draft)
}

pub(crate) fn faulty_draft(rng: &mut Rng, scale: fn(&mut Rng) -> Scale) -> (String, Draft) {
    let scale = scale(rng);
    let mut draft = valid(rng, &scale);
    let mut label = String::from("fault");
    for _ in 0..rng.pick(&[1, 1, 1, 2, 3]) {
        let fault = some_fault(rng);
        (fault.apply)(rng, &mut draft);
        label += &format!(": {}", fault.name);
    }
    (label, draft)
}

/// Bytes and lengths for plain data: types at times reordered, slices just long enough or longer.
fn finish(label: String, rng: &mut Rng, mut draft: Draft) -> Case {
    let types = draft.sheet.types.len();
    if types <= 5000 && rng.one_in(4) {
        draft.sheet = renumber(&draft.sheet, &rng.permutation(types));
    }
    with_lengths(label, rng, &encode_sheet(&draft.sheet), &draft.hosts)
}

fn with_lengths(label: String, rng: &mut Rng, words: &Words, hosts: &[HostEntry]) -> Case {
    let need = needed(words.words.len() as u32) as u32;
    let more = |rng: &mut Rng| need + rng.pick(&[0, 0, 1, 7, 100]);
    Case {
        label,
        sheet: words.to_bytes(),
        hosts: encode_hosts(hosts).to_bytes(),
        table_len: more(rng),
        work_len: more(rng),
    }
}

/// A small module, mostly without a fault of its own.
fn base(rng: &mut Rng) -> Draft {
    if rng.one_in(4) {
        return faulty_draft(rng, Scale::any).1;
    }
    let scale = Scale::any(rng);
    valid(rng, &scale)
}

fn damaged(rng: &mut Rng) -> Case {
    let draft = base(rng);
    let words = encode_sheet(&draft.sheet);
    let mut case = with_lengths("damage".to_string(), rng, &words, &draft.hosts);
    case.sheet = match rng.below(11) {
        0..=4 => damage_words(rng, &words),
        5 => damage_frame(rng, &words),
        6 | 7 => change_word(rng, &words),
        8 => change_edition(rng, &words),
        _ => damage_bytes(rng, case.sheet),
    };
    // 1 comes before 23 and 24.
    if rng.one_in(6) {
        case.hosts = damage_bytes(rng, case.hosts);
    }
    shorten_some(rng, &mut case);
    case
}

/// Slices that are too short, now and then, behind another fault.
fn shorten_some(rng: &mut Rng, case: &mut Case) {
    if rng.one_in(6) {
        case.table_len = rng.index(60);
    }
}

/// A host list with broken layout, or with a pair twice.
fn host_damage(rng: &mut Rng) -> Case {
    let mut draft = base(rng);
    let sheet = encode_sheet(&draft.sheet);
    if draft.hosts.is_empty() {
        draft.hosts.push(sheets::build::user("a", "b"));
    }
    let mut case = with_lengths("host list".to_string(), rng, &sheet, &draft.hosts);
    let words = encode_hosts(&draft.hosts);
    case.hosts = match rng.below(7) {
        0 | 1 => {
            let mut twice = rng.pick(&draft.hosts);
            twice.scheduler ^= rng.coin();
            let at = rng.below(draft.hosts.len() + 1);
            draft.hosts.insert(at, twice);
            encode_hosts(&draft.hosts).to_bytes()
        }
        2 | 3 => damage_words(rng, &words),
        4 => damage_frame(rng, &words),
        5 => change_edition(rng, &words),
        _ => damage_bytes(rng, case.hosts),
    };
    // 23 comes before 24.
    shorten_some(rng, &mut case);
    case
}

/// Slices one word short, or empty, or long enough for the table's own words only.
fn short(rng: &mut Rng) -> Case {
    let draft = base(rng);
    let words = encode_sheet(&draft.sheet);
    let mut case = with_lengths("lengths".to_string(), rng, &words, &draft.hosts);
    let n = words.words.len() as u32;
    let need = needed(n) as u32;
    let any = rng.index(need as usize);
    let less = rng.pick(&[need - 1, need - 1, 0, 5 * n - 6, 8 * n, 64, any]);
    match rng.below(4) {
        0 => case.table_len = less,
        1 => case.work_len = less,
        2 => (case.table_len, case.work_len) = (less, less),
        _ => (case.table_len, case.work_len) = (need, need),
    }
    case
}

/// A large sheet, at times one block too large, or a large host list.
fn large(rng: &mut Rng, most_blocks: usize) -> Case {
    let mut draft = base(rng);
    let blocks = match rng.below(8) {
        0 | 1 => most_blocks,
        2 if most_blocks == MOST_BLOCKS => MOST_BLOCKS + 1,
        _ => rng.within(1, most_blocks),
    };
    let words = blocks * WORDS - if rng.coin() { 0 } else { rng.below(WORDS) };
    if rng.one_in(6) {
        fill_hosts(rng, &mut draft, words);
        return finish(format!("large host list: {blocks} blocks"), rng, draft);
    }
    fill(rng, &mut draft, words);
    finish(format!("large: {blocks} blocks"), rng, draft)
}
