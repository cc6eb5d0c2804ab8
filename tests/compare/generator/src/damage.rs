//! Damage to words (with check words that fit) and to bytes (without).

use sheets::{refit, write_blocks, Edition, Role, Words, BLOCK};

use crate::Rng;

/// One word of the layout broken, the check words made to fit. Now and then the sheet still holds.
pub fn damage_words(rng: &mut Rng, words: &Words) -> Vec<u8> {
    let mut out = words.words.clone();
    // Rare roles as often as frequent ones.
    let present = ROLES.iter().filter(|r| words.roles.contains(r));
    let role = *rng.pick(&present.collect::<Vec<_>>());
    let places: Vec<usize> = (0..out.len()).filter(|&i| words.roles[i] == role).collect();
    let at = rng.pick(&places);
    let word = out[at];
    out[at] = match role {
        Role::Count | Role::StringLength => {
            let near = [word + 1, word.wrapping_sub(1), word + 4];
            let far = [u32::MAX, u32::MAX - 3, 1 << 31, 1 << 30, 0x1_0000];
            if rng.coin() {
                rng.pick(&near)
            } else {
                rng.pick(&far)
            }
        }
        Role::StringBytes => word ^ rng.pick(&[0x80, 0xff00, 0xc0_0000, 0x8080_8080]),
        Role::StringTail => word | rng.pick(&[0x0100_0000, 0x8000_0000, 0x80]),
        Role::TypeKind => rng.pick(&[7, 8, 255, word ^ 1, u32::MAX]),
        Role::ConstantKind => rng.pick(&[4, 5, word ^ 1, u32::MAX]),
        Role::ValueType => rng.pick(&[13, 14, 15]),
        Role::HookNumber => rng.pick(&[31, 32, 256, u32::MAX]),
        Role::Code => {
            let any = rng.within(35, 255) as u32;
            word & 0xffff_ff00 | rng.pick(&[35, 35, 255, any])
        }
        Role::ExportKind => rng.pick(&[3, 4, u32::MAX]),
        Role::Edition => other_edition(rng, word),
        _ => rng.pick(&[2, 3, u32::MAX, word ^ 1]),
    };
    write_blocks(&out)
}

/// An edition word other than this: that of the other edition, or one that has none.
fn other_edition(rng: &mut Rng, word: u32) -> u32 {
    let others = Edition::ALL.map(Edition::word).into_iter();
    let others = others.chain([0, 3, u32::MAX]).filter(|&w| w != word);
    rng.pick(&others.collect::<Vec<_>>())
}

/// Another edition word, the check words made to fit: a sheet of the other edition still holds.
pub fn change_edition(rng: &mut Rng, words: &Words) -> Vec<u8> {
    let mut out = words.words.clone();
    out[0] = other_edition(rng, out[0]);
    write_blocks(&out)
}

const ROLES: [Role; 14] = [
    Role::Edition,
    Role::Count,
    Role::StringLength,
    Role::StringBytes,
    Role::StringTail,
    Role::TypeKind,
    Role::ConstantKind,
    Role::ValueType,
    Role::Present,
    Role::HookNumber,
    Role::CalleeKind,
    Role::ExportKind,
    Role::HostKind,
    Role::Code,
];

/// Length, words after the end, words unread, blocks too many or too few.
pub fn damage_frame(rng: &mut Rng, words: &Words) -> Vec<u8> {
    let mut out = words.words.clone();
    let n = out.len();
    match rng.below(7) {
        0 => out[1] = rng.pick(&[0, 1, 2, u32::MAX, n as u32 + 127, n as u32 + 1]),
        1 => out[1] -= 1,
        2 => {
            out.push(rng.pick(&[0, 1]));
            out[1] += 1;
        }
        3 => out.push(1),
        4 => out.truncate(rng.below(n)),
        5 => {
            // Words that are left out, the length made to fit.
            let at = rng.within(2, n - 1);
            out.remove(at);
            out[1] -= 1;
        }
        _ => {
            let mut bytes = [write_blocks(&out), vec![0; BLOCK]].concat();
            refit(&mut bytes);
            return bytes;
        }
    }
    write_blocks(&out)
}

/// Bytes changed, cut or moved, the check words left as they were.
pub fn damage_bytes(rng: &mut Rng, mut bytes: Vec<u8>) -> Vec<u8> {
    let n = bytes.len();
    match rng.below(9) {
        0 => bytes.truncate(rng.below(n)),
        1 => bytes.push(0),
        2 => bytes.clear(),
        3 => bytes.truncate((n / BLOCK - 1) * BLOCK),
        4 => {
            // A congruent check word.
            let at = rng.below(n / BLOCK) * BLOCK + 508;
            let check = u32::from_le_bytes(bytes[at..at + 4].try_into().expect("four bytes"));
            bytes[at..at + 4].copy_from_slice(&(check + 65521).to_le_bytes());
        }
        5 if n > BLOCK => bytes.rotate_left(BLOCK),
        6 => {
            let at = rng.below(n / BLOCK) * BLOCK;
            bytes[at..at + BLOCK].fill(0);
        }
        7 => bytes.iter_mut().for_each(|b| *b = rng.index(256) as u8),
        _ => bytes[rng.below(n)] ^= 1 << rng.below(8),
    }
    bytes
}

/// Any word changed to anything, the check words made to fit: often another rule is broken, or none.
pub fn change_word(rng: &mut Rng, words: &Words) -> Vec<u8> {
    let mut out = words.words.clone();
    let at = rng.within(2, out.len() - 1);
    let near = [
        out[at].wrapping_add(1),
        out[at].wrapping_sub(1),
        out[at] ^ 1,
    ];
    out[at] = match rng.below(3) {
        0 => rng.pick(&near),
        1 => rng.index(20),
        _ => rng.word() >> rng.below(32),
    };
    write_blocks(&out)
}
