//! Blocks of 512 bytes: 127 little-endian words, then a check word.

/// Bytes of a block.
pub const BLOCK: usize = 512;
/// Words of a block without its check word.
pub const WORDS: usize = 127;
/// The most blocks of a sheet or host list.
pub const MOST_BLOCKS: usize = 4096;

const DATA: usize = 4 * WORDS;

/// The check word of the block with this number; bytes count from 1.
pub fn check_word(number: usize, block: &[u8]) -> u32 {
    let weighed = (1u32..).zip(&block[..DATA]).map(|(i, &b)| i * u32::from(b));
    (number as u32 + weighed.sum::<u32>()) % 65521
}

fn word(bytes: &[u8]) -> u32 {
    u32::from_le_bytes([bytes[0], bytes[1], bytes[2], bytes[3]])
}

/// All data words, if the bytes are whole blocks with right check words.
pub fn read_blocks(bytes: &[u8]) -> Option<Vec<u32>> {
    if bytes.is_empty() || !bytes.len().is_multiple_of(BLOCK) || bytes.len() > MOST_BLOCKS * BLOCK {
        return None;
    }
    let mut words = Vec::new();
    for (number, block) in bytes.chunks(BLOCK).enumerate() {
        // Equal as a whole word: a congruent one does not do.
        if word(&block[DATA..]) != check_word(number, block) {
            return None;
        }
        words.extend(block[..DATA].chunks(4).map(word));
    }
    Some(words)
}

/// The blocks of these words, the last one filled with zeros.
pub fn write_blocks(words: &[u32]) -> Vec<u8> {
    let blocks = words.len().div_ceil(WORDS).max(1);
    let mut bytes = vec![0; blocks * BLOCK];
    for (i, w) in words.iter().enumerate() {
        let at = i / WORDS * BLOCK + i % WORDS * 4;
        bytes[at..at + 4].copy_from_slice(&w.to_le_bytes());
    }
    refit(&mut bytes);
    bytes
}

/// The bytes with another edition word, the check words made to fit.
pub fn with_edition(bytes: &[u8], word: u32) -> Vec<u8> {
    let mut bytes = bytes.to_vec();
    bytes[..4].copy_from_slice(&word.to_le_bytes());
    refit(&mut bytes);
    bytes
}

/// Makes the check words of all whole blocks fit.
pub fn refit(bytes: &mut [u8]) {
    for (number, block) in bytes.chunks_exact_mut(BLOCK).enumerate() {
        let check = check_word(number, block);
        block[DATA..].copy_from_slice(&check.to_le_bytes());
    }
}
