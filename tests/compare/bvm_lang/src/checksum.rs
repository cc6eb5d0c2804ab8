//! program.rs is compared with its recorded checksum (`sha256sum src/program.rs` gives the same).

const PROGRAM_RS: &str = "50e2067b649b15881b5bf4d5803c678eabba525c7392052bfeed71524367db4d";

#[test]
fn program_rs_is_unchanged() {
    assert_eq!(hex(&sha256(include_bytes!("program.rs"))), PROGRAM_RS);
}

#[test]
fn sha256_gives_the_published_example() {
    let abc = "ba7816bf8f01cfea414140de5dae2223b00361a396177a9cb410ff61f20015ad";
    assert_eq!(hex(&sha256(b"abc")), abc);
}

fn hex(words: &[u32; 8]) -> String {
    words.iter().map(|w| format!("{w:08x}")).collect()
}

/// The first 64 primes.
fn primes() -> Vec<u64> {
    let prime = |n: &u64| (2..*n).all(|d| !n.is_multiple_of(d));
    (2..).filter(prime).take(64).collect()
}

/// The first 32 bits after the point of a prime's square (2) or cube (3) root.
fn root_bits(prime: u64, power: u32) -> u32 {
    // The largest r with r^power <= prime * 2^(32 * power), bit by bit.
    let limit = u128::from(prime) << (32 * power);
    let mut root = 0u128;
    for bit in (0..40).rev() {
        let next = root | 1 << bit;
        if next.pow(power) <= limit {
            root = next;
        }
    }
    root as u32
}

/// SHA-256 by FIPS 180-4.
fn sha256(message: &[u8]) -> [u32; 8] {
    let primes = primes();
    let rounds: Vec<u32> = primes.iter().map(|&p| root_bits(p, 3)).collect();
    let mut hash: [u32; 8] = core::array::from_fn(|i| root_bits(primes[i], 2));
    let mut padded = message.to_vec();
    padded.push(0x80);
    while padded.len() % 64 != 56 {
        padded.push(0);
    }
    padded.extend((message.len() as u64 * 8).to_be_bytes());
    for block in padded.chunks(64) {
        compress(&mut hash, block, &rounds);
    }
    hash
}

fn compress(hash: &mut [u32; 8], block: &[u8], rounds: &[u32]) {
    let mut w: Vec<u32> = block
        .chunks(4)
        .map(|c| u32::from_be_bytes([c[0], c[1], c[2], c[3]]))
        .collect();
    for t in 16..64 {
        let (x, y) = (w[t - 15], w[t - 2]);
        let s0 = x.rotate_right(7) ^ x.rotate_right(18) ^ (x >> 3);
        let s1 = y.rotate_right(17) ^ y.rotate_right(19) ^ (y >> 10);
        let sum = w[t - 16].wrapping_add(s0).wrapping_add(w[t - 7]);
        w.push(sum.wrapping_add(s1));
    }
    let [mut a, mut b, mut c, mut d, mut e, mut f, mut g, mut h] = *hash;
    for t in 0..64 {
        let s1 = e.rotate_right(6) ^ e.rotate_right(11) ^ e.rotate_right(25);
        let choice = (e & f) ^ (!e & g);
        let sum = h.wrapping_add(s1).wrapping_add(choice);
        let t1 = sum.wrapping_add(rounds[t]).wrapping_add(w[t]);
        let s0 = a.rotate_right(2) ^ a.rotate_right(13) ^ a.rotate_right(22);
        let majority = (a & b) ^ (a & c) ^ (b & c);
        let t2 = s0.wrapping_add(majority);
        (h, g, f, e) = (g, f, e, d.wrapping_add(t1));
        (d, c, b, a) = (c, b, a, t1.wrapping_add(t2));
    }
    for (slot, v) in hash.iter_mut().zip([a, b, c, d, e, f, g, h]) {
        *slot = slot.wrapping_add(v);
    }
}
