//! A small seeded source of numbers (splitmix64), so that every case can be made again.

/// A source of numbers.
#[derive(Clone, Debug)]
pub struct Rng(u64);

impl Rng {
    /// The source for one case of a seed.
    pub fn new(seed: u64, index: u64) -> Rng {
        let mut rng = Rng(seed ^ 0x6a09_e667_f3bc_c908);
        let mixed = rng.bits();
        Rng(mixed ^ index.wrapping_mul(0xd134_2543_de82_ef95))
    }

    pub fn bits(&mut self) -> u64 {
        self.0 = self.0.wrapping_add(0x9e37_79b9_7f4a_7c15);
        let mut z = self.0;
        z = (z ^ (z >> 30)).wrapping_mul(0xbf58_476d_1ce4_e5b9);
        z = (z ^ (z >> 27)).wrapping_mul(0x94d0_49bb_1331_11eb);
        z ^ (z >> 31)
    }

    pub fn word(&mut self) -> u32 {
        (self.bits() >> 32) as u32
    }

    /// A number below `n`, which is not 0.
    pub fn below(&mut self, n: usize) -> usize {
        (self.bits() % n as u64) as usize
    }

    /// A number below `n` as a word.
    pub fn index(&mut self, n: usize) -> u32 {
        self.below(n) as u32
    }

    /// A number from `low` to `high`, both included.
    pub fn within(&mut self, low: usize, high: usize) -> usize {
        low + self.below(high - low + 1)
    }

    /// Yes in one of `n` tries.
    pub fn one_in(&mut self, n: usize) -> bool {
        self.below(n) == 0
    }

    pub fn coin(&mut self) -> bool {
        self.one_in(2)
    }

    /// One of the members; there is at least one.
    pub fn pick<T: Clone>(&mut self, members: &[T]) -> T {
        members[self.below(members.len())].clone()
    }

    /// One of the members, if there is one.
    pub fn choose<T: Clone>(&mut self, members: &[T]) -> Option<T> {
        (!members.is_empty()).then(|| self.pick(members))
    }

    pub fn shuffle<T>(&mut self, members: &mut [T]) {
        for i in (1..members.len()).rev() {
            members.swap(i, self.below(i + 1));
        }
    }

    /// The numbers below `n` in random order.
    pub fn permutation(&mut self, n: usize) -> Vec<u32> {
        let mut numbers: Vec<u32> = (0..n as u32).collect();
        self.shuffle(&mut numbers);
        numbers
    }

    /// A number that no list of `len` members has: often the first such, or far out.
    pub fn absent(&mut self, len: usize) -> u32 {
        let len = len as u32;
        let far = 1000 + self.word() % 100_000;
        let at_most = u32::MAX - 17;
        self.pick(&[len, len, len + 1, len + far, at_most])
    }
}
