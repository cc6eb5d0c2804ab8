//! Words that are lent to a call, with others on either side, so that what it changes is seen.

/// Words on either side of a lent slice.
const MARGIN: usize = 16;

/// A slice to lend, again and again.
pub struct Lent {
    salt: u32,
    words: Vec<u32>,
    length: usize,
}

impl Lent {
    /// Words of their own, by the salt: no two slices hold the same ones.
    pub fn new(salt: u32) -> Lent {
        Lent {
            salt,
            words: Vec::new(),
            length: 0,
        }
    }

    /// The word that stands at this place before a call: another at each place.
    fn before(salt: u32, place: usize) -> u32 {
        (place as u32).wrapping_mul(0x9e37_79b9) ^ salt
    }

    /// So many words, each as it is to stand before a call.
    pub fn lend(&mut self, length: usize) -> &mut [u32] {
        self.length = length;
        let whole = length + 2 * MARGIN;
        if self.words.len() < whole {
            self.words.resize(whole, 0);
        }
        for (place, word) in self.words[..whole].iter_mut().enumerate() {
            *word = Lent::before(self.salt, place);
        }
        &mut self.words[MARGIN..MARGIN + length]
    }

    /// The lent words as they stand now.
    pub fn now(&self) -> &[u32] {
        &self.words[MARGIN..MARGIN + self.length]
    }

    /// The same, to be altered.
    pub fn now_mut(&mut self) -> &mut [u32] {
        &mut self.words[MARGIN..MARGIN + self.length]
    }

    /// The first lent word from this place on that is not as it was lent.
    pub fn changed_from(&self, from: usize) -> Option<usize> {
        let words = self.now().iter().enumerate().skip(from);
        let mut changed = words.filter(|&(k, &word)| word != Lent::before(self.salt, MARGIN + k));
        changed.next().map(|(k, _)| k)
    }

    /// Whether a word beside the lent ones was changed.
    pub fn is_overrun(&self) -> bool {
        let after = MARGIN + self.length;
        let mut beside = (0..MARGIN).chain(after..after + MARGIN);
        beside.any(|place| self.words[place] != Lent::before(self.salt, place))
    }
}
