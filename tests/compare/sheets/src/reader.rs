//! A reader of words; every list is bounded by the words that are left, never by its count alone.

/// The words of a sheet or host list and the next one to read.
pub struct Reader<'w> {
    words: &'w [u32],
    next: usize,
}

impl<'w> Reader<'w> {
    /// A reader of the words after edition and length, if the length and the words after the end hold.
    pub fn frame(words: &'w [u32], per_block: usize) -> Option<Reader<'w>> {
        let length = usize::try_from(*words.get(1)?).ok()?;
        let in_last_block = length <= words.len() && length + per_block > words.len();
        if !in_last_block || words[length..].iter().any(|&w| w != 0) {
            return None;
        }
        let words = &words[..length];
        Some(Reader { words, next: 2 })
    }

    fn left(&self) -> usize {
        self.words.len().saturating_sub(self.next)
    }

    /// Whether every word has been read.
    pub fn done(&self) -> bool {
        self.next == self.words.len()
    }

    pub fn word(&mut self) -> Option<u32> {
        let word = *self.words.get(self.next)?;
        self.next += 1;
        Some(word)
    }

    /// A word where 0 is none and any other is a number + 1.
    pub fn plus_one(&mut self) -> Option<Option<u32>> {
        Some(self.word()?.checked_sub(1))
    }

    /// A 0 or a 1.
    pub fn bit(&mut self) -> Option<bool> {
        match self.word()? {
            0 => Some(false),
            1 => Some(true),
            _ => None,
        }
    }

    /// A count and that many members.
    pub fn list<T>(&mut self, member: impl Fn(&mut Self) -> Option<T>) -> Option<Vec<T>> {
        let count = self.word()?;
        // Every member takes a word, so a larger count is broken; the list grows as it is read.
        if count as usize > self.left() {
            return None;
        }
        let mut members = Vec::new();
        for _ in 0..count {
            members.push(member(self)?);
        }
        Some(members)
    }

    pub fn words(&mut self) -> Option<Vec<u32>> {
        self.list(Self::word)
    }

    /// 0, or 1 and a list.
    pub fn optional<T>(
        &mut self,
        member: impl Fn(&mut Self) -> Option<T>,
    ) -> Option<Option<Vec<T>>> {
        match self.bit()? {
            false => Some(None),
            true => Some(Some(self.list(member)?)),
        }
    }

    /// A byte length and the bytes, zero-padded to words; UTF-8 as std tells it, which is RFC 3629's.
    pub fn string(&mut self) -> Option<Vec<u8>> {
        let length = self.word()? as usize;
        if length.div_ceil(4) > self.left() {
            return None;
        }
        let mut bytes = Vec::new();
        for _ in 0..length.div_ceil(4) {
            bytes.extend(self.word()?.to_le_bytes());
        }
        let padding = bytes.split_off(length);
        let whole = padding.iter().all(|&b| b == 0) && std::str::from_utf8(&bytes).is_ok();
        whole.then_some(bytes)
    }
}
