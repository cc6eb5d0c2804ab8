//! A linked table read back from its words, section by section.

use crate::table::FIRST_WORD;

/// What a table holds, as far as the comparisons need it.
#[derive(Clone, Debug, PartialEq, Eq)]
pub struct Linked {
    /// Each function's catch table.
    pub catch_tables: Vec<Option<Vec<u32>>>,
    pub functions: Vec<Vec<u32>>,
    pub types: Vec<Vec<u32>>,
    pub imports: Vec<(u32, u32)>,
    pub hooks: Vec<u32>,
    pub canonical: Vec<u32>,
    pub global_types: Vec<u32>,
    pub reference_globals: Vec<u32>,
    /// Of each type pre, post and the chain length.
    pub spans: Vec<[u32; 3]>,
}

struct Section<'t> {
    table: &'t [u32],
    next: usize,
}

impl<'t> Section<'t> {
    fn word(&mut self) -> Option<u32> {
        let word = *self.table.get(self.next)?;
        self.next += 1;
        Some(word)
    }

    fn skip(&mut self, words: usize) -> Option<&'t [u32]> {
        let part = self.table.get(self.next..self.next + words)?;
        self.next += words;
        Some(part)
    }

    /// A count and members of so many words.
    fn list(&mut self, words: usize) -> Option<Vec<u32>> {
        let count = self.word()? as usize;
        Some(self.skip(count.checked_mul(words)?)?.to_vec())
    }

    fn pairs(&mut self) -> Option<Vec<(u32, u32)>> {
        let words = self.list(2)?;
        Some(words.chunks(2).map(|pair| (pair[0], pair[1])).collect())
    }

    fn spans(&mut self) -> Option<Vec<[u32; 3]>> {
        Some(self.list(3)?.as_chunks().0.to_vec())
    }

    /// A function's record and its catch table.
    fn function(&mut self) -> Option<(Vec<u32>, Option<Vec<u32>>)> {
        let start = self.next;
        self.skip(3)?;
        self.list(1)?;
        self.word()?;
        for _ in 0..4 {
            self.list(1)?;
        }
        let catch = match self.word()? {
            0 => None,
            _ => Some(self.list(1)?),
        };
        Some((self.table[start..self.next].to_vec(), catch))
    }

    fn type_record(&mut self) -> Option<Vec<u32>> {
        let start = self.next;
        match self.word()? {
            0 | 6 => {}
            1 => {
                self.word()?;
                self.list(1)?;
                self.list(1)?;
                self.list(2)?;
                self.list(2)?;
            }
            2 | 4 => drop(self.word()?),
            _ => drop(self.skip(2)?),
        }
        Some(self.table[start..self.next].to_vec())
    }
}

impl Linked {
    /// Reads a table that fills its words exactly, each section starting where the last one ended.
    pub fn read(table: &[u32]) -> Option<Linked> {
        if *table.first()? != FIRST_WORD || *table.get(1)? as usize != table.len() {
            return None;
        }
        let mut s = Section { table, next: 10 };
        let begin = |s: &Section, section: usize| {
            (*table.get(2 + section)? as usize == s.next).then_some(())
        };
        begin(&s, 0)?;
        let mut functions = Vec::new();
        let mut catch_tables = Vec::new();
        for _ in 0..s.word()? {
            let (record, catch) = s.function()?;
            functions.push(record);
            catch_tables.push(catch);
        }
        begin(&s, 1)?;
        let mut types = Vec::new();
        for _ in 0..s.word()? {
            types.push(s.type_record()?);
        }
        begin(&s, 2)?;
        let imports = s.pairs()?;
        begin(&s, 3)?;
        let hooks = s.list(1)?;
        begin(&s, 4)?;
        let canonical = s.list(1)?;
        begin(&s, 5)?;
        let global_types = s.list(1)?;
        begin(&s, 6)?;
        let reference_globals = s.list(1)?;
        begin(&s, 7)?;
        let spans = s.spans()?;
        (s.next == table.len()).then_some(Linked {
            catch_tables,
            functions,
            types,
            imports,
            hooks,
            canonical,
            global_types,
            reference_globals,
            spans,
        })
    }
}
