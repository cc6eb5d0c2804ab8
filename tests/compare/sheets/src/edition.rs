//! Editions: what word 0 says, and what follows from it.

/// The edition of a sheet; a host list is of the first alone.
#[derive(Clone, Copy, Debug, Default, PartialEq, Eq)]
pub enum Edition {
    #[default]
    First = 1,
    Second = 2,
}

impl Edition {
    pub const ALL: [Edition; 2] = [Edition::First, Edition::Second];

    /// The edition with this word 0, if there is one.
    pub fn of_word(word: u32) -> Option<Edition> {
        Edition::ALL.into_iter().find(|e| e.word() == word)
    }

    pub fn word(self) -> u32 {
        self as u32
    }

    /// The most types on a chain of parents.
    pub fn most_on_chain(self) -> u32 {
        match self {
            Edition::First => 256,
            Edition::Second => 64,
        }
    }

    /// Whether an export's name must be a string, with bytes that no other export's name has.
    pub fn reads_export_names(self) -> bool {
        self == Edition::Second
    }

    /// Whether a call of an import may leave out its optional arguments.
    pub fn may_leave_out(self) -> bool {
        self == Edition::Second
    }
}
