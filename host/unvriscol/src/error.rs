use std::fmt;

/// What a call answers instead of a result: the numbers of docs/FORMATS.md, "Answer numbers", but 0.
#[derive(Clone, Copy, Debug, PartialEq, Eq, Hash)]
#[repr(u64)]
pub enum Error {
    /// The store's length or header is not a store's.
    NoStore = 1,
    /// The memory's geometry or the slot count is outside the bounds, or the memory is not the store's. C callers get it also for a reading that is none.
    Geometry = 2,
    /// An address, or a byte of a write, is outside memory.
    OutsideMemory = 3,
    /// No block forms there, or the word or halfword has no op.
    NothingThere = 4,
    /// The block record is not well formed for the address.
    IllFormed = 5,
    /// The lent record has another length than a record's.
    RecordLength = 6,
    /// The ALU kind is unknown, or one of multiply and divide.
    NoKind = 7,
    /// The write's size is not 1, 2, 4 or 8.
    WriteSize = 8,
    /// The lookup finds nothing.
    Miss = 9,
}

impl Error {
    const ALL: [Self; 9] = [
        Self::NoStore,
        Self::Geometry,
        Self::OutsideMemory,
        Self::NothingThere,
        Self::IllFormed,
        Self::RecordLength,
        Self::NoKind,
        Self::WriteSize,
        Self::Miss,
    ];

    /// The number that the C functions answer.
    pub fn number(self) -> u64 {
        self as u64
    }

    /// What a call's number says.
    #[inline]
    pub(crate) fn check(number: u64) -> Result<(), Self> {
        match number {
            0 => Ok(()),
            // Every number that a call gives is proved to be one of these.
            _ => Err(Self::ALL[number as usize - 1]),
        }
    }
}

impl fmt::Display for Error {
    fn fmt(&self, f: &mut fmt::Formatter<'_>) -> fmt::Result {
        f.write_str(match self {
            Self::NoStore => "the store's length or header is not a store's",
            Self::Geometry => {
                "the memory or the slot count is outside the bounds, or the memory is not the store's"
            }
            Self::OutsideMemory => "an address, or a byte of a write, is outside memory",
            Self::NothingThere => "no block forms there, or the word or halfword has no op",
            Self::IllFormed => "the block record is not well formed for the address",
            Self::RecordLength => "the lent record has another length than a record's",
            Self::NoKind => "the ALU kind is unknown, or one of multiply and divide",
            Self::WriteSize => "the write's size is not 1, 2, 4 or 8",
            Self::Miss => "the lookup finds nothing",
        })
    }
}

impl std::error::Error for Error {}

#[cfg(test)]
mod tests {
    use super::*;

    #[test]
    fn numbers_are_positions() {
        assert_eq!(Error::check(0), Ok(()));
        for (at, error) in Error::ALL.into_iter().enumerate() {
            assert_eq!(error.number(), at as u64 + 1);
            assert_eq!(Error::check(error.number()), Err(error));
        }
    }
}
