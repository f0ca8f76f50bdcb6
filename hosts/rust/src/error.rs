//! The refusals.
use std::fmt;

/// Why a call was refused. A refused call has changed nothing.
#[derive(Clone, Copy, Debug, PartialEq, Eq)]
pub enum Error {
    /// Creation: rows or cells out of range, or an arena too short for them.
    BadSize,
    /// Every id has been drawn.
    ClockSpent,
    /// [`SLOTS`](crate::SLOTS) transactions are open.
    NoFreeSlot,
    /// The slot is [`SLOTS`](crate::SLOTS) or more.
    BadSlot,
    /// The transaction is not the one in its slot, where this id was found.
    NotOwner { found: u64 },
    /// A row, or the first such candidate, is not one of the store's.
    BadRow { row: u64 },
    /// Another open transaction has written the row.
    RowLocked { row: u64 },
    /// The row was changed since the transaction began.
    WriteConflict { row: u64 },
    /// A version that the transaction has read was replaced: the first such row.
    ReadConflict { row: u64 },
    /// No version seen among the first [`WALK`](crate::WALK) of the row, and there are more.
    ChainTooLong { row: u64 },
    /// No cell is free.
    NoRoom,
    /// A row more than [`MOST_WRITES`](crate::MOST_WRITES).
    WriteSetFull,
    /// A version more than [`MOST_READS`](crate::MOST_READS), of this row.
    ReadSetFull { row: u64 },
    /// The list is longer than its buffer.
    ResultFull,
    /// The arenas are too short for the sizes saved in them, or hold what no call stored.
    Damaged,
}

impl Error {
    /// The refusal with this number, about this row or id; `None` where no refusal has the number.
    pub fn new(number: u64, about: u64) -> Option<Error> {
        Some(match number {
            1 => Error::BadSize,
            2 => Error::ClockSpent,
            3 => Error::NoFreeSlot,
            4 => Error::BadSlot,
            5 => Error::NotOwner { found: about },
            6 => Error::BadRow { row: about },
            7 => Error::RowLocked { row: about },
            8 => Error::WriteConflict { row: about },
            9 => Error::ReadConflict { row: about },
            10 => Error::ChainTooLong { row: about },
            11 => Error::NoRoom,
            12 => Error::WriteSetFull,
            13 => Error::ReadSetFull { row: about },
            14 => Error::ResultFull,
            15 => Error::Damaged,
            _ => return None,
        })
    }

    /// The library's number of the refusal, 1 to 15.
    pub fn number(self) -> u64 {
        match self {
            Error::BadSize => 1,
            Error::ClockSpent => 2,
            Error::NoFreeSlot => 3,
            Error::BadSlot => 4,
            Error::NotOwner { .. } => 5,
            Error::BadRow { .. } => 6,
            Error::RowLocked { .. } => 7,
            Error::WriteConflict { .. } => 8,
            Error::ReadConflict { .. } => 9,
            Error::ChainTooLong { .. } => 10,
            Error::NoRoom => 11,
            Error::WriteSetFull => 12,
            Error::ReadSetFull { .. } => 13,
            Error::ResultFull => 14,
            Error::Damaged => 15,
        }
    }

    /// The row or the id that the refusal is about; `None` where it is about neither.
    pub fn about(self) -> Option<u64> {
        match self {
            Error::NotOwner { found } => Some(found),
            Error::BadRow { row }
            | Error::RowLocked { row }
            | Error::WriteConflict { row }
            | Error::ReadConflict { row }
            | Error::ChainTooLong { row }
            | Error::ReadSetFull { row } => Some(row),
            _ => None,
        }
    }

    /// The refusal in a few words.
    pub fn name(self) -> &'static str {
        match self {
            Error::BadSize => "bad size",
            Error::ClockSpent => "clock spent",
            Error::NoFreeSlot => "no free slot",
            Error::BadSlot => "bad slot",
            Error::NotOwner { .. } => "not owner",
            Error::BadRow { .. } => "bad row",
            Error::RowLocked { .. } => "row locked",
            Error::WriteConflict { .. } => "write conflict",
            Error::ReadConflict { .. } => "read conflict",
            Error::ChainTooLong { .. } => "chain too long",
            Error::NoRoom => "no room",
            Error::WriteSetFull => "write set full",
            Error::ReadSetFull { .. } => "read set full",
            Error::ResultFull => "result full",
            Error::Damaged => "damaged",
        }
    }
}

impl fmt::Display for Error {
    fn fmt(&self, f: &mut fmt::Formatter<'_>) -> fmt::Result {
        write!(f, "refused, {} {}", self.number(), self.name())?;
        match self.about() {
            Some(about) => write!(f, ": {about}"),
            None => Ok(()),
        }
    }
}

impl std::error::Error for Error {}

/// What a call's number and its `about` come to.
pub(crate) fn accepted(number: u64, about: u64) -> Result<(), Error> {
    match number {
        0 => Ok(()),
        _ => Err(Error::new(number, about).expect("the library's numbers are 0 to 15")),
    }
}
