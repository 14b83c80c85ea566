use std::fmt;

/// Every answer but "done". A call that gives one has changed no lent space.
#[derive(Clone, Copy, Debug, PartialEq, Eq, Hash)]
pub enum Error {
    /// 1: the low end of the range is above the high end.
    LowAboveHigh,
    /// 2: the column has more than [`ROWS_AT_MOST`](crate::ROWS_AT_MOST) rows, or the list more than [`LINES_AT_MOST`](crate::LINES_AT_MOST) lines.
    ColumnTooLong,
    /// 3: the words are not a packed form for so many lines; of `pack`: a word that no line could have; of a step: a bad position;
    /// of `append`: also a told length beyond its space.
    NotAnIndex,
    /// 4: a lent space is shorter than the answer needs. The first short one in the order borders, imprints, dictionary counts.
    SpaceShort {
        /// The length that this space needs.
        needed: usize,
    },
    /// 5: over [`BORDERS_AT_MOST`](crate::BORDERS_AT_MOST) borders, or borders that are not strictly rising.
    BadBorders,
    /// 6: levels outside 1 to [`LEVELS_AT_MOST`](crate::LEVELS_AT_MOST).
    BadLevels,
    /// 7: a key above 2^levels - 1.
    NoKey,
    /// 8: the words are not the layout of a smallest tree, with levels and room that a fresh filter would take.
    NotAFilter,
    /// 9: learning would need more splits than the filter has room for.
    NoRoom,
    /// 10: the tree is a single leaf: there is nothing to forget.
    NothingToForget,
    /// 11: room above [`ROOM_AT_MOST`](crate::ROOM_AT_MOST), or above 2^levels - 1, which is all that a tree of so many levels can use.
    RoomTooLarge,
    /// 13: a minute is negative, or a [fault](crate::FAULT).
    NegativeMinute {
        /// The first such row.
        row: usize,
    },
    /// 14: a block of the card is of another edition.
    OtherEdition {
        /// The block due.
        block: usize,
    },
    /// 15: a damaged, missing, extra or misplaced block of the card.
    BadBlock {
        /// The block due.
        block: usize,
    },
    /// 17: the index is said to cover more rows than the column has.
    CoveredAboveRows,
}

impl Error {
    /// The number that stands for it at the boundary.
    ///
    /// ```
    /// assert_eq!(miguzoryane::Error::SpaceShort { needed: 40 }.number(), 4);
    /// ```
    pub fn number(self) -> u32 {
        match self {
            Error::LowAboveHigh => 1,
            Error::ColumnTooLong => 2,
            Error::NotAnIndex => 3,
            Error::SpaceShort { .. } => 4,
            Error::BadBorders => 5,
            Error::BadLevels => 6,
            Error::NoKey => 7,
            Error::NotAFilter => 8,
            Error::NoRoom => 9,
            Error::NothingToForget => 10,
            Error::RoomTooLarge => 11,
            Error::NegativeMinute { .. } => 13,
            Error::OtherEdition { .. } => 14,
            Error::BadBlock { .. } => 15,
            Error::CoveredAboveRows => 17,
        }
    }

    /// The answer of a call: nothing for 0, else what the number stands for. Beside 4 stands the length needed, beside 13 the row,
    /// beside 14 and 15 the block due.
    pub(crate) fn check(number: u32, beside: u64) -> Result<(), Error> {
        Err(match number {
            0 => return Ok(()),
            1 => Error::LowAboveHigh,
            2 => Error::ColumnTooLong,
            3 => Error::NotAnIndex,
            4 => Error::SpaceShort { needed: beside as usize },
            5 => Error::BadBorders,
            6 => Error::BadLevels,
            7 => Error::NoKey,
            8 => Error::NotAFilter,
            9 => Error::NoRoom,
            10 => Error::NothingToForget,
            11 => Error::RoomTooLarge,
            13 => Error::NegativeMinute { row: beside as usize },
            14 => Error::OtherEdition { block: beside as usize },
            15 => Error::BadBlock { block: beside as usize },
            17 => Error::CoveredAboveRows,
            other => unreachable!("no call answers {other}"),
        })
    }
}

impl fmt::Display for Error {
    fn fmt(&self, f: &mut fmt::Formatter<'_>) -> fmt::Result {
        match self {
            Error::LowAboveHigh => write!(f, "the low end is above the high end"),
            Error::ColumnTooLong => write!(f, "the column has too many rows"),
            Error::NotAnIndex => write!(f, "the words are no index of a column of this length"),
            Error::SpaceShort { needed } => write!(f, "a lent space is too short: {needed} elements are needed"),
            Error::BadBorders => write!(f, "the borders are too many or not strictly rising"),
            Error::BadLevels => write!(f, "the levels are outside 1 to 20"),
            Error::NoKey => write!(f, "a key is above the filter's greatest"),
            Error::NotAFilter => write!(f, "the words are no filter"),
            Error::NoRoom => write!(f, "learning needs more splits than the filter has room for"),
            Error::NothingToForget => write!(f, "there is nothing to forget"),
            Error::RoomTooLarge => {
                write!(f, "the room is above 4,095, or above 2^levels - 1, which is all that a tree of so many levels can use")
            }
            Error::NegativeMinute { row } => write!(f, "the minute in row {row} is negative"),
            Error::OtherEdition { block } => write!(f, "the card's block {block} is of another edition"),
            Error::BadBlock { block } => write!(f, "the card's block {block} is damaged, missing, extra or out of place"),
            Error::CoveredAboveRows => write!(f, "the index covers more rows than the column has"),
        }
    }
}

impl std::error::Error for Error {}
