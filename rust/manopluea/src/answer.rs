//! What a call answers.

/// How many numbers a row has: face, right limit, left limit, and 0 where its
/// line is in reach, 1 where it is not.
pub const ROW: usize = 4;

/// How many numbers a row has in a drawing: x and y of its right limit less the
/// stand, then of its left limit.
pub const DRAWN: usize = 4;

/// How many numbers a reply has: the header's MANOPLUEA_REPLY.
pub const REPLY: usize = 7;

/// A text of so many bytes has room for everything that is printed: the
/// header's MANOPLUEA_TEXT.
pub const MOST_TEXT: usize = 49_216;

/// How many corners, cells and doors an accepted plan has.
#[derive(Clone, Copy, Debug, PartialEq, Eq)]
pub struct Counts {
    /// How many corners.
    pub corners: usize,
    /// How many cells.
    pub cells: usize,
    /// How many doors.
    pub doors: usize,
}

/// What was read: how many of each, the kind that the cells are in,
/// and how many numbers their list has.
#[derive(Clone, Copy, Debug, PartialEq, Eq)]
pub struct Read {
    /// How many corners, cells and doors.
    pub counts: Counts,
    /// `TRIANGLES` or `POLYGONS`.
    pub kind: u16,
    /// How many numbers the list of cells has.
    pub numbers: usize,
}

/// How many rows stand in the table, or are drawn, and how many free lines were crossed.
#[derive(Clone, Copy, Debug, PartialEq, Eq)]
pub struct Listed {
    /// How many rows.
    pub rows: usize,
    /// How often a free line was crossed.
    pub crossings: u64,
}

/// Where a stand is: strictly inside a cell, or strictly within a side of it that
/// is free.
#[derive(Clone, Copy, Debug, PartialEq, Eq)]
pub enum Footing {
    /// Strictly inside the cell of this number.
    Inside {
        /// The cell.
        cell: usize,
    },
    /// Strictly within a free side.
    Side {
        /// The cell.
        cell: usize,
        /// Which of its sides.
        side: usize,
    },
}
