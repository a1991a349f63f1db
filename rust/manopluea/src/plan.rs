//! Plans, as lists of numbers.

/// The kind of a list of cells with three corners each, and of its record: six
/// numbers a cell, three corners, then three neighbours.
pub const TRIANGLES: u16 = 2;

/// The kind of a list of cells with 3 to 8 corners each, and of its record: the
/// count of a cell's corners, then its corners, then its neighbours.
pub const POLYGONS: u16 = 12;

/// The neighbour that means wall.
pub const WALL: u16 = u16::MAX;

/// A plan as its three lists of numbers, in the order and width of the file.
#[derive(Clone, Copy, Debug, PartialEq, Eq)]
pub struct Lists<'a> {
    /// Two numbers a corner: x, y, in millimetres.
    pub corners: &'a [i32],
    /// The numbers of each cell, as the kind has them.
    pub cells: &'a [u16],
    /// One number a door: a face. Faces are numbered in the order of the cells,
    /// the sides of a cell one after another.
    pub doors: &'a [u16],
    /// What the cells are in: `TRIANGLES` or `POLYGONS`. Any other number is
    /// refused.
    pub kind: u16,
}

/// A plan that owns its lists, which are those of `Lists`.
#[derive(Clone, Debug, PartialEq, Eq)]
pub struct Plan {
    /// Two numbers a corner.
    pub corners: Vec<i32>,
    /// The numbers of each cell.
    pub cells: Vec<u16>,
    /// One number a door.
    pub doors: Vec<u16>,
    /// What the cells are in.
    pub kind: u16,
}

impl Plan {
    /// The plan as the calls take it.
    pub fn lists(&self) -> Lists<'_> {
        Lists {
            corners: &self.corners,
            cells: &self.cells,
            doors: &self.doors,
            kind: self.kind,
        }
    }
}
