//! "Side value and plan check" for cells of 3 to 8 corners: the limits, the
//! cells of a list, and the check, which turns the lists into a floor.

use super::memory::remembered;
use super::overlap::least_overlapping;
use crate::calls::{Lists, Refusal, POLYGONS, TRIANGLES, WALL};
use std::borrow::Cow;
use std::ops::{Range, RangeInclusive};
use std::rc::Rc;

pub const CORNERS: RangeInclusive<usize> = 3..=2_048;
pub const CELLS: RangeInclusive<usize> = 1..=3_000;
pub const DOORS: RangeInclusive<usize> = 0..=64;
pub const COORDINATES: RangeInclusive<i64> = -(1 << 29)..=1 << 29;

/// How many corners a cell has, and so how many sides.
pub const SIDES: RangeInclusive<usize> = 3..=8;

/// A point of the floor in whole millimetres.
#[derive(Clone, Copy, Debug, PartialEq, Eq, PartialOrd, Ord)]
pub struct Point {
    pub x: i64,
    pub y: i64,
}

/// The side value of a, b, c: positive when c is left of a→b.
pub fn side_value(a: Point, b: Point, c: Point) -> i128 {
    product(b.x - a.x, c.y - a.y) - product(b.y - a.y, c.x - a.x)
}

pub fn product(a: i64, b: i64) -> i128 {
    i128::from(a) * i128::from(b)
}

/// A cell of a list: as many neighbours as corners.
#[derive(Clone, Debug, PartialEq, Eq)]
pub struct Cell<'a> {
    pub corners: Cow<'a, [u16]>,
    /// Neighbour s lies across the side from corner s to the one after it.
    pub neighbours: Cow<'a, [u16]>,
}

impl Cell<'_> {
    /// The two corners of a side, in the order of the cell.
    pub fn ends(&self, side: usize) -> [u16; 2] {
        let count = self.corners.len();
        [self.corners[side], self.corners[(side + 1) % count]]
    }

    /// The side with these ends, in this order.
    fn side_between(&self, ends: [u16; 2]) -> Option<usize> {
        (0..self.corners.len()).find(|&side| self.ends(side) == ends)
    }

    /// Its numbers in a list of a kind.
    pub fn numbers(&self, kind: u16) -> Vec<u16> {
        let count = (kind == POLYGONS).then_some(self.corners.len() as u16);
        let numbers = self.corners.iter().chain(self.neighbours.iter()).copied();
        count.into_iter().chain(numbers).collect()
    }
}

/// The whole cells that a list of a kind begins with, and what is left of it.
/// A list of no kind that there is begins with none.
pub fn cut_cells(kind: u16, list: &[u16]) -> (Vec<Cell<'_>>, &[u16]) {
    let mut cells = Vec::new();
    let mut rest = list;
    while let Some((cell, after)) = first_cell(kind, rest) {
        cells.push(cell);
        rest = after;
    }
    (cells, rest)
}

fn first_cell(kind: u16, list: &[u16]) -> Option<(Cell<'_>, &[u16])> {
    let (count, numbers) = match kind {
        TRIANGLES => (3, list),
        POLYGONS => {
            let (&count, numbers) = list.split_first()?;
            (usize::from(count), numbers)
        }
        _ => return None,
    };
    if !SIDES.contains(&count) {
        return None;
    }
    let (corners, rest) = numbers.split_at_checked(count)?;
    let (neighbours, rest) = rest.split_at_checked(count)?;
    let cell = Cell {
        corners: corners.into(),
        neighbours: neighbours.into(),
    };
    Some((cell, rest))
}

/// The cells of a whole list, which has to be of one of the two kinds.
pub fn whole_cells(kind: u16, list: &[u16]) -> Result<Vec<Cell<'_>>, Refusal> {
    match cut_cells(kind, list) {
        (cells, []) if [TRIANGLES, POLYGONS].contains(&kind) => Ok(cells),
        _ => Err(Refusal::Frame),
    }
}

/// A plan that passed the check.
pub struct Floor {
    corners: Vec<Point>,
    /// The faces of each cell.
    cells: Vec<Range<u16>>,
    /// Of each face the corners where its side begins and ends.
    ends: Vec<[u16; 2]>,
    /// Of each face its cell's number.
    owners: Vec<u16>,
    /// The face on the other side of each line, or wall.
    across: Vec<u16>,
    doors: Vec<u16>,
}

impl Floor {
    /// The plan check, whose last answers are remembered.
    pub fn check(lists: Lists<'_>) -> Result<Rc<Floor>, Refusal> {
        remembered(lists, Floor::check_anew)
    }

    /// The plan check: last of all, no two cells overlap.
    pub fn check_anew(lists: Lists<'_>) -> Result<Floor, Refusal> {
        let floor = Floor::agreeing(lists)?;
        match least_overlapping(&floor) {
            Some(cell) => Err(Refusal::Overlap(cell)),
            None => Ok(floor),
        }
    }

    /// The check up to the doors, in the order of the numbers: cells that agree along
    /// their lines, and yet may lie on top of each other.
    pub fn agreeing(lists: Lists<'_>) -> Result<Floor, Refusal> {
        let cells = check_frame(lists)?;
        check_sizes(lists, &cells)?;
        let corners = check_corners(lists.corners)?;
        check_cells(&cells, &corners)?;
        let faces = number_faces(&cells);
        let across = check_neighbours(&cells, &faces)?;
        check_doors(lists.doors, &across)?;
        let sides = |cell: &Cell<'_>| 0..cell.corners.len();
        Ok(Floor {
            corners,
            ends: cells
                .iter()
                .flat_map(|cell| sides(cell).map(|side| cell.ends(side)))
                .collect(),
            owners: cells
                .iter()
                .zip(0..)
                .flat_map(|(cell, number)| sides(cell).map(move |_| number))
                .collect(),
            cells: faces,
            across,
            doors: lists.doors.to_vec(),
        })
    }

    pub fn corners(&self) -> &[Point] {
        &self.corners
    }

    pub fn doors(&self) -> &[u16] {
        &self.doors
    }

    pub fn cell_count(&self) -> usize {
        self.cells.len()
    }

    pub fn corner(&self, number: u16) -> Point {
        self.corners[usize::from(number)]
    }

    /// The faces of a cell.
    pub fn faces(&self, cell: usize) -> Range<u16> {
        self.cells[cell].clone()
    }

    /// The number of the cell that a face belongs to.
    pub fn cell_with(&self, face: u16) -> usize {
        self.owners[usize::from(face)].into()
    }

    /// The corners where the face's side begins and ends. From a spot that has
    /// the side on its left they are its right and its left end.
    pub fn ends(&self, face: u16) -> [u16; 2] {
        self.ends[usize::from(face)]
    }

    /// The other faces of a face's cell, counter-clockwise from where its side
    /// ends, which is the right end for one who enters through it.
    pub fn others(&self, face: u16) -> impl DoubleEndedIterator<Item = u16> {
        let all = self.faces(self.cell_with(face));
        (face + 1..all.end).chain(all.start..face)
    }

    /// Both faces of a door.
    pub fn door_faces(&self, door: usize) -> [u16; 2] {
        let face = self.doors[door];
        [face, self.across[usize::from(face)]]
    }

    /// The opposite faces under a setting: both faces of a shut door are wall.
    pub fn across_under(&self, setting: u64) -> Result<Vec<u16>, Refusal> {
        let count = self.doors.len() as u32;
        if setting.checked_shr(count).unwrap_or(0) != 0 {
            return Err(Refusal::Setting);
        }
        let mut across = self.across.clone();
        for door in 0..self.doors.len() {
            if setting >> door & 1 == 1 {
                for face in self.door_faces(door) {
                    across[usize::from(face)] = WALL;
                }
            }
        }
        Ok(across)
    }
}

/// Gives back the cells of the list.
fn check_frame(lists: Lists<'_>) -> Result<Vec<Cell<'_>>, Refusal> {
    if !lists.corners.len().is_multiple_of(2) {
        return Err(Refusal::Frame);
    }
    whole_cells(lists.kind, lists.cells)
}

fn check_sizes(lists: Lists<'_>, cells: &[Cell<'_>]) -> Result<(), Refusal> {
    if !CORNERS.contains(&(lists.corners.len() / 2))
        || !CELLS.contains(&cells.len())
        || !DOORS.contains(&lists.doors.len())
    {
        return Err(Refusal::Size);
    }
    Ok(())
}

fn check_corners(list: &[i32]) -> Result<Vec<Point>, Refusal> {
    if let Some(at) = list
        .iter()
        .position(|&number| !COORDINATES.contains(&i64::from(number)))
    {
        return Err(Refusal::Corner(at / 2));
    }
    Ok(list
        .chunks_exact(2)
        .map(|pair| Point {
            x: i64::from(pair[0]),
            y: i64::from(pair[1]),
        })
        .collect())
}

fn check_cells(cells: &[Cell<'_>], corners: &[Point]) -> Result<(), Refusal> {
    match cells.iter().position(|cell| !is_right(cell, corners)) {
        Some(cell) => Err(Refusal::Cell(cell)),
        None => Ok(()),
    }
}

/// Whether the corners of a cell exist and differ, and every one but a side's
/// own two is strictly left of that side.
fn is_right(cell: &Cell<'_>, corners: &[Point]) -> bool {
    let numbers = &cell.corners;
    let exists = |&number: &u16| usize::from(number) < corners.len();
    if !numbers.iter().all(exists) {
        return false;
    }
    if (1..numbers.len()).any(|at| numbers[..at].contains(&numbers[at])) {
        return false;
    }
    let point = |number: u16| corners[usize::from(number)];
    (0..numbers.len()).all(|side| {
        let ends = cell.ends(side);
        let [a, b] = ends.map(point);
        let mut others = numbers.iter().filter(|number| !ends.contains(number));
        others.all(|&other| side_value(a, b, point(other)) > 0)
    })
}

/// Faces in the order of the list, those of a cell one after another.
fn number_faces(cells: &[Cell<'_>]) -> Vec<Range<u16>> {
    let mut next = 0;
    cells
        .iter()
        .map(|cell| {
            let first = next;
            next += cell.corners.len() as u16;
            first..next
        })
        .collect()
}

/// Gives back the face on the other side of each line.
fn check_neighbours(cells: &[Cell<'_>], faces: &[Range<u16>]) -> Result<Vec<u16>, Refusal> {
    let mut across = Vec::new();
    for (cell, number) in cells.iter().zip(0..) {
        for (side, &neighbour) in cell.neighbours.iter().enumerate() {
            let opposite = match neighbour {
                WALL => Some(WALL),
                _ => cells
                    .get(usize::from(neighbour))
                    .and_then(|other| answering_side(other, cell.ends(side), number))
                    .map(|other| faces[usize::from(neighbour)].start + other as u16),
            };
            across.push(opposite.ok_or(Refusal::Neighbour(across.len()))?);
        }
    }
    Ok(across)
}

/// The side of a neighbour with the same two corners reversed, where its own
/// neighbour there is the cell with this number.
fn answering_side(neighbour: &Cell<'_>, [a, b]: [u16; 2], number: u16) -> Option<usize> {
    let side = neighbour.side_between([b, a])?;
    (neighbour.neighbours[side] == number).then_some(side)
}

fn check_doors(doors: &[u16], across: &[u16]) -> Result<(), Refusal> {
    // A line is its pair of faces, not its pair of corners: on a ramp two
    // lines can have the same corners.
    let mut taken = vec![false; across.len()];
    for (door, &face) in doors.iter().enumerate() {
        match across.get(usize::from(face)) {
            Some(&opposite) if opposite != WALL && !taken[usize::from(face)] => {
                taken[usize::from(face)] = true;
                taken[usize::from(opposite)] = true;
            }
            _ => return Err(Refusal::Door(door)),
        }
    }
    Ok(())
}
