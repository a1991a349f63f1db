//! "The stand": from doubles to whole millimetres, and to the cell, or with
//! request A4 of document 02 to the side.

use super::plan::{side_value, Floor, Point, COORDINATES};
use crate::calls::{Refusal, Stand, WALL};

/// The stand in whole millimetres, within the coordinate limits.
pub fn millimetres(floor: &Floor, stand: Stand) -> Result<Point, Refusal> {
    let point = match stand {
        Stand::Point(x, y) => Point {
            x: whole(x)?,
            y: whole(y)?,
        },
        Stand::Offset(corner, dx, dy) => {
            let from = floor
                .corners()
                .get(usize::from(corner))
                .ok_or(Refusal::Stand)?;
            Point {
                x: from.x + whole(dx)?,
                y: from.y + whole(dy)?,
            }
        }
    };
    if COORDINATES.contains(&point.x) && COORDINATES.contains(&point.y) {
        Ok(point)
    } else {
        Err(Refusal::Stand)
    }
}

/// The same number as an integer, if it is whole and within the limits.
fn whole(number: f64) -> Result<i64, Refusal> {
    // The limits are exact as doubles. NaN is within no range.
    let (low, high) = (*COORDINATES.start() as f64, *COORDINATES.end() as f64);
    if (low..=high).contains(&number) && number.fract() == 0.0 {
        Ok(number as i64)
    } else {
        Err(Refusal::Stand)
    }
}

/// Where a stand is found.
#[derive(Clone, Copy, Debug, PartialEq, Eq)]
pub enum Place {
    /// Strictly inside the cell with this number.
    Inside(usize),
    /// Strictly within the side of this face, which is free.
    Within(u16),
}

/// The least cell that holds the point strictly inside, or else the least face
/// that is free and has it strictly within. Faces are numbered cell by cell, so
/// that is the least side of the least cell.
pub fn place_of(floor: &Floor, across: &[u16], q: Point) -> Result<Place, Refusal> {
    let is_free = |face: u16| across[usize::from(face)] != WALL;
    let mut on_border = false;
    let mut within = None;
    for cell in 0..floor.cell_count() {
        match least_side_value(floor, cell, q) {
            1.. => return Ok(Place::Inside(cell)),
            0 => {
                on_border = true;
                let mut sides = floor.faces(cell);
                within = within
                    .or_else(|| sides.find(|&face| is_free(face) && is_within(floor, face, q)));
            }
            _ => {}
        }
    }
    match within {
        Some(face) => Ok(Place::Within(face)),
        None if on_border => Err(Refusal::Line),
        None => Err(Refusal::Outside),
    }
}

/// Whether the point is strictly within a face's side: on its line, and strictly
/// between its two ends. Points of one line lie along it in the order of their
/// coordinates, x first.
pub fn is_within(floor: &Floor, face: u16, q: Point) -> bool {
    let [a, b] = floor.ends(face).map(|corner| floor.corner(corner));
    side_value(a, b, q) == 0 && a.min(b) < q && q < a.max(b)
}

/// The least of the side values of the cell's sides with the point: positive
/// strictly inside, zero on the border, negative outside.
fn least_side_value(floor: &Floor, cell: usize, q: Point) -> i128 {
    floor
        .faces(cell)
        .map(|face| {
            let [a, b] = floor.ends(face).map(|corner| floor.corner(corner));
            side_value(a, b, q)
        })
        .min()
        .expect("a cell has sides")
}
