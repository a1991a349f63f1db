//! "Drawing on the tablet", request A2 of document 02.

use super::plan::{Floor, Point};
use super::sight::Row;
use crate::calls::{Refusal, DRAWN};

/// So far from the stand, in either axis, a corner can be drawn, in millimetres. Every
/// whole number up to here is one of single precision too.
pub const MOST_OFFSET: i64 = 16_777_216;

/// How far a corner is from the stand, in whole millimetres.
#[derive(Clone, Copy, Debug, PartialEq, Eq)]
pub struct Offset {
    pub x: i64,
    pub y: i64,
}

impl Offset {
    pub fn new(q: Point, corner: Point) -> Offset {
        Offset {
            x: corner.x - q.x,
            y: corner.y - q.y,
        }
    }

    /// Whether it is too far to be drawn.
    pub fn is_far(self) -> bool {
        self.x.abs().max(self.y.abs()) > MOST_OFFSET
    }

    /// Its two numbers. A whole number has no sign of zero to hand on.
    fn singles(self) -> [f32; 2] {
        [self.x as f32, self.y as f32]
    }
}

/// The offsets of a row's right limit and of its left one.
pub fn limits(floor: &Floor, q: Point, [_, right, left, _]: Row) -> [Offset; 2] {
    [right, left].map(|corner| Offset::new(q, floor.corner(corner)))
}

/// Rows as they are drawn from a stand, all of them or none.
pub fn draw(floor: &Floor, q: Point, rows: &[Row]) -> Result<Vec<[f32; DRAWN]>, Refusal> {
    let drawn = |&row: &Row| {
        let limits = limits(floor, q, row);
        if limits.into_iter().any(Offset::is_far) {
            return Err(Refusal::Far);
        }
        let [[right_x, right_y], [left_x, left_y]] = limits.map(Offset::singles);
        Ok([right_x, right_y, left_x, left_y])
    };
    rows.iter().map(drawn).collect()
}
