//! "The scanner has a reach", request A5 of document 02.

use super::plan::{product, Point};
use crate::calls::{Reach, Refusal};
use std::ops::RangeInclusive;

/// The reaches that there are, in millimetres.
pub const REACHES: RangeInclusive<u64> = 1..=262_144;

/// The reach that is stated, or none where it is unlimited.
pub fn stated(reach: Reach) -> Result<Option<u64>, Refusal> {
    match reach {
        Reach::NotStated => Ok(None),
        Reach::Stated(number) if REACHES.contains(&number) => Ok(Some(number)),
        Reach::Stated(_) => Err(Refusal::Reach),
    }
}

/// The square of the distance from a spot to the nearest point of a whole line: a
/// fraction, since that point need not be of whole millimetres.
#[derive(Clone, Copy, Debug, PartialEq, Eq)]
pub struct SquaredDistance {
    numerator: i128,
    /// Above zero.
    denominator: i128,
}

impl SquaredDistance {
    /// From q to the line between two ends that differ.
    ///
    /// With a and b the ends less q and d = b − a, the point t of the way from a
    /// to b is a + t·d, and its square |a|² + 2·t·(a·d) + t²·|d|². That is least
    /// at t = −(a·d) / |d|², or at that end of the line which is nearer to it. All
    /// of it is taken |d|² times; with coordinates within the limits none of the
    /// three parts is beyond 2^123.
    pub fn new(q: Point, [a, b]: [Point; 2]) -> SquaredDistance {
        let dot = |u: [i64; 2], v: [i64; 2]| product(u[0], v[0]) + product(u[1], v[1]);
        let from_q = [a.x - q.x, a.y - q.y];
        let way = [b.x - a.x, b.y - a.y];
        let (length, ahead) = (dot(way, way), dot(from_q, way));
        let along = (-ahead).clamp(0, length);
        SquaredDistance {
            numerator: dot(from_q, from_q) * length + 2 * along * ahead + along * along,
            denominator: length,
        }
    }

    /// Whether the nearest point is at most so many millimetres away.
    pub fn is_within(self, reach: u64) -> bool {
        let reach = i128::from(reach);
        self.numerator <= reach * reach * self.denominator
    }

    /// The distance itself in whole millimetres, what is over left out.
    pub fn floor(self) -> u64 {
        (self.numerator / self.denominator).isqrt() as u64
    }
}
