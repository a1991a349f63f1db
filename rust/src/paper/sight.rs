//! "Expansion" and "Walk": what is seen from a stand under a setting, as far as the
//! reach goes.

use super::plan::{product, side_value, Floor, Point};
use super::reach::{self, SquaredDistance};
use super::stand::{self, Place};
use crate::calls::{Query, Reach, Refusal, Stand, ROW, WALL};

/// A line as it is handed on: face, right limit, left limit.
pub type Line = [u16; 3];

/// A line that sight ends at, and 0 where it is in reach, 1 where it is not.
pub type Row = [u16; ROW];

/// A direction: two whole numbers, not both zero.
#[derive(Clone, Copy, Debug, PartialEq, Eq)]
pub struct Direction {
    pub x: i64,
    pub y: i64,
}

/// The rows of a listing, and how often a free line was passed.
#[derive(Clone, Debug, PartialEq, Eq)]
pub struct Listed {
    pub rows: Vec<Row>,
    pub crossings: u64,
}

impl Listed {
    /// "A ceiling for the tablet", request A13 of document 02: refused where the
    /// crossings of the whole listing exceed it.
    pub fn up_to(self, ceiling: Option<u64>) -> Result<Listed, Refusal> {
        match ceiling {
            Some(most) if self.crossings > most => Err(Refusal::Ceiling),
            _ => Ok(self),
        }
    }
}

/// A walk: the faces it left by, each on the side seen, and the face it ended at,
/// which is wall or out of reach.
#[derive(Clone, Debug, PartialEq, Eq)]
pub struct Walk {
    pub route: Vec<u16>,
    pub end: u16,
}

/// What is beyond a line of sight's next line.
enum Beyond {
    /// A cell, which is entered through this face.
    Cell(u16),
    /// Nothing that is seen: the line is wall.
    Wall,
    /// Nothing that is seen: the line is out of reach, be it wall or free.
    Reach,
}

/// A checked plan seen from a stand under a setting, as far as a reach goes.
pub struct View<'a> {
    floor: &'a Floor,
    across: Vec<u16>,
    /// In millimetres; none where it is unlimited.
    reach: Option<u64>,
    q: Point,
    place: Place,
}

impl<'a> View<'a> {
    pub fn new(floor: &'a Floor, query: Query) -> Result<View<'a>, Refusal> {
        let across = floor.across_under(query.setting)?;
        View::through(floor, across, query.stand, query.reach)
    }

    /// The view with the opposite faces that a setting leaves.
    pub fn through(
        floor: &'a Floor,
        across: Vec<u16>,
        stand: Stand,
        reach: Reach,
    ) -> Result<View<'a>, Refusal> {
        let q = stand::millimetres(floor, stand)?;
        let reach = reach::stated(reach)?;
        let place = stand::place_of(floor, &across, q)?;
        Ok(View {
            floor,
            across,
            reach,
            q,
            place,
        })
    }

    /// The stand in whole millimetres.
    pub fn stand(&self) -> Point {
        self.q
    }

    /// Where it is.
    pub fn place(&self) -> Place {
        self.place
    }

    /// The listing: the expansion of the sides around the stand, each with its
    /// own two ends as limits.
    pub fn list(&self) -> Listed {
        let around = self.around().into_iter();
        self.expand(around.map(|face| self.line(face)).collect())
    }

    /// The line of a side around the stand.
    fn line(&self, face: u16) -> Line {
        let [right, left] = self.floor.ends(face);
        [face, right, left]
    }

    /// The sides around the stand: all those of its cell; or, where it is on a
    /// side, the others of that cell in order after it, then the neighbour's
    /// likewise.
    pub fn around(&self) -> Vec<u16> {
        match self.place {
            Place::Inside(cell) => self.floor.faces(cell).collect(),
            Place::Within(face) => {
                let back = self.across[usize::from(face)];
                let both = [face, back].map(|face| self.floor.others(face));
                both.into_iter().flatten().collect()
            }
        }
    }

    /// The crossings of each side around the stand by itself: of those of its cell, and
    /// of the neighbour's, where it is on a side.
    pub fn crossings_around(&self) -> [Vec<u64>; 2] {
        let around = self.around().into_iter();
        let mut own: Vec<u64> = around
            .map(|face| self.expand(vec![self.line(face)]).crossings)
            .collect();
        let neighbours = match self.place {
            Place::Inside(_) => Vec::new(),
            Place::Within(face) => own.split_off(self.floor.others(face).count()),
        };
        [own, neighbours]
    }

    /// Whether the stand is on a side, and the line of this door, if there is
    /// such a door, holds it strictly within: whatever cells the door is between.
    pub fn is_in_doorway(&self, door: usize) -> bool {
        let line = self.floor.doors().get(door);
        matches!(self.place, Place::Within(_))
            && line.is_some_and(|&face| stand::is_within(self.floor, face, self.q))
    }

    /// Follows lines to their rows. The last one handed on is followed first, so
    /// lines go onto the stack in reverse.
    pub fn expand(&self, lines: Vec<Line>) -> Listed {
        let mut rows = Vec::new();
        let mut crossings = 0;
        let mut waiting = lines;
        waiting.reverse();
        while let Some(line) = waiting.pop() {
            let [face, right, left] = line;
            match self.beyond(face) {
                Beyond::Cell(entered) => {
                    crossings += 1;
                    self.hand_on(entered, line, &mut waiting);
                }
                Beyond::Wall => rows.push([face, right, left, 0]),
                Beyond::Reach => rows.push([face, right, left, 1]),
            }
        }
        Listed { rows, crossings }
    }

    /// What a line of sight that comes to a face's line meets there.
    fn beyond(&self, face: u16) -> Beyond {
        if !self.is_in_reach(face) {
            return Beyond::Reach;
        }
        match self.across[usize::from(face)] {
            WALL => Beyond::Wall,
            entered => Beyond::Cell(entered),
        }
    }

    /// Whether some point of a face's whole line is in reach, seen or not.
    pub fn is_in_reach(&self, face: u16) -> bool {
        let ends = self.floor.ends(face).map(|end| self.floor.corner(end));
        self.reach
            .is_none_or(|reach| SquaredDistance::new(self.q, ends).is_within(reach))
    }

    /// Hands on the lines of the cell entered through a face, last one first:
    /// every other side with its part of the cone, where that is not empty.
    fn hand_on(&self, entered: u16, [_, right, left]: Line, waiting: &mut Vec<Line>) {
        for face in self.floor.others(entered).rev() {
            let [a, b] = self.floor.ends(face);
            // A corner on a limit does not replace it.
            let part_right = if self.is_left(right, a) { a } else { right };
            let part_left = if self.is_left(b, left) { b } else { left };
            if self.is_left(part_right, part_left) {
                waiting.push([face, part_right, part_left]);
            }
        }
    }

    /// Whether corner b is strictly left of the ray to corner a. The corners of
    /// a cell and the limits of the cone that enters it lie ahead within half a
    /// turn, so this orders them.
    fn is_left(&self, a: u16, b: u16) -> bool {
        side_value(self.q, self.floor.corner(a), self.floor.corner(b)) > 0
    }

    /// Whether the direction lies strictly between the rays to two corners.
    pub fn between(&self, right: u16, d: Direction, left: u16) -> bool {
        self.turn(right, d) > 0 && self.turn(left, d) < 0
    }

    /// (c−q)×d for a corner c: positive when d is left of the ray to c.
    fn turn(&self, corner: u16, d: Direction) -> i128 {
        let c = self.floor.corner(corner);
        product(c.x - self.q.x, d.y) - product(c.y - self.q.y, d.x)
    }

    /// The walk in a direction. None when some step has no line to leave by,
    /// which only happens when the ray meets a corner.
    pub fn walk(&self, d: Direction) -> Option<Walk> {
        let mut route = Vec::new();
        let mut leave = match self.place {
            Place::Inside(cell) => self.line_ahead(self.floor.faces(cell), d),
            Place::Within(face) => {
                self.line_ahead(self.floor.others(self.entered_at_once(face, d)?), d)
            }
        }?;
        while let Beyond::Cell(entered) = self.beyond(leave) {
            route.push(leave);
            leave = self.line_ahead(self.floor.others(entered), d)?;
        }
        Some(Walk { route, end: leave })
    }

    /// The face of a line stood on whose cell a direction enters: that cell lies
    /// left of it. None along the line, where the ray meets one of its ends.
    fn entered_at_once(&self, face: u16, d: Direction) -> Option<u16> {
        let [a, b] = self
            .floor
            .ends(face)
            .map(|corner| self.floor.corner(corner));
        match product(b.x - a.x, d.y) - product(b.y - a.y, d.x) {
            1.. => Some(face),
            0 => None,
            _ => Some(self.across[usize::from(face)]),
        }
    }

    fn line_ahead(&self, mut faces: impl Iterator<Item = u16>, d: Direction) -> Option<u16> {
        faces.find(|&face| {
            let [right, left] = self.floor.ends(face);
            self.between(right, d, left)
        })
    }

    /// Whether the ray, the stand's own point not counted, meets a corner.
    pub fn meets_corner(&self, d: Direction) -> bool {
        (0..self.floor.corners().len() as u16).any(|corner| {
            let c = self.floor.corner(corner);
            let ahead = product(c.x - self.q.x, d.x) + product(c.y - self.q.y, d.y) > 0;
            ahead && self.turn(corner, d) == 0
        })
    }

    /// A direction strictly inside a row's cone: the sum of its two limits.
    pub fn middle(&self, [_, right, left, _]: Row) -> Direction {
        let (r, l) = (self.floor.corner(right), self.floor.corner(left));
        Direction {
            x: r.x - self.q.x + l.x - self.q.x,
            y: r.y - self.q.y + l.y - self.q.y,
        }
    }
}
