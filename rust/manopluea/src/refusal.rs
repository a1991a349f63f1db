//! Refusals, and how they are said.

use crate::MOST_STANDS;
use std::error::Error;
use std::fmt;

/// A refusal, with its place where it has one. Whatever was lent to the call is as it was.
///
/// They stand in the order in which they go: of all that apply, the first is the reply.
#[derive(Clone, Copy, Debug, PartialEq, Eq)]
pub enum Refusal {
    /// Not the records of a plan file, lists that are not whole corners, cells, doors or
    /// stands, or a kind that is neither of the two.
    Frame,
    /// A count outside the limits, or more than `MOST_STANDS` stands.
    Size,
    /// A coordinate outside the limits, at the least such corner.
    Corner(usize),
    /// The least cell with a corner number that does not exist, two that are equal, or a corner
    /// other than a side's own two that is not strictly left of that side.
    Cell(usize),
    /// The least face whose neighbour is neither wall nor a cell with a side that answers.
    Neighbour(usize),
    /// The least door with no such face, at a wall, or on a line that an earlier door names.
    Door(usize),
    /// The least cell that has some point strictly inside it and another one.
    Overlap(usize),
    /// A bit of the setting at or above the door count.
    Setting,
    /// A number or corner of the stand that is not accepted.
    Stand,
    /// A stated reach that is none.
    Reach,
    /// A stand on some cell's border, strictly inside no cell and within no free side; for a
    /// door change, also the door underfoot.
    Line,
    /// A stand inside or on no cell.
    Outside,
    /// A lent table, list, file or text that is too short.
    Room,
    /// More crossings than the ceiling of a listing.
    Ceiling,
    /// In a drawing, a row's limit that is too far from the stand.
    Far,
    /// No such door, or one that is already in that state.
    Change,
    /// A given list that is not the true one.
    Rows,
}

impl Refusal {
    /// The reply's number, which the header names.
    pub fn number(self) -> u32 {
        match self {
            Refusal::Frame => 1,
            Refusal::Size => 2,
            Refusal::Corner(_) => 3,
            Refusal::Cell(_) => 4,
            Refusal::Neighbour(_) => 5,
            Refusal::Door(_) => 6,
            Refusal::Overlap(_) => 17,
            Refusal::Setting => 7,
            Refusal::Stand => 8,
            Refusal::Reach => 15,
            Refusal::Line => 9,
            Refusal::Outside => 10,
            Refusal::Room => 11,
            Refusal::Ceiling => 19,
            Refusal::Far => 14,
            Refusal::Change => 12,
            Refusal::Rows => 13,
        }
    }

    /// The number of the corner, cell, face or door that it is about. Some have none, and
    /// their reply has the place 0.
    pub fn place(self) -> Option<usize> {
        match self {
            Refusal::Corner(place)
            | Refusal::Cell(place)
            | Refusal::Neighbour(place)
            | Refusal::Door(place)
            | Refusal::Overlap(place) => Some(place),
            _ => None,
        }
    }

    /// The refusal with this number, if there is one, and this place, if it has one.
    #[cfg(feature = "calls")]
    pub(crate) fn numbered(number: u64, place: u64) -> Option<Refusal> {
        let place = place as usize;
        Some(match number {
            1 => Refusal::Frame,
            2 => Refusal::Size,
            3 => Refusal::Corner(place),
            4 => Refusal::Cell(place),
            5 => Refusal::Neighbour(place),
            6 => Refusal::Door(place),
            7 => Refusal::Setting,
            8 => Refusal::Stand,
            9 => Refusal::Line,
            10 => Refusal::Outside,
            11 => Refusal::Room,
            12 => Refusal::Change,
            13 => Refusal::Rows,
            14 => Refusal::Far,
            15 => Refusal::Reach,
            17 => Refusal::Overlap(place),
            19 => Refusal::Ceiling,
            _ => return None,
        })
    }
}

/// One sentence, and then the number and the place of the reply:
/// `door 1 names no such face, a wall, or a line that an earlier door names (refused 6, place 1)`.
impl fmt::Display for Refusal {
    fn fmt(&self, f: &mut fmt::Formatter<'_>) -> fmt::Result {
        match self {
            Refusal::Frame => f.write_str(
                "these are not the records of a plan, or the lists are not whole corners, cells, \
                 doors or stands, or the kind is neither 2 nor 12",
            ),
            Refusal::Size => write!(
                f,
                "a count is outside the limits, or there are more than {MOST_STANDS} stands"
            ),
            Refusal::Corner(corner) => write!(f, "corner {corner} has a coordinate outside the limits"),
            Refusal::Cell(cell) => write!(
                f,
                "cell {cell} has a corner number that does not exist, two that are equal, or a corner \
                 other than a side's own two that is not strictly left of that side"
            ),
            Refusal::Neighbour(face) => write!(
                f,
                "the neighbour at face {face} is neither wall nor a cell with a side that answers"
            ),
            Refusal::Door(door) => write!(
                f,
                "door {door} names no such face, a wall, or a line that an earlier door names"
            ),
            Refusal::Overlap(cell) => {
                write!(f, "some point is strictly inside cell {cell} and another cell")
            }
            Refusal::Setting => f.write_str("the setting has a bit at or above the door count"),
            Refusal::Stand => f.write_str("a number or corner of the stand is not accepted"),
            Refusal::Reach => f.write_str("the stated reach is not 1 to 262,144 mm"),
            Refusal::Line => f.write_str(
                "the stand is on some cell's border, strictly inside no cell and within no free side, \
                 or the door to be changed is underfoot",
            ),
            Refusal::Outside => f.write_str("the stand is inside or on no cell"),
            Refusal::Room => f.write_str("a lent table, list, file or text is too short"),
            Refusal::Ceiling => f.write_str("the crossings exceed the stated ceiling"),
            Refusal::Far => {
                f.write_str("a row's limit is more than 16,777,216 mm from the stand, in x or in y")
            }
            Refusal::Change => f.write_str("there is no such door, or it is already in that state"),
            Refusal::Rows => f.write_str("the given list is not the true one"),
        }?;
        match self.place() {
            Some(place) => write!(f, " (refused {}, place {place})", self.number()),
            None => write!(f, " (refused {})", self.number()),
        }
    }
}

impl Error for Refusal {}
