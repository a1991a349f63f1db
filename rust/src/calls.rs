//! The public calls of documents 01 and 02 as one trait, with the types they
//! share, which are those of the library for Rust.
//!
//! Every list, table and file is lent by the caller, so that a comparison sees
//! each number an implementor wrote, and each number it should have left alone.

pub use manopluea::{
    DoorChange, Listing, Lists, Morning, Plan, Query, Reach, Refusal, Stand, DRAWN, MOST_STANDS,
    MOST_TEXT, POINT, POLYGONS, REPLY, ROW, TRIANGLES, WALL,
};

/// The reply to a call: its number, its place and up to five values.
/// A refusal has the values 0.
///
/// Values of reply 0: corners, cells, doors (check, read, write), and then the
/// kind that was read (read); the cell, 1 where the stand is within a side of it,
/// and that side (find); rows, crossings (list, change, draw); their sums
/// (list_stands). Those that a call has no use for are 0.
#[derive(Clone, Copy, Debug, PartialEq, Eq)]
pub struct Reply {
    pub number: u32,
    pub place: u32,
    pub values: Values,
}

/// The values of a reply.
pub type Values = [u64; 5];

impl Reply {
    /// Reply 0, with what is given back first; the values after it are 0.
    pub fn done<const N: usize>(first: [u64; N]) -> Reply {
        let mut values = [0; 5];
        values[..N].copy_from_slice(&first);
        Reply {
            number: 0,
            place: 0,
            values,
        }
    }

    /// A refusal's number and place.
    pub fn refused(number: u32, place: u32) -> Reply {
        Reply {
            number,
            place,
            values: [0; 5],
        }
    }
}

impl From<Refusal> for Reply {
    fn from(refusal: Refusal) -> Reply {
        // Limits keep every place below 24,000.
        Reply::refused(refusal.number(), refusal.place().unwrap_or(0) as u32)
    }
}

/// One method for each public call.
pub trait Calls: Sync {
    fn check(&self, lists: Lists<'_>) -> Reply;

    fn read(&self, file: &[u8], corners: &mut [i32], cells: &mut [u16], doors: &mut [u16])
        -> Reply;

    fn write(&self, lists: Lists<'_>, file: &mut [u8]) -> Reply;

    fn find(&self, lists: Lists<'_>, setting: u64, stand: Stand) -> Reply;

    /// `ROW` numbers a row go into the table.
    fn list(&self, lists: Lists<'_>, listing: Listing, table: &mut [u16]) -> Reply;

    /// A morning's stands, three numbers each: `POINT` or a corner, then x, y.
    /// Their rows go into the table one after another, and three numbers a
    /// stand into the replies: its own reply's number, row count, crossings.
    fn list_stands(
        &self,
        lists: Lists<'_>,
        morning: Morning,
        stands: &[f64],
        table: &mut [u16],
        replies: &mut [u64],
    ) -> Reply;

    /// The list under the new setting goes into the table.
    fn change(&self, lists: Lists<'_>, change: DoorChange<'_>, table: &mut [u16]) -> Reply;

    /// `DRAWN` numbers a row go into the offsets.
    fn draw(&self, lists: Lists<'_>, query: Query, offsets: &mut [f32]) -> Reply;

    /// What the printing program prints for this standard input.
    fn print(&self, input: &[u8]) -> Vec<u8>;
}
