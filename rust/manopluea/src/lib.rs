//! Which walls a laser scanner sees from a stand: the proved library, for Rust.
//!
//! A plan is convex cells of 3 to 8 corners in whole millimetres, as three lists of numbers.
//! The calls take such lists, a stand, and slices that are lent for what is written, and give
//! back what was found or a [`Refusal`]. Each is total: no list, number or setting is wrong
//! input, and a refusal leaves every lent slice as it was. `include/manopluea.h` of the
//! repository has the whole promise of each call, and its README the rules and the replies.
//!
//! ```
//! use manopluea::{list, Plan, Query, Refusal, Stand, ROW, TRIANGLES, WALL};
//! use std::error::Error;
//!
//! // Plan Q: a square of two cells, with a door on its diagonal.
//! let q = Plan {
//!     corners: vec![0, 0, 10, 0, 10, 10, 0, 10],
//!     cells: vec![0, 1, 2, WALL, WALL, 1, 0, 2, 3, 0, WALL, WALL],
//!     doors: vec![2],
//!     kind: TRIANGLES,
//! };
//!
//! // From (6, 3) with the door open four walls are seen, and one free line is crossed.
//! let mut table = [0; 4 * ROW];
//! let from = |x, y| Query::without_reach(0, Stand::Point(x, y)).without_ceiling();
//! let listed = list(q.lists(), from(6.0, 3.0), &mut table)?;
//! assert_eq!((listed.rows, listed.crossings), (4, 1));
//! // Each row: its face, its right and left limit, and 0 for in reach.
//! let (rows, _) = table.as_chunks::<ROW>();
//! assert_eq!(rows, [[0, 0, 1, 0], [1, 1, 2, 0], [4, 2, 3, 0], [5, 3, 0, 0]]);
//!
//! // Half a millimetre is refused, and the table is as it was.
//! let refusal = list(q.lists(), from(6.5, 3.0), &mut table).unwrap_err();
//! assert_eq!(refusal, Refusal::Stand);
//! assert_eq!(
//!     refusal.to_string(),
//!     "a number or corner of the stand is not accepted (refused 8)"
//! );
//!
//! // A refusal is an error like any other.
//! fn walls_from(plan: &Plan, line: &str) -> Result<usize, Box<dyn Error>> {
//!     let (x, y) = line.split_once(',').ok_or("a stand has two numbers")?;
//!     let query = Query::without_reach(0, Stand::Point(x.parse()?, y.parse()?));
//!     let mut table = vec![0; ROW * (plan.corners.len() / 2)];
//!     let listed = list(plan.lists(), query.without_ceiling(), &mut table)?;
//!     Ok(listed.rows)
//! }
//! assert_eq!(walls_from(&q, "6,3")?, 4);
//! let refused = walls_from(&q, "11,5").unwrap_err().to_string();
//! assert_eq!(refused, "the stand is inside or on no cell (refused 10)");
//! # Ok::<(), Box<dyn Error>>(())
//! ```
//!
//! The archive of the library is linked by the feature `calls`, which is on where nothing else
//! is said: `crates/exports/out/libexports.a` of the repository, made for x86-64 Linux, or the one
//! that the environment variable MANOPLUEA_ARCHIVE names by its whole path. Without the feature
//! there are the types alone.

#![deny(missing_docs)]

mod answer;
#[cfg(feature = "calls")]
mod calls;
mod plan;
mod query;
#[cfg(feature = "calls")]
pub mod raw;
mod refusal;

pub use answer::{Counts, Footing, Listed, Read, DRAWN, MOST_TEXT, REPLY, ROW};
#[cfg(feature = "calls")]
pub use calls::{change, check, draw, find, list, list_stands, print, read, stand_listed, write};
pub use plan::{Lists, Plan, POLYGONS, TRIANGLES, WALL};
pub use query::{DoorChange, Listing, Morning, Query, Reach, Stand, MOST_STANDS, POINT};
pub use refusal::Refusal;

/// The bytes of stack that a call needs at most: the header's MANOPLUEA_STACK. Where there are
/// fewer the process may end, so a thread that makes calls is to be given as many, and what it
/// needs itself.
pub const STACK: usize = 2_097_152;
