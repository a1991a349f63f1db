//! Document 01 and what document 02 adds, implemented from the paper alone.
//!
//! The structure is chosen to differ from a pair of functions that call each
//! other: the lists become cells with corners and neighbours of their own, which
//! the check turns into a table of opposite faces; the expansion keeps an
//! explicit stack of lines still to be followed, and gives each other side of a
//! cell its part of the whole cone; side values are 128 bits wide. Whether two cells
//! overlap is asked of the part that they have in common, whose corners are fractions.
//! Whether a line is in reach is asked of the one point of it that is nearest, wherever
//! that is. A ceiling is held against the crossings of the whole listing, once it is
//! made, and a drawing is made of its rows.

mod drawing;
mod file;
mod memory;
mod morning;
mod overlap;
mod plan;
mod printing;
mod reach;
mod runs;
mod sight;
mod stand;

pub use drawing::{limits, Offset, MOST_OFFSET};
pub use file::{decode, encode, take_record};
pub use memory::remember_no_plan;
pub use morning::stand_of;
pub use plan::{cut_cells, Cell, Floor, Point, CELLS, COORDINATES, CORNERS, DOORS, SIDES};
pub use printing::{print, query, MOST_INPUT};
pub use reach::{SquaredDistance, REACHES};
pub use runs::change_by_runs;
pub use sight::{Direction, Line, Listed, Row, View, Walk};
pub use stand::{is_within, millimetres, Place};

use crate::calls::{
    Calls, DoorChange, Listing, Lists, Morning, Query, Refusal, Reply, Stand, Values, DRAWN, ROW,
};
use morning::Answers;

/// The paper program as an implementor of the public calls.
pub struct Paper;

impl Calls for Paper {
    fn check(&self, lists: Lists<'_>) -> Reply {
        check(lists)
    }

    fn read(
        &self,
        file: &[u8],
        corners: &mut [i32],
        cells: &mut [u16],
        doors: &mut [u16],
    ) -> Reply {
        read(file, corners, cells, doors)
    }

    fn write(&self, lists: Lists<'_>, file: &mut [u8]) -> Reply {
        write(lists, file)
    }

    fn find(&self, lists: Lists<'_>, setting: u64, stand: Stand) -> Reply {
        find(lists, setting, stand)
    }

    fn list(&self, lists: Lists<'_>, listing: Listing, table: &mut [u16]) -> Reply {
        list(lists, listing, table)
    }

    fn list_stands(
        &self,
        lists: Lists<'_>,
        morning: Morning,
        stands: &[f64],
        table: &mut [u16],
        replies: &mut [u64],
    ) -> Reply {
        list_stands(lists, morning, stands, table, replies)
    }

    fn change(&self, lists: Lists<'_>, asked: DoorChange<'_>, table: &mut [u16]) -> Reply {
        change(lists, asked, table)
    }

    fn draw(&self, lists: Lists<'_>, query: Query, offsets: &mut [f32]) -> Reply {
        draw(lists, query, offsets)
    }

    fn print(&self, input: &[u8]) -> Vec<u8> {
        print(input)
    }
}

pub fn check(lists: Lists<'_>) -> Reply {
    reply(Floor::check(lists).map(|floor| counts(&floor)))
}

pub fn read(file: &[u8], corners: &mut [i32], cells: &mut [u16], doors: &mut [u16]) -> Reply {
    reply(read_checked(file, corners, cells, doors))
}

pub fn write(lists: Lists<'_>, file: &mut [u8]) -> Reply {
    reply(write_checked(lists, file))
}

pub fn find(lists: Lists<'_>, setting: u64, stand: Stand) -> Reply {
    reply(find_checked(lists, setting, stand))
}

pub fn list(lists: Lists<'_>, listing: Listing, table: &mut [u16]) -> Reply {
    reply(list_checked(lists, listing, table))
}

pub fn list_stands(
    lists: Lists<'_>,
    morning: Morning,
    stands: &[f64],
    table: &mut [u16],
    replies: &mut [u64],
) -> Reply {
    let answers = Answers::list(lists, morning, stands, table.len(), replies.len());
    reply(answers.map(|answers| hand_back_answers(&answers, table, replies)))
}

pub fn change(lists: Lists<'_>, asked: DoorChange<'_>, table: &mut [u16]) -> Reply {
    reply(change_checked(lists, asked, table))
}

pub fn draw(lists: Lists<'_>, query: Query, offsets: &mut [f32]) -> Reply {
    reply(draw_checked(lists, query, offsets))
}

fn read_checked(
    file: &[u8],
    corners: &mut [i32],
    cells: &mut [u16],
    doors: &mut [u16],
) -> Result<Values, Refusal> {
    let plan = decode(file)?;
    let lists = plan.lists();
    let floor = Floor::check(lists)?;
    if corners.len() < lists.corners.len()
        || cells.len() < lists.cells.len()
        || doors.len() < lists.doors.len()
    {
        return Err(Refusal::Room);
    }
    corners[..lists.corners.len()].copy_from_slice(lists.corners);
    cells[..lists.cells.len()].copy_from_slice(lists.cells);
    doors[..lists.doors.len()].copy_from_slice(lists.doors);
    let [corners, cells, doors, ..] = counts(&floor);
    Ok([
        corners,
        cells,
        doors,
        plan.kind.into(),
        lists.cells.len() as u64,
    ])
}

fn write_checked(lists: Lists<'_>, file: &mut [u8]) -> Result<Values, Refusal> {
    let floor = Floor::check(lists)?;
    let encoded = encode(lists);
    if file.len() < encoded.len() {
        return Err(Refusal::Room);
    }
    file[..encoded.len()].copy_from_slice(&encoded);
    Ok(counts(&floor))
}

fn find_checked(lists: Lists<'_>, setting: u64, stand: Stand) -> Result<Values, Refusal> {
    let floor = Floor::check(lists)?;
    let query = Query::without_reach(setting, stand);
    let [cell, on_side, side] = match View::new(&floor, query)?.place() {
        Place::Inside(cell) => [cell, 0, 0],
        Place::Within(face) => {
            let cell = floor.cell_with(face);
            [cell, 1, usize::from(face - floor.faces(cell).start)]
        }
    };
    Ok([cell as u64, on_side as u64, side as u64, 0, 0])
}

fn list_checked(lists: Lists<'_>, listing: Listing, table: &mut [u16]) -> Result<Values, Refusal> {
    let floor = Floor::check(lists)?;
    let view = View::new(&floor, listing.query)?;
    room_for_rows(&floor, table)?;
    let listed = view.list().up_to(listing.ceiling)?;
    Ok(hand_back(&listed, table))
}

fn change_checked(
    lists: Lists<'_>,
    asked: DoorChange<'_>,
    table: &mut [u16],
) -> Result<Values, Refusal> {
    let DoorChange {
        query,
        given,
        door,
        shut,
    } = asked;
    let setting = query.setting;
    let floor = Floor::check(lists)?;
    let before = View::new(&floor, query)?;
    if before.is_in_doorway(door) {
        return Err(Refusal::Line);
    }
    room_for_rows(&floor, table)?;
    if door >= floor.doors().len() || (setting >> door & 1 == 1) == shut {
        return Err(Refusal::Change);
    }
    if before.list().rows.as_flattened() != given {
        return Err(Refusal::Rows);
    }
    // Demand 3: what a fresh listing under the new setting says.
    let query = Query {
        setting: setting ^ (1 << door),
        ..query
    };
    Ok(hand_back(&View::new(&floor, query)?.list(), table))
}

fn draw_checked(lists: Lists<'_>, query: Query, offsets: &mut [f32]) -> Result<Values, Refusal> {
    let floor = Floor::check(lists)?;
    let view = View::new(&floor, query)?;
    room_for(&floor, DRAWN, offsets.len())?;
    let Listed { rows, crossings } = view.list();
    let drawn = drawing::draw(&floor, view.stand(), &rows)?;
    offsets[..DRAWN * drawn.len()].copy_from_slice(drawn.as_flattened());
    Ok([rows.len() as u64, crossings, 0, 0, 0])
}

fn room_for_rows(floor: &Floor, table: &[u16]) -> Result<(), Refusal> {
    room_for(floor, ROW, table.len())
}

/// Whether so much room is enough for rows of so many numbers.
fn room_for(floor: &Floor, numbers: usize, room: usize) -> Result<(), Refusal> {
    // A row can be due for every corner, so the room asked for is fixed
    // before anything is listed.
    if room < numbers * floor.corners().len() {
        return Err(Refusal::Room);
    }
    Ok(())
}

fn hand_back(listed: &Listed, table: &mut [u16]) -> Values {
    let numbers = listed.rows.as_flattened();
    table[..numbers.len()].copy_from_slice(numbers);
    [listed.rows.len() as u64, listed.crossings, 0, 0, 0]
}

/// Gives back the sums.
fn hand_back_answers(answers: &Answers, table: &mut [u16], replies: &mut [u64]) -> Values {
    let (rows, own) = (answers.rows(), answers.replies());
    table[..ROW * rows.len()].copy_from_slice(rows.as_flattened());
    replies[..3 * own.len()].copy_from_slice(own.as_flattened());
    let crossings = own.iter().map(|[_, _, crossings]| crossings).sum();
    [rows.len() as u64, crossings, 0, 0, 0]
}

fn counts(floor: &Floor) -> Values {
    let [corners, cells, doors] = [
        floor.corners().len(),
        floor.cell_count(),
        floor.doors().len(),
    ];
    [corners as u64, cells as u64, doors as u64, 0, 0]
}

pub(crate) fn reply(result: Result<Values, Refusal>) -> Reply {
    match result {
        Ok(values) => Reply::done(values),
        Err(refusal) => refusal.into(),
    }
}
