//! The calls, on lent slices.

use crate::raw::{self, Values};
use crate::{
    Counts, DoorChange, Footing, Listed, Listing, Lists, Morning, Query, Read, Refusal, Stand,
    MOST_TEXT, REPLY,
};

/// What a function answers.
fn ask(function: impl FnOnce(&mut [u64])) -> Result<Values, Refusal> {
    // No reply has these numbers, so that one that is not written is noticed.
    let mut reply = [u64::MAX; REPLY];
    function(&mut reply);
    raw::answer(reply)
}

fn counts([corners, cells, doors, ..]: Values) -> Counts {
    let [corners, cells, doors] = [corners, cells, doors].map(|count| count as usize);
    Counts {
        corners,
        cells,
        doors,
    }
}

fn listed([rows, crossings, ..]: Values) -> Listed {
    Listed {
        rows: rows as usize,
        crossings,
    }
}

/// The plan check.
pub fn check(lists: Lists<'_>) -> Result<Counts, Refusal> {
    ask(|reply| raw::check(lists, reply)).map(counts)
}

/// The reader: the lists of a plan file, from the beginning of the lent ones. None has
/// more numbers than the file has bytes.
pub fn read(
    file: &[u8],
    corners: &mut [i32],
    cells: &mut [u16],
    doors: &mut [u16],
) -> Result<Read, Refusal> {
    let values = ask(|reply| raw::read(file, corners, cells, doors, reply))?;
    let [.., kind, numbers] = values;
    Ok(Read {
        counts: counts(values),
        kind: kind as u16,
        numbers: numbers as usize,
    })
}

/// The writer: the one file of three lists, in the kind that they are in, from the
/// beginning of the lent one. It has 18 bytes, 4 for each number of the corners and 2 for
/// each of the cells and doors.
pub fn write(lists: Lists<'_>, file: &mut [u8]) -> Result<Counts, Refusal> {
    ask(|reply| raw::write(lists, file, reply)).map(counts)
}

/// Where the stand is.
pub fn find(lists: Lists<'_>, setting: u64, stand: Stand) -> Result<Footing, Refusal> {
    let values = ask(|reply| raw::find(lists, setting, stand, reply))?;
    let [cell, on_side, side, ..] = values.map(|value| value as usize);
    Ok(match on_side {
        0 => Footing::Inside { cell },
        _ => Footing::Side { cell, side },
    })
}

/// The listing: `ROW` numbers a row, from the beginning of the table, which has room for
/// as many rows as there are corners. It is given up as soon as its crossings exceed the
/// ceiling, if there is one.
pub fn list(lists: Lists<'_>, listing: Listing, table: &mut [u16]) -> Result<Listed, Refusal> {
    ask(|reply| raw::list(lists, listing, table, reply)).map(listed)
}

/// A morning's stands together, up to `MOST_STANDS` of them: the rows of each stand as
/// `list` has them, one stand after another in the order given, from the
/// beginning of the table, which has room for as many rows as there are corners for each
/// stand. What is given back are the sums.
///
/// Three numbers a stand go into the replies, from their beginning on, and
/// `stand_listed` reads them. A stand that is refused, also for its crossings, has
/// no rows, and stops no other.
pub fn list_stands(
    lists: Lists<'_>,
    morning: Morning,
    stands: &[Stand],
    table: &mut [u16],
    replies: &mut [u64],
) -> Result<Listed, Refusal> {
    let numbers: Vec<[f64; 3]> = stands.iter().map(|stand| stand.numbers()).collect();
    let stands = numbers.as_flattened();
    ask(|reply| raw::list_stands(lists, morning, stands, table, replies, reply)).map(listed)
}

/// What a stand's three numbers in the replies of `list_stands` say of it.
///
/// # Panics
///
/// Where the first of them is the number of no reply, which no call writes.
pub fn stand_listed([number, rows, crossings]: [u64; 3]) -> Result<Listed, Refusal> {
    raw::answer([number, 0, rows, crossings, 0, 0, 0]).map(listed)
}

/// The door change: the list with one door shut or opened, as far as the same reach
/// goes, in a table as of `list`.
pub fn change(
    lists: Lists<'_>,
    asked: DoorChange<'_>,
    table: &mut [u16],
) -> Result<Listed, Refusal> {
    ask(|reply| raw::change(lists, asked, table, reply)).map(listed)
}

/// The drawing: where the limits of the listing's rows are from the stand, in whole
/// millimetres. `DRAWN` numbers a row go into the offsets, from their beginning on, which
/// have room for as many rows as there are corners: x and y of the right limit, then of the
/// left one. It is refused where one of them is more than 16,777,216 mm away in x or in y.
pub fn draw(lists: Lists<'_>, query: Query, offsets: &mut [f32]) -> Result<Listed, Refusal> {
    ask(|reply| raw::draw(lists, query, offsets, reply)).map(listed)
}

/// What the printing program prints for an input, which is a query record and a plan. A
/// refusal is printed too.
pub fn print(input: &[u8]) -> Vec<u8> {
    let mut text = vec![0; MOST_TEXT];
    let printed = ask(|reply| raw::print(input, &mut text, reply));
    let [length, ..] = printed.expect("the text has room for everything that is printed");
    text.truncate(length as usize);
    text
}
