//! The functions of `include/manopluea.h`, with slices for pointers and lengths and
//! a lent reply. The header has the promise of each.
//!
//! A reply is seven numbers: its number, its place and five values. `answer` reads them.
//! Where there is room for fewer, a function does nothing at all; numbers beyond the
//! seven keep their values.

use crate::{DoorChange, Listing, Lists, Morning, Query, Refusal, Stand, REPLY};

/// The values of a reply. Those that a call has no use for are 0.
pub type Values = [u64; REPLY - 2];

/// What a function left in its reply: the values, or the refusal.
///
/// # Panics
///
/// Where the first number is none that a function replies.
pub fn answer([number, place, values @ ..]: [u64; REPLY]) -> Result<Values, Refusal> {
    if number == 0 {
        return Ok(values);
    }
    let refusal = Refusal::numbered(number, place);
    Err(refusal.expect("a reply's number is one of 0 to 15, 17 or 19"))
}

/// Declares a function of the archive and calls it, from one list of typed
/// arguments: a slice passes as its pointer and its length, `Lists` as its
/// three slices and its kind, `Reach` as whether it is stated and its number,
/// `Option<u64>`, a ceiling, as whether there is one and its number, anything else
/// as it is. Where there is no ceiling its number means nothing, and is the one that
/// would refuse most if it did.
///
/// The call is safe because each pointer comes with the length of its own
/// slice, a slice's pointer is never null, and memory that is written to is
/// borrowed as mutable, so it overlaps nothing. The functions ask nothing else but
/// `STACK` bytes of stack: they take it page by page, and where it is not there the guard
/// page below it ends the process.
macro_rules! call {
    ($function:ident($($arguments:tt)*)) => {
        call!(@ $function [] [] $($arguments)*)
    };
    (@ $function:ident [$($declared:tt)*] [$($passed:tt)*] $name:ident: Lists, $($rest:tt)*) => {
        call!(@ $function
            [$($declared)*
                _: *const i32, _: usize, _: *const u16, _: usize, _: *const u16, _: usize, _: u16,]
            [$($passed)*
                $name.corners.as_ptr(), $name.corners.len(),
                $name.cells.as_ptr(), $name.cells.len(),
                $name.doors.as_ptr(), $name.doors.len(),
                $name.kind,]
            $($rest)*)
    };
    (@ $function:ident [$($declared:tt)*] [$($passed:tt)*] $name:ident: Reach, $($rest:tt)*) => {
        call!(@ $function
            [$($declared)* _: bool, _: u64,]
            [$($passed)* $name.is_stated(), $name.number(),]
            $($rest)*)
    };
    (@ $function:ident [$($declared:tt)*] [$($passed:tt)*] $name:ident: Option<u64>, $($rest:tt)*) => {
        call!(@ $function
            [$($declared)* _: bool, _: u64,]
            [$($passed)* $name.is_some(), $name.unwrap_or(0),]
            $($rest)*)
    };
    (@ $function:ident [$($declared:tt)*] [$($passed:tt)*] $name:ident: &[$number:ty], $($rest:tt)*) => {
        call!(@ $function
            [$($declared)* _: *const $number, _: usize,]
            [$($passed)* $name.as_ptr(), $name.len(),]
            $($rest)*)
    };
    (@ $function:ident [$($declared:tt)*] [$($passed:tt)*] $name:ident: &mut [$number:ty], $($rest:tt)*) => {
        call!(@ $function
            [$($declared)* _: *mut $number, _: usize,]
            [$($passed)* $name.as_mut_ptr(), $name.len(),]
            $($rest)*)
    };
    (@ $function:ident [$($declared:tt)*] [$($passed:tt)*] $name:ident: $number:ty, $($rest:tt)*) => {
        call!(@ $function [$($declared)* _: $number,] [$($passed)* $name,] $($rest)*)
    };
    (@ $function:ident [$($declared:tt)*] [$($passed:tt)*]) => {{
        extern "C" {
            fn $function($($declared)*);
        }
        // SAFETY: see above.
        unsafe { $function($($passed)*) }
    }};
}

/// Calls the one of two functions that takes such a stand, with the arguments before it and
/// after it.
macro_rules! call_from {
    ($stand:ident, $point:ident, $offset:ident, [$($before:tt)*] [$($after:tt)*]) => {
        match $stand {
            Stand::Point(x, y) => call!($point($($before)* x: f64, y: f64, $($after)*)),
            Stand::Offset(corner, dx, dy) => {
                call!($offset($($before)* corner: u16, dx: f64, dy: f64, $($after)*))
            }
        }
    };
}

/// The plan check. Values: corners, cells, doors.
pub fn check(lists: Lists<'_>, reply: &mut [u64]) {
    call!(manopluea_check(lists: Lists, reply: &mut [u64],))
}

/// The reader. Values: corners, cells, doors, the kind that was read, and how many
/// numbers the list of cells has.
pub fn read(
    file: &[u8],
    corners: &mut [i32],
    cells: &mut [u16],
    doors: &mut [u16],
    reply: &mut [u64],
) {
    call!(manopluea_read(
        file: &[u8],
        corners: &mut [i32],
        cells: &mut [u16],
        doors: &mut [u16],
        reply: &mut [u64],
    ))
}

/// The writer. Values: corners, cells, doors.
pub fn write(lists: Lists<'_>, file: &mut [u8], reply: &mut [u64]) {
    call!(manopluea_write(lists: Lists, file: &mut [u8], reply: &mut [u64],))
}

/// Finding. Values: the cell, 1 where the stand is within a side of it, and that side.
pub fn find(lists: Lists<'_>, setting: u64, stand: Stand, reply: &mut [u64]) {
    call_from!(
        stand,
        manopluea_find_point,
        manopluea_find_offset,
        [lists: Lists, setting: u64,]
        [reply: &mut [u64],]
    )
}

/// The listing, `ROW` numbers a row. Values: rows, crossings.
pub fn list(lists: Lists<'_>, listing: Listing, table: &mut [u16], reply: &mut [u64]) {
    let Listing { query, ceiling } = listing;
    let Query {
        setting,
        stand,
        reach,
    } = query;
    call_from!(
        stand,
        manopluea_list_point,
        manopluea_list_offset,
        [lists: Lists, setting: u64,]
        [reach: Reach, ceiling: Option<u64>, table: &mut [u16], reply: &mut [u64],]
    )
}

/// A morning's stands, three numbers each, as `Stand::numbers` has them; three numbers a
/// stand go into the replies, which `stand_listed` reads. Values: the sums of rows and of
/// crossings.
pub fn list_stands(
    lists: Lists<'_>,
    morning: Morning,
    stands: &[f64],
    table: &mut [u16],
    replies: &mut [u64],
    reply: &mut [u64],
) {
    let Morning {
        setting,
        reach,
        ceiling,
    } = morning;
    call!(manopluea_list_stands(
        lists: Lists,
        setting: u64,
        stands: &[f64],
        reach: Reach,
        ceiling: Option<u64>,
        table: &mut [u16],
        replies: &mut [u64],
        reply: &mut [u64],
    ))
}

/// The door change. Values: rows, crossings.
pub fn change(lists: Lists<'_>, asked: DoorChange<'_>, table: &mut [u16], reply: &mut [u64]) {
    let DoorChange {
        query,
        given,
        door,
        shut,
    } = asked;
    let Query {
        setting,
        stand,
        reach,
    } = query;
    call_from!(
        stand,
        manopluea_change_point,
        manopluea_change_offset,
        [lists: Lists, setting: u64,]
        [reach: Reach, given: &[u16], door: usize, shut: bool, table: &mut [u16], reply: &mut [u64],]
    )
}

/// The drawing, `DRAWN` numbers a row. Values: rows, crossings.
pub fn draw(lists: Lists<'_>, query: Query, offsets: &mut [f32], reply: &mut [u64]) {
    let Query {
        setting,
        stand,
        reach,
    } = query;
    call_from!(
        stand,
        manopluea_draw_point,
        manopluea_draw_offset,
        [lists: Lists, setting: u64,]
        [reach: Reach, offsets: &mut [f32], reply: &mut [u64],]
    )
}

/// What the printing program prints for an input, into a text of at least `MOST_TEXT`
/// bytes. Values: how many bytes.
pub fn print(input: &[u8], text: &mut [u8], reply: &mut [u64]) {
    call!(manopluea_print(input: &[u8], text: &mut [u8], reply: &mut [u64],))
}
