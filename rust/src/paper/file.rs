//! "The plan file": records, the reader's framing and the writer's bytes.

use super::plan::whole_cells;
use crate::calls::{Lists, Plan, Refusal};

/// A record's length and kind, before its body.
const HEAD: usize = 6;

/// Takes a file apart into its lists, not yet checked; refuses by FRAME only.
pub fn decode(file: &[u8]) -> Result<Plan, Refusal> {
    let (1, corners, rest) = take_record_of(file, 8)? else {
        return Err(Refusal::Frame);
    };
    let (kind, cells, rest) = take_record_of(rest, 2)?;
    let (3, doors, []) = take_record_of(rest, 2)? else {
        return Err(Refusal::Frame);
    };
    let cells = words(cells);
    // Any kind but the two that cells come in is refused here too.
    whole_cells(kind, &cells)?;
    Ok(Plan {
        corners: corners
            .chunks_exact(4)
            .map(|bytes| i32::from_le_bytes(bytes.try_into().expect("four bytes")))
            .collect(),
        cells,
        doors: words(doors),
        kind,
    })
}

fn words(body: &[u8]) -> Vec<u16> {
    body.chunks_exact(2)
        .map(|bytes| u16::from_le_bytes([bytes[0], bytes[1]]))
        .collect()
}

/// A record, and what follows it: kind, body, rest.
type Record<'a> = (u16, &'a [u8], &'a [u8]);

/// The record at the start of the bytes, where its body is a multiple of so
/// many.
fn take_record_of(bytes: &[u8], multiple: usize) -> Result<Record<'_>, Refusal> {
    match take_record(bytes) {
        Some(record) if record.1.len().is_multiple_of(multiple) => Ok(record),
        _ => Err(Refusal::Frame),
    }
}

/// The record at the start of the bytes.
pub fn take_record(bytes: &[u8]) -> Option<Record<'_>> {
    let (head, rest) = bytes.split_at_checked(HEAD)?;
    let length = u32::from_le_bytes([head[0], head[1], head[2], head[3]]);
    let kind = u16::from_le_bytes([head[4], head[5]]);
    let (body, rest) = rest.split_at_checked(usize::try_from(length).ok()?)?;
    Some((kind, body, rest))
}

/// The one file for these lists: the kind that they are in is their record's.
pub fn encode(lists: Lists<'_>) -> Vec<u8> {
    let corners = lists.corners.iter().flat_map(|n| n.to_le_bytes()).collect();
    let cells = lists.cells.iter().flat_map(|n| n.to_le_bytes()).collect();
    let doors = lists.doors.iter().flat_map(|n| n.to_le_bytes()).collect();
    [
        record(1, corners),
        record(lists.kind, cells),
        record(3, doors),
    ]
    .concat()
}

fn record(kind: u16, body: Vec<u8>) -> Vec<u8> {
    let length = body.len() as u32;
    [
        length.to_le_bytes().as_slice(),
        kind.to_le_bytes().as_slice(),
        body.as_slice(),
    ]
    .concat()
}
