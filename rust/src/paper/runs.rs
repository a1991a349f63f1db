//! "Changing a door", word for word: by routes and runs, not by listing anew. A door
//! out of reach has no run behind it, and keeps its row.

use super::sight::{Listed, Row, View};

/// The list after a door change, made from the rows before it.
///
/// `before` and `after` see the plan from the same stand and as far, and differ in
/// one door only; `faces` are the two faces of that door, and a stand on a side is
/// not on its line.
pub fn change_by_runs(
    before: &View<'_>,
    after: &View<'_>,
    rows: &[Row],
    faces: [u16; 2],
    shut: bool,
) -> Listed {
    let rows = if shut {
        shut_runs(before, rows, faces)
    } else {
        open_rows(after, rows, faces)
    };
    let crossings = count_passages(after, &rows);
    Listed { rows, crossings }
}

/// Shutting: each run becomes one row on the door, which is in reach, since it was
/// crossed.
fn shut_runs(before: &View<'_>, rows: &[Row], faces: [u16; 2]) -> Vec<Row> {
    let mut shut: Vec<Row> = Vec::new();
    let mut run: Option<Vec<u16>> = None;
    for &row in rows {
        let way = way_to_door(&route(before, row), faces);
        match (&way, &run) {
            (Some(way), Some(run)) if way == run => {
                shut.last_mut().expect("a run has begun")[2] = row[2];
            }
            (Some(way), _) => shut.push([way[way.len() - 1], row[1], row[2], 0]),
            (None, _) => shut.push(row),
        }
        run = way;
    }
    shut
}

/// Opening: each row on the door that is in reach becomes what is seen through the
/// door.
fn open_rows(after: &View<'_>, rows: &[Row], faces: [u16; 2]) -> Vec<Row> {
    rows.iter()
        .flat_map(|&row| match row {
            [face, right, left, 0] if faces.contains(&face) => {
                after.expand(vec![[face, right, left]]).rows
            }
            _ => vec![row],
        })
        .collect()
}

/// The free lines crossed to reach a row, each by the face on the side seen.
/// Any direction strictly inside the row's cone takes this route.
fn route(view: &View<'_>, row: Row) -> Vec<u16> {
    view.walk(view.middle(row))
        .expect("a direction strictly inside a cone meets no line's end")
        .route
}

/// The route up to and including the door, if it crosses the door.
fn way_to_door(route: &[u16], faces: [u16; 2]) -> Option<Vec<u16>> {
    let door = route.iter().position(|face| faces.contains(face))?;
    Some(route[..=door].to_vec())
}

/// Each passage of a free line by a cone is one beginning of some row's route;
/// rows that share a beginning stand together, so it is new only where the
/// route parts from that of the row before.
fn count_passages(view: &View<'_>, rows: &[Row]) -> u64 {
    let mut passages = 0;
    let mut last: Vec<u16> = Vec::new();
    for &row in rows {
        let route = route(view, row);
        let shared = route.iter().zip(&last).take_while(|(a, b)| a == b).count();
        passages += (route.len() - shared) as u64;
        last = route;
    }
    passages
}
