//! The measured examples, and plans that several tests ask about.

// The crate that is compared is tested by these examples too.
#[path = "../manopluea/tests/examples/mod.rs"]
mod measured;

pub use measured::{all, plan_q, plan_q_and, plan_q_as_one_cell, Example, Expected};

use crate::calls::{Calls, Plan, POINT, POLYGONS, ROW, TRIANGLES, WALL};
use crate::paper::COORDINATES;

impl Example {
    /// What an implementor lists for the example.
    pub fn ask(&self, calls: &dyn Calls) -> Expected {
        let mut table = vec![0; ROW * self.plan.corners.len() / 2];
        let listing = self.query().without_ceiling();
        let reply = calls.list(self.plan.lists(), listing, &mut table);
        if reply.number != 0 {
            return Expected::Refused(reply.number);
        }
        let (rows, _) = table.as_chunks::<ROW>();
        Expected::Listed {
            rows: rows[..reply.values[0] as usize].to_vec(),
            crossings: reply.values[1],
        }
    }
}

/// Stands in plan Q with each reply that they can have where no reach is stated: inside,
/// not whole, in the doorway, on a wall, from no corner, outside, and from corner 2.
pub const STANDS_IN_Q: [[f64; 3]; 7] = [
    [POINT, 6.0, 3.0],
    [POINT, 6.5, 3.0],
    [POINT, 5.0, 5.0],
    [POINT, 5.0, 0.0],
    [9.0, 1.0, 1.0],
    [POINT, 11.0, 5.0],
    [2.0, -4.0, -7.0],
];

/// A square of two cells from one end of the coordinates to the other.
pub fn widest() -> Plan {
    let end = *COORDINATES.end() as i32;
    Plan {
        corners: vec![-end, -end, end, -end, end, end, -end, end],
        ..plan_q()
    }
}

/// A hall whose far door, face 10, lies behind a corner of the plan: its cell is
/// entered on the corner's right and on its left. Faces 1 and 2 are doors too.
pub fn hall() -> Plan {
    Plan {
        corners: vec![-10, 0, 10, 0, 0, 10, 10, 20, -10, 20, 1, 30],
        cells: [
            [0, 1, 2, WALL, 1, 2],
            [1, 3, 2, WALL, 3, 0],
            [0, 2, 4, 0, 3, WALL],
            [2, 3, 4, 1, 4, 2],
            [4, 3, 5, 3, WALL, WALL],
        ]
        .concat(),
        doors: vec![10, 1, 2],
        kind: TRIANGLES,
    }
}

/// A plan of cells of 3 to 8 corners, with no doors.
pub fn polygons(corners: &[[i32; 2]], cells: &[(&[u16], &[u16])]) -> Plan {
    let numbers = |&(corners, neighbours): &(&[u16], &[u16])| {
        [&[corners.len() as u16], corners, neighbours].concat()
    };
    Plan {
        corners: corners.as_flattened().to_vec(),
        cells: cells.iter().flat_map(numbers).collect(),
        doors: vec![],
        kind: POLYGONS,
    }
}

/// One cell between walls with its corners at these spots, in this order.
pub fn one_cell(spots: &[[i32; 2]]) -> Plan {
    let numbers: Vec<u16> = (0..spots.len() as u16).collect();
    polygons(spots, &[(&numbers, &vec![WALL; spots.len()])])
}

/// A triangle, a cell of four corners, one of eight and one of five, from west to
/// east, with a door between each and the next. Their faces begin at 0, 3, 7 and
/// 15; the lines between them are faces 1 and 6, 4 and 14, 10 and 19.
pub fn row_of_cells() -> Plan {
    let corners = [
        [0, 0],
        [10, -10],
        [10, 10],
        [20, -10],
        [20, 10],
        [30, -20],
        [40, -20],
        [50, -10],
        [50, 10],
        [40, 20],
        [30, 20],
        [60, -10],
        [70, 0],
        [60, 10],
    ];
    let mut plan = polygons(
        &corners,
        &[
            (&[0, 1, 2], &[WALL, 1, WALL]),
            (&[1, 3, 4, 2], &[WALL, 2, WALL, 0]),
            (
                &[3, 5, 6, 7, 8, 9, 10, 4],
                &[WALL, WALL, WALL, 3, WALL, WALL, WALL, 1],
            ),
            (&[7, 11, 12, 13, 8], &[WALL, WALL, WALL, WALL, 2]),
        ],
    );
    plan.doors = vec![1, 4, 19];
    plan
}
