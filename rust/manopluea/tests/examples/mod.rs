//! Plan Q, and the twelve measured examples of document 01, h as request A4 of document 02
//! has it and rows as request A5 does. The comparison has this file too.

use manopluea::{Plan, Query, Stand, POLYGONS, ROW, TRIANGLES, WALL};

/// What an example replies: its rows and crossings, or a refusal's number.
#[derive(Clone, Debug, PartialEq, Eq)]
pub enum Expected {
    Listed {
        rows: Vec<[u16; ROW]>,
        crossings: u64,
    },
    Refused(u32),
}

/// A listing and its reply.
#[derive(Clone, Debug)]
pub struct Example {
    pub letter: char,
    pub plan: Plan,
    pub stand: Stand,
    pub setting: u64,
    pub expected: Expected,
}

impl Example {
    /// An example states no reach.
    pub fn query(&self) -> Query {
        Query::without_reach(self.setting, self.stand)
    }
}

/// Plan Q: a square of two cells, with a door on its diagonal.
pub fn plan_q() -> Plan {
    Plan {
        corners: vec![0, 0, 10, 0, 10, 10, 0, 10],
        cells: vec![0, 1, 2, WALL, WALL, 1, 0, 2, 3, 0, WALL, WALL],
        doors: vec![2],
        kind: TRIANGLES,
    }
}

/// Plan Q as one cell of four corners, without its door.
pub fn plan_q_as_one_cell() -> Plan {
    Plan {
        cells: vec![4, 0, 1, 2, 3, WALL, WALL, WALL, WALL],
        doors: vec![],
        kind: POLYGONS,
        ..plan_q()
    }
}

/// Plan Q+P: plan Q with one more cell, whose third corner is P.
pub fn plan_q_and(p: [i32; 2]) -> Plan {
    let mut plan = plan_q();
    plan.corners.extend(p);
    plan.cells[10] = 2;
    plan.cells.extend([3, 2, 4, 1, WALL, WALL]);
    plan
}

/// Examples a to l, in that order.
pub fn all() -> Vec<Example> {
    let q = plan_q;
    let at = Stand::Point;
    let beside = at(6.0, 3.0);
    let seen_from_a = [[0, 0, 1], [1, 1, 2], [4, 2, 3], [5, 3, 0]];
    let a = listed(&seen_from_a, 1);
    let b = listed(&[[0, 0, 1], [1, 1, 2], [2, 2, 0]], 0);
    let d = [[0, 0, 1], [1, 1, 2], [7, 2, 4], [8, 4, 3], [5, 3, 0]];
    let e = listed(&[[0, 0, 1], [1, 1, 2], [7, 2, 3], [5, 3, 0]], 2);
    let f = listed(&[[0, 0, 1], [1, 1, 2], [8, 2, 3], [5, 3, 0]], 2);
    let refused = Expected::Refused;
    let table = [
        ('a', q(), beside, 0, a.clone()),
        ('b', q(), beside, 1, b),
        ('c', q(), at(3.0, 6.0), 0, a),
        ('d', plan_q_and([0, 20]), beside, 0, listed(&d, 2)),
        ('e', plan_q_and([-6, 17]), beside, 0, e),
        ('f', plan_q_and([14, 17]), beside, 0, f.clone()),
        ('g', plan_q_and([30, 11]), beside, 0, f),
        ('h', q(), at(5.0, 5.0), 0, listed(&seen_from_a, 0)),
        ('i', q(), at(11.0, 5.0), 0, refused(10)),
        ('j', q(), at(6.5, 3.0), 0, refused(8)),
        ('k', q(), at(6.0, -0.0), 0, refused(9)),
        ('l', q(), beside, 2, refused(7)),
    ];
    table
        .into_iter()
        .map(|(letter, plan, stand, setting, expected)| Example {
            letter,
            plan,
            stand,
            setting,
            expected,
        })
        .collect()
}

/// Every line is in reach.
fn listed(lines: &[[u16; 3]], crossings: u64) -> Expected {
    let rows = lines.iter();
    Expected::Listed {
        rows: rows
            .map(|&[face, right, left]| [face, right, left, 0])
            .collect(),
        crossings,
    }
}
