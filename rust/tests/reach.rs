//! "The scanner has a reach", request A5 of document 02: the named cases, of the paper
//! program and of the proved library; and the paper program against the request's own
//! words, by brute force, on the plans of seeded runs.

use manopluea_compare::both::{
    self, both, list_each, list_stands, listed, refused_as_ever, room, Listed,
};
use manopluea_compare::brute::{cross, dot, first_met, minus, Spot};
use manopluea_compare::calls::{
    DoorChange, Morning, Plan, Query, Reach, Reply, Stand, POLYGONS, WALL,
};
use manopluea_compare::examples::{
    hall, one_cell, plan_q, plan_q_as_one_cell, row_of_cells, widest, STANDS_IN_Q,
};
use manopluea_compare::generate::{self, in_other_kind, query_record, Dice, Scene, OCTAGON};
use manopluea_compare::paper::{encode, Direction, Floor, Place, Row, View};

/// The end of the coordinate range.
const LIMIT: i32 = 536_870_912;

/// The longest reach.
const MOST: u64 = 262_144;

/// Numbers that are no reach: beside the two ends, the largest, and such as would be
/// one if only their low bits were looked at.
const WRONG: [u64; 9] = [
    0,
    MOST + 1,
    2 * MOST,
    u64::MAX,
    1 << 32,
    (1 << 32) + 7,
    (1 << 63) + 7,
    u64::MAX - MOST,
    1 << 19,
];

fn at(x: i32, y: i32) -> Stand {
    Stand::Point(x.into(), y.into())
}

/// With every door open.
fn query(stand: Stand, reach: u64) -> Query {
    Query {
        reach: Reach::Stated(reach),
        ..Query::without_reach(0, stand)
    }
}

fn list(plan: &Plan, query: Query) -> Listed {
    both::list(plan, query.without_ceiling())
}

fn change(plan: &Plan, asked: DoorChange<'_>) -> Listed {
    listed(room(plan), |calls, table| {
        calls.change(plan.lists(), asked, table)
    })
}

/// Changes a door from the true list, and compares with a fresh listing.
fn toggle(plan: &Plan, query: Query, door: usize) -> Listed {
    let (given, _) = list(plan, query).expect("the stand was found");
    let shut = query.setting >> door & 1 == 0;
    let changed = change(
        plan,
        DoorChange {
            query,
            given: given.as_flattened(),
            door,
            shut,
        },
    );
    let setting = query.setting ^ 1 << door;
    assert_eq!(changed, list(plan, Query { setting, ..query }));
    changed
}

/// From (6, 3) the square of the distance is 9 to the wall below, 16 to the one on the
/// right, 49 above, 36 on the left, and 4.5 to the line of the door, whose nearest
/// point is (4.5, 4.5).
#[test]
fn plan_q_with_every_reach() {
    let stand = at(6, 3);
    let rows = |marks: [u16; 4]| {
        let lines = [[0, 0, 1], [1, 1, 2], [4, 2, 3], [5, 3, 0]];
        let rows: Vec<Row> = (0..4)
            .map(|i| [lines[i][0], lines[i][1], lines[i][2], marks[i]])
            .collect();
        Ok((rows, 1))
    };
    let nothing = Ok((vec![[0, 0, 1, 1], [1, 1, 2, 1], [2, 2, 0, 1]], 0));
    let expected = [
        (1, nothing.clone()),
        (2, nothing),
        (3, rows([0, 1, 1, 1])),
        (4, rows([0, 0, 1, 1])),
        (5, rows([0, 0, 1, 1])),
        (6, rows([0, 0, 1, 0])),
        (7, rows([0; 4])),
        (8, rows([0; 4])),
        (MOST, rows([0; 4])),
    ];
    let other = in_other_kind(&plan_q()).expect("it is of triangles");
    for (reach, expected) in expected {
        for stand in [stand, Stand::Offset(2, -4.0, -7.0)] {
            for plan in [&plan_q(), &other] {
                assert_eq!(list(plan, query(stand, reach)), expected, "{reach}");
            }
        }
    }
    let unlimited = list(&plan_q(), Query::without_reach(0, stand));
    assert_eq!(unlimited, rows([0; 4]));
}

/// The fourth numbers of the rows of a plan that is one cell.
fn marks(plan: &Plan, stand: Stand, reach: u64) -> Vec<u16> {
    let (rows, crossings) = list(plan, query(stand, reach)).expect("the stand is inside");
    let count = (plan.corners.len() / 2) as u16;
    let sides: Vec<[u16; 3]> = (0..count).map(|i| [i, i, (i + 1) % count]).collect();
    let seen: Vec<[u16; 3]> = rows.iter().map(|row| [row[0], row[1], row[2]]).collect();
    assert_eq!((seen, crossings), (sides, 0));
    rows.iter().map(|row| row[3]).collect()
}

/// Of the side from (3, 4) to (3, 14) the end at (3, 4) is nearest, 5 mm away; the
/// line that it lies on passes 3 mm from the stand, at (3, 0), which is before it.
#[test]
fn a_reach_that_is_the_distance_of_an_end() {
    let plan = one_cell(&[[0, -10], [3, 4], [3, 14], [-20, 0]]);
    for (reach, mark) in [(2, 1), (3, 1), (4, 1), (5, 0), (6, 0)] {
        assert_eq!(marks(&plan, at(0, 0), reach)[1], mark, "{reach}");
    }
    // The first side is just beyond 2 mm, the others about 9 and 10.
    let all = |reach| marks(&plan, at(0, 0), reach);
    assert_eq!(all(2), [1, 1, 1, 1]);
    assert_eq!(all(3), [0, 1, 1, 1]);
    assert_eq!(all(5), [0, 0, 1, 1]);
    assert_eq!(all(9), [0, 0, 1, 0]);
    assert_eq!(all(11), [0; 4]);
}

/// The stand is just 2 mm from the side from (30, 40) to (0, 0), whose nearest point
/// is (2.4, 3.2); the side from (0, 0) to (30, -10) is the square root of 10 away.
#[test]
fn a_reach_that_is_the_distance_of_a_foot_between_whole_points() {
    let plan = one_cell(&[[0, 0], [30, -10], [30, 40]]);
    for (reach, expected) in [
        (1, [1, 1, 1]),
        (2, [1, 1, 0]),
        (3, [1, 1, 0]),
        (4, [0, 1, 0]),
        (25, [0, 1, 0]),
        (26, [0, 0, 0]),
    ] {
        assert_eq!(marks(&plan, at(4, 2), reach), expected, "{reach}");
    }
}

/// Whether the wall below of the widest plan is in reach of a stand so high above it,
/// well to the right, where no other line is.
fn reaches_down(high: i32, reach: u64) -> bool {
    let stand = at(300_000_001, high - LIMIT);
    let (rows, crossings) = list(&widest(), query(stand, reach)).expect("it is inside");
    assert_eq!(crossings, 0);
    let [.., mark] = rows[0];
    assert_eq!(rows, [[0, 0, 1, mark], [1, 1, 2, 1], [2, 2, 0, 1]]);
    mark == 0
}

/// The side value of the wall below is 2^30 times the height, and the square of its
/// length 2^60: from 4 mm on what is compared goes beyond 64 bits.
#[test]
fn squares_that_pass_64_bits() {
    for high in [1, 2, 3, 4, 5, 8, 16, 255, 4_096, 65_536, 262_143, 262_144] {
        let far = high as u64;
        for (reach, expected) in [(far - 1, false), (far, true), (far + 1, true)] {
            if (1..=MOST).contains(&reach) {
                assert_eq!(reaches_down(high, reach), expected, "{high}, {reach}");
            }
        }
    }
    assert!(!reaches_down(262_145, MOST));
    // 16·2^60 is 0 in 64 bits: in reach of 3 mm, if the side value's square is cut;
    // out of reach of 4 mm at 3, if the other square is.
    let cut = |number: u128| number as u64;
    let (value, length) = (|high: u128| (high << 30) * (high << 30), 1 << 60);
    assert!(value(4) > 9 * length && u128::from(cut(value(4))) <= 9 * length);
    assert!(!reaches_down(4, 3));
    assert!(value(3) <= 16 * length && value(3) > u128::from(cut(16 * length)));
    assert!(reaches_down(3, 4));
}

/// Of the line from end to end of the coordinates, 2^30 mm in both axes. Where the
/// stand is beside one end of it, the squares of the way to the other end and of the
/// length are 2^61 each, and their product 2^122.
#[test]
fn a_diagonal_from_end_to_end_of_the_coordinates() {
    let plan = widest();
    for from_end in [150, 100_000, LIMIT - 100, LIMIT, LIMIT + 7, 2 * LIMIT - 200] {
        // So far below the diagonal: the square of the distance is half of that one's.
        for (below, nearest) in [(1, 1), (2, 2), (7, 5), (100, 71), (140, 99)] {
            let x = LIMIT - from_end;
            let stand = at(x, x - below);
            for (reach, is_in_reach) in [(nearest - 1, false), (nearest, true)] {
                if reach == 0 {
                    continue;
                }
                let (rows, crossings) = list(&plan, query(stand, reach)).expect("it is inside");
                let is_crossed = rows.len() == 4 && crossings == 1;
                assert_eq!(is_crossed, is_in_reach, "{stand:?}, {reach}");
                if !is_in_reach {
                    assert_eq!(rows[2], [2, 2, 0, 1]);
                }
                // From beyond the line it is the same.
                let beyond = at(x - below, x);
                let there = list(&plan, query(beyond, reach)).expect("it is inside");
                assert_eq!(there.1 == 1, is_in_reach, "{beyond:?}, {reach}");
            }
        }
    }
}

/// A line that 2^30 mm are not enough to get near to, from a stand that is as far
/// away as a point can be.
#[test]
fn what_is_farthest_is_out_of_reach() {
    let plan = widest();
    let stand = at(LIMIT - 1, LIMIT - 2);
    for reach in [1, 2, 3, 1_000, MOST] {
        let (rows, crossings) = list(&plan, query(stand, reach)).expect("it is inside");
        let walls: Vec<[u16; 2]> = rows.iter().map(|row| [row[0], row[3]]).collect();
        // The wall on the right is 1 mm away, that above 2; the diagonal less than 1.
        let above = u16::from(reach < 2);
        assert_eq!(
            (walls, crossings),
            (vec![[0, 1], [1, 0], [4, above], [5, 1]], 1)
        );
    }
}

#[test]
fn numbers_that_are_a_reach_and_numbers_that_are_not() {
    let plan = plan_q();
    let stand = at(6, 3);
    for reach in [1, 2, 65_535, 65_536, MOST - 1, MOST] {
        assert!(list(&plan, query(stand, reach)).is_ok(), "{reach}");
    }
    let (given, _) = list(&plan, Query::without_reach(0, stand)).expect("it is inside");
    for reach in WRONG {
        let query = query(stand, reach);
        assert_eq!(list(&plan, query), Err(15), "{reach}");
        let asked = DoorChange {
            query,
            given: given.as_flattened(),
            door: 0,
            shut: true,
        };
        assert_eq!(change(&plan, asked), Err(15), "{reach}");
    }
    // Finding has none.
    assert_eq!(
        both(|calls| calls.find(plan.lists(), 0, stand)),
        Reply::done([0])
    );
}

/// 15 goes after 8 and before 9, and so before all that is higher.
#[test]
fn a_wrong_reach_goes_after_the_stand_and_before_the_line() {
    let plan = plan_q();
    let [inside, on_a_wall, outside, in_doorway] = [at(6, 3), at(6, 0), at(11, 5), at(5, 5)];
    let not_whole = Stand::Point(6.5, 3.0);
    let no_corner = Stand::Offset(4, 1.0, 1.0);
    let mut on_its_back = plan_q();
    on_its_back.cells.swap(0, 1);
    for (plan, setting, stand, with, without) in [
        (&on_its_back, 0, inside, 4, 4),
        (&plan, 2, inside, 7, 7),
        (&plan, 2, not_whole, 7, 7),
        (&plan, 0, not_whole, 8, 8),
        (&plan, 0, no_corner, 8, 8),
        (&plan, 0, on_a_wall, 15, 9),
        (&plan, 1, in_doorway, 15, 9),
        (&plan, 0, outside, 15, 10),
        (&plan, 0, inside, 15, 11),
        (&plan, 0, in_doorway, 15, 11),
    ] {
        let unlimited = Query::without_reach(setting, stand);
        let ask = |query: Query| {
            // A table that is one number short.
            listed(room(plan) - 1, |calls, table| {
                calls.list(plan.lists(), query.without_ceiling(), table)
            })
        };
        assert_eq!(ask(unlimited), Err(without), "{stand:?}");
        for reach in WRONG {
            let reach = Reach::Stated(reach);
            let query = Query { reach, ..unlimited };
            assert_eq!(ask(query), Err(with), "{stand:?}, {reach:?}");
        }
    }
}

/// In the door change too: before the door underfoot (9), the room (11), the door (12)
/// and the given list (13).
#[test]
fn a_wrong_reach_of_a_door_change() {
    let plan = plan_q();
    let asked = DoorChange {
        query: Query::without_reach(0, at(6, 3)),
        given: &[],
        door: 0,
        shut: true,
    };
    let in_doorway = DoorChange {
        query: Query::without_reach(0, at(5, 5)),
        ..asked
    };
    let no_door = DoorChange { door: 1, ..asked };
    let as_wished = DoorChange {
        shut: false,
        ..asked
    };
    for (asked, room, without) in [
        (in_doorway, 16, 9),
        (asked, 15, 11),
        (no_door, 16, 12),
        (as_wished, 16, 12),
        (asked, 16, 13),
    ] {
        let ask = |asked: DoorChange<'_>| {
            listed(room, |calls, table| {
                calls.change(plan.lists(), asked, table)
            })
        };
        assert_eq!(ask(asked), Err(without));
        for reach in WRONG {
            let query = Query {
                reach: Reach::Stated(reach),
                ..asked.query
            };
            assert_eq!(ask(DoorChange { query, ..asked }), Err(15), "{reach}");
        }
    }
    let not_whole = DoorChange {
        query: query(Stand::Point(6.0, 0.5), 0),
        ..asked
    };
    assert_eq!(change(&plan, not_whole), Err(8));
}

/// The line of the door of plan Q is the square root of 4.5 away.
#[test]
fn a_door_just_in_reach_and_just_out_of_it() {
    let plan = plan_q();
    let stand = at(6, 3);
    let out = vec![[0, 0, 1, 1], [1, 1, 2, 1], [2, 2, 0, 1]];
    for setting in [0, 1] {
        let query = Query {
            setting,
            ..query(stand, 2)
        };
        assert_eq!(list(&plan, query), Ok((out.clone(), 0)));
        // It is changed, and nothing changes.
        assert_eq!(toggle(&plan, query, 0), Ok((out.clone(), 0)));
    }
    let open = vec![[0, 0, 1, 0], [1, 1, 2, 1], [4, 2, 3, 1], [5, 3, 0, 1]];
    let shut = vec![[0, 0, 1, 0], [1, 1, 2, 1], [2, 2, 0, 0]];
    assert_eq!(list(&plan, query(stand, 3)), Ok((open.clone(), 1)));
    assert_eq!(toggle(&plan, query(stand, 3), 0), Ok((shut, 0)));
    let under_shut = Query {
        setting: 1,
        ..query(stand, 3)
    };
    assert_eq!(toggle(&plan, under_shut, 0), Ok((open, 1)));
}

/// The true list is asked for of a door out of reach as well, and of that reach.
#[test]
fn a_door_out_of_reach_is_changed_from_the_true_list_only() {
    let plan = plan_q();
    let asked = DoorChange {
        query: query(at(6, 3), 2),
        given: &[0, 0, 1, 1, 1, 1, 2, 1, 2, 2, 0, 1],
        door: 0,
        shut: true,
    };
    assert!(change(&plan, asked).is_ok());
    for given in [
        // Another mark, three numbers a row, the list of a reach of 3, and of none.
        &[0, 0, 1, 0, 1, 1, 2, 1, 2, 2, 0, 1][..],
        &[0, 0, 1, 1, 1, 1, 2, 1, 2, 2, 0, 0],
        &[0, 0, 1, 1, 1, 1, 2, 1, 2, 2, 0, 2],
        &[0, 0, 1, 1, 1, 2, 2, 2, 0],
        &[0, 0, 1, 0, 1, 1, 2, 1, 4, 2, 3, 1, 5, 3, 0, 1],
        &[0, 0, 1, 0, 1, 1, 2, 0, 4, 2, 3, 0, 5, 3, 0, 0],
        &[],
    ] {
        assert_eq!(change(&plan, DoorChange { given, ..asked }), Err(13));
    }
    // It is open: to open it is no change.
    let open = DoorChange {
        shut: false,
        ..asked
    };
    assert_eq!(change(&plan, open), Err(12));
}

/// A given list of three numbers a row was the true one before there was a reach.
#[test]
fn three_numbers_a_row_are_not_the_true_list() {
    let plan = plan_q();
    let asked = DoorChange {
        query: Query::without_reach(0, at(6, 3)),
        given: &[0, 0, 1, 1, 1, 2, 4, 2, 3, 5, 3, 0],
        door: 0,
        shut: true,
    };
    assert_eq!(change(&plan, asked), Err(13));
    let given = &[0, 0, 1, 0, 1, 1, 2, 0, 4, 2, 3, 0, 5, 3, 0, 0];
    let shut = vec![[0, 0, 1, 0], [1, 1, 2, 0], [2, 2, 0, 0]];
    assert_eq!(change(&plan, DoorChange { given, ..asked }), Ok((shut, 0)));
}

/// From (0, 5) the far door is 15 mm away. It has a row for each route, in reach or
/// not, and behind it something is seen only where it is open and in reach.
#[test]
fn a_far_door_with_two_rows() {
    let plan = hall();
    let stand = at(0, 5);
    let on_door = |rows: &[Row]| -> Vec<u16> {
        let rows = rows.iter().filter(|row| row[0] == 10);
        rows.map(|row| row[3]).collect()
    };
    for (reach, open, shut) in [
        (14, vec![1, 1], vec![1, 1]),
        (15, vec![], vec![0, 0]),
        (16, vec![], vec![0, 0]),
    ] {
        let (rows, _) = list(&plan, query(stand, reach)).expect("it is inside");
        assert_eq!(on_door(&rows), open, "{reach}");
        let (rows, _) = toggle(&plan, query(stand, reach), 0).expect("it is changed");
        assert_eq!(on_door(&rows), shut, "{reach}");
    }
    // Every door under every setting, from reaches that end before, between and
    // behind them; the stands are in each cell, and on the lines between them.
    let spots = [[0, 5], [7, 9], [-7, 9], [0, 17], [0, 23], [5, 15], [-5, 15]];
    let mut unchanged = 0;
    for [x, y] in spots {
        for reach in [1, 3, 4, 5, 7, 8, 10, 14, 15, 18, 25, 26, MOST] {
            for setting in 0..8 {
                let query = Query {
                    setting,
                    ..query(at(x, y), reach)
                };
                let before = list(&plan, query);
                for door in 0..3 {
                    unchanged += usize::from(toggle(&plan, query, door) == before);
                }
            }
        }
    }
    assert!(unchanged > 500, "{unchanged}");
}

/// A room, a cell right of it, and a third one that lies above both: its long wall,
/// face 8, goes from (40, 20) back to (0, 16) behind the room's own wall.
fn room_with_a_long_wall_behind_it() -> Plan {
    Plan {
        corners: vec![0, 0, 10, 0, 10, 10, 0, 10, 40, 20, 0, 16],
        cells: [
            &[4, 0, 1, 2, 3, WALL, 1, WALL, WALL][..],
            &[3, 1, 4, 2, WALL, 2, 0],
            &[3, 2, 4, 5, 1, WALL, WALL],
        ]
        .concat(),
        doors: vec![],
        kind: POLYGONS,
    }
}

/// From (2, 2) the long wall is seen from (17.8, 17.8) on, 22.3 mm away, and farther;
/// of the whole of it a point behind the room's wall is nearest, 14.1 mm away.
#[test]
fn a_wall_whose_seen_part_is_out_of_reach() {
    let plan = room_with_a_long_wall_behind_it();
    let long_wall = |reach| {
        let (rows, crossings) = list(&plan, query(at(2, 2), reach)).expect("it is inside");
        let row = rows.iter().find(|row| row[0] == 8);
        (row.copied(), crossings)
    };
    let row = |mark| Some([8, 4, 2, mark]);
    // The line that leads to it has its nearest point at (10, 10), 11.3 mm away.
    assert_eq!(long_wall(11), (None, 1));
    for reach in 12..=14 {
        assert_eq!(long_wall(reach), (row(1), 2), "{reach}");
    }
    for reach in 15..=23 {
        assert_eq!(long_wall(reach), (row(0), 2), "{reach}");
    }
}

/// Walls of one cell, and cells of several sizes one behind the other.
#[test]
fn reaches_in_larger_cells() {
    let plan = plan_q_as_one_cell();
    for (reach, expected) in [
        (1, [1, 1, 1, 1]),
        (2, [1, 1, 1, 1]),
        (3, [0, 1, 1, 1]),
        (4, [0, 0, 1, 1]),
        (6, [0, 0, 1, 0]),
        (7, [0, 0, 0, 0]),
    ] {
        assert_eq!(marks(&plan, at(6, 3), reach), expected, "{reach}");
    }
    // The lines x = 10, 20 and 50 are 5, 15 and 45 mm from the stand.
    let plan = row_of_cells();
    let stand = at(5, 0);
    let seen = |reach| list(&plan, query(stand, reach)).expect("it is inside");
    let first = vec![[0, 0, 1, 0], [1, 1, 2, 1], [2, 2, 0, 0]];
    assert_eq!(seen(4), (first, 0));
    let second = vec![
        [0, 0, 1, 0],
        [3, 1, 3, 1],
        [4, 3, 4, 1],
        [5, 4, 2, 1],
        [2, 2, 0, 0],
    ];
    assert_eq!(seen(5), (second.clone(), 1));
    assert_eq!(seen(11), (second, 1));
    // The ends (10, -10) and (10, 10) of two walls are the square root of 125 away.
    let (rows, crossings) = seen(12);
    let marked: Vec<[u16; 2]> = rows.iter().map(|row| [row[0], row[3]]).collect();
    assert_eq!((crossings, rows.len()), (1, 5));
    assert_eq!(marked, [[0, 0], [3, 0], [4, 1], [5, 0], [2, 0]]);
    assert_eq!(seen(14), (rows, crossings));
    let (rows, crossings) = seen(15);
    assert_eq!(crossings, 2);
    assert!(rows.contains(&[10, 7, 8, 1]), "{rows:?}");
    let (rows, crossings) = seen(44);
    assert!(crossings == 2 && rows.contains(&[10, 7, 8, 1]), "{rows:?}");
    let (rows, crossings) = seen(45);
    assert!(
        crossings == 3 && rows.contains(&[16, 11, 12, 1]),
        "{rows:?}"
    );
    for reach in [4, 5, 14, 15, 44, 45, 60] {
        for setting in 0..8 {
            for door in 0..3 {
                let query = Query {
                    setting,
                    ..query(stand, reach)
                };
                toggle(&plan, query, door).expect("the door is changed");
            }
        }
    }
}

/// The line stood on is in every reach: what is around the stand is what is around it
/// without one.
#[test]
fn a_stand_on_a_side() {
    let plan = plan_q();
    for stand in [at(5, 5), Stand::Offset(2, -5.0, -5.0)] {
        for (reach, mark) in [(1, 1), (4, 1), (5, 0), (6, 0), (MOST, 0)] {
            let rows = [[0, 0, 1], [1, 1, 2], [4, 2, 3], [5, 3, 0]];
            let rows = rows.map(|[face, right, left]| [face, right, left, mark]);
            assert_eq!(list(&plan, query(stand, reach)), Ok((rows.to_vec(), 0)));
        }
        let shut = Query {
            setting: 1,
            ..query(stand, 1)
        };
        assert_eq!(list(&plan, shut), Err(9));
        let asked = DoorChange {
            query: query(stand, 1),
            given: &[],
            door: 0,
            shut: true,
        };
        assert_eq!(change(&plan, asked), Err(9));
    }
    // On the first door: the next is 10 mm away, the last 40.
    let plan = row_of_cells();
    for (reach, crossings) in [(1, 0), (9, 0), (10, 1), (39, 1), (40, 2), (41, 2)] {
        let query = query(at(10, 0), reach);
        let (_, crossed) = list(&plan, query).expect("it is on a free side");
        assert_eq!(crossed, crossings, "{reach}");
        for door in [1, 2] {
            toggle(&plan, query, door).expect("the door is changed");
        }
    }
}

/// A table of four numbers a corner is enough, whatever the reach; one number less is
/// not, however few rows there are.
#[test]
fn a_table_of_four_numbers_a_corner() {
    let plan = plan_q();
    for reach in [Reach::NotStated, Reach::Stated(1), Reach::Stated(MOST)] {
        let query = Query {
            reach,
            ..Query::without_reach(0, at(6, 3))
        };
        let (given, _) = list(&plan, query).expect("it is inside");
        let asked = DoorChange {
            query,
            given: given.as_flattened(),
            door: 0,
            shut: true,
        };
        for (room, number) in [(0, 11), (12, 11), (15, 11), (16, 0), (17, 0)] {
            let lists = plan.lists();
            for listed in [
                listed(room, |calls, table| {
                    calls.list(lists, query.without_ceiling(), table)
                }),
                listed(room, |calls, table| calls.change(lists, asked, table)),
            ] {
                assert_eq!(listed.map_or_else(|number| number, |_| 0), number, "{room}");
            }
        }
    }
    // As many rows as corners: a table that is just filled.
    let octagon = one_cell(&OCTAGON.map(|at| at.map(|number| number as i32)));
    // The slanting sides are 3 divided by the square root of 2 away, the others 2.
    for (reach, expected) in [
        (1, [1, 1, 1, 1, 1, 1, 1, 1]),
        (2, [0, 1, 0, 1, 0, 1, 0, 1]),
        (3, [0, 0, 0, 0, 0, 0, 0, 0]),
    ] {
        assert_eq!(marks(&octagon, at(0, 0), reach), expected, "{reach}");
    }
}

/// One reach serves all stands, and each is answered as it would be alone.
#[test]
fn one_reach_for_a_morning() {
    let plan = plan_q();
    for setting in [0, 1] {
        for reach in (1..=8).chain([MOST]).map(Reach::Stated) {
            let all = Morning {
                reach,
                ..Morning::under(setting)
            };
            let (own, rows) = list_stands(&plan, all, &STANDS_IN_Q);
            assert_eq!(
                (own, rows),
                list_each(&plan, all, &STANDS_IN_Q),
                "{reach:?}"
            );
        }
    }
    let all = Morning {
        reach: Reach::Stated(4),
        ..Morning::under(0)
    };
    let (own, rows) = list_stands(&plan, all, &STANDS_IN_Q);
    let numbers: Vec<u64> = own.iter().map(|own| own[0]).collect();
    assert_eq!(numbers, [0, 8, 0, 9, 8, 10, 0]);
    let marks: Vec<u16> = rows.iter().map(|row| row[3]).collect();
    assert_eq!(marks, [0, 0, 1, 1, 1, 1, 1, 1, 0, 0, 1, 1]);
}

/// A wrong reach is the reply of each stand but of those that are not accepted. It
/// refuses no call: room, setting and the count of stands do.
#[test]
fn a_wrong_reach_of_a_morning() {
    let plan = plan_q();
    for number in WRONG {
        let wrong = Morning {
            reach: Reach::Stated(number),
            ..Morning::under(0)
        };
        let (own, rows) = list_stands(&plan, wrong, &STANDS_IN_Q);
        let numbers: Vec<u64> = own.iter().map(|own| own[0]).collect();
        assert_eq!(numbers, [15, 8, 15, 15, 8, 15, 15], "{number}");
        assert!(own.iter().all(|own| own[1..] == [0, 0]) && rows.is_empty());
        assert_eq!(list_stands(&plan, wrong, &[]), (vec![], vec![]));
        refused_as_ever(wrong);
    }
}

/// The printing program states no reach: every row ends in 0, however far it is.
#[test]
fn what_is_printed_has_no_reach() {
    for (plan, stand, first) in [
        (plan_q(), at(6, 3), "rows 4 crossings 1\n0 0 1 0\n1 1 2 0\n"),
        (widest(), at(3, 1), "rows 4 crossings 1\n0 0 1 0\n1 1 2 0\n"),
    ] {
        let input = [query_record(0, stand), encode(plan.lists())].concat();
        let text = both(|calls| calls.print(&input));
        let text = String::from_utf8(text).expect("it prints letters and digits");
        assert_eq!(text, format!("{first}4 2 3 0\n5 3 0 0\n"));
    }
}

/// Whether the rows with a longer reach are these: in reach as they are, out of reach
/// as one or more that go on from limit to limit.
fn refines(near: &[Row], far: &[Row]) -> bool {
    let mut from = 0;
    for &[face, right, left, mark] in near {
        let Some(length) = far[from..].iter().position(|row| row[2] == left) else {
            return false;
        };
        let part = &far[from..from + length + 1];
        let goes_on = part.windows(2).all(|pair| pair[0][2] == pair[1][1]);
        let is_kept = mark == 1 || part == [[face, right, left, 0]];
        if !goes_on || !is_kept || part[0][1] != right {
            return false;
        }
        from += part.len();
    }
    from == far.len()
}

/// Of every two reaches the longer one only adds: rows, crossings, and lines in reach.
#[test]
fn a_longer_reach_only_adds() {
    for (plan, spots) in [
        (hall(), [[0, 5], [7, 9], [0, 17], [5, 15]]),
        (row_of_cells(), [[5, 0], [15, 3], [35, -12], [20, 0]]),
        (
            room_with_a_long_wall_behind_it(),
            [[2, 2], [8, 5], [20, 9], [10, 5]],
        ),
    ] {
        for [x, y] in spots {
            let unlimited = Query::without_reach(0, at(x, y));
            let (mut near, mut crossed) = list(&plan, query(at(x, y), 1)).expect("it is found");
            let longer = (2..=80).map(|reach| query(at(x, y), reach));
            for query in longer.chain([unlimited]) {
                let (far, crossings) = list(&plan, query).expect("it is found");
                assert!(refines(&near, &far), "{near:?}, {far:?}");
                assert!(crossings >= crossed && far.len() >= near.len());
                (near, crossed) = (far, crossings);
            }
            assert!(near.iter().all(|row| row[3] == 0));
        }
    }
}

// What follows asks the paper program alone, about the plans of seeded runs.

/// Whether no point of a line is so near to the stand, which its ends are seen from:
/// the line then lies beyond one that is farther. That one goes through an end of it,
/// at right angles to the way there, or along it.
fn is_out_of_reach([a, b]: [Spot; 2], reach: u64) -> bool {
    let way = minus(b, a);
    let beyond = |towards: Spot| {
        let least = dot(towards, a).min(dot(towards, b));
        let reach = i128::from(reach);
        least > 0 && least * least > reach * reach * dot(towards, towards)
    };
    beyond(a) || beyond(b) || beyond([way[1], -way[0]]) || beyond([-way[1], way[0]])
}

/// What is nearest of a line.
#[derive(Clone, Copy, Debug, PartialEq)]
enum Nearest {
    End,
    WholeFoot,
    /// The foot of the perpendicular is no point of whole millimetres.
    Foot,
}

fn nearest([a, b]: [Spot; 2]) -> Nearest {
    let way = minus(b, a);
    let (along, length) = (-dot(a, way), dot(way, way));
    let is_whole = |axis: usize| (along * way[axis]) % length == 0;
    if along <= 0 || along >= length {
        Nearest::End
    } else if is_whole(0) && is_whole(1) {
        Nearest::WholeFoot
    } else {
        Nearest::Foot
    }
}

/// Scenes of a run that can be listed, with the stand.
fn each_view(seed: u64, count: u64, mut look: impl FnMut(&Scene, &Floor, &View<'_>, Spot)) {
    for number in 0..count {
        let scene = generate::case(seed, number).scene;
        if let Ok(floor) = Floor::check(scene.plan.lists()) {
            if let Ok(view) = View::new(&floor, scene.query()) {
                let q = view.stand();
                look(&scene, &floor, &view, [q.x, q.y].map(i128::from));
            }
        }
    }
}

/// The ends of a face's line, seen from the stand.
fn seen(floor: &Floor, face: u16, q: Spot) -> [Spot; 2] {
    floor.ends(face).map(|corner| {
        let at = floor.corner(corner);
        minus([at.x, at.y].map(i128::from), q)
    })
}

fn all_faces(floor: &Floor) -> impl Iterator<Item = u16> + '_ {
    (0..floor.cell_count()).flat_map(|cell| floor.faces(cell))
}

/// How often lines at the end of a reach came up, by what is nearest of them.
#[derive(Debug, Default)]
struct Ties {
    /// Just as far as the reach; in reach, and not in one that is a millimetre
    /// shorter; out of reach, and not of one that is a millimetre longer.
    exact: [usize; 3],
    just_in: [usize; 3],
    just_out: [usize; 3],
    /// Of lines that are 2^29 mm long or more.
    long: [usize; 2],
    /// Of the lines of doors that have a row or were crossed.
    doors: [usize; 2],
    /// Where the product of two squares is beyond 2^64, and beyond 2^116.
    wide: [usize; 2],
}

#[test]
fn lines_are_in_reach_as_the_request_says() {
    let mut ties = Ties::default();
    each_view(31, 20_000, |scene, floor, view, q| {
        let Reach::Stated(reach) = scene.reach else {
            assert!(all_faces(floor).all(|face| view.is_in_reach(face)));
            return;
        };
        let rows = view.list().rows;
        for face in all_faces(floor) {
            let ends = seen(floor, face, q);
            let is_far = is_out_of_reach(ends, reach);
            assert_eq!(view.is_in_reach(face), !is_far, "{face} in {scene:?}");
            let just_in = !is_far && is_out_of_reach(ends, reach - 1);
            let just_out = is_far && !is_out_of_reach(ends, reach + 1);
            if !just_in && !just_out {
                continue;
            }
            let [a, b] = ends;
            let (way, by) = (minus(b, a), nearest(ends));
            let square = i128::from(reach) * i128::from(reach);
            let is_exact = match by {
                Nearest::End => dot(a, a).min(dot(b, b)) == square,
                _ => cross(a, b) * cross(a, b) == square * dot(way, way),
            };
            ties.exact[by as usize] += usize::from(is_exact);
            ties.just_in[by as usize] += usize::from(just_in);
            ties.just_out[by as usize] += usize::from(just_out);
            let which = usize::from(just_out);
            ties.long[which] += usize::from(dot(way, way) >= 1 << 58);
            let product = dot(a, a).max(dot(b, b)) * dot(way, way);
            ties.wide[0] += usize::from(product >= 1 << 64);
            ties.wide[1] += usize::from(product >= 1 << 116);
            let is_door = (0..floor.doors().len()).any(|door| {
                let faces = floor.door_faces(door);
                let is_shut = scene.setting >> door & 1 == 1;
                // In reach and open, it has no row.
                let has_row = rows.iter().any(|row| faces.contains(&row[0]));
                faces.contains(&face) && (has_row || just_in && !is_shut)
            });
            ties.doors[which] += usize::from(is_door);
        }
    });
    println!("{ties:?}");
    assert!(ties.exact.iter().all(|&count| count > 50), "{ties:?}");
    assert!(ties.just_in.iter().all(|&count| count > 500), "{ties:?}");
    assert!(ties.just_out.iter().all(|&count| count > 500), "{ties:?}");
    assert!(ties.long.iter().all(|&count| count > 50), "{ties:?}");
    assert!(ties.doors.iter().all(|&count| count > 200), "{ties:?}");
    assert!(ties.wide[0] > 1_000 && ties.wide[1] > 30, "{ties:?}");
}

/// How often each reach was stated.
#[test]
fn reaches_of_every_kind_are_stated() {
    let mut counts = [0; 8];
    for number in 0..8_000 {
        let kind = match generate::case(32, number).scene.reach {
            Reach::NotStated => 0,
            Reach::Stated(0) => 1,
            Reach::Stated(1) => 2,
            Reach::Stated(MOST) => 3,
            Reach::Stated(reach) if reach == MOST + 1 => 4,
            Reach::Stated(u64::MAX) => 5,
            Reach::Stated(reach) if reach > MOST => 6,
            Reach::Stated(_) => 7,
        };
        counts[kind] += 1;
    }
    assert!(counts.iter().all(|&count| count > 50), "{counts:?}");
    assert!(counts[0] > 2_000 && counts[7] > 3_000, "{counts:?}");
}

/// Demand 2 by brute force: whatever direction is taken whose ray meets no corner, one
/// row holds it, on the first line that is wall or out of reach, which the walk ends at;
/// its fourth number says which.
#[test]
fn one_row_holds_each_direction() {
    let (mut walls, mut far_walls, mut far_lines, mut from_sides) = (0, 0, 0, 0);
    each_view(33, 16_000, |scene, floor, view, q| {
        let Reach::Stated(reach) = scene.reach else {
            return;
        };
        if floor.cell_count() > 150 {
            return;
        }
        let across = floor.across_under(scene.setting).expect("it was listed");
        let is_wall = |face: u16| across[usize::from(face)] == WALL;
        let ends: Vec<(u16, [Spot; 2])> = all_faces(floor)
            .map(|face| (face, seen(floor, face, q)))
            .filter(|&(face, ends)| is_wall(face) || is_out_of_reach(ends, reach))
            .collect();
        let rows = view.list().rows;
        let dice = &mut Dice::new(rows.len() as u64);
        for number in 0..30 {
            let near = dice.pick(floor.corners());
            let [x, y] = match number % 2 {
                0 => [dice.between(-9, 9), dice.between(-9, 9)],
                _ => [near.x - q[0] as i64, near.y - q[1] as i64]
                    .map(|n| (9 * n + dice.between(-1, 1)).clamp(-1 << 31, 1 << 31)),
            };
            let d = Direction { x, y };
            if [x, y] == [0, 0] || view.meets_corner(d) {
                continue;
            }
            let holds = |&&[_, right, left, _]: &&Row| view.between(right, d, left);
            let held: Vec<&Row> = rows.iter().filter(holds).collect();
            let [&[face, _, _, mark]] = held[..] else {
                panic!("{d:?} is held by {held:?} in {scene:?}");
            };
            let is_far = is_out_of_reach(seen(floor, face, q), reach);
            assert_eq!(mark, u16::from(is_far), "{d:?} in {scene:?}");
            let walk = view.walk(d).expect("the ray meets no corner");
            assert_eq!(face, walk.end, "{d:?} in {scene:?}");
            let first = first_met(&ends, [x, y].map(i128::from));
            assert_eq!(first, Some(face), "{d:?} in {scene:?}");
            match (mark, is_wall(face)) {
                (0, _) => walls += 1,
                (_, true) => far_walls += 1,
                (_, false) => far_lines += 1,
            }
            from_sides += usize::from(matches!(view.place(), Place::Within(_)));
        }
    });
    println!("{walls} {far_walls} {far_lines} {from_sides}");
    assert!(walls > 10_000 && far_walls > 5_000 && far_lines > 5_000);
    assert!(from_sides > 3_000);
}

/// The rows of a longer reach are those of a shorter one, but for those out of it.
#[test]
fn a_longer_reach_only_adds_anywhere() {
    let (mut compared, mut further) = (0, 0);
    for number in 0..12_000 {
        let case = generate::case(34, number);
        let scene = &case.scene;
        let Ok(floor) = Floor::check(scene.plan.lists()) else {
            continue;
        };
        let with = |reach| {
            let query = Query {
                reach,
                ..scene.query()
            };
            View::new(&floor, query).map(|view| view.list())
        };
        let (Ok(near), Ok(far)) = (with(scene.reach), with(case.longer)) else {
            continue;
        };
        assert!(refines(&near.rows, &far.rows), "{scene:?}");
        assert!(near.crossings <= far.crossings && near.rows.len() <= far.rows.len());
        assert!(far.rows.len() <= floor.corners().len());
        compared += usize::from(scene.reach.is_stated());
        further += usize::from(near.crossings < far.crossings);
    }
    assert!(compared > 3_000 && further > 1_000, "{compared} {further}");
}
