//! "Drawing on the tablet", request A2 of document 02: the named cases, of the paper
//! program and of the proved library; and both against the listing's rows on the plans of a
//! seeded run.

use manopluea_compare::both::{both, draw, drawn, list, DrawnRow, SINGLES};
use manopluea_compare::calls::{
    Calls, Plan, Query, Reach, Refusal, Reply, Stand, DRAWN, POLYGONS, ROW, WALL,
};
use manopluea_compare::examples::{
    self, one_cell, plan_q, plan_q_and, plan_q_as_one_cell, row_of_cells, widest, Expected,
};
use manopluea_compare::generate::{self, in_other_kind, OCTAGON};
use manopluea_compare::paper::Paper;
use std::collections::BTreeSet;

/// As far as can be drawn, in x and in y.
const MOST: i32 = 16_777_216;

/// The end of the coordinate range.
const LIMIT: i32 = 536_870_912;

/// Distances that are too far: the first two beyond, of which single precision has the
/// second; others that it has, and others that it has not.
const TOO_FAR: [i32; 6] = [
    MOST + 1,
    MOST + 2,
    MOST + 3,
    2 * MOST,
    100_000_001,
    LIMIT - 20,
];

/// Distances that are not.
const DRAWN_YET: [i32; 7] = [1, 2, 3, 8_388_609, MOST - 2, MOST - 1, MOST];

fn at([x, y]: [i32; 2]) -> Stand {
    Stand::Point(x.into(), y.into())
}

/// With every door open, and no reach.
fn from(spot: [i32; 2]) -> Query {
    Query::without_reach(0, at(spot))
}

fn within(reach: u64, query: Query) -> Query {
    Query {
        reach: Reach::Stated(reach),
        ..query
    }
}

/// How many rows are drawn, or the number of the refusal.
fn rows(plan: &Plan, query: Query) -> Result<usize, u32> {
    draw(plan, query).map(|(rows, _)| rows.len())
}

/// A spot after so many quarter turns round zero.
fn turned([x, y]: [i32; 2], turns: usize) -> [i32; 2] {
    (0..turns).fold([x, y], |[x, y], _| [-y, x])
}

/// One cell whose tip is so far from a stand at zero, east of it, or after quarter turns
/// north, west or south; its other corners are 10 mm away. The tip's number is that of the
/// turns too, as far as there are corners.
fn arrow(far: i32, turns: usize) -> Plan {
    let mut spots = [[far, 0], [-10, 10], [-10, -10]].map(|at| turned(at, turns));
    spots.rotate_right(turns % 3);
    one_cell(&spots)
}

/// A plan with all its corners moved.
fn moved(mut plan: Plan, by: [i32; 2]) -> Plan {
    let (spots, _) = plan.corners.as_chunks_mut::<2>();
    spots
        .iter_mut()
        .for_each(|at| *at = [at[0] + by[0], at[1] + by[1]]);
    plan
}

/// Each is drawn from the rows that it has, or refused alike.
#[test]
fn the_twelve_examples() {
    for example in examples::all() {
        let expected = match &example.expected {
            Expected::Refused(number) => Err(*number),
            Expected::Listed { rows, crossings } => {
                let Stand::Point(x, y) = example.stand else {
                    panic!("the stands of the examples are points");
                };
                let offset = |corner: u16| {
                    let at = 2 * usize::from(corner);
                    let [corner_x, corner_y] = [0, 1].map(|axis| example.plan.corners[at + axis]);
                    [corner_x - x as i32, corner_y - y as i32].map(|number| number as f32)
                };
                let row = |&[_, right, left, _]: &[u16; ROW]| -> DrawnRow {
                    let [[a, b], [c, d]] = [offset(right), offset(left)];
                    [a, b, c, d]
                };
                Ok((rows.iter().map(row).collect(), *crossings))
            }
        };
        assert_eq!(draw(&example.plan, example.query()), expected);
    }
    // The first of them in numbers: each corner comes twice.
    let [a, b, c, d] = [[-6.0, -3.0], [4.0, -3.0], [4.0, 7.0], [-6.0, 7.0]];
    let rows = [[a, b], [b, c], [c, d], [d, a]].map(|[right, left]| {
        let [x, y] = right;
        [x, y, left[0], left[1]]
    });
    let q = plan_q();
    for plan in [&q, &in_other_kind(&q).expect("it is of triangles")] {
        let from_corner_2 = Query::without_reach(0, Stand::Offset(2, -4.0, -7.0));
        for query in [from([6, 3]), from_corner_2] {
            assert_eq!(draw(plan, query), Ok((rows.to_vec(), 1)));
        }
    }
}

/// Offsets of 0, 1 and -1, each in x and in y: 0 is plus zero, as `drawn` holds every
/// drawing to, also from a stand that is given as minus zero.
#[test]
fn zero_and_one() {
    let diamond = one_cell(&[[1, 0], [0, 1], [-1, 0], [0, -1]]);
    let rows = [
        [1.0, 0.0, 0.0, 1.0],
        [0.0, 1.0, -1.0, 0.0],
        [-1.0, 0.0, 0.0, -1.0],
        [0.0, -1.0, 1.0, 0.0],
    ];
    for stand in [
        Stand::Point(0.0, 0.0),
        Stand::Point(-0.0, -0.0),
        Stand::Offset(0, -1.0, -0.0),
        Stand::Offset(3, 0.0, 1.0),
    ] {
        let query = Query::without_reach(0, stand);
        assert_eq!(draw(&diamond, query), Ok((rows.to_vec(), 0)));
    }
    for by in [[-7, 5], [MOST, -MOST], [MOST + 1, 2 * MOST + 1]] {
        let plan = moved(diamond.clone(), by);
        assert_eq!(draw(&plan, from(by)), Ok((rows.to_vec(), 0)), "{by:?}");
    }
}

/// In x and in y, ahead and behind, as the first limit of a drawing and as a later one.
#[test]
fn up_to_the_limit_and_beyond() {
    for turns in 0..12 {
        for far in DRAWN_YET {
            let plan = arrow(far, turns);
            let (rows, crossings) = draw(&plan, from([0, 0])).expect("it is not too far");
            let tip = turned([far, 0], turns);
            let right = |row: &DrawnRow| [row[0], row[1]].map(|number| number as i32);
            let limits: Vec<[i32; 2]> = rows.iter().map(right).collect();
            assert_eq!(limits[turns % 3], tip);
            let (spots, _) = plan.corners.as_chunks::<2>();
            assert_eq!((&limits[..], crossings), (spots, 0));
        }
        for far in TOO_FAR {
            assert_eq!(draw(&arrow(far, turns), from([0, 0])), Err(14), "{far}");
        }
    }
}

/// It is the difference that counts, wherever stand and corner are: coordinates that single
/// precision has not have differences that it has.
#[test]
fn anywhere_in_the_coordinates() {
    let room = LIMIT - MOST - 3;
    for by in [
        [room, -room],
        [-room, room],
        [MOST + 1, 3],
        [-LIMIT + 10, -LIMIT + 11],
    ] {
        for turns in 0..4 {
            // Not where it would be beyond the range.
            let fits = |far: i32| {
                let tip = turned([far, 0], turns);
                let mut sums = (0..2).map(|axis| i64::from(tip[axis]) + i64::from(by[axis]));
                sums.all(|sum| sum.abs() <= i64::from(LIMIT))
            };
            for far in DRAWN_YET.into_iter().filter(|&far| fits(far)) {
                let here = draw(&arrow(far, turns), from([0, 0]));
                let there = moved(arrow(far, turns), by);
                assert!(here.is_ok());
                assert_eq!(draw(&there, from(by)), here, "{far} {by:?}");
            }
            for far in [MOST + 1, MOST + 2].into_iter().filter(|&far| fits(far)) {
                assert_eq!(draw(&moved(arrow(far, turns), by), from(by)), Err(14));
            }
        }
    }
}

/// Every corner as far as can be in x or in y, or in both; a millimetre beside the middle
/// something is too far.
#[test]
fn from_the_middle_and_beside_it() {
    let half = MOST / 2;
    let octagon = one_cell(&OCTAGON.map(|at| at.map(|number| number as i32 * half)));
    let mut square = plan_q();
    square.corners = vec![-MOST, -MOST, MOST, -MOST, MOST, MOST, -MOST, MOST];
    let as_one_cell = Plan {
        corners: square.corners.clone(),
        ..plan_q_as_one_cell()
    };
    let other = in_other_kind(&square).expect("it is of triangles");
    for (plan, count) in [(octagon, 8), (square, 4), (other, 4), (as_one_cell, 4)] {
        assert_eq!(rows(&plan, from([0, 0])), Ok(count));
        for beside in [[1, 0], [-1, 0], [0, 1], [0, -1], [2, 0], [0, -2], [5, 3]] {
            assert_eq!(rows(&plan, from(beside)), Err(14), "{beside:?}");
        }
    }
    for spot in [[0, 0], [7, -9], [LIMIT - 1, 1 - LIMIT]] {
        assert_eq!(rows(&widest(), from(spot)), Err(14));
    }
}

/// From the doorway of plan Q, at (5, 5): a corner of the cell found, and one of its
/// neighbour.
#[test]
fn stands_on_a_side() {
    for (corner, axis, sign) in [(1, 0, 1), (1, 1, -1), (3, 0, -1), (3, 1, 1)] {
        let plan = |far: i32| {
            let mut plan = plan_q();
            plan.corners[2 * corner + axis] = 5 + sign * far;
            plan
        };
        for far in [MOST - 1, MOST] {
            let (rows, crossings) = draw(&plan(far), from([5, 5])).expect("it is not too far");
            assert_eq!((rows.len(), crossings), (4, 0));
            let offset = (sign * far) as f32;
            let times = rows.concat().iter().filter(|&&n| n == offset).count();
            assert_eq!(times, 2, "{rows:?}");
        }
        for far in [MOST + 1, MOST + 2] {
            assert_eq!(rows(&plan(far), from([5, 5])), Err(14));
            let other = in_other_kind(&plan(far)).expect("it is of triangles");
            assert_eq!(rows(&other, from([5, 5])), Err(14));
        }
    }
}

/// Through doors between a triangle and cells of four, eight and five corners, the tip in the
/// east is seen from the other end; from a side too, and as an offset.
#[test]
fn larger_cells() {
    let tip = 12;
    let plan = |far: i32, from: i32| {
        let mut plan = row_of_cells();
        plan.corners[2 * tip] = from + far;
        plan
    };
    for x in [5, 10, 15, 20, 35, 50, 55] {
        for far in [MOST - 1, MOST] {
            let plan = plan(far, x);
            let (rows, crossings) = draw(&plan, from([x, 0])).expect("it is not too far");
            let (listed, counted) =
                list(&plan, from([x, 0]).without_ceiling()).expect("it is found");
            assert_eq!((rows.len(), crossings), (listed.len(), counted));
            let seen = rows.concat().iter().filter(|&&n| n == far as f32).count();
            assert_eq!(seen, 2, "{rows:?}");
            let from_corner_0 = Query::without_reach(0, Stand::Offset(0, x.into(), 0.0));
            assert_eq!(draw(&plan, from_corner_0), Ok((rows, crossings)));
        }
        for far in [MOST + 1, MOST + 2] {
            let plan = plan(far, x);
            assert_eq!(plan.kind, POLYGONS);
            assert_eq!(rows(&plan, from([x, 0])), Err(14));
            // With the last door shut it is not seen, but from its own cell.
            let shut = Query {
                setting: 4,
                ..from([x, 0])
            };
            match x {
                50 => assert_eq!(rows(&plan, shut), Err(9)),
                55 => assert_eq!(rows(&plan, shut), Err(14)),
                _ => assert!(rows(&plan, shut).is_ok()),
            }
        }
    }
}

/// Corners that are no limit of a row do not count, however far they are: in no cell, in a
/// cell that nothing leads to, behind a shut door, and hidden behind a corner. A limit that
/// is just as far does.
#[test]
fn corners_that_no_row_names() {
    let mut in_no_cell = plan_q();
    in_no_cell.corners.extend([LIMIT, -LIMIT]);
    assert_eq!(rows(&in_no_cell, from([6, 3])), Ok(4));
    let mut apart = plan_q();
    apart.corners.extend([100, 0, LIMIT, 0, 100, LIMIT]);
    apart.cells.extend([4, 5, 6, WALL, WALL, WALL]);
    assert_eq!(rows(&apart, from([6, 3])), Ok(4));
    assert_eq!(rows(&apart, from([101, 1])), Err(14));
    // Seen through the diagonal and the line of face 4, which is a door here.
    let far = 3 + MOST + 1;
    let mut behind = plan_q_and([0, far]);
    behind.doors = vec![2, 4];
    for (setting, expected) in [(0, Err(14)), (1, Ok(3)), (2, Ok(4)), (3, Ok(3))] {
        let query = Query {
            setting,
            ..from([6, 3])
        };
        assert_eq!(rows(&behind, query), expected, "{setting}");
    }
    assert_eq!(rows(&plan_q_and([0, far - 1]), from([6, 3])), Ok(5));
    // Right of the ray to corner 2, as in example g, and left of the one to corner 3. The
    // whole line of the row that is seen there ends at it.
    assert_eq!(rows(&plan_q_and([MOST + 100, 11]), from([6, 3])), Ok(4));
    assert_eq!(rows(&plan_q_and([-MOST - 100, 11]), from([6, 3])), Ok(4));
}

/// A reach ends sight, so that less is drawn; but what is drawn of a line out of reach
/// counts as any other.
#[test]
fn with_a_reach() {
    // The diagonal is a little over 2 mm away, the line behind it 7 mm.
    let plan = plan_q_and([0, 3 + MOST + 1]);
    for (reach, expected) in [(2, Ok(3)), (3, Ok(4)), (6, Ok(4)), (7, Err(14))] {
        assert_eq!(
            rows(&plan, within(reach, from([6, 3]))),
            expected,
            "{reach}"
        );
    }
    assert_eq!(rows(&plan, from([6, 3])), Err(14));
    // Its walls are 10 mm away, and a little less.
    for turns in 0..4 {
        for (reach, marks) in [(1, 3), (9, 3), (10, 0), (262_144, 0)] {
            let query = within(reach, from([0, 0]));
            let (listed, _) = list(&arrow(MOST, turns), query.without_ceiling()).expect("inside");
            let out_of_reach = listed.iter().filter(|row| row[3] == 1);
            assert_eq!(out_of_reach.count(), marks, "{reach}");
            assert_eq!(rows(&arrow(MOST, turns), query), Ok(3));
            assert_eq!(rows(&arrow(MOST + 1, turns), query), Err(14));
            assert_eq!(rows(&arrow(MOST + 2, turns), query), Err(14));
        }
    }
}

/// Offsets are for as many rows as there are corners. What is too short is refused before
/// anything is looked at that could be too far, and no bit changes.
#[test]
fn room_comes_before_far() {
    let mut longer = arrow(MOST + 1, 0);
    longer.corners.extend([0; 20]);
    for (plan, expected) in [
        (plan_q(), Ok(4)),
        (arrow(MOST, 1), Ok(3)),
        (arrow(MOST + 1, 0), Err(14)),
        (arrow(MOST + 2, 1), Err(14)),
        (arrow(LIMIT, 2), Err(14)),
        (longer, Err(14)),
    ] {
        let spot = if expected == Ok(4) { [6, 3] } else { [0, 0] };
        let room = DRAWN * (plan.corners.len() / 2);
        for short in [0, 1, 3, 4, room / 2, room - 4, room - 1] {
            assert_eq!(drawn(&plan, from(spot), short), Err(11), "{short}");
        }
        for long in [room, room + 1, room + 2, 5 * room] {
            let rows = drawn(&plan, from(spot), long).map(|(rows, _)| rows.len());
            assert_eq!(rows, expected, "{long}");
        }
    }
    // Three rows, and room for four: where fewer would do it is refused still.
    let shut = Query {
        setting: 1,
        ..from([6, 3])
    };
    assert_eq!(drawn(&plan_q(), shut, 15), Err(11));
    assert_eq!(drawn(&plan_q(), shut, 12), Err(11));
    assert!(drawn(&plan_q(), shut, 16).is_ok_and(|(rows, _)| rows.len() == 3));
}

/// 14 is the last: a drawing that is refused for anything else is refused for that, with its
/// place, and leaves every bit alone.
#[test]
fn every_other_refusal_comes_before_far() {
    let far = || {
        let mut plan = plan_q();
        plan.corners[5] = MOST + 100;
        plan
    };
    let changed = |change: &dyn Fn(&mut Plan)| {
        let mut plan = far();
        change(&mut plan);
        plan
    };
    let half_a_corner = changed(&|plan| plan.corners.truncate(7));
    let no_kind = changed(&|plan| plan.kind = 3);
    let no_cells = changed(&|plan| plan.cells.clear());
    let beyond = changed(&|plan| plan.corners[3] = LIMIT + 1);
    let on_its_back = changed(&|plan| plan.cells.swap(0, 1));
    let no_neighbour = changed(&|plan| plan.cells[9] = 7);
    let no_door = changed(&|plan| plan.doors[0] = 0);
    let on_top = changed(&|plan| {
        plan.corners.extend([7, 1, 8, 1, 8, 2]);
        plan.cells.extend([4, 5, 6, WALL, WALL, WALL]);
    });
    let under = |setting, query| Query { setting, ..query };
    let inside = from([6, 3]);
    let not_whole = Query::without_reach(0, Stand::Point(6.5, 3.0));
    let no_corner = Query::without_reach(0, Stand::Offset(4, 0.0, 0.0));
    for (plan, query, expected) in [
        (&half_a_corner, inside, Refusal::Frame),
        (&no_kind, inside, Refusal::Frame),
        (&no_cells, inside, Refusal::Size),
        (&beyond, inside, Refusal::Corner(1)),
        (&on_its_back, inside, Refusal::Cell(0)),
        (&no_neighbour, inside, Refusal::Neighbour(2)),
        (&no_door, inside, Refusal::Door(0)),
        (&on_top, under(2, inside), Refusal::Overlap(0)),
        (&far(), under(2, not_whole), Refusal::Setting),
        (&far(), within(0, not_whole), Refusal::Stand),
        (&far(), no_corner, Refusal::Stand),
        (&far(), within(0, inside), Refusal::Reach),
        (&far(), within(262_145, from([11, 5])), Refusal::Reach),
        (&far(), from([6, 0]), Refusal::Line),
        (&far(), from([11, 5]), Refusal::Outside),
        (&far(), inside, Refusal::Far),
    ] {
        for room in [0, 16, 28, 40] {
            let reply = both(|calls| {
                let lent = || SINGLES.into_iter().cycle().take(room);
                let mut offsets: Vec<f32> = lent().map(f32::from_bits).collect();
                let reply = calls.draw(plan.lists(), query, &mut offsets);
                assert!(offsets.into_iter().map(f32::to_bits).eq(lent()));
                reply
            });
            let is_short = expected == Refusal::Far && room == 0;
            let expected = if is_short { Refusal::Room } else { expected };
            assert_eq!(reply, Reply::from(expected), "{query:?}");
        }
    }
    // It has no place and no values.
    let reply = both(|calls| calls.draw(far().lists(), inside, &mut [0.0; 16]));
    assert_eq!(reply, Reply::refused(14, 0));
    assert_eq!(reply, Reply::from(Refusal::Far));
}

/// How often drawings of a run came up.
#[derive(Debug, Default)]
struct Seen {
    drawn: usize,
    from_sides: usize,
    far: usize,
    /// Drawn within a reach.
    with_reach: usize,
}

/// The drawing has the listing's reply, and of its rows the limits; or it is refused, where
/// one of them is too far. Every left limit is a right limit too, so it is the same whether
/// one or both are looked at. Every tenth plan is put to the proved library.
#[test]
fn a_drawing_is_of_the_listing_anywhere() {
    let mut seen = Seen::default();
    for number in 0..6_000 {
        let scene = generate::case(43, number).scene;
        let (lists, query) = (scene.plan.lists(), scene.query());
        let room = ROW * (scene.plan.corners.len() / 2);
        let ask = |calls: &dyn Calls| {
            let (mut table, mut offsets) = (vec![0; room], vec![f32::INFINITY; room]);
            let listed = calls.list(lists, query.without_ceiling(), &mut table);
            let drawn = calls.draw(lists, query, &mut offsets);
            (listed, table, drawn, offsets)
        };
        let (listed, table, drawn, offsets) = match number % 10 {
            0 => both(ask),
            _ => ask(&Paper),
        };
        let (rows, _) = table.as_chunks::<ROW>();
        let rows = &rows[..listed.values[0] as usize];
        let [right, left]: [BTreeSet<u16>; 2] =
            [1, 2].map(|limit| rows.iter().map(|row| row[limit]).collect());
        assert_eq!(right, left, "{scene:?}");
        if listed.number != 0 {
            assert_eq!(drawn, listed);
            assert!(offsets.iter().all(|&n| n == f32::INFINITY));
            continue;
        }
        let q = match scene.stand {
            Stand::Point(x, y) => [x, y],
            Stand::Offset(corner, dx, dy) => {
                let at = 2 * usize::from(corner);
                let from = [lists.corners[at], lists.corners[at + 1]].map(f64::from);
                [from[0] + dx, from[1] + dy]
            }
        };
        let corners = rows.iter().flat_map(|row| [row[1], row[2]]);
        let expected: Vec<f64> = corners
            .flat_map(|corner| {
                let at = 2 * usize::from(corner);
                [0, 1].map(|axis| f64::from(lists.corners[at + axis]) - q[axis])
            })
            .collect();
        if expected.iter().any(|n| n.abs() > MOST.into()) {
            assert_eq!(drawn, Reply::refused(14, 0), "{scene:?}");
            assert!(offsets.iter().all(|&n| n == f32::INFINITY));
            seen.far += 1;
            continue;
        }
        assert_eq!(drawn, listed, "{scene:?}");
        let (numbers, rest) = offsets.split_at(expected.len());
        assert!(
            numbers.iter().map(|&n| f64::from(n)).eq(expected),
            "{scene:?}"
        );
        assert!(rest.iter().all(|&n| n == f32::INFINITY));
        seen.drawn += 1;
        let [_, on_side, ..] = Paper.find(lists, scene.setting, scene.stand).values;
        seen.from_sides += usize::from(on_side == 1);
        seen.with_reach += usize::from(scene.reach.is_stated());
    }
    println!("{seen:?}");
    let Seen {
        drawn,
        from_sides,
        far,
        with_reach,
    } = seen;
    assert!(drawn > 1_000 && from_sides > 200, "{drawn} {from_sides}");
    assert!(far > 500 && with_reach > 500, "{far} {with_reach}");
}
