//! "Cell finding drains the battery", request A3 of document 02: the named cases, of the
//! paper program and of the proved library. A cell's box goes from the least to the greatest
//! x and y of its corners, its edge included, and a cell whose box does not hold the stand is
//! ruled out. The replies are those without boxes. Of each test a comment says which wrong
//! box would give another.

use manopluea_compare::both::{both, list, list_stands, room};
use manopluea_compare::brute::{cross, minus};
use manopluea_compare::calls::{
    DoorChange, Morning, Plan, Query, Reply, Stand, POLYGONS, TRIANGLES, WALL,
};
use manopluea_compare::examples::{one_cell, polygons, row_of_cells, widest};
use manopluea_compare::generate::in_other_kind;
use manopluea_compare::plain::{self, Footing};

/// The end of the coordinate range.
const LIMIT: i32 = 536_870_912;

const LINE: Reply = Reply {
    number: 9,
    place: 0,
    values: [0; 5],
};

const OUTSIDE: Reply = Reply { number: 10, ..LINE };

fn inside(cell: u64) -> Reply {
    Reply::done([cell])
}

fn within(cell: u64, side: u64) -> Reply {
    Reply::done([cell, 1, side])
}

/// What finding replies, of plain Rust too, which goes by boxes likewise.
fn found(plan: &Plan, setting: u64, stand: Stand) -> Reply {
    let reply = both(|calls| calls.find(plan.lists(), setting, stand));
    let in_plain_rust = match plain::find(plan.lists(), setting, stand) {
        Ok(Footing::Inside { cell }) => inside(cell as u64),
        Ok(Footing::Side { cell, side }) => within(cell as u64, side as u64),
        Err(refusal) => refusal.into(),
    };
    assert_eq!(in_plain_rust, reply, "plain Rust, {stand:?}");
    reply
}

/// The same at a point, in either kind. The listing, the morning and the door change refuse
/// the stand alike.
fn find_under(setting: u64, plan: &Plan, [x, y]: [i32; 2]) -> Reply {
    let stand = Stand::Point(x.into(), y.into());
    let reply = found(plan, setting, stand);
    if let Some(other) = in_other_kind(plan) {
        assert_eq!(found(&other, setting, stand), reply, "{stand:?}");
    }
    let query = Query::without_reach(setting, stand);
    let listed = list(plan, query.without_ceiling());
    assert_eq!(listed.err().unwrap_or(0), reply.number, "{stand:?}");
    let (own, _) = list_stands(plan, Morning::under(setting), &[stand.numbers()]);
    assert_eq!(own[0][0], u64::from(reply.number), "{stand:?}");
    // There is no such door, which comes after the stand.
    let asked = DoorChange {
        query,
        given: &[],
        door: 64,
        shut: true,
    };
    let changed = both(|calls| calls.change(plan.lists(), asked, &mut vec![0; room(plan)]));
    let expected = if reply.number == 0 { 12 } else { reply.number };
    assert_eq!(changed, Reply::refused(expected, 0), "{stand:?}");
    reply
}

/// With every door open.
fn find(plan: &Plan, at: [i32; 2]) -> Reply {
    find_under(0, plan, at)
}

/// Each of these stands has this reply.
fn all_are(expected: Reply, plan: &Plan, stands: &[[i32; 2]]) {
    for &at in stands {
        assert_eq!(find(plan, at), expected, "{at:?}");
    }
}

/// The spots of a rectangle from its south-west corner to its north-east one.
fn rectangle([west, south]: [i32; 2], [east, north]: [i32; 2]) -> [[i32; 2]; 4] {
    [[west, south], [east, south], [east, north], [west, north]]
}

/// Three rectangles from west to east, 6, 4 and 3 wide and 4 high. The first line between
/// them is open and no door, the second a door.
fn three_rooms() -> Plan {
    let corners = [
        [0, 0],
        [6, 0],
        [10, 0],
        [13, 0],
        [13, 4],
        [10, 4],
        [6, 4],
        [0, 4],
    ];
    let cells: [(&[u16], &[u16]); 3] = [
        (&[0, 1, 6, 7], &[WALL, 1, WALL, WALL]),
        (&[1, 2, 5, 6], &[WALL, 2, WALL, 0]),
        (&[2, 3, 4, 5], &[WALL, WALL, WALL, 1]),
    ];
    let mut plan = polygons(&corners, &cells);
    plan.doors = vec![5];
    plan
}

/// A room 6 wide and 4 high, and one on each of its sides, all with doors between: the room
/// in the middle comes first, or last. The others are south, east, north and west of it.
fn five_rooms(middle_first: bool) -> Plan {
    let corners = [
        [0, 0],
        [6, 0],
        [6, 4],
        [0, 4],
        [0, -3],
        [6, -3],
        [9, 0],
        [9, 4],
        [6, 8],
        [0, 8],
        [-5, 4],
        [-5, 0],
    ];
    let (middle, [south, east, north, west]) = match middle_first {
        true => (0, [1, 2, 3, 4]),
        false => (4, [0, 1, 2, 3]),
    };
    let in_the_middle: (&[u16], &[u16]) = (&[0, 1, 2, 3], &[south, east, north, west]);
    let others: [(&[u16], &[u16]); 4] = [
        (&[4, 5, 1, 0], &[WALL, WALL, middle, WALL]),
        (&[1, 6, 7, 2], &[WALL, WALL, WALL, middle]),
        (&[3, 2, 8, 9], &[middle, WALL, WALL, WALL]),
        (&[0, 3, 10, 11], &[middle, WALL, WALL, WALL]),
    ];
    let cells = match middle_first {
        true => [&[in_the_middle], &others[..]].concat(),
        false => [&others[..], &[in_the_middle]].concat(),
    };
    let mut plan = polygons(&corners, &cells);
    let first = 4 * middle;
    plan.doors = vec![first, first + 1, first + 2, first + 3];
    plan
}

/// Rectangles have their whole border on the edges of their boxes. A box without its edge
/// would make each 9 here a 10; one without its least x would do so in the west, and
/// likewise on each side. With x and y exchanged no stand of the second or third room would
/// be in a box.
#[test]
fn on_the_walls_of_rectangles() {
    let plan = three_rooms();
    all_are(inside(0), &plan, &[[3, 2], [1, 1], [5, 3]]);
    all_are(inside(1), &plan, &[[8, 2], [7, 1], [9, 3]]);
    all_are(inside(2), &plan, &[[11, 2], [11, 1], [12, 3]]);
    // West, south, north, east.
    all_are(LINE, &plan, &[[0, 1], [0, 2], [0, 3]]);
    all_are(LINE, &plan, &[[1, 0], [3, 0], [8, 0], [11, 0], [12, 0]]);
    all_are(LINE, &plan, &[[1, 4], [3, 4], [8, 4], [11, 4], [12, 4]]);
    all_are(LINE, &plan, &[[13, 1], [13, 2], [13, 3]]);
    // A millimetre outside each.
    all_are(OUTSIDE, &plan, &[[-1, 2], [3, -1], [8, 5], [14, 2]]);
}

/// Every corner of a rectangle is one of its box. Without its edge a box would make these 10.
#[test]
fn on_the_corners_of_rectangles() {
    let plan = three_rooms();
    for &[x, y] in plan.corners.as_chunks::<2>().0 {
        assert_eq!(find(&plan, [x, y]), LINE, "{x} {y}");
        // Beyond it, on the edges of the box drawn on.
        let beyond = if y == 0 { -1 } else { 5 };
        assert_eq!(find(&plan, [x, beyond]), OUTSIDE, "{x} {beyond}");
    }
    all_are(OUTSIDE, &plan, &[[-1, 0], [14, 0], [14, 4], [-1, 4]]);
}

/// Both cells at an open line have it on the edge of their boxes. Without that edge the stand
/// would be refused with 10; without the greatest x the second cell would be named.
#[test]
fn on_an_open_line_and_in_a_doorway() {
    let plan = three_rooms();
    all_are(within(0, 1), &plan, &[[6, 1], [6, 2], [6, 3]]);
    all_are(within(1, 1), &plan, &[[10, 1], [10, 2], [10, 3]]);
    // The open line is no door; the door is shut.
    assert_eq!(find_under(1, &plan, [6, 2]), within(0, 1));
    assert_eq!(find_under(1, &plan, [10, 2]), LINE);
    assert_eq!(find_under(1, &plan, [9, 2]), inside(1));
    assert_eq!(find_under(1, &plan, [11, 2]), inside(2));
}

/// The least cell at each of four lines: the middle one by each edge of its box, or another
/// by the opposite edge of its own. Without its least or its greatest x or y the box of that
/// cell would leave the line to the cell on the other side.
#[test]
fn in_doorways_on_all_four_edges() {
    let stands = [[3, 0], [6, 2], [3, 4], [0, 2]];
    let first = five_rooms(true);
    let last = five_rooms(false);
    for (at, others_side) in (0..4).zip([2, 3, 0, 0]) {
        let stand = stands[at as usize];
        assert_eq!(find(&first, stand), within(0, at), "{stand:?}");
        assert_eq!(find(&last, stand), within(at, others_side), "{stand:?}");
        // This door is shut, and then every other.
        for plan in [&first, &last] {
            let found = find(plan, stand);
            assert_eq!(find_under(1 << at, plan, stand), LINE, "{stand:?}");
            assert_eq!(find_under(15 ^ 1 << at, plan, stand), found, "{stand:?}");
            assert_eq!(find_under(15, plan, stand), LINE, "{stand:?}");
        }
    }
    for plan in [&first, &last] {
        all_are(LINE, plan, &rectangle([0, 0], [6, 4]));
        // In the box of the whole floor, and of no cell.
        all_are(OUTSIDE, plan, &[[-1, -1], [7, -1], [7, 5], [-1, 5]]);
    }
    // On either side of each line.
    for ([x, y], [dx, dy]) in stands.into_iter().zip([[0, 1], [-1, 0], [0, -1], [1, 0]]) {
        assert_eq!(find(&first, [x + dx, y + dy]), inside(0));
        assert_eq!(find(&last, [x + dx, y + dy]), inside(4));
    }
    for (cell, at) in (0..4).zip([[3, -1], [7, 2], [3, 5], [-1, 2]]) {
        assert_eq!(find(&first, at), inside(cell + 1));
        assert_eq!(find(&last, at), inside(cell));
    }
}

/// A triangle meets the edges of its box in its corners alone. Where a box were taken for the
/// cell, the stands on its edges would be on a border; without its edge the corners would be
/// outside.
#[test]
fn on_the_edge_of_a_box_and_outside_every_cell() {
    let plan = one_cell(&[[0, 0], [10, 4], [2, 9]]);
    all_are(LINE, &plan, &[[0, 0], [10, 4], [2, 9]]);
    // West, south, east, north, and the corners of the box.
    all_are(OUTSIDE, &plan, &[[0, 1], [0, 5], [0, 8]]);
    all_are(OUTSIDE, &plan, &[[1, 0], [5, 0], [9, 0]]);
    all_are(OUTSIDE, &plan, &[[10, 1], [10, 3], [10, 5], [10, 8]]);
    all_are(OUTSIDE, &plan, &[[1, 9], [3, 9], [9, 9]]);
    all_are(OUTSIDE, &plan, &[[10, 0], [10, 9], [0, 9]]);
    // Beside the corners: in the box, on its edge or in neither, and in the cell.
    all_are(OUTSIDE, &plan, &[[9, 3], [10, 3], [11, 4], [9, 5], [2, 10]]);
    all_are(inside(0), &plan, &[[9, 4], [2, 8], [1, 1], [1, 2]]);
}

/// Two cells with one box, 12 wide and 4 high. Where the first box that holds the stand
/// decided, the second cell would never be found.
#[test]
fn in_the_box_of_a_cell_that_does_not_hold_it() {
    let plan = Plan {
        corners: vec![0, 0, 12, 0, 12, 4, 0, 4],
        cells: vec![0, 1, 2, WALL, WALL, 1, 0, 2, 3, 0, WALL, WALL],
        doors: vec![2],
        kind: TRIANGLES,
    };
    all_are(inside(0), &plan, &[[11, 1], [7, 2], [11, 3]]);
    all_are(inside(1), &plan, &[[1, 1], [5, 2], [1, 3]]);
    // The line between them is on the edge of neither box.
    all_are(within(0, 2), &plan, &[[3, 1], [6, 2], [9, 3]]);
    for at in [[3, 1], [6, 2], [9, 3]] {
        assert_eq!(find_under(1, &plan, at), LINE, "{at:?}");
    }
    // Each cell alone: what the other held is in the box, and in no cell.
    let below = one_cell(&[[0, 0], [12, 0], [12, 4]]);
    all_are(inside(0), &below, &[[11, 1], [7, 2], [11, 3]]);
    all_are(LINE, &below, &[[3, 1], [6, 2], [9, 3]]);
    all_are(OUTSIDE, &below, &[[1, 1], [5, 2], [1, 3], [0, 2], [5, 4]]);
    let above = one_cell(&[[0, 0], [12, 4], [0, 4]]);
    all_are(inside(0), &above, &[[1, 1], [5, 2], [1, 3]]);
    all_are(LINE, &above, &[[3, 1], [6, 2], [9, 3]]);
    all_are(
        OUTSIDE,
        &above,
        &[[11, 1], [7, 2], [11, 3], [12, 2], [7, 0]],
    );
}

/// Cell 0 is a sliver along the diagonal, whose box holds all the others. Where the first box
/// that holds the stand decided, in the search for the cell or for the side, every stand in
/// the others would be refused.
#[test]
fn a_sliver_whose_box_is_huge() {
    let corners = [
        [-50, -50],
        [50, 48],
        [50, 50],
        [10, -30],
        [20, -30],
        [26, -30],
        [26, -20],
        [20, -20],
        [10, -20],
        [-40, 10],
        [-30, 10],
        [-40, 31],
    ];
    let mut plan = polygons(
        &corners,
        &[
            (&[0, 1, 2], &[WALL; 3]),
            (&[3, 4, 7, 8], &[WALL, 2, WALL, WALL]),
            (&[4, 5, 6, 7], &[WALL, WALL, WALL, 1]),
            (&[9, 10, 11], &[WALL; 3]),
        ],
    );
    plan.doors = vec![4];
    all_are(inside(0), &plan, &[[1, 0], [48, 47], [49, 48]]);
    all_are(inside(1), &plan, &[[11, -29], [15, -25], [19, -21]]);
    all_are(inside(2), &plan, &[[21, -29], [23, -25], [25, -21]]);
    all_are(inside(3), &plan, &[[-39, 11], [-38, 15], [-39, 28]]);
    // Its long sides, its corners, and the walls of the others.
    all_are(LINE, &plan, &[[0, 0], [49, 49], [0, -1], [50, 49]]);
    all_are(LINE, &plan, &[[-50, -50], [50, 48], [50, 50]]);
    all_are(LINE, &plan, &[[10, -25], [15, -30], [26, -21], [23, -20]]);
    all_are(LINE, &plan, &[[-40, 20], [-35, 10], [-40, 31]]);
    all_are(within(1, 1), &plan, &[[20, -29], [20, -25], [20, -21]]);
    assert_eq!(find_under(1, &plan, [20, -25]), LINE);
    // In its box, on the edge of it, and a millimetre outside.
    all_are(
        OUTSIDE,
        &plan,
        &[[1, -1], [0, 1], [48, 49], [9, -25], [27, -25]],
    );
    all_are(
        OUTSIDE,
        &plan,
        &[[-50, 50], [50, -50], [-50, 0], [0, 50], [50, 47]],
    );
    all_are(OUTSIDE, &plan, &[[51, 49], [-51, -50], [0, 51], [0, -51]]);
}

/// Cells of three, four, eight and five corners from west to east. The box of the eight goes
/// from (20, -20) to (50, 20); that of its first three corners alone ends at x 40 and y -10,
/// and would refuse most of its stands here. Without its edge its walls would be outside.
#[test]
fn larger_cells() {
    let plan = row_of_cells();
    all_are(inside(2), &plan, &[[35, 0], [45, 0], [35, 15], [35, -15]]);
    // A millimetre inside each edge of its box, on it, and outside.
    all_are(inside(2), &plan, &[[21, 0], [49, 0], [35, -19], [35, 19]]);
    all_are(LINE, &plan, &[[35, -20], [31, -20], [35, 20], [39, 20]]);
    all_are(OUTSIDE, &plan, &[[35, -21], [35, 21]]);
    assert_eq!(find(&plan, [19, 0]), inside(1));
    assert_eq!(find(&plan, [51, 0]), inside(3));
    // The doors between it and its neighbours, open and shut.
    all_are(within(1, 1), &plan, &[[20, 0], [20, -9], [20, 9]]);
    all_are(within(2, 3), &plan, &[[50, 0], [50, -9], [50, 9]]);
    assert_eq!(find_under(2, &plan, [20, 0]), LINE);
    assert_eq!(find_under(4, &plan, [50, 0]), LINE);
    assert_eq!(find_under(4, &plan, [20, 0]), within(1, 1));
    // Its corners, its slanting sides, and what is in its box or on the edge beside them.
    all_are(LINE, &plan, &[[20, -10], [30, -20], [50, 10], [30, 20]]);
    all_are(LINE, &plan, &[[25, -15], [45, -15], [45, 15], [25, 15]]);
    all_are(OUTSIDE, &plan, &[[22, -18], [48, -18], [48, 18], [22, 18]]);
    all_are(OUTSIDE, &plan, &[[20, -15], [25, -20], [50, 15], [25, 20]]);
    all_are(OUTSIDE, &plan, &[[20, -20], [50, -20], [50, 20], [20, 20]]);
    // The tips of the first cell and of the last are on the edges of their boxes.
    all_are(LINE, &plan, &[[0, 0], [70, 0]]);
    all_are(inside(0), &plan, &[[1, 0], [9, 8]]);
    all_are(inside(3), &plan, &[[69, 0], [61, 8]]);
    all_are(OUTSIDE, &plan, &[[-1, 0], [71, 0], [0, 1], [70, -1]]);
    all_are(within(0, 1), &plan, &[[10, 0], [10, 9]]);
}

/// Every cell of 3 to 8 corners that these eight spots make, and every spot up to two
/// millimetres outside its box: by brute force. A box of the first corners alone, or of all
/// but the last, would leave some of them out, whichever corner comes first.
#[test]
fn every_spot_round_a_cell() {
    let eight = [
        [3, 0],
        [6, 0],
        [9, 2],
        [9, 5],
        [6, 7],
        [3, 7],
        [0, 5],
        [0, 2],
    ];
    let mut counts = [[0; 3]; 9];
    for chosen in 0..256u32 {
        let mut spots: Vec<[i32; 2]> = (0..8)
            .filter(|at| chosen >> at & 1 == 1)
            .map(|at| eight[at])
            .collect();
        let count = spots.len();
        if count < 3 {
            continue;
        }
        spots.rotate_left(chosen as usize % count);
        let plan = one_cell(&spots);
        assert_eq!(plan.kind, POLYGONS);
        let wide: Vec<[i128; 2]> = spots.iter().map(|at| at.map(i128::from)).collect();
        let [columns, rows] = [0, 1].map(|axis| {
            let along = || spots.iter().map(move |at| at[axis]);
            along().min().unwrap() - 2..=along().max().unwrap() + 2
        });
        for x in columns {
            for y in rows.clone() {
                let at = [x, y].map(i128::from);
                let ends = wide.iter().zip(wide.iter().cycle().skip(1));
                let values = ends.map(|(&a, &b)| cross(minus(b, a), minus(at, a)));
                let (expected, kind) = match values.min() {
                    Some(1..) => (inside(0), 0),
                    Some(0) => (LINE, 1),
                    _ => (OUTSIDE, 2),
                };
                let stand = Stand::Point(x.into(), y.into());
                assert_eq!(found(&plan, 0, stand), expected, "{spots:?} {stand:?}");
                counts[count][kind] += 1;
            }
        }
    }
    println!("{:?}", &counts[3..]);
    assert!(counts[3..].as_flattened().iter().all(|&count| count > 8));
}

/// A cell apart from all others: a millimetre inside each edge of its box, on the edge and a
/// millimetre outside. The least coordinates are not those of the first corner, nor do x and
/// y have the same; with them exchanged no stand would be in the box.
#[test]
fn a_millimetre_inside_and_outside() {
    let rectangle = one_cell(&[[5, 20], [-7, 20], [-7, 13], [5, 13]]);
    for (within, [dx, dy]) in [
        ([-6, 17], [-1, 0]),
        ([4, 17], [1, 0]),
        ([0, 14], [0, -1]),
        ([0, 19], [0, 1]),
    ] {
        let on = |steps| [within[0] + steps * dx, within[1] + steps * dy];
        assert_eq!(find(&rectangle, on(0)), inside(0), "{within:?}");
        assert_eq!(find(&rectangle, on(1)), LINE, "{within:?}");
        assert_eq!(find(&rectangle, on(2)), OUTSIDE, "{within:?}");
    }
    // A diamond meets each edge of its box in one corner.
    let diamond = one_cell(&[[40, -6], [49, 0], [40, 6], [31, 0]]);
    for (tip, [dx, dy]) in [
        ([49, 0], [1, 0]),
        ([40, 6], [0, 1]),
        ([31, 0], [-1, 0]),
        ([40, -6], [0, -1]),
    ] {
        let on = |steps, aside| {
            [
                tip[0] + steps * dx + aside * dy,
                tip[1] + steps * dy + aside * dx,
            ]
        };
        assert_eq!(find(&diamond, on(-1, 0)), inside(0), "{tip:?}");
        assert_eq!(find(&diamond, on(0, 0)), LINE, "{tip:?}");
        assert_eq!(find(&diamond, on(1, 0)), OUTSIDE, "{tip:?}");
        // Beside the tip, on the edge of the box and in it.
        assert_eq!(find(&diamond, on(0, 1)), OUTSIDE, "{tip:?}");
        assert_eq!(find(&diamond, on(0, -1)), OUTSIDE, "{tip:?}");
        assert_eq!(find(&diamond, on(-1, 2)), OUTSIDE, "{tip:?}");
    }
}

/// A square from one end of the coordinates to the other: its box is all there is. Without
/// its edge each 9 would be a 10.
#[test]
fn a_box_of_all_coordinates() {
    let (plan, end) = (widest(), LIMIT);
    all_are(LINE, &plan, &rectangle([-end, -end], [end, end]));
    // On the limit lines, beside the corners and between them.
    all_are(LINE, &plan, &[[end, end - 1], [end, 0], [end, 1 - end]]);
    all_are(LINE, &plan, &[[-end, end - 1], [-end, 5], [-end, 1 - end]]);
    all_are(LINE, &plan, &[[end - 1, end], [7, end], [1 - end, end]]);
    all_are(LINE, &plan, &[[end - 1, -end], [0, -end], [1 - end, -end]]);
    // A millimetre inside them.
    all_are(
        inside(0),
        &plan,
        &[[end - 1, 0], [0, 1 - end], [end - 1, 1 - end]],
    );
    all_are(inside(0), &plan, &[[end - 1, end - 2], [2 - end, 1 - end]]);
    all_are(
        inside(1),
        &plan,
        &[[1 - end, 5], [7, end - 1], [1 - end, end - 1]],
    );
    all_are(inside(1), &plan, &[[end - 2, end - 1], [1 - end, 2 - end]]);
    // On the diagonal, up to a millimetre from both ends.
    for at in [[end - 1; 2], [0; 2], [1 - end; 2]] {
        assert_eq!(find(&plan, at), within(0, 2), "{at:?}");
        assert_eq!(find_under(1, &plan, at), LINE, "{at:?}");
    }
    // No stand is beyond them.
    for at in [[end + 1, 0], [0, end + 1], [-end - 1, 0], [0, -end - 1]] {
        assert_eq!(find(&plan, at), Reply::refused(8, 0), "{at:?}");
    }
}

/// A rectangle 30 wide and 20 high in or by each corner of the coordinates, and before them a
/// sliver from one corner to the opposite one, whose box holds all. With x and y exchanged,
/// or in their order from the west, the boxes would be those of other cells.
#[test]
fn boxes_in_the_corners_of_the_coordinates() {
    let end = LIMIT;
    let rooms = [
        rectangle([30 - end, -end], [60 - end, 20 - end]),
        rectangle([end - 30, -end], [end, 20 - end]),
        rectangle([end - 60, end - 20], [end - 30, end]),
        rectangle([-end, end - 20], [30 - end, end]),
    ];
    let sliver = [[-end, -end], [end, end - 2], [end, end]];
    let spots = [&sliver[..], rooms.as_flattened()].concat();
    let numbers: Vec<u16> = (0..spots.len() as u16).collect();
    let walls = [WALL; 4];
    let mut cells: Vec<(&[u16], &[u16])> = vec![(&numbers[..3], &walls[..3])];
    cells.extend(numbers[3..].chunks(4).map(|corners| (corners, &walls[..])));
    let plan = polygons(&spots, &cells);
    all_are(inside(0), &plan, &[[end - 1, end - 2], [1, 0]]);
    all_are(
        LINE,
        &plan,
        &[[-end, -end], [end, end - 1], [0, 0], [0, -1]],
    );
    for (cell, room) in (1..).zip(rooms) {
        let [[west, south], _, [east, north], _] = room;
        let [x, y] = [west + 10, south + 5];
        all_are(LINE, &plan, &room);
        all_are(LINE, &plan, &[[west, y], [east, y], [x, south], [x, north]]);
        let near = [[west + 1, y], [east - 1, y], [x, south + 1], [x, north - 1]];
        all_are(inside(cell), &plan, &near);
        // A millimetre outside, where there is one: else it is no stand.
        for at in [[west - 1, y], [east + 1, y], [x, south - 1], [x, north + 1]] {
            let is_stand = at.iter().all(|n| (-end..=end).contains(n));
            let expected = if is_stand {
                OUTSIDE
            } else {
                Reply::refused(8, 0)
            };
            assert_eq!(find(&plan, at), expected, "{at:?}");
        }
    }
    // On the limit lines, which are the edges of the sliver's box.
    all_are(OUTSIDE, &plan, &[[end, 0], [-end, 0], [0, end], [0, -end]]);
    all_are(
        OUTSIDE,
        &plan,
        &[[-end, end - 21], [end, 21 - end], [31 - end, end]],
    );
}
