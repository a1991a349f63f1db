//! "The car park ramp", request A7 of document 02: the named cases, of the paper program
//! and of the proved library; and the paper program against the request's own words on the
//! plans of a seeded run.

use manopluea_compare::both::{both, room, FILL};
use manopluea_compare::brute::{self, overlap};
use manopluea_compare::calls::{
    Calls, DoorChange, Listing, Morning, Plan, Query, Reach, Refusal, Reply, Stand, POINT,
    TRIANGLES, WALL,
};
use manopluea_compare::examples::{plan_q, plan_q_and, polygons, row_of_cells, widest};
use manopluea_compare::generate::{self, in_other_kind, query_record, OCTAGON};
use manopluea_compare::paper::{self, encode, Floor};

/// The end of the coordinate range.
const LIMIT: i32 = 536_870_912;

/// The reply of the check, the same in either kind.
fn check(plan: &Plan) -> Reply {
    let reply = both(|calls| calls.check(plan.lists()));
    if let Some(other) = in_other_kind(plan) {
        assert_eq!(both(|calls| calls.check(other.lists())), reply);
    }
    reply
}

fn accepted(plan: &Plan) -> bool {
    let reply = check(plan);
    assert!([0, 17].contains(&reply.number), "{reply:?}");
    reply.number == 0
}

/// Cells between walls, each with corners of its own at these spots.
fn apart(cells: &[&[[i32; 2]]]) -> Plan {
    let mut next = 0;
    let numbered: Vec<(Vec<u16>, Vec<u16>)> = cells
        .iter()
        .map(|spots| {
            let first = next;
            next += spots.len() as u16;
            ((first..next).collect(), vec![WALL; spots.len()])
        })
        .collect();
    let numbers: Vec<(&[u16], &[u16])> = numbered
        .iter()
        .map(|(corners, neighbours)| (&corners[..], &neighbours[..]))
        .collect();
    polygons(&cells.concat(), &numbers)
}

/// Whether two cells are refused, whichever of them comes first, and wherever their sides
/// begin.
fn refused(one: &[[i32; 2]], other: &[[i32; 2]]) -> bool {
    let is_refused = |one: &[[i32; 2]], other: &[[i32; 2]]| {
        let reply = check(&apart(&[one, other]));
        if reply.number == 0 {
            let corners = one.len() + other.len();
            assert_eq!(reply, Reply::done([corners as u64, 2, 0]));
            return false;
        }
        assert_eq!(reply, Reply::refused(17, 0));
        true
    };
    let expected = is_refused(one, other);
    for turn in 0..other.len() {
        let mut turned = other.to_vec();
        turned.rotate_left(turn);
        assert_eq!(is_refused(&turned, one), expected);
        assert_eq!(is_refused(one, &turned), expected);
    }
    expected
}

/// The corners of a rectangle from its south-west corner to its north-east one.
fn rectangle([west, south]: [i32; 2], [east, north]: [i32; 2]) -> [[i32; 2]; 4] {
    [[west, south], [east, south], [east, north], [west, north]]
}

/// Cells of three corners that wind around corner 0, each from the rim corner with its
/// number to the next given one; the first is a neighbour of the last where they close.
fn ramp(rim: &[[i32; 2]], way: &[u16], closes: bool) -> Plan {
    let count = way.len() as u16 - 1;
    let neighbour = |cell: u16, by: u16| match (closes, cell + by) {
        (false, 0) => WALL,
        (false, at) if at > count => WALL,
        (_, at) => (at + count - 1) % count,
    };
    let cells = (0..count).flat_map(|cell| {
        let [a, b] = [cell, cell + 1].map(|at| way[usize::from(at)]);
        [0, a, b, neighbour(cell, 0), WALL, neighbour(cell, 2)]
    });
    Plan {
        corners: [&[[0, 0]], rim].concat().as_flattened().to_vec(),
        cells: cells.collect(),
        doors: vec![],
        kind: TRIANGLES,
    }
}

/// Three spots around zero, and three in the same directions, twice as far.
const RIM: [[i32; 2]; 6] = [[4, 0], [-3, 3], [-3, -3], [8, 0], [-6, 6], [-6, -6]];

/// Its cells agree along their lines, and the second turn lies on top of the first.
#[test]
fn the_ramp_of_six_cells() {
    // One turn, closed, and with its ends side by side.
    assert_eq!(
        check(&ramp(&RIM, &[1, 2, 3, 1], true)),
        Reply::done([7, 3, 0])
    );
    assert_eq!(
        check(&ramp(&RIM, &[1, 2, 3, 1], false)),
        Reply::done([7, 3, 0])
    );
    assert_eq!(
        check(&ramp(&RIM, &[1, 2, 3, 4], false)),
        Reply::done([7, 3, 0])
    );
    // Two turns with the same corners, and with corners of their own.
    for way in [[1, 2, 3, 1, 2, 3, 1], [1, 2, 3, 4, 5, 6, 1]] {
        for closes in [false, true] {
            let plan = ramp(&RIM, &way, closes);
            assert!(Floor::agreeing(plan.lists()).is_ok());
            assert_eq!(check(&plan), Reply::refused(17, 0), "{way:?}");
        }
    }
    // The cell that begins the second turn lies on the first of them.
    assert_eq!(
        check(&ramp(&RIM, &[1, 2, 3, 4, 5], false)),
        Reply::refused(17, 0)
    );
}

/// Each turn by itself would be accepted, and nothing leads from one to the other.
#[test]
fn two_turns_with_a_wall_between() {
    for way in [[1, 2, 3, 1, 2, 3, 1], [1, 2, 3, 4, 5, 6, 1]] {
        let mut plan = ramp(&RIM, &way, false);
        // Side 2 of cell 2, and side 0 of cell 3.
        plan.cells[6 * 2 + 5] = WALL;
        plan.cells[6 * 3 + 3] = WALL;
        assert!(Floor::agreeing(plan.lists()).is_ok());
        assert_eq!(check(&plan), Reply::refused(17, 0), "{way:?}");
        plan.cells.truncate(6 * 3);
        assert_eq!(check(&plan), Reply::done([7, 3, 0]), "{way:?}");
    }
}

#[test]
fn the_same_cell_twice() {
    let triangle = [[0, 0], [10, 0], [0, 10]];
    assert!(refused(&triangle, &triangle));
    let octagon = OCTAGON.map(|at| at.map(|number| number as i32));
    assert!(refused(&octagon, &octagon));
    // With the same corners, too.
    for count in [2, 3, 3_000] {
        let plan = Plan {
            corners: triangle.as_flattened().to_vec(),
            cells: [0, 1, 2, WALL, WALL, WALL].repeat(count),
            doors: vec![],
            kind: TRIANGLES,
        };
        assert_eq!(check(&plan), Reply::refused(17, 0), "{count}");
    }
}

#[test]
fn one_cell_inside_another() {
    let square = rectangle([0, 0], [12, 12]);
    assert!(refused(&square, &[[3, 3], [6, 4], [5, 7]]));
    assert!(refused(&square, &rectangle([1, 1], [11, 11])));
    // A corner of it, a side of it and all its corners on the border.
    assert!(refused(&square, &[[0, 0], [6, 4], [5, 7]]));
    assert!(refused(&square, &[[3, 0], [6, 0], [5, 7]]));
    assert!(refused(&square, &rectangle([0, 0], [12, 6])));
    assert!(refused(&square, &[[6, 0], [12, 6], [6, 12], [0, 6]]));
    assert!(refused(&square, &[[0, 0], [12, 0], [12, 12]]));
}

/// Neither cell has a corner in the other.
#[test]
fn cells_that_cross() {
    let star = [[[0, 0], [6, 0], [3, 6]], [[6, 4], [0, 4], [3, -2]]];
    assert!(refused(&star[0], &star[1]));
    assert!(refused(
        &rectangle([-3, -1], [3, 1]),
        &rectangle([-1, -3], [1, 3])
    ));
    // Two octagons, turned a little: every side crosses two of the other's.
    let octagon = OCTAGON.map(|[x, y]| [12 * x as i32, 12 * y as i32]);
    let turned = [
        [26, 0],
        [18, 18],
        [0, 26],
        [-18, 18],
        [-26, 0],
        [-18, -18],
        [0, -26],
        [18, -18],
    ];
    assert!(refused(&octagon, &turned));
}

/// No whole point is strictly inside both, and yet they overlap.
#[test]
fn cells_with_fractions_alone_in_common() {
    // Within the unit square.
    let below = [[0, 0], [1, 0], [1, 1]];
    assert!(refused(&below, &[[0, 0], [1, 0], [0, 1]]));
    assert!(refused(&below, &[[1, 0], [1, 1], [0, 1]]));
    assert!(!refused(&below, &[[0, 0], [1, 1], [0, 1]]));
    // Slivers that cross.
    assert!(refused(
        &[[0, 0], [3, 1], [3, 2]],
        &[[3, 0], [0, 2], [0, 1]]
    ));
}

#[test]
fn cells_that_touch_in_a_point() {
    let triangle = [[0, 0], [4, 0], [0, 4]];
    // Corner on corner, and a side's line of the one along a side of the other.
    assert!(!refused(&triangle, &[[0, 0], [-4, 0], [0, -4]]));
    assert!(!refused(&triangle, &[[4, 0], [8, 0], [4, 4]]));
    assert!(!refused(&triangle, &[[0, 4], [4, 8], [-4, 8]]));
    // A corner on a side; a millimetre on it is inside, and one back is outside.
    assert!(!refused(&triangle, &[[2, 2], [5, 3], [3, 5]]));
    assert!(refused(&triangle, &[[1, 2], [5, 3], [3, 5]]));
    assert!(!refused(&triangle, &[[2, 3], [5, 3], [3, 5]]));
    // With one corner in common by its number.
    let walls = [WALL; 3];
    let at_corner = polygons(
        &[[0, 0], [4, 0], [0, 4], [-4, 0], [0, -4]],
        &[(&[0, 1, 2], &walls), (&[0, 3, 4], &walls)],
    );
    assert_eq!(check(&at_corner), Reply::done([5, 2, 0]));
    let on_top = polygons(
        &[[0, 0], [4, 0], [0, 4], [3, -1], [1, 3]],
        &[(&[0, 1, 2], &walls), (&[0, 3, 4], &walls)],
    );
    assert_eq!(check(&on_top), Reply::refused(17, 0));
}

#[test]
fn cells_that_touch_along_a_line() {
    let square = rectangle([0, 0], [4, 4]);
    // The whole of a side, without being neighbours; a part of one; all of one as a part.
    assert!(!refused(&square, &rectangle([4, 0], [8, 4])));
    assert!(!refused(&square, &rectangle([4, 1], [8, 6])));
    assert!(!refused(&square, &rectangle([4, 1], [8, 3])));
    assert!(!refused(&square, &rectangle([4, -5], [5, 9])));
    // Only the ends of the sides on one line, and not even these.
    assert!(!refused(&square, &rectangle([4, 4], [8, 8])));
    assert!(!refused(&square, &rectangle([4, 5], [8, 8])));
    // A millimetre nearer.
    assert!(refused(&square, &rectangle([3, 0], [8, 4])));
    assert!(refused(&square, &rectangle([3, 1], [8, 6])));
    assert!(refused(&square, &rectangle([3, 3], [8, 8])));
    // Along a slanting line, whose boxes meet.
    let below = [[0, 0], [9, 0], [9, 6]];
    assert!(!refused(&below, &[[0, 0], [9, 6], [0, 6]]));
    assert!(!refused(&below, &[[3, 2], [6, 4], [3, 9]]));
    assert!(!refused(&below, &[[-3, -2], [6, 4], [0, 9]]));
    assert!(refused(&below, &[[3, 2], [6, 3], [3, 9]]));
    // Plan Q with a wall on its diagonal, which both cells have by its corners' numbers.
    let mut walled = plan_q();
    (walled.cells[5], walled.cells[9]) = (WALL, WALL);
    walled.doors.clear();
    assert_eq!(check(&walled), Reply::done([4, 2, 0]));
}

#[test]
fn larger_cells() {
    let octagon = |x: i32, y: i32| OCTAGON.map(|at| [x + at[0] as i32, y + at[1] as i32]);
    assert!(!refused(&octagon(0, 0), &octagon(4, 0)));
    assert!(refused(&octagon(0, 0), &octagon(3, 0)));
    // Along their slanting sides, where their boxes meet; and a millimetre nearer.
    assert!(!refused(&octagon(0, 0), &octagon(3, 3)));
    assert!(refused(&octagon(0, 0), &octagon(3, 2)));
    // The diamond between four of them.
    let diamond = [[2, 1], [3, 2], [2, 3], [1, 2]];
    for [x, y] in [[0, 0], [4, 0], [0, 4], [4, 4]] {
        assert!(!refused(&octagon(x, y), &diamond));
    }
    assert!(refused(&octagon(0, 0), &[[2, 0], [3, 2], [2, 3], [1, 2]]));
    // In a plan with neighbours: cells 0 to 3 from west to east.
    assert!(accepted(&row_of_cells()));
    for (spots, place) in [
        ([[35, 0], [36, 0], [35, 1]], Some(2)),
        ([[48, 0], [52, 0], [50, 1]], Some(2)),
        ([[55, 0], [56, 0], [55, 1]], Some(3)),
        ([[9, 0], [31, 0], [20, 1]], Some(0)),
        ([[20, 10], [20, 20], [10, 10]], None),
        ([[25, 15], [26, 20], [20, 20]], None),
    ] {
        let mut plan = row_of_cells();
        plan.corners.extend(spots.as_flattened());
        plan.cells.extend([3, 14, 15, 16, WALL, WALL, WALL]);
        let expected = match place {
            Some(cell) => Reply::refused(17, cell),
            None => Reply::done([17, 5, 3]),
        };
        assert_eq!(check(&plan), expected, "{spots:?}");
    }
}

#[test]
fn at_the_ends_of_the_coordinates() {
    let with = |spots: [[i32; 2]; 3]| {
        let mut plan = widest();
        plan.corners.extend(spots.as_flattened());
        plan.cells.extend([4, 5, 6, WALL, WALL, WALL]);
        check(&plan)
    };
    assert!(accepted(&widest()));
    let end = LIMIT;
    // In a corner of the square: on both sides of its diagonal, above it, below it.
    let both_sides = [[end, end], [end - 1, end], [end, end - 1]];
    assert_eq!(with(both_sides), Reply::refused(17, 0));
    let above = [[end, end], [end - 1, end], [end - 1, end - 1]];
    assert_eq!(with(above), Reply::refused(17, 1));
    let below = [[end, end], [end - 1, end - 1], [end, end - 1]];
    assert_eq!(with(below), Reply::refused(17, 0));
    // The largest side values there are.
    let halves = [
        [[-end, -end], [end, -end], [end, end]],
        [[-end, -end], [end, end], [-end, end]],
        [[-end, -end], [end, -end], [-end, end]],
        [[end, -end], [end, end], [-end, end]],
    ];
    for (one, other, expected) in [
        (0, 1, false),
        (2, 3, false),
        (0, 2, true),
        (0, 3, true),
        (1, 2, true),
        (1, 3, true),
    ] {
        assert_eq!(
            refused(&halves[one], &halves[other]),
            expected,
            "{one} {other}"
        );
    }
}

/// A corner a hair left of a side of 2^30 by 2^30 - 1 mm, and one a hair right of it: their
/// side values are 1 and -1.
#[test]
fn by_a_hair() {
    let end = LIMIT;
    let left = [[-end, -end], [end, end - 1], [-end, end]];
    let inside = [[-end + 1, -end + 1], [end, -end], [end, end - 2]];
    assert!(refused(&left, &inside));
    let beside = [[end - 1, end - 2], [-end + 2, -end], [end, -end]];
    assert!(!refused(&left, &beside));
    let on_the_line = [[-end, -end], [end, -end], [end, end - 1]];
    assert!(!refused(&left, &on_the_line));
    // Two needles, one beside the other and one through the other.
    let needle = [[-end, -end], [end, end - 1], [end, end]];
    assert!(!refused(
        &needle,
        &[[-end, -end], [end, end], [end - 1, end]]
    ));
    assert!(!refused(
        &needle,
        &[[-end, -end], [end, end - 2], [end, end - 1]]
    ));
    assert!(refused(
        &needle,
        &[[-end, -end + 1], [end, end - 2], [end, end]]
    ));
    assert!(refused(&needle, &[[-end, end], [0, -1], [end, -end]]));
}

/// The least cell of any pair: not that of the pair that lies first, and not that of the
/// cell that has most on top of it.
#[test]
fn the_least_cell_of_any_pair() {
    let at = |x: i32| [[x, 0], [x + 4, 0], [x, 4]];
    let place = |columns: &[i32]| {
        let cells: Vec<[[i32; 2]; 3]> = columns.iter().map(|&x| at(10 * x)).collect();
        let cells: Vec<&[[i32; 2]]> = cells.iter().map(|cell| &cell[..]).collect();
        let reply = check(&apart(&cells));
        (reply.number == 17).then_some(reply.place)
    };
    assert_eq!(place(&[0, 1, 2, 3]), None);
    assert_eq!(place(&[0, 1, 2, 2]), Some(2));
    // The pair in the west is 2 and 3, the one in the east 0 and 1, or 1 and 4, or 0 and 5.
    assert_eq!(place(&[9, 9, 0, 0]), Some(0));
    assert_eq!(place(&[5, 9, 0, 0, 9]), Some(1));
    assert_eq!(place(&[9, 5, 0, 0, 4, 9]), Some(0));
    // And the other way round.
    assert_eq!(place(&[0, 0, 9, 9]), Some(0));
    assert_eq!(place(&[5, 0, 9, 9, 0]), Some(1));
    assert_eq!(place(&[5, 4, 3, 9, 9, 0, 0]), Some(3));
    // Three in one place.
    assert_eq!(place(&[7, 3, 5, 3, 3, 5]), Some(1));
    // A chain, in which cell 0 has only the last one on top of it.
    let [first, between, last] = [0, 3, 6].map(|x| rectangle([x, 0], [x + 4, 4]));
    for (cells, expected) in [
        ([first, between, last], 0),
        ([first, last, between], 0),
        ([between, first, last], 0),
    ] {
        let reply = check(&apart(&cells.each_ref().map(|cell| &cell[..])));
        assert_eq!(reply, Reply::refused(17, expected));
    }
    let alone = rectangle([20, 0], [24, 4]);
    let cells = [alone, last, first, between];
    let reply = check(&apart(&cells.each_ref().map(|cell| &cell[..])));
    assert_eq!(reply, Reply::refused(17, 1));
}

/// Plan Q+P: the third cell lies beyond the side from (10, 10) to (0, 10), and so it
/// overlaps none, wherever its tip is.
#[test]
fn the_measured_plans() {
    assert!(accepted(&plan_q()));
    for p in [[0, 20], [-6, 17], [14, 17], [30, 11]] {
        assert!(accepted(&plan_q_and(p)), "{p:?}");
    }
}

/// Plan Q with a third cell between walls on top of its second one: refused with 17 at 1.
fn upon_q() -> Plan {
    let mut plan = plan_q();
    plan.corners.extend([1, 8, 2, 8, 2, 9]);
    plan.cells.extend([4, 5, 6, WALL, WALL, WALL]);
    plan
}

/// The replies of all calls about a plan, in the order of the header, with room or with
/// none. Every number of lent memory keeps its value.
fn replies(plan: &Plan, listing: Listing, has_room: bool) -> Vec<[u32; 2]> {
    let lists = plan.lists();
    let file = encode(lists);
    let room = |length: usize| if has_room { length } else { 0 };
    let table = || vec![u16::from(FILL); room(4 * plan.corners.len())];
    let is_kept = |table: &[u16]| table.iter().all(|&number| number == FILL.into());
    let Listing { query, ceiling } = listing;
    let Query {
        setting,
        stand,
        reach,
    } = query;
    let of = |reply: Reply| {
        assert_eq!(reply, Reply::refused(reply.number, reply.place));
        [reply.number, reply.place]
    };
    let ask = |calls: &dyn Calls| {
        let mut all = vec![of(calls.check(lists))];
        let (mut corners, mut cells, mut doors) = (
            vec![i32::from(FILL); room(plan.corners.len())],
            vec![u16::from(FILL); room(plan.cells.len())],
            vec![u16::from(FILL); room(plan.doors.len())],
        );
        all.push(of(calls.read(&file, &mut corners, &mut cells, &mut doors)));
        assert!(corners.iter().all(|&number| number == FILL.into()));
        assert!(is_kept(&cells) && is_kept(&doors));
        let mut bytes = vec![FILL; room(file.len())];
        all.push(of(calls.write(lists, &mut bytes)));
        assert!(bytes.iter().all(|&byte| byte == FILL));
        all.push(of(calls.find(lists, setting, stand)));
        let mut rows = table();
        all.push(of(calls.list(lists, listing, &mut rows)));
        let morning = Morning {
            setting,
            reach,
            ceiling,
        };
        let mut own = vec![u64::from(FILL); room(6)];
        let stands = [stand.numbers(), [POINT, 6.0, 3.0]].concat();
        all.push(of(
            calls.list_stands(lists, morning, &stands, &mut rows, &mut own)
        ));
        assert!(own.iter().all(|&number| number == FILL.into()));
        // No such door, and no true list.
        let asked = DoorChange {
            query,
            given: &[7; 5],
            door: 9,
            shut: true,
        };
        all.push(of(calls.change(lists, asked, &mut rows)));
        assert!(is_kept(&rows));
        let input = [query_record(setting, stand), file.clone()].concat();
        let printed = String::from_utf8(calls.print(&input)).expect("it prints text");
        let mut words = printed.trim_end().split(' ');
        assert_eq!(words.next(), Some("refused"));
        let [number, place] = [words.next(), words.next()]
            .map(|word| word.and_then(|word| word.parse().ok()).expect("a number"));
        all.push([number, place]);
        all
    };
    both(ask)
}

/// Whatever else is wrong of the setting, the stand, the reach, the room, the ceiling, the
/// door or the given list.
#[test]
fn every_call_refuses_it_before_its_setting() {
    let plan = upon_q();
    for setting in [0, 1, 2, 1 << 63, u64::MAX] {
        for stand in [
            Stand::Point(6.0, 3.0),
            Stand::Point(2.0, 8.0),
            Stand::Point(5.0, 5.0),
            Stand::Point(0.0, 0.0),
            Stand::Point(11.0, 5.0),
            Stand::Point(0.5, f64::NAN),
            Stand::Offset(9, 1.0, 1.0),
            Stand::Offset(0, 6.0, 3.0),
        ] {
            for (reach, ceiling) in [
                (Reach::NotStated, None),
                (Reach::Stated(7), Some(0)),
                (Reach::Stated(0), Some(0)),
            ] {
                let query = Query {
                    setting,
                    stand,
                    reach,
                };
                for has_room in [true, false] {
                    let replies = replies(&plan, Listing { query, ceiling }, has_room);
                    assert_eq!(replies, [[17, 1]; 8], "{query:?}");
                }
            }
        }
    }
}

/// A plan that is wrong in another way too is refused for that.
#[test]
fn every_other_fault_of_a_plan_comes_before() {
    let listing = Query::without_reach(2, Stand::Point(0.5, 0.0)).without_ceiling();
    let wrong = |change: fn(&mut Plan)| {
        let mut plan = upon_q();
        change(&mut plan);
        plan
    };
    let doors_on_walls = wrong(|plan| plan.doors = vec![2, 0]);
    assert_eq!(replies(&doors_on_walls, listing, true), [[6, 1]; 8]);
    let door_on_the_cell_upon = wrong(|plan| plan.doors = vec![2, 6]);
    assert_eq!(replies(&door_on_the_cell_upon, listing, true), [[6, 1]; 8]);
    let same_door = wrong(|plan| plan.doors = vec![2, 3]);
    assert_eq!(replies(&same_door, listing, false), [[6, 1]; 8]);
    let no_answer = wrong(|plan| plan.cells[9] = WALL);
    assert_eq!(replies(&no_answer, listing, true), [[5, 2]; 8]);
    let neighbour_of_the_cell_upon = wrong(|plan| plan.cells[15] = 1);
    let refused = replies(&neighbour_of_the_cell_upon, listing, true);
    assert_eq!(refused, [[5, 6]; 8]);
    let on_its_back = wrong(|plan| plan.cells.swap(12, 13));
    assert_eq!(replies(&on_its_back, listing, true), [[4, 2]; 8]);
    let beyond = wrong(|plan| plan.corners[9] = LIMIT + 1);
    assert_eq!(replies(&beyond, listing, true), [[3, 4]; 8]);
    let many_doors = wrong(|plan| plan.doors = vec![2; 65]);
    assert_eq!(replies(&many_doors, listing, true), [[2, 0]; 8]);
    let leftover = wrong(|plan| plan.cells.push(0));
    assert_eq!(replies(&leftover, listing, true), [[1, 0]; 8]);
}

/// More stands than there may be, and a list of them that is cut, come before the plan is
/// looked at; no stands do not.
#[test]
fn the_stands_of_a_morning() {
    let plan = upon_q();
    let reply = |stands: &[f64]| {
        both(|calls| {
            let (mut table, mut own) = (vec![0; room(&plan) * 33], vec![0; 99]);
            calls.list_stands(
                plan.lists(),
                Morning::under(0),
                stands,
                &mut table,
                &mut own,
            )
        })
    };
    assert_eq!(reply(&[]), Reply::refused(17, 1));
    assert_eq!(reply(&[POINT; 96]), Reply::refused(17, 1));
    assert_eq!(reply(&[POINT; 99]), Reply::refused(2, 0));
    assert_eq!(reply(&[POINT; 2]), Reply::refused(1, 0));
    assert_eq!(reply(&[]), Reply::from(Refusal::Overlap(1)));
}

/// Of any two cells that agree along their lines, by brute force: refused exactly if some
/// two overlap, at the least cell of any such two. Every tenth plan is put to the proved
/// library too. In those accepted at most one cell holds a stand strictly.
#[test]
fn refused_exactly_if_two_cells_overlap_anywhere() {
    let (mut refused, mut accepted, mut places) = (0, 0, 0);
    for number in 0..20_000 {
        let scene = generate::case(51, number).scene;
        let lists = scene.plan.lists();
        let Ok(floor) = Floor::agreeing(lists) else {
            continue;
        };
        if floor.cell_count() > 120 {
            continue;
        }
        let spot = |corner| {
            let at = floor.corner(corner);
            [at.x, at.y].map(i128::from)
        };
        let cells: Vec<Vec<[brute::Spot; 2]>> = (0..floor.cell_count())
            .map(|cell| {
                let sides = floor.faces(cell);
                sides.map(|face| floor.ends(face).map(spot)).collect()
            })
            .collect();
        let least = (0..cells.len()).find(|&one| {
            let others = &cells[one + 1..];
            others.iter().any(|other| overlap(&cells[one], other))
        });
        let reply = match number % 10 {
            0 => both(|calls| calls.check(lists)),
            _ => paper::check(lists),
        };
        let expected = least.map(|cell| Reply::refused(17, cell as u32));
        match expected {
            Some(expected) => {
                assert_eq!(reply, expected, "{scene:?}");
                refused += 1;
                places += usize::from(reply.place > 0);
            }
            None => {
                assert_eq!(reply.number, 0, "{scene:?}");
                accepted += 1;
                if let Ok(q) = paper::millimetres(&floor, scene.stand) {
                    let q = [q.x, q.y].map(i128::from);
                    let is_left = |&[a, b]: &[brute::Spot; 2]| {
                        brute::cross(brute::minus(b, a), brute::minus(q, a)) > 0
                    };
                    let holding = cells.iter().filter(|cell| cell.iter().all(is_left));
                    assert!(holding.count() <= 1, "{scene:?}");
                }
            }
        }
    }
    println!("{refused} {accepted} {places}");
    assert!(refused > 800 && accepted > 8_000 && places > 200);
}
