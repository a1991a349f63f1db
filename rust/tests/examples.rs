//! What document 01 gives as measured, printed and to be run.

use manopluea_compare::calls::{Plan, Query, Stand};
use manopluea_compare::examples::{all, plan_q, plan_q_as_one_cell};
use manopluea_compare::generate::query_record;
use manopluea_compare::paper::{self, Direction, Floor, Paper, Place, View};

#[test]
fn the_twelve_examples() {
    let letters: String = all().iter().map(|example| example.letter).collect();
    assert_eq!(letters, "abcdefghijkl");
    for example in all() {
        assert_eq!(
            example.ask(&Paper),
            example.expected,
            "example {}",
            example.letter
        );
    }
}

fn printed(stand: Stand, setting: u64, plan: &Plan) -> String {
    let input = [query_record(setting, stand), paper::encode(plan.lists())].concat();
    String::from_utf8(paper::print(&input)).unwrap()
}

#[test]
fn plan_q_as_printed() {
    let expected = "rows 4 crossings 1\n0 0 1 0\n1 1 2 0\n4 2 3 0\n5 3 0 0\n";
    assert_eq!(printed(Stand::Point(6.0, 3.0), 0, &plan_q()), expected);
    assert_eq!(
        printed(Stand::Offset(2, -4.0, -7.0), 0, &plan_q()),
        expected
    );
}

#[test]
fn plan_q_as_one_cell_printed() {
    let expected = "rows 4 crossings 0\n0 0 1 0\n1 1 2 0\n2 2 3 0\n3 3 0 0\n";
    let plan = plan_q_as_one_cell();
    assert_eq!(printed(Stand::Point(6.0, 3.0), 0, &plan), expected);
    // On what was the line between its triangles.
    assert_eq!(printed(Stand::Point(5.0, 5.0), 0, &plan), expected);
}

/// On the line of its door: the rows of the same four walls, and no crossing.
#[test]
fn plan_q_printed_from_its_doorway() {
    let expected = "rows 4 crossings 0\n0 0 1 0\n1 1 2 0\n4 2 3 0\n5 3 0 0\n";
    let (q, stand) = (plan_q(), Stand::Point(5.0, 5.0));
    assert_eq!(printed(stand, 0, &q), expected);
    assert_eq!(printed(Stand::Offset(1, -5.0, 5.0), 0, &q), expected);
    assert_eq!(printed(stand, 1, &q), "refused 9 0\n");
}

#[test]
fn plan_q_refused_in_print() {
    let q = plan_q();
    assert_eq!(printed(Stand::Point(6.5, 3.0), 0, &q), "refused 8 0\n");
    assert_eq!(printed(Stand::Point(6.0, 3.0), 2, &q), "refused 7 0\n");
    let mut alone = plan_q();
    alone.cells[9] = 65_535;
    assert_eq!(
        printed(Stand::Point(f64::NAN, 3.0), 2, &alone),
        "refused 5 2\n"
    );
}

#[test]
fn a_coordinate_at_the_limit_and_beyond() {
    let mut plan = plan_q();
    plan.corners[4] = 536_870_912;
    assert_eq!(paper::check(plan.lists()).number, 0);
    plan.corners[4] = 536_870_913;
    let reply = paper::check(plan.lists());
    assert_eq!((reply.number, reply.place), (3, 2));
    plan.corners[4] = -536_870_912;
    assert_ne!(paper::check(plan.lists()).number, 3);
    plan.corners[1] = -536_870_913;
    let reply = paper::check(plan.lists());
    assert_eq!((reply.number, reply.place), (3, 0));
}

#[test]
fn a_cell_on_its_back() {
    let mut plan = plan_q();
    plan.cells[..3].copy_from_slice(&[0, 2, 1]);
    let reply = paper::check(plan.lists());
    assert_eq!((reply.number, reply.place), (4, 0));
}

#[test]
fn a_walk_over_plan_q() {
    let q = plan_q();
    let floor = Floor::check(q.lists()).unwrap();
    let view = View::new(&floor, Query::without_reach(0, Stand::Point(6.0, 3.0))).unwrap();
    let walk = view.walk(Direction { x: -3, y: 5 }).unwrap();
    assert_eq!((walk.route, walk.end), (vec![2], 4));
    // Towards corner 2, and away from it.
    assert!(view.meets_corner(Direction { x: 4, y: 7 }));
    assert!(!view.meets_corner(Direction { x: -4, y: -7 }));
    assert_eq!(view.walk(Direction { x: 4, y: 7 }), None);
}

/// It starts in whichever of the two cells the direction enters.
#[test]
fn walks_from_a_doorway_of_plan_q() {
    let q = plan_q();
    let floor = Floor::check(q.lists()).unwrap();
    let view = View::new(&floor, Query::without_reach(0, Stand::Point(5.0, 5.0))).unwrap();
    assert_eq!(view.place(), Place::Within(2));
    for (d, end) in [([1, -2], 0), ([2, -1], 1), ([-1, 2], 4), ([-2, 1], 5)] {
        let walk = view.walk(Direction { x: d[0], y: d[1] }).unwrap();
        assert_eq!((walk.route, walk.end), (vec![], end), "{d:?}");
    }
    // Along the line the ray meets one of its ends.
    for d in [[3, 3], [-1, -1]] {
        let d = Direction { x: d[0], y: d[1] };
        assert!(view.meets_corner(d));
        assert_eq!(view.walk(d), None);
    }
}
