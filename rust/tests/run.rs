//! Seeded runs of the paper program against itself and the demands.

use manopluea_compare::calls::{Query, Stand, TRIANGLES, WALL};
use manopluea_compare::compare::{compare, Tally, NUMBERS};
use manopluea_compare::generate::{self, Dice, Merged};
use manopluea_compare::paper::{change_by_runs, Floor, Line, Paper, Place, Row, View};

fn run(seed: u64, count: u64) -> Tally {
    compare(&Paper, &Paper, seed, count).unwrap_or_else(|mismatch| panic!("{mismatch}"))
}

#[test]
fn every_reply_number_comes_up_in_every_call_that_has_it() {
    let tally = run(1, 6_000);
    let came_up = |replies: [u64; NUMBERS]| -> Vec<usize> {
        let numbers = 0..NUMBERS;
        numbers.filter(|&number| replies[number] > 0).collect()
    };
    for kind in [0, 1] {
        let numbers = |call: usize| came_up(tally.replies[kind][call]);
        let up_to = |last: usize, then: &[usize]| [(0..=last).collect(), then.to_vec()].concat();
        assert_eq!(numbers(0), up_to(6, &[17]), "check");
        assert_eq!(numbers(1), up_to(6, &[11, 17]), "read");
        assert_eq!(numbers(2), up_to(6, &[11, 17]), "write");
        assert_eq!(numbers(3), up_to(10, &[17]), "find");
        assert_eq!(numbers(4), up_to(11, &[15, 17, 19]), "list");
        assert_eq!(numbers(5), up_to(7, &[11, 17]), "stands");
        assert_eq!(numbers(6), up_to(13, &[15, 17]), "change");
        assert_eq!(numbers(7), up_to(11, &[14, 15, 17]), "draw");
        assert_eq!(numbers(8), up_to(10, &[17]), "print");
    }
    // Any other kind is a fault of the frame, in every call that takes lists.
    for (call, &replies) in tally.replies[2].iter().enumerate() {
        let expected: &[usize] = if call == 8 { &[1, 2] } else { &[1] };
        assert_eq!(came_up(replies), expected, "call {call}");
    }
    assert!(tally.directions > 8_000 && tally.changes > 1_000 && tally.either > 2_000);
    assert!(tally.of_number(17) > 2_000);
    let sides = tally.sides;
    assert!(
        sides.found > 500 && sides.directions > 3_000 && sides.changes > 200,
        "{sides:?}"
    );
    assert!(sides.own_doors > 100, "{sides:?}");
    let reaches = tally.reaches;
    assert!(
        reaches.stated > 10_000 && reaches.rows > 5_000 && reaches.changes > 100,
        "{reaches:?}"
    );
    assert!(
        reaches.longer > 1_000 && reaches.further > 500,
        "{reaches:?}"
    );
    let of = tally.ceilings;
    assert!(of.stated > 6_000, "{of:?}");
    let of_listings = [of.equal, of.one_more, of.one_fewer, of.without_room];
    let in_parts = [of.by_sides, of.by_cells, of.between, of.in_all];
    let mut ties = of_listings.iter().chain(&in_parts);
    assert!(ties.all(|&count| count > 20), "{of:?}");
    let of = tally.drawings;
    let just_there = [of.farthest, of.one_beyond, of.two_beyond, of.ends];
    assert!(just_there.iter().all(|&count| count > 5), "{of:?}");
    let by_parts = [of.by_x, of.by_y, of.out_of_reach, of.from_sides];
    let others = [of.zeros, of.unnamed, of.without_room];
    let mut some = by_parts.iter().chain(&others);
    assert!(some.all(|&count| count > 50), "{of:?}");
}

/// At the first place of a morning, at those between, and at the last.
#[test]
fn every_reply_of_a_stand_comes_up_at_every_place() {
    for replies in run(1, 4_000).stands {
        let numbers = (0..NUMBERS).filter(|&number| replies[number] > 20);
        assert_eq!(
            numbers.collect::<Vec<usize>>(),
            [0, 8, 9, 10, 15, 19],
            "{replies:?}"
        );
    }
}

#[test]
fn a_seed_gives_the_same_run_again() {
    assert_eq!(run(5, 300), run(5, 300));
    assert_ne!(run(5, 300), run(6, 300));
}

/// Calls a function with each scene of a run that can be listed.
fn each_view(seed: u64, count: u64, mut look: impl FnMut(&generate::Scene, &Floor, &View<'_>)) {
    for number in 0..count {
        let scene = generate::case(seed, number).scene;
        if let Ok(floor) = Floor::check(scene.plan.lists()) {
            if let Ok(view) = View::new(&floor, scene.query()) {
                look(&scene, &floor, &view);
            }
        }
    }
}

#[test]
fn rows_and_crossings_keep_their_bounds() {
    // Of stands inside a cell, and on a side.
    let (mut most_rows, mut all_corners_seen) = ([0; 2], [0; 2]);
    each_view(2, 9_000, |_, floor, view| {
        let listing = view.list();
        let (rows, corners) = (listing.rows.len(), floor.corners().len());
        let on_side = usize::from(matches!(view.place(), Place::Within(_)));
        assert!(rows <= corners);
        let not_entered = floor.cell_count() - 1 - on_side;
        assert!(listing.crossings <= (rows * not_entered) as u64);
        most_rows[on_side] = most_rows[on_side].max(rows);
        all_corners_seen[on_side] += usize::from(rows == corners);
    });
    assert!(most_rows[0] > 100 && most_rows[1] > 30, "{most_rows:?}");
    assert!(
        all_corners_seen[0] > 100 && all_corners_seen[1] > 20,
        "{all_corners_seen:?}"
    );
}

#[test]
fn the_change_by_runs_is_the_fresh_listing() {
    let (mut shut, mut opened, mut doors_in_two_rows, mut from_sides) = (0, 0, 0, 0);
    each_view(3, 4_000, |scene, floor, before| {
        let rows = before.list().rows;
        let doors = 0..scene.plan.doors.len();
        for door in doors.filter(|&door| !before.is_in_doorway(door)).take(4) {
            let query = Query {
                setting: scene.setting ^ 1 << door,
                ..scene.query()
            };
            let shuts = query.setting >> door & 1 == 1;
            let after = View::new(floor, query).unwrap();
            assert_eq!(after.place(), before.place());
            let fresh = after.list();
            let faces = floor.door_faces(door);
            assert_eq!(
                change_by_runs(before, &after, &rows, faces, shuts),
                fresh,
                "{scene:?} door {door}"
            );
            let on_door = |row: &Row| faces.contains(&row[0]);
            let in_two_rows = fresh
                .rows
                .windows(2)
                .any(|pair| on_door(&pair[0]) && on_door(&pair[1]));
            doors_in_two_rows += usize::from(in_two_rows);
            shut += usize::from(shuts);
            opened += usize::from(!shuts);
            from_sides += usize::from(matches!(before.place(), Place::Within(_)));
        }
    });
    assert!(shut > 500 && opened > 500 && doors_in_two_rows > 20);
    assert!(from_sides > 500, "{from_sides}");
}

/// A door seen to the right and to the left of a corner, by two routes: its
/// two rows are adjacent, and stay two.
#[test]
fn two_routes_to_one_door_stay_two_rows() {
    let plan = manopluea_compare::calls::Plan {
        corners: vec![5, 0, 2, 1, 1, 0, 2, 0, 1, 5, 0, 1, 0, 0],
        cells: [
            [6, 2, 4, 65535, 5, 2],
            [1, 2, 3, 5, 65535, 3],
            [4, 5, 6, 65535, 65535, 0],
            [0, 1, 3, 4, 1, 65535],
            [4, 1, 0, 5, 3, 65535],
            [2, 1, 4, 1, 4, 0],
        ]
        .concat(),
        doors: vec![2],
        kind: TRIANGLES,
    };
    let floor = Floor::check(plan.lists()).unwrap();
    let view = |setting| {
        let query = Query::without_reach(setting, Stand::Point(3.0, 1.0));
        View::new(&floor, query).unwrap()
    };
    let shut = view(1).list();
    assert_eq!(shut.rows.iter().filter(|row| row[0] == 2).count(), 2);
    let by_runs = change_by_runs(&view(0), &view(1), &view(0).list().rows, [2, 8], true);
    assert_eq!(by_runs, shut);
}

/// Larger cells list the walls of their triangles, within the same limits and in
/// the same order round the stand, through no more lines.
#[test]
fn merged_cells_list_the_walls_of_their_triangles() {
    let (mut compared, mut fewer) = (0, 0);
    for number in 0..4_000 {
        let dice = &mut Dice::for_case(14, number);
        let mesh = generate::floor(dice);
        let doors = generate::doors(&mesh, dice);
        let merged = Merged::random(&mesh, &doors, dice);
        let [small, large] = [mesh.plan(&doors), merged.plan(&doors)]
            .map(|plan| Floor::check(plan.lists()).expect("it passes the check"));
        let faces = merged.faces();
        let known = u64::MAX
            .checked_shl(doors.len() as u32)
            .map_or(!0, |bits| !bits);
        for _ in 0..3 {
            let setting = dice.word() & dice.word() & known;
            let [x, y] = generate::inside(&mesh, dice).map(|number| number as f64);
            let query = Query::without_reach(setting, Stand::Point(x, y));
            let view = |floor| View::new(floor, query);
            let (Ok(through_small), Ok(through_large)) = (view(&small), view(&large)) else {
                continue;
            };
            let (Place::Inside(small), Place::Inside(large)) =
                (through_small.place(), through_large.place())
            else {
                continue;
            };
            assert_eq!(merged.cell_with(small), large, "floor {number}");
            let (of_small, of_large) = (through_small.list(), through_large.list());
            let row = |[face, right, left, _]: Row| (faces[usize::from(face)], right, left);
            let rows: Vec<_> = of_large.rows.into_iter().map(row).collect();
            let row = |[face, right, left, _]: Row| (usize::from(face), right, left);
            let mut expected: Vec<_> = of_small.rows.into_iter().map(row).collect();
            let first = expected.iter().position(|row| *row == rows[0]);
            expected.rotate_left(first.expect("the first wall is among them"));
            assert_eq!(rows, expected, "floor {number}");
            assert!(of_large.crossings <= of_small.crossings, "floor {number}");
            compared += 1;
            fewer += usize::from(of_large.crossings < of_small.crossings);
        }
    }
    assert!(compared > 9_000 && fewer > 5_000, "{compared}, {fewer}");
}

/// Ties met on entering cells of more than three corners: corners on the right
/// limit, on the left one, and sides with an end on each.
#[derive(Default)]
struct Ties {
    right: usize,
    left: usize,
    both: usize,
}

impl Ties {
    /// Follows each line from the stand, as a fan whose right limit moves on.
    fn count(&mut self, floor: &Floor, across: &[u16], view: &View<'_>) {
        let q = view.stand();
        let turn = |a: u16, b: u16| {
            let [a, b] = [a, b].map(|corner| {
                let at = floor.corner(corner);
                [at.x - q.x, at.y - q.y].map(i128::from)
            });
            (a[0] * b[1] - a[1] * b[0]).signum()
        };
        let row = |face| {
            let [right, left] = floor.ends(face);
            [face, right, left]
        };
        let mut waiting: Vec<Line> = view.around().into_iter().map(row).collect();
        while let Some([face, mut right, left]) = waiting.pop() {
            let entered = across[usize::from(face)];
            if entered == WALL || !view.is_in_reach(face) {
                continue;
            }
            let others: Vec<u16> = floor.others(entered).collect();
            let last = others[others.len() - 1];
            for &side in &others {
                let [a, v] = floor.ends(side);
                if others.len() > 2 && side != last {
                    let on_right = |corner| corner != right && turn(right, corner) == 0;
                    let on_left = |corner| corner != left && turn(corner, left) == 0;
                    self.right += usize::from(on_right(v));
                    self.left += usize::from(on_left(v));
                    self.both += usize::from(on_right(a) && on_left(v));
                }
                let ends = side == last || turn(v, left) <= 0;
                if ends {
                    waiting.push([side, right, left]);
                    break;
                }
                if turn(right, v) > 0 {
                    waiting.push([side, right, v]);
                    right = v;
                }
            }
        }
    }
}

#[test]
fn every_tie_comes_up_in_larger_cells() {
    let mut ties = Ties::default();
    each_view(4, 20_000, |scene, floor, view| {
        let across = floor.across_under(scene.setting).unwrap();
        ties.count(floor, &across, view);
    });
    let Ties { right, left, both } = ties;
    assert!(
        right > 100 && left > 100 && both > 10,
        "{right} {left} {both}"
    );
}
