//! The reader and the writer.

use manopluea_compare::calls::{Plan, Reply, POLYGONS};
use manopluea_compare::examples::{plan_q, plan_q_as_one_cell};
use manopluea_compare::generate;
use manopluea_compare::paper;

/// Reads into lists, whose kind becomes the one that is read.
fn read(file: &[u8], lists: &mut Plan) -> Reply {
    let reply = paper::read(file, &mut lists.corners, &mut lists.cells, &mut lists.doors);
    if reply.number == 0 {
        lists.kind = reply.values[3] as u16;
    }
    reply
}

fn room_for(plan: &Plan) -> Plan {
    Plan {
        corners: vec![0; plan.corners.len()],
        cells: vec![0; plan.cells.len()],
        doors: vec![0; plan.doors.len()],
        kind: 0,
    }
}

#[test]
fn the_bytes_of_plan_q() {
    let mut expected = vec![32, 0, 0, 0, 1, 0];
    for number in [0u8, 0, 10, 0, 10, 10, 0, 10] {
        expected.extend([number, 0, 0, 0]);
    }
    expected.extend([24, 0, 0, 0, 2, 0]);
    expected.extend([0, 0, 1, 0, 2, 0, 255, 255, 255, 255, 1, 0]);
    expected.extend([0, 0, 2, 0, 3, 0, 0, 0, 255, 255, 255, 255]);
    expected.extend([2, 0, 0, 0, 3, 0, 2, 0]);
    let mut file = vec![9; expected.len() + 3];
    let reply = paper::write(plan_q().lists(), &mut file);
    assert_eq!(reply, Reply::done([4, 2, 1]));
    expected.extend([9, 9, 9]);
    assert_eq!(file, expected);
}

#[test]
fn the_bytes_of_plan_q_as_one_cell() {
    let mut expected = vec![32, 0, 0, 0, 1, 0];
    for number in [0u8, 0, 10, 0, 10, 10, 0, 10] {
        expected.extend([number, 0, 0, 0]);
    }
    expected.extend([18, 0, 0, 0, 12, 0]);
    expected.extend([4, 0, 0, 0, 1, 0, 2, 0, 3, 0]);
    expected.extend([255; 8]);
    expected.extend([0, 0, 0, 0, 3, 0]);
    let mut file = vec![9; expected.len() + 3];
    let reply = paper::write(plan_q_as_one_cell().lists(), &mut file);
    assert_eq!(reply, Reply::done([4, 1, 0]));
    expected.extend([9, 9, 9]);
    assert_eq!(file, expected);
}

#[test]
fn what_is_written_is_read_and_written_again() {
    let mut sound = [0; 2];
    for number in 0..2_000 {
        let plan = generate::case(11, number).scene.plan;
        let mut file = vec![0; paper::encode(plan.lists()).len()];
        let reply = paper::write(plan.lists(), &mut file);
        if reply.number != 0 {
            continue;
        }
        sound[usize::from(plan.kind == POLYGONS)] += 1;
        let mut lists = room_for(&plan);
        let [corners, cells, doors, ..] = reply.values;
        let numbers = plan.cells.len() as u64;
        let expected = Reply::done([corners, cells, doors, plan.kind.into(), numbers]);
        assert_eq!(read(&file, &mut lists), expected);
        assert_eq!(lists, plan);
        let mut again = vec![0; file.len()];
        assert_eq!(paper::write(lists.lists(), &mut again), reply);
        assert_eq!(again, file);
    }
    let [triangles, polygons] = sound;
    assert!(triangles > 500 && polygons > 500, "{sound:?} sound plans");
}

#[test]
fn every_cut_of_a_file_is_a_frame_fault() {
    for plan in [plan_q(), plan_q_as_one_cell()] {
        let file = paper::encode(plan.lists());
        let mut lists = room_for(&plan);
        for end in 0..file.len() {
            assert_eq!(read(&file[..end], &mut lists).number, 1, "cut at {end}");
        }
        let longer = [file.as_slice(), &[0]].concat();
        assert_eq!(read(&longer, &mut lists).number, 1);
        assert_eq!(lists, room_for(&plan));
    }
}

#[test]
fn a_later_frame_fault_comes_before_a_size() {
    let plan = Plan {
        corners: vec![0; 2 * 2_049],
        ..plan_q()
    };
    let mut file = paper::encode(plan.lists());
    let mut lists = room_for(&plan);
    assert_eq!(read(&file, &mut lists).number, 2);
    file.pop();
    assert_eq!(read(&file, &mut lists).number, 1);
}

#[test]
fn each_list_can_be_too_short() {
    let file = paper::encode(plan_q().lists());
    let shorten: [fn(&mut Plan); 3] = [
        |lists| lists.corners.truncate(7),
        |lists| lists.cells.truncate(11),
        |lists| lists.doors.clear(),
    ];
    for shorten in shorten {
        let mut lists = room_for(&plan_q());
        shorten(&mut lists);
        let before = lists.clone();
        assert_eq!(read(&file, &mut lists).number, 11);
        assert_eq!(lists, before);
    }
}
