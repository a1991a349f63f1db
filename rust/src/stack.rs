//! Every function of `include/manopluea.h` on the deepest floor known, in either
//! kind, on those with the longest fans and the most splits and on the fullest
//! plan, inside the cell that all is seen from and on its free side, with no reach
//! stated and no ceiling, and with the longest reach, which goes through every free line
//! there, and a ceiling that is just kept to, with a stack of so many bytes; and those
//! that check a plan on the longest lists, which are refused. A stack that is too small
//! ends the process.

use crate::calls::{
    Calls, DoorChange, Listing, Morning, Plan, Query, Reach, Stand, DRAWN, MOST_STANDS, POINT, ROW,
    WALL,
};
use crate::generate::{self, in_other_kind, query_record, spot_at, steps_between, Spot};
use crate::paper::{self, Floor, Paper, Place, View, DOORS, REACHES};
use crate::proved::{on_stack, Proved};

/// Asks each function, and compares with the paper program.
pub fn ask_every_function(bytes: usize) -> Result<(), String> {
    let (mesh, spot) = generate::deepest();
    // The last lines that the ray crosses are doors, the very last one too.
    let lines = mesh.free_lines();
    let deepest = mesh.plan(&lines[lines.len() - DOORS.end()..]);
    ask_on("the deepest floor", &deepest, spot, bytes)?;
    let other = in_other_kind(&deepest).expect("it is of triangles");
    ask_on("the same in the other kind", &other, spot, bytes)?;
    let (fans, spot) = generate::longest_fans();
    ask_on("the longest fans", &fans, spot, bytes)?;
    let (splits, spot) = generate::most_splits();
    ask_on("the most splits", &splits, spot, bytes)?;
    let (fullest, spot) = generate::fullest();
    ask_on("the fullest plan", &fullest, spot, bytes)?;
    let (longest, _) = generate::longest_lists();
    println!("on the longest lists:");
    ask_for_files(&longest, bytes)
}

/// The check, the reader and the writer.
fn ask_for_files(plan: &Plan, bytes: usize) -> Result<(), String> {
    let lists = plan.lists();
    let file = paper::encode(lists);
    same("check", bytes, |calls| calls.check(lists))?;
    same("read", bytes, |calls| {
        let mut read = plan.clone();
        let reply = calls.read(&file, &mut read.corners, &mut read.cells, &mut read.doors);
        (reply, read)
    })?;
    same("write", bytes, |calls| {
        let mut written = vec![0; file.len()];
        (calls.write(lists, &mut written), written)
    })
}

/// Of the spots strictly within the free sides of the cell that a stand is inside,
/// the one nearest to the stand.
pub fn doorway(plan: &Plan, [x, y]: Spot) -> Option<Spot> {
    let floor = Floor::check(plan.lists()).ok()?;
    let query = Query::without_reach(0, Stand::Point(x as f64, y as f64));
    let view = View::new(&floor, query).ok()?;
    let Place::Inside(cell) = view.place() else {
        return None;
    };
    let across = floor.across_under(0).ok()?;
    let free = floor.faces(cell);
    free.filter(|&face| across[usize::from(face)] != WALL)
        .flat_map(|face| {
            let ends = floor.ends(face).map(|corner| {
                let at = floor.corner(corner);
                [at.x, at.y]
            });
            let (steps, _) = steps_between(ends);
            (1..steps).map(move |step| spot_at(ends, step))
        })
        .min_by_key(|at| (at[0] - x).pow(2) + (at[1] - y).pow(2))
}

/// Asks each function about a plan with as many doors as there may be.
fn ask_on(name: &str, plan: &Plan, inside: Spot, bytes: usize) -> Result<(), String> {
    println!("on {name}:");
    let (lists, last) = (plan.lists(), DOORS.end() - 1);
    let file = paper::encode(lists);
    let table = || vec![0; ROW * (plan.corners.len() / 2)];
    let rows = |query: Query| {
        let mut table = table();
        let reply = paper::list(lists, query.without_ceiling(), &mut table);
        table.truncate(ROW * reply.values[0] as usize);
        table
    };
    ask_for_files(plan, bytes)?;
    let point = |at: Spot| {
        let [x, y] = at.map(|number| number as f64);
        Stand::Point(x, y)
    };
    let offset = |[x, y]: Spot| {
        let [from_x, from_y] = [0, 1].map(|axis| i64::from(plan.corners[axis]));
        Stand::Offset(0, (x - from_x) as f64, (y - from_y) as f64)
    };
    let on_side = doorway(plan, inside).ok_or("no spot is on a free side")?;
    for stand in [point(inside), offset(inside), point(on_side)] {
        same("find", bytes, |calls| calls.find(lists, 0, stand))?;
        let reaches = [Reach::NotStated, Reach::Stated(*REACHES.end())];
        let within = |reach| Query {
            reach,
            ..Query::without_reach(0, stand)
        };
        let [unlimited, longest] =
            reaches.map(|reach| paper::list(lists, within(reach).without_ceiling(), &mut table()));
        if longest != unlimited {
            return Err("some free line is out of reach".to_string());
        }
        let [_, crossings, ..] = unlimited.values;
        // Each is asked for once without all that could be added, and once with it.
        for (reach, setting, ceiling) in [
            (reaches[0], 0, None),
            (reaches[1], 1 << last, Some(crossings)),
        ] {
            let query = Query {
                setting,
                ..within(reach)
            };
            let given = rows(query);
            let asked = DoorChange {
                query,
                given: &given,
                door: last,
                shut: setting == 0,
            };
            same("change", bytes, |calls| {
                let mut table = table();
                (calls.change(lists, asked, &mut table), table)
            })?;
            let query = within(reach);
            same("list", bytes, |calls| {
                let mut table = table();
                let listing = Listing { query, ceiling };
                (calls.list(lists, listing, &mut table), table)
            })?;
            same("draw", bytes, |calls| {
                let mut offsets = vec![0.0; DRAWN * (plan.corners.len() / 2)];
                (calls.draw(lists, query, &mut offsets), offsets)
            })?;
            // As many as there may be; one listing is as deep as many.
            let mut stands = [POINT, f64::NAN, f64::NAN].repeat(MOST_STANDS - 1);
            stands.extend(stand.numbers());
            let morning = Morning {
                setting: 0,
                reach,
                ceiling,
            };
            same("list_stands", bytes, |calls| {
                let mut table = table().repeat(MOST_STANDS);
                let mut replies = vec![0; stands.len()];
                let reply = calls.list_stands(lists, morning, &stands, &mut table, &mut replies);
                (reply, table, replies)
            })?;
        }
        let input = [query_record(0, stand), file.clone()].concat();
        same("print", bytes, |calls| calls.print(&input))?;
    }
    Ok(())
}

fn same<T: PartialEq + Send>(
    call: &str,
    bytes: usize,
    ask: impl Fn(&dyn Calls) -> T + Sync,
) -> Result<(), String> {
    // Said first: where the stack is too small, it is the last that is said.
    println!("{call}");
    if on_stack(bytes, || ask(&Proved)) != ask(&Paper) {
        return Err(format!("{call}: not what the paper program answers"));
    }
    Ok(())
}
