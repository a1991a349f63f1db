//! The check, the finding, the listings, the door change and the drawing once more, by the
//! steps that the proved library takes, as one writes them in Rust without a
//! proof in mind: 64 bits wide, and a pair of functions that call each other. Cells are
//! compared by their sides, and only those whose boxes meet, from west to east; a stand is
//! looked for by the sides of those cells alone whose boxes hold it. Where a
//! reach is stated, the lines out of it are told before any is followed, which is
//! faster the more crossings there are. Where there is a ceiling, a listing is given up
//! as soon as it is passed. A drawing looks at each limit once, and lists into a table of
//! its own. What they cost is what the benchmarks hold the proved
//! library to.

use crate::calls::{
    DoorChange, Listing, Lists, Morning, Query, Reach, Refusal, Stand, DRAWN, MOST_STANDS,
    POLYGONS, ROW, TRIANGLES, WALL,
};
use crate::paper::{stand_of, CELLS, COORDINATES, CORNERS, DOORS, MOST_OFFSET, REACHES, SIDES};
use std::ops::Range;

/// Lists that are cut into corners, cells and doors.
struct Cut<'a> {
    corners: &'a [[i32; 2]],
    cells: Cells<'a>,
    cell_count: usize,
    face_count: usize,
    doors: &'a [u16],
}

/// A list of cells of either kind.
#[derive(Clone, Copy)]
enum Cells<'a> {
    Triangles(&'a [[u16; 6]]),
    Polygons(&'a [u16]),
}

/// A plan that passed the check, with the tables that are drawn for it.
pub struct Plan<'a> {
    corners: &'a [[i32; 2]],
    doors: &'a [u16],
    /// Of each face, the corner at which it starts and its neighbour.
    faces: Vec<[u16; 2]>,
    /// The first face of each cell, then the count of faces.
    firsts: Vec<u16>,
    /// Of each face, the face on its other side, or wall.
    backs: Vec<u16>,
    /// Of each cell, the box that it lies in.
    extents: Vec<Extent>,
}

/// Where a stand is: strictly inside a cell, or strictly within a free side of it.
#[derive(Clone, Copy, Debug, PartialEq, Eq)]
pub enum Footing {
    Inside { cell: usize },
    Side { cell: usize, side: usize },
}

/// A stand that was found, and how far is seen from it.
#[derive(Clone, Copy)]
struct View {
    q: Point,
    footing: Footing,
    /// In millimetres; 0 where it is unlimited.
    reach: i64,
}

/// The box that a cell lies in.
#[derive(Clone, Copy)]
struct Extent {
    low: [i32; 2],
    high: [i32; 2],
    cell: usize,
}

impl Extent {
    /// Whether a point is in the box or on its edge.
    fn holds(&self, at: Point) -> bool {
        let [low, high] = [self.low, self.high].map(point);
        low[0] <= at[0] && at[0] <= high[0] && low[1] <= at[1] && at[1] <= high[1]
    }
}

/// How many pairs of cells the check looks at, and how many of them have boxes that meet.
#[derive(Clone, Copy, Debug, Default, PartialEq, Eq)]
pub struct Pairs {
    pub looked_at: usize,
    pub meeting: usize,
}

/// How many side values it takes to find a stand that is on no border, where the sides of
/// every cell are looked at until it is found, and where boxes rule cells out first.
#[derive(Clone, Copy, Debug, Default, PartialEq, Eq)]
pub struct SideValues {
    pub without_boxes: usize,
    pub with_boxes: usize,
}

/// Row count and crossings.
#[derive(Clone, Copy, Debug, Default, PartialEq, Eq)]
pub struct Counts {
    pub rows: usize,
    pub crossings: u64,
}

type Point = [i64; 2];

fn point(corner: [i32; 2]) -> Point {
    corner.map(i64::from)
}

fn side_value(a: Point, b: Point, c: Point) -> i64 {
    (b[0] - a[0]) * (c[1] - a[1]) - (b[1] - a[1]) * (c[0] - a[0])
}

fn cross(a: Point, b: Point) -> i64 {
    a[0] * b[1] - a[1] * b[0]
}

fn dot(a: Point, b: Point) -> i64 {
    a[0] * b[0] + a[1] * b[1]
}

pub fn check(lists: Lists<'_>) -> Result<Plan<'_>, Refusal> {
    let cut = Cut::new(lists)?;
    cut.check_counts()?;
    cut.draw().checked()
}

/// The pairs of cells that the check of an accepted plan compares.
pub fn pairs(lists: Lists<'_>) -> Result<Pairs, Refusal> {
    let mut pairs = Pairs::default();
    check(lists)?.sweep(|_, _, meet| {
        pairs.looked_at += 1;
        pairs.meeting += usize::from(meet);
    });
    Ok(pairs)
}

/// The side values that the finding of a stand on no border works out.
pub fn side_values(lists: Lists<'_>, stand: Stand) -> Result<SideValues, Refusal> {
    let plan = check(lists)?;
    let q = plan.millimetres(stand)?;
    let mut values = SideValues::default();
    let found = plan.locate(0, q, |cell| {
        let sides = plan.faces_of(cell).len();
        values.without_boxes += sides;
        if plan.extents[cell].holds(q) {
            values.with_boxes += sides;
        }
        true
    });
    match found {
        Ok(Footing::Inside { .. }) | Err(Refusal::Outside) => Ok(values),
        _ => Err(Refusal::Line),
    }
}

fn is_outside(corner: [i32; 2]) -> bool {
    corner
        .iter()
        .any(|&number| !COORDINATES.contains(&i64::from(number)))
}

pub fn find(lists: Lists<'_>, setting: u64, stand: Stand) -> Result<Footing, Refusal> {
    let plan = check(lists)?;
    plan.check_setting(setting)?;
    let view = plan.find(Query::without_reach(setting, stand))?;
    Ok(view.footing)
}

pub fn list(lists: Lists<'_>, listing: Listing, table: &mut [u16]) -> Result<Counts, Refusal> {
    let Listing { query, ceiling } = listing;
    let plan = check(lists)?;
    plan.check_setting(query.setting)?;
    let view = plan.find(query)?;
    plan.check_room(table)?;
    plan.list_up_to(ceiling, &plan.lines(query.setting), view, table)
}

pub fn list_stands(
    lists: Lists<'_>,
    morning: Morning,
    stands: &[f64],
    table: &mut [u16],
    replies: &mut [u64],
) -> Result<Counts, Refusal> {
    let (stands, part_of_stand) = stands.as_chunks();
    let cut = Cut::new(lists)?;
    if !part_of_stand.is_empty() {
        return Err(Refusal::Frame);
    }
    cut.check_counts()?;
    if stands.len() > MOST_STANDS {
        return Err(Refusal::Size);
    }
    let plan = cut.draw().checked()?;
    plan.check_setting(morning.setting)?;
    if table.len() < ROW * plan.corners.len() * stands.len() || replies.len() < 3 * stands.len() {
        return Err(Refusal::Room);
    }
    let lines = plan.lines(morning.setting);
    let mut sums = Counts::default();
    let (replies, _) = replies.as_chunks_mut();
    for (&numbers, reply) in stands.iter().zip(replies) {
        let listed = stand_of(numbers)
            .ok_or(Refusal::Stand)
            .and_then(|stand| plan.find(morning.listing(stand).query))
            .and_then(|view| {
                let rest = &mut table[ROW * sums.rows..];
                plan.list_up_to(morning.ceiling, &lines, view, rest)
            });
        *reply = match listed {
            Ok(counts) => {
                sums.rows += counts.rows;
                sums.crossings += counts.crossings;
                [0, counts.rows as u64, counts.crossings]
            }
            Err(refusal) => [refusal.number().into(), 0, 0],
        };
    }
    Ok(sums)
}

pub fn change(
    lists: Lists<'_>,
    asked: DoorChange<'_>,
    table: &mut [u16],
) -> Result<Counts, Refusal> {
    let plan = check(lists)?;
    let setting = asked.query.setting;
    plan.check_setting(setting)?;
    let view = plan.find(asked.query)?;
    if plan.is_in_doorway(view, asked.door) {
        return Err(Refusal::Line);
    }
    plan.check_room(table)?;
    if asked.door >= plan.doors.len() || (setting >> asked.door & 1 == 1) == asked.shut {
        return Err(Refusal::Change);
    }
    let mut old = vec![0; ROW * plan.corners.len()];
    let Counts { rows, .. } = plan.list_up_to(None, &plan.lines(setting), view, &mut old)?;
    if old[..ROW * rows] != *asked.given {
        return Err(Refusal::Rows);
    }
    let lines = plan.lines(setting ^ 1 << asked.door);
    plan.list_up_to(None, &lines, view, table)
}

pub fn draw(lists: Lists<'_>, query: Query, offsets: &mut [f32]) -> Result<Counts, Refusal> {
    let plan = check(lists)?;
    plan.check_setting(query.setting)?;
    let view = plan.find(query)?;
    if offsets.len() < DRAWN * plan.corners.len() {
        return Err(Refusal::Room);
    }
    let mut table = vec![0; ROW * plan.corners.len()];
    let counts = plan.list_from(u64::MAX, &plan.lines(query.setting), view, &mut table);
    let (rows, _) = table.as_chunks::<ROW>();
    let rows = &rows[..counts.rows];
    let offset = |corner: u16| {
        let at = point(plan.corners[usize::from(corner)]);
        [at[0] - view.q[0], at[1] - view.q[1]]
    };
    // What is a left limit is the right limit of some row too.
    let is_far = |row: &[u16; ROW]| {
        let [x, y] = offset(row[1]);
        x.abs() > MOST_OFFSET || y.abs() > MOST_OFFSET
    };
    if rows.iter().any(is_far) {
        return Err(Refusal::Far);
    }
    let (drawn, _) = offsets.as_chunks_mut::<DRAWN>();
    for (row, drawn) in rows.iter().zip(drawn) {
        let [right, left] = [offset(row[1]), offset(row[2])];
        *drawn = [right[0], right[1], left[0], left[1]].map(|number| number as f32);
    }
    Ok(counts)
}

/// A reach in millimetres; 0 where it is unlimited.
fn millimetres(reach: Reach) -> Result<i64, Refusal> {
    match reach {
        Reach::NotStated => Ok(0),
        Reach::Stated(number) if REACHES.contains(&number) => Ok(number as i64),
        Reach::Stated(_) => Err(Refusal::Reach),
    }
}

impl<'a> Cut<'a> {
    fn new(lists: Lists<'a>) -> Result<Cut<'a>, Refusal> {
        let (corners, half_corner) = lists.corners.as_chunks();
        let (cells, cell_count, face_count) = match lists.kind {
            TRIANGLES => {
                let (cells, part_of_cell) = lists.cells.as_chunks();
                if !part_of_cell.is_empty() {
                    return Err(Refusal::Frame);
                }
                (Cells::Triangles(cells), cells.len(), 3 * cells.len())
            }
            POLYGONS => {
                let (cells, faces) = count_polygons(lists.cells)?;
                (Cells::Polygons(lists.cells), cells, faces)
            }
            _ => return Err(Refusal::Frame),
        };
        if !half_corner.is_empty() {
            return Err(Refusal::Frame);
        }
        Ok(Cut {
            corners,
            cells,
            cell_count,
            face_count,
            doors: lists.doors,
        })
    }

    fn check_counts(&self) -> Result<(), Refusal> {
        if !CORNERS.contains(&self.corners.len())
            || !CELLS.contains(&self.cell_count)
            || !DOORS.contains(&self.doors.len())
        {
            return Err(Refusal::Size);
        }
        Ok(())
    }

    /// The plan with its tables of faces and first faces.
    fn draw(&self) -> Plan<'a> {
        let mut faces = Vec::with_capacity(self.face_count);
        let mut firsts = Vec::with_capacity(self.cell_count + 1);
        match self.cells {
            Cells::Triangles(cells) => {
                for &[a, b, c, first, second, third] in cells {
                    firsts.push(faces.len() as u16);
                    faces.extend([[a, first], [b, second], [c, third]]);
                }
            }
            Cells::Polygons(mut list) => {
                while let Some((&count, numbers)) = list.split_first() {
                    let (corners, rest) = numbers.split_at(count.into());
                    let (neighbours, rest) = rest.split_at(count.into());
                    firsts.push(faces.len() as u16);
                    faces.extend(corners.iter().zip(neighbours).map(|(&a, &b)| [a, b]));
                    list = rest;
                }
            }
        }
        firsts.push(faces.len() as u16);
        Plan {
            corners: self.corners,
            doors: self.doors,
            faces,
            firsts,
            backs: Vec::new(),
            extents: Vec::new(),
        }
    }
}

/// How many cells and faces a list has that is cut into whole cells.
fn count_polygons(mut list: &[u16]) -> Result<(usize, usize), Refusal> {
    let (mut cells, mut faces) = (0, 0);
    while let Some((&count, numbers)) = list.split_first() {
        let count = usize::from(count);
        if !SIDES.contains(&count) {
            return Err(Refusal::Frame);
        }
        list = numbers.get(2 * count..).ok_or(Refusal::Frame)?;
        cells += 1;
        faces += count;
    }
    Ok((cells, faces))
}

impl Plan<'_> {
    /// The plan, once its numbers are checked.
    fn checked(mut self) -> Result<Self, Refusal> {
        if let Some(corner) = self.corners.iter().position(|&corner| is_outside(corner)) {
            return Err(Refusal::Corner(corner));
        }
        if let Some(cell) = (0..self.cell_count()).find(|&cell| !self.is_right(cell)) {
            return Err(Refusal::Cell(cell));
        }
        self.backs = self.find_backs()?;
        if let Some(door) = (0..self.doors.len()).find(|&door| !self.door_is_right(door)) {
            return Err(Refusal::Door(door));
        }
        let cells = 0..self.cell_count();
        self.extents = cells.map(|cell| self.extent(cell)).collect();
        if let Some(cell) = self.least_overlapping() {
            return Err(Refusal::Overlap(cell));
        }
        Ok(self)
    }

    pub fn counts(&self) -> [usize; 3] {
        [self.corners.len(), self.cell_count(), self.doors.len()]
    }

    fn check_setting(&self, setting: u64) -> Result<(), Refusal> {
        if setting.checked_shr(self.doors.len() as u32).unwrap_or(0) != 0 {
            return Err(Refusal::Setting);
        }
        Ok(())
    }

    fn corner(&self, number: u16) -> Point {
        point(self.corners[usize::from(number)])
    }

    fn cell_count(&self) -> usize {
        self.firsts.len() - 1
    }

    fn faces_of(&self, cell: usize) -> Range<usize> {
        self.firsts[cell].into()..self.firsts[cell + 1].into()
    }

    fn is_right(&self, cell: usize) -> bool {
        let faces = &self.faces[self.faces_of(cell)];
        if faces
            .iter()
            .any(|&[start, _]| usize::from(start) >= self.corners.len())
        {
            return false;
        }
        // One side value tells of all three sides of a triangle.
        if let &[[a, _], [b, _], [c, _]] = faces {
            return side_value(self.corner(a), self.corner(b), self.corner(c)) > 0;
        }
        let mut points = [[0; 2]; *SIDES.end()];
        for (point, &[start, _]) in points.iter_mut().zip(faces) {
            *point = self.corner(start);
        }
        let points = &points[..faces.len()];
        points.iter().enumerate().all(|(side, &a)| {
            let after = next(side, points.len());
            let b = points[after];
            let mut corners = points.iter().enumerate();
            corners.all(|(at, &c)| at == side || at == after || side_value(a, b, c) > 0)
        })
    }

    /// The face on the other side of each line: the one of the neighbour's sides
    /// that has the same corners reversed and names this cell.
    fn find_backs(&self) -> Result<Vec<u16>, Refusal> {
        let (faces, firsts) = (&self.faces[..], &self.firsts[..]);
        let mut backs = vec![WALL; faces.len()];
        for (cell, ends) in (0u16..).zip(firsts.windows(2)) {
            let first = usize::from(ends[0]);
            let here = &faces[first..ends[1].into()];
            for (side, &[start, neighbour]) in here.iter().enumerate() {
                if neighbour == WALL {
                    continue;
                }
                let [end, _] = here[next(side, here.len())];
                let back = answering(faces, firsts, neighbour.into(), [end, start], cell);
                backs[first + side] = back.ok_or(Refusal::Neighbour(first + side))?;
            }
        }
        Ok(backs)
    }

    fn door_is_right(&self, door: usize) -> bool {
        let face = self.doors[door];
        match self.backs.get(usize::from(face)) {
            None | Some(&WALL) => false,
            Some(back) => {
                let earlier = &self.doors[..door];
                !earlier.contains(&face) && !earlier.contains(back)
            }
        }
    }

    /// The least cell of any two that overlap.
    fn least_overlapping(&self) -> Option<usize> {
        let mut least = None;
        self.sweep(|a, b, meet| {
            let lower = a.min(b);
            // A pair of higher cells does not matter any more.
            if meet && least.is_none_or(|least| lower < least) && self.overlap(a, b) {
                least = Some(lower);
            }
        });
        least
    }

    /// Looks at every two cells whose boxes meet from west to east, and says whether they
    /// meet from south to north too.
    fn sweep(&self, mut look: impl FnMut(usize, usize, bool)) {
        let mut extents = self.extents.clone();
        extents.sort_unstable_by_key(|extent| extent.low);
        for (at, one) in extents.iter().enumerate() {
            let further = extents[at + 1..].iter();
            for other in further.take_while(|other| other.low[0] < one.high[0]) {
                let meet = one.low[1] < other.high[1] && other.low[1] < one.high[1];
                look(one.cell, other.cell, meet);
            }
        }
    }

    fn extent(&self, cell: usize) -> Extent {
        let (mut low, mut high) = ([i32::MAX; 2], [i32::MIN; 2]);
        for &[start, _] in &self.faces[self.faces_of(cell)] {
            let at = self.corners[usize::from(start)];
            for axis in 0..2 {
                low[axis] = low[axis].min(at[axis]);
                high[axis] = high[axis].max(at[axis]);
            }
        }
        Extent { low, high, cell }
    }

    /// Whether no side of either cell has all of the other on its line or right of it.
    fn overlap(&self, a: usize, b: usize) -> bool {
        let [a, b] = [a, b].map(|cell| &self.faces[self.faces_of(cell)]);
        !self.is_beside(a, b) && !self.is_beside(b, a)
    }

    /// Whether some side of the one cell has all corners of the other on its line or right
    /// of it.
    fn is_beside(&self, one: &[[u16; 2]], other: &[[u16; 2]]) -> bool {
        let mut from = self.corner(one[one.len() - 1][0]);
        one.iter().any(|&[start, _]| {
            let to = self.corner(start);
            let side = std::mem::replace(&mut from, to);
            let is_right = |&[at, _]: &[u16; 2]| side_value(side, to, self.corner(at)) <= 0;
            other.iter().all(is_right)
        })
    }

    fn millimetres(&self, stand: Stand) -> Result<Point, Refusal> {
        let at = match stand {
            Stand::Point(x, y) => [whole(x)?, whole(y)?],
            Stand::Offset(corner, dx, dy) => {
                let from = self.corners.get(usize::from(corner));
                let [x, y] = point(*from.ok_or(Refusal::Stand)?);
                [x + whole(dx)?, y + whole(dy)?]
            }
        };
        if at.iter().all(|number| COORDINATES.contains(number)) {
            Ok(at)
        } else {
            Err(Refusal::Stand)
        }
    }

    /// Where a point is, looked for in those cells alone that may hold it: in one of them
    /// strictly inside, or else strictly within a free side.
    fn locate(
        &self,
        setting: u64,
        q: Point,
        mut may_hold: impl FnMut(usize) -> bool,
    ) -> Result<Footing, Refusal> {
        let mut is_on_border = false;
        for cell in 0..self.cell_count() {
            if !may_hold(cell) {
                continue;
            }
            match self.least_side_value(cell, q) {
                1.. => return Ok(Footing::Inside { cell }),
                0 => is_on_border = true,
                _ => {}
            }
        }
        if !is_on_border {
            return Err(Refusal::Outside);
        }
        for cell in (0..self.cell_count()).filter(|&cell| may_hold(cell)) {
            let mut sides = 0..self.faces_of(cell).len();
            if let Some(side) = sides.find(|&side| self.is_within_free(setting, q, cell, side)) {
                return Ok(Footing::Side { cell, side });
            }
        }
        Err(Refusal::Line)
    }

    fn is_within_free(&self, setting: u64, q: Point, cell: usize, side: usize) -> bool {
        let all = self.faces_of(cell);
        self.is_within(q, &self.faces[all.clone()], side) && self.is_free(setting, all.start + side)
    }

    /// Whether the stand is on a side's line, and the ends of the side are in
    /// opposite directions.
    fn is_within(&self, q: Point, faces: &[[u16; 2]], side: usize) -> bool {
        let a = self.corner(faces[side][0]);
        let b = self.corner(faces[next(side, faces.len())][0]);
        let from_stand = |at: Point| [at[0] - q[0], at[1] - q[1]];
        side_value(a, b, q) == 0 && dot(from_stand(a), from_stand(b)) < 0
    }

    /// Whether sight passes a face: it is no wall, and no shut door is on its line.
    fn is_free(&self, setting: u64, face: usize) -> bool {
        let back = self.backs[face];
        let mut doors = self.doors.iter().enumerate();
        back != WALL
            && !doors.any(|(door, &at)| {
                setting >> door & 1 == 1 && (usize::from(at) == face || at == back)
            })
    }

    /// Whether the stand is on a side, and strictly within the line of a door.
    fn is_in_doorway(&self, view: View, door: usize) -> bool {
        let (Footing::Side { .. }, Some(&face)) = (view.footing, self.doors.get(door)) else {
            return false;
        };
        // The cell beyond a door's back face is the door's own.
        let [_, cell] = self.faces[usize::from(self.backs[usize::from(face)])];
        let all = self.faces_of(cell.into());
        let side = usize::from(face) - all.start;
        self.is_within(view.q, &self.faces[all], side)
    }

    /// The least of the side values of a cell's sides with the stand.
    fn least_side_value(&self, cell: usize, q: Point) -> i64 {
        let faces = &self.faces[self.faces_of(cell)];
        let mut from = self.corner(faces[faces.len() - 1][0]);
        let mut least = i64::MAX;
        for &[start, _] in faces {
            let to = self.corner(start);
            least = least.min(side_value(from, to, q));
            from = to;
        }
        least
    }

    /// The stand where it is under a setting that is right.
    fn find(&self, query: Query) -> Result<View, Refusal> {
        let q = self.millimetres(query.stand)?;
        let reach = millimetres(query.reach)?;
        let footing = self.locate(query.setting, q, |cell| self.extents[cell].holds(q))?;
        Ok(View { q, footing, reach })
    }

    /// Whether a table is long enough for a listing.
    fn check_room(&self, table: &[u16]) -> Result<(), Refusal> {
        if table.len() < ROW * self.corners.len() {
            return Err(Refusal::Room);
        }
        Ok(())
    }

    /// The listing, which writes nothing where it is refused: rows that a ceiling can
    /// still refuse go to a table of their own first.
    fn list_up_to(
        &self,
        ceiling: Option<u64>,
        lines: &[Line],
        view: View,
        table: &mut [u16],
    ) -> Result<Counts, Refusal> {
        let Some(ceiling) = ceiling else {
            return Ok(self.list_from(u64::MAX, lines, view, table));
        };
        let mut own = vec![0; ROW * self.corners.len()];
        // No listing has as many crossings as the largest number.
        let counts = self.list_from(ceiling.saturating_add(1), lines, view, &mut own);
        if counts.crossings > ceiling {
            return Err(Refusal::Ceiling);
        }
        let written = ROW * counts.rows;
        table[..written].copy_from_slice(&own[..written]);
        Ok(counts)
    }

    /// Follows the sides of the stand's cell, or of both cells at its side, until so
    /// many lines are crossed.
    fn list_from(&self, most: u64, lines: &[Line], view: View, table: &mut [u16]) -> Counts {
        let View { q, footing, reach } = view;
        // A difference of two coordinates fits 32 bits.
        let from_stand = |&[x, y]: &[i32; 2]| [x - q[0] as i32, y - q[1] as i32];
        let corners: Vec<[i32; 2]> = self.corners.iter().map(from_stand).collect();
        let limited;
        let lines = match reach {
            0 => lines,
            _ => {
                limited = self.within_reach(lines, &corners, reach);
                &limited
            }
        };
        let mut sight = Sight {
            corners: &corners,
            lines,
            table,
            rows: 0,
        };
        let mut left = most;
        let mut follow = |face: usize| {
            let [start, _] = self.faces[face];
            left = sight.cross(face as u16, start, lines[face].left_end, left);
        };
        match footing {
            Footing::Inside { cell } => self.faces_of(cell).for_each(follow),
            Footing::Side { cell, side } => {
                let face = self.faces_of(cell).start + side;
                for stood_on in [face, self.backs[face].into()] {
                    let mut other = usize::from(lines[stood_on].next);
                    while other != stood_on {
                        follow(other);
                        other = lines[other].next.into();
                    }
                }
            }
        }
        Counts {
            rows: sight.rows,
            crossings: most - left,
        }
    }

    /// The line of each face, under a setting.
    fn lines(&self, setting: u64) -> Vec<Line> {
        let mut lines = Vec::with_capacity(self.faces.len());
        for cell in 0..self.cell_count() {
            let all = self.faces_of(cell);
            let (faces, backs) = (&self.faces[all.clone()], &self.backs[all.clone()]);
            for (side, (&[_, neighbour], &back)) in faces.iter().zip(backs).enumerate() {
                let following = next(side, faces.len());
                let (beyond, more) = self.beyond(neighbour, back);
                lines.push(Line {
                    left_end: faces[following][0],
                    beyond,
                    more,
                    next: (all.start + following) as u16,
                });
            }
        }
        for (door, &face) in self.doors.iter().enumerate() {
            if setting >> door & 1 == 1 {
                for face in [face, self.backs[usize::from(face)]] {
                    let line = &mut lines[usize::from(face)];
                    (line.beyond, line.more) = (WALL, 0);
                }
            }
        }
        lines
    }

    /// The lines, of which sight ends at those out of reach too. Most that are in reach
    /// have an end there; each corner is looked at once for that.
    fn within_reach(&self, lines: &[Line], corners: &[[i32; 2]], reach: i64) -> Vec<Line> {
        let is_near = |&at: &[i32; 2]| dot(point(at), point(at)) <= reach * reach;
        let near: Vec<bool> = corners.iter().map(is_near).collect();
        let within = |(&[start, _], &line): (&[u16; 2], &Line)| {
            let [a, b] = [start, line.left_end].map(usize::from);
            let at = |corner: usize| point(corners[corner]);
            if near[a] || near[b] || is_between_near(at(a), at(b), reach) {
                return line;
            }
            Line {
                beyond: WALL,
                more: 1,
                ..line
            }
        };
        self.faces.iter().zip(lines).map(within).collect()
    }

    /// The first side that is handed on where a cell is entered through a face,
    /// and how many follow it; wall where that is wall.
    fn beyond(&self, cell: u16, entered: u16) -> (u16, u16) {
        if entered == WALL {
            return (WALL, 0);
        }
        let all = self.faces_of(cell.into());
        let first = next(usize::from(entered) - all.start, all.len());
        ((all.start + first) as u16, (all.len() - 2) as u16)
    }
}

/// Whether some point of a line is in reach, neither of whose ends is. Most that are
/// not lie beside the square around the reach; only where the nearest point is between
/// the ends are squares of 128 bits needed.
fn is_between_near(a: Point, b: Point, reach: i64) -> bool {
    let is_beside = |axis: usize| {
        let (a, b) = (a[axis], b[axis]);
        a.min(b) > reach || a.max(b) < -reach
    };
    if is_beside(0) || is_beside(1) {
        return false;
    }
    let both = dot(a, b);
    let (from_a, from_b) = (dot(a, a) - both, dot(b, b) - both);
    if from_a <= 0 || from_b <= 0 {
        return false;
    }
    let value = i128::from(cross(a, b));
    let length = i128::from(from_a) + i128::from(from_b);
    value * value <= i128::from(reach * reach) * length
}

/// The face of a cell with these ends whose neighbour is another cell.
fn answering(
    faces: &[[u16; 2]],
    firsts: &[u16],
    cell: usize,
    [a, b]: [u16; 2],
    other: u16,
) -> Option<u16> {
    let (&first, &end) = (firsts.get(cell)?, firsts.get(cell + 1)?);
    let there = &faces[first.into()..end.into()];
    // Its corners differ: no more than one side starts there.
    let side = there.iter().position(|&face| face == [a, other])?;
    let [end, _] = there[next(side, there.len())];
    (end == b).then_some(first + side as u16)
}

/// The side after a side, in a cell of so many.
fn next(side: usize, count: usize) -> usize {
    if side + 1 == count {
        0
    } else {
        side + 1
    }
}

/// The same number as an integer, if it is whole and within the limits.
fn whole(number: f64) -> Result<i64, Refusal> {
    let whole = number as i64;
    if whole as f64 == number && COORDINATES.contains(&whole) {
        Ok(whole)
    } else {
        Err(Refusal::Stand)
    }
}

/// What following the line of a face needs to know.
#[derive(Clone, Copy)]
struct Line {
    left_end: u16,
    /// The first side handed on beyond it, or wall where sight ends.
    beyond: u16,
    /// How many sides follow that one. Where sight ends it is the fourth number of the
    /// row: 0 in reach, 1 out of it.
    more: u16,
    /// The next side of its own cell.
    next: u16,
}

struct Sight<'a> {
    /// From the stand.
    corners: &'a [[i32; 2]],
    lines: &'a [Line],
    table: &'a mut [u16],
    rows: usize,
}

impl Sight<'_> {
    /// Follows the line of a face with limits r and l to its rows. No more lines are
    /// crossed than are left, and it gives back how many are left then; where none is,
    /// nothing beyond the last one was looked at.
    fn cross(&mut self, face: u16, r: u16, l: u16, left: u64) -> u64 {
        let Line { beyond, more, .. } = self.lines[usize::from(face)];
        if beyond == WALL {
            let at = ROW * self.rows;
            self.table[at..at + ROW].copy_from_slice(&[face, r, l, more]);
            self.rows += 1;
            return left;
        }
        if left <= 1 {
            return 0;
        }
        self.hand_on(beyond, more, r, l, left - 1)
    }

    /// Hands on a side of the cell that is entered, and the sides after it, so
    /// many of them.
    fn hand_on(&mut self, side: u16, more: u16, r: u16, l: u16, left: u64) -> u64 {
        if more == 0 {
            return self.cross(side, r, l, left);
        }
        let Line {
            left_end: v, next, ..
        } = self.lines[usize::from(side)];
        if !self.is_left(r, v) {
            self.hand_on(next, more - 1, r, l, left)
        } else if !self.is_left(v, l) {
            self.cross(side, r, l, left)
        } else {
            let left = self.cross(side, r, v, left);
            self.hand_on(next, more - 1, v, l, left)
        }
    }

    /// Whether corner b is strictly left of the ray to corner a.
    fn is_left(&self, a: u16, b: u16) -> bool {
        let [a, b] = [a, b].map(|corner| point(self.corners[usize::from(corner)]));
        cross(a, b) > 0
    }
}

#[cfg(test)]
mod tests {
    use super::*;
    use crate::calls::Reply;
    use crate::examples::{hall, plan_q, row_of_cells};
    use crate::generate::{self, Case, Given};
    use crate::paper::{self, reply};

    fn counts(result: Result<Counts, Refusal>) -> Reply {
        reply(result.map(|counts| [counts.rows as u64, counts.crossings, 0, 0, 0]))
    }

    /// What a call leaves in a table of the case's length.
    fn with_table(case: &Case, call: impl FnOnce(&mut [u16]) -> Reply) -> (Reply, Vec<u16>) {
        let corners = case.scene.plan.corners.len() / 2;
        let mut table = vec![7; case.table.length(ROW * corners)];
        (call(&mut table), table)
    }

    /// What a call leaves in a table and in replies of the case's lengths for a
    /// morning.
    fn with_replies(
        case: &Case,
        call: impl FnOnce(&mut [u16], &mut [u64]) -> Reply,
    ) -> (Reply, Vec<u16>, Vec<u64>) {
        let [corners, stands] = [
            case.scene.plan.corners.len() / 2,
            case.scene.stands.len() / 3,
        ];
        let mut table = vec![7; case.morning[0].length(ROW * corners * stands)];
        let mut replies = vec![7; case.morning[1].length(3 * stands)];
        (call(&mut table, &mut replies), table, replies)
    }

    /// A triangle and cells of four, eight and five corners, side by side; plan Q, both of
    /// whose cells have the same box; and the hall, where the edges of two boxes go through
    /// cell 3.
    #[test]
    fn side_values_are_counted_up_to_the_cell() {
        let count = |plan: &crate::calls::Plan, [x, y]: [f64; 2]| {
            let values = side_values(plan.lists(), Stand::Point(x, y));
            let values = values.expect("the stand is inside a cell");
            [values.without_boxes, values.with_boxes]
        };
        let row = row_of_cells();
        assert_eq!(count(&row, [5.0, 0.0]), [3, 3]);
        assert_eq!(count(&row, [15.0, 0.0]), [7, 4]);
        assert_eq!(count(&row, [55.0, 0.0]), [20, 5]);
        assert_eq!(count(&plan_q(), [6.0, 3.0]), [3, 3]);
        assert_eq!(count(&plan_q(), [3.0, 6.0]), [6, 6]);
        assert_eq!(count(&hall(), [0.0, 15.0]), [12, 9]);
        assert_eq!(count(&hall(), [1.0, 15.0]), [12, 6]);
    }

    #[test]
    fn plain_replies_are_the_paper_programs() {
        let (mut changed, mut on_side, mut far, mut passed, mut refused) = (0, 0, 0, 0, 0);
        for number in 0..4_000 {
            let case = generate::case(17, number);
            let (scene, lists) = (&case.scene, case.scene.plan.lists());
            let checked = check(lists).map(|plan| {
                let [corners, cells, doors] = plan.counts().map(|count| count as u64);
                [corners, cells, doors, 0, 0]
            });
            assert_eq!(reply(checked), paper::check(lists), "{number}");
            refused += usize::from(matches!(checked, Err(Refusal::Overlap(_))));
            let (setting, stand) = (scene.setting, scene.stand);
            let found = find(lists, setting, stand).map(|footing| match footing {
                Footing::Inside { cell } => [cell as u64, 0, 0, 0, 0],
                Footing::Side { cell, side } => [cell as u64, 1, side as u64, 0, 0],
            });
            on_side += found.map_or(0, |[_, on_side, ..]| on_side);
            assert_eq!(reply(found), paper::find(lists, setting, stand), "{number}");
            let query = scene.query();
            let listing = scene.listing(case.ceiling);
            let plain = with_table(&case, |table| counts(list(lists, listing, table)));
            let paper = with_table(&case, |table| paper::list(lists, listing, table));
            assert_eq!(plain, paper, "{number}");
            passed += usize::from(plain.0.number == 19);
            let numbers = Given::True.numbers(scene);
            let (rows, _) = numbers.as_chunks::<ROW>();
            far += rows.iter().filter(|&&[.., far]| far == 1).count();
            let (morning, stands) = (scene.morning(case.morning_ceiling), &scene.stands);
            let plain = with_replies(&case, |table, replies| {
                counts(list_stands(lists, morning, stands, table, replies))
            });
            let paper = with_replies(&case, |table, replies| {
                paper::list_stands(lists, morning, stands, table, replies)
            });
            assert_eq!(plain, paper, "{number}");
            let asked = DoorChange {
                query,
                given: &case.given.numbers(scene),
                door: scene.door,
                shut: case.shut,
            };
            let plain = with_table(&case, |table| counts(change(lists, asked, table)));
            let paper = with_table(&case, |table| paper::change(lists, asked, table));
            assert_eq!(plain, paper, "{number}");
            changed += usize::from(plain.0.number == 0);
        }
        assert!(changed > 500, "only {changed} changes");
        assert!(on_side > 300, "only {on_side} stands on a side");
        assert!(far > 3_000, "only {far} rows out of reach");
        assert!(passed > 300, "only {passed} over a ceiling");
        assert!(refused > 150, "only {refused} with cells that overlap");
    }
}
