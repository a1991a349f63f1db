//! Versions of the calls with one fault each: the errors and the versions to
//! be shut out that the documents name, and some more. The comparison has to
//! find every one of them.

use manopluea_compare::calls::{
    Calls, DoorChange, Listing, Lists, Morning, Plan, Query, Reach, Reply, Stand, DRAWN,
    MOST_STANDS, POINT, POLYGONS, ROW, TRIANGLES, WALL,
};
use manopluea_compare::compare::{compare, compare_program, Asked, Mismatch, Trial};
use manopluea_compare::generate::in_other_kind;
use manopluea_compare::paper::{
    self, cut_cells, is_within, millimetres, Cell, Floor, Line, Offset, Paper, Place, Point, Row,
    View, CELLS, CORNERS, DOORS, MOST_OFFSET, REACHES,
};
use std::rc::Rc;

/// The enum of the faults, the list of all of them, those in the expansion, those in
/// where a stand is found, those in the boxes that it is found by, those in which cells
/// overlap, and those in the drawing.
macro_rules! faults {
    (
        expansion { $($slip:ident,)* }
        place { $($found:ident,)* }
        boxes { $($boxed:ident,)* }
        overlap { $($upon:ident,)* }
        drawing { $($drawn:ident,)* }
        elsewhere { $($fault:ident,)* }
    ) => {
        #[derive(Clone, Copy, Debug, PartialEq, Eq)]
        enum Fault {
            $($slip,)*
            $($found,)*
            $($boxed,)*
            $($upon,)*
            $($drawn,)*
            $($fault,)*
        }

        const ALL: &[Fault] = &[
            $(Fault::$slip,)*
            $(Fault::$found,)*
            $(Fault::$boxed,)*
            $(Fault::$upon,)*
            $(Fault::$drawn,)*
            $(Fault::$fault,)*
        ];
        const IN_EXPANSION: &[Fault] = &[$(Fault::$slip,)*];
        const IN_PLACE: &[Fault] = &[$(Fault::$found,)*];
        const IN_BOXES: &[Fault] = &[$(Fault::$boxed,)*];
        const IN_OVERLAP: &[Fault] = &[$(Fault::$upon,)*];
        const IN_DRAWING: &[Fault] = &[$(Fault::$drawn,)*];
    };
}

faults! {
    expansion {
        CornerOnLimitIsBetween,
        FartherCornerBecomesLimit,
        LineEndsBecomeLimits,
        OtherSidesAreWalls,
        DoubleSideValues,
        NarrowSideValues,
        DoorIsWallFromOneFace,
        FanGoesOnAfterTheLeftLimit,
        SidesFromTheLeftEnd,
        // From a stand on a side.
        LineStoodOnIsCrossed,
        NeighboursSidesComeFirst,
        NeighboursSidesAreLeftOut,
        OtherSidesInTheirOwnOrder,
        // Where the reach ends.
        InfiniteLineIsInReach,
        SeenPartIsInReach,
        OnlyEndsAreInReach,
        LineIsInReachByItsMiddle,
        ReachIsExclusive,
        DistanceIsCutToMillimetres,
        DoubleDistances,
        SquareIsCutTo64Bits,
        ReachTimesLengthIsCutTo64Bits,
        OutOfReachLineIsCrossed,
        OutOfReachLineIsCounted,
        OutOfReachRowIsLeftOut,
        WallInReachIsMarked,
        UnreachedWallIsNotMarked,
    }
    place {
        ShutDoorIsFree,
        ShutDoorIsFreeFromItsOtherFace,
        WallIsFree,
        EndIsWithin,
        WholeLineIsWithin,
        HighestSideIsFound,
    }
    boxes {
        BoxWithoutItsBorder,
        BoxWithoutItsLeast,
        BoxWithoutItsGreatest,
        DoorwayIsOffTheBorderOfItsBox,
        LeastAndGreatestExchanged,
        XAndYExchanged,
        BoxOfTheFirstThreeCorners,
        BoxesInOrderFromTheWest,
        OnlyTheFirstBoxIsTried,
        BoxIsTakenForTheCell,
    }
    overlap {
        CellsThatTouchOverlap,
        StrangersThatTouchOverlap,
        OnlySidesOfTheLowerCellAreTried,
        OnlySidesOfTheHigherCellAreTried,
        BoxesOverlapForCells,
        OnlyCornersInsideAreSeen,
        OnlyWholePointsAreSeen,
        SameCornersAreTheSameCell,
        OverlapIsOfDoubles,
        OverlapIsOf32Bits,
        FirstPairFoundIsNamed,
        HigherCellIsNamed,
    }
    drawing {
        LeftLimitIsDrawnFirst,
        YIsDrawnFirst,
        StandIsDrawnFromTheCorner,
        CornersAreDrawnAsTheyAre,
        EndsOfTheLineAreDrawn,
        RepeatsAreLeftOut,
        ZeroIsMinusZero,
        ZeroIsMinusZeroInY,
        SinglesAreSubtracted,
        RestOfOffsetsIsCleared,
        PayloadsAreLost,
        MinusZeroInTheRestIsLost,
        RefusalClearsOffsets,
        RoomOfOffsetsIsAskedForRowsOnly,
        RoomOfOffsetsIsTwoNumbersACorner,
        // What is too far. That only right limits are looked at is no fault: each row's
        // left limit is the right limit of another.
        FarIsExclusive,
        FarOffsetIsRounded,
        FittingOffsetIsDrawn,
        FarIsForX,
        FarIsForY,
        FarIsAhead,
        FarIsTheDistance,
        FarIsTheSumOfBoth,
        FarIsOfTheFirstRow,
        FarIsOfAllCorners,
        FarIsOfCornersInCells,
        FarIsOfTheEndsOfLines,
        FarIsOfRowsInReach,
        FarComesBeforeRoom,
        FarComesBeforeReach,
        RowsBeforeAFarOneAreDrawn,
        FarHasItsCorner,
        CountsAreSaidOfAFarDrawing,
    }
    elsewhere {
        // In the order of the refusals.
        OverlapComesBeforeNeighbour,
        OverlapComesBeforeDoor,
        OverlapComesAfterSetting,
        OverlapComesAfterRoom,
        ReaderTakesOverlaps,
        OverlapHasNoPlace,
        // In larger cells.
        StraightCornerIsAccepted,
        PentagramIsAccepted,
        FacesAreThreeACell,
        WriterWritesTheOldKind,
        ReaderSaysTheOldKind,
        AnyKindIsTheOldOne,
        CountOfNineIsACell,
        LeftoverIsLeftOut,
        FrameOfCellsComesAfterSize,
        CellIsItsFirstThreeCorners,
        // In what is handed back.
        AdjacentRowsAreJoined,
        NothingIsWritten,
        CrossingsAreInvented,
        RestOfTableIsCleared,
        RefusalClearsTable,
        RefusalCarriesValues,
        RoomIsAskedForRowsOnly,
        RoomIsThreeNumbersACorner,
        RoomComesBeforeStand,
        // In the reach that is stated.
        NotStatedIsTheLongest,
        ZeroIsUnlimited,
        LongestReachIsRefused,
        LongerReachIsTheLongest,
        ReachIsCutTo32Bits,
        ReachComesBeforeSetting,
        ReachComesBeforeStand,
        ReachComesAfterLine,
        RoomComesBeforeReach,
        // Over the ceiling.
        CeilingIsExclusive,
        CeilingIsOfRows,
        CeilingIsForEachSide,
        CeilingIsForEachCell,
        LineStoodOnCountsForTheCeiling,
        CeilingComesBeforeRoom,
        RowsAreLeftOverTheCeiling,
        CrossingsAreSaidOverTheCeiling,
        ZeroIsNoCeiling,
        LargestCeilingWrapsRound,
        CeilingHasASign,
        CeilingIsCutTo32Bits,
        // In a morning's stands.
        CeilingIsSharedOut,
        CeilingIsForTheFirstStand,
        CeilingRefusesTheMorning,
        StandOverTheCeilingHasCounts,
        StandOverTheCeilingLeavesItsRows,
        RefusedStandStopsTheRest,
        RefusedStandLeavesAGap,
        RefusedStandHasRows,
        RowsStandAtFixedPlaces,
        LastStandForTheSums,
        MorningKnowsNoSides,
        RepliesAreTurnedRound,
        RestOfRepliesIsCleared,
        RefusalClearsReplies,
        RoomIsAskedForAcceptedStands,
        RoomIsAskedOfTableOnly,
        RoomOfMorningIsThreeNumbersACorner,
        RoomComesBeforeSetting,
        ReachIsForTheFirstStand,
        WrongReachRefusesTheMorning,
        SizeOfMorningComesAfterCorner,
        FrameOfMorningComesAfterSize,
        MorningIsOneShorter,
        NoStandsAreRefused,
        PointsAndOffsetsAreMixedUp,
        CornerIsTruncated,
        CornerIsWrapped,
        MinusZeroIsNoCorner,
        // In the door change.
        OldListIsCopied,
        OneRunIsShut,
        GivenListIsTrusted,
        GivenListIsTheUnlimitedOne,
        GivenRowsHaveThreeNumbers,
        DoorOutOfReachStays,
        DoorOutOfReachLosesItsRow,
        ChangeComesBeforeRoom,
        DoorOfTheLineMayBeChanged,
        DoorOfTheLineStaysAsItIs,
        RoomComesBeforeDoorOfTheLine,
        MissingDoorIsRefusedFromASide,
        // In the stand and the finding.
        StandIsTruncated,
        OffsetHasNoBound,
        LineIsOutside,
        StandOnASideIsRefused,
        SideIsNumberedAsItsFace,
        SideIsTheNeighbours,
        SideOfAStandInsideIsLeft,
        FindingTakesAnySetting,
        StandComesBeforeSetting,
        // In the files.
        LengthHasASign,
        ReaderWritesBeforeRoom,
        WriterClearsTheRest,
        PlaceOfNeighbourIsItsCell,
        LineIsItsCorners,
        InputLimitIsExclusive,
        LastLineHasNoEnd,
        ReachIsNotPrinted,
    }
}

use Fault::*;

struct Faulty(Fault);

impl Calls for Faulty {
    fn check(&self, lists: Lists<'_>) -> Reply {
        let mut reply = Paper.check(lists);
        match self.0 {
            PlaceOfNeighbourIsItsCell if reply.number == 5 => {
                reply.place = cell_with(lists, reply.place);
            }
            StraightCornerIsAccepted if reply.number == 4 => {
                return check_cells_by(lists, |turn, _, count| turn > 0 || turn == 0 && count > 3);
            }
            PentagramIsAccepted if reply.number == 4 => {
                return check_cells_by(lists, |turn, on, _| turn > 0 || on > 2);
            }
            AnyKindIsTheOldOne if ![TRIANGLES, POLYGONS].contains(&lists.kind) => {
                let kind = TRIANGLES;
                return Paper.check(Lists { kind, ..lists });
            }
            CountOfNineIsACell | LeftoverIsLeftOut | FrameOfCellsComesAfterSize
                if reply.number == 1 =>
            {
                return self.check_unframed(lists);
            }
            RefusalCarriesValues if reply.number != 0 => reply.values[0] = 1,
            LineIsItsCorners if [0, 17].contains(&reply.number) => {
                return doors_by_corners(lists, reply);
            }
            slip if IN_OVERLAP.contains(&slip) && [0, 17].contains(&reply.number) => {
                return check_overlap_by(slip, lists);
            }
            OverlapHasNoPlace if reply.number == 17 => reply.place = 0,
            OverlapComesBeforeDoor if reply.number == 6 => {
                let without_doors = Paper.check(Lists {
                    doors: &[],
                    ..lists
                });
                if without_doors.number == 17 {
                    return without_doors;
                }
            }
            OverlapComesBeforeNeighbour if reply.number == 5 => {
                let walled = Paper.check(Lists {
                    cells: &walled(lists),
                    doors: &[],
                    ..lists
                });
                if walled.number == 17 {
                    return walled;
                }
            }
            _ => {}
        }
        reply
    }

    fn read(
        &self,
        file: &[u8],
        corners: &mut [i32],
        cells: &mut [u16],
        doors: &mut [u16],
    ) -> Reply {
        let negative = file.get(3).is_some_and(|&byte| byte >= 128);
        if self.0 == LengthHasASign && negative {
            return refused(2);
        }
        let mut reply = Paper.read(file, corners, cells, doors);
        match self.0 {
            ReaderWritesBeforeRoom if reply.number == 11 => corners.fill(0),
            ReaderTakesOverlaps if reply.number == 17 => {
                if let Ok(plan) = paper::decode(file) {
                    reply = Reply::done([plan.corners.len() as u64 / 2]);
                }
            }
            ReaderSaysTheOldKind if reply.number == 0 => reply.values[3] = TRIANGLES.into(),
            _ => {}
        }
        reply
    }

    fn write(&self, lists: Lists<'_>, file: &mut [u8]) -> Reply {
        if self.0 == WriterWritesTheOldKind && lists.kind == POLYGONS {
            if let Some(triangles) = in_other_kind(&owned(lists)) {
                return Paper.write(triangles.lists(), file);
            }
        }
        let reply = Paper.write(lists, file);
        if self.0 == WriterClearsTheRest && reply.number == 0 {
            if let Some(last) = file.last_mut() {
                *last = 0;
            }
        }
        reply
    }

    fn find(&self, lists: Lists<'_>, setting: u64, stand: Stand) -> Reply {
        let stand = self.stand(lists, stand);
        let mut reply = Paper.find(lists, setting, stand);
        let [cell, on_side, side, ..] = reply.values;
        match self.0 {
            LineIsOutside if reply.number == 9 => return refused(10),
            OverlapComesAfterSetting if reply.number == 17 && has_wrong_bit(lists, setting) => {
                return refused(7);
            }
            FindingTakesAnySetting if reply.number == 7 => return Paper.find(lists, 0, stand),
            StandComesBeforeSetting if reply.number == 7 => {
                let open = Paper.find(lists, 0, stand);
                if open.number != 0 {
                    return open;
                }
            }
            _ if reply.number != 0 => {}
            CellIsItsFirstThreeCorners if on_side == 0 => return first_triangle(lists, stand),
            SideOfAStandInsideIsLeft if on_side == 0 => reply.values[2] = 1,
            StandOnASideIsRefused if on_side == 1 => return refused(9),
            SideIsNumberedAsItsFace if on_side == 1 => {
                reply.values[2] = side_face(lists, cell, side).into();
            }
            SideIsTheNeighbours if on_side == 1 => {
                let floor = Floor::check(lists).expect("it passed the check");
                let across = floor.across_under(setting).expect("it is right");
                let back = across[usize::from(side_face(lists, cell, side))];
                let there = floor.cell_with(back);
                reply.values[2] = (back - floor.faces(there).start).into();
            }
            _ => {}
        }
        match found_by(self.0, lists, setting, stand) {
            Some((_, Ok(place))) => found_reply(lists, place),
            Some((_, Err(number))) => refused(number),
            None => reply,
        }
    }

    fn list(&self, lists: Lists<'_>, mut listing: Listing, table: &mut [u16]) -> Reply {
        let before = table.to_vec();
        listing.query.stand = self.stand(lists, listing.query.stand);
        listing.query.reach = self.reach(listing.query.reach);
        listing.ceiling = self.ceiling(listing.ceiling);
        let Listing { query, ceiling } = listing;
        let exceeds = |count: u64| ceiling.is_some_and(|most| count > most);
        let hand_up_to = |rows: &[Row], crossings: u64, table: &mut [u16]| {
            if exceeds(crossings) {
                table.copy_from_slice(&before);
                return refused(19);
            }
            hand_back(rows, crossings, &before, table)
        };
        let is_short = table.len() < ROW * (lists.corners.len() / 2);
        let found = found_by(self.0, lists, query.setting, query.stand);
        if let Some((q, found)) = found.filter(|_| !is_wrong(query.reach)) {
            let place = match found {
                Ok(place) => place,
                Err(number) => return refused(number),
            };
            if is_short {
                return refused(11);
            }
            let (rows, crossings) = expand_from(lists, query, q, place, self.0);
            return hand_up_to(&rows, crossings, table);
        }
        let mut reply = Paper.list(lists, listing, table);
        match self.0 {
            RefusalClearsTable if reply.number != 0 => table.fill(0),
            RoomIsAskedForRowsOnly if reply.number == 11 => {
                let mut long = vec![0; ROW * lists.corners.len() / 2];
                let full = Paper.list(lists, listing, &mut long);
                let asked = ROW * full.values[0] as usize;
                if full.number == 0 && asked <= table.len() {
                    table[..asked].copy_from_slice(&long[..asked]);
                    return full;
                }
            }
            RoomIsThreeNumbersACorner if reply.number == 11 => {
                if table.len() >= 3 * (lists.corners.len() / 2) {
                    let (rows, crossings) = listed(lists, query);
                    return hand_up_to(&rows, crossings, table);
                }
            }
            RoomComesBeforeStand if [8, 9, 10, 15].contains(&reply.number) && is_short => {
                return refused(11)
            }
            OverlapComesAfterRoom if reply.number == 17 && is_short => return refused(11),
            ReachComesBeforeSetting if reply.number == 7 && is_wrong(query.reach) => {
                return refused(15);
            }
            ReachComesBeforeStand if reply.number == 8 && is_wrong(query.reach) => {
                return refused(15);
            }
            ReachComesAfterLine | RoomComesBeforeReach if reply.number == 15 => {
                let unlimited = Query::without_reach(query.setting, query.stand);
                let unlimited = unlimited.without_ceiling();
                let other = Paper.list(lists, unlimited, &mut before.clone());
                let is_room = other.number == 11;
                if other.number != 0 && is_room == (self.0 == RoomComesBeforeReach) {
                    return other;
                }
            }
            CeilingComesBeforeRoom if reply.number == 11 => {
                let (_, crossings) = listed(lists, query);
                if exceeds(crossings) {
                    return refused(19);
                }
            }
            CeilingIsExclusive | CeilingIsOfRows | LineStoodOnCountsForTheCeiling
                if [0, 19].contains(&reply.number) =>
            {
                let (rows, crossings) = listed(lists, query);
                let count = match self.0 {
                    CeilingIsOfRows => rows.len() as u64,
                    CeilingIsExclusive => crossings + 1,
                    _ => {
                        let [_, on_side, ..] = Paper.find(lists, query.setting, query.stand).values;
                        crossings + on_side
                    }
                };
                if exceeds(count) {
                    table.copy_from_slice(&before);
                    return refused(19);
                }
                return hand_back(&rows, crossings, &before, table);
            }
            CeilingIsForEachSide | CeilingIsForEachCell if reply.number == 19 => {
                let floor = Floor::check(lists).expect("it passed the check");
                let view = View::new(&floor, query).expect("the stand was found");
                let cells = view.crossings_around();
                let counts: Vec<u64> = match self.0 {
                    CeilingIsForEachSide => cells.concat(),
                    _ => cells.iter().map(|cell| cell.iter().sum()).collect(),
                };
                if !counts.into_iter().any(exceeds) {
                    let (rows, crossings) = listed(lists, query);
                    return hand_back(&rows, crossings, &before, table);
                }
            }
            RowsAreLeftOverTheCeiling if reply.number == 19 => {
                let (rows, crossings) = listed(lists, query);
                hand_back(&rows, crossings, &before, table);
            }
            CrossingsAreSaidOverTheCeiling if reply.number == 19 => {
                let (_, crossings) = listed(lists, query);
                reply.values[1] = crossings;
            }
            _ if reply.number != 0 => {}
            NothingIsWritten => table.copy_from_slice(&before),
            CrossingsAreInvented => reply.values[1] += 1,
            FacesAreThreeACell => {
                let (rows, _) = table[..ROW * reply.values[0] as usize].as_chunks_mut::<ROW>();
                three_a_cell(lists, rows);
            }
            RestOfTableIsCleared => table[ROW * reply.values[0] as usize..].fill(0),
            AdjacentRowsAreJoined => {
                let rows = joined(table, reply.values[0] as usize);
                return hand_up_to(&rows, reply.values[1], table);
            }
            slip => {
                if let Some((rows, crossings)) = expand(lists, query, slip) {
                    return hand_up_to(&rows, crossings, table);
                }
            }
        }
        reply
    }

    fn list_stands(
        &self,
        lists: Lists<'_>,
        mut morning: Morning,
        stands: &[f64],
        table: &mut [u16],
        replies: &mut [u64],
    ) -> Reply {
        let before = Left::lent(table, replies);
        let (corners, count) = (lists.corners.len() / 2, stands.len() / 3);
        let mut read = self.stands(stands);
        morning.reach = self.reach(morning.reach);
        morning.ceiling = self.ceiling(morning.ceiling);
        if self.0 == MorningKnowsNoSides {
            move_to_corners(lists, morning.setting, &mut read);
        }
        let mut reply = Paper.list_stands(lists, morning, &read, table, replies);
        match self.0 {
            RefusalClearsReplies if reply.number != 0 => replies.fill(0),
            RoomIsAskedForAcceptedStands if reply.number == 11 => {
                let full = Left::listed(lists, morning, &read);
                let asked = ROW * corners * full.accepted();
                if table.len() >= asked && replies.len() >= 3 * count {
                    return full.hand_back(table, replies);
                }
            }
            RoomIsAskedOfTableOnly
                if reply.number == 11 && table.len() >= ROW * corners * count =>
            {
                return Left::listed(lists, morning, &read).hand_back(table, replies);
            }
            RoomOfMorningIsThreeNumbersACorner
                if reply.number == 11
                    && table.len() >= 3 * corners * count
                    && replies.len() >= 3 * count =>
            {
                return Left::listed(lists, morning, &read).hand_back(table, replies);
            }
            ReachIsForTheFirstStand if reply.number == 0 && count > 1 => {
                let unlimited = Morning {
                    reach: Reach::NotStated,
                    ..morning
                };
                let first = Left::listed(lists, morning, &read[..3]);
                let rest = Left::listed(lists, unlimited, &read[3..]);
                return first.then(rest).hand_back(table, replies);
            }
            CeilingIsForTheFirstStand if reply.number == 0 && count > 1 => {
                let ceiling = None;
                let first = Left::listed(lists, morning, &read[..3]);
                let rest = Left::listed(lists, Morning { ceiling, ..morning }, &read[3..]);
                return first.then(rest).hand_back(table, replies);
            }
            CeilingIsSharedOut if reply.number == 0 && count > 1 => {
                let (stands, _) = read.as_chunks::<3>();
                let mut left = Left::listed(lists, morning, &[]);
                for stand in stands {
                    let [_, used, ..] = left.reply.values;
                    let ceiling = morning.ceiling.map(|most| most - used);
                    left = left.then(Left::listed(lists, Morning { ceiling, ..morning }, stand));
                }
                return left.hand_back(table, replies);
            }
            CeilingRefusesTheMorning
                if reply.number == 0
                    && replies[..3 * count].iter().step_by(3).any(|&n| n == 19) =>
            {
                before.hand_back(table, replies);
                return refused(19);
            }
            StandOverTheCeilingHasCounts | StandOverTheCeilingLeavesItsRows
                if reply.number == 0 =>
            {
                let ceiling = None;
                let all = Left::listed(lists, Morning { ceiling, ..morning }, &read);
                before.hand_back(table, replies);
                let full = Left::listed(lists, morning, &read);
                let own = full.over_the_ceiling(&all, self.0, table);
                return Left {
                    replies: own,
                    ..full
                }
                .hand_back(table, replies);
            }
            WrongReachRefusesTheMorning
                if reply.number == 0 && count > 0 && is_wrong(morning.reach) =>
            {
                before.hand_back(table, replies);
                return refused(15);
            }
            RoomComesBeforeSetting if reply.number == 7 && replies.len() < 3 * count => {
                return refused(11);
            }
            SizeOfMorningComesAfterCorner if reply.number == 2 => {
                let checked = Paper.check(lists);
                if checked.number != 0 {
                    return checked;
                }
            }
            FrameOfMorningComesAfterSize if reply.number == 1 => {
                let checked = Paper.check(lists);
                if checked.number == 2 {
                    return checked;
                }
            }
            MorningIsOneShorter if reply.number == 0 && count == MOST_STANDS => {
                before.hand_back(table, replies);
                return refused(2);
            }
            NoStandsAreRefused if reply.number == 0 && count == 0 => return refused(2),
            RestOfRepliesIsCleared if reply.number == 0 => replies[3 * count..].fill(0),
            LastStandForTheSums if reply.number == 0 && count > 0 => {
                reply.values[..2].copy_from_slice(&replies[3 * count - 2..3 * count]);
            }
            RepliesAreTurnedRound if reply.number == 0 => {
                let (own, _) = replies[..3 * count].as_chunks_mut::<3>();
                own.reverse();
            }
            slip @ (RefusedStandStopsTheRest
            | RefusedStandLeavesAGap
            | RefusedStandHasRows
            | RowsStandAtFixedPlaces)
                if reply.number == 0 =>
            {
                let full = Left::listed(lists, morning, &read);
                return full
                    .slipped(slip, &before, corners)
                    .hand_back(table, replies);
            }
            _ => {}
        }
        reply
    }

    fn change(&self, lists: Lists<'_>, mut asked: DoorChange<'_>, table: &mut [u16]) -> Reply {
        let before = table.to_vec();
        asked.query.stand = self.stand(lists, asked.query.stand);
        asked.query.reach = self.reach(asked.query.reach);
        let DoorChange {
            query,
            given,
            door,
            shut,
        } = asked;
        let Query { setting, stand, .. } = query;
        let mut reply = paper::change(lists, asked, table);
        let doorway = Doorway::of(lists, asked);
        let is_short = table.len() < ROW * (lists.corners.len() / 2);
        let changed = |door: usize| Query {
            setting: setting ^ 1 << door,
            ..query
        };
        match self.0 {
            DoorOfTheLineMayBeChanged if doorway.is_some() => {
                reply = change_from_a_side(lists, asked, table);
            }
            DoorOfTheLineStaysAsItIs
                if doorway.is_some_and(|doorway| doorway.is_as_wished) && !is_short =>
            {
                reply = refused(12);
            }
            RoomComesBeforeDoorOfTheLine if doorway.is_some() && is_short => reply = refused(11),
            MissingDoorIsRefusedFromASide if reply.number == 12 && door >= lists.doors.len() => {
                let [_, on_side, ..] = Paper.find(lists, setting, stand).values;
                if on_side == 1 {
                    reply = refused(9);
                }
            }
            OldListIsCopied if reply.number == 0 => {
                table[..given.len()].copy_from_slice(given);
                reply.values[0] = (given.len() / ROW) as u64;
            }
            OneRunIsShut if reply.number == 0 && shut => {
                let before = table.to_vec();
                let rows = first_run_shut(table, reply.values[0] as usize, lists.doors[door]);
                reply = hand_back(&rows, reply.values[1], &before, table);
            }
            GivenListIsTrusted if reply.number == 13 => {
                reply = Paper.list(lists, changed(door).without_ceiling(), table);
            }
            GivenListIsTheUnlimitedOne if [0, 13].contains(&reply.number) => {
                let (rows, _) = listed(lists, Query::without_reach(setting, stand));
                table.copy_from_slice(&before);
                reply = match rows.as_flattened() == given {
                    true => Paper.list(lists, changed(door).without_ceiling(), table),
                    false => refused(13),
                };
            }
            GivenRowsHaveThreeNumbers if reply.number == 13 => {
                let (rows, _) = listed(lists, query);
                let lines: Vec<u16> = rows.iter().flat_map(|row| row[..3].to_vec()).collect();
                if lines == given {
                    reply = Paper.list(lists, changed(door).without_ceiling(), table);
                }
            }
            DoorOutOfReachStays if reply.number == 0 && has_row_out_of_reach(lists, asked) => {
                table.copy_from_slice(&before);
                reply = refused(12);
            }
            DoorOutOfReachLosesItsRow
                if reply.number == 0 && has_row_out_of_reach(lists, asked) =>
            {
                let floor = Floor::check(lists).expect("it passed the check");
                let (mut rows, crossings) = listed(lists, changed(door));
                rows.retain(|row| !floor.door_faces(door).contains(&row[0]));
                reply = hand_back(&rows, crossings, &before, table);
            }
            ChangeComesBeforeRoom if reply.number == 11 && door >= lists.doors.len() => {
                reply = refused(12);
            }
            _ => {}
        }
        reply
    }

    fn draw(&self, lists: Lists<'_>, query: Query, offsets: &mut [f32]) -> Reply {
        let before = offsets.to_vec();
        let mut reply = Paper.draw(lists, query, offsets);
        let corners = lists.corners.len() / 2;
        match self.0 {
            RefusalClearsOffsets if reply.number != 0 => offsets.fill(0.0),
            FarComesBeforeReach if reply.number == 15 => {
                let unlimited = Query::without_reach(query.setting, query.stand);
                let other = Paper.draw(lists, unlimited, &mut before.clone());
                if other.number == 14 {
                    return other;
                }
            }
            // The others are of drawings that are not refused before.
            slip if !IN_DRAWING.contains(&slip) || ![0, 11, 14].contains(&reply.number) => {}
            RestOfOffsetsIsCleared if reply.number == 0 => {
                offsets[DRAWN * reply.values[0] as usize..].fill(0.0);
            }
            PayloadsAreLost if reply.number == 0 => {
                let numbers = offsets.iter_mut().filter(|n| n.is_nan());
                numbers.for_each(|n| *n = f32::NAN);
            }
            MinusZeroInTheRestIsLost if reply.number == 0 => {
                let zeros = offsets.iter_mut().filter(|n| **n == 0.0);
                zeros.for_each(|n| *n = 0.0);
            }
            FarHasItsCorner if reply.number == 14 => {
                let drawing = Drawing::of(lists, query);
                let far = drawing
                    .named()
                    .find(|&corner| drawing.offset(corner).is_far());
                reply.place = far.expect("it is refused for it").into();
            }
            CountsAreSaidOfAFarDrawing if reply.number == 14 => {
                let Drawing {
                    rows, crossings, ..
                } = Drawing::of(lists, query);
                reply.values[..2].copy_from_slice(&[rows.len() as u64, crossings]);
            }
            RowsBeforeAFarOneAreDrawn if reply.number == 14 => {
                let drawing = Drawing::of(lists, query);
                let drawn = drawing.rows.iter().take_while(|row| !drawing.is_far(row));
                let numbers: Vec<f32> =
                    drawn.flat_map(|row| drawing.numbers(row, self.0)).collect();
                offsets[..numbers.len()].copy_from_slice(&numbers);
            }
            FarComesBeforeRoom if reply.number == 11 => {
                let drawing = Drawing::of(lists, query);
                if drawing.rows.iter().any(|row| drawing.is_far(row)) {
                    return refused(14);
                }
            }
            slip => {
                let drawing = Drawing::of(lists, query);
                let room = match slip {
                    RoomOfOffsetsIsAskedForRowsOnly => DRAWN * drawing.rows.len(),
                    RoomOfOffsetsIsTwoNumbersACorner => 2 * corners,
                    _ => DRAWN * corners,
                };
                offsets.copy_from_slice(&before);
                return drawing.hand_back(slip, room, offsets);
            }
        }
        reply
    }

    fn print(&self, input: &[u8]) -> Vec<u8> {
        let mut printed = paper::print(input);
        match self.0 {
            InputLimitIsExclusive if input.len() == 65_536 => b"refused 2 0\n".to_vec(),
            LastLineHasNoEnd => {
                printed.pop();
                printed
            }
            ReachIsNotPrinted if printed.starts_with(b"rows") => {
                let counts = printed.iter().take_while(|&&byte| byte != b'\n').count();
                let rows = String::from_utf8(printed.split_off(counts));
                let rows = rows.expect("it prints letters and digits");
                [printed, rows.replace(" 0\n", "\n").into_bytes()].concat()
            }
            _ => printed,
        }
    }
}

/// What is drawn, of a query that is not refused before.
struct Drawing {
    floor: Rc<Floor>,
    q: Point,
    rows: Vec<Row>,
    crossings: u64,
}

impl Drawing {
    fn of(lists: Lists<'_>, query: Query) -> Drawing {
        let floor = Floor::check(lists).expect("it passed the check");
        let view = View::new(&floor, query).expect("the stand was found");
        let (q, listing) = (view.stand(), view.list());
        let (rows, crossings) = (listing.rows, listing.crossings);
        Drawing {
            floor,
            q,
            rows,
            crossings,
        }
    }

    fn offset(&self, corner: u16) -> Offset {
        Offset::new(self.q, self.floor.corner(corner))
    }

    /// The limits of all rows, in the order of the rows.
    fn named(&self) -> impl Iterator<Item = u16> + '_ {
        self.rows
            .iter()
            .flat_map(|&[_, right, left, _]| [right, left])
    }

    fn is_far(&self, &[_, right, left, _]: &Row) -> bool {
        [right, left]
            .iter()
            .any(|&corner| self.offset(corner).is_far())
    }

    /// The corners that are looked at for being too far.
    fn looked_at(&self, slip: Fault) -> Vec<u16> {
        let all = 0..self.floor.corners().len() as u16;
        let ends = |row: &Row| self.floor.ends(row[0]);
        match slip {
            FarIsOfTheFirstRow => self.named().take(2).collect(),
            FarIsOfAllCorners => all.collect(),
            FarIsOfCornersInCells => {
                let cells = 0..self.floor.cell_count();
                let faces = cells.flat_map(|cell| self.floor.faces(cell));
                faces.map(|face| self.floor.ends(face)[0]).collect()
            }
            FarIsOfTheEndsOfLines | EndsOfTheLineAreDrawn => {
                self.rows.iter().flat_map(ends).collect()
            }
            FarIsOfRowsInReach => {
                let rows = self.rows.iter().filter(|row| row[3] == 0);
                rows.flat_map(|&[_, right, left, _]| [right, left])
                    .collect()
            }
            _ => self.named().collect(),
        }
    }

    /// Whether an offset is taken for one that is too far.
    fn is_taken_for_far(&self, offset: Offset, slip: Fault) -> bool {
        let Offset { x, y } = offset;
        let beyond = |number: i64| number > MOST_OFFSET;
        match slip {
            FarIsExclusive => beyond(x.abs() + 1) || beyond(y.abs() + 1),
            FarOffsetIsRounded => false,
            FittingOffsetIsDrawn => [x, y].iter().any(|&number| number as f32 as i64 != number),
            FarIsForX => beyond(x.abs()),
            FarIsForY => beyond(y.abs()),
            FarIsAhead => beyond(x) || beyond(y),
            FarIsTheDistance => x * x + y * y > MOST_OFFSET * MOST_OFFSET,
            FarIsTheSumOfBoth => beyond(x.abs() + y.abs()),
            _ => offset.is_far(),
        }
    }

    /// The numbers of a row.
    fn numbers(&self, &[face, right, left, _]: &Row, slip: Fault) -> [f32; DRAWN] {
        let limits = match slip {
            LeftLimitIsDrawnFirst => [left, right],
            EndsOfTheLineAreDrawn => self.floor.ends(face),
            _ => [right, left],
        };
        let [[a, b], [c, d]] = limits.map(|corner| {
            let (at, q) = (self.floor.corner(corner), self.q);
            let Offset { x, y } = self.offset(corner);
            let minus_zero = |number: i64| if number == 0 { -0.0 } else { number as f32 };
            match slip {
                YIsDrawnFirst => [y, x].map(|number| number as f32),
                StandIsDrawnFromTheCorner => [-x, -y].map(|number| number as f32),
                CornersAreDrawnAsTheyAre => [at.x, at.y].map(|number| number as f32),
                ZeroIsMinusZero => [minus_zero(x), y as f32],
                ZeroIsMinusZeroInY => [x as f32, minus_zero(y)],
                SinglesAreSubtracted => [at.x as f32 - q.x as f32, at.y as f32 - q.y as f32],
                _ => [x, y].map(|number| number as f32),
            }
        });
        [a, b, c, d]
    }

    /// Draws, with a slip, into offsets of which so many are asked for.
    fn hand_back(&self, slip: Fault, room: usize, offsets: &mut [f32]) -> Reply {
        if offsets.len() < room {
            return refused(11);
        }
        let looked_at = self.looked_at(slip);
        let mut looked_at = looked_at.iter().map(|&corner| self.offset(corner));
        if looked_at.any(|offset| self.is_taken_for_far(offset, slip)) {
            return refused(14);
        }
        let rows = self.rows.iter();
        let mut numbers: Vec<f32> = rows.flat_map(|row| self.numbers(row, slip)).collect();
        if slip == RepeatsAreLeftOut {
            // A row's right limit is the left one of the row before.
            let (rows, _) = numbers.as_chunks::<DRAWN>();
            numbers = rows.iter().flat_map(|row| [row[0], row[1]]).collect();
        }
        let written = numbers.len().min(offsets.len());
        offsets[..written].copy_from_slice(&numbers[..written]);
        Reply::done([self.rows.len() as u64, self.crossings])
    }
}

/// What a call for a morning leaves.
struct Left {
    reply: Reply,
    table: Vec<u16>,
    replies: Vec<u64>,
}

impl Left {
    fn lent(table: &[u16], replies: &[u64]) -> Left {
        Left {
            reply: Reply::done([]),
            table: table.to_vec(),
            replies: replies.to_vec(),
        }
    }

    /// The true one, where nothing is lent that is too short.
    fn listed(lists: Lists<'_>, morning: Morning, stands: &[f64]) -> Left {
        let mut table = vec![0; ROW * (lists.corners.len() / 2) * (stands.len() / 3)];
        let mut replies = vec![0; stands.len()];
        let reply = Paper.list_stands(lists, morning, stands, &mut table, &mut replies);
        table.truncate(ROW * reply.values[0] as usize);
        Left {
            reply,
            table,
            replies,
        }
    }

    fn hand_back(&self, table: &mut [u16], replies: &mut [u64]) -> Reply {
        let (rows, own) = (
            self.table.len().min(table.len()),
            self.replies.len().min(replies.len()),
        );
        table[..rows].copy_from_slice(&self.table[..rows]);
        replies[..own].copy_from_slice(&self.replies[..own]);
        self.reply
    }

    /// This one, and another behind it.
    fn then(mut self, other: Left) -> Left {
        self.table.extend(other.table);
        self.replies.extend(other.replies);
        let sums = self.reply.values.iter_mut().zip(other.reply.values);
        sums.for_each(|(sum, value)| *sum += value);
        self
    }

    /// Of a morning whose stands are listed without a ceiling in `all`: the stands' own
    /// replies, where one over the ceiling has its counts, or has left its rows where
    /// those of the next stand begin.
    fn over_the_ceiling(&self, all: &Left, slip: Fault, table: &mut [u16]) -> Vec<u64> {
        let mut replies = self.replies.clone();
        let (own, _) = replies.as_chunks_mut::<3>();
        let (true_own, _) = all.replies.as_chunks::<3>();
        let (mut from, mut to) = (0, 0);
        for (own, &[_, rows, crossings]) in own.iter_mut().zip(true_own) {
            let length = ROW * rows as usize;
            if own[0] == 19 && slip == StandOverTheCeilingHasCounts {
                *own = [19, rows, crossings];
            } else if own[0] == 19 {
                let left = &all.table[from..from + length];
                table[to..to + length].copy_from_slice(left);
            } else {
                to += length;
            }
            from += length;
        }
        replies
    }

    fn accepted(&self) -> usize {
        let numbers = self.replies.iter().step_by(3);
        numbers.filter(|&&number| number == 0).count()
    }

    /// The true one written over what was lent, with a slip in where the rows
    /// go.
    fn slipped(&self, slip: Fault, before: &Left, corners: usize) -> Left {
        let mut left = Left::lent(&before.table, &before.replies);
        let (own, _) = self.replies.as_chunks::<3>();
        let (mut from, mut to) = (0, 0);
        for (at, &[number, rows, crossings]) in own.iter().enumerate() {
            let length = ROW * rows as usize;
            match slip {
                RefusedStandStopsTheRest if number != 0 => {
                    left.replies[3 * at] = number;
                    left.replies[3 * at + 1..3 * at + 3].fill(0);
                    return left;
                }
                RefusedStandLeavesAGap if number != 0 => to += ROW,
                RefusedStandHasRows if number != 0 => left.table[to..to + ROW].fill(0),
                RowsStandAtFixedPlaces => to = ROW * corners * at,
                _ => {}
            }
            left.table[to..to + length].copy_from_slice(&self.table[from..from + length]);
            left.replies[3 * at..3 * at + 3].copy_from_slice(&own[at]);
            left.reply.values[0] += rows;
            left.reply.values[1] += crossings;
            from += length;
            to += length;
        }
        left
    }
}

impl Faulty {
    /// Judges lists that are not cut into whole corners and cells.
    fn check_unframed(&self, lists: Lists<'_>) -> Reply {
        let (cells, rest) = cut_cells(lists.kind, lists.cells);
        let whole = &lists.cells[..lists.cells.len() - rest.len()];
        let sizes = [
            (CORNERS, lists.corners.len() / 2),
            (CELLS, cells.len()),
            (DOORS, lists.doors.len()),
        ];
        match self.0 {
            CountOfNineIsACell if lists.kind == POLYGONS && rest.first() == Some(&9) => {
                Reply::refused(4, cells.len() as u32)
            }
            LeftoverIsLeftOut => Paper.check(Lists {
                cells: whole,
                ..lists
            }),
            FrameOfCellsComesAfterSize
                if sizes.iter().any(|(counts, count)| !counts.contains(count)) =>
            {
                refused(2)
            }
            _ => refused(1),
        }
    }

    /// A list of stands, each first number as it is read with the fault.
    fn stands(&self, stands: &[f64]) -> Vec<f64> {
        let read = |first: f64| match self.0 {
            PointsAndOffsetsAreMixedUp if first == POINT => 0.0,
            PointsAndOffsetsAreMixedUp if first == 0.0 => POINT,
            CornerIsTruncated => first.trunc(),
            CornerIsWrapped if first.fract() == 0.0 && first > 65_535.0 => first % 65_536.0,
            MinusZeroIsNoCorner if first == 0.0 && first.is_sign_negative() => f64::NAN,
            _ => first,
        };
        let mut numbers = stands.to_vec();
        for first in numbers.iter_mut().step_by(3) {
            *first = read(*first);
        }
        numbers
    }

    fn stand(&self, lists: Lists<'_>, stand: Stand) -> Stand {
        match (self.0, stand) {
            (StandIsTruncated, Stand::Point(x, y)) => Stand::Point(x.trunc(), y.trunc()),
            (OffsetHasNoBound, Stand::Offset(corner, dx, dy)) => {
                let at = 2 * usize::from(corner);
                match lists.corners.get(at..at + 2) {
                    Some(from) => Stand::Point(f64::from(from[0]) + dx, f64::from(from[1]) + dy),
                    None => stand,
                }
            }
            _ => stand,
        }
    }

    fn ceiling(&self, ceiling: Option<u64>) -> Option<u64> {
        match (self.0, ceiling?) {
            (ZeroIsNoCeiling, 0) => None,
            (LargestCeilingWrapsRound, u64::MAX) => Some(0),
            (CeilingHasASign, number) if number > i64::MAX as u64 => Some(0),
            (CeilingIsCutTo32Bits, number) => Some(u64::from(number as u32)),
            _ => ceiling,
        }
    }

    fn reach(&self, reach: Reach) -> Reach {
        let longest = *REACHES.end();
        match (self.0, reach) {
            (NotStatedIsTheLongest, Reach::NotStated) => Reach::Stated(longest),
            (ZeroIsUnlimited, Reach::Stated(0)) => Reach::NotStated,
            (LongestReachIsRefused, Reach::Stated(number)) if number == longest => {
                Reach::Stated(longest + 1)
            }
            (LongerReachIsTheLongest, Reach::Stated(number)) => Reach::Stated(number.min(longest)),
            (ReachIsCutTo32Bits, Reach::Stated(number)) => Reach::Stated(u64::from(number as u32)),
            _ => reach,
        }
    }
}

/// Whether a number is stated that is no reach.
fn is_wrong(reach: Reach) -> bool {
    matches!(reach, Reach::Stated(number) if !REACHES.contains(&number))
}

fn refused(number: u32) -> Reply {
    Reply::refused(number, 0)
}

/// The true rows and crossings of a query that is not refused.
fn listed(lists: Lists<'_>, query: Query) -> (Vec<Row>, u64) {
    let floor = Floor::check(lists).expect("it passed the check");
    let view = View::new(&floor, query).expect("the stand was found");
    let listing = view.list();
    (listing.rows, listing.crossings)
}

/// Whether the door of a change has a row, and is out of reach.
fn has_row_out_of_reach(lists: Lists<'_>, asked: DoorChange<'_>) -> bool {
    let floor = Floor::check(lists).expect("it passed the check");
    let faces = floor.door_faces(asked.door);
    let (rows, _) = asked.given.as_chunks::<ROW>();
    rows.iter()
        .any(|&[face, _, _, far]| far == 1 && faces.contains(&face))
}

fn hand_back(rows: &[Row], crossings: u64, before: &[u16], table: &mut [u16]) -> Reply {
    table.copy_from_slice(before);
    let written = (ROW * rows.len()).min(table.len());
    table[..written].copy_from_slice(&rows.as_flattened()[..written]);
    Reply::done([rows.len() as u64, crossings])
}

fn owned(lists: Lists<'_>) -> Plan {
    Plan {
        corners: lists.corners.to_vec(),
        cells: lists.cells.to_vec(),
        doors: lists.doors.to_vec(),
        kind: lists.kind,
    }
}

/// The cell that a face of whole cells belongs to.
fn cell_with(lists: Lists<'_>, face: u32) -> u32 {
    let (cells, _) = cut_cells(lists.kind, lists.cells);
    let mut faces = 0;
    let ends = cells.iter().map(|cell| {
        faces += cell.corners.len() as u32;
        faces
    });
    ends.take_while(|&end| end <= face).count() as u32
}

/// Judges cells by a rule of its own: by the side value of each side and each
/// corner, so many places on from where the side begins, of so many. Corner
/// numbers that do not exist or do not differ are wrong; nothing else is checked.
fn check_cells_by(lists: Lists<'_>, is_right: impl Fn(i128, usize, usize) -> bool) -> Reply {
    let (cells, _) = cut_cells(lists.kind, lists.cells);
    let (spots, _) = lists.corners.as_chunks::<2>();
    let spot = |corner: u16| spots.get(usize::from(corner)).map(|at| at.map(i128::from));
    let is_wrong = |cell: &Cell<'_>| {
        let corners: Option<Vec<[i128; 2]>> = cell.corners.iter().map(|&n| spot(n)).collect();
        let Some(corners) = corners else {
            return true;
        };
        let count = corners.len();
        if (1..count).any(|at| cell.corners[..at].contains(&cell.corners[at])) {
            return true;
        }
        let turn = |a: [i128; 2], b: [i128; 2], c: [i128; 2]| {
            (b[0] - a[0]) * (c[1] - a[1]) - (b[1] - a[1]) * (c[0] - a[0])
        };
        !(0..count).all(|side| {
            (2..count).all(|on| {
                let [a, b, c] = [0, 1, on].map(|on| corners[(side + on) % count]);
                is_right(turn(a, b, c), on, count)
            })
        })
    };
    match cells.iter().position(is_wrong) {
        Some(cell) => Reply::refused(4, cell as u32),
        None => Reply::done([spots.len(), cells.len(), lists.doors.len()].map(|n| n as u64)),
    }
}

/// Faces numbered as if every cell had three.
fn three_a_cell(lists: Lists<'_>, rows: &mut [Row]) {
    let floor = Floor::check(lists).expect("it was listed");
    for [face, ..] in rows {
        let cell = floor.cell_with(*face);
        *face = 3 * cell as u16 + *face - floor.faces(cell).start;
    }
}

/// The cell that is found where each is taken for its first three corners.
fn first_triangle(lists: Lists<'_>, stand: Stand) -> Reply {
    let (cells, _) = cut_cells(lists.kind, lists.cells);
    let first = cells
        .iter()
        .flat_map(|cell| [&cell.corners[..3], &[WALL; 3]].concat());
    find_walled(lists, &first.collect::<Vec<u16>>(), TRIANGLES, stand)
}

/// Finds a stand among other cells with the same corners, and no doors.
fn find_walled(lists: Lists<'_>, cells: &[u16], kind: u16, stand: Stand) -> Reply {
    let walled = Lists {
        cells,
        doors: &[],
        kind,
        ..lists
    };
    Paper.find(walled, 0, stand)
}

/// The face of a cell's side.
fn side_face(lists: Lists<'_>, cell: u64, side: u64) -> u16 {
    let floor = Floor::check(lists).expect("it passed the check");
    floor.faces(cell as usize).start + side as u16
}

/// Finding's reply for a place.
fn found_reply(lists: Lists<'_>, place: Place) -> Reply {
    let floor = Floor::check(lists).expect("it passed the check");
    match place {
        Place::Inside(cell) => Reply::done([cell as u64]),
        Place::Within(face) => {
            let cell = floor.cell_with(face);
            Reply::done([cell as u64, 1, (face - floor.faces(cell).start).into()])
        }
    }
}

/// The stand, and where a slip in the place or in the boxes has it, or the number that it is
/// refused with for that; none where a slip in the place has it where it is, or where the
/// plan, the setting or the stand is refused before that.
fn found_by(
    slip: Fault,
    lists: Lists<'_>,
    setting: u64,
    stand: Stand,
) -> Option<(Point, Result<Place, u32>)> {
    if !IN_PLACE.contains(&slip) && !IN_BOXES.contains(&slip) {
        return None;
    }
    let floor = Floor::check(lists).ok()?;
    let across = floor.across_under(setting).ok()?;
    let open = floor.across_under(0).ok()?;
    let q = millimetres(&floor, stand).ok()?;
    if IN_BOXES.contains(&slip) {
        return Some((q, found_by_boxes(slip, &floor, &across, q)));
    }
    let truth = View::new(&floor, Query::without_reach(setting, stand));
    let is_on_border = matches!(&truth, Err(refusal) if refusal.number() == 9);
    let is_found = |face: &u16| {
        let [a, b] = floor.ends(*face).map(|corner| floor.corner(corner));
        let turn = i128::from(b.x - a.x) * i128::from(q.y - a.y)
            - i128::from(b.y - a.y) * i128::from(q.x - a.x);
        let is_held = match slip {
            EndIsWithin => is_within(&floor, *face, q) || q == a || q == b,
            WholeLineIsWithin => turn == 0 && q != a && q != b,
            _ => is_within(&floor, *face, q),
        };
        let at = usize::from(*face);
        let is_free = match slip {
            ShutDoorIsFree => open[at] != WALL,
            ShutDoorIsFreeFromItsOtherFace => {
                across[at] != WALL || open[at] != WALL && !lists.doors.contains(face)
            }
            WallIsFree => true,
            _ => across[at] != WALL,
        };
        is_held && is_free
    };
    let mut faces = (0..floor.cell_count()).flat_map(|cell| floor.faces(cell));
    let found = match (slip, truth) {
        (HighestSideIsFound, Ok(view)) if matches!(view.place(), Place::Within(_)) => {
            faces.rfind(is_found)
        }
        (HighestSideIsFound, _) => None,
        _ if is_on_border => faces.find(is_found),
        _ => None,
    };
    found.map(|face| (q, Ok(Place::Within(face))))
}

/// Where a stand is found if cells are ruled out by boxes with a slip, or the number that it
/// is refused with.
fn found_by_boxes(slip: Fault, floor: &Floor, across: &[u16], q: Point) -> Result<Place, u32> {
    let at = [q.x, q.y].map(i128::from);
    let cells: Vec<Outline> = (0..floor.cell_count())
        .map(|cell| Outline::of(floor, cell))
        .collect();
    let ends_of = |cell: &Outline| match slip {
        BoxOfTheFirstThreeCorners => ends(&cell.spots[..3]),
        _ => [cell.low, cell.high],
    };
    let mut boxes: Vec<[[i128; 2]; 2]> = cells.iter().map(ends_of).collect();
    if slip == BoxesInOrderFromTheWest {
        boxes.sort_unstable();
    }
    let is_inside = |&[low, high]: &[[i128; 2]; 2]| {
        (0..2).all(|axis| low[axis] < at[axis] && at[axis] < high[axis])
    };
    let holds = |&[low, high]: &[[i128; 2]; 2]| {
        (0..2).all(|axis| {
            let (at, other, low, high) = (at[axis], at[1 - axis], low[axis], high[axis]);
            match slip {
                BoxWithoutItsBorder => low < at && at < high,
                BoxWithoutItsLeast => low < at && at <= high,
                BoxWithoutItsGreatest => low <= at && at < high,
                LeastAndGreatestExchanged => high <= at && at <= low,
                XAndYExchanged => low <= other && other <= high,
                _ => low <= at && at <= high,
            }
        })
    };
    let mut left: Vec<usize> = (0..cells.len())
        .filter(|&cell| holds(&boxes[cell]))
        .collect();
    if slip == OnlyTheFirstBoxIsTried {
        left.truncate(1);
    }
    let mut is_on_border = false;
    for &cell in &left {
        let is_taken = slip == BoxIsTakenForTheCell && is_inside(&boxes[cell]);
        match cells[cell].values(at, slip).min() {
            Some(1) => return Ok(Place::Inside(cell)),
            _ if is_taken => return Ok(Place::Inside(cell)),
            least => is_on_border |= least == Some(0),
        }
    }
    if !is_on_border {
        return Err(10);
    }
    if slip == DoorwayIsOffTheBorderOfItsBox {
        left.retain(|&cell| is_inside(&boxes[cell]));
    }
    let mut faces = left.into_iter().flat_map(|cell| floor.faces(cell));
    let is_free = |face: u16| across[usize::from(face)] != WALL;
    let found = faces.find(|&face| is_free(face) && is_within(floor, face, q));
    found.map(Place::Within).ok_or(9)
}

/// Puts stands that are on a side onto a corner, where they are refused.
fn move_to_corners(lists: Lists<'_>, setting: u64, stands: &mut [f64]) {
    let (stands, _) = stands.as_chunks_mut::<3>();
    for numbers in stands {
        if let Some(stand) = paper::stand_of(*numbers) {
            let reply = Paper.find(lists, setting, stand);
            if reply.number == 0 && reply.values[1] == 1 {
                let floor = Floor::check(lists).expect("it passed the check");
                let at = floor.corner(floor.ends(0)[0]);
                *numbers = [POINT, at.x as f64, at.y as f64];
            }
        }
    }
}

/// A door whose line the stand, which is on a side, is strictly within.
#[derive(Clone, Copy)]
struct Doorway {
    is_as_wished: bool,
}

impl Doorway {
    fn of(lists: Lists<'_>, asked: DoorChange<'_>) -> Option<Doorway> {
        let floor = Floor::check(lists).ok()?;
        let view = View::new(&floor, asked.query).ok()?;
        view.is_in_doorway(asked.door).then(|| Doorway {
            is_as_wished: (asked.query.setting >> asked.door & 1 == 1) == asked.shut,
        })
    }
}

/// The change of a door whose line the stand is on, as if it were any other.
fn change_from_a_side(lists: Lists<'_>, asked: DoorChange<'_>, table: &mut [u16]) -> Reply {
    let floor = Floor::check(lists).expect("it passed the check");
    let view = View::new(&floor, asked.query).expect("the stand was found");
    if table.len() < ROW * floor.corners().len() {
        return refused(11);
    }
    if (asked.query.setting >> asked.door & 1 == 1) == asked.shut {
        return refused(12);
    }
    if view.list().rows.as_flattened() != asked.given {
        return refused(13);
    }
    let query = Query {
        setting: asked.query.setting ^ 1 << asked.door,
        ..asked.query
    };
    let slip = DoorOfTheLineMayBeChanged;
    let (rows, crossings) = expand_from(lists, query, view.stand(), view.place(), slip);
    let before = table.to_vec();
    hand_back(&rows, crossings, &before, table)
}

/// Refuses a door that has the same two corners as an earlier one, as two
/// different lines of a ramp can have.
fn doors_by_corners(lists: Lists<'_>, reply: Reply) -> Reply {
    let floor = Floor::agreeing(lists).expect("its cells agree along their lines");
    let ends = |face: u16| {
        let [a, b] = floor.ends(face);
        (a.min(b), a.max(b))
    };
    let taken = |door: usize| {
        let earlier = &lists.doors[..door];
        earlier
            .iter()
            .any(|&face| ends(face) == ends(lists.doors[door]))
    };
    match (0..lists.doors.len()).find(|&door| taken(door)) {
        Some(door) => Reply::refused(6, door as u32),
        None => reply,
    }
}

/// The list of cells with a wall in place of every neighbour.
fn walled(lists: Lists<'_>) -> Vec<u16> {
    let (mut cells, _) = cut_cells(lists.kind, lists.cells);
    cells
        .iter_mut()
        .for_each(|cell| cell.neighbours.to_mut().fill(WALL));
    let numbers = cells.iter().flat_map(|cell| cell.numbers(lists.kind));
    numbers.collect()
}

/// Whether a setting has a bit at or above the door count.
fn has_wrong_bit(lists: Lists<'_>, setting: u64) -> bool {
    let doors = lists.doors.len() as u32;
    setting.checked_shr(doors).unwrap_or(0) != 0
}

/// The least and the greatest x and y of some corners.
fn ends(spots: &[[i128; 2]]) -> [[i128; 2]; 2] {
    let along = |axis: usize| spots.iter().map(move |at| at[axis]);
    [
        [0, 1].map(|axis| along(axis).min().expect("a cell has corners")),
        [0, 1].map(|axis| along(axis).max().expect("a cell has corners")),
    ]
}

/// A cell by what its corners are, and where.
struct Outline {
    corners: Vec<u16>,
    spots: Vec<[i128; 2]>,
    low: [i128; 2],
    high: [i128; 2],
}

impl Outline {
    fn of(floor: &Floor, cell: usize) -> Outline {
        let corners: Vec<u16> = floor.faces(cell).map(|face| floor.ends(face)[0]).collect();
        let spot = |&corner: &u16| {
            let at = floor.corner(corner);
            [at.x, at.y].map(i128::from)
        };
        let spots: Vec<[i128; 2]> = corners.iter().map(spot).collect();
        let [low, high] = ends(&spots);
        Outline {
            corners,
            spots,
            low,
            high,
        }
    }

    /// The side value of each side with a spot, which has a sign alone.
    fn values(&self, at: [i128; 2], slip: Fault) -> impl Iterator<Item = i128> + '_ {
        let next = self.spots.iter().cycle().skip(1);
        self.spots.iter().zip(next).map(move |(&a, &b)| {
            let [way, to] = [b, at].map(|end| [end[0] - a[0], end[1] - a[1]]);
            match slip {
                OverlapIsOfDoubles => {
                    let [way, to] = [way, to].map(|at| at.map(|n| n as f64));
                    let value = way[0] * to[1] - way[1] * to[0];
                    value.partial_cmp(&0.0).unwrap() as i128
                }
                OverlapIsOf32Bits => {
                    let [way, to] = [way, to].map(|at| at.map(|n| n as i32));
                    let value = way[0]
                        .wrapping_mul(to[1])
                        .wrapping_sub(way[1].wrapping_mul(to[0]));
                    value.signum().into()
                }
                _ => cross(way, to).signum(),
            }
        })
    }

    /// Whether no side has all of another cell on its line or right of it; or, where
    /// touching is too much, right of it.
    fn has_no_side_between(&self, other: &Outline, touching: bool, slip: Fault) -> bool {
        let most = if touching { -1 } else { 0 };
        let mut between = vec![true; self.spots.len()];
        for &at in &other.spots {
            let values = self.values(at, slip);
            between
                .iter_mut()
                .zip(values)
                .for_each(|(between, value)| *between &= value <= most);
        }
        !between.contains(&true)
    }

    fn holds(&self, at: [i128; 2]) -> bool {
        self.values(at, OnlyCornersInsideAreSeen)
            .all(|value| value > 0)
    }

    /// The whole spots strictly inside both boxes; none where they are too many.
    fn spots_in_both(&self, other: &Outline) -> Option<Vec<[i128; 2]>> {
        let low = [0, 1].map(|axis| self.low[axis].max(other.low[axis]));
        let high = [0, 1].map(|axis| self.high[axis].min(other.high[axis]));
        let few = (high[0] - low[0]).max(0) * (high[1] - low[1]).max(0) < 3_000;
        few.then(|| {
            let columns = low[0] + 1..high[0];
            columns
                .flat_map(|x| (low[1] + 1..high[1]).map(move |y| [x, y]))
                .collect()
        })
    }

    /// Whether two cells, of which this is the lower, overlap where there is a slip.
    fn overlaps(&self, other: &Outline, slip: Fault) -> bool {
        let boxes = (0..2)
            .all(|axis| self.low[axis] < other.high[axis] && other.low[axis] < self.high[axis]);
        let shares = self
            .corners
            .iter()
            .any(|corner| other.corners.contains(corner));
        let touching = match slip {
            CellsThatTouchOverlap => true,
            StrangersThatTouchOverlap => !shares,
            _ => false,
        };
        if !boxes && !touching {
            return false;
        }
        let lower = || self.has_no_side_between(other, touching, slip);
        let higher = || other.has_no_side_between(self, touching, slip);
        match slip {
            OnlySidesOfTheLowerCellAreTried => lower(),
            OnlySidesOfTheHigherCellAreTried => higher(),
            BoxesOverlapForCells => true,
            OnlyCornersInsideAreSeen => {
                self.spots.iter().any(|&at| other.holds(at))
                    || other.spots.iter().any(|&at| self.holds(at))
            }
            OnlyWholePointsAreSeen => match self.spots_in_both(other) {
                Some(spots) => spots
                    .into_iter()
                    .any(|at| self.holds(at) && other.holds(at)),
                None => lower() && higher(),
            },
            SameCornersAreTheSameCell if self.corners.len() == other.corners.len() => {
                let same = |corner| other.corners.contains(corner);
                !self.corners.iter().all(same) && lower() && higher()
            }
            _ => lower() && higher(),
        }
    }
}

/// The check of a plan whose cells agree along their lines, with a slip in which of them
/// overlap.
fn check_overlap_by(slip: Fault, lists: Lists<'_>) -> Reply {
    let floor = Floor::agreeing(lists).expect("its cells agree along their lines");
    let cells: Vec<Outline> = (0..floor.cell_count())
        .map(|cell| Outline::of(&floor, cell))
        .collect();
    let higher = |cell: usize| {
        let mut others = cell + 1..cells.len();
        others.find(|&other| cells[cell].overlaps(&cells[other], slip))
    };
    let named = match slip {
        FirstPairFoundIsNamed => {
            // From west to east.
            let mut order: Vec<usize> = (0..cells.len()).collect();
            order.sort_by_key(|&cell| cells[cell].low);
            let mut pairs = order.iter().enumerate().flat_map(|(at, &one)| {
                let others = order[at + 1..].iter();
                others.map(move |&other| (one.min(other), one.max(other)))
            });
            let found = pairs.find(|&(one, other)| cells[one].overlaps(&cells[other], slip));
            found.map(|(lower, _)| lower)
        }
        HigherCellIsNamed => (0..cells.len()).find_map(higher),
        _ => (0..cells.len()).find(|&cell| higher(cell).is_some()),
    };
    match named {
        Some(cell) => Reply::refused(17, cell as u32),
        None => {
            let counts = [floor.corners().len(), cells.len(), floor.doors().len()];
            Reply::done(counts.map(|count| count as u64))
        }
    }
}

fn joined(table: &[u16], count: usize) -> Vec<Row> {
    let mut rows: Vec<Row> = Vec::new();
    let (all, _) = table.as_chunks::<ROW>();
    for &row in &all[..count] {
        match rows.last_mut() {
            Some(last) if last[0] == row[0] => last[2] = row[2],
            _ => rows.push(row),
        }
    }
    rows
}

/// Keeps the first row on a door, and drops every later one.
fn first_run_shut(table: &[u16], count: usize, face: u16) -> Vec<Row> {
    let mut seen = false;
    let (rows, _) = table.as_chunks::<ROW>();
    let rows = rows[..count].iter().copied();
    rows.filter(|row| row[0] != face || !std::mem::replace(&mut seen, true))
        .collect()
}

/// An expansion with a slip in it, as a function that calls itself; none for
/// faults that are elsewhere.
fn expand(lists: Lists<'_>, query: Query, slip: Fault) -> Option<(Vec<Row>, u64)> {
    if !IN_EXPANSION.contains(&slip) {
        return None;
    }
    let floor = Floor::check(lists).ok()?;
    let view = View::new(&floor, query).ok()?;
    let (q, place) = (view.stand(), view.place());
    Some(expand_from(lists, query, q, place, slip))
}

fn expand_from(
    lists: Lists<'_>,
    query: Query,
    q: Point,
    place: Place,
    slip: Fault,
) -> (Vec<Row>, u64) {
    let floor = Floor::check(lists).expect("it passed the check");
    let mut sight = Sight {
        floor: &floor,
        q: [q.x, q.y],
        across: across(&floor, lists, query.setting, slip).expect("the setting is right"),
        reach: query.reach,
        slip,
        rows: Vec::new(),
        crossings: 0,
    };
    let is_on_side = matches!(place, Place::Within(_));
    sight.crossings += u64::from(slip == LineStoodOnIsCrossed && is_on_side);
    for (at, face) in around(&floor, place, slip).into_iter().enumerate() {
        let [right, left] = floor.ends(face);
        let line = [face, right, left];
        if slip == OtherSidesAreWalls && at > 0 {
            let far = sight.is_far(line);
            sight.end(line, far);
        } else {
            sight.follow(line, 0);
        }
    }
    (sight.rows, sight.crossings)
}

/// The sides that are followed first. A door on a line stood on does not matter
/// any more, and a wall has no neighbour.
fn around(floor: &Floor, place: Place, slip: Fault) -> Vec<u16> {
    let face = match place {
        Place::Inside(cell) => return floor.faces(cell).collect(),
        Place::Within(face) => face,
    };
    let others = |face: u16| -> Vec<u16> {
        let all = floor.faces(floor.cell_with(face));
        match slip {
            OtherSidesInTheirOwnOrder => all.filter(|&other| other != face).collect(),
            _ => floor.others(face).collect(),
        }
    };
    let open = floor.across_under(0).expect("no door is shut");
    let there = match open[usize::from(face)] {
        WALL => Vec::new(),
        back => others(back),
    };
    match slip {
        NeighboursSidesComeFirst => [there, others(face)].concat(),
        NeighboursSidesAreLeftOut => others(face),
        _ => [others(face), there].concat(),
    }
}

fn across(floor: &Floor, lists: Lists<'_>, setting: u64, slip: Fault) -> Option<Vec<u16>> {
    if slip != DoorIsWallFromOneFace {
        return floor.across_under(setting).ok();
    }
    let mut across = floor.across_under(0).ok()?;
    for (door, &face) in lists.doors.iter().enumerate() {
        if setting >> door & 1 == 1 {
            across[usize::from(face)] = WALL;
        }
    }
    Some(across)
}

struct Sight<'a> {
    floor: &'a Floor,
    q: [i64; 2],
    across: Vec<u16>,
    reach: Reach,
    slip: Fault,
    rows: Vec<Row>,
    crossings: u64,
}

impl Sight<'_> {
    /// Follows a line that so many others were crossed for.
    fn follow(&mut self, line: Line, depth: usize) {
        let entered = self.across[usize::from(line[0])];
        let far = self.is_far(line);
        let is_end = entered == WALL || far && self.slip != OutOfReachLineIsCrossed;
        // A slip can lead to endless rows or lines; no listing has so many.
        if is_end || self.rows.len() > 4_096 || depth > *CELLS.end() {
            self.crossings +=
                u64::from(self.slip == OutOfReachLineIsCounted && entered != WALL && far);
            return self.end(line, far);
        }
        self.crossings += 1;
        let limits = match self.slip {
            LineEndsBecomeLimits => {
                let [left, right] = self.floor.ends(entered);
                [right, left]
            }
            _ => [line[1], line[2]],
        };
        let mut lines = self.fan(entered, limits);
        if self.slip == SidesFromTheLeftEnd {
            lines.reverse();
        }
        for line in lines {
            self.follow(line, depth + 1);
        }
    }

    /// The row of a line that sight ends at.
    fn end(&mut self, [face, right, left]: Line, far: bool) {
        let is_wall = self.across[usize::from(face)] == WALL;
        let is_marked = match self.slip {
            WallInReachIsMarked if self.reach.is_stated() => far || is_wall,
            UnreachedWallIsNotMarked => far && !is_wall,
            _ => far,
        };
        if !(far && self.slip == OutOfReachRowIsLeftOut) {
            self.rows.push([face, right, left, is_marked.into()]);
        }
    }

    /// Whether a line is out of reach. What is nearest of it is an end, or the foot
    /// of the perpendicular.
    fn is_far(&self, [face, right, left]: Line) -> bool {
        let Reach::Stated(reach) = self.reach else {
            return false;
        };
        let [a, b] = self.floor.ends(face).map(|corner| self.seen(corner));
        let square = i128::from(reach) * i128::from(reach);
        let end = dot(a, a).min(dot(b, b));
        let has_foot = dot(a, b) < end;
        let way = [b[0] - a[0], b[1] - a[1]];
        let (value, length) = (cross(a, b), dot(way, way));
        let is_far = |end: bool, foot: bool| if has_foot { foot } else { end };
        let foot_is_far = value * value > square * length;
        let truth = is_far(end > square, foot_is_far);
        let cut = |number: i128| i128::from(number as u64);
        match self.slip {
            InfiniteLineIsInReach => foot_is_far,
            SeenPartIsInReach => {
                let limits = [right, left].map(|corner| self.seen(corner));
                seen_part_is_far([a, b], limits, square).unwrap_or(truth)
            }
            OnlyEndsAreInReach => end > square,
            LineIsInReachByItsMiddle => {
                let twice = [a[0] + b[0], a[1] + b[1]];
                dot(twice, twice) > 4 * square
            }
            ReachIsExclusive => is_far(end >= square, value * value >= square * length),
            DistanceIsCutToMillimetres => {
                let next = i128::from(reach + 1) * i128::from(reach + 1);
                is_far(end >= next, value * value >= next * length)
            }
            DoubleDistances => {
                let [value, square, length] = [value, square, length].map(|n| n as f64);
                is_far(end as f64 > square, value * value > square * length)
            }
            SquareIsCutTo64Bits => is_far(end > square, cut(value * value) > square * length),
            ReachTimesLengthIsCutTo64Bits => {
                is_far(end > square, value * value > cut(square * length))
            }
            _ => truth,
        }
    }

    /// A corner less the stand.
    fn seen(&self, corner: u16) -> [i128; 2] {
        let at = self.floor.corner(corner);
        [at.x - self.q[0], at.y - self.q[1]].map(i128::from)
    }

    /// The lines that are handed on, as a fan: its right limit moves on from
    /// side to side, and it ends at the left one.
    fn fan(&self, entered: u16, [mut right, left]: [u16; 2]) -> Vec<Line> {
        let ties_between = self.slip == CornerOnLimitIsBetween;
        let farther = self.slip == FartherCornerBecomesLimit;
        let goes_on = self.slip == FanGoesOnAfterTheLeftLimit;
        let mut lines = Vec::new();
        let sides: Vec<u16> = self.floor.others(entered).collect();
        for (at, &side) in sides.iter().enumerate() {
            let [_, v] = self.floor.ends(side);
            let (from_right, from_left) = (self.turn(right, v), self.turn(v, left));
            if at + 1 == sides.len() {
                lines.push([side, right, left]);
            } else if from_right < 0 || (from_right == 0 && !ties_between) {
                if farther && from_right == 0 {
                    right = v;
                }
            } else if from_left < 0 || (from_left == 0 && !ties_between) {
                let limit = if farther && from_left == 0 { v } else { left };
                lines.push([side, right, limit]);
                if !goes_on {
                    break;
                }
                right = v;
            } else {
                lines.push([side, right, v]);
                right = v;
            }
        }
        lines
    }

    /// The sign of the side value of the stand and two corners.
    fn turn(&self, a: u16, b: u16) -> i64 {
        let from_stand = |corner: u16| {
            let at = self.floor.corner(corner);
            [at.x - self.q[0], at.y - self.q[1]]
        };
        let (a, b) = (from_stand(a), from_stand(b));
        match self.slip {
            DoubleSideValues => {
                let [a, b] = [a, b].map(|at| at.map(|n| n as f64));
                (a[0] * b[1] - a[1] * b[0]).partial_cmp(&0.0).unwrap() as i64
            }
            NarrowSideValues => {
                let [a, b] = [a, b].map(|at| at.map(|n| n as i32));
                let value = a[0]
                    .wrapping_mul(b[1])
                    .wrapping_sub(a[1].wrapping_mul(b[0]));
                i64::from(value.signum())
            }
            _ => (a[0] * b[1] - a[1] * b[0]).signum(),
        }
    }
}

fn cross(a: [i128; 2], b: [i128; 2]) -> i128 {
    a[0] * b[1] - a[1] * b[0]
}

fn dot(a: [i128; 2], b: [i128; 2]) -> i128 {
    a[0] * b[0] + a[1] * b[1]
}

/// Whether the part of a line between the rays to two limits is out of reach; none
/// where that takes more than 128 bits. What is nearest of it is the foot of the
/// perpendicular, where it is seen, or on the limit that is nearer to that.
fn seen_part_is_far(
    [a, b]: [[i128; 2]; 2],
    [right, left]: [[i128; 2]; 2],
    square: i128,
) -> Option<bool> {
    let way = [b[0] - a[0], b[1] - a[1]];
    let towards = [way[1], -way[0]];
    let value = cross(a, b);
    let limit = if cross(right, towards) < 0 {
        right
    } else if cross(towards, left) < 0 {
        left
    } else {
        return Some(value * value > square * dot(way, way));
    };
    // The ray to the limit meets the line at value / slant of the limit.
    let slant = cross(limit, way);
    let far = (value * value).checked_mul(dot(limit, limit))?;
    Some(far > slant.checked_mul(slant)?.checked_mul(square)?)
}

fn mismatch(fault: Fault) -> Box<Mismatch> {
    match compare(&Paper, &Faulty(fault), 3, 20_000) {
        Ok(_) => panic!("{fault:?} is not found"),
        Err(mismatch) => mismatch,
    }
}

#[test]
fn every_fault_is_found() {
    for &fault in ALL {
        println!("{fault:?}: {}", mismatch(fault));
    }
}

/// A fault of the printing program is found by the inputs that are put to it.
#[test]
fn a_fault_of_the_printing_program_is_found() {
    for fault in [InputLimitIsExclusive, LastLineHasNoEnd, ReachIsNotPrinted] {
        let compared = compare_program(|input| Faulty(fault).print(input), 3, 40_000);
        println!("{fault:?}: {}", compared.expect_err("a fault is found"));
    }
    let compared = compare_program(paper::print, 3, 1_000);
    assert_eq!(compared.expect("there is no fault"), 20);
}

/// A slip in the expansion shows on a few cells, however large the plan was
/// that it was first seen on.
#[test]
fn a_mismatch_is_made_small() {
    for fault in [
        CornerOnLimitIsBetween,
        LineEndsBecomeLimits,
        OldListIsCopied,
        LineStoodOnIsCrossed,
        DoorOfTheLineMayBeChanged,
        BoxWithoutItsBorder,
        BoxOfTheFirstThreeCorners,
        CellsThatTouchOverlap,
        OnlySidesOfTheLowerCellAreTried,
        OnlyCornersInsideAreSeen,
        OnlyWholePointsAreSeen,
        FirstPairFoundIsNamed,
        InfiniteLineIsInReach,
        SeenPartIsInReach,
        ReachIsExclusive,
        SquareIsCutTo64Bits,
        OutOfReachLineIsCrossed,
        GivenListIsTheUnlimitedOne,
        CeilingIsExclusive,
        CeilingIsForEachSide,
        CeilingIsForEachCell,
        FarIsExclusive,
        FittingOffsetIsDrawn,
        FarIsOfAllCorners,
        FarIsOfTheEndsOfLines,
        ZeroIsMinusZero,
    ] {
        match mismatch(fault).trial {
            Trial::Lists(scene, _) => {
                assert!(scene.plan.cells.len() <= 6 * 8, "{fault:?}: {scene:?}");
                assert!(scene.plan.corners.len() <= 2 * 12, "{fault:?}: {scene:?}");
            }
            trial => panic!("{fault:?} is found by {trial}"),
        }
    }
}

/// A fault in a morning shows on a few stands, however many there were.
#[test]
fn a_morning_is_made_small() {
    for (fault, stands) in [
        (RefusedStandStopsTheRest, 2),
        (RefusedStandLeavesAGap, 2),
        (RepliesAreTurnedRound, 2),
        (LastStandForTheSums, 2),
        (PointsAndOffsetsAreMixedUp, 1),
        (MinusZeroIsNoCorner, 1),
        (ReachIsForTheFirstStand, 2),
        (WrongReachRefusesTheMorning, 1),
        (CeilingIsSharedOut, 2),
        (CeilingRefusesTheMorning, 1),
        (MorningIsOneShorter, MOST_STANDS),
    ] {
        match mismatch(fault).trial {
            Trial::Lists(scene, Asked::ListStands { .. } | Asked::EitherKind { .. }) => {
                assert_eq!(scene.stands.len(), 3 * stands, "{fault:?}: {scene:?}");
                // Two cells for each of two stands: they do not overlap.
                assert!(scene.plan.cells.len() <= 6 * 4, "{fault:?}: {scene:?}");
            }
            trial => panic!("{fault:?} is found by {trial}"),
        }
    }
}
