//! Each refusal: its number, its place and its words.

use manopluea::Refusal;
use std::error::Error;

/// Each with its number, its place and all that is said of it.
const SAID: [(Refusal, u32, Option<usize>, &str); 17] = [
    (
        Refusal::Frame,
        1,
        None,
        "these are not the records of a plan, or the lists are not whole corners, cells, doors or \
         stands, or the kind is neither 2 nor 12 (refused 1)",
    ),
    (
        Refusal::Size,
        2,
        None,
        "a count is outside the limits, or there are more than 32 stands (refused 2)",
    ),
    (
        Refusal::Corner(0),
        3,
        Some(0),
        "corner 0 has a coordinate outside the limits (refused 3, place 0)",
    ),
    (
        Refusal::Cell(7),
        4,
        Some(7),
        "cell 7 has a corner number that does not exist, two that are equal, or a corner other than a \
         side's own two that is not strictly left of that side (refused 4, place 7)",
    ),
    (
        Refusal::Neighbour(23_999),
        5,
        Some(23_999),
        "the neighbour at face 23999 is neither wall nor a cell with a side that answers (refused 5, \
         place 23999)",
    ),
    (
        Refusal::Door(63),
        6,
        Some(63),
        "door 63 names no such face, a wall, or a line that an earlier door names (refused 6, place 63)",
    ),
    (
        Refusal::Setting,
        7,
        None,
        "the setting has a bit at or above the door count (refused 7)",
    ),
    (
        Refusal::Stand,
        8,
        None,
        "a number or corner of the stand is not accepted (refused 8)",
    ),
    (
        Refusal::Line,
        9,
        None,
        "the stand is on some cell's border, strictly inside no cell and within no free side, or the \
         door to be changed is underfoot (refused 9)",
    ),
    (
        Refusal::Outside,
        10,
        None,
        "the stand is inside or on no cell (refused 10)",
    ),
    (
        Refusal::Room,
        11,
        None,
        "a lent table, list, file or text is too short (refused 11)",
    ),
    (
        Refusal::Change,
        12,
        None,
        "there is no such door, or it is already in that state (refused 12)",
    ),
    (
        Refusal::Rows,
        13,
        None,
        "the given list is not the true one (refused 13)",
    ),
    (
        Refusal::Far,
        14,
        None,
        "a row's limit is more than 16,777,216 mm from the stand, in x or in y (refused 14)",
    ),
    (
        Refusal::Reach,
        15,
        None,
        "the stated reach is not 1 to 262,144 mm (refused 15)",
    ),
    (
        Refusal::Overlap(2),
        17,
        Some(2),
        "some point is strictly inside cell 2 and another cell (refused 17, place 2)",
    ),
    (
        Refusal::Ceiling,
        19,
        None,
        "the crossings exceed the stated ceiling (refused 19)",
    ),
];

#[test]
fn every_refusal_has_its_number_its_place_and_its_words() {
    for (refusal, number, place, words) in SAID {
        assert_eq!((refusal.number(), refusal.place()), (number, place));
        assert_eq!(refusal.to_string(), words);
    }
}

/// With other errors it is handed on by `?`, and can be told from them.
#[test]
fn a_refusal_is_an_error() {
    fn refused(number: &str) -> Result<(), Box<dyn Error>> {
        let cell = number.parse()?;
        Err(Refusal::Cell(cell))?
    }
    let fault = refused("7").unwrap_err();
    assert_eq!(fault.downcast_ref(), Some(&Refusal::Cell(7)));
    assert!(fault.to_string().ends_with(" (refused 4, place 7)"));
    assert!(fault.source().is_none());
    assert!(refused("seven")
        .unwrap_err()
        .downcast_ref::<Refusal>()
        .is_none());
}

/// A reply with the number and place of a refusal is that refusal, and there are no others.
#[cfg(feature = "calls")]
#[test]
fn every_refusal_is_read_from_a_reply() {
    use manopluea::raw;
    for (refusal, number, place, _) in SAID {
        let place = place.unwrap_or(0) as u64;
        let reply = [number.into(), place, 0, 0, 0, 0, 0];
        assert_eq!(raw::answer(reply), Err(refusal));
    }
    for number in [16, 18, 20, u64::MAX] {
        let read = std::panic::catch_unwind(|| raw::answer([number, 0, 0, 0, 0, 0, 0]));
        assert!(read.is_err(), "{number}");
    }
}
