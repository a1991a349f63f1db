//! What a plan is asked for.

/// A stand as it comes from the tablet, in millimetres. A number is accepted where it
/// is whole and within the limits of coordinates.
#[derive(Clone, Copy, Debug)]
pub enum Stand {
    /// The point x, y.
    Point(f64, f64),
    /// From a corner, by its number, so far in x and in y.
    Offset(u16, f64, f64),
}

/// In a list of stands, the number that a point has where an offset has its
/// corner: the header's MANOPLUEA_POINT.
pub const POINT: f64 = -1.0;

/// The most stands that a morning has: a list of more is refused.
pub const MOST_STANDS: usize = 32;

impl Stand {
    /// The stand's three numbers in a list of stands.
    pub fn numbers(self) -> [f64; 3] {
        match self {
            Stand::Point(x, y) => [POINT, x, y],
            Stand::Offset(corner, dx, dy) => [corner.into(), dx, dy],
        }
    }
}

/// How far the scanner sees.
#[derive(Clone, Copy, Debug, PartialEq, Eq)]
pub enum Reach {
    /// Unlimited.
    NotStated,
    /// So many millimetres. Any number may be stated; one that is not 1 to
    /// 262,144 is refused.
    Stated(u64),
}

impl Reach {
    /// Whether it is limited.
    pub fn is_stated(self) -> bool {
        matches!(self, Reach::Stated(_))
    }

    /// The number that passes to C. Where none is stated it means nothing there,
    /// and is one that would be refused if it did.
    pub fn number(self) -> u64 {
        match self {
            Reach::NotStated => u64::MAX,
            Reach::Stated(number) => number,
        }
    }
}

/// What a plan is asked for: from where, under which door setting, and how far.
#[derive(Clone, Copy, Debug)]
pub struct Query {
    /// Bit i is one while door i is shut.
    pub setting: u64,
    /// Where the scanner stands.
    pub stand: Stand,
    /// How far it sees.
    pub reach: Reach,
}

impl Query {
    /// A query that states no reach.
    pub fn without_reach(setting: u64, stand: Stand) -> Query {
        Query {
            setting,
            stand,
            reach: Reach::NotStated,
        }
    }

    /// Its listing, however many crossings that has.
    pub fn without_ceiling(self) -> Listing {
        Listing {
            query: self,
            ceiling: None,
        }
    }
}

/// A listing as it is asked for.
#[derive(Clone, Copy, Debug)]
pub struct Listing {
    /// What is listed.
    pub query: Query,
    /// With more crossings than this it is refused. Any number may be one.
    pub ceiling: Option<u64>,
}

/// What the stands of a morning share. How many they are is the length of their
/// list.
#[derive(Clone, Copy, Debug)]
pub struct Morning {
    /// As of a query.
    pub setting: u64,
    /// As of a query.
    pub reach: Reach,
    /// As of a listing: each stand has it for itself.
    pub ceiling: Option<u64>,
}

impl Morning {
    /// A morning that states no reach, and no ceiling.
    pub fn under(setting: u64) -> Morning {
        Morning {
            setting,
            reach: Reach::NotStated,
            ceiling: None,
        }
    }

    /// What is asked for one of its stands alone.
    pub fn listing(self, stand: Stand) -> Listing {
        let Morning {
            setting,
            reach,
            ceiling,
        } = self;
        Listing {
            query: Query {
                setting,
                stand,
                reach,
            },
            ceiling,
        }
    }
}

/// A door change as it is asked for.
#[derive(Clone, Copy, Debug)]
pub struct DoorChange<'a> {
    /// With the old setting.
    pub query: Query,
    /// The list under the old setting and the same reach, four numbers a row.
    pub given: &'a [u16],
    /// The number of the door.
    pub door: usize,
    /// The wished state of the door.
    pub shut: bool,
}
