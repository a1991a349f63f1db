//! Ceilings: none, the least and the largest, and such as a listing just keeps to or
//! just exceeds.

use super::dice::Dice;

/// A ceiling, against the crossings of listings that have none.
#[derive(Clone, Copy, Debug, PartialEq, Eq)]
pub enum Ceiling {
    None,
    Number(u64),
    /// So many more than one of the listings has crossings, or fewer; which one is
    /// counted round.
    Beside {
        at: usize,
        by: i64,
    },
}

impl Ceiling {
    /// The ceiling for listings that have so many crossings each, which are asked for
    /// only where they matter. With no listing it is as if one had no crossings.
    pub fn number(self, crossings: impl FnOnce() -> Vec<u64>) -> Option<u64> {
        match self {
            Ceiling::None => None,
            Ceiling::Number(number) => Some(number),
            Ceiling::Beside { at, by } => {
                let crossings = crossings();
                let some = crossings.get(at % crossings.len().max(1)).unwrap_or(&0);
                Some(some.saturating_add_signed(by))
            }
        }
    }
}

pub fn random(dice: &mut Dice) -> Ceiling {
    match dice.below(20) {
        0..=5 => Ceiling::None,
        6 | 7 => Ceiling::Number(0),
        8 => Ceiling::Number(u64::MAX),
        9 => Ceiling::Number(wide(dice)),
        10 | 11 => Ceiling::Number(few(dice)),
        _ => Ceiling::Beside {
            at: dice.below(64),
            by: dice.pick(&[0, 0, 0, -1, -1, -1, 1, -2]),
        },
    }
}

/// About as many crossings as most floors have.
fn few(dice: &mut Dice) -> u64 {
    let most = dice.pick(&[3, 20, 300]);
    dice.between(1, most) as u64
}

/// A number that is beyond every listing's crossings, where no high bits are lost and
/// no sign is read.
fn wide(dice: &mut Dice) -> u64 {
    match dice.below(6) {
        0 => (1 << 32) + few(dice),
        1 => (1 << 63) + few(dice),
        2 => dice.pick(&[1 << 32, 1 << 63, (1 << 63) - 1, u64::MAX - 1]),
        3 => u64::MAX - few(dice),
        4 => 1 << (20 + dice.below(44)),
        _ => dice.word() | 1 << 32,
    }
}
