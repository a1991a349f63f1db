//! The proved library behind its C interface, `include/manopluea.h`, as an
//! implementor of the public calls.

use crate::calls::{
    Calls, DoorChange, Listing, Lists, Morning, Query, Reply, Stand, MOST_TEXT, REPLY,
};
use manopluea::raw as c;

/// The proved library.
pub struct Proved;

/// Asks on a stack of so many bytes.
pub fn on_stack<T: Send>(bytes: usize, ask: impl FnOnce() -> T + Send) -> T {
    std::thread::scope(|scope| {
        std::thread::Builder::new()
            .stack_size(bytes)
            .spawn_scoped(scope, ask)
            .expect("a thread starts")
            .join()
            .expect("a call does not panic")
    })
}

/// What a text holds before a call: no byte that is ever printed.
const UNPRINTED: u8 = 0xa5;

/// The seven numbers before a call: every one of them has to be written.
const UNWRITTEN: [u64; REPLY] = [u64::MAX; REPLY];

/// What a function put there, as a reply.
fn reply([number, place, values @ ..]: [u64; REPLY]) -> Reply {
    let narrow = |number| u32::try_from(number).unwrap_or(u32::MAX);
    Reply {
        number: narrow(number),
        place: narrow(place),
        values,
    }
}

/// The reply that a function leaves.
fn replied(ask: impl FnOnce(&mut [u64])) -> Reply {
    let mut seven = UNWRITTEN;
    ask(&mut seven);
    reply(seven)
}

impl Calls for Proved {
    fn check(&self, lists: Lists<'_>) -> Reply {
        replied(|seven| c::check(lists, seven))
    }

    fn read(
        &self,
        file: &[u8],
        corners: &mut [i32],
        cells: &mut [u16],
        doors: &mut [u16],
    ) -> Reply {
        replied(|seven| c::read(file, corners, cells, doors, seven))
    }

    fn write(&self, lists: Lists<'_>, file: &mut [u8]) -> Reply {
        replied(|seven| c::write(lists, file, seven))
    }

    fn find(&self, lists: Lists<'_>, setting: u64, stand: Stand) -> Reply {
        replied(|seven| c::find(lists, setting, stand, seven))
    }

    fn list(&self, lists: Lists<'_>, listing: Listing, table: &mut [u16]) -> Reply {
        replied(|seven| c::list(lists, listing, table, seven))
    }

    fn list_stands(
        &self,
        lists: Lists<'_>,
        morning: Morning,
        stands: &[f64],
        table: &mut [u16],
        replies: &mut [u64],
    ) -> Reply {
        replied(|seven| c::list_stands(lists, morning, stands, table, replies, seven))
    }

    fn change(&self, lists: Lists<'_>, asked: DoorChange<'_>, table: &mut [u16]) -> Reply {
        replied(|seven| c::change(lists, asked, table, seven))
    }

    fn draw(&self, lists: Lists<'_>, query: Query, offsets: &mut [f32]) -> Reply {
        replied(|seven| c::draw(lists, query, offsets, seven))
    }

    fn print(&self, input: &[u8]) -> Vec<u8> {
        let mut text = vec![UNPRINTED; MOST_TEXT];
        let reply = replied(|seven| c::print(input, &mut text, seven));
        let [length, rest @ ..] = reply.values;
        assert_eq!((reply.number, reply.place, rest), (0, 0, [0; 4]));
        let unwritten = text.split_off(length as usize);
        assert!(
            unwritten.iter().all(|&byte| byte == UNPRINTED),
            "bytes beyond those printed keep their values"
        );
        text
    }
}

#[cfg(test)]
mod tests {
    use super::*;
    use crate::calls::Reach;
    use crate::examples::plan_q;
    use crate::paper;

    /// A reply with no room for seven numbers: nothing at all is done.
    #[test]
    fn a_short_reply_leaves_everything_alone() {
        let plan = plan_q();
        let lists = plan.lists();
        let file = paper::encode(lists);
        for length in 0..REPLY {
            let mut short = vec![7; length];
            let mut bytes = vec![9; file.len()];
            let (mut corners, mut cells, mut doors) = ([9; 8], [9; 12], [9; 1]);
            let mut table = [9; 16];
            let mut replies = [9; 3];
            let mut offsets = [9.0; 16];
            let mut text = vec![9; MOST_TEXT];
            c::check(lists, &mut short);
            c::read(&file, &mut corners, &mut cells, &mut doors, &mut short);
            c::write(lists, &mut bytes, &mut short);
            for stand in [Stand::Point(6.0, 3.0), Stand::Offset(0, 6.0, 3.0)] {
                c::find(lists, 0, stand, &mut short);
                for (reach, ceiling) in [
                    (Reach::NotStated, None),
                    (Reach::Stated(9), Some(1)),
                    (Reach::Stated(9), Some(0)),
                    (Reach::Stated(0), Some(1)),
                ] {
                    let morning = Morning {
                        reach,
                        ceiling,
                        ..Morning::under(0)
                    };
                    let listing = morning.listing(stand);
                    c::list(lists, listing, &mut table, &mut short);
                    let stands = stand.numbers();
                    c::list_stands(
                        lists,
                        morning,
                        &stands,
                        &mut table,
                        &mut replies,
                        &mut short,
                    );
                    let asked = DoorChange {
                        query: listing.query,
                        given: &[0, 0, 1, 0, 1, 1, 2, 0, 4, 2, 3, 0, 5, 3, 0, 0],
                        door: 0,
                        shut: true,
                    };
                    c::change(lists, asked, &mut table, &mut short);
                    c::draw(lists, listing.query, &mut offsets, &mut short);
                }
            }
            c::print(&file, &mut text, &mut short);
            assert_eq!(short, vec![7; length]);
            assert_eq!(text, vec![9; MOST_TEXT]);
            assert_eq!(bytes, vec![9; file.len()]);
            assert_eq!((corners, cells, doors), ([9; 8], [9; 12], [9; 1]));
            assert_eq!((table, replies), ([9; 16], [9; 3]));
            assert_eq!(offsets, [9.0; 16]);
        }
    }

    /// A text that could not hold every answer is refused, whatever the answer
    /// is; one byte more is enough.
    #[test]
    fn a_text_has_room_for_every_answer_or_is_left_alone() {
        let (mut text, mut reply) = (vec![9; MOST_TEXT], [7; REPLY]);
        c::print(&[], &mut text[1..], &mut reply);
        assert_eq!(reply, [11, 0, 0, 0, 0, 0, 0]);
        assert_eq!(text, vec![9; MOST_TEXT]);
        c::print(&[], &mut text, &mut reply);
        assert_eq!(reply, [0, 0, 12, 0, 0, 0, 0]);
        assert_eq!(text[..12], *b"refused 1 0\n");
        assert_eq!(text[12..], vec![9; MOST_TEXT - 12]);
    }

    /// What lies beyond the seven numbers of a longer reply is left alone.
    #[test]
    fn a_longer_reply_keeps_the_rest() {
        let mut long = [9; 9];
        c::check(plan_q().lists(), &mut long);
        assert_eq!(long, [0, 0, 4, 2, 1, 0, 0, 9, 9]);
    }
}
