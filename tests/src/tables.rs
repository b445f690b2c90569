//! Recency tables for the calls that take one: right ones in several orders, and wrong ones; and what the calls make of them, by hand.

use crate::model::{ascending, TABLE};
use crate::random::{mix, Random};

/// The order in which a right table has its numbers.
#[derive(Clone, Copy, Debug, PartialEq, Eq)]
pub enum Order {
    /// As at start.
    Ascending,
    Reversed,
    Shuffled,
}

pub const ORDERS: [Order; 3] = [Order::Ascending, Order::Reversed, Order::Shuffled];

impl Order {
    pub fn table(self, seed: u64) -> Vec<u8> {
        let (mut table, mut random) = (ascending(), Random(mix(seed)));
        match self {
            Order::Ascending => {}
            Order::Reversed => table.reverse(),
            Order::Shuffled => (1..TABLE).for_each(|place| table.swap(place, random.below(place as u64 + 1) as usize)),
        }
        table
    }
}

/// How a table is made wrong.
#[derive(Clone, Copy, Debug, PartialEq, Eq)]
pub enum WrongTable {
    /// A number stands at a second place, and the one of that place is missing.
    Twice,
    /// A number that is none of an entry stands at a place.
    Above(u8),
    Zeros,
    Empty,
    One,
    OneLess,
    /// Behind the right table its first number once more.
    OneMore,
    /// Behind the right table the number 128: of 129 numbers each once.
    Next,
    /// The right table twice.
    Double,
    /// The numbers 0 to 255, each once.
    Every,
}

pub const WRONG_TABLES: [WrongTable; 11] = [
    WrongTable::Twice,
    WrongTable::Above(128),
    WrongTable::Above(255),
    WrongTable::Zeros,
    WrongTable::Empty,
    WrongTable::One,
    WrongTable::OneLess,
    WrongTable::OneMore,
    WrongTable::Next,
    WrongTable::Double,
    WrongTable::Every,
];

impl WrongTable {
    /// The place of a wrong table in `WRONG_TABLES`: every second turn a number stands twice, between them the other ways.
    pub fn kind(turn: usize) -> usize {
        if turn % 2 == 0 {
            0
        } else {
            1 + turn / 2 % (WRONG_TABLES.len() - 1)
        }
    }

    /// The place of the table at which one number is wrong, another one each time.
    pub fn place(turn: usize) -> usize {
        turn / 2 % TABLE
    }

    /// The wrong table of that turn, by the right one.
    pub fn table(self, turn: usize, right: &[u8]) -> Vec<u8> {
        let mut table = right.to_vec();
        let place = WrongTable::place(turn);
        match self {
            WrongTable::Twice => table[place] = right[(place + 1 + turn / (2 * TABLE) % (TABLE - 1)) % TABLE],
            WrongTable::Above(number) => table[place] = number,
            WrongTable::Zeros => table.fill(0),
            WrongTable::Empty => table.clear(),
            WrongTable::One => table.truncate(1),
            WrongTable::OneLess => table.truncate(TABLE - 1),
            WrongTable::OneMore => table.push(right[0]),
            WrongTable::Next => table.push(TABLE as u8),
            WrongTable::Double => table.extend_from_slice(right),
            WrongTable::Every => table.extend(TABLE as u8..=255),
        }
        table
    }
}

#[cfg(test)]
mod tests {
    use super::*;
    use crate::ffi::Library;
    use crate::model::{zeros, Model};
    use crate::{Answer, Calls, Geometry, Place};

    const SMALL: Geometry = Geometry { k: 9, slots: 8, data_blocks: 4, disk_blocks: 6 };
    const ZEROS: &[u8] = &[0; 64];

    fn is_right(table: &[u8]) -> bool {
        let mut sorted = table.to_vec();
        sorted.sort();
        sorted == ascending()
    }

    #[test]
    fn tables_are_right_and_wrong() {
        assert_eq!((ascending().len(), ascending()[0], ascending()[127]), (128, 0, 127));
        let orders = ORDERS.map(|order| order.table(3));
        assert!(orders.iter().all(|table| is_right(table)));
        assert!(orders[0] != orders[1] && orders[1] != orders[2] && orders[2] != orders[0]);
        let mut places = [false; TABLE];
        for turn in 0..40 * TABLE {
            let wrong = WRONG_TABLES[WrongTable::kind(turn)];
            let right = &orders[turn % orders.len()];
            let table = wrong.table(turn, right);
            assert!(!is_right(&table), "{wrong:?}");
            let differ: Vec<usize> = (0..TABLE.min(table.len())).filter(|place| table[*place] != right[*place]).collect();
            if matches!(wrong, WrongTable::Twice | WrongTable::Above(_)) {
                assert_eq!(differ, [WrongTable::place(turn)], "{wrong:?}");
                places[differ[0]] |= wrong == WrongTable::Twice;
            }
        }
        assert!(places.iter().all(|place| *place));
        let lengths = WRONG_TABLES.map(|wrong| wrong.table(0, &ascending()).len());
        assert_eq!(lengths, [128, 128, 128, 128, 0, 1, 127, 129, 129, 256, 256]);
        assert!((0..WRONG_TABLES.len()).all(|kind| (0..40).any(|turn| WrongTable::kind(turn) == kind)));
    }

    /// A card on which block 3 was saved and block 1 loaded, its disk and its map.
    fn used(calls: &dyn Calls) -> (Vec<u8>, Vec<u8>, [u64; 2]) {
        let (mut card, disk) = (vec![0; SMALL.card_length()], vec![9; SMALL.disk_length()]);
        calls.format(SMALL.k, SMALL.slots, SMALL.data_blocks, SMALL.disk_blocks, &mut card);
        let mut map = calls.fresh_map(&card);
        assert_eq!(calls.commit(&mut card, &mut map, &[3], &[7; 512], ZEROS, u64::MAX), Answer::Done(69));
        assert_eq!(calls.load(&mut card, &disk, &mut map, &mut ascending(), 1, ZEROS, u64::MAX), Answer::Done(65));
        (card, disk, map)
    }

    /// By hand from document 02: the front of the table after each use, entry 0 for block 3 and entry 1 for block 1.
    #[test]
    fn uses_move_their_entry() {
        for calls in [&Model::default() as &dyn Calls, &Library] {
            let (mut card, mut disk, mut map) = used(calls);
            let mut table = ascending();
            let read = |card: &[u8], disk: &[u8], table: &mut [u8], number| calls.read(card, disk, table, number, &mut [0; 512]);
            assert!(matches!(read(&card, &disk, &mut table, 1), Place::Card(..)));
            assert_eq!((&table[..4], table[127]), (&[1, 0, 2, 3][..], 127));
            // from the disk, refused, of what is first already
            assert!(matches!(read(&card, &disk, &mut table, 5), Place::Disk(..)));
            assert_eq!(read(&card, &disk, &mut table, 6), Place::Refused(10));
            assert!(matches!(read(&card, &disk, &mut table, 1), Place::Card(..)));
            assert_eq!(table[..4], [1, 0, 2, 3]);
            // Head 1: the first unused entry is 2; a cut load leaves the table, a done one moves
            assert_eq!(calls.load(&mut card, &disk, &mut map, &mut table, 5, ZEROS, 64), Answer::Cut);
            assert_eq!(calls.load(&mut card, &disk, &mut map, &mut table, 3, ZEROS, u64::MAX), Answer::Refused(12));
            assert_eq!(table[..4], [1, 0, 2, 3]);
            assert_eq!(calls.load(&mut card, &disk, &mut map, &mut table, 5, ZEROS, u64::MAX), Answer::Done(65));
            assert_eq!(table[..4], [2, 1, 0, 3]);
            assert!(matches!(read(&card, &disk, &mut table, 3), Place::Card(..)));
            assert_eq!(table[..4], [0, 2, 1, 3]);
            // what takes no table does not move: look, evict, commit
            calls.look(&card, &disk, 1);
            calls.evict(&mut card, &mut disk, &mut map, 5, ZEROS, u64::MAX);
            calls.commit(&mut card, &mut map, &[1], &[7; 512], ZEROS, u64::MAX);
            // a commit that makes room moves all its blocks, though none is evicted: 4 to entry 2, and entry 1
            let data = [8; 1024];
            let answer = calls.commit_making_room(&mut card, &mut disk, &mut map, &mut table, &[4, 1], &data, ZEROS, u64::MAX);
            assert_eq!((answer, &table[..4]), (Answer::Done(137), &[1, 2, 0, 3][..]));
            assert_eq!(table[4..], ascending()[4..]);
        }
    }

    /// 16 of every wrong table, after 15, or after 7 for read, and before all that a call asks of its other arguments.
    #[test]
    fn where_a_table_is_refused() {
        for calls in [&Model::default() as &dyn Calls, &Library] {
            let (card, disk, map) = used(calls);
            let mut unsettled = card.clone();
            assert_eq!(calls.commit(&mut unsettled, &mut map.clone(), &[3], &[7; 512], ZEROS, 65), Answer::Cut);
            let unsettled_map = calls.fresh_map(&unsettled);
            for (turn, right) in ORDERS.iter().cycle().take(60).map(|order| order.table(1)).enumerate() {
                let wrong = WRONG_TABLES[turn % WRONG_TABLES.len()].table(turn, &right);
                for (table, bad) in [(&right, false), (&wrong, true)] {
                    let refused = |otherwise: u32| if bad { 16 } else { otherwise };
                    let load = |card: &[u8], disk: &[u8], map: &[u64], number, choice: &[u8]| {
                        let (mut card, mut map, mut lent) = (card.to_vec(), map.to_vec(), table.clone());
                        let answer = calls.load(&mut card, disk, &mut map, &mut lent, number, choice, u64::MAX);
                        assert_eq!((answer == Answer::Done(65)) || lent == *table, true);
                        answer
                    };
                    assert_eq!(load(&card, &[], &[0; 2], 99, &[]), Answer::Refused(3));
                    assert_eq!(load(&unsettled, &disk, &unsettled_map, 99, &[]), Answer::Refused(7));
                    assert_eq!(load(&card, &disk, &[0; 2], 99, &[]), Answer::Refused(15));
                    assert_eq!(load(&card, &disk, &map, 99, &[]), Answer::Refused(refused(17)));
                    assert_eq!(load(&card, &disk, &map, 99, ZEROS), Answer::Refused(refused(10)));
                    assert_eq!(load(&card, &disk, &map, 3, ZEROS), Answer::Refused(refused(12)));
                    assert_eq!(load(&card, &disk, &map, 0, ZEROS), if bad { Answer::Refused(16) } else { Answer::Done(65) });
                    let read = |card: &[u8], disk: &[u8], number, length: usize| {
                        let (mut lent, mut out) = (table.clone(), vec![5; length]);
                        let place = calls.read(card, disk, &mut lent, number, &mut out);
                        if let Place::Refused(_) = place {
                            assert_eq!((lent, out), (table.clone(), vec![5; length]));
                        }
                        place
                    };
                    assert_eq!(read(&card, &[], 99, 0), Place::Refused(3));
                    assert_eq!(read(&unsettled, &disk, 99, 0), Place::Refused(7));
                    assert_eq!(read(&card, &disk, 99, 511), Place::Refused(refused(9)));
                    assert_eq!(read(&card, &disk, 99, 512), Place::Refused(refused(10)));
                    assert_eq!(read(&card, &disk, 3, 512) == Place::Refused(16), bad);
                }
            }
        }
    }

    /// The same of a commit that makes room, also where it need not make any.
    #[test]
    fn where_a_room_making_commit_refuses_a_table() {
        for calls in [&Model::default() as &dyn Calls, &Library] {
            let (card, disk, map) = used(calls);
            for (turn, right) in ORDERS.iter().cycle().take(60).map(|order| order.table(2)).enumerate() {
                let wrong = WRONG_TABLES[turn % WRONG_TABLES.len()].table(turn, &right);
                for (table, bad) in [(&right, false), (&wrong, true)] {
                    let save = |disk: &[u8], map: &[u64], numbers: &[u64], data: usize, choice: &[u8]| {
                        let (mut card, mut disk, mut map, mut lent) = (card.clone(), disk.to_vec(), map.to_vec(), table.clone());
                        let data = vec![6; data];
                        calls.commit_making_room(&mut card, &mut disk, &mut map, &mut lent, numbers, &data, choice, u64::MAX)
                    };
                    let refused = |otherwise: u32| Answer::Refused(if bad { 16 } else { otherwise });
                    assert_eq!(save(&disk[1..], &[0; 2], &[], 1, &[]), Answer::Refused(3));
                    assert_eq!(save(&disk, &[0; 2], &[], 1, &[]), Answer::Refused(15));
                    assert_eq!(save(&disk, &map, &[], 1, &[]), refused(8));
                    assert_eq!(save(&disk, &map, &[99], 511, &[]), refused(9));
                    assert_eq!(save(&disk, &map, &[99, 99], 1024, &zeros(256)), refused(17));
                    assert_eq!(save(&disk, &map, &[99, 99], 1024, ZEROS), refused(10));
                    assert_eq!(save(&disk, &map, &[3, 1, 0, 2, 3], 5 * 512, ZEROS), refused(11));
                    assert_eq!(save(&disk, &map, &[3, 1, 0], 3 * 512, ZEROS), refused(14));
                    assert_eq!(save(&disk, &map, &[5], 512, ZEROS), if bad { Answer::Refused(16) } else { Answer::Done(69) });
                }
            }
        }
    }
}
