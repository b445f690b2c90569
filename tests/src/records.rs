//! Records of pending saves that are none of the card's: for put and finish, which refuse them with 18.

/// How a record is made wrong. Some of these are the card's own record at times; then they are not tried.
#[derive(Clone, Copy, Debug, PartialEq, Eq)]
pub enum WrongRecord {
    /// Tail off by one slot, round the ring.
    TailNext,
    TailBefore,
    /// Tail with S added: the same slot, counted round.
    TailRound,
    CountMore,
    CountLess,
    /// The count with S added.
    CountRound,
    /// Head in Tail's place.
    Head,
    Swapped,
    Zeros,
    Ones,
    /// The record of before the last put.
    Stale,
    /// One bit above the lowest 8 is set as well, another one each time: the numbers agree in their lower bits.
    TailHuge,
    CountHuge,
    NoWord,
    OneWord,
    ThreeWords,
}

pub const WRONG_RECORDS: [WrongRecord; 16] = [
    WrongRecord::TailNext,
    WrongRecord::TailBefore,
    WrongRecord::TailRound,
    WrongRecord::CountMore,
    WrongRecord::CountLess,
    WrongRecord::CountRound,
    WrongRecord::Head,
    WrongRecord::Swapped,
    WrongRecord::Zeros,
    WrongRecord::Ones,
    WrongRecord::Stale,
    WrongRecord::TailHuge,
    WrongRecord::CountHuge,
    WrongRecord::NoWord,
    WrongRecord::OneWord,
    WrongRecord::ThreeWords,
];

/// What wrong records are made of: the record that fits best, the one of before the last put, the ring's slots and Head.
#[derive(Clone, Copy)]
pub struct Ring<'r> {
    pub right: [u64; 2],
    pub stale: &'r [u64],
    pub slots: u64,
    pub head: u64,
}

impl WrongRecord {
    /// The wrong record of that turn.
    pub fn record(self, turn: usize, ring: Ring) -> Vec<u64> {
        let Ring { right: [tail, count], stale, slots, head } = ring;
        let high = 1 << (8 + turn / WRONG_RECORDS.len() % 56);
        match self {
            WrongRecord::TailNext => vec![tail.wrapping_add(1) % slots, count],
            WrongRecord::TailBefore => vec![tail.wrapping_add(slots - 1) % slots, count],
            WrongRecord::TailRound => vec![tail.wrapping_add(slots), count],
            WrongRecord::CountMore => vec![tail, count.wrapping_add(1)],
            WrongRecord::CountLess => vec![tail, count.wrapping_sub(1)],
            WrongRecord::CountRound => vec![tail, count.wrapping_add(slots)],
            WrongRecord::Head => vec![head, count],
            WrongRecord::Swapped => vec![count, tail],
            WrongRecord::Zeros => vec![0; 2],
            WrongRecord::Ones => vec![u64::MAX; 2],
            WrongRecord::Stale => stale.to_vec(),
            WrongRecord::TailHuge => vec![tail ^ high, count],
            WrongRecord::CountHuge => vec![tail, count ^ high],
            WrongRecord::NoWord => vec![],
            WrongRecord::OneWord => vec![tail],
            WrongRecord::ThreeWords => vec![tail, count, 0],
        }
    }
}

#[cfg(test)]
mod tests {
    use super::*;

    /// Every kind of wrong record is one, on a card where it can be.
    #[test]
    fn wrong_records_are_wrong() {
        let ring = Ring { right: [5, 2], stale: &[5, 1], slots: 8, head: 7 };
        for turn in 0..60 * WRONG_RECORDS.len() {
            let wrong = WRONG_RECORDS[turn % WRONG_RECORDS.len()];
            assert_ne!(wrong.record(turn, ring), [5, 2], "{wrong:?}");
        }
        assert_eq!(WrongRecord::TailNext.record(0, Ring { right: [7, 2], ..ring }), [0, 2]);
        assert_eq!(WrongRecord::TailBefore.record(0, Ring { right: [0, 2], ..ring }), [7, 2]);
        assert_eq!(WrongRecord::CountLess.record(0, Ring { right: [0, 0], ..ring }), [0, u64::MAX]);
        assert_eq!(WrongRecord::TailHuge.record(0, ring), [5 + 256, 2]);
        assert_eq!(WrongRecord::CountHuge.record(55 * WRONG_RECORDS.len(), ring), [5, 2 + (1 << 63)]);
        assert!(WRONG_RECORDS.iter().enumerate().all(|(index, wrong)| *wrong as usize == index));
    }
}
