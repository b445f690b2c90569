//! Choices for the calls that take one: which stores of a block a cut leaves. Right ones of every kind, and wrong ones; and what they leave,
//! by hand.

use crate::model::{in_order, zeros};
use crate::random::{mix, Random};

/// Which stores of the run that is cut are chosen.
#[derive(Clone, Copy, Debug, PartialEq, Eq)]
pub enum Pick {
    /// None.
    Zeros,
    /// All.
    Ones,
    /// Every second one, from the first or from the second on.
    Even,
    Odd,
    /// Those within the allowance: document 01's first stores.
    InOrder,
    /// Those past the allowance.
    Past,
    /// The last one of the run.
    Last,
    Random,
    /// At random, of a choice that has more bytes than are asked for.
    Longer,
}

pub const PICKS: [Pick; 9] =
    [Pick::Zeros, Pick::Ones, Pick::Even, Pick::Odd, Pick::InOrder, Pick::Past, Pick::Last, Pick::Random, Pick::Longer];

impl Pick {
    /// The choice at B `block`, for a call whose longest run has so many stores.
    pub fn choice(self, seed: u64, block: usize, run: usize, allowance: u64) -> Vec<u8> {
        let (words, mut random) = (block / 8, Random(mix(seed)));
        let chosen = |is_chosen: &dyn Fn(usize) -> bool| (0..words).map(|store| u8::from(is_chosen(store))).collect();
        match self {
            Pick::Zeros => zeros(block),
            Pick::Ones => chosen(&|_| true),
            Pick::Even => chosen(&|store| store % 2 == 0),
            Pick::Odd => chosen(&|store| store % 2 == 1),
            Pick::InOrder => in_order(block, allowance),
            Pick::Past => in_order(block, allowance).iter().map(|byte| 1 - byte).collect(),
            Pick::Last => chosen(&|store| store + 1 == run),
            Pick::Random => (0..words).map(|_| random.below(2) as u8).collect(),
            Pick::Longer => (0..words + 1 + seed as usize % words).map(|_| random.below(2) as u8).collect(),
        }
    }
}

/// How a choice is made wrong: too short, or with one byte above 1.
#[derive(Clone, Copy, Debug, PartialEq, Eq)]
pub enum WrongChoice {
    Empty,
    OneLess,
    /// Of as many bytes as a block has sectors.
    Sectors,
    First(u8),
    /// Another byte each time.
    Any(u8),
    /// The last of the B/8 that are asked for.
    Last(u8),
    /// The one behind them.
    Behind(u8),
    /// The last of twice as many.
    FarBehind(u8),
}

pub const WRONG_CHOICES: [WrongChoice; 13] = [
    WrongChoice::Empty,
    WrongChoice::OneLess,
    WrongChoice::Sectors,
    WrongChoice::First(2),
    WrongChoice::First(255),
    WrongChoice::Any(2),
    WrongChoice::Any(255),
    WrongChoice::Last(2),
    WrongChoice::Last(255),
    WrongChoice::Behind(2),
    WrongChoice::Behind(255),
    WrongChoice::FarBehind(2),
    WrongChoice::FarBehind(255),
];

impl WrongChoice {
    /// The wrong choice at B `block`, by a right one.
    pub fn choice(self, turn: usize, right: &[u8], block: usize) -> Vec<u8> {
        let words = block / 8;
        let (length, above) = match self {
            WrongChoice::Empty => (0, None),
            WrongChoice::OneLess => (words - 1, None),
            WrongChoice::Sectors => (block / 512, None),
            WrongChoice::First(byte) => (words, Some((0, byte))),
            WrongChoice::Any(byte) => (words, Some((turn % words, byte))),
            WrongChoice::Last(byte) => (words, Some((words - 1, byte))),
            WrongChoice::Behind(byte) => (words + 1, Some((words, byte))),
            WrongChoice::FarBehind(byte) => (2 * words, Some((2 * words - 1, byte))),
        };
        let mut choice = right.to_vec();
        choice.resize(length, 0);
        above.iter().for_each(|(place, byte)| choice[*place] = *byte);
        choice
    }
}

#[cfg(test)]
mod tests {
    use super::*;
    use crate::drive::put;
    use crate::ffi::Library;
    use crate::model::{ascending, Card, Model, Store};
    use crate::{Answer, Calls, Geometry};

    const SMALL: Geometry = Geometry { k: 9, slots: 8, data_blocks: 4, disk_blocks: 6 };

    /// Every picked choice passes check 17, and every wrong one does not.
    #[test]
    fn choices_are_right_and_wrong() {
        let passes = |choice: &[u8], block: usize| choice.len() >= block / 8 && choice.iter().all(|byte| *byte < 2);
        for block in [512, 1024, 2048, 4096] {
            for (turn, pick) in PICKS.iter().cycle().take(200).enumerate() {
                let choice = pick.choice(turn as u64, block, block / 8, turn as u64);
                assert!(passes(&choice, block), "{pick:?}");
                assert_eq!(choice.len() > block / 8, *pick == Pick::Longer);
                for wrong in WRONG_CHOICES {
                    assert!(!passes(&wrong.choice(turn, &choice, block), block), "{wrong:?}");
                }
            }
        }
        assert!(PICKS.iter().enumerate().all(|(index, pick)| *pick as usize == index));
        let chosen = |pick: Pick, run, allowance| -> Vec<usize> {
            let choice = pick.choice(0, 512, run, allowance);
            (0..choice.len()).filter(|store| choice[*store] == 1).collect()
        };
        assert_eq!(chosen(Pick::InOrder, 64, 67 + 3), [0, 1, 2]);
        assert_eq!(chosen(Pick::Past, 64, 62), [62, 63]);
        assert_eq!((chosen(Pick::Last, 64, 5), chosen(Pick::Last, 1, 5)), (vec![63], vec![0]));
    }

    /// A card at k 9 or 12 with block 3 saved, and its map; the disk's bytes are 9.
    fn saved(calls: &dyn Calls, k: u64) -> (Vec<u8>, Vec<u8>, [u64; 2]) {
        let geometry = Geometry { k, ..SMALL };
        let (mut card, disk) = (vec![0; geometry.card_length()], vec![9; geometry.disk_length()]);
        calls.format(k, SMALL.slots, SMALL.data_blocks, SMALL.disk_blocks, &mut card);
        let mut map = calls.fresh_map(&card);
        let data = vec![7; geometry.block()];
        assert!(matches!(calls.commit(&mut card, &mut map, &[3], &data, &zeros(geometry.block()), u64::MAX), Answer::Done(_)));
        (card, disk, map)
    }

    /// The units of a part that have this byte.
    fn units_with(part: &[u8], unit: usize, byte: u8) -> Vec<usize> {
        let units: Vec<&[u8]> = part.chunks(unit).collect();
        (0..units.len()).filter(|index| units[*index] == vec![byte; unit]).collect()
    }

    /// By hand from document 02, k 9: a save of blocks 5 and 4, into data blocks 1 and 2. Words 0 to 63, entry, slot, Head, words 67 to
    /// 130, then single stores.
    #[test]
    fn words_by_choice() {
        for calls in [&Model::default() as &dyn Calls, &Library] {
            let (card, _, map) = saved(calls, 9);
            let cut = |chosen: &[usize], allowance: u64| {
                let (mut card, mut choice) = (card.clone(), vec![0; 64]);
                chosen.iter().for_each(|store| choice[*store] = 1);
                assert_eq!(calls.commit(&mut card, &mut map.clone(), &[5, 4], &[6; 1024], &choice, allowance), Answer::Cut);
                let words = |block| units_with(&card[SMALL.block_at(block)..SMALL.block_at(block + 1)], 8, 6);
                (words(1), words(2), Card::open(&card, None).unwrap().in_use().count(), card[71])
            };
            let all: Vec<usize> = (0..64).collect();
            assert_eq!(cut(&[], 0), (vec![], vec![], 1, 1));
            // past the allowance and chosen; within it and not chosen
            assert_eq!(cut(&[63], 0), (vec![63], vec![], 1, 1));
            assert_eq!(cut(&[2, 40], 1), (vec![2, 40], vec![], 1, 1));
            assert_eq!(cut(&[], 63), (vec![], vec![], 1, 1));
            // all chosen, and yet nothing behind the run
            assert_eq!(cut(&all, 0), (all.clone(), vec![], 1, 1));
            assert_eq!(cut(&all, 63), (all.clone(), vec![], 1, 1));
            // a run that is covered is made whatever is chosen, and then single stores by the allowance alone
            assert_eq!(cut(&[], 64), (all.clone(), vec![], 1, 1));
            assert_eq!(cut(&all, 65), (all.clone(), vec![], 2, 1));
            assert_eq!(cut(&all, 66), (all.clone(), vec![], 2, 1));
            // the second block's words have the same bytes of the choice
            assert_eq!(cut(&[0, 5], 67), (all.clone(), vec![0, 5], 2, 2));
            assert_eq!(cut(&[0, 5], 130), (all.clone(), vec![0, 5], 2, 2));
            assert_eq!(cut(&[0, 5], 131), (all.clone(), all.clone(), 2, 2));
            assert_eq!(cut(&[0, 5], 132), (all.clone(), all.clone(), 3, 2));
            assert_eq!(cut(&[0, 5], 136), (all.clone(), all.clone(), 3, 3));
        }
    }

    /// By hand from document 02: one sector at k 9 and eight at k 12, then the zeroed entry; a clean block has the entry alone.
    #[test]
    fn sectors_by_choice() {
        for calls in [&Model::default() as &dyn Calls, &Library] {
            for (k, last) in [(9, 0), (12, 7)] {
                let (block, (mut card, mut disk, mut map)) = (1usize << k, saved(calls, k));
                calls.load(&mut card, &disk, &mut map, &mut ascending(), 1, &zeros(block), u64::MAX);
                let mut cut = |number: u64, chosen: &[usize], allowance: u64| {
                    let (mut choice, mut card) = (zeros(block), card.clone());
                    chosen.iter().for_each(|store| choice[*store] = 1);
                    disk.fill(9);
                    assert_eq!(calls.evict(&mut card, &mut disk, &mut map.clone(), number, &choice, allowance), Answer::Cut);
                    assert_eq!(Card::open(&card, None).unwrap().in_use().count(), 2);
                    let sectors = units_with(&disk[3 * block..4 * block], 512, 7);
                    let others = disk.iter().filter(|byte| **byte == 9).count() + 512 * sectors.len();
                    assert_eq!(others, disk.len());
                    sectors
                };
                assert_eq!(cut(3, &[], 0), []);
                assert_eq!(cut(3, &[last], 0), [last]);
                // bytes of the choice past the run are nobody's
                assert_eq!(cut(3, &[last + 1, 63], 0), []);
                assert_eq!(cut(3, &[], last as u64), []);
                assert_eq!(cut(3, &[], last as u64 + 1), (0..=last).collect::<Vec<_>>());
                assert_eq!(cut(1, &[0, last], 0), []);
            }
        }
    }

    /// By hand from document 02, k 9: a load's 64 words, then its entry.
    #[test]
    fn a_load_by_choice() {
        for calls in [&Model::default() as &dyn Calls, &Library] {
            let (card, disk, map) = saved(calls, 9);
            let cut = |chosen: &[usize], allowance: u64| {
                let (mut card, mut choice) = (card.clone(), vec![0; 100]);
                chosen.iter().for_each(|store| choice[*store] = 1);
                assert_eq!(calls.load(&mut card, &disk, &mut map.clone(), &mut ascending(), 5, &choice, allowance), Answer::Cut);
                assert_eq!(Card::open(&card, None).unwrap().in_use().count(), 1);
                units_with(&card[SMALL.block_at(1)..SMALL.block_at(2)], 8, 9)
            };
            assert_eq!(cut(&[1, 62], 0), [1, 62]);
            assert_eq!(cut(&[0, 99], 63), [0]);
            assert_eq!(cut(&[], 64), (0..64).collect::<Vec<_>>());
        }
    }

    /// Choices at k 9 with some allowances, and whether 17 passes them: B/8 bytes or more, each 0 or 1.
    fn tried() -> Vec<(bool, Vec<u8>, u64)> {
        let above = |length: usize, place: usize, byte: u8| {
            let mut choice = vec![0; length];
            choice[place] = byte;
            choice
        };
        let right = [vec![0; 64], vec![1; 64], vec![1; 65], vec![0; 100_000]];
        let short = [vec![], vec![0; 1], vec![1; 63]];
        let inside = [above(64, 0, 2), above(64, 31, 255), above(64, 63, 2), vec![255; 64]];
        let behind = [above(65, 64, 2), above(100, 99, 255), above(100_000, 99_999, 2)];
        let wrong = short.into_iter().chain(inside).chain(behind);
        let all = right.map(|choice| (true, choice)).into_iter().chain(wrong.map(|choice| (false, choice)));
        all.flat_map(|(passes, choice)| [0, 64, u64::MAX].map(|allowance| (passes, choice.clone(), allowance))).collect()
    }

    /// After 9 and before 10, whatever the allowance.
    #[test]
    fn where_a_commit_refuses_a_choice() {
        for calls in [&Model::default() as &dyn Calls, &Library] {
            let (mut card, _, map) = saved(calls, 9);
            let before = card.clone();
            // map, numbers, length of the data; the refusal with a right choice and with a wrong one
            let table: [(&[u64], &[u64], usize, u32, u32); 7] = [
                (&[0; 2], &[5], 512, 15, 15),
                (&map, &[], 0, 8, 8),
                (&map, &[5], 511, 9, 9),
                (&map, &[99], 511, 9, 9),
                (&map, &[99], 512, 10, 17),
                (&map, &[5, 5], 1024, 11, 17),
                (&map, &[0, 1, 2, 4, 5], 5 * 512, 14, 17),
            ];
            for (passes, choice, allowance) in tried() {
                for (map, numbers, data, right, wrong) in table {
                    let answer = calls.commit(&mut card, &mut map.to_vec(), numbers, &vec![6; data], &choice, allowance);
                    assert_eq!(answer, Answer::Refused(if passes { right } else { wrong }), "{numbers:?}");
                }
                let answer = calls.commit(&mut card.clone(), &mut map.clone(), &[5], &[6; 512], &choice, allowance);
                assert_eq!(answer == Answer::Refused(17), !passes);
            }
            assert_eq!(card, before);
        }
    }

    /// After 15 and before 10, whatever the allowance; of a clean block and of a modified one.
    #[test]
    fn where_load_and_evict_refuse_a_choice() {
        for calls in [&Model::default() as &dyn Calls, &Library] {
            let (mut card, mut disk, mut map) = saved(calls, 9);
            calls.load(&mut card, &disk, &mut map, &mut ascending(), 1, &zeros(512), u64::MAX);
            let before = (card.clone(), disk.clone());
            for (passes, choice, allowance) in tried() {
                let refused = |right: u32, wrong: u32| Answer::Refused(if passes { right } else { wrong });
                let mut load = |map: &[u64], disk: &[u8], number| {
                    calls.load(&mut card, disk, &mut map.to_vec(), &mut ascending(), number, &choice, allowance)
                };
                assert_eq!(load(&[0; 2], &[], 5), refused(3, 3));
                assert_eq!(load(&[0; 2], &disk, 99), refused(15, 15));
                assert_eq!([99, 3].map(|number| load(&map, &disk, number)), [refused(10, 17), refused(12, 17)]);
                let mut evict = |map: &[u64], number| calls.evict(&mut card, &mut disk, &mut map.to_vec(), number, &choice, allowance);
                assert_eq!(evict(&[0; 2], 99), refused(15, 15));
                assert_eq!([99, 5].map(|number| evict(&map, number)), [refused(10, 17), refused(13, 17)]);
                let answer = calls.load(&mut card.clone(), &disk, &mut map.clone(), &mut ascending(), 5, &choice, allowance);
                assert_eq!(answer == Answer::Refused(17), !passes);
                for number in [1, 3] {
                    let answer = calls.evict(&mut card.clone(), &mut disk.clone(), &mut map.clone(), number, &choice, allowance);
                    assert_eq!(answer == Answer::Refused(17), !passes);
                }
            }
            assert_eq!((card, disk), before);
        }
    }

    /// A store of a list, made.
    fn store(to: &Store, card: &mut [u8], disk: &mut [u8]) {
        let (on_disk, at, bytes) = to.unit();
        put(if on_disk { disk } else { card }, at, bytes);
    }

    /// Document 01's rule: with the choice of ones up to where the allowance ends exactly the first stores are made.
    #[test]
    fn the_first_stores_in_order() {
        let model = Model::default();
        for (calls, k) in [(&model as &dyn Calls, 9), (&model, 12), (&Library, 9), (&Library, 12)] {
            let (card, disk, map) = saved(calls, k);
            let block = 1 << k;
            let data: Vec<u8> = (0..2 * block).map(|at| (at / 8) as u8 | 1).collect();
            let lists = [
                model.commit_list(&card, &[5, 3], &data).unwrap(),
                model.load_list(&card, &disk, 5).unwrap(),
                model.evict_list(&card, disk.len(), 3).unwrap(),
            ];
            for (call, list) in lists.iter().enumerate() {
                let (mut wanted, mut wanted_disk) = (card.clone(), disk.clone());
                for allowance in 0..=list.len() {
                    let (mut card, mut disk, mut map, choice) = (card.clone(), disk.clone(), map, in_order(block, allowance as u64));
                    let answer = match call {
                        0 => calls.commit(&mut card, &mut map, &[5, 3], &data, &choice, allowance as u64),
                        1 => calls.load(&mut card, &disk, &mut map, &mut ascending(), 5, &choice, allowance as u64),
                        _ => calls.evict(&mut card, &mut disk, &mut map, 3, &choice, allowance as u64),
                    };
                    assert_eq!(answer == Answer::Cut, allowance < list.len());
                    assert!(card == wanted && disk == wanted_disk, "call {call}, k {k}, allowance {allowance}");
                    list.iter().skip(allowance).take(1).for_each(|next| store(next, &mut wanted, &mut wanted_disk));
                }
            }
        }
    }
}
