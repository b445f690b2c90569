//! Commits that make room: what they can come upon, the law of their refusal 14, the evicts and the commit that they are made of, and
//! histories in which they evict clean and modified blocks in an order that the table says and the entries do not.

use crate::choices::{Pick, PICKS};
use crate::drive::{data_of, done, every_list, first_disk, make_in_full, Pair, Row, Snapshot, Step, Tally};
use crate::model::{commit_stores, map_of, zeros, Card, Model, Run, Store};
use crate::pending::in_parts;
use crate::random::{mix, Random};
use crate::tables::ORDERS;
use crate::{Answer, Calls, Geometry};

/// What a commit that makes room can come upon.
#[derive(Clone, Copy, Debug, PartialEq, Eq)]
pub enum Case {
    /// Done, with evictions: of a clean block, of a modified one, of both kinds.
    Evicting,
    Clean,
    Modified,
    Mixed,
    /// Done without an eviction.
    Room,
    /// Other blocks go than those whose entries come first.
    AgainstPlaces,
    /// A block of the commit was less recently used than a victim.
    OwnLessRecent,
    /// All blocks of the commit were less recently used than all others.
    OwnLeastRecent,
    /// Every block outside the commit goes.
    EveryVictim,
    /// Refused with 14, for one victim.
    OneTooFew,
    /// A victim's entry is not used again.
    EntryLeft,
    /// Cut before the first store, among the evictions, just behind them, and in the commit that follows.
    CutFirst,
    CutEvicting,
    CutBetween,
    CutSaving,
}

pub const CASES: [Case; 15] = [
    Case::Evicting,
    Case::Clean,
    Case::Modified,
    Case::Mixed,
    Case::Room,
    Case::AgainstPlaces,
    Case::OwnLessRecent,
    Case::OwnLeastRecent,
    Case::EveryVictim,
    Case::OneTooFew,
    Case::EntryLeft,
    Case::CutFirst,
    Case::CutEvicting,
    Case::CutBetween,
    Case::CutSaving,
];

/// A call as its victims show it: those that go, in their order.
struct Made {
    victims: Vec<usize>,
    /// The stores of their evictions.
    stores: u64,
    own: Vec<usize>,
    candidates: Vec<usize>,
    missing: usize,
}

impl Made {
    fn new(card: &Card, table: &[u8], numbers: &[u64]) -> Made {
        let candidates = Model::default().victims(card, table, numbers);
        let missing = numbers.len().saturating_sub(card.free_blocks().len());
        let victims: Vec<usize> = candidates.iter().copied().take(missing).collect();
        let sectors = card.geometry.block() as u64 / 512;
        let stores = victims.iter().map(|victim| if card.entries[*victim].unwrap().modified { sectors + 1 } else { 1 }).sum();
        let own = numbers.iter().filter_map(|number| card.entry_for(*number)).collect();
        Made { victims, stores, own, candidates, missing }
    }

    /// What a done call with evictions came upon.
    fn of_done(&self, card: &Card, table: &[u8]) -> Vec<Case> {
        let modified = self.victims.iter().filter(|victim| card.entries[**victim].unwrap().modified).count();
        let clean = self.victims.len() - modified;
        let mut first = self.candidates.clone();
        first.sort();
        first.truncate(self.missing);
        let mut taken = self.victims.clone();
        taken.sort();
        let recency = |entry: &usize| table.iter().position(|number| *number as usize == *entry);
        let latest_other = self.candidates.iter().map(recency).max();
        let less_recent = |than: Option<Option<usize>>| self.own.iter().filter(|own| Some(recency(own)) > than).count();
        [
            (Case::Evicting, true),
            (Case::Clean, clean > 0),
            (Case::Modified, modified > 0),
            (Case::Mixed, clean > 0 && modified > 0),
            (Case::AgainstPlaces, taken != first),
            (Case::OwnLessRecent, less_recent(self.victims.last().map(recency)) > 0),
            (Case::OwnLeastRecent, !self.own.is_empty() && less_recent(latest_other) == self.own.len()),
            (Case::EveryVictim, self.victims.len() == self.candidates.len()),
            (Case::EntryLeft, !self.own.is_empty()),
        ]
        .into_iter()
        .filter_map(|(case, holds)| holds.then_some(case))
        .collect()
    }
}

/// What a call came upon, on the card and with the table that it found.
pub fn cases(card: &Card, table: &[u8], numbers: &[u64], allowance: u64, answer: Answer) -> Vec<Case> {
    let made = Made::new(card, table, numbers);
    match answer {
        Answer::Done(_) if made.missing == 0 => vec![Case::Room],
        Answer::Done(_) => made.of_done(card, table),
        Answer::Cut if made.missing == 0 => vec![],
        Answer::Cut if allowance == 0 => vec![Case::CutFirst],
        Answer::Cut if allowance < made.stores => vec![Case::CutEvicting],
        Answer::Cut if allowance == made.stores => vec![Case::CutBetween],
        Answer::Cut => vec![Case::CutSaving],
        Answer::Refused(14) if made.candidates.len() + 1 == made.missing => vec![Case::OneTooFew],
        _ => vec![],
    }
}

/// With c of its n numbers cached a commit that nothing else refuses is refused with 14 exactly where n + c is above N.
pub fn keeps_law(card: &Card, numbers: &[u64], answer: Answer) -> Result<(), String> {
    let cached = numbers.iter().filter(|number| card.entry_for(**number).is_some()).count();
    let too_many = (numbers.len() + cached) as u64 > card.geometry.data_blocks;
    let kept = match answer {
        Answer::Refused(14) => too_many,
        Answer::Refused(_) => true,
        _ => !too_many,
    };
    if kept {
        Ok(())
    } else {
        Err(format!("{} blocks, {cached} of them cached, of {}: {answer:?}", numbers.len(), card.geometry.data_blocks))
    }
}

/// The entries whose evictions an allowance finishes: the store that zeroes them is within it.
pub fn evicted(runs: &[Run], allowance: u64, card: &[u8]) -> Vec<usize> {
    let Ok(geometry) = Geometry::from_header(card) else { return vec![] };
    let (mut entries, mut before) = (Vec::new(), 0);
    for run in runs {
        before += run.stores().len() as u64;
        if before > allowance {
            break;
        }
        if let Run::Single(Store::Entry(at, bytes)) = run {
            entries.extend((*bytes == [0; 16]).then(|| (at - geometry.entry_at(0)) / 16));
        }
    }
    entries
}

/// Evicts of the victims, as many as are missing, and then the commit, itself made of puts and a finish, all on one implementation. Gives what
/// they leave and the count of their stores.
pub fn in_a_row(calls: &dyn Calls, from: Snapshot, victims: &[u64], numbers: &[u64], data: &[u8]) -> Result<(Snapshot, u64), String> {
    let Snapshot { mut card, mut disk, table, .. } = from;
    let opened = Card::open_settled(&card, Some(disk.len())).map_err(|number| format!("a card refused with {number}"))?;
    let missing = numbers.len().saturating_sub(opened.free_blocks().len());
    let (mut map, choice, mut stores) = (map_of(&card), zeros(opened.geometry.block()), 0);
    for victim in &victims[..missing] {
        stores += done(calls.evict(&mut card, &mut disk, &mut map, *victim, &choice, u64::MAX))?;
    }
    stores += done(in_parts(calls, &mut card, &mut map, numbers, data, &choice, u64::MAX)?)?;
    Ok((Snapshot::new(card, disk, table), stores))
}

/// Saves of more blocks than are free on a card of four data blocks: with victims clean and modified, against the order of the entries,
/// with own blocks that are the least recently used, and with every other block to go.
pub fn room_script() -> Vec<Step> {
    use Step::*;
    vec![
        Load(0),
        Room(vec![1], 22),
        Room(vec![2, 3], 23),
        Read(0),
        Room(vec![4], 24),
        Room(vec![5, 0], 25),
        Load(1),
        Read(4),
        Room(vec![2, 3], 26),
        Room(vec![1, 4], 27),
        Load(0),
        Load(5),
        Read(1),
        Room(vec![3, 2], 28),
        Room(vec![0, 4, 5], 29),
        Evict(0),
        Load(1),
        Room(vec![2, 4], 30),
    ]
}

/// The same on a card of eight.
pub fn wide_room_script() -> Vec<Step> {
    use Step::*;
    vec![
        Load(6),
        Commit(vec![8, 7], 31),
        Load(9),
        Load(0),
        Room(vec![1], 32),
        Room(vec![2, 3], 33),
        Read(6),
        Read(8),
        Room(vec![4, 5], 34),
        Room(vec![0, 1, 7, 9], 35),
        Load(2),
        Load(3),
        Read(4),
        Room(vec![6, 8, 5], 36),
        Room(vec![4, 5, 6, 8], 37),
        Evict(6),
        Load(7),
        Room(vec![0, 1, 2, 3], 38),
        Room(vec![9], 39),
    ]
}

/// Part f: on each card of the script every list of up to `most` numbers, D itself among them, with the table as it was left and in other
/// orders: in full, with one store less, and cut among the evictions.
pub fn every_room<'a>(one: &'a dyn Calls, other: &'a dyn Calls, geometry: Geometry, script: &[Step], most: u32) -> Result<Tally, String> {
    let seed = 29;
    let mut pair = Pair::new(one, other, &vec![0; geometry.card_length()], &first_disk(seed, geometry), 2);
    let mut row = Row::new(seed, geometry);
    done(pair.format(geometry.k, geometry.slots, geometry.data_blocks, geometry.disk_blocks)?)?;
    for (turn, step) in script.iter().enumerate() {
        let before = pair.snapshot();
        let other_table = ORDERS[turn % ORDERS.len()].table(turn as u64);
        for table in [before.table.clone(), other_table] {
            let from = Snapshot { table, ..before.clone() };
            for numbers in every_list(geometry.disk_blocks, most, geometry.slots) {
                let data = data_of(seed, numbers.len(), geometry.block());
                every_saving(&mut pair, &from, &numbers, &data)?;
            }
        }
        pair.set(&before);
        make_in_full(&mut pair, geometry, step, &mut row)?;
    }
    Ok(pair.tally)
}

/// The commits of one list of numbers, each from the same card and table.
fn every_saving(pair: &mut Pair, from: &Snapshot, numbers: &[u64], data: &[u8]) -> Result<(), String> {
    pair.set(from);
    let Answer::Done(m) = pair.commit_making_room(numbers, data, Pick::Zeros, u64::MAX)? else { return Ok(()) };
    for (pick, allowance) in [(Pick::Zeros, m - 1), (Pick::Ones, 1)] {
        pair.set(from);
        let answer = pair.commit_making_room(numbers, data, pick, allowance)?;
        if answer != Answer::Cut {
            return Err(format!("a commit of {m} stores at allowance {allowance}: {answer:?}"));
        }
    }
    Ok(())
}

/// Different numbers, n of them: with a count of cached ones among them that leaves just enough victims, or one too few, or any.
fn some_numbers(random: &mut Random, card: &Card) -> Vec<u64> {
    let geometry = card.geometry;
    let mut cached: Vec<u64> = card.in_use().map(|entry| entry.number).collect();
    (1..cached.len()).for_each(|place| cached.swap(place, random.below(place as u64 + 1) as usize));
    let n = 1 + random.below((geometry.slots - 1).min(geometry.data_blocks).min(geometry.disk_blocks)) as usize;
    let beside = geometry.data_blocks as usize - n;
    let own = match random.below(4) {
        0 => 0,
        1 => beside,
        2 => beside + 1,
        _ => random.below(n as u64 + 1) as usize,
    };
    cached.truncate(own.min(n));
    let start = random.below(geometry.disk_blocks);
    let others = (0..geometry.disk_blocks).map(|i| (start + i) % geometry.disk_blocks);
    let mut numbers: Vec<u64> = cached.into_iter().chain(others.filter(|number| card.entry_for(*number).is_none())).take(n).collect();
    (1..numbers.len()).for_each(|place| numbers.swap(place, random.below(place as u64 + 1) as usize));
    numbers
}

/// Part g: a history of commits that make room, with loads and reads between them, on a card that is full most of the time.
pub fn crowded<'a>(one: &'a dyn Calls, other: &'a dyn Calls, geometry: Geometry, calls: u64, seed: u64) -> Result<Tally, String> {
    let mut random = Random(mix(seed));
    let mut pair = Pair::new(one, other, &vec![0; geometry.card_length()], &first_disk(seed, geometry), (seed % 8) as usize);
    let mut row = Row::new(seed, geometry);
    done(pair.format(geometry.k, geometry.slots, geometry.data_blocks, geometry.disk_blocks)?)?;
    for _ in 0..calls {
        let number = random.below(geometry.disk_blocks);
        match random.below(8) {
            0 => drop(pair.load(number, Pick::Zeros, u64::MAX)?),
            1 | 2 => row.holds(&mut pair, number)?,
            3 => pair.set_table(&random.pick(&ORDERS).table(random.0)),
            _ => crowded_save(&mut pair, &mut random, geometry, &mut row)?,
        }
    }
    (0..geometry.disk_blocks).try_for_each(|number| row.holds(&mut pair, number))?;
    Ok(pair.tally)
}

/// One save, every third cut and recovered.
fn crowded_save(pair: &mut Pair, random: &mut Random, geometry: Geometry, row: &mut Row) -> Result<(), String> {
    let card = Card::open_settled(pair.card(), None).map_err(|number| format!("a card of a history is refused with {number}"))?;
    let numbers = some_numbers(random, &card);
    let (n, block) = (numbers.len() as u64, geometry.block() as u64);
    let data = data_of(random.next(), numbers.len(), geometry.block());
    let allowance = match random.below(6) {
        0 => random.below(commit_stores(n, block)),
        1 => random.below(n * (block / 512 + 1)),
        _ => u64::MAX,
    };
    let answer = pair.commit_making_room(&numbers, &data, random.pick(&PICKS), allowance)?;
    row.feed(&numbers, &data, answer);
    if answer == Answer::Cut {
        let recovery = pair.recover(u64::MAX)?;
        row.recover(recovery);
        done(recovery)?;
    }
    numbers.iter().take(3).try_for_each(|number| row.holds(pair, *number))
}

#[cfg(test)]
mod tests {
    use super::*;
    use crate::drive::{every_cut, put, some_card};
    use crate::ffi::Library;
    use crate::model::{ascending, cut_run, stores_of, Slip, NOW};
    use crate::tables::Order;

    const SMALL: Geometry = Geometry { k: 9, slots: 8, data_blocks: 4, disk_blocks: 6 };

    /// A station on a fresh card over a disk of nines.
    struct Station<'c> {
        calls: &'c dyn Calls,
        card: Vec<u8>,
        disk: Vec<u8>,
        map: [u64; 2],
        table: Vec<u8>,
        block: usize,
    }

    impl Station<'_> {
        fn new(calls: &dyn Calls, k: u64) -> Station<'_> {
            let geometry = Geometry { k, ..SMALL };
            let (mut card, disk) = (vec![0; geometry.card_length()], vec![9; geometry.disk_length()]);
            calls.format(k, SMALL.slots, SMALL.data_blocks, SMALL.disk_blocks, &mut card);
            let map = calls.fresh_map(&card);
            Station { calls, card, disk, map, table: ascending(), block: geometry.block() }
        }

        fn load(&mut self, number: u64) {
            let choice = zeros(self.block);
            let answer = self.calls.load(&mut self.card, &self.disk, &mut self.map, &mut self.table, number, &choice, u64::MAX);
            assert!(matches!(answer, Answer::Done(_)), "load {number}: {answer:?}");
        }

        fn read(&mut self, number: u64) -> u8 {
            let mut out = vec![0; self.block];
            self.calls.read(&self.card, &self.disk, &mut self.table, number, &mut out);
            out[0]
        }

        /// Saves the blocks, each filled with that byte, under a choice and an allowance.
        fn save(&mut self, numbers: &[u64], byte: u8, choice: &[u8], allowance: u64) -> Answer {
            let (card, disk, map, table) = (&mut self.card, &mut self.disk, &mut self.map, &mut self.table);
            self.calls.commit_making_room(card, disk, map, table, numbers, &vec![byte; numbers.len() * self.block], choice, allowance)
        }

        fn save_all(&mut self, numbers: &[u64], byte: u8) -> Answer {
            self.save(numbers, byte, &zeros(self.block), u64::MAX)
        }

        /// The number that each entry has.
        fn cached(&self) -> Vec<Option<u64>> {
            Card::open(&self.card, None).unwrap().entries.iter().map(|entry| entry.map(|entry| entry.number)).collect()
        }

        fn on_disk(&self) -> Vec<u8> {
            self.disk.chunks(self.block).map(|block| block[0]).collect()
        }
    }

    /// By hand from documents 01 and 02, N 4 and k 9: an eviction of a modified block is two stores, of a clean one one; a commit of n
    /// blocks is 68 n + 1.
    #[test]
    fn rooms_by_hand() {
        for calls in [&Model::default() as &dyn Calls, &Library] {
            let mut at = Station::new(calls, 9);
            at.load(0);
            assert_eq!(at.save_all(&[1], 1), Answer::Done(69));
            assert_eq!(at.save_all(&[2, 3], 2), Answer::Done(137));
            assert_eq!((at.cached(), &at.table[..4]), (vec![Some(0), Some(1), Some(2), Some(3)], &[3, 2, 1, 0][..]));
            assert_eq!(at.read(0), 9);
            // block 1 is the least recently used now, and its entry is not the first
            assert_eq!(at.save_all(&[4], 3), Answer::Done(2 + 69));
            assert_eq!((at.cached(), &at.table[..4]), (vec![Some(0), Some(4), Some(2), Some(3)], &[1, 0, 3, 2][..]));
            assert_eq!(at.on_disk(), [9, 1, 9, 9, 9, 9]);
            // 2 and 3 go; 0 keeps its entry, so entry 3 is left unused
            assert_eq!(at.save_all(&[5, 0], 4), Answer::Done(4 + 137));
            assert_eq!((at.cached(), &at.table[..4]), (vec![Some(0), Some(4), Some(5), None], &[0, 2, 1, 3][..]));
            assert_eq!(at.on_disk(), [9, 1, 2, 2, 9, 9]);
            at.load(1);
            // both of its own blocks, 4 the least recently used of all; exactly the other two go
            assert_eq!(at.table[..4], [3, 0, 2, 1]);
            assert_eq!(at.save_all(&[4, 1], 5), Answer::Done(4 + 137));
            assert_eq!((at.cached(), &at.table[..4]), (vec![None, Some(4), None, Some(1)], &[3, 1, 0, 2][..]));
            assert_eq!(at.on_disk(), [4, 1, 2, 2, 9, 4]);
            // one victim too few: nothing changes
            let before = (at.card.clone(), at.disk.clone(), at.map, at.table.clone());
            assert_eq!(at.save_all(&[4, 1, 0], 6), Answer::Refused(14));
            assert_eq!((at.card.clone(), at.disk.clone(), at.map, at.table.clone()), before);
            assert_eq!((0..6).map(|number| at.read(number)).collect::<Vec<u8>>(), [4, 5, 2, 2, 5, 4]);
        }
    }

    /// A full card, k 9 or 12: block 3 saved, entry 0, and 0, 1 and 2 loaded. A save of 5 and 4 evicts 3, which is modified, and then 0,
    /// which is clean.
    fn full(calls: &dyn Calls, k: u64) -> Station<'_> {
        let mut at = Station::new(calls, k);
        at.save_all(&[3], 7);
        (0..3).for_each(|number| at.load(number));
        at.table = ascending();
        [3, 2, 1, 0].iter().for_each(|entry| at.table[*entry as usize] = 3 - entry);
        at
    }

    /// By hand: the sectors of block 3 by the choice, its entry, the entry of 0, and then the words of 5, into data block 1, by the choice.
    #[test]
    fn cuts_by_hand() {
        for calls in [&Model::default() as &dyn Calls, &Library] {
            for (k, sectors) in [(9, 1), (12, 8)] {
                let cut = |chosen: &[usize], allowance: u64| {
                    let mut at = full(calls, k);
                    let (block, words) = (at.block, Geometry { k, ..SMALL }.block_at(1));
                    let mut choice = zeros(block);
                    chosen.iter().for_each(|store| choice[*store] = 1);
                    let (map, table) = (at.map, at.table.clone());
                    assert_eq!(at.save(&[5, 4], 6, &choice, allowance), Answer::Cut);
                    assert_eq!((at.map, at.table.clone()), (map, table));
                    let units = |part: &[u8], unit: usize, byte: u8| part.chunks(unit).filter(|unit| **unit == vec![byte; unit.len()]).count();
                    let written = units(&at.disk[3 * block..4 * block], 512, 7);
                    let cached: Vec<bool> = at.cached().iter().map(|number| number.is_some()).collect();
                    (written, cached, units(&at.card[words..words + block], 8, 6))
                };
                let (none, one, two) = (vec![true; 4], vec![false, true, true, true], vec![false, false, true, true]);
                assert_eq!(cut(&[], 0), (0, none.clone(), 0));
                assert_eq!(cut(&[sectors - 1], 0), (1, none.clone(), 0));
                assert_eq!(cut(&(0..sectors).collect::<Vec<_>>(), sectors as u64 - 1), (sectors, none.clone(), 0));
                assert_eq!(cut(&[], sectors as u64), (sectors, none, 0));
                assert_eq!(cut(&[], sectors as u64 + 1), (sectors, one, 0));
                assert_eq!(cut(&[], sectors as u64 + 2), (sectors, two.clone(), 0));
                assert_eq!(cut(&[0, 5, 60], sectors as u64 + 2), (sectors, two.clone(), 3));
                assert_eq!(cut(&[], (sectors + 2 + (1 << k) / 8) as u64), (sectors, two, (1 << k) / 8));
            }
        }
    }

    /// Document 01's rule: with ones up to where the allowance ends in its run exactly the first stores are made.
    #[test]
    fn the_first_stores_in_order() {
        for (calls, k) in [(&Model::default() as &dyn Calls, 9), (&Model::default(), 12), (&Library, 9), (&Library, 12)] {
            let at = full(calls, k);
            let data: Vec<u8> = (0..2 * at.block).map(|byte| (byte / 8) as u8 | 1).collect();
            let runs = Model::default().room_list(&at.card, at.disk.len(), &at.table, &[5, 4], &data).unwrap();
            let list = stores_of(&runs);
            assert_eq!(list.len(), at.block / 512 + 2 + commit_stores(2, at.block as u64) as usize);
            let (mut wanted, mut wanted_disk) = (at.card.clone(), at.disk.clone());
            for allowance in 0..=list.len() {
                let within = cut_run(&runs, allowance as u64).map_or(0, |(_, within)| within as usize);
                let choice: Vec<u8> = (0..at.block / 8).map(|store| u8::from(store < within)).collect();
                let (mut card, mut disk, mut map, mut table) = (at.card.clone(), at.disk.clone(), at.map, at.table.clone());
                let answer =
                    calls.commit_making_room(&mut card, &mut disk, &mut map, &mut table, &[5, 4], &data, &choice, allowance as u64);
                assert_eq!(answer == Answer::Cut, allowance < list.len());
                assert!(card == wanted && disk == wanted_disk, "k {k}, allowance {allowance}");
                if let Some(next) = list.get(allowance) {
                    let (on_disk, place, bytes) = next.unit();
                    put(if on_disk { &mut wanted_disk } else { &mut wanted }, place, bytes);
                }
            }
        }
    }

    /// On settled cards of many histories, with any table: 14 exactly where n + c is above N, and done otherwise.
    #[test]
    fn fourteen_by_its_law() {
        for calls in [&Model::default() as &dyn Calls, &Library] {
            let mut random = Random(41);
            let (mut refused, mut sums) = ([0; 2], [0; 3]);
            for turn in 0..6000 {
                let geometry = if turn % 2 == 0 { SMALL } else { Geometry { data_blocks: 8, disk_blocks: 12, ..SMALL } };
                let Snapshot { mut card, mut disk, .. } = some_card(&mut random, geometry, NOW);
                let Ok(opened) = Card::open_settled(&card, None) else { continue };
                let mut numbers: Vec<u64> = Order::Shuffled.table(turn).iter().map(|number| *number as u64).collect();
                numbers.retain(|number| *number < geometry.disk_blocks);
                numbers.truncate(1 + random.below(geometry.disk_blocks.min(geometry.slots - 1)) as usize);
                let (mut map, mut table, data) = (map_of(&card), Order::Shuffled.table(!turn), vec![1; numbers.len() * 512]);
                let answer = calls.commit_making_room(&mut card, &mut disk, &mut map, &mut table, &numbers, &data, &[0; 64], u64::MAX);
                let sum = numbers.len() + numbers.iter().filter(|number| opened.entry_for(**number).is_some()).count();
                let too_many = sum as u64 > geometry.data_blocks;
                assert_eq!(answer == Answer::Refused(14), too_many, "{numbers:?}");
                assert_eq!(matches!(answer, Answer::Done(_)), !too_many, "{numbers:?}");
                refused[usize::from(too_many)] += 1;
                // just below N, N itself and just above it
                sums.iter_mut().zip(geometry.data_blocks - 1..).filter(|(_, near)| *near == sum as u64).for_each(|(count, _)| *count += 1);
            }
            assert!(refused.iter().chain(&sums).all(|count| *count > 100), "{refused:?} {sums:?}");
        }
    }

    /// Every step of both histories is done, and they come upon all that a commit can, but for a refusal.
    #[test]
    fn the_scripts_reach_what_they_should() {
        let model = Model::default();
        for (geometry, script) in [(SMALL, room_script()), (Geometry { data_blocks: 8, disk_blocks: 10, ..SMALL }, wide_room_script())] {
            let tally = every_cut(&model, &model, geometry, &script, geometry.disk_blocks, 64).unwrap();
            for case in CASES.iter().filter(|case| **case != Case::OneTooFew) {
                assert!(tally.cases[*case as usize] > 0, "{case:?}");
            }
        }
        assert!(CASES.iter().enumerate().all(|(index, case)| *case as usize == index));
    }

    /// The evicts and the commit that it is made of, and the law of 14, show a wrong commit without a second model.
    #[test]
    fn calls_in_a_row_see_a_wrong_room() {
        for slip in [
            Slip::MostRecentVictim,
            Slip::VictimsByPlace,
            Slip::OwnBlockEvicted,
            Slip::OwnBlocksCounted,
            Slip::RoomAsPlain,
            Slip::OneVictimMore,
            Slip::MissingUncached,
            Slip::EvictionsUncounted,
            Slip::EvictionsLast,
            Slip::BlocksAtStart,
            Slip::EntriesAtStart,
            Slip::CleanVictimWritten,
            Slip::TableOfDataBlocks,
        ] {
            let wrong = Model::wrong(slip);
            assert!(every_room(&wrong, &wrong, SMALL, &room_script(), 3).is_err(), "{slip:?}");
        }
    }
}
