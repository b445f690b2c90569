//! Pending saves: what open, puts and finish can come upon, the commit that they make up, the ways on from one that was cut, histories of them,
//! records made by hand for a cut commit among them, and cards with windows and entries that no history makes.

use crate::choices::{Pick, PICKS};
use crate::drive::{
    all_hold, data_of, done, first_disk, make_in_full, put, some_number, Pair, Reckoning, Row, Snapshot, Step, Tally,
};
use crate::model::{ascending, record_of, write_entry, Card, Entry, NOW, OLD};
use crate::random::{mix, Random};
use crate::records::{Ring, WRONG_RECORDS};
use crate::series::some_recoveries;
use crate::versions::keeps_rule;
use crate::{Answer, Calls, Geometry, Opened};

/// What a pending save can come upon.
#[derive(Clone, Copy, Debug, PartialEq, Eq)]
pub enum Pending {
    /// A put done: the first of a save, a later one; one over a cached block, one of an uncached one.
    First,
    Later,
    Over,
    New,
    /// A put cut in the words, behind them, behind the entry, behind the slot.
    CutInWords,
    CutBehindWords,
    CutBehindEntry,
    CutBehindSlot,
    /// A finish done: of one block, of more, of as many as the ring takes, of a window that goes round.
    FinishedOne,
    FinishedMore,
    FinishedFull,
    FinishedRound,
    /// A finish cut before its first store, among the role switches, before Tail's store.
    FinishCutFirst,
    FinishCutSwitching,
    FinishCutBeforeTail,
    /// A finish done of a cut commit's blocks alone, and of these with puts behind them.
    OfCutCommit,
    OfCutCommitAndPuts,
    /// A recovery that abandons a pending save, and one that is cut in it.
    Abandoned,
    RecoveryCut,
    /// A recovery that was cut, but not before it undid a put that was cut: the save goes on with its record.
    GoesOnAfterRecovery,
    /// Done where an undoable entry's current block is another's previous one: a finish, and a recovery.
    FinishedChain,
    RecoveredChain,
    /// Refused with 18 though Tail and count fit: a number stands in the window twice, an entry with R is outside it, a number in it has no entry
    /// with R, and there are as many of both.
    Twice,
    Outside,
    NoRole,
    Others,
}

pub const PENDING: [Pending; 26] = [
    Pending::First,
    Pending::Later,
    Pending::Over,
    Pending::New,
    Pending::CutInWords,
    Pending::CutBehindWords,
    Pending::CutBehindEntry,
    Pending::CutBehindSlot,
    Pending::FinishedOne,
    Pending::FinishedMore,
    Pending::FinishedFull,
    Pending::FinishedRound,
    Pending::FinishCutFirst,
    Pending::FinishCutSwitching,
    Pending::FinishCutBeforeTail,
    Pending::OfCutCommit,
    Pending::OfCutCommitAndPuts,
    Pending::Abandoned,
    Pending::RecoveryCut,
    Pending::GoesOnAfterRecovery,
    Pending::FinishedChain,
    Pending::RecoveredChain,
    Pending::Twice,
    Pending::Outside,
    Pending::NoRole,
    Pending::Others,
];

fn held(cases: &[(Pending, bool)]) -> Vec<Pending> {
    cases.iter().filter(|(_, holds)| *holds).map(|(case, _)| *case).collect()
}

/// Whether an undoable entry's current block is another's previous one.
fn is_chained(card: &Card) -> bool {
    let is_previous = |block: u32| card.in_use().any(|entry| card.undoable(entry) && entry.previous == Some(block));
    card.in_use().any(|entry| card.undoable(entry) && is_previous(entry.current))
}

/// Why 18 holds where Tail and count fit.
fn mismatch(card: &Card, record: &[u64]) -> Vec<Pending> {
    if record != [card.tail, card.window.len() as u64] {
        return vec![];
    }
    let logged: Vec<u64> = card.in_use().filter(|entry| entry.log_role).map(|entry| entry.number).collect();
    let without_role = card.window.iter().filter(|number| !logged.contains(number)).count();
    let outside = logged.iter().filter(|number| !card.window.contains(number)).count();
    held(&[
        (Pending::Twice, without_role == 0 && outside == 0),
        (Pending::Outside, without_role == 0 && outside > 0),
        (Pending::NoRole, without_role > 0 && outside == 0),
        (Pending::Others, without_role > 0 && logged.len() == card.window.len()),
    ])
}

/// What a put came upon, on the card and with the record that it found.
pub fn put_cases(card: &Card, record: &[u64], number: u64, words: u64, allowance: u64, answer: Answer) -> Vec<Pending> {
    let (first, cached) = (card.window.is_empty(), card.entry_for(number).is_some());
    match answer {
        Answer::Done(_) => held(&[(Pending::First, first), (Pending::Later, !first), (Pending::Over, cached), (Pending::New, !cached)]),
        Answer::Cut if allowance < words => vec![Pending::CutInWords],
        Answer::Cut => vec![[Pending::CutBehindWords, Pending::CutBehindEntry, Pending::CutBehindSlot][(allowance - words) as usize]],
        Answer::Refused(18) => mismatch(card, record),
        _ => vec![],
    }
}

/// What a finish came upon.
pub fn finish_cases(card: &Card, record: &[u64], allowance: u64, answer: Answer) -> Vec<Pending> {
    let count = card.window.len() as u64;
    match answer {
        Answer::Done(_) => held(&[
            (Pending::FinishedOne, count == 1),
            (Pending::FinishedMore, count > 1),
            (Pending::FinishedFull, count == card.geometry.slots - 1),
            (Pending::FinishedRound, card.head < card.tail),
            (Pending::FinishedChain, is_chained(card)),
        ]),
        Answer::Cut if allowance == 0 => vec![Pending::FinishCutFirst],
        Answer::Cut if allowance < count => vec![Pending::FinishCutSwitching],
        Answer::Cut => vec![Pending::FinishCutBeforeTail],
        Answer::Refused(18) => mismatch(card, record),
        _ => vec![],
    }
}

/// What a recovery came upon.
pub fn recover_cases(card: &Card, answer: Answer) -> Vec<Pending> {
    let pending = card.record().is_some() && !card.settled();
    match answer {
        Answer::Done(_) => held(&[(Pending::Abandoned, pending), (Pending::RecoveredChain, is_chained(card))]),
        Answer::Cut => held(&[(Pending::RecoveryCut, pending)]),
        _ => vec![],
    }
}

/// Open, a put of each block and finish, in a row on one implementation: the allowance goes on from each to the next, and the first that is cut
/// ends them. Gives what they answer together.
pub fn in_parts(
    calls: &dyn Calls,
    card: &mut [u8],
    map: &mut [u64],
    numbers: &[u64],
    data: &[u8],
    choice: &[u8],
    allowance: u64,
) -> Result<Answer, String> {
    let Opened::Open(mut record) = calls.open(card) else { return Err("a card that is saved to is not opened".to_string()) };
    let (mut left, mut stores) = (allowance, 0);
    for (number, block) in numbers.iter().zip(data.chunks_exact(data.len() / numbers.len())) {
        match calls.put(card, map, &mut record, *number, block, choice, left) {
            Answer::Done(m) => {
                left = left.saturating_sub(m);
                stores += m;
            }
            other => return Ok(other),
        }
    }
    Ok(match calls.finish(card, map, &mut record, left) {
        Answer::Done(m) => Answer::Done(stores + m),
        other => other,
    })
}

/// A finish, and what the row takes of it.
pub fn finish(pair: &mut Pair, allowance: u64, row: &mut Row) -> Result<Answer, String> {
    let answer = pair.finish(allowance)?;
    let [of_commit, puts] = row.finish(pair.record(), answer)?;
    pair.count_pending(&held(&[
        (Pending::OfCutCommit, of_commit > 0 && puts == 0),
        (Pending::OfCutCommitAndPuts, of_commit > 0 && puts > 0),
    ]));
    Ok(answer)
}

/// The record that is made by hand from what stands on the card: Tail and the window's length, whatever the entries are.
pub fn by_hand(at: &Snapshot) -> Vec<u64> {
    Card::open(&at.card, None).map_or(at.record.clone(), |card| vec![card.tail, card.window.len() as u64])
}

/// Evicts until so many data blocks are free.
pub fn make_room(pair: &mut Pair, free: usize) -> Result<(), String> {
    loop {
        let card = Card::open_settled(pair.card(), None).map_err(|number| format!("a recovered card is refused with {number}"))?;
        if card.free_blocks().len() >= free {
            return Ok(());
        }
        let victim = card.in_use().next().map(|entry| entry.number).ok_or("nothing to evict")?;
        done(pair.evict(victim, Pick::Zeros, u64::MAX)?)?;
    }
}

/// A save of two blocks, one of them cached if any is, on a settled card.
pub fn fresh_save(pair: &mut Pair, geometry: Geometry, row: &mut Row) -> Result<(), String> {
    make_room(pair, 2)?;
    let card = Card::open_settled(pair.card(), None).map_err(|number| format!("a card is refused with {number}"))?;
    let cached = card.in_use().next().map_or(0, |entry| entry.number);
    let numbers = [cached, (0..geometry.disk_blocks).rev().find(|number| *number != cached).unwrap_or(cached)];
    make_in_full(pair, geometry, &Step::Open, row)?;
    for number in &numbers[..if numbers[0] == numbers[1] { 1 } else { 2 }] {
        make_in_full(pair, geometry, &Step::Put(*number, mix(*number)), row)?;
    }
    make_in_full(pair, geometry, &Step::Finish, row).map(drop)
}

/// One put with the station's record: refused with 18 exactly where the record is not the card's, and made where nothing is against it. Where
/// it is made, the save is finished.
fn put_then(pair: &mut Pair, geometry: Geometry, blocks: u64, number: u64, row: &mut Row) -> Result<bool, String> {
    let card = Card::open(pair.card(), None).map_err(|number| format!("a card of a history is refused with {number}"))?;
    let fits = card.record().is_some_and(|record| record == pair.record());
    let free = !card.free_blocks().is_empty() && card.window.len() as u64 + 1 < geometry.slots && !card.window.contains(&number);
    let data = data_of(number ^ 99, 1, geometry.block());
    let answer = pair.put(number, &data, Pick::Ones, u64::MAX)?;
    row.put(number, &data, answer);
    let awaited = match (fits, answer) {
        (false, _) => answer == Answer::Refused(18),
        (true, Answer::Done(_)) => free,
        _ => !free && answer != Answer::Refused(18),
    };
    if !awaited {
        return Err(format!("put of block {number}, record of the card {fits}, room for it {free}: {answer:?}"));
    }
    if let Answer::Done(_) = answer {
        done(finish(pair, u64::MAX, row)?)?;
        all_hold(pair, blocks, row)?;
    }
    Ok(matches!(answer, Answer::Done(_)))
}

/// A finish with the station's record, once more behind it, and one of an empty save.
fn finish_then(pair: &mut Pair, blocks: u64, row: &mut Row) -> Result<(), String> {
    let awaited = match record_of(pair.card()) {
        Some([_, 0]) if pair.record() == [pair.record()[0], 0] => Answer::Refused(8),
        Some(right) if right == pair.record() => Answer::Done(right[1] + 1),
        _ => Answer::Refused(18),
    };
    let answer = finish(pair, u64::MAX, row)?;
    if answer != awaited {
        return Err(format!("finish: {answer:?}, and {awaited:?} was expected"));
    }
    let Answer::Done(_) = answer else { return Ok(()) };
    all_hold(pair, blocks, row)?;
    let again = finish(pair, u64::MAX, row)?;
    pair.open()?;
    let empty = finish(pair, u64::MAX, row)?;
    if [again, empty] != [Answer::Refused(18), Answer::Refused(8)] {
        return Err(format!("a second finish: {again:?}; one of an empty save: {empty:?}"));
    }
    all_hold(pair, blocks, row)
}

/// After a recovery that is cut at each of its stores, a put with the old record.
fn recover_then(pair: &mut Pair, geometry: Geometry, blocks: u64, number: u64, row: &Row) -> Result<(), String> {
    let left = pair.snapshot();
    let stores = done(pair.recover(u64::MAX)?)?;
    for allowance in 0..stores {
        pair.set(&left);
        let mut row = row.clone();
        let answer = pair.recover(allowance)?;
        row.recover(answer);
        let goes_on = put_then(pair, geometry, blocks, number, &mut row)?;
        pair.count_pending(&held(&[(Pending::GoesOnAfterRecovery, goes_on && allowance > 0)]));
    }
    Ok(())
}

/// The ways on from what a put or a finish left, each from there: another put with its record, one of the same block, a finish, and a put after
/// a recovery that is cut. The card is then set back.
pub fn ways_on(pair: &mut Pair, geometry: Geometry, blocks: u64, step: &Step, row: &Row) -> Result<(), String> {
    let number = match step {
        Step::Put(number, _) => *number,
        Step::Finish => 0,
        _ => return Ok(()),
    };
    let left = pair.snapshot();
    for next in [number, (number + 1) % blocks] {
        put_then(pair, geometry, blocks, next, &mut row.clone())?;
        pair.set(&left);
    }
    finish_then(pair, blocks, &mut row.clone())?;
    pair.set(&left);
    recover_then(pair, geometry, blocks, (number + 1) % blocks, row)?;
    pair.set(&left);
    Ok(())
}

/// Saves over clean, modified and uncached blocks, round the ring, with commits, loads and evicts between them.
pub fn pending_script() -> Vec<Step> {
    use Step::*;
    vec![
        Open,
        Put(3, 41),
        Finish,
        Load(1),
        Open,
        Put(1, 42),
        Put(3, 43),
        Finish,
        Commit(vec![0], 44),
        Open,
        Put(0, 45),
        Finish,
        Evict(1),
        Open,
        Put(5, 46),
        Put(3, 47),
        Finish,
        Evict(0),
        Evict(3),
        Load(3),
        Open,
        Put(3, 48),
        Put(2, 49),
        Finish,
    ]
}

/// The same on a card with more data blocks: saves of up to three, and the first block of one in an entry behind that of the next.
pub fn wide_pending_script() -> Vec<Step> {
    use Step::*;
    vec![
        Load(7),
        Load(4),
        Commit(vec![6, 2], 51),
        Evict(7),
        Open,
        Put(6, 52),
        Put(0, 53),
        Put(4, 54),
        Finish,
        Room(vec![1, 6], 55),
        Open,
        Put(2, 56),
        Put(5, 57),
        Finish,
    ]
}

/// Part l: a save of as many blocks as the ring takes, from each slot on; at every count a put more or less, and the finish.
pub fn full_windows<'a>(one: &'a dyn Calls, other: &'a dyn Calls, geometry: Geometry) -> Result<Tally, String> {
    let seed = 37;
    let mut pair = Pair::new(one, other, &vec![0; geometry.card_length()], &first_disk(seed, geometry), 5);
    let mut row = Row::new(seed, geometry);
    done(pair.format(geometry.k, geometry.slots, geometry.data_blocks, geometry.disk_blocks)?)?;
    for save in 0..geometry.slots {
        make_in_full(&mut pair, geometry, &Step::Open, &mut row)?;
        for count in 0..geometry.slots {
            let left = pair.snapshot();
            finish_then(&mut pair, geometry.disk_blocks, &mut row.clone())?;
            pair.set(&left);
            let number = (save + count) % geometry.slots;
            let (data, pick) = (data_of(mix(save) ^ count, 1, geometry.block()), PICKS[count as usize % PICKS.len()]);
            let answer = pair.put(number, &data, pick, u64::MAX)?;
            row.put(number, &data, answer);
            if (answer == Answer::Refused(8)) != (count == geometry.slots - 1) {
                return Err(format!("put at count {count}: {answer:?}"));
            }
        }
        done(finish(&mut pair, u64::MAX, &mut row)?)?;
        all_hold(&mut pair, geometry.disk_blocks, &row)?;
        make_room(&mut pair, geometry.slots as usize)?;
        // the next save begins at another slot
        make_in_full(&mut pair, geometry, &Step::Commit(vec![save], save), &mut row)?;
    }
    Ok(pair.tally)
}

/// The record that one call of a history is given: mostly the station's, at times one made by hand, at times a wrong one.
fn lend_record(pair: &mut Pair, random: &mut Random) {
    let Ok(card) = Card::open(pair.card(), None) else { return };
    let right = [card.tail, card.window.len() as u64];
    let turn = random.below(1 << 12) as usize;
    match random.below(10) {
        0..=2 => pair.set_record(&right),
        3 => {
            let stale = pair.record().to_vec();
            let ring = Ring { right, stale: &stale, slots: card.geometry.slots, head: card.head };
            pair.set_record(&WRONG_RECORDS[turn % WRONG_RECORDS.len()].record(turn, ring));
        }
        _ => {}
    }
}

/// An open, a put or a finish of a history, with any record. A station that is refused goes on with its own.
pub fn some_pending(pair: &mut Pair, random: &mut Random, geometry: Geometry, pick: Pick, row: &mut Row) -> Result<(), String> {
    let (own, block) = (pair.record().to_vec(), geometry.block());
    let answer = match random.below(8) {
        0 | 1 => {
            row.open();
            pair.open()?;
            return Ok(());
        }
        2..=5 => {
            lend_record(pair, random);
            let number = if random.once_in(30) { geometry.disk_blocks } else { some_number(random, geometry) };
            let data = data_of(random.next(), 1, if random.once_in(30) { block + 1 } else { block });
            let allowance = if random.once_in(4) { random.below(block as u64 / 8 + 4) } else { u64::MAX };
            let answer = pair.put(number, &data, pick, allowance)?;
            row.put(number, &data, answer);
            answer
        }
        _ => {
            lend_record(pair, random);
            let allowance = if random.once_in(4) { random.below(4) } else { u64::MAX };
            finish(pair, allowance, row)?
        }
    };
    if !matches!(answer, Answer::Done(_)) {
        pair.set_record(&own);
    }
    Ok(())
}

/// A commit of either kind that is cut at a block's end, in the words of the next block, or behind its entry; mostly a record is then made by
/// hand for it.
fn cut_commit(pair: &mut Pair, random: &mut Random, geometry: Geometry, row: &mut Row) -> Result<(), String> {
    let most = (geometry.slots - 1).min(geometry.data_blocks).min(geometry.disk_blocks);
    let (n, first, words) = (1 + random.below(most.min(3)), random.below(geometry.disk_blocks), geometry.block() as u64 / 8);
    let numbers: Vec<u64> = (0..n).map(|i| (first + i) % geometry.disk_blocks).collect();
    let data = data_of(random.next(), n as usize, geometry.block());
    let behind = random.pick(&[0, 0, 0, 1, words / 2, words - 1, words, words + 1]);
    let (allowance, pick) = ((words + 3) * random.below(n + 1) + behind, random.pick(&PICKS));
    let answer = match random.once_in(2) {
        true => pair.commit_making_room(&numbers, &data, pick, allowance)?,
        false => pair.commit(&numbers, &data, pick, allowance)?,
    };
    row.feed(&numbers, &data, answer);
    if answer == Answer::Cut && !random.once_in(4) {
        pair.set_record(&by_hand(&pair.snapshot()));
    }
    Ok(())
}

/// Part k: a random history with a pending save in it most of the time; the rule is asked after each call.
pub fn pending_history<'a>(
    one: &'a dyn Calls,
    other: &'a dyn Calls,
    geometry: Geometry,
    calls: u64,
    seed: u64,
    reckoning: Reckoning,
) -> Result<Tally, String> {
    let mut random = Random(mix(seed));
    let mut pair = Pair::new(one, other, &vec![0; geometry.card_length()], &first_disk(seed, geometry), (seed % 8) as usize);
    let mut row = Row::new(seed, geometry);
    row.reckoning = reckoning;
    done(pair.format(geometry.k, geometry.slots, geometry.data_blocks, geometry.disk_blocks)?)?;
    for _ in 0..calls {
        let (number, pick) = (some_number(&mut random, geometry), random.pick(&PICKS));
        match random.below(16) {
            0 if random.once_in(2) => some_recoveries(&mut pair, &mut random, &mut row)?,
            0 => {
                let answer = pair.recover(random.pick(&[0, 1, 2, u64::MAX, u64::MAX]))?;
                row.recover(answer);
            }
            1 => drop(pair.load(number, pick, u64::MAX)?),
            2 | 3 => drop(pair.evict(number, pick, u64::MAX)?),
            4 | 5 => cut_commit(&mut pair, &mut random, geometry, &mut row)?,
            _ => some_pending(&mut pair, &mut random, geometry, pick, &mut row)?,
        }
        keeps_rule(&mut pair, geometry, &row)?;
    }
    Ok(pair.tally)
}

/// Open, put and finish on one card, which may be damaged, with the record that fits best.
pub fn every_pending_call(pair: &mut Pair, random: &mut Random, geometry: Geometry, number: u64, from: &Snapshot) -> Result<(), String> {
    let block = geometry.block();
    let finishing = |random: &mut Random| if random.once_in(3) { random.below(3) } else { u64::MAX };
    pair.set(from);
    pair.open()?;
    pair.set_record(&by_hand(from));
    let allowance = if random.once_in(3) { random.below(block as u64 / 8 + 4) } else { u64::MAX };
    pair.put(number, &data_of(random.next(), 1, block), random.pick(&PICKS), allowance)?;
    pair.finish(finishing(random))?;
    pair.set(from);
    pair.set_record(&by_hand(from));
    pair.finish(finishing(random))?;
    pair.set(from);
    Ok(())
}

/// What an entry of a card that no history makes is drawn from.
struct Draw {
    /// Data blocks not yet a current block, and those not yet a settled one.
    currents: Vec<u32>,
    settled: Vec<u32>,
    /// The current blocks of the undoable entries so far.
    logged: Vec<u32>,
}

impl Draw {
    fn new(random: &mut Random, data_blocks: u64) -> Draw {
        let mut currents: Vec<u32> = (0..data_blocks as u32).collect();
        (1..currents.len()).for_each(|place| currents.swap(place, random.below(place as u64 + 1) as usize));
        Draw { settled: currents.clone(), currents, logged: Vec::new() }
    }

    /// The previous block of an undoable entry: none, the current block of another one, or any that is no entry's settled block.
    fn previous(&mut self, random: &mut Random) -> Option<u32> {
        let chained = self.logged.iter().copied().find(|block| self.settled.contains(block));
        let block = match (random.below(3), chained) {
            (0, _) => return None,
            (1, Some(block)) => block,
            _ => random.pick(&self.settled),
        };
        self.settled.retain(|one| *one != block);
        Some(block)
    }

    /// An undoable entry, or one that is not; none where the data blocks do not suffice.
    fn entry(&mut self, random: &mut Random, number: u64, undoable: bool, log_role: bool, version: u8) -> Option<Entry> {
        let fits = |block: &u32| undoable || self.settled.contains(block);
        let current = self.currents.iter().copied().find(fits)?;
        self.currents.retain(|block| *block != current);
        let previous = match undoable {
            true if self.settled.is_empty() => None,
            true => self.previous(random),
            false => {
                self.settled.retain(|block| *block != current);
                if random.once_in(2) { None } else { Some(current) }
            }
        };
        if undoable {
            self.logged.push(current);
        }
        let modified = log_role || random.once_in(2);
        let previous_modified = modified && version != OLD && random.once_in(2);
        Some(Entry { previous_modified, modified, log_role, number, previous, current })
    }
}

/// An unsettled card drawn at random that checks 4 to 6 let pass: mostly its entries with R and its window's numbers are the same; at times a
/// number stands twice in the window or has no entry with R, or such an entry is outside of it.
pub fn odd_card(random: &mut Random, geometry: Geometry) -> Snapshot {
    let (s, n, d) = (geometry.slots, geometry.data_blocks, geometry.disk_blocks);
    let mut card = vec![0; geometry.card_length()];
    random.fill(&mut card);
    let version = random.pick(&[OLD, NOW, NOW, NOW]);
    put(&mut card, 0, &geometry.header(version));
    let (tail, length) = (random.below(s), random.below((s - 1).min(d).min(n / 2 + 1) + 1));
    put(&mut card, 64, &((tail + length) % s).to_be_bytes());
    put(&mut card, 72, &tail.to_be_bytes());
    let first = random.below(d);
    let mut window: Vec<u64> = (0..length).map(|i| (first + i) % d).collect();
    if let (true, [other, .., last]) = (random.once_in(6), &mut window[..]) {
        *last = *other;
    }
    for (i, number) in (0..).zip(&window) {
        put(&mut card, geometry.slot_at((tail + i) % s), &number.to_be_bytes());
    }
    let (mut draw, mut entries) = (Draw::new(random, n), Vec::new());
    let without = random.below(6 * s);
    for (i, number) in (0..d).map(|i| (i, (first + i) % d)).take(n as usize) {
        let in_window = window.contains(&number);
        let log_role = (in_window && i != without) || (!in_window && random.once_in(24));
        if in_window && !log_role && random.once_in(2) || (!in_window && !log_role && random.once_in(3)) {
            continue;
        }
        entries.push(draw.entry(random, number, in_window || log_role, log_role, version));
    }
    entries.resize(n as usize, None);
    (1..entries.len()).for_each(|place| entries.swap(place, random.below(place as u64 + 1) as usize));
    for (index, entry) in entries.iter().enumerate() {
        put(&mut card, geometry.entry_at(index), &write_entry(*entry));
    }
    Snapshot::new(card, first_disk(random.next(), geometry), ascending())
}

/// Part m: put, finish and recover on cards that no history makes, with the record that fits best.
pub fn odd_cards<'a>(one: &'a dyn Calls, other: &'a dyn Calls, geometry: Geometry, cards: u64, seed: u64) -> Result<Tally, String> {
    let mut random = Random(mix(seed));
    let mut pair = Pair::new(one, other, &[], &[], (seed % 8) as usize);
    for _ in 0..cards {
        let from = odd_card(&mut random, geometry);
        let number = random.below(geometry.disk_blocks);
        every_pending_call(&mut pair, &mut random, geometry, number, &from)?;
        pair.make_map()?;
        pair.recover(if random.once_in(3) { random.below(4) } else { u64::MAX })?;
        pair.recover(u64::MAX)?;
    }
    Ok(pair.tally)
}

#[cfg(test)]
mod tests {
    use super::*;
    use crate::drive::{every_cut, script, WRONG_RECKONINGS};
    use crate::ffi::Library;
    use crate::model::{map_of, Model, Slip};

    const SMALL: Geometry = Geometry { k: 9, slots: 8, data_blocks: 4, disk_blocks: 6 };
    const WIDE: Geometry = Geometry { data_blocks: 8, disk_blocks: 16, ..SMALL };
    const ZEROS: &[u8] = &[0; 64];

    const EACH: [&dyn Calls; 2] = [&Model::NOW, &Library];

    /// A station with a pending save on a fresh card over a disk of nines.
    struct Station<'c> {
        calls: &'c dyn Calls,
        card: Vec<u8>,
        map: [u64; 2],
        record: [u64; 2],
    }

    impl Station<'_> {
        fn new(calls: &dyn Calls, geometry: Geometry) -> Station<'_> {
            let mut card = vec![0; geometry.card_length()];
            calls.format(geometry.k, geometry.slots, geometry.data_blocks, geometry.disk_blocks, &mut card);
            let map = calls.fresh_map(&card);
            Station { calls, card, map, record: [0; 2] }
        }

        fn load(&mut self, geometry: Geometry, block: u64) {
            let disk = vec![9; geometry.disk_length()];
            let answer = self.calls.load(&mut self.card, &disk, &mut self.map, &mut ascending(), block, ZEROS, u64::MAX);
            assert_eq!(answer, Answer::Done(65));
        }

        fn open(&mut self) -> [u64; 2] {
            let Opened::Open(record) = self.calls.open(&self.card) else { panic!("not opened") };
            self.record = record;
            record
        }

        fn put(&mut self, block: u64, byte: u8, allowance: u64) -> Answer {
            self.calls.put(&mut self.card, &mut self.map, &mut self.record, block, &[byte; 512], ZEROS, allowance)
        }

        fn finish(&mut self, allowance: u64) -> Answer {
            self.calls.finish(&mut self.card, &mut self.map, &mut self.record, allowance)
        }

        /// The first eight bytes of an entry as a number, its previous and its current block.
        fn entry(&self, index: usize) -> (u64, u32, u32) {
            let at = SMALL.entry_at(index);
            let number = |from: usize| u32::from_be_bytes(self.card[at + from..at + from + 4].try_into().unwrap());
            (u64::from(number(0)) << 32 | u64::from(number(4)), number(8), number(12))
        }

        /// Head, Tail and the first slots.
        fn ring(&self) -> [u8; 5] {
            [71, 79, 135, 143, 151].map(|at| self.card[at])
        }

        /// The taken ones of four data blocks.
        fn taken(&self) -> u64 {
            assert_eq!((self.map[0] >> 4, self.map[1]), (u64::MAX >> 4, u64::MAX));
            self.map[0] & 15
        }
    }

    const FRESH: u32 = u32::MAX;
    const LOGGED: u64 = 0x83 << 56;
    const LOGGED_OVER: u64 = 0x87 << 56;
    const SAVED: u64 = 0x82 << 56;
    const SAVED_OVER: u64 = 0x86 << 56;

    /// By hand from documents 01 and 02, N 4 and k 9: a put is 64 words, entry, slot and Head, a finish a role switch for each block and Tail.
    #[test]
    fn saves_by_hand() {
        for calls in EACH {
            let mut at = Station::new(calls, SMALL);
            assert_eq!((at.open(), at.finish(u64::MAX)), ([0, 0], Answer::Refused(8)));
            assert_eq!((at.put(3, 7, u64::MAX), at.record, at.taken()), (Answer::Done(67), [0, 1], 0b0001));
            assert_eq!((at.entry(0), at.ring()), ((LOGGED | 3, FRESH, 0), [1, 0, 3, 0, 0]));
            assert_eq!((calls.open(&at.card), at.put(3, 8, u64::MAX)), (Opened::Refused(7), Answer::Refused(11)));
            assert_eq!((at.put(5, 8, u64::MAX), at.record, at.taken()), (Answer::Done(67), [0, 2], 0b0011));
            assert_eq!((at.entry(1), at.ring()), ((LOGGED | 5, FRESH, 1), [2, 0, 3, 5, 0]));
            assert_eq!((at.finish(u64::MAX), at.record, at.taken()), (Answer::Done(3), [0, 2], 0b0011));
            assert_eq!((at.entry(0), at.entry(1), at.ring()), ((SAVED | 3, FRESH, 0), (SAVED | 5, FRESH, 1), [2, 2, 3, 5, 0]));
            assert_eq!(at.finish(u64::MAX), Answer::Refused(18));
            // from Tail 2, also when Head is 3; what they save over stays taken until the finish
            assert_eq!((at.open(), at.put(5, 6, u64::MAX), at.taken()), ([2, 0], Answer::Done(67), 0b0111));
            assert_eq!((at.entry(1), at.put(3, 6, u64::MAX), at.taken()), ((LOGGED_OVER | 5, 1, 2), Answer::Done(67), 0b1111));
            assert_eq!((at.entry(0), at.put(0, 6, u64::MAX), at.record), ((LOGGED_OVER | 3, 0, 3), Answer::Refused(14), [2, 2]));
            assert_eq!((at.finish(u64::MAX), at.taken()), (Answer::Done(3), 0b1100));
            assert_eq!((at.entry(0), at.entry(1)), ((SAVED_OVER | 3, 0, 3), (SAVED_OVER | 5, 1, 2)));
            // from Tail 4, that is 0: block 0 and entry 2; the data block of 3, which a first put saves over, is not given out
            assert_eq!((at.open(), at.put(3, 5, u64::MAX), at.put(0, 5, u64::MAX)), ([4, 0], Answer::Done(67), Answer::Done(67)));
            assert_eq!((at.entry(0), at.entry(2), at.taken()), ((LOGGED_OVER | 3, 3, 0), (LOGGED, FRESH, 1), 0b1111));
        }
    }

    /// By hand, N 8: the first put takes data block and entry 2; the next ones still search from Tail 2, not from Head.
    #[test]
    fn searches_from_tail() {
        for calls in EACH {
            let geometry = Geometry { data_blocks: 8, ..SMALL };
            let mut at = Station::new(calls, geometry);
            (0..2).for_each(|block| at.load(geometry, block));
            let mut table = ascending();
            let mut disk = vec![9; geometry.disk_length()];
            at.open();
            (0..2).for_each(|block| assert_eq!(at.put(block, 1, u64::MAX), Answer::Done(67)));
            assert_eq!(at.finish(u64::MAX), Answer::Done(3));
            // Tail 2; the blocks are in data blocks 2 and 3, entries 0 and 1
            for block in 0..2 {
                assert_eq!(calls.evict(&mut at.card, &mut disk, &mut at.map, block, ZEROS, u64::MAX), Answer::Done(2));
            }
            assert_eq!(at.open(), [2, 0]);
            (0..4).for_each(|block| assert_eq!(at.put(block, 2, u64::MAX), Answer::Done(67)));
            assert_eq!((2..6).map(|index| at.entry(index).2).collect::<Vec<u32>>(), [2, 3, 4, 5]);
            assert_eq!(at.finish(u64::MAX), Answer::Done(5));
            assert_eq!(calls.evict(&mut at.card, &mut disk, &mut at.map, 0, ZEROS, u64::MAX), Answer::Done(2));
            // Tail 6: 6 and 7, and round to 0; Head is 7, and then 0
            at.open();
            for (block, home) in [(4, 6), (5, 7), (0, 0)] {
                assert_eq!(at.put(block, 3, u64::MAX), Answer::Done(67));
                assert_eq!(Card::open(&at.card, None).unwrap().entry_for(block), Some(home));
            }
            assert!(calls.read(&at.card, &disk, &mut table, 0, &mut [0; 512]) == crate::Place::Refused(7));
        }
    }

    /// By hand: cut, record and map stay; the save goes on where the entry was not stored, else it is 18 and needs a recovery.
    #[test]
    fn cuts_by_hand() {
        for calls in EACH {
            let mut base = Station::new(calls, SMALL);
            base.open();
            base.put(3, 7, u64::MAX);
            for (allowance, again) in [(0, Answer::Done(67)), (64, Answer::Done(67)), (65, Answer::Refused(18)), (66, Answer::Refused(18))] {
                let mut at = Station { card: base.card.clone(), ..base };
                assert_eq!((at.put(5, 8, allowance), at.record, at.map), (Answer::Cut, [0, 1], base.map));
                at.map = calls.fresh_map(&at.card);
                assert_eq!((at.put(5, 8, u64::MAX), at.record[1]), (again, if again == Answer::Done(67) { 2 } else { 1 }));
                let finish = if again == Answer::Done(67) { Answer::Done(3) } else { Answer::Refused(18) };
                assert_eq!(at.finish(u64::MAX), finish);
            }
            for (allowance, again) in [(0, Answer::Done(2)), (1, Answer::Refused(18))] {
                let mut at = Station { card: base.card.clone(), ..base };
                assert_eq!((at.finish(allowance), at.record, at.map), (Answer::Cut, [0, 1], base.map));
                at.map = calls.fresh_map(&at.card);
                assert_eq!(at.finish(u64::MAX), again);
            }
        }
    }

    /// By hand: a commit of three blocks that is cut after two is a pending save of two, to be put to and finished; cut behind the third's
    /// entry it is 18.
    #[test]
    fn a_record_made_by_hand() {
        for calls in EACH {
            for (allowance, answer) in [(134, Answer::Done(67)), (135, Answer::Done(67)), (198, Answer::Done(67)), (199, Answer::Refused(18))] {
                let mut at = Station::new(calls, WIDE);
                let answered = calls.commit(&mut at.card, &mut at.map, &[3, 5, 1], &[7; 1536], &[1; 64], allowance);
                assert_eq!(answered, Answer::Cut);
                at.map = calls.fresh_map(&at.card);
                for wrong in [[0, 1], [0, 3], [1, 2], [2, 0]] {
                    at.record = wrong;
                    assert_eq!((at.put(4, 6, u64::MAX), at.finish(u64::MAX)), (Answer::Refused(18), Answer::Refused(18)), "{wrong:?}");
                }
                at.record = [0, 2];
                assert_eq!(at.put(5, 6, u64::MAX), if answer == Answer::Done(67) { Answer::Refused(11) } else { answer });
                assert_eq!(at.put(4, 6, u64::MAX), answer);
                assert_eq!(at.finish(u64::MAX), if answer == Answer::Done(67) { Answer::Done(4) } else { Answer::Refused(18) });
            }
        }
    }

    /// A card with none free and the window full: 8 loaded, then 0 to 6 put.
    fn full(calls: &dyn Calls) -> Station<'_> {
        let mut at = Station::new(calls, WIDE);
        at.load(WIDE, 8);
        at.open();
        (0..7).for_each(|block| assert_eq!(at.put(block, 1, u64::MAX), Answer::Done(67)));
        at
    }

    /// Every set of faults of a put: the first of 18 15 8 9 17 10 11 14 is told, whatever the allowance, and nothing changes.
    #[test]
    fn refusals_of_a_put_in_their_order() {
        for calls in EACH {
            let (mut some, full, mut none) = (Station::new(calls, WIDE), full(calls), Station::new(calls, WIDE));
            (8..15).for_each(|block| none.load(WIDE, block));
            for at in [&mut some, &mut none] {
                at.open();
                assert_eq!(at.put(0, 1, u64::MAX), Answer::Done(67));
            }
            for (base, own) in [(&some, &[][..]), (&none, &[14]), (&full, &[8, 14])] {
                for (faults, number) in (0..16).flat_map(|faults| [7, 16, 0].map(|number| (faults, number))) {
                    let holds = |asked: u32| match asked {
                        10 => number == 16,
                        11 => number == 0,
                        _ => own.contains(&asked) || [18, 15, 9, 17].iter().position(|one| *one == asked).is_some_and(|bit| faults >> bit & 1 == 1),
                    };
                    let awaited = [18, 15, 8, 9, 17, 10, 11, 14].into_iter().find(|asked| holds(*asked));
                    let mut record = [base.record[0], base.record[1] ^ (u64::from(holds(18)) << 40)];
                    let mut map = [base.map[0] ^ u64::from(holds(15)), base.map[1]];
                    let (data, choice) = (vec![1; 512 - usize::from(holds(9))], vec![2 * u8::from(holds(17)); 64]);
                    let (mut card, lent) = (base.card.clone(), (record, map));
                    let answer = calls.put(&mut card, &mut map, &mut record, number, &data, &choice, 0);
                    assert_eq!(answer, awaited.map_or(Answer::Cut, Answer::Refused), "{faults} {number} {own:?}");
                    assert_eq!((card, record, map), (base.card.clone(), lent.0, lent.1));
                }
            }
        }
    }

    /// The same of a finish, 18 15 8; and of lengths: a map that is not of two words is 15, a record 18.
    #[test]
    fn refusals_of_a_finish_in_their_order() {
        for calls in EACH {
            let (empty, full) = (Station::new(calls, WIDE), full(calls));
            let words = |words: [u64; 2], length: usize| [words[0], words[1], 0][..length].to_vec();
            for (base, at_eight) in [(&empty, Answer::Refused(8)), (&full, Answer::Cut)] {
                for (map_words, record_words) in (0..4).flat_map(|map| (0..4).map(move |record| (map, record))) {
                    let (mut map, mut record) = (words(base.map, map_words), words(base.record, record_words));
                    let awaited = match (map_words, record_words) {
                        (2, 2) => at_eight,
                        (_, 2) => Answer::Refused(15),
                        _ => Answer::Refused(18),
                    };
                    let mut card = base.card.clone();
                    assert_eq!(calls.finish(&mut card, &mut map, &mut record, 0), awaited, "{map_words} {record_words}");
                    let put = match (awaited, at_eight) {
                        (Answer::Cut, _) => Answer::Refused(8),
                        (Answer::Refused(8), _) => Answer::Cut,
                        _ => awaited,
                    };
                    assert_eq!(calls.put(&mut card, &mut map, &mut record, 9, &[1; 512], ZEROS, 0), put);
                    assert_eq!(card, base.card);
                }
            }
            let mut at = full;
            assert_eq!((at.put(9, 1, u64::MAX), at.finish(u64::MAX)), (Answer::Refused(8), Answer::Done(8)));
        }
    }

    /// By hand, N 4: two entries with R, the current block of the one the previous block of the other. A finish frees the block that is none's
    /// any more, and a recovery the other.
    #[test]
    fn a_chain_by_hand() {
        for calls in EACH {
            for places in [[0, 1], [1, 0]] {
                let mut at = Station::new(calls, SMALL);
                put(&mut at.card, 64, &2u64.to_be_bytes());
                put(&mut at.card, 128, &[5u64.to_be_bytes(), 3u64.to_be_bytes()].concat());
                for (place, number, previous, current) in [(places[0], 3, 2, 1), (places[1], 5, 1, 0)] {
                    let entry = Entry { previous_modified: true, modified: true, log_role: true, number, previous: Some(previous), current };
                    put(&mut at.card, SMALL.entry_at(place), &write_entry(Some(entry)));
                }
                at.map = calls.fresh_map(&at.card);
                assert_eq!(at.taken(), 0b0111);
                let mut recovered = Station { card: at.card.clone(), ..at };
                at.record = [0, 2];
                assert_eq!((at.finish(u64::MAX), at.taken()), (Answer::Done(3), 0b0011));
                assert_eq!(calls.recover(&mut recovered.card, &mut recovered.map, u64::MAX), Answer::Done(3));
                assert_eq!(recovered.taken(), 0b0110);
            }
        }
    }

    /// A station of before has these calls on its own cards; today's refuse them with 1, and recover by the old rule.
    #[test]
    fn pending_saves_of_before() {
        let (old, today) = (Model::old(), Model::default());
        let mut at = Station::new(&old, SMALL);
        at.open();
        assert_eq!((at.put(3, 7, u64::MAX), at.finish(u64::MAX)), (Answer::Done(67), Answer::Done(2)));
        at.open();
        assert_eq!((at.put(3, 8, u64::MAX), at.entry(0)), (Answer::Done(67), (LOGGED | 3, 0, 1)));
        let (card, map, record) = (at.card.clone(), at.map, at.record);
        for calls in EACH {
            let mut at = Station { calls, card: card.clone(), map, record };
            assert_eq!((at.put(5, 8, u64::MAX), at.finish(u64::MAX)), (Answer::Refused(1), Answer::Refused(1)));
            assert_eq!((calls.open(&at.card), at.card == card, at.map, at.record), (Opened::Refused(1), true, map, record));
            assert_eq!(calls.recover(&mut at.card, &mut at.map, u64::MAX), Answer::Done(2));
            assert_eq!((at.entry(0), at.taken()), ((SAVED | 3, 0, 0), 0b0001));
            assert_eq!(calls.upgrade(&mut at.card, 1), Answer::Done(1));
            assert_eq!((at.open(), at.put(3, 8, u64::MAX), at.entry(0)), ([2, 0], Answer::Done(67), (LOGGED_OVER | 3, 0, 2)));
        }
        let mut new = Station::new(&today, SMALL);
        new.open();
        let mut at = Station { calls: &old, card: new.card, map: new.map, record: new.record };
        assert_eq!((at.put(5, 8, u64::MAX), at.finish(u64::MAX)), (Answer::Refused(1), Answer::Refused(1)));
        assert_eq!(old.open(&at.card), Opened::Refused(1));
    }

    /// A row that is reckoned otherwise is reported, with right models on both sides.
    #[test]
    fn a_wrong_row_is_reported() {
        let model = Model::default();
        for reckoning in WRONG_RECKONINGS {
            let seen = (0..20).any(|seed| pending_history(&model, &model, SMALL, 200, seed, reckoning).is_err());
            assert!(seen, "{reckoning:?}");
        }
    }

    /// The row and the laws see a wrong put or finish without a second model.
    #[test]
    fn the_histories_see_wrong_pending_saves() {
        for slip in [
            Slip::PreviousGivenOut,
            Slip::RecordAfterCut,
            Slip::RecordAfterRefusal,
            Slip::RecordStays,
            Slip::FinishWritesRecord,
            Slip::FinishTailEarly,
            Slip::TailUnasked,
            Slip::CountUnasked,
            Slip::RoleOutsideTaken,
            Slip::NoRoleTaken,
            Slip::LongRecordTaken,
            Slip::MapBeforeRecord,
            Slip::RecordAskedLast,
            Slip::EmptyFinished,
            Slip::OldMapAfterPut,
            Slip::OldMapAfterFinish,
            Slip::PutFreesPrevious,
            Slip::SwitchKeepsR,
            Slip::FreshAtSwitch,
        ] {
            let wrong = Model::wrong(slip);
            assert!(every_cut(&wrong, &wrong, SMALL, &pending_script(), 6, 32).is_err(), "{slip:?}");
        }
        let wrong = Model::wrong(Slip::FullWindowTaken);
        assert!(full_windows(&wrong, &wrong, Geometry { data_blocks: 16, disk_blocks: 16, ..SMALL }).is_err());
    }

    /// A commit shows where puts and a finish leave something else, without a second model. From Head a put finds another data block only where
    /// Head has gone round a ring whose length N does not divide.
    #[test]
    fn the_commit_sees_wrong_parts() {
        for slip in [
            Slip::PutFromHead,
            Slip::PutBlockFromHead,
            Slip::PutEntryFromHead,
            Slip::PutCountsCommit,
            Slip::FinishCountsSwitches,
            Slip::FinishTailEarly,
            Slip::CachedPutRefused,
        ] {
            let wrong = Model::wrong(slip);
            let seen = [4, 12].map(|data_blocks| {
                let geometry = Geometry { data_blocks, ..SMALL };
                every_cut(&wrong, &wrong, geometry, &script(), 6, 16).is_err_and(|error| error.contains("open, puts and finish leave"))
            });
            assert!(seen.contains(&true), "{slip:?}");
        }
    }

    /// Odd cards pass checks 4 to 6, and show all that 18 asks for.
    #[test]
    fn odd_cards_reach_what_they_should() {
        let mut random = Random(3);
        let (mut fits, mut chained, mut refused) = (0, 0, 0);
        for turn in 0..3000 {
            let at = odd_card(&mut random, if turn % 2 == 0 { SMALL } else { WIDE });
            let Ok(card) = Card::open(&at.card, None) else {
                refused += 1;
                continue;
            };
            fits += u64::from(card.record().is_some() && !card.settled());
            chained += u64::from(card.record().is_some() && is_chained(&card));
            assert_eq!(map_of(&at.card), card.map());
        }
        assert!(fits > 1000 && chained > 200 && refused == 0, "{fits} {chained} {refused}");
        assert!(PENDING.iter().enumerate().all(|(index, case)| *case as usize == index));
    }

    /// Every step of both scripts is done, and with the ways on from their cuts they come upon nearly all that a pending save can.
    #[test]
    fn the_scripts_reach_what_they_should() {
        let model = Model::default();
        let mut tally = every_cut(&model, &model, SMALL, &pending_script(), 6, 64).unwrap();
        tally.add(&every_cut(&model, &model, WIDE, &wide_pending_script(), 8, 64).unwrap());
        let elsewhere = [
            Pending::FinishedFull,
            Pending::OfCutCommit,
            Pending::OfCutCommitAndPuts,
            Pending::FinishedChain,
            Pending::RecoveredChain,
            Pending::Twice,
            Pending::Others,
        ];
        for case in PENDING.iter().filter(|case| !elsewhere.contains(case)) {
            assert!(tally.pending[*case as usize] > 0, "{case:?}");
        }
    }
}
