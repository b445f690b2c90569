//! Two implementations side by side: each call is made on both, then the answers and every byte of card, disk, output, map and table are
//! compared. Map, table and record are handed on as a station does, and the calls that take one are also tried with wrong ones; so are those
//! that take a choice. A preview is held to the commits of the same numbers and data, a commit to the puts and the finish that it is made of,
//! a commit that makes room to evicts besides, and recoveries to their bound and to the one that two of them make up.

use crate::bounded::{in_two, leaves_nothing, Bound, Recoveries, Storing};
use crate::choices::{Pick, PICKS, WRONG_CHOICES};
use crate::model::{
    ascending, commit_stores, cut_run, in_order, map_of, record_of, zeros, Card, Model, Run, MAP_BITS, NOW, OLD, TABLE, VERSION_AT,
};
use crate::pending::{
    every_pending_call, finish, finish_cases, fresh_save, in_parts, put_cases, recover_cases, some_pending, ways_on, Pending, PENDING,
};
use crate::random::{mix, Random};
use crate::records::{Ring, WRONG_RECORDS};
use crate::room::{cases, evicted, in_a_row, keeps_law, CASES};
use crate::series::some_recoveries;
use crate::tables::{WrongTable, ORDERS, WRONG_TABLES};
use crate::versions::{odd_flag, odd_version, Owed, ODD_FLAGS, OVERS, VERSIONS};
use crate::{Answer, Cached, Calls, FreeMap, Geometry, Opened, Place, State};
use std::collections::HashMap;

pub const CALLS: [&str; 17] = [
    "format",
    "commit",
    "room-making commit",
    "preview",
    "load",
    "evict",
    "recover",
    "open",
    "put",
    "finish",
    "upgrade",
    "read",
    "look",
    "state",
    "cached",
    "make map",
    "free count",
];

/// The places of the calls in `CALLS`.
const FORMAT: usize = 0;
const COMMIT: usize = 1;
const ROOM: usize = 2;
const PREVIEW: usize = 3;
const LOAD: usize = 4;
const EVICT: usize = 5;
const RECOVER: usize = 6;
const OPEN: usize = 7;
const PUT: usize = 8;
const FINISH: usize = 9;
const UPGRADE: usize = 10;
const READ: usize = 11;
const LOOK: usize = 12;
const STATE: usize = 13;
const CACHED: usize = 14;
const MAKE_MAP: usize = 15;
const FREE_COUNT: usize = 16;

/// The refusals that each call may give, in the order of `CALLS`; those of a call in the order in which it asks.
pub const REFUSALS: [&[usize]; CALLS.len()] = [
    &[1, 2],
    &[1, 2, 4, 5, 6, 7, 15, 8, 9, 17, 10, 11, 14],
    &[1, 2, 3, 4, 5, 6, 7, 15, 16, 8, 9, 17, 10, 11, 14],
    &[1, 2, 4, 5, 6, 7, 15, 8, 9, 10, 11, 14],
    &[1, 2, 3, 4, 5, 6, 7, 15, 16, 17, 10, 12, 14],
    &[1, 2, 3, 4, 5, 6, 7, 15, 17, 10, 13],
    &[1, 2, 4, 5, 6, 15],
    &[1, 2, 4, 5, 6, 7],
    &[1, 2, 4, 5, 6, 18, 15, 8, 9, 17, 10, 11, 14],
    &[1, 2, 4, 5, 6, 18, 15, 8],
    &[1, 2, 4, 5, 6, 7],
    &[1, 2, 3, 4, 5, 6, 7, 16, 9, 10],
    &[1, 2, 3, 4, 5, 6, 7, 10],
    &[1, 2, 4, 5, 6],
    &[1, 2, 4, 5, 6, 7],
    &[1, 2, 4, 5, 6],
    &[],
];

/// One more than the largest number of a refusal.
const NUMBERS: usize = 19;

const TAKE_A_MAP: [usize; 8] = [COMMIT, ROOM, PREVIEW, LOAD, EVICT, RECOVER, PUT, FINISH];
const TAKE_A_TABLE: [usize; 3] = [ROOM, LOAD, READ];
const TAKE_A_CHOICE: [usize; 5] = [COMMIT, ROOM, LOAD, EVICT, PUT];
const TAKE_A_RECORD: [usize; 2] = [PUT, FINISH];
const TAKE_NO_CARD: [usize; 2] = [FORMAT, FREE_COUNT];

/// Format, preview, open, make map and free count have one kind of answer besides a refusal.
fn has_second_kind(call: usize) -> bool {
    ![FORMAT, PREVIEW, OPEN, MAKE_MAP, FREE_COUNT].contains(&call)
}

/// How long a preview's output is. One that is as long as the count of the numbers after all is whole.
#[derive(Clone, Copy, Debug, PartialEq, Eq)]
pub enum Output {
    Whole,
    Empty,
    OneLess,
    OneMore,
    Double,
}

const WRONG_OUTPUTS: [Output; 4] = [Output::Empty, Output::OneLess, Output::OneMore, Output::Double];

impl Output {
    fn length(self, count: usize) -> usize {
        match self {
            Output::Whole => count,
            Output::Empty => 0,
            Output::OneLess => count.saturating_sub(1),
            Output::OneMore => count + 1,
            Output::Double => 2 * count,
        }
    }
}

/// Every second output is whole.
fn some_output(random: &mut Random) -> Output {
    if random.once_in(2) {
        Output::Whole
    } else {
        random.pick(&WRONG_OUTPUTS)
    }
}

/// How a map is made wrong. Some of these are the card's own map at times; then they are not tried.
#[derive(Clone, Copy, Debug, PartialEq, Eq)]
pub enum Wrong {
    /// One bit differs.
    Bit,
    /// A bit from N on is clear.
    RestBit,
    /// All bits from N on are clear.
    Rest,
    Swapped,
    Zeros,
    Ones,
    /// The map of before the last call.
    Stale,
    NoWord,
    OneWord,
    ThreeWords,
}

const WRONG_MAPS: [Wrong; 10] = [
    Wrong::Bit,
    Wrong::RestBit,
    Wrong::Rest,
    Wrong::Swapped,
    Wrong::Zeros,
    Wrong::Ones,
    Wrong::Stale,
    Wrong::NoWord,
    Wrong::OneWord,
    Wrong::ThreeWords,
];

impl Wrong {
    /// Every second turn a bit differs, another one each time; between them the other ways.
    fn at(turn: usize) -> Wrong {
        if turn % 2 == 0 {
            Wrong::Bit
        } else {
            WRONG_MAPS[1 + turn / 2 % (WRONG_MAPS.len() - 1)]
        }
    }

    /// The bit of that turn.
    fn bit(turn: usize) -> usize {
        turn / 2 % MAP_BITS
    }

    /// The wrong map, by the right one, the one of before the last call, and N.
    fn map(self, turn: usize, right: [u64; 2], stale: &[u64], data_blocks: usize) -> Vec<u64> {
        let other = |bit: usize| if bit < 64 { [right[0] ^ 1 << bit, right[1]] } else { [right[0], right[1] ^ 1 << (bit - 64)] };
        match self {
            Wrong::Bit => other(Wrong::bit(turn)).to_vec(),
            Wrong::RestBit | Wrong::Rest if data_blocks == MAP_BITS => right.to_vec(),
            Wrong::RestBit => other(data_blocks + turn / 2 % (MAP_BITS - data_blocks)).to_vec(),
            Wrong::Rest => {
                let below = (1u128 << data_blocks) - 1;
                vec![right[0] & below as u64, right[1] & (below >> 64) as u64]
            }
            Wrong::Swapped => vec![right[1], right[0]],
            Wrong::Zeros => vec![0; 2],
            Wrong::Ones => vec![u64::MAX; 2],
            Wrong::Stale => stale.to_vec(),
            Wrong::NoWord => vec![],
            Wrong::OneWord => vec![right[0]],
            Wrong::ThreeWords => vec![right[0], right[1], right[1]],
        }
    }
}

/// Per call: done (card, settled, in use, made, told), cut (disk, unsettled, unused), then the refusals by number.
#[derive(Clone, Default, Debug)]
pub struct Tally {
    pub first: [u64; CALLS.len()],
    pub second: [u64; CALLS.len()],
    pub refused: [[u64; NUMBERS]; CALLS.len()],
    /// Of the wrong maps that a call refused with 15: how many of each kind, and the bits that differed, one at a time.
    pub wrongs: [[u64; WRONG_MAPS.len()]; CALLS.len()],
    pub bits: [u128; CALLS.len()],
    /// Of the cuts inside a block's words or sectors: how many with each choice.
    pub picks: [[u64; PICKS.len()]; CALLS.len()],
    /// Of the wrong choices that a call refused with 17: how many of each kind.
    pub choices: [[u64; WRONG_CHOICES.len()]; CALLS.len()],
    /// The refusals that a call gives for something else than its choice, tried with a wrong one: those asked before 17 came all the
    /// same, those asked after it did not.
    pub beside: [[u64; NUMBERS]; CALLS.len()],
    /// Of the wrong tables that a call refused with 16: how many of each kind, and the places at which a number stood that stands
    /// elsewhere; and as above the refusals for something else, tried with a wrong table.
    pub tables: [[u64; WRONG_TABLES.len()]; CALLS.len()],
    pub places: [u128; CALLS.len()],
    pub beside_table: [[u64; NUMBERS]; CALLS.len()],
    /// Of the wrong records that a call refused with 18: how many of each kind; and as above the refusals for something else, tried with
    /// a wrong record.
    pub records: [[u64; WRONG_RECORDS.len()]; CALLS.len()],
    pub beside_record: [[u64; NUMBERS]; CALLS.len()],
    /// Of the cards refused with 1 for their version alone: how many of each version. Of those refused with 5 for one flag byte alone: how
    /// many with each, on old cards and on others.
    pub versions: [[u64; VERSIONS.len()]; CALLS.len()],
    pub flags: [[[u64; ODD_FLAGS.len()]; 2]; CALLS.len()],
    /// As `first` and `second`, of old cards alone.
    pub old: [[u64; 2]; CALLS.len()],
    /// Of the saves that were undone: how many saved over an entry of each kind, and left it as it was.
    pub kept: [[u64; OVERS.len()]; CALLS.len()],
    /// What the commits that make room came upon, and how many of them were made once more of evicts and a commit.
    pub cases: [u64; CASES.len()],
    pub in_a_row: u64,
    /// What pending saves came upon, and how many commits, done and cut, were made once more of puts and a finish.
    pub pending: [u64; PENDING.len()],
    pub in_parts: [u64; 2],
    /// Of the previews refused with 9: how many for each wrong output alone, and how many for the data alone.
    pub outputs: [u64; WRONG_OUTPUTS.len()],
    pub odd_data: u64,
    /// The commits that were foretold and made: in full, or refused as foretold.
    pub foretold: [u64; 2],
    /// What recoveries in a row came upon.
    pub recoveries: Recoveries,
}

impl Tally {
    pub fn calls(&self) -> u64 {
        let refused: u64 = self.refused.iter().flatten().sum();
        self.first.iter().sum::<u64>() + self.second.iter().sum::<u64>() + refused
    }

    pub fn add(&mut self, other: &Tally) {
        let more = |counts: &mut [u64], others: &[u64]| counts.iter_mut().zip(others).for_each(|(count, other)| *count += other);
        more(&mut self.first, &other.first);
        more(&mut self.second, &other.second);
        for call in 0..CALLS.len() {
            more(&mut self.refused[call], &other.refused[call]);
            more(&mut self.wrongs[call], &other.wrongs[call]);
            more(&mut self.picks[call], &other.picks[call]);
            more(&mut self.choices[call], &other.choices[call]);
            more(&mut self.beside[call], &other.beside[call]);
            more(&mut self.tables[call], &other.tables[call]);
            more(&mut self.beside_table[call], &other.beside_table[call]);
            more(&mut self.records[call], &other.records[call]);
            more(&mut self.beside_record[call], &other.beside_record[call]);
            more(&mut self.versions[call], &other.versions[call]);
            (0..2).for_each(|old| more(&mut self.flags[call][old], &other.flags[call][old]));
            more(&mut self.old[call], &other.old[call]);
            more(&mut self.kept[call], &other.kept[call]);
            self.bits[call] |= other.bits[call];
            self.places[call] |= other.places[call];
        }
        more(&mut self.outputs, &other.outputs);
        more(&mut self.cases, &other.cases);
        more(&mut self.pending, &other.pending);
        more(&mut self.in_parts, &other.in_parts);
        self.in_a_row += other.in_a_row;
        more(&mut self.foretold, &other.foretold);
        self.odd_data += other.odd_data;
        self.recoveries.add(&other.recoveries);
    }

    /// One line: calls, dones, those that made room, puts and finishes, upgrades and recoveries of old cards, series of recoveries, cuts and those
    /// that a choice decides, previews, where blocks were found, conditions, entries told, maps made, refusals by number.
    pub fn line(&self) -> String {
        let stored = [FORMAT, COMMIT, ROOM, LOAD, EVICT, RECOVER, PUT, FINISH, UPGRADE];
        let mut line = format!(
            "{} calls: {} done, {} of them with evictions, {} puts, {} finishes, {} upgrades, {} recoveries of old cards, {} series of \
             recoveries, {} cut ({} by a choice), {} previewed, {} on card, {} on disk, {} settled, {} unsettled, {} in use, {} unused, {} maps; refused",
            self.calls(),
            stored.iter().map(|call| self.first[*call]).sum::<u64>(),
            self.cases[0],
            self.first[PUT],
            self.first[FINISH],
            self.first[UPGRADE],
            self.old[RECOVER][0],
            self.recoveries.all_series(),
            stored.iter().map(|call| self.second[*call]).sum::<u64>(),
            self.picks.iter().flatten().sum::<u64>(),
            self.first[PREVIEW],
            self.first[READ] + self.first[LOOK],
            self.second[READ] + self.second[LOOK],
            self.first[STATE],
            self.second[STATE],
            self.first[CACHED],
            self.second[CACHED],
            self.first[MAKE_MAP]
        );
        for number in (1..NUMBERS).filter(|number| REFUSALS.iter().any(|numbers| numbers.contains(number))) {
            let count: u64 = (0..CALLS.len()).map(|call| self.refused[call][number]).sum();
            line += &format!(" {number}:{count}");
        }
        line
    }

    /// Every answer that a call may give has occurred, and no other; each call that takes a map has refused every kind of wrong one
    /// with 15, and preview every wrong output with 9; commits came out as they were foretold. Of choices, tables, records, versions and series
    /// of recoveries none is missing.
    pub fn complete(&self) -> Result<(), String> {
        self.complete_choices()?;
        self.complete_tables()?;
        self.complete_records()?;
        self.complete_versions()?;
        self.recoveries.at_least(1)?;
        for call in 0..CALLS.len() {
            let name = CALLS[call];
            if self.first[call] == 0 {
                return Err(format!("{name}: its first kind of answer never occurred"));
            }
            if (self.second[call] > 0) != has_second_kind(call) {
                return Err(format!("{name}: its second kind of answer occurred {} times", self.second[call]));
            }
            for number in 0..NUMBERS {
                if (self.refused[call][number] > 0) != REFUSALS[call].contains(&number) {
                    return Err(format!("{name}: refusal {number} occurred {} times", self.refused[call][number]));
                }
            }
        }
        for call in TAKE_A_MAP {
            if let Some(wrong) = WRONG_MAPS.iter().find(|wrong| self.wrongs[call][**wrong as usize] == 0) {
                return Err(format!("{}: no wrong map of the kind {wrong:?}", CALLS[call]));
            }
            if let Some(bit) = (0..MAP_BITS).find(|bit| self.bits[call] >> bit & 1 == 0) {
                return Err(format!("{}: no map that differs in bit {bit} alone", CALLS[call]));
            }
        }
        if let Some(output) = WRONG_OUTPUTS.iter().zip(self.outputs).find(|(_, count)| *count == 0) {
            return Err(format!("preview: no output refused with 9, of the kind {:?}", output.0));
        }
        if self.odd_data == 0 {
            return Err("preview: no data refused with 9".to_string());
        }
        if self.foretold.contains(&0) {
            return Err(format!("commits that were foretold, done and refused: {:?}", self.foretold));
        }
        Ok(())
    }

    /// Each call that takes a choice was cut with every kind of it, has refused every kind of wrong one with 17, and was given a wrong
    /// one beside each of its other refusals.
    fn complete_choices(&self) -> Result<(), String> {
        for call in TAKE_A_CHOICE {
            let name = CALLS[call];
            if let Some((pick, _)) = PICKS.iter().zip(self.picks[call]).find(|(_, count)| *count == 0) {
                return Err(format!("{name}: no cut inside a block with the choice {pick:?}"));
            }
            if let Some((wrong, _)) = WRONG_CHOICES.iter().zip(self.choices[call]).find(|(_, count)| *count == 0) {
                return Err(format!("{name}: no wrong choice of the kind {wrong:?}"));
            }
            if let Some(number) = REFUSALS[call].iter().find(|number| **number != 17 && self.beside[call][**number] == 0) {
                return Err(format!("{name}: no wrong choice beside refusal {number}"));
            }
        }
        Ok(())
    }

    /// Each call that takes a table has refused every kind of wrong one with 16, with each place wrong once, and was given a wrong one
    /// beside each of its other refusals. Commits that make room came upon all that they can.
    fn complete_tables(&self) -> Result<(), String> {
        for call in TAKE_A_TABLE {
            let name = CALLS[call];
            if let Some((wrong, _)) = WRONG_TABLES.iter().zip(self.tables[call]).find(|(_, count)| *count == 0) {
                return Err(format!("{name}: no wrong table of the kind {wrong:?}"));
            }
            if let Some(place) = (0..TABLE).find(|place| self.places[call] >> place & 1 == 0) {
                return Err(format!("{name}: no table with a number twice, once at place {place}"));
            }
            if let Some(number) = REFUSALS[call].iter().find(|number| **number != 16 && self.beside_table[call][**number] == 0) {
                return Err(format!("{name}: no wrong table beside refusal {number}"));
            }
        }
        if let Some((case, _)) = CASES.iter().zip(self.cases).find(|(_, count)| *count == 0) {
            return Err(format!("{}: {case:?} never occurred", CALLS[ROOM]));
        }
        if self.in_a_row == 0 {
            return Err(format!("{}: never made once more of evicts and a commit", CALLS[ROOM]));
        }
        Ok(())
    }

    /// Put and finish have refused every kind of wrong record with 18, and were given a wrong one beside each of their other refusals. Pending
    /// saves came upon all that they can, and commits were made once more of puts and a finish.
    fn complete_records(&self) -> Result<(), String> {
        for call in TAKE_A_RECORD {
            let name = CALLS[call];
            if let Some((wrong, _)) = WRONG_RECORDS.iter().zip(self.records[call]).find(|(_, count)| *count == 0) {
                return Err(format!("{name}: no wrong record of the kind {wrong:?}"));
            }
            if let Some(number) = REFUSALS[call].iter().find(|number| **number != 18 && self.beside_record[call][**number] == 0) {
                return Err(format!("{name}: no wrong record beside refusal {number}"));
            }
        }
        if let Some((case, _)) = PENDING.iter().zip(self.pending).find(|(_, count)| *count == 0) {
            return Err(format!("a pending save: {case:?} never occurred"));
        }
        if self.in_parts.contains(&0) {
            return Err(format!("commits made once more of puts and a finish, done and cut: {:?}", self.in_parts));
        }
        Ok(())
    }

    /// Each call that takes a card has refused one of every version that it does not take, and of those that it takes one with each flag byte
    /// that is not allowed there; old cards were recovered, in full and in part, and given a map. Saves of each kind that were undone left
    /// entries of every kind as they were.
    fn complete_versions(&self) -> Result<(), String> {
        for call in (0..CALLS.len()).filter(|call| !TAKE_NO_CARD.contains(call)) {
            let (name, versions) = (CALLS[call], taken_versions(call));
            let refused = VERSIONS.iter().zip(self.versions[call]);
            if let Some((version, count)) = refused.into_iter().find(|(version, count)| (*count > 0) == versions.contains(version)) {
                return Err(format!("{name}: {count} cards refused for their version {version}"));
            }
            for version in versions {
                let is_odd = |flag: &u8| odd_flags(*version).contains(flag);
                let counts = ODD_FLAGS.iter().zip(self.flags[call][usize::from(*version == OLD)]);
                if let Some((flag, count)) = counts.into_iter().find(|(flag, count)| (*count > 0) != is_odd(flag)) {
                    return Err(format!("{name}: {count} cards of version {version} refused for the flag byte {flag:X}"));
                }
            }
        }
        for (call, kinds) in [(RECOVER, 2), (MAKE_MAP, 1)] {
            if self.old[call][..kinds].contains(&0) {
                return Err(format!("{} of old cards: {:?}", CALLS[call], self.old[call]));
            }
        }
        for call in [COMMIT, ROOM, PUT] {
            if let Some((over, _)) = OVERS.iter().zip(self.kept[call]).find(|(_, count)| *count == 0) {
                return Err(format!("{}: none was undone over an entry that was {over:?}", CALLS[call]));
            }
        }
        Ok(())
    }
}

/// The versions of the cards that a call takes.
fn taken_versions(call: usize) -> &'static [u8] {
    match call {
        RECOVER | MAKE_MAP => &[OLD, NOW],
        UPGRADE => &[OLD],
        _ => &[NOW],
    }
}

/// The flag bytes, of those that are tried, that are not allowed on a card of the version.
fn odd_flags(version: u8) -> &'static [u8] {
    match version {
        OLD => &[0x81, 0x84, 0x85, 0x86, 0x87],
        _ => &[0x81, 0x84, 0x85],
    }
}

/// The place of a storing call in `CALLS`.
fn call_of(storing: Storing) -> usize {
    match storing {
        Storing::Format => FORMAT,
        Storing::Commit(_) => COMMIT,
        Storing::Room(_) => ROOM,
        Storing::Load => LOAD,
        Storing::Evict => EVICT,
        Storing::Put(_) => PUT,
        Storing::Finish => FINISH,
        Storing::Recover(_) => RECOVER,
        Storing::Upgrade => UPGRADE,
    }
}

/// What an answer is counted as.
enum Kind {
    First,
    Second,
    Refused(u32),
}

const GUARD: usize = 64;

/// Bytes with guards around them, at any alignment.
pub struct Buffer {
    bytes: Vec<u8>,
    from: usize,
    length: usize,
}

impl Buffer {
    fn new(contents: &[u8], shift: usize) -> Buffer {
        let from = GUARD + shift;
        let mut bytes = vec![0xA5; from + contents.len() + GUARD];
        bytes[from..from + contents.len()].copy_from_slice(contents);
        Buffer { bytes, from, length: contents.len() }
    }

    fn set(&mut self, contents: &[u8]) {
        if contents.len() == self.length {
            let (from, length) = (self.from, self.length);
            self.bytes[from..from + length].copy_from_slice(contents);
        } else {
            *self = Buffer::new(contents, self.from - GUARD);
        }
    }

    pub fn get(&self) -> &[u8] {
        &self.bytes[self.from..self.from + self.length]
    }

    pub fn get_mut(&mut self) -> &mut [u8] {
        let (from, length) = (self.from, self.length);
        &mut self.bytes[from..from + length]
    }
}

const GUARD_WORDS: usize = 4;

trait Word: Copy + PartialEq + std::fmt::UpperHex {
    const GUARD: Self;
}

impl Word for u64 {
    const GUARD: u64 = 0xA5A5_A5A5_A5A5_A5A5;
}

impl Word for u32 {
    const GUARD: u32 = 0xA5A5_A5A5;
}

/// Words with guards around them, aligned as one of them is.
struct Words<T> {
    words: Vec<T>,
    from: usize,
}

impl<T: Word> Words<T> {
    fn new(contents: &[T], shift: usize) -> Words<T> {
        let from = GUARD_WORDS + shift % 2;
        let mut words = vec![T::GUARD; from];
        words.extend_from_slice(contents);
        words.extend([T::GUARD; GUARD_WORDS]);
        Words { words, from }
    }

    fn set(&mut self, contents: &[T]) {
        *self = Words::new(contents, self.from - GUARD_WORDS);
    }

    fn get(&self) -> &[T] {
        &self.words[self.from..self.words.len() - GUARD_WORDS]
    }

    fn get_mut(&mut self) -> &mut [T] {
        let to = self.words.len() - GUARD_WORDS;
        &mut self.words[self.from..to]
    }
}

fn same_words<T: Word>(what: &str, a: &Words<T>, b: &Words<T>) -> Result<(), String> {
    match a.words.iter().zip(&b.words).position(|(one, other)| one != other) {
        Some(at) => {
            let place = at as i64 - a.from as i64;
            Err(format!("{what} differs at word {place}: {:X} and {:X}", a.words[at], b.words[at]))
        }
        None => Ok(()),
    }
}

fn same_bytes(what: &str, a: &Buffer, b: &Buffer) -> Result<(), String> {
    if a.bytes == b.bytes {
        return Ok(());
    }
    let at = a.bytes.iter().zip(&b.bytes).position(|(x, y)| x != y).unwrap_or(0);
    let place = at as i64 - a.from as i64;
    Err(format!("{what} differs at byte {place} of {}: {:02X} and {:02X}", a.length, a.bytes[at], b.bytes[at]))
}

/// Disks up to this length are compared whole after every call; longer ones at every block an evict may write, and whole at times.
const WHOLE_DISK: usize = 1 << 20;

/// What a preview is lent besides card and map.
struct Asked {
    numbers: Words<u64>,
    data: Buffer,
    blocks: Words<u32>,
}

impl Asked {
    fn new(shift: usize) -> Asked {
        Asked { numbers: Words::new(&[], shift), data: Buffer::new(&[], shift), blocks: Words::new(&[], shift) }
    }
}

/// No number of a data block: what a refused preview must leave in its output.
const UNTOLD: u32 = 0x5A5A_5A5A;

/// What a call is lent on one side.
struct Lent<'l> {
    card: &'l mut [u8],
    disk: &'l mut [u8],
    map: &'l mut [u64],
    table: &'l mut [u8],
    record: &'l mut [u64],
    asked: &'l mut Asked,
    choice: &'l [u8],
}

/// A call that takes a map, by an implementation.
type Call<'c> = dyn Fn(&dyn Calls, Lent) -> Answer + 'c;

pub struct Pair<'a> {
    one: &'a dyn Calls,
    other: &'a dyn Calls,
    card: [Buffer; 2],
    disk: [Buffer; 2],
    out: [Buffer; 2],
    asked: [Asked; 2],
    /// Lent to both.
    choice: Buffer,
    /// The station's map, its table and the record of its pending save.
    map: [Words<u64>; 2],
    table: [Buffer; 2],
    record: [Words<u64>; 2],
    /// The map is of another card than the one that is there, or of one before a cut.
    out_of_step: bool,
    /// The map as it was before the last storing call, and the record as it was before the last put that was done.
    stale: Vec<u64>,
    stale_record: Vec<u64>,
    /// How many wrong maps each call was tried with, how many wrong choices, wrong tables and wrong records.
    turns: [usize; CALLS.len()],
    choice_turns: [usize; CALLS.len()],
    table_turns: [usize; CALLS.len()],
    record_turns: [usize; CALLS.len()],
    reads: usize,
    /// The version of the cards that the calls take.
    version: u8,
    /// What a recovery owes, after a commit that was cut or in a pending save.
    owed: Option<Owed>,
    /// How many stores recoveries of the card may make.
    bound: Bound,
    pub tally: Tally,
}

/// Card and disk, the table and the record of their station, and the bound on recoveries of the card.
#[derive(Clone, PartialEq, Eq)]
pub struct Snapshot {
    pub card: Vec<u8>,
    pub disk: Vec<u8>,
    pub table: Vec<u8>,
    pub record: Vec<u64>,
    pub bound: Bound,
}

impl Snapshot {
    /// With the record that the card gives, where it gives one.
    pub fn new(card: Vec<u8>, disk: Vec<u8>, table: Vec<u8>) -> Snapshot {
        let record = record_of(&card).unwrap_or([0; 2]).to_vec();
        Snapshot { card, disk, table, record, bound: Bound::default() }
    }
}

impl<'a> Pair<'a> {
    pub fn new(one: &'a dyn Calls, other: &'a dyn Calls, card: &[u8], disk: &[u8], shift: usize) -> Pair<'a> {
        Pair {
            one,
            other,
            card: [Buffer::new(card, shift), Buffer::new(card, shift)],
            disk: [Buffer::new(disk, shift), Buffer::new(disk, shift)],
            out: [Buffer::new(&[], shift), Buffer::new(&[], shift)],
            asked: [Asked::new(shift), Asked::new(shift)],
            choice: Buffer::new(&[], shift),
            map: [Words::new(&[0; 2], shift), Words::new(&[0; 2], shift)],
            table: [Buffer::new(&ascending(), shift), Buffer::new(&ascending(), shift)],
            record: [Words::new(&[0; 2], shift), Words::new(&[0; 2], shift)],
            out_of_step: true,
            stale: vec![0; 2],
            stale_record: vec![0; 2],
            turns: [shift; CALLS.len()],
            choice_turns: [shift; CALLS.len()],
            table_turns: [shift; CALLS.len()],
            record_turns: [shift; CALLS.len()],
            reads: 0,
            version: NOW,
            owed: None,
            bound: Bound::default(),
            tally: Tally::default(),
        }
    }

    /// Two stations of before, for the past of old cards.
    pub fn old(one: &'a dyn Calls, other: &'a dyn Calls, card: &[u8], disk: &[u8], shift: usize) -> Pair<'a> {
        Pair { version: OLD, ..Pair::new(one, other, card, disk, shift) }
    }

    /// Whether the card is one that the calls take to recover and to upgrade alone.
    pub fn is_old(&self) -> bool {
        self.version == NOW && self.card().get(VERSION_AT) == Some(&OLD)
    }

    pub fn card(&self) -> &[u8] {
        self.card[1].get()
    }

    pub fn disk(&self) -> &[u8] {
        self.disk[1].get()
    }

    pub fn out(&self) -> &[u8] {
        self.out[1].get()
    }

    pub fn table(&self) -> &[u8] {
        self.table[1].get()
    }

    pub fn record(&self) -> &[u64] {
        self.record[1].get()
    }

    /// B, by the card's header; where that is refused, the smallest.
    fn block(&self) -> usize {
        Geometry::from_header(self.card()).map_or(512, |geometry| geometry.block())
    }

    fn set_map(&mut self, map: &[u64]) {
        self.map[0].set(map);
        self.map[1].set(map);
    }

    pub fn set_table(&mut self, table: &[u8]) {
        self.table[0].set(table);
        self.table[1].set(table);
    }

    /// Lends another record than the station's, of any length.
    pub fn set_record(&mut self, record: &[u64]) {
        self.record[0].set(record);
        self.record[1].set(record);
    }

    pub fn snapshot(&self) -> Snapshot {
        let (card, disk) = (self.card().to_vec(), self.disk().to_vec());
        Snapshot { card, disk, table: self.table().to_vec(), record: self.record().to_vec(), bound: self.bound }
    }

    pub fn set(&mut self, to: &Snapshot) {
        for side in 0..2 {
            self.card[side].set(&to.card);
            self.disk[side].set(&to.disk);
        }
        self.set_table(&to.table);
        self.set_record(&to.record);
        self.out_of_step = true;
        self.owed = None;
        self.bound = to.bound;
    }

    pub fn set_card(&mut self, card: &[u8]) {
        self.card[0].set(card);
        self.card[1].set(card);
        self.out_of_step = true;
        self.owed = None;
        self.bound = Bound::default();
    }

    pub fn set_disk(&mut self, disk: &[u8]) {
        self.disk[0].set(disk);
        self.disk[1].set(disk);
    }

    pub fn whole(&self) -> Result<(), String> {
        same_bytes("disk", &self.disk[0], &self.disk[1])
    }

    fn compared(&self, what: impl Fn() -> String) -> Result<(), String> {
        same_bytes("card", &self.card[0], &self.card[1])
            .and_then(|_| if self.disk[0].length <= WHOLE_DISK { self.whole() } else { Ok(()) })
            .and_then(|_| same_bytes("output", &self.out[0], &self.out[1]))
            .and_then(|_| same_words("map", &self.map[0], &self.map[1]))
            .and_then(|_| same_bytes("table", &self.table[0], &self.table[1]))
            .and_then(|_| same_words("record", &self.record[0], &self.record[1]))
            .map_err(|difference| format!("{}: {difference}", what()))
    }

    fn answered(&mut self, call: usize, a: Answer, b: Answer, what: impl Fn() -> String) -> Result<Answer, String> {
        if a != b {
            return Err(format!("{}: answers {a:?} and {b:?}", what()));
        }
        self.compared(what)?;
        match b {
            Answer::Done(_) => self.count(call, Kind::First),
            Answer::Cut => self.count(call, Kind::Second),
            Answer::Refused(number) => self.count(call, Kind::Refused(number)),
            Answer::Malformed(..) => return Err(format!("malformed answer {b:?}")),
        }
        Ok(b)
    }

    fn count(&mut self, call: usize, kind: Kind) {
        let old = u64::from(self.is_old());
        match kind {
            Kind::First => {
                self.tally.first[call] += 1;
                self.tally.old[call][0] += old;
            }
            Kind::Second => {
                self.tally.second[call] += 1;
                self.tally.old[call][1] += old;
            }
            Kind::Refused(number) => {
                self.tally.refused[call][number as usize] += 1;
                let (version, flag) = match number {
                    1 => (odd_version(self.card(), taken_versions(call)), None),
                    5 => (None, odd_flag(self.card())),
                    _ => (None, None),
                };
                version.into_iter().for_each(|version| self.tally.versions[call][version] += 1);
                flag.into_iter().for_each(|flag| self.tally.flags[call][usize::from(old > 0)][flag] += 1);
            }
        }
    }

    pub fn format(&mut self, k: u64, slots: u64, data_blocks: u64, disk_blocks: u64) -> Result<Answer, String> {
        let a = self.one.format(k, slots, data_blocks, disk_blocks, self.card[0].get_mut());
        let b = self.other.format(k, slots, data_blocks, disk_blocks, self.card[1].get_mut());
        let length = self.card[1].length;
        self.out_of_step = true;
        self.owed = None;
        let what = || format!("format({k}, {slots}, {data_blocks}, {disk_blocks}, card of {length})");
        let answer = self.answered(FORMAT, a, b, what)?;
        self.feed(Storing::Format, answer, &what)?;
        Ok(answer)
    }

    /// Feeds a storing call to the bound on recoveries.
    fn feed(&mut self, storing: Storing, answer: Answer, what: &dyn Fn() -> String) -> Result<(), String> {
        self.bound.feed(storing, answer).map_err(|excess| format!("{}: {excess}", what()))?;
        if let Storing::Recover(_) = storing {
            self.tally.recoveries.count(self.bound.series(), answer, self.is_old());
        }
        Ok(())
    }

    pub fn make_map(&mut self) -> Result<FreeMap, String> {
        let a = self.one.make_map(self.card[0].get());
        let b = self.other.make_map(self.card[1].get());
        if a != b {
            return Err(format!("make map: answers {a:X?} and {b:X?}"));
        }
        self.compared(|| "make map".to_string())?;
        match b {
            FreeMap::Made([low, high]) => {
                self.count(MAKE_MAP, Kind::First);
                self.free_count(low, high)?;
            }
            FreeMap::Refused(number) => self.count(MAKE_MAP, Kind::Refused(number)),
            FreeMap::Malformed(..) => return Err(format!("malformed answer {b:?}")),
        }
        Ok(b)
    }

    pub fn free_count(&mut self, low: u64, high: u64) -> Result<(), String> {
        let (a, b) = (self.one.free_count(low, high), self.other.free_count(low, high));
        if a != b {
            return Err(format!("free count({low:X}, {high:X}): answers {a} and {b}"));
        }
        self.tally.first[FREE_COUNT] += 1;
        Ok(())
    }

    /// What a station does when it starts and after a cut. The map of a card that is refused stays what it was, so that calls
    /// which are refused sooner than with 15 get wrong ones.
    fn make_again(&mut self) -> Result<(), String> {
        if let FreeMap::Made(map) = self.make_map()? {
            self.set_map(&map);
        }
        self.out_of_step = false;
        Ok(())
    }

    /// A call with a wrong map, every third time with a wrong choice too, every third with a wrong table: refused, and nothing changed. Gives its
    /// answer; none where the map of this turn is the right one.
    fn try_wrong(&mut self, call: usize, run: &Call, what: &dyn Fn() -> String) -> Result<Option<Answer>, String> {
        let turn = self.turns[call];
        self.turns[call] += 1;
        let (wrong, map) = (Wrong::at(turn), self.map[1].get().to_vec());
        let card = Card::open(self.card(), None).ok();
        let (right, data_blocks) = match &card {
            Some(card) => (card.map(), card.geometry.data_blocks as usize),
            None => ([map[0], map[1]], 4),
        };
        let tried = wrong.map(turn, right, &self.stale, data_blocks);
        if tried == right && card.is_some() {
            return Ok(None);
        }
        let (choice, choice_too) = (self.choice.get().to_vec(), turn % 3 == 2 && TAKE_A_CHOICE.contains(&call));
        if choice_too {
            self.choice.set(&WRONG_CHOICES[turn % WRONG_CHOICES.len()].choice(turn, &choice, self.block()));
        }
        let table_too = turn % 3 == 1 && TAKE_A_TABLE.contains(&call);
        let table = table_too.then(|| self.table().to_vec());
        if let Some(table) = &table {
            self.set_table(&WRONG_TABLES[turn % WRONG_TABLES.len()].table(turn, table));
        }
        self.set_map(&tried);
        let answer = self.both(call, run, &|| format!("{} with a wrong map {tried:X?}", what()))?;
        match answer {
            Answer::Refused(15) => {
                self.tally.wrongs[call][wrong as usize] += 1;
                self.tally.beside[call][15] += u64::from(choice_too);
                self.tally.beside_table[call][15] += u64::from(table_too);
                if wrong == Wrong::Bit {
                    self.tally.bits[call] |= 1 << Wrong::bit(turn);
                }
            }
            // nothing that is asked after 15
            Answer::Refused(number) if self.place_of(call, number) < self.place_of(call, 15) => {}
            _ => return Err(format!("{}: {answer:?} with a wrong map {tried:X?}", what())),
        }
        self.set_map(&map);
        self.choice.set(&choice);
        table.iter().for_each(|table| self.set_table(table));
        Ok(Some(answer))
    }

    /// A call with a wrong choice: refused, and nothing changed. Gives the refusal.
    fn try_wrong_choice(&mut self, call: usize, run: &Call, what: &dyn Fn() -> String) -> Result<u32, String> {
        let turn = self.choice_turns[call];
        self.choice_turns[call] += 1;
        let (kind, right) = (turn % WRONG_CHOICES.len(), self.choice.get().to_vec());
        let wrong = WRONG_CHOICES[kind];
        self.choice.set(&wrong.choice(turn, &right, self.block()));
        let answer = self.both(call, run, &|| format!("{} with a wrong choice, {wrong:?}", what()))?;
        self.choice.set(&right);
        match answer {
            Answer::Refused(number) => {
                self.tally.choices[call][kind] += u64::from(number == 17);
                Ok(number)
            }
            _ => Err(format!("{}: {answer:?} with a wrong choice, {wrong:?}", what())),
        }
    }

    /// A storing call with a wrong table, every third time with a wrong choice too: refused, and nothing changed. Gives the refusal.
    fn try_wrong_table(&mut self, call: usize, run: &Call, what: &dyn Fn() -> String) -> Result<u32, String> {
        let turn = self.table_turns[call];
        let (choice, choice_too) = (self.choice.get().to_vec(), turn % 3 == 2);
        if choice_too {
            self.choice.set(&WRONG_CHOICES[turn % WRONG_CHOICES.len()].choice(turn, &choice, self.block()));
        }
        let (kind, right) = self.lend_wrong_table(call);
        let answer = self.both(call, run, &|| format!("{} with a wrong table, {:?}", what(), WRONG_TABLES[kind]))?;
        self.set_table(&right);
        self.choice.set(&choice);
        let Answer::Refused(number) = answer else {
            return Err(format!("{}: {answer:?} with a wrong table, {:?}", what(), WRONG_TABLES[kind]));
        };
        self.count_wrong_table(call, turn, number);
        if number == 16 && choice_too {
            self.tally.beside[call][16] += 1;
            self.tally.beside_table[call][17] += 1;
        }
        Ok(number)
    }

    /// Lends the wrong table of this turn. Gives its kind and the right one.
    fn lend_wrong_table(&mut self, call: usize) -> (usize, Vec<u8>) {
        let turn = self.table_turns[call];
        self.table_turns[call] += 1;
        let (kind, right) = (WrongTable::kind(turn), self.table().to_vec());
        self.set_table(&WRONG_TABLES[kind].table(turn, &right));
        (kind, right)
    }

    fn count_wrong_table(&mut self, call: usize, turn: usize, number: u32) {
        let kind = WrongTable::kind(turn);
        if number == 16 {
            self.tally.tables[call][kind] += 1;
            self.tally.places[call] |= u128::from(WRONG_TABLES[kind] == WrongTable::Twice) << WrongTable::place(turn);
        }
    }

    /// What wrong records are made of: where the card gives no record, the station's is as wrong as any.
    fn ring(&self, card: Option<&Card>) -> (Option<[u64; 2]>, [u64; 2], u64, u64) {
        let own = [0, 1].map(|word| self.record().get(word).copied().unwrap_or(0));
        let right = card.and_then(|card| card.record());
        let (slots, head) = card.map_or((8, 0), |card| (card.geometry.slots, card.head));
        (right, right.unwrap_or(own), slots, head)
    }

    /// Put or finish with a wrong record, every third time with a wrong map too, every third with a wrong choice: refused, and nothing changed.
    /// Gives the refusal; none where the record of this turn is the right one.
    fn try_wrong_record(&mut self, call: usize, run: &Call, what: &dyn Fn() -> String) -> Result<Option<u32>, String> {
        let turn = self.record_turns[call];
        self.record_turns[call] += 1;
        let kind = turn % WRONG_RECORDS.len();
        let (right, like, slots, head) = self.ring(Card::open(self.card(), None).ok().as_ref());
        let tried = WRONG_RECORDS[kind].record(turn, Ring { right: like, stale: &self.stale_record, slots, head });
        if right.is_some_and(|right| tried == right) {
            return Ok(None);
        }
        let (own, map, choice) = (self.record().to_vec(), self.map[1].get().to_vec(), self.choice.get().to_vec());
        let (map_too, choice_too) = (turn % 3 == 1, turn % 3 == 2 && TAKE_A_CHOICE.contains(&call));
        if map_too {
            self.set_map(&[map[0] ^ 1, map[1]]);
        }
        if choice_too {
            self.choice.set(&WRONG_CHOICES[turn % WRONG_CHOICES.len()].choice(turn, &choice, self.block()));
        }
        self.set_record(&tried);
        let answer = self.both(call, run, &|| format!("{} with a wrong record {tried:X?}", what()))?;
        self.set_record(&own);
        self.set_map(&map);
        self.choice.set(&choice);
        let Answer::Refused(number) = answer else { return Err(format!("{}: {answer:?} with a wrong record {tried:X?}", what())) };
        if number == 18 {
            self.tally.records[call][kind] += 1;
            self.tally.beside_record[call][15] += u64::from(map_too);
            self.tally.beside_record[call][17] += u64::from(choice_too);
            self.tally.beside[call][18] += u64::from(choice_too);
        }
        Ok(Some(number))
    }

    /// When a call asks for a refusal's condition.
    fn place_of(&self, call: usize, number: u32) -> Option<usize> {
        REFUSALS[call].iter().position(|one| *one == number as usize)
    }

    /// What a call asks before `asked`, 16, 17 or 18, it answers with a wrong table, choice or record too, as `with_wrong`; what it asks after
    /// that only with a right one, as `refusal`. A call of a history may have a wrong record itself.
    fn is_in_order(&mut self, call: usize, asked: u32, with_wrong: u32, refusal: Option<u32>) -> Result<(), String> {
        let fits = match refusal {
            Some(number) if self.place_of(call, number) < self.place_of(call, asked) => with_wrong == number,
            Some(18) if asked == 18 => with_wrong == 18 && record_of(self.card()).is_none_or(|right| right != self.record()),
            Some(number) => with_wrong == asked && number != asked,
            None => with_wrong == asked,
        };
        let beside = match asked {
            16 => &mut self.tally.beside_table,
            18 => &mut self.tally.beside_record,
            _ => &mut self.tally.beside,
        };
        refusal.iter().for_each(|number| beside[call][*number as usize] += 1);
        if fits {
            Ok(())
        } else {
            Err(format!("refusal {refusal:?}, but {with_wrong} where {asked} holds"))
        }
    }

    fn on(&mut self, side: usize, run: &Call) -> Answer {
        let lent = Lent {
            card: self.card[side].get_mut(),
            disk: self.disk[side].get_mut(),
            map: self.map[side].get_mut(),
            table: self.table[side].get_mut(),
            record: self.record[side].get_mut(),
            asked: &mut self.asked[side],
            choice: self.choice.get(),
        };
        run(if side == 0 { self.one } else { self.other }, lent)
    }

    fn both(&mut self, call: usize, run: &Call, what: &dyn Fn() -> String) -> Result<Answer, String> {
        let (a, b) = (self.on(0, run), self.on(1, run));
        let answer = self.answered(call, a, b, what)?;
        if call == PREVIEW {
            self.same_asked().map_err(|difference| format!("{}: {difference}", what()))?;
        }
        Ok(answer)
    }

    /// A storing call that takes a choice: with a wrong one first, and with a wrong table where it takes one, then with these.
    fn choosing(&mut self, storing: Storing, choice: &[u8], run: &Call, what: &dyn Fn() -> String) -> Result<Answer, String> {
        let call = call_of(storing);
        self.choice.set(choice);
        if self.out_of_step {
            self.make_again()?;
        }
        let mut refusals = vec![(17, self.try_wrong_choice(call, run, what)?)];
        if TAKE_A_TABLE.contains(&call) {
            refusals.push((16, self.try_wrong_table(call, run, what)?));
        }
        let answer = self.storing(storing, run, what)?;
        let refusal = if let Answer::Refused(number) = answer { Some(number) } else { None };
        for (asked, with_wrong) in refusals {
            self.is_in_order(call, asked, with_wrong, refusal).map_err(|difference| format!("{}: {difference}", what()))?;
        }
        Ok(answer)
    }

    /// Put or finish, as `storing`: with a wrong record first.
    fn recorded(&mut self, call: usize, run: &Call, what: &dyn Fn() -> String) -> Result<Answer, String> {
        let with_wrong = self.try_wrong_record(call, run, what)?;
        let answer = self.both(call, run, what)?;
        if let Some(with_wrong) = with_wrong {
            let refusal = if let Answer::Refused(number) = answer { Some(number) } else { None };
            self.is_in_order(call, 18, with_wrong, refusal).map_err(|difference| format!("{}: {difference}", what()))?;
        }
        Ok(answer)
    }

    /// A storing call, with a wrong map first and then with the station's. After a done call the map must be the one that the card
    /// gives; after a cut it is made again; a refused call keeps it.
    fn storing(&mut self, storing: Storing, run: &Call, what: &dyn Fn() -> String) -> Result<Answer, String> {
        let call = call_of(storing);
        if self.out_of_step {
            self.make_again()?;
        }
        if let Some(answer) = self.try_wrong(call, run, what)? {
            self.feed(storing, answer, what)?;
        }
        let before = self.map[1].get().to_vec();
        let answer = if TAKE_A_RECORD.contains(&call) { self.recorded(call, run, what)? } else { self.both(call, run, what)? };
        self.feed(storing, answer, what)?;
        match answer {
            Answer::Done(stores) => {
                self.pays(call, stores).map_err(|difference| format!("{}: {difference}", what()))?;
                if self.make_map()? != FreeMap::Made([self.map[1].get()[0], self.map[1].get()[1]]) {
                    return Err(format!("{}: the map handed on is not the card's", what()));
                }
            }
            Answer::Cut => {
                self.owed = self.owed.take().filter(|_| [RECOVER, PUT, FINISH].contains(&call));
                self.make_again()?;
            }
            _ => return Ok(answer),
        }
        self.stale = before;
        Ok(answer)
    }

    /// What is owed after a call that was done: a recovery pays it, a put goes on with it, and any other call begins anew.
    fn pays(&mut self, call: usize, stores: u64) -> Result<(), String> {
        if call == PUT {
            return Ok(());
        }
        let Some(owed) = self.owed.take().filter(|_| call == RECOVER) else { return Ok(()) };
        let card = Card::open_settled(self.card(), None).map_err(|number| format!("a recovered card is refused with {number}"))?;
        owed.is_paid(&card)?;
        if stores > 0 {
            owed.overs.iter().for_each(|over| self.tally.kept[owed.call][*over as usize] += 1);
        }
        Ok(())
    }

    /// What a recovery owes after this commit, which found the card so and finished these evictions. Those of its blocks count whose log entry
    /// was made.
    fn owes(&mut self, call: usize, before: Option<Card>, evicted: &[usize], numbers: &[u64], answer: Answer) {
        if let (Some(card), Answer::Cut, NOW, Ok(left)) = (before, answer, self.version, Card::open(self.card(), None)) {
            let is_logged = |number: &u64| left.in_use().any(|entry| entry.number == *number && left.undoable(entry));
            let logged: Vec<u64> = numbers.iter().copied().filter(is_logged).collect();
            self.owed = Some(Owed::new(call, card, evicted, &logged));
        }
    }

    /// What a recovery owes after this put, which found the card so: what it owed before, and the entry that this one saved over. A card that
    /// this station did not bring into its state owes nothing that is known.
    fn owes_put(&mut self, before: Option<Card>, number: u64, answer: Answer) {
        let logged = Card::open(self.card(), None).is_ok_and(|card| card.in_use().any(|entry| entry.number == number && card.undoable(entry)));
        let (Some(card), true, NOW) = (before, logged && !matches!(answer, Answer::Refused(_)), self.version) else { return };
        match &mut self.owed {
            Some(owed) => owed.saves_over(&card, number),
            None if card.settled() => self.owed = Some(Owed::new(PUT, card, &[], &[number])),
            None => {}
        }
    }

    /// The choice that is picked for a call of so large an allowance.
    fn picked(&self, call: usize, pick: Pick, allowance: u64) -> Vec<u8> {
        let (seed, block) = (self.choice_turns[call] as u64, self.block());
        pick.choice(seed, block, if call == EVICT { block / 512 } else { block / 8 }, allowance)
    }

    /// Counts a call that was cut inside a block's words or sectors.
    fn count_cut(&mut self, call: usize, pick: Pick, inside: bool) {
        self.tally.picks[call][pick as usize] += u64::from(inside);
    }

    pub fn commit(&mut self, numbers: &[u64], data: &[u8], pick: Pick, allowance: u64) -> Result<Answer, String> {
        let what = || format!("commit({numbers:?}, data of {}, choice {pick:?}, allowance {allowance})", data.len());
        let run: &Call = &|calls, lent| calls.commit(lent.card, lent.map, numbers, data, lent.choice, allowance);
        let before = Card::open_settled(self.card(), None).ok();
        let choice = self.picked(COMMIT, pick, allowance);
        let found = (self.choice_turns[COMMIT] % 8 == 0 && before.is_some()).then(|| self.card().to_vec());
        let answer = self.choosing(Storing::Commit(numbers.len() as u64), &choice, run, &what)?;
        if let Some(found) = found {
            self.is_made_in_parts(found, numbers, data, &choice, allowance, answer).map_err(|difference| format!("{}: {difference}", what()))?;
        }
        self.owes(COMMIT, before, &[], numbers, answer);
        let words = self.block() as u64 / 8;
        let inside = allowance < numbers.len() as u64 * (words + 3) && allowance % (words + 3) < words;
        self.count_cut(COMMIT, pick, answer == Answer::Cut && inside);
        Ok(answer)
    }

    /// Open, a put of each block and finish, under the same choice and allowance, leave what this commit left.
    fn is_made_in_parts(
        &mut self,
        mut card: Vec<u8>,
        numbers: &[u64],
        data: &[u8],
        choice: &[u8],
        allowance: u64,
        answer: Answer,
    ) -> Result<(), String> {
        if let Answer::Refused(_) = answer {
            return Ok(());
        }
        let mut map = map_of(&card);
        let made = in_parts(self.one, &mut card, &mut map, numbers, data, choice, allowance)?;
        let same_map = answer == Answer::Cut || map == self.map[1].get();
        if card != self.card() || !same_map || made != answer {
            return Err(format!("{answer:?}, but open, puts and finish leave something else, or answer {made:?}"));
        }
        self.tally.in_parts[usize::from(answer == Answer::Cut)] += 1;
        Ok(())
    }

    /// An open: the station's record is then the one that it gives.
    pub fn open(&mut self) -> Result<Opened, String> {
        let a = self.one.open(self.card[0].get());
        let b = self.other.open(self.card[1].get());
        if a != b {
            return Err(format!("open: answers {a:?} and {b:?}"));
        }
        self.compared(|| "open".to_string())?;
        match b {
            Opened::Open(record) => {
                let card = Card::open_settled(self.card(), None).map_err(|number| format!("open of a card that is refused with {number}"))?;
                if record != [card.tail, 0] {
                    return Err(format!("open with Tail {}: {record:?}", card.tail));
                }
                self.count(OPEN, Kind::First);
                self.set_record(&record);
            }
            Opened::Refused(number) => self.count(OPEN, Kind::Refused(number)),
            Opened::Malformed(..) => return Err(format!("malformed answer {b:?}")),
        }
        Ok(b)
    }

    pub fn count_pending(&mut self, cases: &[Pending]) {
        cases.iter().for_each(|case| self.tally.pending[*case as usize] += 1);
    }

    /// A put with the station's record. Done, it has B/8 + 3 stores and the record counts one more and is the card's; cut or refused, the record
    /// is what it was.
    pub fn put(&mut self, block: u64, data: &[u8], pick: Pick, allowance: u64) -> Result<Answer, String> {
        let record = self.record().to_vec();
        let what = || format!("put({block}, record {record:X?}, data of {}, choice {pick:?}, allowance {allowance})", data.len());
        let run: &Call = &|calls, lent| calls.put(lent.card, lent.map, lent.record, block, data, lent.choice, allowance);
        let (before, words) = (Card::open(self.card(), None).ok(), self.block() as u64 / 8);
        let storing = Storing::Put(record.get(1).copied().unwrap_or(0));
        let answer = self.choosing(storing, &self.picked(PUT, pick, allowance), run, &what)?;
        self.owes_put(before.clone(), block, answer);
        self.count_cut(PUT, pick, answer == Answer::Cut && allowance < words);
        let next = match (answer, &record[..]) {
            (Answer::Done(_), [tail, count]) => record_of(self.card()).filter(|of_card| *of_card == [*tail, count + 1]).map(|next| next.to_vec()),
            (Answer::Done(_), _) => None,
            _ => Some(record.clone()),
        };
        if next.is_none_or(|next| self.record() != next) {
            return Err(format!("{}: {answer:?}, and the record is {:X?}", what(), self.record()));
        }
        if !matches!(answer, Answer::Cut | Answer::Refused(_)) && answer != Answer::Done(words + 3) {
            return Err(format!("{}: {answer:?}", what()));
        }
        self.count_pending(&before.map_or(vec![], |card| put_cases(&card, &record, block, words, allowance, answer)));
        if let Answer::Done(_) = answer {
            self.stale_record = record;
        }
        Ok(answer)
    }

    /// A finish with the station's record, which it leaves. Done, it has a store more than the record counts, and the card is settled.
    pub fn finish(&mut self, allowance: u64) -> Result<Answer, String> {
        let (record, before) = (self.record().to_vec(), Card::open(self.card(), None).ok());
        let what = || format!("finish(record {record:X?}, allowance {allowance})");
        let answer = self.storing(Storing::Finish, &|calls, lent| calls.finish(lent.card, lent.map, lent.record, allowance), &what)?;
        if self.record() != record {
            return Err(format!("{}: {answer:?}, and the record is {:X?}", what(), self.record()));
        }
        if let Answer::Done(stores) = answer {
            let settled = Card::open_settled(self.card(), None).is_ok();
            if record.get(1).is_none_or(|count| stores != count + 1) || !settled {
                return Err(format!("{}: {answer:?}, and the card is settled: {settled}", what()));
            }
        }
        self.count_pending(&before.map_or(vec![], |card| finish_cases(&card, &record, allowance, answer)));
        Ok(answer)
    }

    /// A preview, with a wrong map first and then with the station's.
    pub fn preview(&mut self, numbers: &[u64], data: &[u8], output: Output) -> Result<Answer, String> {
        if self.out_of_step {
            self.make_again()?;
        }
        let length = output.length(numbers.len());
        for asked in &mut self.asked {
            asked.numbers.set(numbers);
            asked.data.set(data);
            asked.blocks.set(&vec![UNTOLD; length]);
        }
        let what = || format!("preview({numbers:?}, data of {}, output of {length})", data.len());
        let run: &Call = &|calls, lent| {
            let Asked { numbers, data, blocks } = lent.asked;
            calls.preview(lent.card, lent.map, numbers.get_mut(), data.get_mut(), blocks.get_mut())
        };
        self.try_wrong(PREVIEW, run, &what)?;
        let answer = self.both(PREVIEW, run, &what)?;
        if answer == Answer::Refused(9) {
            self.count_nine(numbers.len(), data.len(), output);
        }
        Ok(answer)
    }

    /// Why a preview was refused with 9, where one thing alone was wrong.
    fn count_nine(&mut self, count: usize, data_length: usize, output: Output) {
        let right = Geometry::from_header(self.card()).is_ok_and(|geometry| data_length == count * geometry.block());
        let kind = WRONG_OUTPUTS.iter().position(|kind| *kind == output && output.length(count) != count);
        match (right, kind) {
            (true, Some(kind)) => self.tally.outputs[kind] += 1,
            (false, None) => self.tally.odd_data += 1,
            _ => {}
        }
    }

    fn same_asked(&self) -> Result<(), String> {
        let [a, b] = &self.asked;
        same_words("numbers", &a.numbers, &b.numbers)?;
        same_bytes("data", &a.data, &b.data)?;
        same_words("output", &a.blocks, &b.blocks)
    }

    /// What the last preview told.
    fn blocks(&self) -> Vec<u32> {
        self.asked[1].blocks.get().to_vec()
    }

    /// A preview and then the commit, which must answer as foretold and put the blocks where the preview said.
    pub fn foretold(&mut self, numbers: &[u64], data: &[u8], pick: Pick, allowance: u64) -> Result<Answer, String> {
        let foretold = self.preview(numbers, data, Output::Whole)?;
        let answer = self.commit(numbers, data, pick, allowance)?;
        let awaited = match foretold {
            Answer::Done(m) if allowance < m => Answer::Cut,
            _ => foretold,
        };
        if answer != awaited {
            return Err(format!("commit({numbers:?}, allowance {allowance}): {answer:?}, but the preview {foretold:?}"));
        }
        match answer {
            Answer::Done(_) => {
                self.put_as_told(numbers)?;
                self.tally.foretold[0] += 1;
            }
            Answer::Refused(_) => self.tally.foretold[1] += 1,
            _ => {}
        }
        Ok(answer)
    }

    /// Each number's entry, and the place that look tells, have the data block of the last preview.
    fn put_as_told(&mut self, numbers: &[u64]) -> Result<(), String> {
        let card = Card::open(self.card(), None).map_err(|number| format!("a saved card is refused with {number}"))?;
        for (number, block) in numbers.iter().zip(self.blocks()) {
            let current = card.entry_for(*number).map(|index| card.entries[index].unwrap().current);
            if current != Some(block) {
                return Err(format!("block {number} is in data block {current:?}, but the preview said {block}"));
            }
            let geometry = card.geometry;
            let place = match self.disk().len() == geometry.disk_length() {
                true => Place::Card(geometry.block_at(block) as u64, geometry.block() as u64),
                false => Place::Refused(3),
            };
            let looked = self.look(*number)?;
            if looked != place {
                return Err(format!("block {number} lies at {looked:?}, but the preview said {place:?}"));
            }
        }
        Ok(())
    }

    pub fn load(&mut self, block: u64, pick: Pick, allowance: u64) -> Result<Answer, String> {
        let what = || format!("load({block}, choice {pick:?}, allowance {allowance})");
        let run: &Call = &|calls, lent| calls.load(lent.card, lent.disk, lent.map, lent.table, block, lent.choice, allowance);
        let answer = self.choosing(Storing::Load, &self.picked(LOAD, pick, allowance), run, &what)?;
        self.count_cut(LOAD, pick, answer == Answer::Cut && allowance < self.block() as u64 / 8);
        Ok(answer)
    }

    /// Whether the block is cached and modified: then its evict has sectors.
    fn is_modified(&self, block: u64) -> bool {
        let opened = Card::open(self.card(), None).ok();
        opened.is_some_and(|card| card.in_use().any(|entry| entry.number == block && entry.modified))
    }

    pub fn evict(&mut self, block: u64, pick: Pick, allowance: u64) -> Result<Answer, String> {
        let what = || format!("evict({block}, choice {pick:?}, allowance {allowance})");
        let run: &Call = &|calls, lent| calls.evict(lent.card, lent.disk, lent.map, block, lent.choice, allowance);
        let answer = self.choosing(Storing::Evict, &self.picked(EVICT, pick, allowance), run, &what)?;
        let inside = allowance < self.block() as u64 / 512;
        self.count_cut(EVICT, pick, answer == Answer::Cut && inside && self.is_modified(block));
        self.same_around(&[block]).map_err(|difference| format!("{}: {difference}", what()))?;
        Ok(answer)
    }

    /// Of a long disk: these blocks with a block's length to each side, and the first ones, are the same.
    fn same_around(&self, blocks: &[u64]) -> Result<(), String> {
        let length = self.disk[1].length;
        if length <= WHOLE_DISK {
            return Ok(());
        }
        let size = 1 << self.card()[5].min(12);
        let middles = blocks.iter().map(|block| (*block.min(&(1 << 20)) as usize * size).min(length));
        for (from, to) in middles.map(|middle| (middle.saturating_sub(size), middle + 2 * size)).chain([(0, 2 * size)]) {
            let to = to.min(length);
            if self.disk[0].get()[from..to] != self.disk[1].get()[from..to] {
                return Err(format!("disk differs from {from} to {to}"));
            }
        }
        Ok(())
    }

    /// The choice that is picked for a commit that makes room: where the allowance ends is told by its runs.
    fn picked_making_room(&self, pick: Pick, runs: &[Run], allowance: u64) -> Vec<u8> {
        let (seed, block) = (self.choice_turns[ROOM] as u64, self.block());
        match cut_run(runs, allowance) {
            Some((run, within)) => pick.choice(seed, block, run.stores().len(), within),
            None => pick.choice(seed, block, block / 8, allowance),
        }
    }

    /// A commit that makes room. Every fourth that is done is made once more of evicts and a commit; 14 is held to its law.
    pub fn commit_making_room(&mut self, numbers: &[u64], data: &[u8], pick: Pick, allowance: u64) -> Result<Answer, String> {
        let what = || format!("room-making commit({numbers:?}, data of {}, choice {pick:?}, allowance {allowance})", data.len());
        let card = Card::open_settled(self.card(), None).ok().filter(|card| card.version == self.version);
        let (table, model) = (self.table().to_vec(), Model::of(self.version));
        let runs = model.room_list(self.card(), self.disk().len(), &table, numbers, data).unwrap_or_default();
        let before = (self.table_turns[ROOM] % 4 == 0 && self.disk().len() <= WHOLE_DISK).then(|| self.snapshot());
        let run: &Call =
            &|calls, lent| calls.commit_making_room(lent.card, lent.disk, lent.map, lent.table, numbers, data, lent.choice, allowance);
        let choice = self.picked_making_room(pick, &runs, allowance);
        let answer = self.choosing(Storing::Room(numbers.len() as u64), &choice, run, &what)?;
        let unordered = matches!(cut_run(&runs, allowance), Some((Run::Unordered(_), _)));
        self.count_cut(ROOM, pick, answer == Answer::Cut && unordered);
        self.owes(ROOM, card.clone(), &evicted(&runs, allowance, self.card()), numbers, answer);
        if let Some(card) = card {
            let victims = model.victims(&card, &table, numbers);
            let victims: Vec<u64> = victims.iter().map(|index| card.entries[*index].unwrap().number).collect();
            cases(&card, &table, numbers, allowance, answer).iter().for_each(|case| self.tally.cases[*case as usize] += 1);
            let rules = keeps_law(&card, numbers, answer)
                .and_then(|_| self.same_around(&victims))
                .and_then(|_| before.map_or(Ok(()), |before| self.is_made_in_a_row(before, &victims, numbers, data, answer)));
            rules.map_err(|difference| format!("{}: {difference}", what()))?;
        }
        Ok(answer)
    }

    /// Evicts of the victims, as many as there are too few free data blocks, and then the commit leave what this call left.
    fn is_made_in_a_row(&mut self, before: Snapshot, victims: &[u64], numbers: &[u64], data: &[u8], answer: Answer) -> Result<(), String> {
        let Answer::Done(count) = answer else { return Ok(()) };
        let (made, stores) = in_a_row(self.one, before, victims, numbers, data)?;
        if made.card != self.card() || made.disk != self.disk() || stores != count {
            return Err(format!("evicts and a commit leave something else, or their {stores} stores are not {count}"));
        }
        self.tally.in_a_row += 1;
        Ok(())
    }

    pub fn recover(&mut self, allowance: u64) -> Result<Answer, String> {
        let (what, before) = (|| format!("recover(allowance {allowance})"), Card::open(self.card(), None).ok());
        self.is_made_in_two(before.as_ref()).map_err(|difference| format!("{}: {difference}", what()))?;
        let answer = self.storing(Storing::Recover(allowance), &|calls, lent| calls.recover(lent.card, lent.map, allowance), &what)?;
        if matches!(answer, Answer::Done(_)) && self.bound.series().has_cut() {
            leaves_nothing(self.one, self.card()).map_err(|difference| format!("{}: {difference}", what()))?;
        }
        self.count_pending(&before.map_or(vec![], |card| recover_cases(&card, answer)));
        Ok(answer)
    }

    /// A recovery with the map of before the last storing call. Where it is refused, the station goes on with its own.
    pub fn recover_stale(&mut self, allowance: u64) -> Result<Answer, String> {
        if self.out_of_step {
            self.make_again()?;
        }
        let own = self.map[1].get().to_vec();
        self.set_map(&self.stale.clone());
        let answer = self.recover(allowance)?;
        if let Answer::Refused(_) = answer {
            self.set_map(&own);
        }
        Ok(answer)
    }

    /// Every fourth time, on an unsettled card of a history: two recoveries of some allowances leave what one leaves.
    fn is_made_in_two(&mut self, found: Option<&Card>) -> Result<(), String> {
        let turn = self.turns[RECOVER];
        let tried = |card: &&Card| turn % 4 == 0 && self.bound.is_known() && !card.settled();
        let Some(card) = found.filter(tried) else { return Ok(()) };
        let most = card.in_use().filter(|entry| card.undoable(entry)).count() as u64 + 2;
        let some = mix(turn as u64);
        let kind = in_two(self.one, self.card(), [some % most, (some >> 32) % most])?;
        self.tally.recoveries.in_two[kind] += 1;
        Ok(())
    }

    /// An upgrade: done, the version alone is another one; cut or refused, nothing is.
    pub fn upgrade(&mut self, allowance: u64) -> Result<Answer, String> {
        let what = || format!("upgrade(allowance {allowance})");
        let mut left = self.card().to_vec();
        let answer = self.both(UPGRADE, &|calls, lent| calls.upgrade(lent.card, allowance), &what)?;
        if let Answer::Done(_) = answer {
            left[VERSION_AT] = NOW;
        }
        if left != self.card() {
            return Err(format!("{}: {answer:?}, and it leaves another card", what()));
        }
        self.feed(Storing::Upgrade, answer, &what)?;
        Ok(answer)
    }

    fn placed(&mut self, call: usize, a: Place, b: Place, what: impl Fn() -> String) -> Result<Place, String> {
        if a != b {
            return Err(format!("{}: answers {a:?} and {b:?}", what()));
        }
        self.compared(what)?;
        match b {
            Place::Card(..) => self.count(call, Kind::First),
            Place::Disk(..) => self.count(call, Kind::Second),
            Place::Refused(number) => self.count(call, Kind::Refused(number)),
            Place::Malformed(..) => return Err(format!("malformed answer {b:?}")),
        }
        Ok(b)
    }

    /// A read, every sixteenth time with a wrong table first.
    pub fn read(&mut self, block: u64, out_length: usize) -> Result<Place, String> {
        let what = |table: &str| format!("read({block}, output of {out_length}){table}");
        self.reads += 1;
        if self.reads % 16 != 1 {
            return self.read_once(block, out_length, || what(""));
        }
        let (turn, (_, right)) = (self.table_turns[READ], self.lend_wrong_table(READ));
        let wrong = self.read_once(block, out_length, || what(" with a wrong table"))?;
        self.set_table(&right);
        let Place::Refused(with_wrong) = wrong else { return Err(format!("{}: {wrong:?}", what(" with a wrong table"))) };
        self.count_wrong_table(READ, turn, with_wrong);
        let place = self.read_once(block, out_length, || what(""))?;
        let refusal = if let Place::Refused(number) = place { Some(number) } else { None };
        self.is_in_order(READ, 16, with_wrong, refusal).map_err(|difference| format!("{}: {difference}", what("")))?;
        Ok(place)
    }

    fn read_once(&mut self, block: u64, out_length: usize, what: impl Fn() -> String) -> Result<Place, String> {
        for side in 0..2 {
            if self.out[side].length != out_length {
                self.out[side].set(&vec![0x5A; out_length]);
            } else {
                self.out[side].get_mut().fill(0x5A);
            }
        }
        let [a_table, b_table] = &mut self.table;
        let [a_out, b_out] = &mut self.out;
        let a = self.one.read(self.card[0].get(), self.disk[0].get(), a_table.get_mut(), block, a_out.get_mut());
        let b = self.other.read(self.card[1].get(), self.disk[1].get(), b_table.get_mut(), block, b_out.get_mut());
        self.placed(READ, a, b, what)
    }

    pub fn look(&mut self, block: u64) -> Result<Place, String> {
        let a = self.one.look(self.card[0].get(), self.disk[0].get(), block);
        let b = self.other.look(self.card[1].get(), self.disk[1].get(), block);
        self.placed(LOOK, a, b, || format!("look({block})"))
    }

    pub fn state(&mut self) -> Result<State, String> {
        let a = self.one.state(self.card[0].get());
        let b = self.other.state(self.card[1].get());
        if a != b {
            return Err(format!("state: answers {a:?} and {b:?}"));
        }
        self.compared(|| "state".to_string())?;
        match b {
            State::Settled { .. } => self.count(STATE, Kind::First),
            State::Unsettled { .. } => self.count(STATE, Kind::Second),
            State::Refused(number) => self.count(STATE, Kind::Refused(number)),
            State::Malformed(..) => return Err(format!("malformed answer {b:?}")),
        }
        Ok(b)
    }

    /// Whether the card, one of a history, is settled; of an old one, which state refuses, the model tells.
    pub fn is_settled(&mut self) -> Result<bool, String> {
        match self.state()? {
            State::Settled { .. } => Ok(true),
            State::Unsettled { .. } => Ok(false),
            State::Refused(1) if self.is_old() => {
                let card = Card::open(self.card(), None).map_err(|number| format!("an old card of a history is refused with {number}"))?;
                Ok(card.settled())
            }
            other => Err(format!("a card of a history is refused: {other:?}")),
        }
    }

    pub fn cached(&mut self, place: u64) -> Result<Cached, String> {
        let a = self.one.cached(self.card[0].get(), place);
        let b = self.other.cached(self.card[1].get(), place);
        if a != b {
            return Err(format!("cached({place}): answers {a:?} and {b:?}"));
        }
        match b {
            Cached::Block { .. } => self.count(CACHED, Kind::First),
            Cached::Nothing => self.count(CACHED, Kind::Second),
            Cached::Refused(number) => self.count(CACHED, Kind::Refused(number)),
            Cached::Malformed(..) => return Err(format!("malformed answer {b:?}")),
        }
        Ok(b)
    }

    /// What is cached at each place of the card, and at places that it does not have.
    pub fn listed(&mut self, data_blocks: u64) -> Result<(), String> {
        for place in (0..=data_blocks).chain([128, 1 << 32, u64::MAX]) {
            self.cached(place)?;
        }
        self.compared(|| "cached".to_string())
    }
}

/// The bytes that disk block `block` holds before a history.
pub fn first_block(seed: u64, block: u64, length: usize) -> Vec<u8> {
    let mut bytes = vec![0; length];
    Random(mix(seed ^ mix(block))).fill(&mut bytes);
    bytes
}

pub fn first_disk(seed: u64, geometry: Geometry) -> Vec<u8> {
    let mut bytes = Vec::with_capacity(geometry.disk_length());
    for block in 0..geometry.disk_blocks {
        bytes.extend_from_slice(&first_block(seed, block, geometry.block()));
    }
    bytes
}

/// How the blocks of a finish are reckoned: as document 02 has it, or wrongly. The comparison must see each wrong row.
#[derive(Clone, Copy, Debug, PartialEq, Eq)]
pub enum Reckoning {
    Right,
    /// A cut commit's first blocks are left out; all of its blocks are taken.
    WithoutCut,
    CutWhole,
    /// A recovery, or a finish, that answered done does not end the puts before it.
    RecoveryKeeps,
    FinishKeeps,
    /// A recovery that was cut ends them too.
    CutRecoveryEnds,
    /// So does an open, whatever it answers.
    OpenEnds,
    /// A finish that was cut counts.
    CutFinish,
    /// A put that was cut counts.
    CutPut,
    /// A put counts when it is done, and not first at the finish.
    PutAtOnce,
}

pub const WRONG_RECKONINGS: [Reckoning; 9] = [
    Reckoning::WithoutCut,
    Reckoning::CutWhole,
    Reckoning::RecoveryKeeps,
    Reckoning::FinishKeeps,
    Reckoning::CutRecoveryEnds,
    Reckoning::OpenEnds,
    Reckoning::CutFinish,
    Reckoning::CutPut,
    Reckoning::PutAtOnce,
];

/// A number and the bytes that are saved for it.
type Saved = (u64, Vec<u8>);

/// The row of the cut rule: fed the arguments of each save, put, finish and recovery and its answer, nothing of card or disk.
#[derive(Clone)]
pub struct Row {
    seed: u64,
    geometry: Geometry,
    saved: HashMap<u64, Vec<u8>>,
    /// The puts done since the last finish or recovery that answered done, and the blocks of the last commit that was cut.
    puts: Vec<Saved>,
    cut: Vec<Saved>,
    pub reckoning: Reckoning,
}

impl Row {
    pub fn new(seed: u64, geometry: Geometry) -> Row {
        Row { seed, geometry, saved: HashMap::new(), puts: Vec::new(), cut: Vec::new(), reckoning: Reckoning::Right }
    }

    /// A commit of either kind.
    pub fn feed(&mut self, numbers: &[u64], data: &[u8], answer: Answer) {
        let blocks = numbers.iter().copied().zip(data.chunks_exact(self.geometry.block()).map(<[u8]>::to_vec));
        match answer {
            Answer::Done(_) => self.saved.extend(blocks),
            Answer::Cut => self.cut = blocks.collect(),
            _ => {}
        }
    }

    pub fn open(&mut self) {
        if self.reckoning == Reckoning::OpenEnds {
            self.puts.clear();
            self.cut.clear();
        }
    }

    pub fn put(&mut self, number: u64, data: &[u8], answer: Answer) {
        let counts = match answer {
            Answer::Done(_) => true,
            Answer::Cut => self.reckoning == Reckoning::CutPut,
            _ => false,
        };
        if counts {
            self.puts.push((number, data.to_vec()));
        }
        if counts && self.reckoning == Reckoning::PutAtOnce {
            self.saved.insert(number, data.to_vec());
        }
    }

    /// A finish that answers done takes as many blocks as its record counts: those of the puts and, where these are fewer, before them the first
    /// blocks of the cut commit. A lawful history has no more puts than that, and no fewer blocks. Gives how many of each are taken.
    pub fn finish(&mut self, record: &[u64], answer: Answer) -> Result<[usize; 2], String> {
        let (count, puts) = match (answer, record) {
            (Answer::Done(_), [_, count]) => (*count as usize, self.puts.len()),
            (Answer::Cut, [_, count]) if self.reckoning == Reckoning::CutFinish => (*count as usize, self.puts.len()),
            _ => return Ok([0; 2]),
        };
        let fewer = count.checked_sub(puts).ok_or_else(|| format!("{puts} puts, and the finish counts {count}"))?;
        let before = match self.reckoning {
            Reckoning::WithoutCut => &[],
            Reckoning::CutWhole if fewer > 0 => &self.cut[..],
            _ => self.cut.get(..fewer).ok_or_else(|| format!("{puts} puts and {} blocks before them; the finish counts {count}", self.cut.len()))?,
        };
        self.saved.extend(before.iter().chain(&self.puts).cloned());
        if self.reckoning != Reckoning::FinishKeeps {
            self.puts.clear();
        }
        Ok([fewer, puts])
    }

    /// A recovery that answers done abandons the pending save.
    pub fn recover(&mut self, answer: Answer) {
        let ends = match answer {
            Answer::Done(_) => self.reckoning != Reckoning::RecoveryKeeps,
            _ => self.reckoning == Reckoning::CutRecoveryEnds,
        };
        if ends {
            self.puts.clear();
        }
    }

    pub fn block(&self, number: u64) -> Vec<u8> {
        match self.saved.get(&number) {
            Some(bytes) => bytes.clone(),
            None => first_block(self.seed, number, self.geometry.block()),
        }
    }

    /// Read and look hand out the row's block. An old card they refuse; its contents are then the model's to tell.
    pub fn holds(&self, pair: &mut Pair, number: u64) -> Result<(), String> {
        let wanted = self.block(number);
        let (place, looked) = (pair.read(number, self.geometry.block())?, pair.look(number)?);
        if place != looked {
            return Err(format!("block {number}: read says {place:?}, look {looked:?}"));
        }
        if pair.is_old() {
            let card = Card::open_settled(pair.card(), None).map_err(|number| format!("an old card is refused with {number}"))?;
            let held = looked == Place::Refused(1) && card.contents(pair.card(), pair.disk(), number) == wanted;
            return if held { Ok(()) } else { Err(format!("block {number} of an old card is not the row's, or is read: {looked:?}")) };
        }
        let part = match looked {
            Place::Card(at, length) => &pair.card()[at as usize..(at + length) as usize],
            Place::Disk(at, length) => &pair.disk()[at as usize..(at + length) as usize],
            _ => return Err(format!("block {number} of a settled card: {looked:?}")),
        };
        if part != wanted || pair.out() != wanted {
            return Err(format!("block {number} is not the row's"));
        }
        Ok(())
    }
}

#[derive(Clone, Debug)]
pub enum Step {
    Commit(Vec<u64>, u64),
    /// A commit that makes room.
    Room(Vec<u64>, u64),
    Load(u64),
    Evict(u64),
    Read(u64),
    Open,
    /// A put with the station's record: the block and what is saved.
    Put(u64, u64),
    Finish,
}

/// Saves over old and new blocks, round the ring, with loads and evicts of clean and modified blocks.
pub fn script() -> Vec<Step> {
    use Step::*;
    vec![
        Commit(vec![3], 1),
        Commit(vec![3], 2),
        Commit(vec![5, 3], 3),
        Evict(3),
        Load(3),
        Commit(vec![3], 4),
        Load(1),
        Commit(vec![1], 5),
        Evict(5),
        Evict(1),
        Evict(3),
        Commit(vec![0, 4, 2], 6),
        Evict(0),
        Evict(4),
        Commit(vec![2, 5, 1], 7),
        Evict(5),
        Load(5),
        Evict(5),
        Evict(1),
        Commit(vec![2, 0, 3], 8),
        Evict(2),
        Evict(3),
        Commit(vec![5, 4], 9),
    ]
}

pub fn data_of(seed: u64, n: usize, block: usize) -> Vec<u8> {
    let mut data = vec![0; n * block];
    Random(mix(seed)).fill(&mut data);
    data
}

pub fn make(pair: &mut Pair, geometry: Geometry, step: &Step, pick: Pick, allowance: u64, row: &mut Row) -> Result<Answer, String> {
    match step {
        Step::Commit(numbers, seed) => {
            let data = data_of(*seed, numbers.len(), geometry.block());
            let answer = pair.foretold(numbers, &data, pick, allowance)?;
            row.feed(numbers, &data, answer);
            Ok(answer)
        }
        Step::Room(numbers, seed) => {
            let data = data_of(*seed, numbers.len(), geometry.block());
            let answer = pair.commit_making_room(numbers, &data, pick, allowance)?;
            row.feed(numbers, &data, answer);
            Ok(answer)
        }
        Step::Load(block) => pair.load(*block, pick, allowance),
        Step::Evict(block) => pair.evict(*block, pick, allowance),
        Step::Read(block) => pair.read(*block, geometry.block()).map(|_| Answer::Done(0)),
        Step::Open => {
            row.open();
            pair.open().map(|opened| if let Opened::Refused(number) = opened { Answer::Refused(number) } else { Answer::Done(0) })
        }
        Step::Put(block, seed) => {
            let data = data_of(*seed, 1, geometry.block());
            let answer = pair.put(*block, &data, pick, allowance)?;
            row.put(*block, &data, answer);
            Ok(answer)
        }
        Step::Finish => finish(pair, allowance, row),
    }
}

/// The step in full, where the choice plays no part.
pub fn make_in_full(pair: &mut Pair, geometry: Geometry, step: &Step, row: &mut Row) -> Result<u64, String> {
    done(make(pair, geometry, step, Pick::Zeros, u64::MAX, row)?)
}

pub fn done(answer: Answer) -> Result<u64, String> {
    match answer {
        Answer::Done(count) => Ok(count),
        other => Err(format!("done expected, answer {other:?}")),
    }
}

/// Part a: at each step of the script every allowance from 0 to m, each with every kind of choice; after each of them a recovery at every
/// allowance, after each cut one a second at every allowance, then one in full; then the row, the row once all is evicted, and the step
/// once more. Inside the words of one block only every stride-th place is tried so, the others with one choice and no recovery.
pub fn every_cut<'a>(
    one: &'a dyn Calls,
    other: &'a dyn Calls,
    geometry: Geometry,
    script: &[Step],
    blocks: u64,
    stride: u64,
) -> Result<Tally, String> {
    let seed = 17;
    let mut card = vec![0; geometry.card_length()];
    Random(seed).fill(&mut card);
    let mut pair = Pair::new(one, other, &card, &first_disk(seed, geometry), 1);
    let mut row = Row::new(seed, geometry);
    done(pair.format(geometry.k, geometry.slots, geometry.data_blocks, geometry.disk_blocks)?)?;
    for step in script {
        let before = pair.snapshot();
        let m = make_in_full(&mut pair, geometry, step, &mut row.clone())?;
        for allowance in 0..=m {
            let followed_up = !is_inside(geometry, allowance, m) || allowance % stride == 0;
            let one_pick = [PICKS[allowance as usize % PICKS.len()]];
            for pick in if followed_up { &PICKS[..] } else { &one_pick } {
                pair.set(&before);
                let (mut after, awaited) = (row.clone(), if allowance < m { Answer::Cut } else { Answer::Done(m) });
                let answer = make(&mut pair, geometry, step, *pick, allowance, &mut after)?;
                if answer != awaited {
                    return Err(format!("{step:?} of {m} stores, choice {pick:?}, allowance {allowance}: {answer:?}"));
                }
                as_left(&mut pair, geometry, blocks, &after)?;
                if followed_up {
                    follow_up(&mut pair, geometry, blocks, step, answer, &mut after)?;
                }
            }
        }
        pair.set(&before);
        make_in_full(&mut pair, geometry, step, &mut row)?;
    }
    Ok(pair.tally)
}

/// All that can come after a step that was cut or done.
fn follow_up(pair: &mut Pair, geometry: Geometry, blocks: u64, step: &Step, answer: Answer, row: &mut Row) -> Result<(), String> {
    ways_on(pair, geometry, blocks, step, row).map_err(|difference| format!("after {step:?}, {answer:?}: {difference}"))?;
    every_recovery(pair, blocks, row)?;
    goes_on(pair, geometry, blocks, step, answer, row)
}

/// Whether an allowance of a call of `m` stores ends inside the words of a block, away from what is stored before and behind them.
pub fn is_inside(geometry: Geometry, allowance: u64, m: u64) -> bool {
    let trailing = m.saturating_sub(4 * geometry.data_blocks + 8);
    allowance > 3 && allowance < trailing && allowance % (geometry.block() as u64 / 8) > 6
}

pub fn all_hold(pair: &mut Pair, blocks: u64, row: &Row) -> Result<(), String> {
    (0..blocks).try_for_each(|block| row.holds(pair, block))
}

/// What a call left, before any recovery: on a settled card the row.
pub fn as_left(pair: &mut Pair, geometry: Geometry, blocks: u64, row: &Row) -> Result<(), String> {
    pair.listed(geometry.data_blocks)?;
    if pair.is_settled()? {
        return all_hold(pair, blocks, row);
    }
    (0..blocks).try_for_each(|block| pair.look(block).map(drop))
}

/// A recovery at every allowance, after each cut one a second at every allowance, then one in full, and the row.
pub fn every_recovery(pair: &mut Pair, blocks: u64, row: &mut Row) -> Result<(), String> {
    let cut = pair.snapshot();
    let places = done(pair.recover(u64::MAX)?)?;
    for first in 0..=places {
        pair.set(&cut);
        pair.recover(first)?;
        let once = pair.snapshot();
        let places = done(pair.recover(u64::MAX)?)?;
        for second in 0..=places {
            pair.set(&once);
            pair.recover(second)?;
            let answer = pair.recover(u64::MAX)?;
            row.recover(answer);
            if done(answer)? != places - second {
                return Err("a recovery's remaining stores are not those that were cut off".to_string());
            }
            if !pair.is_settled()? {
                return Err("not settled after a recovery that answered done".to_string());
            }
            all_hold(pair, blocks, row)?;
        }
    }
    Ok(())
}

/// From a recovered card what is on it reaches the disk, what is clean without a store there, and a step that was cut is made once more. Of a
/// pending save, which the recovery abandoned, that is another save.
pub fn goes_on(pair: &mut Pair, geometry: Geometry, blocks: u64, step: &Step, answer: Answer, row: &mut Row) -> Result<(), String> {
    let recovered = pair.snapshot();
    let card = Card::open_settled(pair.card(), None).map_err(|number| format!("a recovered card is refused with {number}"))?;
    for block in 0..blocks {
        let (clean, disk) = (card.in_use().any(|entry| entry.number == block && !entry.modified), pair.disk().to_vec());
        let answer = pair.evict(block, Pick::Zeros, u64::MAX)?;
        if clean && (answer != Answer::Done(1) || pair.disk() != disk) {
            return Err(format!("evict of block {block}, which is clean: {answer:?}"));
        }
        row.holds(pair, block)?;
    }
    pair.set(&recovered);
    if answer == Answer::Cut {
        match step {
            Step::Put(..) | Step::Finish => fresh_save(pair, geometry, row)?,
            _ => drop(make_in_full(pair, geometry, step, row)?),
        }
        all_hold(pair, blocks, row)?;
    }
    Ok(())
}

/// Part b: a random history of `calls` calls with cuts from a formatted card.
pub fn random_history<'a>(
    one: &'a dyn Calls,
    other: &'a dyn Calls,
    geometry: Geometry,
    calls: u64,
    seed: u64,
) -> Result<Tally, String> {
    let mut random = Random(mix(seed));
    let mut card = vec![0; geometry.card_length()];
    random.fill(&mut card);
    let mut pair = Pair::new(one, other, &card, &first_disk(seed, geometry), (seed % 8) as usize);
    let mut row = Row::new(seed, geometry);
    done(pair.format(geometry.k, geometry.slots, geometry.data_blocks, geometry.disk_blocks)?)?;
    let small = geometry.disk_blocks <= 64;
    for turn in 0..calls {
        some_call(&mut pair, &mut random, geometry, &mut row)?;
        if turn % 4 == 0 {
            match pair.is_settled()? {
                true if small && turn % 32 == 0 => all_hold(&mut pair, geometry.disk_blocks, &row)?,
                true => row.holds(&mut pair, some_number(&mut random, geometry))?,
                false => {}
            }
            if turn % 256 == 0 {
                pair.whole()?;
            }
        }
    }
    done(pair.recover(u64::MAX)?)?;
    let every = if small { geometry.disk_blocks } else { hot_numbers(geometry) };
    for number in 0..every {
        row.holds(&mut pair, if small { number } else { some_number(&mut random, geometry) })?;
    }
    pair.whole()?;
    Ok(pair.tally)
}

/// How many numbers the calls of a history take.
fn hot_numbers(geometry: Geometry) -> u64 {
    geometry.disk_blocks.min(2 * geometry.data_blocks)
}

/// One of them. Some lie at the disk's end.
pub fn some_number(random: &mut Random, geometry: Geometry) -> u64 {
    let number = random.below(hot_numbers(geometry));
    if number % 3 == 2 {
        geometry.disk_blocks - 1 - number
    } else {
        number
    }
}

/// One call of a history, with any arguments; at times the station's table is another one after it, unlike card and disk.
pub fn some_call(pair: &mut Pair, random: &mut Random, geometry: Geometry, row: &mut Row) -> Result<(), String> {
    let block = geometry.block();
    let most = match random.below(3) {
        0 => u64::MAX,
        _ => random.below(6 * (block as u64 / 8 + 4) + 2),
    };
    let choice = random.pick(&PICKS);
    match random.below(24) {
        0..=5 => save(pair, random, geometry, choice, row)?,
        6 | 7 => {
            pair.load(some_number(random, geometry), choice, most)?;
        }
        8..=10 => {
            let allowance = if random.once_in(3) { random.below(block as u64 / 512 + 2) } else { u64::MAX };
            pair.evict(some_number(random, geometry), choice, allowance)?;
        }
        11 => some_recoveries(pair, random, row)?,
        12 => {
            let answer = pair.recover(if random.once_in(3) { random.below(5) } else { u64::MAX })?;
            row.recover(answer);
        }
        13..=15 => some_reading(pair, random, geometry)?,
        20..=23 => some_pending(pair, random, geometry, choice, row)?,
        // a station of before has no upgrade
        16 if pair.version == NOW => {
            pair.upgrade(random.pick(&[0, 1, 2, u64::MAX]))?;
        }
        _ => save_making_room(pair, random, geometry, choice, row)?,
    }
    if random.once_in(50) {
        let table = random.pick(&ORDERS).table(random.next());
        pair.set_table(&table);
    }
    Ok(())
}

/// A call of a history that stores nothing.
fn some_reading(pair: &mut Pair, random: &mut Random, geometry: Geometry) -> Result<(), String> {
    match random.below(3) {
        0 => drop(pair.read(some_number(random, geometry), geometry.block())?),
        1 => drop(pair.look(some_number(random, geometry))?),
        _ => {
            pair.state()?;
            pair.listed(geometry.data_blocks)?;
        }
    }
    Ok(())
}

/// A commit that makes no room, foretold; mostly of few blocks, of some of them twice.
fn save(pair: &mut Pair, random: &mut Random, geometry: Geometry, pick: Pick, row: &mut Row) -> Result<(), String> {
    let block = geometry.block();
    let largest = (geometry.slots - 1).min(geometry.data_blocks / 2).min(geometry.disk_blocks).max(1);
    let n = match random.below(20) {
        0 => largest,
        1 => 0,
        2 => (geometry.slots - random.below(2)).min(300),
        _ => 1 + random.below(largest.min(4)),
    } as usize;
    let mut numbers: Vec<u64> = Vec::new();
    while numbers.len() < n {
        let number = some_number(random, geometry);
        if !numbers.contains(&number) || random.once_in(40) || numbers.len() as u64 >= hot_numbers(geometry) / 2 {
            numbers.push(number);
        }
    }
    let data = data_of(random.next(), n, block);
    let m = (n * (block / 8 + 4) + 1) as u64;
    let allowance = match random.below(6) {
        0 => random.below(m + 2),
        1 => (m + 1).saturating_sub(random.below(2 * n as u64 + 4)),
        _ => u64::MAX,
    };
    if random.once_in(3) {
        pair.preview(&numbers, &data, some_output(random))?;
    }
    let answer = pair.foretold(&numbers, &data, pick, allowance)?;
    row.feed(&numbers, &data, answer);
    Ok(())
}

/// A commit that makes room, of up to as many blocks as the card has, with some of them cached.
fn save_making_room(pair: &mut Pair, random: &mut Random, geometry: Geometry, pick: Pick, row: &mut Row) -> Result<(), String> {
    let largest = (geometry.slots - 1).min(geometry.data_blocks).min(geometry.disk_blocks);
    let most = if random.once_in(3) { largest } else { largest.min(4) };
    let n = 1 + random.below(most);
    let mut numbers: Vec<u64> = Vec::new();
    for _ in 0..2 * n {
        let number = some_number(random, geometry);
        if (numbers.len() as u64) < n && (!numbers.contains(&number) || random.once_in(40)) {
            numbers.push(number);
        }
    }
    let (data, words) = (data_of(random.next(), numbers.len(), geometry.block()), geometry.block() as u64 / 8);
    let m = commit_stores(numbers.len() as u64, geometry.block() as u64) + numbers.len() as u64 * (words / 64 + 1);
    let allowance = match random.below(6) {
        0 => random.below(m),
        1 => random.below(2 * n * (words / 64 + 1)),
        2 => m - random.below(m.min(words)),
        _ => u64::MAX,
    };
    let answer = pair.commit_making_room(&numbers, &data, pick, allowance)?;
    row.feed(&numbers, &data, answer);
    Ok(())
}

/// A card somewhere in a history, cut or not, made by the model alone.
pub fn some_card(random: &mut Random, geometry: Geometry, version: u8) -> Snapshot {
    let model = Model::of(version);
    let mut card = vec![0; geometry.card_length()];
    random.fill(&mut card);
    let (mut disk, mut table) = (first_disk(random.next(), geometry), ascending());
    model.format(geometry.k, geometry.slots, geometry.data_blocks, geometry.disk_blocks, &mut card);
    for _ in 0..random.below(12) {
        let (number, mut map) = (random.below(geometry.disk_blocks), map_of(&card));
        match random.below(5) {
            4 => some_puts(&model, random, geometry, &mut card),
            0 => {
                model.load(&mut card, &disk, &mut map, &mut table, number, &zeros(geometry.block()), u64::MAX);
            }
            1 => {
                model.evict(&mut card, &mut disk, &mut map, number, &zeros(geometry.block()), u64::MAX);
            }
            _ => {
                let n = 1 + random.below(geometry.disk_blocks.min(3)) as usize;
                let numbers: Vec<u64> = (0..n as u64).map(|i| (number + i) % geometry.disk_blocks).collect();
                let m = (n * (geometry.block() / 8 + 4) + 1) as u64;
                let allowance = if random.once_in(3) { m - random.below(2 * n as u64 + 4) } else { m };
                let (data, choice) = (data_of(random.next(), n, geometry.block()), in_order(geometry.block(), allowance));
                if random.once_in(3) {
                    model.commit_making_room(&mut card, &mut disk, &mut map, &mut table, &numbers, &data, &choice, allowance);
                } else {
                    model.commit(&mut card, &mut map, &numbers, &data, &choice, allowance);
                }
            }
        }
    }
    Snapshot::new(card, disk, table)
}

/// A pending save of up to three blocks, the last put cut at times, finished or not.
fn some_puts(model: &Model, random: &mut Random, geometry: Geometry, card: &mut [u8]) {
    let Opened::Open(mut record) = model.open(card) else { return };
    let (mut map, stores) = (map_of(card), geometry.block() as u64 / 8 + 3);
    for _ in 0..1 + random.below(3) {
        let (number, data) = (random.below(geometry.disk_blocks), data_of(random.next(), 1, geometry.block()));
        let allowance = if random.once_in(6) { stores - 1 - random.below(4) } else { stores };
        model.put(card, &mut map, &mut record, number, &data, &zeros(geometry.block()), allowance);
    }
    if random.once_in(2) {
        model.finish(card, &mut map, &mut record, if random.once_in(3) { random.below(3) } else { u64::MAX });
    }
}

/// A card that caches the first blocks of its disk, as many as asked.
fn loaded(geometry: Geometry, count: u64) -> Snapshot {
    let model = Model::default();
    let (mut card, disk) = (vec![0; geometry.card_length()], first_disk(count, geometry));
    model.format(geometry.k, geometry.slots, geometry.data_blocks, geometry.disk_blocks, &mut card);
    let (mut map, mut table, choice) = (map_of(&card), ascending(), zeros(geometry.block()));
    for block in 0..count {
        assert!(matches!(model.load(&mut card, &disk, &mut map, &mut table, block, &choice, u64::MAX), Answer::Done(_)));
    }
    Snapshot::new(card, disk, table)
}

pub fn put(bytes: &mut [u8], at: usize, value: &[u8]) {
    bytes[at..at + value.len()].copy_from_slice(value);
}

/// One damage of many kinds.
pub fn damage(random: &mut Random, geometry: Geometry, to: &mut Snapshot) {
    let card = &mut to.card;
    let (s, n, d) = (geometry.slots, geometry.data_blocks, geometry.disk_blocks);
    let some_entry = geometry.entry_at(random.below(n) as usize);
    let other_entry = geometry.entry_at(random.below(n) as usize);
    match random.below(22) {
        0 => card[random.below(64) as usize] ^= 1 << random.below(8),
        1 => put(card, 0, &random.pick(&[0u32, 63, 65, 128, 0x4000_0000]).to_be_bytes()),
        2 => card[VERSION_AT] = random.pick(&VERSIONS),
        3 => card[5] = random.pick(&[0, 8, 9, 10, 11, 12, 13, 64, 255]),
        4 => put(card, 6, &random.pick(&[0u16, 4, 7, 8, 9, 12, 16, 256, 257, 264, 65_528]).to_be_bytes()),
        5 => put(card, 8, &random.pick(&[0u32, 2, 3, 4, 6, 8, 128, 130, 132, 0xFFFF_FFFC]).to_be_bytes()),
        6 => put(card, 12, &random.pick(&[0u32, 1, 16, 65_536, 65_537, 0xFFFF_FFFF]).to_be_bytes()),
        7 => card[16 + random.below(48) as usize] = 1 + random.below(255) as u8,
        8 => {
            let length = random.pick(&[0, 1, 63, 64, 79, 80, 127, 128, 129, 191, card.len() - 1, card.len() - 8, card.len() + 1, card.len() + 16]);
            card.resize(length, 0);
        }
        9 => {
            let length = random.pick(&[0, 1, to.disk.len() - 1, to.disk.len() + 1, to.disk.len() + 512, to.disk.len() - 512]);
            to.disk.resize(length, 0);
        }
        10 => {
            let at = random.pick(&[64, 72]);
            put(card, at, &random.pick(&[s, s + 1, s - 1, 1 << 63, u64::MAX, 1 << 56, 256]).to_be_bytes());
        }
        11 => {
            put(card, 64, &random.below(s).to_be_bytes());
            put(card, 72, &random.below(s).to_be_bytes());
        }
        12 => {
            put(card, 64, &random.below(s).to_be_bytes());
            let number = random.pick(&[d, d - 1, d + 1, 1 << 56, 1 << 63, u64::MAX, 0]);
            put(card, geometry.slot_at(random.below(s)), &number.to_be_bytes());
        }
        13 => card[some_entry] = random.next() as u8,
        14 => card[some_entry] = random.pick(&[0, 0x80, 0x81, 0x82, 0x83, 0x84, 0x85, 0x86, 0x87]),
        15 => {
            let number = random.pick(&[d, d - 1, d + 1, 0, (1 << 56) - 1, 1 << 48]).to_be_bytes();
            put(card, some_entry + 1, &number[1..]);
        }
        16 => put(card, some_entry + 8, &random.pick(&[n as u32, n as u32 - 1, 0, 0xFFFF_FFFF, 0xFFFF_FFFE, 1 << 31]).to_be_bytes()),
        17 => put(card, some_entry + 12, &random.pick(&[n as u32, n as u32 - 1, 0, 0xFFFF_FFFF, 0xFFFF_FFFE, 1 << 24]).to_be_bytes()),
        18 => {
            let (from, length) = random.pick(&[(0, 16), (1, 7), (8, 4), (12, 4), (8, 8)]);
            let part: Vec<u8> = card[other_entry + from..other_entry + from + length].to_vec();
            put(card, some_entry + from, &part);
        }
        19 => {
            let part: Vec<u8> = card[other_entry + 12..other_entry + 16].to_vec();
            put(card, some_entry + 8, &part);
            card[some_entry] = random.pick(&[0x83, 0x87]);
        }
        20 => {
            let length = card.len().min(128);
            random.fill(&mut card[80..length]);
        }
        _ => {
            let at = random.below(geometry.block_at(0) as u64) as usize;
            card[at] = random.next() as u8;
        }
    }
}

/// A card with a right header and length, its ring and entries drawn at random from what is almost allowed.
pub fn drawn(random: &mut Random, geometry: Geometry) -> Snapshot {
    let (s, n, d) = (geometry.slots, geometry.data_blocks, geometry.disk_blocks);
    let mut card = vec![0; geometry.card_length()];
    random.fill(&mut card);
    let version = random.pick(&[OLD, NOW, NOW]);
    put(&mut card, 0, &geometry.header(version));
    let head = random.below(s);
    let tail = if random.once_in(2) { head } else { random.below(s) };
    put(&mut card, 64, &head.to_be_bytes());
    put(&mut card, 72, &tail.to_be_bytes());
    for slot in 0..s {
        put(&mut card, geometry.slot_at(slot), &random.below(d).to_be_bytes());
    }
    let flags: &[u8] = match (random.once_in(2), version) {
        (true, OLD) => &[0, 0x80, 0x82],
        (true, _) => &[0, 0x80, 0x82, 0x86],
        (_, OLD) => &[0, 0, 0x80, 0x82, 0x83],
        _ => &[0, 0, 0x80, 0x82, 0x83, 0x86, 0x87],
    };
    for index in 0..n as usize {
        let at = geometry.entry_at(index);
        put(&mut card, at, &[0; 16]);
        let flag = random.pick(flags);
        if flag != 0 {
            put(&mut card, at, &random.below(d).to_be_bytes());
            card[at] = flag;
            let previous = if random.once_in(2) { 0xFFFF_FFFF } else { random.below(n) as u32 };
            put(&mut card, at + 8, &previous.to_be_bytes());
            let current = if random.once_in(4) { random.below(n) as u32 } else { index as u32 };
            put(&mut card, at + 12, &current.to_be_bytes());
        }
    }
    Snapshot::new(card, first_disk(random.next(), geometry), ascending())
}

/// Every call on one card and disk, each from the same bytes.
fn every_call(pair: &mut Pair, random: &mut Random, geometry: Geometry, from: &Snapshot) -> Result<(), String> {
    let some = |random: &mut Random| match random.below(12) {
        0 => geometry.disk_blocks,
        _ => random.below(geometry.disk_blocks),
    };
    let block = geometry.block();
    pair.set(from);
    pair.state()?;
    pair.make_map()?;
    pair.listed(geometry.data_blocks)?;
    let (number, length) = (some(random), if random.once_in(8) { block - 1 } else { block });
    pair.read(number, length)?;
    pair.look(some(random))?;
    let allowance = if random.once_in(3) { random.below(4) } else { u64::MAX };
    pair.recover(allowance)?;
    pair.recover(u64::MAX)?;
    pair.set(from);
    let n = random.below(5) as usize;
    let numbers: Vec<u64> = (0..n).map(|_| some(random)).collect();
    let data = data_of(random.next(), n, block);
    let allowance = if random.once_in(3) { random.below((n * (block / 8 + 4) + 2) as u64) } else { u64::MAX };
    pair.preview(&numbers, &data[if random.once_in(8) { n.min(1) } else { 0 }..], some_output(random))?;
    pair.foretold(&numbers, &data, random.pick(&PICKS), allowance)?;
    pair.set(from);
    pair.commit_making_room(&numbers, &data, random.pick(&PICKS), allowance)?;
    pair.set(from);
    let allowance = if random.once_in(3) { random.below(block as u64 / 8 + 2) } else { u64::MAX };
    pair.load(some(random), random.pick(&PICKS), allowance)?;
    pair.set(from);
    let allowance = if random.once_in(3) { random.below(block as u64 / 512 + 2) } else { u64::MAX };
    pair.evict(some(random), random.pick(&PICKS), allowance)?;
    let number = some(random);
    every_pending_call(pair, random, geometry, number, from)?;
    if let Answer::Done(_) = pair.upgrade(random.pick(&[0, 1, 2, u64::MAX]))? {
        pair.state()?;
        pair.look(some(random))?;
    }
    Ok(())
}

/// Part c: damaged cards of both versions, and old ones that are sound; every call on each.
pub fn damaged<'a>(one: &'a dyn Calls, other: &'a dyn Calls, geometry: Geometry, cards: u64, seed: u64) -> Result<Tally, String> {
    let mut random = Random(mix(seed));
    let mut pair = Pair::new(one, other, &[], &[], (seed % 8) as usize);
    for turn in 0..cards {
        let mut from = match turn % 4 {
            0 => drawn(&mut random, geometry),
            1 if turn % 16 == 1 => {
                let length = random.pick(&[0, 5, 100, 127, 128, geometry.card_length()]);
                let mut card = vec![0; length];
                random.fill(&mut card);
                Snapshot::new(card, vec![0; geometry.disk_length()], ascending())
            }
            2 if turn % 8 == 2 => some_card(&mut random, geometry, OLD),
            _ => {
                let version = random.pick(&[OLD, NOW, NOW]);
                let mut from = some_card(&mut random, geometry, version);
                damage(&mut random, geometry, &mut from);
                if random.once_in(3) && from.card.len() == geometry.card_length() && from.disk.len() == geometry.disk_length() {
                    damage(&mut random, geometry, &mut from);
                }
                from
            }
        };
        if turn % 4 == 0 && turn % 12 == 0 {
            damage(&mut random, geometry, &mut from);
        }
        if random.once_in(2) {
            from.table = random.pick(&ORDERS).table(random.next());
        }
        every_call(&mut pair, &mut random, geometry, &from)?;
    }
    Ok(pair.tally)
}

/// A save in parts of one block, with data of every length.
fn every_length(pair: &mut Pair, number: u64, pick: Pick, allowance: u64, block: usize) -> Result<(), String> {
    pair.open()?;
    for (length, allowance) in [(block - 1, allowance), (0, u64::MAX), (block + 1, u64::MAX), (block, allowance), (block, u64::MAX)] {
        pair.put(number, &data_of(number, 2, block)[..length], pick, allowance)?;
    }
    pair.finish(allowance)?;
    pair.finish(u64::MAX).map(drop)
}

/// Part d: block numbers, counts, lengths and geometries of every kind.
pub fn arguments<'a>(one: &'a dyn Calls, other: &'a dyn Calls, seed: u64) -> Result<Tally, String> {
    let mut random = Random(mix(seed));
    let mut tally = Tally::default();
    let geometries = [
        Geometry { k: 9, slots: 8, data_blocks: 4, disk_blocks: 16 },
        Geometry { k: 10, slots: 16, data_blocks: 8, disk_blocks: 1 },
        Geometry { k: 12, slots: 8, data_blocks: 12, disk_blocks: 40 },
        Geometry { k: 9, slots: 64, data_blocks: 128, disk_blocks: 300 },
    ];
    for geometry in geometries {
        let (s, d, block) = (geometry.slots, geometry.disk_blocks, geometry.block());
        let numbers = [0, d - 1, d, d + 1, 1 << 32, 1 << 56, 1 << 63, u64::MAX, u64::MAX - 1];
        let allowances = [0, 1, 2, block as u64 / 8, block as u64 / 8 + 1, 1 << 32, 1 << 63, u64::MAX];
        let counts = [0, 1, 2, 3, s - 2, s - 1, s, s + 1, 2 * s, 300];
        let mut pair = Pair::new(one, other, &[], &[], 3);
        for _ in 0..60 {
            let from = some_card(&mut random, geometry, NOW);
            for number in numbers {
                let (allowance, pick) = (random.pick(&allowances), random.pick(&PICKS));
                pair.set(&from);
                for length in [0, 1, 511, block - 1, block, block + 1, 2 * block] {
                    pair.read(number, length)?;
                }
                pair.look(number)?;
                pair.load(number, pick, allowance)?;
                pair.load(number, pick, u64::MAX)?;
                pair.evict(number, pick, allowance)?;
                pair.evict(number, pick, u64::MAX)?;
                pair.foretold(&[number], &data_of(number, 1, block), pick, allowance)?;
                pair.commit_making_room(&[number], &data_of(number, 1, block), pick, allowance)?;
                pair.recover(allowance)?;
                pair.upgrade(allowance)?;
                every_length(&mut pair, number, pick, allowance, block)?;
            }
            for count in counts {
                pair.set(&from);
                let ascending: Vec<u64> = (0..count).collect();
                let mut repeated: Vec<u64> = (0..count).map(|i| i % d).collect();
                if let (Some(first), true) = (repeated.first().copied(), random.once_in(2)) {
                    *repeated.last_mut().unwrap() = first;
                }
                let mut outside = repeated.clone();
                if let Some(last) = outside.last_mut() {
                    *last = random.pick(&[d, 1 << 63, u64::MAX]);
                }
                for list in [&ascending, &repeated, &outside] {
                    let data = data_of(count, count as usize + 1, block);
                    let right = count as usize * block;
                    for length in [right, 0, right.saturating_sub(1), right + 1, right.saturating_sub(block), right + block, right] {
                        pair.preview(list, &data[..length], some_output(&mut random))?;
                        let (allowance, pick) = (random.pick(&allowances), random.pick(&PICKS));
                        if length == right {
                            pair.foretold(list, &data[..length], pick, allowance)?;
                        } else {
                            pair.commit(list, &data[..length], pick, allowance)?;
                        }
                        if random.once_in(2) {
                            pair.recover(u64::MAX)?;
                        }
                        if random.once_in(3) {
                            pair.commit_making_room(list, &data[..length], pick, allowance)?;
                        }
                    }
                }
            }
            for length in [0, block, from.disk.len() + block, from.disk.len() - block] {
                pair.set(&from);
                pair.set_disk(&from.disk.iter().copied().cycle().take(length).collect::<Vec<u8>>());
                pair.look(0)?;
                pair.read(0, block)?;
                pair.load(1, Pick::Zeros, u64::MAX)?;
                pair.evict(1, Pick::Zeros, u64::MAX)?;
                pair.commit_making_room(&[0], &data_of(0, 1, block), Pick::Zeros, u64::MAX)?;
            }
        }
        tally.add(&pair.tally);
    }
    // a card whose map has no bit set and one whose map has every bit set, each call with every kind of wrong map
    for (data_blocks, cached) in [(128, 0), (4, 4)] {
        let geometry = Geometry { k: 9, slots: 8, data_blocks, disk_blocks: 6 };
        let from = loaded(geometry, cached);
        let mut pair = Pair::new(one, other, &from.card, &from.disk, 4);
        for _ in 0..2 * WRONG_MAPS.len() {
            pair.foretold(&[5], &data_of(5, 1, geometry.block()), Pick::Zeros, u64::MAX)?;
            pair.set(&from);
            pair.commit_making_room(&[5], &data_of(5, 1, geometry.block()), Pick::Zeros, u64::MAX)?;
            pair.set(&from);
            pair.load(5, Pick::Zeros, u64::MAX)?;
            pair.set(&from);
            pair.evict(0, Pick::Zeros, u64::MAX)?;
            pair.set(&from);
            pair.recover(u64::MAX)?;
            pair.put(5, &data_of(5, 1, geometry.block()), Pick::Zeros, u64::MAX)?;
            pair.finish(u64::MAX)?;
            pair.set(&from);
        }
        tally.add(&pair.tally);
    }
    // the free count of any two words
    let mut pair = Pair::new(one, other, &[], &[], 0);
    for _ in 0..1000 {
        let (low, high) = (random.next(), random.next());
        for [low, high] in [[low, high], [low & random.next(), high | random.next()], [0, high], [u64::MAX, low]] {
            pair.free_count(low, high)?;
        }
    }
    for bit in 0..64 {
        for [low, high] in [[1 << bit, 0], [0, 1 << bit], [!(1 << bit), u64::MAX], [u64::MAX, !(1 << bit)]] {
            pair.free_count(low, high)?;
        }
    }
    tally.add(&pair.tally);
    // format
    let ks = [0, 8, 9, 10, 11, 12, 13, 64, 256 + 9, 1 << 32, u64::MAX];
    let slots = [0, 4, 7, 8, 12, 16, 248, 256, 260, 264, 65_536 + 8, 1 << 63, u64::MAX];
    let data_blocks = [0, 2, 4, 6, 8, 124, 128, 130, 132, (1 << 32) + 4, u64::MAX - 3];
    let disk_blocks = [0, 1, 16, 65_535, 65_536, 65_537, (1 << 32) + 1, u64::MAX];
    let mut pair = Pair::new(one, other, &[], &[], 5);
    for k in ks {
        for s in slots {
            for n in data_blocks {
                for d in disk_blocks {
                    let geometry = Geometry { k, slots: s, data_blocks: n, disk_blocks: d };
                    let right = if geometry.allowed() { geometry.card_length() } else { 2304 };
                    let lengths: &[usize] = if geometry.allowed() { &[0, 100, 127, 128, right - 1, right + 1, right] } else { &[right] };
                    for length in lengths {
                        if *length > 20_000 && !random.once_in(40) {
                            continue;
                        }
                        let mut card = vec![0; *length];
                        random.fill(&mut card);
                        pair.set_card(&card);
                        pair.format(k, s, n, d)?;
                        pair.state()?;
                        pair.cached(n)?;
                        pair.make_map()?;
                    }
                }
            }
        }
    }
    tally.add(&pair.tally);
    Ok(tally)
}

/// Every list of up to `most` of the numbers from 0 to `last`, repeats among them; and some as long as the ring.
pub fn every_list(last: u64, most: u32, slots: u64) -> Vec<Vec<u64>> {
    let mut lists: Vec<Vec<u64>> = Vec::new();
    for n in 0..=most {
        let digits = |code: u64| (0..n).map(|place| code / (last + 1).pow(place) % (last + 1)).collect();
        lists.extend((0..(last + 1).pow(n)).map(digits));
    }
    lists.extend([slots - 1, slots].map(|n| (0..n).rev().collect()));
    lists
}

/// Part e: on each card of the script every list of up to `most` numbers, D itself among them: previews with every kind of output and
/// with data of wrong lengths, then commits with one store less than foretold, with as many, and with all.
pub fn every_preview<'a>(one: &'a dyn Calls, other: &'a dyn Calls, geometry: Geometry, most: u32) -> Result<Tally, String> {
    let seed = 23;
    let disk = first_disk(seed, geometry);
    let mut pair = Pair::new(one, other, &vec![0; geometry.card_length()], &disk, 1);
    let mut row = Row::new(seed, geometry);
    done(pair.format(geometry.k, geometry.slots, geometry.data_blocks, geometry.disk_blocks)?)?;
    for step in script() {
        let before = pair.snapshot();
        for numbers in every_list(geometry.disk_blocks, most, geometry.slots) {
            let data = data_of(seed, numbers.len() + 1, geometry.block());
            every_save(&mut pair, &before, &numbers, &data, geometry.block())?;
        }
        make_in_full(&mut pair, geometry, &step, &mut row)?;
    }
    Ok(pair.tally)
}

/// The previews of one list of numbers and the commits that they foretell, from one card, which they leave. `data` has a block more.
fn every_save(pair: &mut Pair, from: &Snapshot, numbers: &[u64], data: &[u8], block: usize) -> Result<(), String> {
    let n = numbers.len();
    let right = &data[..n * block];
    for output in WRONG_OUTPUTS {
        let answer = pair.preview(numbers, right, output)?;
        if output.length(n) != n && !matches!(answer, Answer::Refused(8 | 9)) {
            return Err(format!("preview({numbers:?}) with an output of {}: {answer:?}", output.length(n)));
        }
    }
    for length in [0, right.len().saturating_sub(1), right.len() + 1, data.len()] {
        pair.preview(numbers, &data[..length], Output::Whole)?;
        pair.preview(numbers, &data[..length], Output::OneMore)?;
    }
    let m = commit_stores(n as u64, block as u64);
    for allowance in [m - 1, m, u64::MAX] {
        pair.foretold(numbers, right, Pick::Zeros, allowance)?;
        pair.set(from);
    }
    Ok(())
}

/// The drill of document 01 on one implementation, with a choice of zeros.
pub fn drill(calls: &dyn Calls) -> String {
    let mut printed = "allowance,commit,recovery,byte\n".to_string();
    for allowance in 64..=69 {
        let (mut card, disk, mut out) = (vec![0; 2304], vec![0; 16 * 512], vec![0; 512]);
        calls.format(9, 8, 4, 16, &mut card);
        let FreeMap::Made(mut map) = calls.make_map(&card) else { return "no map of a fresh card".to_string() };
        let commit = match calls.commit(&mut card, &mut map, &[3], &[7; 512], &zeros(512), allowance) {
            Answer::Done(_) => "done",
            Answer::Cut => {
                let FreeMap::Made(again) = calls.make_map(&card) else { return "no map of a cut card".to_string() };
                map = again;
                "cut"
            }
            _ => "refused",
        };
        let Answer::Done(stores) = calls.recover(&mut card, &mut map, u64::MAX) else { return "recovery not done".to_string() };
        calls.read(&card, &disk, &mut ascending(), 3, &mut out);
        printed += &format!("{allowance},{commit},{stores},{}\n", out[0]);
    }
    printed
}

pub const DRILL: &str = "allowance,commit,recovery,byte\n64,cut,0,0\n65,cut,1,0\n66,cut,1,0\n67,cut,2,0\n68,cut,2,0\n69,done,0,7\n";

#[cfg(test)]
mod tests {
    use super::*;
    use crate::ffi::Library;
    use crate::model::*;
    use crate::pending::{full_windows, odd_cards, pending_history, pending_script, wide_pending_script};
    use crate::room::{every_room, room_script};
    use crate::series::history_of_series;
    use crate::versions::{across, every_upgrade};

    const SMALL: Geometry = Geometry { k: 9, slots: 8, data_blocks: 4, disk_blocks: 6 };
    const WIDE: Geometry = Geometry { data_blocks: 8, disk_blocks: 8, ..SMALL };
    const WIDEST: Geometry = Geometry { data_blocks: 16, disk_blocks: 16, ..SMALL };
    /// The choice of a call that is done, or cut behind a single store, at k 9.
    const ZEROS: &[u8] = &[0; 64];

    #[test]
    fn the_drill_prints_its_seven_lines() {
        assert_eq!(drill(&Model::default()), DRILL);
    }

    /// The rows of docs/CARD.md that say which call gives which refusal, as numbers in the order of the columns.
    fn told_refusals(page: &'static str) -> Vec<(&'static str, Vec<usize>)> {
        let cells = |row: &'static str| -> Vec<&str> { row.trim_matches('|').split('|').map(str::trim).collect() };
        let mut rows = page.lines().skip_while(|line| !line.starts_with("| call | 1 |")).take_while(|line| line.starts_with('|'));
        let numbers: Vec<usize> = cells(rows.next().unwrap())[1..].iter().map(|cell| cell.parse().unwrap()).collect();
        rows.skip(1)
            .map(|row| {
                let cells = cells(row);
                assert_eq!(cells.len(), 1 + numbers.len(), "{row}");
                assert!(cells[1..].iter().all(|cell| matches!(*cell, "x" | "")), "{row}");
                (cells[0], numbers.iter().zip(&cells[1..]).filter(|(_, cell)| **cell == "x").map(|(number, _)| *number).collect())
            })
            .collect()
    }

    #[test]
    fn the_page_tells_the_refusals_of_each_call() {
        let told = told_refusals(include_str!("../../docs/CARD.md"));
        let given: Vec<(&str, Vec<usize>)> = (0..CALLS.len()).map(|call| (CALLS[call], REFUSALS[call].to_vec())).collect();
        assert_eq!(told, given);
    }

    /// A card on which block 3 was saved, changed in one byte by other hands.
    fn saved_and_damaged(at: usize, byte: u8) -> (Vec<u8>, Vec<u8>) {
        let (mut card, disk) = (vec![0; SMALL.card_length()], vec![0; SMALL.disk_length()]);
        assert_eq!(Library.format(SMALL.k, SMALL.slots, SMALL.data_blocks, SMALL.disk_blocks, &mut card), Answer::Done(0));
        let mut map = Library.fresh_map(&card);
        assert_eq!(Library.commit(&mut card, &mut map, &[3], &[7; 512], ZEROS, u64::MAX), Answer::Done(69));
        assert_ne!(card[at], byte);
        card[at] = byte;
        (card, disk)
    }

    fn first_byte(card: &[u8], disk: &[u8]) -> u8 {
        let mut out = vec![1; SMALL.block()];
        assert!(!matches!(Library.read(card, disk, &mut ascending(), 3, &mut out), Place::Refused(_)));
        out[0]
    }

    /// The card has no checksums: both examples of README.md and docs/CARD.md pass every check and lose the save.
    #[test]
    fn some_damage_reads_as_another_lawful_card() {
        let (mut card, disk) = saved_and_damaged(79, 2);
        let mut map = Library.fresh_map(&card);
        assert_eq!(Library.recover(&mut card, &mut map, u64::MAX), Answer::Done(2));
        assert_eq!(first_byte(&card, &disk), 0);
        let (mut card, mut disk) = saved_and_damaged(SMALL.entry_at(0), 0x80);
        assert_eq!(first_byte(&card, &disk), 7);
        let mut map = Library.fresh_map(&card);
        assert_eq!(Library.evict(&mut card, &mut disk, &mut map, 3, ZEROS, u64::MAX), Answer::Done(1));
        assert_eq!(first_byte(&card, &disk), 0);
    }

    #[test]
    fn a_model_equals_itself() {
        let model = Model::default();
        let mut tally = every_cut(&model, &model, SMALL, &script(), 6, 16).unwrap();
        tally.add(&every_cut(&model, &model, SMALL, &room_script(), 6, 16).unwrap());
        tally.add(&every_room(&model, &model, SMALL, &room_script(), 2).unwrap());
        tally.add(&random_history(&model, &model, SMALL, 2000, 1).unwrap());
        tally.add(&damaged(&model, &model, SMALL, 6000, 2).unwrap());
        tally.add(&arguments(&model, &model, 3).unwrap());
        tally.add(&every_preview(&model, &model, SMALL, 2).unwrap());
        tally.add(&every_upgrade(&model, &model, SMALL, &script(), 6, 16).unwrap());
        tally.add(&across(&model, &model, SMALL, 100, 4).unwrap());
        tally.add(&every_cut(&model, &model, SMALL, &pending_script(), 6, 16).unwrap());
        tally.add(&every_cut(&model, &model, WIDE, &wide_pending_script(), 8, 32).unwrap());
        tally.add(&full_windows(&model, &model, WIDEST).unwrap());
        (0..8).for_each(|seed| tally.add(&pending_history(&model, &model, SMALL, 200, seed, Reckoning::Right).unwrap()));
        tally.add(&odd_cards(&model, &model, WIDE, 3000, 9).unwrap());
        [OLD, NOW].iter().for_each(|version| tally.add(&history_of_series(&model, &model, SMALL, *version, 70, 10).unwrap()));
        tally.complete().unwrap();
        incomplete_is_reported(&tally);
        incomplete_tables_are_reported(&tally);
        incomplete_records_are_reported(&tally);
        incomplete_versions_are_reported(&tally);
    }

    fn is_missed(whole: &Tally, change: &dyn Fn(&mut Tally)) {
        let mut tally = whole.clone();
        change(&mut tally);
        assert!(tally.complete().is_err());
    }

    /// A tally that lacks one thing is not complete; nor is one with an answer that a call does not give.
    fn incomplete_is_reported(whole: &Tally) {
        let reported = |change: &dyn Fn(&mut Tally)| is_missed(whole, change);
        for call in 0..CALLS.len() {
            reported(&|tally| tally.first[call] = 0);
            reported(&|tally| tally.second[call] = u64::from(!has_second_kind(call)));
            for number in 1..NUMBERS {
                reported(&|tally| tally.refused[call][number] = u64::from(!REFUSALS[call].contains(&number)));
            }
        }
        for call in TAKE_A_CHOICE {
            (0..PICKS.len()).for_each(|pick| reported(&|tally| tally.picks[call][pick] = 0));
            (0..WRONG_CHOICES.len()).for_each(|wrong| reported(&|tally| tally.choices[call][wrong] = 0));
            for number in REFUSALS[call].iter().filter(|number| **number != 17) {
                reported(&|tally| tally.beside[call][*number] = 0);
            }
        }
        for call in TAKE_A_MAP {
            for wrong in WRONG_MAPS {
                reported(&|tally| tally.wrongs[call][wrong as usize] = 0);
            }
            for bit in 0..MAP_BITS {
                reported(&|tally| tally.bits[call] &= !(1 << bit));
            }
        }
        for output in 0..WRONG_OUTPUTS.len() {
            reported(&|tally| tally.outputs[output] = 0);
        }
        reported(&|tally| tally.odd_data = 0);
        reported(&|tally| tally.foretold[0] = 0);
        reported(&|tally| tally.foretold[1] = 0);
        reported(&|tally| tally.recoveries.cut = 0);
    }

    /// As above, of the tables and of what the commits that make room come upon.
    fn incomplete_tables_are_reported(whole: &Tally) {
        let reported = |change: &dyn Fn(&mut Tally)| is_missed(whole, change);
        for call in TAKE_A_TABLE {
            (0..WRONG_TABLES.len()).for_each(|wrong| reported(&|tally| tally.tables[call][wrong] = 0));
            (0..TABLE).for_each(|place| reported(&|tally| tally.places[call] &= !(1 << place)));
            for number in REFUSALS[call].iter().filter(|number| **number != 16) {
                reported(&|tally| tally.beside_table[call][*number] = 0);
            }
        }
        (0..CASES.len()).for_each(|case| reported(&|tally| tally.cases[case] = 0));
        reported(&|tally| tally.in_a_row = 0);
    }

    /// As above, of records and of what pending saves come upon.
    fn incomplete_records_are_reported(whole: &Tally) {
        let reported = |change: &dyn Fn(&mut Tally)| is_missed(whole, change);
        for call in TAKE_A_RECORD {
            (0..WRONG_RECORDS.len()).for_each(|wrong| reported(&|tally| tally.records[call][wrong] = 0));
            for number in REFUSALS[call].iter().filter(|number| **number != 18) {
                reported(&|tally| tally.beside_record[call][*number] = 0);
            }
        }
        (0..PENDING.len()).for_each(|case| reported(&|tally| tally.pending[case] = 0));
        (0..2).for_each(|kind| reported(&|tally| tally.in_parts[kind] = 0));
    }

    /// As above, of versions and flag bytes, and of what a recovery leaves of the entries that were saved over.
    fn incomplete_versions_are_reported(whole: &Tally) {
        let reported = |change: &dyn Fn(&mut Tally)| is_missed(whole, change);
        for call in (0..CALLS.len()).filter(|call| !TAKE_NO_CARD.contains(call)) {
            let taken = taken_versions(call);
            for (place, version) in VERSIONS.iter().enumerate() {
                reported(&|tally| tally.versions[call][place] = u64::from(taken.contains(version)));
            }
            for version in taken {
                for (place, flag) in ODD_FLAGS.iter().enumerate() {
                    let old = usize::from(*version == OLD);
                    reported(&|tally| tally.flags[call][old][place] = u64::from(!odd_flags(*version).contains(flag)));
                }
            }
        }
        for (call, kind) in [(RECOVER, 0), (RECOVER, 1), (MAKE_MAP, 0)] {
            reported(&|tally| tally.old[call][kind] = 0);
        }
        for call in [COMMIT, ROOM, PUT] {
            (0..OVERS.len()).for_each(|over| reported(&|tally| tally.kept[call][over] = 0));
        }
    }

    /// The first part of the comparison that sees it: the long ones come last.
    fn is_reported(slip: Slip) {
        let (right, wrong) = (Model::default(), Model::wrong(slip));
        let parts: [&dyn Fn() -> Result<Tally, String>; 15] = [
            &|| across(&right, &wrong, SMALL, 100, 8),
            &|| random_history(&right, &wrong, SMALL, 4000, 5),
            &|| pending_history(&right, &wrong, SMALL, 300, 9, Reckoning::Right),
            &|| full_windows(&right, &wrong, WIDEST),
            &|| odd_cards(&right, &wrong, WIDE, 1000, 10),
            &|| damaged(&right, &wrong, SMALL, 4000, 6),
            &|| every_preview(&right, &wrong, SMALL, 2),
            &|| every_room(&right, &wrong, SMALL, &room_script(), 2),
            &|| arguments(&right, &wrong, 7),
            &|| every_cut(&right, &wrong, SMALL, &room_script(), 6, 16),
            &|| every_cut(&right, &wrong, SMALL, &script(), 6, 16),
            &|| every_cut(&right, &wrong, SMALL, &pending_script(), 6, 16),
            &|| every_cut(&right, &wrong, WIDE, &wide_pending_script(), 8, 32),
            &|| every_upgrade(&right, &wrong, SMALL, &script(), 6, 16),
            &|| history_of_series(&right, &wrong, SMALL, NOW, 140, 11),
        ];
        let difference = parts.iter().find_map(|part| part().err());
        println!("{slip:?}: {difference:?}");
        assert!(difference.is_some(), "{slip:?} is not reported");
    }

    /// Every slip is reported by a part of the comparison. The longest test: half of the slips to each of two threads.
    #[test]
    fn a_wrong_model_is_reported() {
        std::thread::scope(|scope| {
            for half in SLIPS.chunks(SLIPS.len().div_ceil(2)) {
                scope.spawn(|| half.iter().for_each(|slip| is_reported(*slip)));
            }
        });
    }

    #[test]
    fn a_difference_is_told_with_its_place() {
        let right = Model::default();
        let wrong = Model::wrong(Slip::FreshAtSwitch);
        let error = every_cut(&right, &wrong, SMALL, &script(), 6, 16).unwrap_err();
        assert!(error.starts_with("commit([3], data of 512") && error.contains("card differs at byte"), "{error}");
    }

    /// The lists themselves lose a saved block under the slips that the design invites: the row sees it without a second model.
    #[test]
    fn the_row_sees_the_slips_that_lose_a_block() {
        for slip in [
            Slip::CleanUndo,
            Slip::ModifiedLoggedClean,
            Slip::LoggedAsBefore,
            Slip::SwitchDropsP,
            Slip::FreshAtSwitch,
            Slip::FreshAtUndo,
            Slip::WindowAlone,
            Slip::ZeroBeforeSectors,
            Slip::TailFirst,
            Slip::SingleAfterCut,
            Slip::ChosenWhenDone,
        ] {
            let wrong = Model::wrong(slip);
            assert!(every_cut(&wrong, &wrong, SMALL, &script(), 6, 16).is_err(), "{slip:?}");
        }
    }

    /// What a recovery owes shows where a clean block comes back modified, which loses nothing, and its eviction where it is written to the
    /// disk, without a second model.
    #[test]
    fn the_entries_see_what_comes_back_modified() {
        for slip in [Slip::ModifiedUndo, Slip::NewUndoneAsOld, Slip::CleanLoggedModified] {
            let wrong = Model::wrong(slip);
            let error = every_cut(&wrong, &wrong, SMALL, &script(), 6, 16).unwrap_err();
            assert!(error.contains("comes back as"), "{slip:?}: {error}");
        }
        let wrong = Model::wrong(Slip::CleanWritten);
        let error = every_cut(&wrong, &wrong, SMALL, &script(), 6, 16).unwrap_err();
        assert!(error.contains("which is clean"), "{error}");
    }

    /// The same call with a right choice shows where 17 is asked at another place, without a second model.
    #[test]
    fn the_right_choice_sees_a_wrong_order() {
        for slip in [Slip::ChoiceBeforeLength, Slip::ChoiceAfterNumber, Slip::ChoiceAskedLast, Slip::ChoiceBeforeMap] {
            let wrong = Model::wrong(slip);
            assert!(arguments(&wrong, &wrong, 3).is_err(), "{slip:?}");
        }
    }

    /// As above, where 16 is asked at another place.
    #[test]
    fn the_right_table_sees_a_wrong_order() {
        for slip in [
            Slip::TableBeforeMap,
            Slip::TableBeforeSettled,
            Slip::TableAfterLength,
            Slip::TableAskedLast,
            Slip::ReadTableBeforeSettled,
            Slip::ReadTableAfterLength,
            Slip::ReadTableAskedLast,
        ] {
            let wrong = Model::wrong(slip);
            assert!(arguments(&wrong, &wrong, 3).is_err(), "{slip:?}");
        }
    }

    /// The commit that follows shows what a preview got wrong, without a second model.
    #[test]
    fn the_commit_sees_a_wrong_preview() {
        for slip in [
            Slip::PreviewBySize,
            Slip::PreviewOldBlocks,
            Slip::PreviewEntries,
            Slip::PreviewCountsNumbers,
            Slip::PreviewRoomUnasked,
            Slip::PreviewAnyOutput,
            Slip::PreviewLongOutput,
            Slip::PreviewStores,
            Slip::PreviewHandsMapOn,
        ] {
            let wrong = Model::wrong(slip);
            assert!(every_preview(&wrong, &wrong, SMALL, 2).is_err(), "{slip:?}");
        }
    }

    /// Every list of two numbers up to 1, and the two long ones.
    #[test]
    fn every_list_is_there() {
        let short: [&[u64]; 7] = [&[], &[0], &[1], &[0, 0], &[1, 0], &[0, 1], &[1, 1]];
        let long: [&[u64]; 2] = [&[6, 5, 4, 3, 2, 1, 0], &[7, 6, 5, 4, 3, 2, 1, 0]];
        assert_eq!(every_list(1, 2, 8), [&short[..], &long[..]].concat());
    }

    /// Every kind of wrong output is one, but for as few numbers as that it is right.
    #[test]
    fn wrong_outputs_are_wrong() {
        for count in 1..9 {
            assert_eq!(Output::Whole.length(count), count);
            assert!(WRONG_OUTPUTS.iter().all(|output| output.length(count) != count));
        }
        assert_eq!(WRONG_OUTPUTS.map(|output| output.length(3)), [0, 2, 4, 6]);
    }

    fn hex(text: &str) -> [u8; 16] {
        let digits: Vec<u8> = text.bytes().filter(|digit| *digit != b' ').collect();
        let mut bytes = [0; 16];
        for (byte, pair) in bytes.iter_mut().zip(digits.chunks(2)) {
            *byte = u8::from_str_radix(std::str::from_utf8(pair).unwrap(), 16).unwrap();
        }
        bytes
    }

    /// Those of the facts that speak of no version hold of both; 6 and 7 are version 1's.
    #[test]
    fn hand_checked_values() {
        let length = |k, slots, data_blocks| Geometry { k, slots, data_blocks, disk_blocks: 1 }.card_length();
        assert_eq!(length(9, 8, 4), 2304); // 1
        assert_eq!(length(12, 256, 128), 528_512); // 2
        for version in [OLD, NOW] {
            let entry = |text: &str| read_entry(version, &hex(text), 4, 2000).unwrap();
            let log = logged(version, 1001, None, 2);
            let third = "83000000000003E9 FFFFFFFF 00000002";
            assert_eq!(write_entry(Some(log)), hex(third)); // 3
            assert_eq!(entry(third), Some(log));
            let fourth = "82000000000003E9 FFFFFFFF 00000002";
            assert_eq!(write_entry(Some(switched(log))), hex(fourth)); // 4
            assert_eq!(write_entry(undone(version, entry(fourth).unwrap())), [0; 16]); // 5
            assert_eq!(read_entry(version, &hex("81000000000003E9 FFFFFFFF 00000002"), 4, 2000), Err(5)); // 8
        }
        let undone = |text: &str| write_entry(undone(OLD, read_entry(OLD, &hex(text), 4, 2000).unwrap().unwrap()));
        let sixth = "82000000000003E9 00000001 00000001";
        assert_eq!(undone("83000000000003E9 00000001 00000002"), hex(sixth)); // 6
        assert_eq!(undone(sixth), hex(sixth)); // 7
        assert_eq!((commit_stores(1, 512), commit_stores(2, 512)), (69, 137)); // 9
        assert_eq!(window_slots(8, 1, 7), vec![7, 0]); // 11
        assert_eq!(walk(4, 5, |block| block != 1)[0], 2); // 12
    }

    /// Beside facts 6 and 7, by hand from document 02: the log entries, role switches and undoings of version 2.
    #[test]
    fn hand_checked_values_of_today() {
        let entry = |text: &str| read_entry(NOW, &hex(text), 4, 2000).unwrap().unwrap();
        let undone = |text: &str| write_entry(undone(NOW, entry(text)));
        let clean = "80000000000003E9 00000001 00000001";
        assert_eq!(undone("83000000000003E9 00000001 00000002"), hex(clean));
        assert_eq!(undone("82000000000003E9 00000001 00000002"), hex(clean));
        assert_eq!(undone(clean), hex(clean));
        let modified = "86000000000003E9 00000001 00000001";
        assert_eq!(undone("87000000000003E9 00000001 00000002"), hex(modified));
        assert_eq!(undone("86000000000003E9 00000001 00000002"), hex(modified));
        assert_eq!(undone(modified), hex(modified));
        assert_eq!(undone("87000000000003E9 FFFFFFFF 00000002"), [0; 16]);
        // over entries with current block 1: clean, modified, modified since a version that was modified
        let over = |version: u8, flag: &str| {
            let entry = entry(&format!("{flag}000000000003E9 FFFFFFFF 00000001"));
            write_entry(Some(logged(version, 1001, Some(entry), 2)))
        };
        let log = |flag: &str| hex(&format!("{flag}000000000003E9 00000001 00000002"));
        assert_eq!(["80", "82", "86"].map(|flag| over(NOW, flag)), ["83", "87", "87"].map(log));
        assert_eq!(["80", "82"].map(|flag| over(OLD, flag)), ["83", "83"].map(log));
        let switched = |flag: &str| write_entry(Some(switched(entry(&format!("{flag}000000000003E9 00000001 00000002")))));
        assert_eq!(["83", "87"].map(switched), ["82", "86"].map(log));
    }

    /// Every flag byte on both versions: exactly these are allowed, and come back as they were. Another version is refused with 1.
    #[test]
    fn flag_bytes_by_version() {
        for (version, allowed) in [(OLD, &[0x80, 0x82, 0x83][..]), (NOW, &[0x80, 0x82, 0x83, 0x86, 0x87])] {
            for flag in 0..=255 {
                let mut bytes = hex("80000000000003E9 00000001 00000002");
                bytes[0] = flag;
                match read_entry(version, &bytes, 4, 2000) {
                    Ok(entry) => assert!(allowed.contains(&flag) && write_entry(entry) == bytes, "{flag:X}"),
                    Err(number) => assert!(!allowed.contains(&flag) && number == 5, "{flag:X}"),
                }
            }
        }
        for version in (0..=255).filter(|version| ![OLD, NOW].contains(version)) {
            assert_eq!(read_entry(version, &[0; 16], 4, 2000), Err(1));
            assert_eq!(read_entry(version, &hex("80000000000003E9 00000001 00000002"), 4, 2000), Err(1));
        }
    }

    #[test]
    fn counts_of_blocks_and_stores() {
        let model = Model::default();
        // 10: S 8, n 7 passes check 8, n 8 is refused
        let mut card = vec![0; Geometry { k: 9, slots: 8, data_blocks: 8, disk_blocks: 16 }.card_length()];
        model.format(9, 8, 8, 16, &mut card);
        let (numbers, mut map): (Vec<u64>, [u64; 2]) = ((0..8).collect(), map_of(&card));
        assert_eq!(model.commit(&mut card.clone(), &mut map.clone(), &numbers[..7], &[1; 7 * 512], ZEROS, u64::MAX), Answer::Done(7 * 68 + 1));
        assert_eq!(model.commit(&mut card.clone(), &mut map.clone(), &numbers, &[1; 8 * 512], ZEROS, u64::MAX), Answer::Refused(8));
        // a list has as many stores as its formula says
        assert_eq!(model.commit_list(&card, &numbers[..2], &[1; 1024]).unwrap().len(), 137);
        // evict at k 12: 9 stores modified, 1 clean; load at k 9: 65
        let disk = vec![0; 16 * 512];
        assert_eq!(model.load(&mut card, &disk, &mut map, &mut ascending(), 3, ZEROS, u64::MAX), Answer::Done(65));
        let mut card = vec![0; Geometry { k: 12, slots: 8, data_blocks: 4, disk_blocks: 2 }.card_length()];
        model.format(12, 8, 4, 2, &mut card);
        let (mut disk, mut map, choice) = (vec![0; 2 * 4096], map_of(&card), zeros(4096));
        model.load(&mut card, &disk, &mut map, &mut ascending(), 0, &choice, u64::MAX);
        model.commit(&mut card, &mut map, &[1], &[5; 4096], &choice, u64::MAX);
        assert_eq!(model.evict(&mut card, &mut disk, &mut map, 0, &choice, u64::MAX), Answer::Done(1));
        assert_eq!(model.evict(&mut card, &mut disk, &mut map, 1, &choice, u64::MAX), Answer::Done(9));
        assert_eq!(disk[4096..], [5; 4096]);
    }

    /// Counted by hand from document 02: N below 64, at 64, between and at 128, with nothing cached.
    #[test]
    fn the_map_of_a_fresh_card() {
        const ALL: u64 = u64::MAX;
        for (data_blocks, map) in [(4, [ALL - 15, ALL]), (60, [0xF << 60, ALL]), (64, [0, ALL]), (68, [0, ALL - 15]), (128, [0, 0])] {
            let geometry = Geometry { k: 9, slots: 8, data_blocks, disk_blocks: 16 };
            let mut card = vec![0; geometry.card_length()];
            let model = Model::default();
            model.format(9, 8, data_blocks, 16, &mut card);
            assert_eq!(model.make_map(&card), FreeMap::Made(map));
            assert_eq!(model.free_count(map[0], map[1]), data_blocks);
        }
    }

    /// The map after each call of a short life, by hand: N 4, so bits 4 to 127 are set. A save of block 3 goes to data block 0; the
    /// next one of it, at Head 1, to data block 1, and 0 is free again.
    #[test]
    fn the_map_is_handed_on() {
        let model = Model::default();
        let (mut card, mut disk) = (vec![0; SMALL.card_length()], vec![0; SMALL.disk_length()]);
        model.format(SMALL.k, SMALL.slots, SMALL.data_blocks, SMALL.disk_blocks, &mut card);
        let taken = |blocks: u64| [u64::MAX << 4 | blocks, u64::MAX];
        let mut map = model.fresh_map(&card);
        assert_eq!(map, taken(0b0000));
        assert_eq!(model.commit(&mut card, &mut map, &[3], &[7; 512], ZEROS, u64::MAX), Answer::Done(69));
        assert_eq!(map, taken(0b0001));
        assert_eq!(model.commit(&mut card, &mut map, &[3], &[8; 512], ZEROS, u64::MAX), Answer::Done(69));
        assert_eq!(map, taken(0b0010));
        // at Head 2
        let mut table = ascending();
        assert_eq!(model.load(&mut card, &disk, &mut map, &mut table, 5, ZEROS, u64::MAX), Answer::Done(65));
        assert_eq!(map, taken(0b0110));
        // refused: kept; cut behind the entry of data block 3: kept too, though the card gives another from then on
        assert_eq!(model.load(&mut card, &disk, &mut map, &mut table, 5, ZEROS, u64::MAX), Answer::Refused(12));
        assert_eq!(map, taken(0b0110));
        assert_eq!(model.commit(&mut card, &mut map, &[3], &[9; 512], ZEROS, 65), Answer::Cut);
        assert_eq!(map, taken(0b0110));
        // 3 is the current block, and 1 the previous one of an undoable entry
        assert_eq!(model.fresh_map(&card), taken(0b1110));
        // recover asks for the card's map; done, it gives data block 1 back to block 3
        assert_eq!(model.recover(&mut card, &mut map, u64::MAX), Answer::Refused(15));
        map = model.fresh_map(&card);
        assert_eq!(model.recover(&mut card, &mut map, u64::MAX), Answer::Done(1));
        assert_eq!(map, taken(0b0110));
        assert_eq!(model.evict(&mut card, &mut disk, &mut map, 3, ZEROS, u64::MAX), Answer::Done(2));
        assert_eq!(map, taken(0b0100));
        assert_eq!(model.free_count(map[0], map[1]), 3);
    }

    /// Check 15 comes after 6 or 7 and before a call's own checks, whatever the numbers.
    #[test]
    fn where_a_wrong_map_is_refused() {
        let model = Model::default();
        let (mut card, mut disk) = (vec![0; SMALL.card_length()], vec![0; SMALL.disk_length()]);
        model.format(SMALL.k, SMALL.slots, SMALL.data_blocks, SMALL.disk_blocks, &mut card);
        let mut wrong = [0; 2];
        assert_eq!(model.commit(&mut card, &mut wrong, &[], &[], ZEROS, 0), Answer::Refused(15));
        assert_eq!(model.load(&mut card, &disk, &mut wrong, &mut [], 99, ZEROS, 0), Answer::Refused(15));
        assert_eq!(model.load(&mut card, &[], &mut wrong, &mut [], 99, ZEROS, 0), Answer::Refused(3));
        assert_eq!(model.evict(&mut card, &mut disk, &mut wrong, 99, ZEROS, 0), Answer::Refused(15));
        assert_eq!(model.recover(&mut card, &mut wrong, 0), Answer::Refused(15));
        let mut map = model.fresh_map(&card);
        assert_eq!(model.commit(&mut card, &mut map, &[3], &[7; 512], ZEROS, 65), Answer::Cut);
        assert_eq!(model.commit(&mut card, &mut wrong, &[], &[], ZEROS, 0), Answer::Refused(7));
        assert_eq!(model.recover(&mut card, &mut wrong, 0), Answer::Refused(15));
        // two entries alike
        let entry: Vec<u8> = card[SMALL.entry_at(0)..SMALL.entry_at(1)].to_vec();
        put(&mut card, SMALL.entry_at(1), &entry);
        assert_eq!(model.recover(&mut card, &mut wrong, 0), Answer::Refused(6));
        assert_eq!(model.make_map(&card), FreeMap::Refused(6));
        assert_eq!(wrong, [0; 2]);
    }

    /// Counted by hand from documents 01 and 02, N 4: free data blocks from Head mod N upward and round, in the order of the numbers.
    #[test]
    fn previews_by_hand() {
        for calls in [&Model::default() as &dyn Calls, &Library] {
            let (mut card, mut disk) = (vec![0; SMALL.card_length()], vec![0; SMALL.disk_length()]);
            calls.format(SMALL.k, SMALL.slots, SMALL.data_blocks, SMALL.disk_blocks, &mut card);
            let mut map = calls.fresh_map(&card);
            let told = |card: &mut [u8], map: &mut [u64], numbers: &[u64]| {
                let mut blocks = vec![9; numbers.len()];
                let mut data = vec![1; 512 * numbers.len()];
                (calls.preview(card, map, &mut numbers.to_vec(), &mut data, &mut blocks), blocks)
            };
            assert_eq!(told(&mut card, &mut map, &[5, 3]), (Answer::Done(137), vec![0, 1]));
            assert_eq!(told(&mut card, &mut map, &[3]), (Answer::Done(69), vec![0]));
            calls.commit(&mut card, &mut map, &[3], &[7; 512], ZEROS, u64::MAX);
            // Head 1; block 3 is in data block 0, which is given out again only when it is no longer current
            assert_eq!(told(&mut card, &mut map, &[3]), (Answer::Done(69), vec![1]));
            assert_eq!(told(&mut card, &mut map, &[5, 3, 1]), (Answer::Done(205), vec![1, 2, 3]));
            assert_eq!(told(&mut card, &mut map, &[5, 3, 1, 0]), (Answer::Refused(14), vec![9; 4]));
            calls.commit(&mut card, &mut map, &[3, 5], &[7; 1024], ZEROS, u64::MAX);
            // Head 3; data blocks 1 and 2 are taken: 3, then round to 0
            assert_eq!(told(&mut card, &mut map, &[4, 0]), (Answer::Done(137), vec![3, 0]));
            assert_eq!(told(&mut card, &mut map, &[0, 0]), (Answer::Refused(11), vec![9; 2]));
            calls.evict(&mut card, &mut disk, &mut map, 5, ZEROS, u64::MAX);
            // Head 5 with data block 1 alone taken is fact 12: the next is 2
            calls.commit(&mut card, &mut map, &[4, 0], &[7; 1024], ZEROS, u64::MAX);
            calls.evict(&mut card, &mut disk, &mut map, 4, ZEROS, u64::MAX);
            calls.evict(&mut card, &mut disk, &mut map, 0, ZEROS, u64::MAX);
            assert_eq!(told(&mut card, &mut map, &[2]), (Answer::Done(69), vec![2]));
            // cut behind the entry: unsettled
            assert_eq!(calls.commit(&mut card, &mut map, &[2], &[7; 512], ZEROS, 65), Answer::Cut);
            assert_eq!(told(&mut card, &mut map, &[2]), (Answer::Refused(7), vec![9]));
        }
    }

    /// An output of another length is refused after 8 and before 10, 11 and 14; a refusal writes nothing.
    #[test]
    fn where_a_wrong_output_is_refused() {
        for calls in [&Model::default() as &dyn Calls, &Library] {
            let mut card = vec![0; SMALL.card_length()];
            calls.format(SMALL.k, SMALL.slots, SMALL.data_blocks, SMALL.disk_blocks, &mut card);
            let (before, map) = (card.clone(), calls.fresh_map(&card));
            let mut refused = |map: &[u64], numbers: &[u64], data: usize, output: usize| {
                let (mut map, mut numbers, mut data, mut blocks) = (map.to_vec(), numbers.to_vec(), vec![1; data], vec![9; output]);
                let answer = calls.preview(&mut card, &mut map, &mut numbers, &mut data, &mut blocks);
                assert_eq!(blocks, vec![9; output]);
                let Answer::Refused(number) = answer else { panic!("{answer:?}") };
                number
            };
            let (none, all): (&[u64], Vec<u64>) = (&[], (0..8).collect());
            assert_eq!([0, 1].map(|output| refused(&map, none, 0, output)), [8, 8]);
            assert_eq!([0, 8].map(|output| refused(&map, &all, 8 * 512, output)), [8, 8]);
            assert_eq!([0, 2].map(|output| refused(&map, &[3], 512, output)), [9, 9]);
            assert_eq!([511, 513, 0].map(|data| refused(&map, &[3], data, 1)), [9, 9, 9]);
            assert_eq!([0, 1, 2].map(|output| refused(&map, &[99], 512, output)), [9, 10, 9]);
            assert_eq!([1, 2, 3].map(|output| refused(&map, &[3, 3], 1024, output)), [9, 11, 9]);
            assert_eq!([4, 5, 6].map(|output| refused(&map, &[0, 1, 2, 3, 4], 5 * 512, output)), [9, 14, 9]);
            for wrong in [&[0; 2][..], &[], &map[..1], &[map[0], map[1], map[1]]] {
                assert_eq!([0, 1, 2].map(|output| refused(wrong, &[3], 512, output)), [15; 3]);
                assert_eq!(refused(wrong, none, 0, 0), 15);
            }
            assert_eq!(card, before);
        }
    }

    /// The free count is of as many data blocks as the search finds, on cards settled and not.
    #[test]
    fn the_free_count_is_of_the_free_blocks() {
        let (model, mut random) = (Model::default(), Random(11));
        for geometry in [SMALL, Geometry { k: 9, slots: 8, data_blocks: 68, disk_blocks: 100 }] {
            for _ in 0..200 {
                let from = some_card(&mut random, geometry, NOW);
                let [low, high] = model.fresh_map(&from.card);
                let card = Card::open(&from.card, None).unwrap();
                assert_eq!(model.free_count(low, high), card.free_blocks().len() as u64);
            }
        }
    }

    /// Every kind of wrong map is one, on a card where it can be.
    #[test]
    fn wrong_maps_are_wrong() {
        for (right, data_blocks) in [([u64::MAX << 4 | 6, u64::MAX], 4), ([5, u64::MAX << 4 | 1], 68)] {
            for turn in 0..2 * MAP_BITS * WRONG_MAPS.len() {
                assert_ne!(Wrong::at(turn).map(turn, right, &[1, 2], data_blocks), right, "{:?}", Wrong::at(turn));
            }
        }
        let tried = |wrong: Wrong| (0..2 * WRONG_MAPS.len()).any(|turn| Wrong::at(turn) == wrong);
        assert!(WRONG_MAPS.iter().all(|wrong| tried(*wrong)));
        assert!(WRONG_MAPS.iter().enumerate().all(|(index, wrong)| *wrong as usize == index));
    }

    #[test]
    fn stores_come_in_order() {
        let model = Model::default();
        let mut card = vec![0; 2304];
        model.format(9, 8, 4, 16, &mut card);
        let stores = model.commit_list(&card, &[3], &[7; 512]).unwrap();
        assert_eq!(stores[0], Store::Word(256, [7; 8]));
        assert_eq!(stores[63], Store::Word(256 + 504, [7; 8]));
        assert_eq!(stores[64], Store::Entry(192, hex("8300000000000003 FFFFFFFF 00000000")));
        assert_eq!(stores[65], Store::Word(128, 3u64.to_be_bytes()));
        assert_eq!(stores[66], Store::Word(64, 1u64.to_be_bytes()));
        assert_eq!(stores[67], Store::Entry(192, hex("8200000000000003 FFFFFFFF 00000000")));
        assert_eq!(stores[68], Store::Word(72, 1u64.to_be_bytes()));
        assert_eq!(stores.len(), 69);
        // the next save of it, from Head 1, is over a modified entry
        let mut map = map_of(&card);
        model.commit(&mut card, &mut map, &[3], &[7; 512], ZEROS, u64::MAX);
        let stores = model.commit_list(&card, &[3], &[8; 512]).unwrap();
        assert_eq!(stores[64], Store::Entry(192, hex("8700000000000003 00000000 00000001")));
        assert_eq!(stores[67], Store::Entry(192, hex("8600000000000003 00000000 00000001")));
    }

    #[test]
    fn a_card_reads_back_as_its_parts() {
        let mut random = Random(9);
        for turn in 0..400 {
            let from = some_card(&mut random, SMALL, if turn % 2 == 0 { OLD } else { NOW });
            let card = Card::open(&from.card, Some(from.disk.len())).unwrap();
            for (index, entry) in card.entries.iter().enumerate() {
                assert_eq!(write_entry(*entry), from.card[SMALL.entry_at(index)..SMALL.entry_at(index) + 16]);
            }
        }
    }
}
