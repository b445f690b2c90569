//! A station on mapped files: saves without end, with evicts, loads and reads between, and notes each save that was answered with done. Some
//! saves make room themselves; for the others a preview tells when to make it. A card of version 1 it recovers and upgrades first. Before each
//! storing call and preview it copies card, disk and table aside and notes the call, so that `killer`, which starts and kills it, can tell how
//! far the call came.
//!
//!     station FOLDER SEED [format] [units]
//!
//! With `units` the library works on a copy, and each unit goes to the mapped card by one instruction: the call is made at each
//! allowance in turn, with the choice that makes its stores in order, and what changed from the one before is the next unit.

use std::path::Path;
use tinca_tests::ffi::Library;
use tinca_tests::mapped::*;
use tinca_tests::model::{ascending, commit_stores, in_order, zeros};
use tinca_tests::random::Random;
use tinca_tests::{Answer, Calls, Place, State};

struct Station {
    card: Mapped,
    disk: Mapped,
    /// Made when the station starts, then as each call leaves it.
    map: [u64; 2],
    /// Ascends when the station starts, then as each use leaves it.
    table: Vec<u8>,
    notes: Mapped,
    before: Mapped,
    units: bool,
}

/// One whole unit of the card: an entry by one 16-byte instruction, anything else by 8-byte ones.
#[cfg(target_arch = "x86_64")]
fn put_unit(to: &mut [u8], at: usize, bytes: &[u8]) {
    use std::arch::x86_64::{__m128i, _mm_loadu_si128, _mm_store_si128};
    let place = to[at..at + bytes.len()].as_mut_ptr();
    if bytes.len() == 16 {
        assert!(place as usize % 16 == 0);
        unsafe { _mm_store_si128(place as *mut __m128i, _mm_loadu_si128(bytes.as_ptr() as *const __m128i)) };
    } else {
        let word = u64::from_ne_bytes(bytes.try_into().unwrap());
        unsafe { std::ptr::write_volatile(place as *mut u64, word) };
    }
    std::sync::atomic::fence(std::sync::atomic::Ordering::SeqCst);
}

#[cfg(not(target_arch = "x86_64"))]
fn put_unit(_: &mut [u8], _: usize, _: &[u8]) {
    panic!("no 16-byte store is known for this processor");
}

/// What a storing call is lent, and the choice and allowance that it is given.
struct Lent<'l> {
    card: &'l mut [u8],
    disk: &'l mut [u8],
    map: &'l mut [u64],
    table: &'l mut [u8],
    choice: &'l [u8],
    allowance: u64,
}

/// A storing call.
type Call<'c> = &'c dyn Fn(Lent) -> Answer;

impl Station {
    fn note(&mut self, call: u64, argument: u64) {
        self.before.bytes_mut()[..CARD].copy_from_slice(self.card.bytes());
        self.before.bytes_mut()[CARD..CARD + DISK].copy_from_slice(self.disk.bytes());
        self.before.bytes_mut()[CARD + DISK..].copy_from_slice(&self.table);
        self.notes.set_number(ARGUMENT, argument);
        self.notes.set_number(CALL, call);
    }

    fn noted(&mut self, call: u64, argument: u64, run: Call) -> Answer {
        self.note(call, argument);
        let answer = if self.units {
            // what a save stores itself comes last, behind the evictions where it makes room
            let saving = if call == ROOM { commit_stores(SIZES[argument as usize], BLOCK as u64) } else { u64::MAX };
            self.by_units(run, saving)
        } else {
            let (card, disk) = (self.card.bytes_mut(), self.disk.bytes_mut());
            run(Lent { card, disk, map: &mut self.map, table: &mut self.table, choice: &zeros(BLOCK), allowance: u64::MAX })
        };
        self.notes.set_number(CALL, 0);
        answer
    }

    /// Each call of smaller allowance is cut, and gets the map that the card gave before and the table of before; the station goes on with
    /// the done one's. `saving` counts the last stores that a run of words is among; before them each run is one store.
    fn by_units(&mut self, run: Call, saving: u64) -> Answer {
        let (card, disk, map, table) = (self.card.bytes().to_vec(), self.disk.bytes().to_vec(), self.map, self.table.clone());
        let (map_on, table_on) = (&mut self.map, &mut self.table);
        let (mut to_card, mut to_disk, choice) = (card.clone(), disk.clone(), zeros(BLOCK));
        let answer = run(Lent { card: &mut to_card, disk: &mut to_disk, map: map_on, table: table_on, choice: &choice, allowance: u64::MAX });
        let Answer::Done(count) = answer else { return answer };
        let evicting = count.saturating_sub(saving);
        for allowance in 1..=count {
            let (mut card, mut disk, mut map, mut table) = (card.clone(), disk.clone(), map, table.clone());
            let choice = if allowance < evicting { zeros(BLOCK) } else { in_order(BLOCK, allowance - evicting) };
            run(Lent { card: &mut card, disk: &mut disk, map: &mut map, table: &mut table, choice: &choice, allowance });
            self.hand_over(&card, &disk);
            assert!(self.card.bytes() == card && self.disk.bytes() == disk, "more than one unit");
        }
        answer
    }

    /// Stores the unit in which the mapped card or disk differs from these.
    fn hand_over(&mut self, card: &[u8], disk: &[u8]) {
        let entries = 128 + 8 * SLOTS as usize;
        let blocks = entries + 16 * DATA_BLOCKS as usize;
        if let Some(place) = (0..CARD).find(|place| card[*place] != self.card.bytes()[*place]) {
            let size = if (entries..blocks).contains(&place) { 16 } else { 8 };
            let at = place / size * size;
            put_unit(self.card.bytes_mut(), at, &card[at..at + size]);
        } else if let Some(place) = (0..DISK).find(|place| disk[*place] != self.disk.bytes()[*place]) {
            let at = place / 512 * 512;
            self.disk.bytes_mut()[at..at + 512].copy_from_slice(&disk[at..at + 512]);
        }
    }

    /// Straight on the mapped card, by units too: a preview has none.
    fn preview(&mut self, group: u64, numbers: &mut [u64], data: &mut [u8]) -> Answer {
        let mut blocks = vec![0; numbers.len()];
        self.note(PREVIEW, group);
        let answer = Library.preview(self.card.bytes_mut(), &mut self.map, numbers, data, &mut blocks);
        self.notes.set_number(CALL, 0);
        answer
    }

    /// Makes room until the save is foretold, and then makes it.
    fn save(&mut self, random: &mut Random, sequence: u64, group: u64) {
        let (mut numbers, mut data) = (numbers(group), saved(sequence, group));
        let foretold = loop {
            match self.preview(group, &mut numbers, &mut data) {
                Answer::Refused(14) => self.evict(random.below(DISK_BLOCKS)),
                other => break other,
            }
        };
        let answer =
            self.noted(COMMIT, group, &|lent| Library.commit(lent.card, lent.map, &numbers, &data, lent.choice, lent.allowance));
        assert!(matches!(answer, Answer::Done(_)) && answer == foretold, "commit {answer:?}, preview {foretold:?}");
    }

    fn save_making_room(&mut self, sequence: u64, group: u64) {
        let (numbers, data) = (numbers(group), saved(sequence, group));
        let answer = self.noted(ROOM, group, &|lent| {
            Library.commit_making_room(lent.card, lent.disk, lent.map, lent.table, &numbers, &data, lent.choice, lent.allowance)
        });
        assert!(matches!(answer, Answer::Done(_)), "room-making commit {answer:?}");
    }

    fn evict(&mut self, block: u64) {
        let answer =
            self.noted(EVICT, block, &|lent| Library.evict(lent.card, lent.disk, lent.map, block, lent.choice, lent.allowance));
        assert!(matches!(answer, Answer::Done(_) | Answer::Refused(13)), "evict {answer:?}");
    }

    fn load(&mut self, block: u64) {
        let answer = self.noted(LOAD, block, &|lent| {
            Library.load(lent.card, lent.disk, lent.map, lent.table, block, lent.choice, lent.allowance)
        });
        assert!(matches!(answer, Answer::Done(_) | Answer::Refused(12 | 14)), "load {answer:?}");
    }

    /// One save of either kind, and at times another call.
    fn turn(&mut self, random: &mut Random, sequence: u64) {
        let group = random.below(GROUPS);
        self.notes.set_number(BEGUN, sequence);
        if random.once_in(2) {
            self.save_making_room(sequence, group);
        } else {
            self.save(random, sequence, group);
        }
        self.notes.set_number(1 + group as usize, sequence);
        self.notes.set_number(ACKNOWLEDGED, sequence);
        match random.below(6) {
            0 => self.evict(random.below(DISK_BLOCKS)),
            1 | 2 => self.load(random.below(DISK_BLOCKS)),
            3 => self.read(random.below(DISK_BLOCKS)),
            _ => {}
        }
    }

    /// A card of a station of before, once it is recovered.
    fn upgrade(&mut self) {
        let answer = self.noted(UPGRADE, 0, &|lent| Library.upgrade(lent.card, lent.allowance));
        assert_eq!(answer, Answer::Done(1));
    }

    fn read(&mut self, block: u64) {
        let place = Library.read(self.card.bytes(), self.disk.bytes(), &mut self.table, block, &mut [0; BLOCK]);
        assert!(matches!(place, Place::Card(..) | Place::Disk(..)), "read {place:?}");
    }
}

fn main() {
    let words: Vec<String> = std::env::args().collect();
    if words.len() < 3 {
        eprintln!("station FOLDER SEED [format] [units]");
        std::process::exit(2);
    }
    let open = |name: &str, length| Mapped::open(&Path::new(&words[1]).join(name), length).expect(name);
    let mut random = Random(words[2].parse().expect("a seed"));
    let says = |word: &str| words[3..].iter().any(|one| one == word);
    let mut station = Station {
        card: open("card", CARD),
        disk: open("disk", DISK),
        map: [0; 2],
        table: ascending(),
        notes: open("notes", NOTES),
        before: open("before", BEFORE),
        units: says("units"),
    };
    if says("format") {
        assert_eq!(Library.format(K, SLOTS, DATA_BLOCKS, DISK_BLOCKS, station.card.bytes_mut()), Answer::Done(0));
    }
    // a card that was left unsettled is recovered here
    station.map = Library.fresh_map(station.card.bytes());
    assert!(matches!(Library.recover(station.card.bytes_mut(), &mut station.map, u64::MAX), Answer::Done(_)));
    if Library.state(station.card.bytes()) == State::Refused(1) {
        station.upgrade();
    }
    assert!(matches!(Library.state(station.card.bytes()), State::Settled { .. }));
    let first = station.notes.number(ACKNOWLEDGED).max(station.notes.number(BEGUN)) + 1;
    (first..).for_each(|sequence| station.turn(&mut random, sequence));
}
