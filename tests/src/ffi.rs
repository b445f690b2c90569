//! The functions of include/tinca.h.

use crate::{Answer, Cached, Calls, FreeMap, Geometry, Opened, Place, State};

#[repr(C)]
#[derive(Clone, Copy, Debug, PartialEq, Eq)]
pub struct RawAnswer {
    pub kind: u32,
    pub refusal: u32,
    pub stores: u64,
}

#[repr(C)]
#[derive(Clone, Copy, Debug, PartialEq, Eq)]
pub struct RawPlace {
    pub kind: u32,
    pub refusal: u32,
    pub offset: u64,
    pub length: u64,
}

#[repr(C)]
#[derive(Clone, Copy, Debug, PartialEq, Eq)]
pub struct RawState {
    pub kind: u32,
    pub refusal: u32,
    pub k: u64,
    pub slots: u64,
    pub data_blocks: u64,
    pub disk_blocks: u64,
    pub first: u64,
    pub second: u64,
}

#[repr(C)]
#[derive(Clone, Copy, Debug, PartialEq, Eq)]
pub struct RawEntry {
    pub kind: u32,
    pub refusal: u32,
    pub block: u64,
    pub modified: u64,
}

#[repr(C)]
#[derive(Clone, Copy, Debug, PartialEq, Eq)]
pub struct RawMap {
    pub kind: u32,
    pub refusal: u32,
    pub low: u64,
    pub high: u64,
}

#[repr(C)]
#[derive(Clone, Copy, Debug, PartialEq, Eq)]
pub struct RawRecord {
    pub kind: u32,
    pub refusal: u32,
    pub tail: u64,
    pub count: u64,
}

extern "C" {
    fn tinca_open(card: *const u8, card_len: usize) -> RawRecord;
    fn tinca_put(
        card: *mut u8,
        card_len: usize,
        map: *mut u64,
        map_words: usize,
        record: *mut u64,
        record_words: usize,
        block: u64,
        data: *const u8,
        data_len: usize,
        choice: *const u8,
        choice_len: usize,
        allowance: u64,
    ) -> RawAnswer;
    // the record is const in the header; here it is of a slice lent for writing, so that a library that writes is seen to
    fn tinca_finish(
        card: *mut u8,
        card_len: usize,
        map: *mut u64,
        map_words: usize,
        record: *mut u64,
        record_words: usize,
        allowance: u64,
    ) -> RawAnswer;
}

extern "C" {
    fn tinca_format(k: u64, slots: u64, data_blocks: u64, disk_blocks: u64, card: *mut u8, card_len: usize) -> RawAnswer;
    fn tinca_commit(
        card: *mut u8,
        card_len: usize,
        map: *mut u64,
        map_words: usize,
        numbers: *const u64,
        count: usize,
        data: *const u8,
        data_len: usize,
        choice: *const u8,
        choice_len: usize,
        allowance: u64,
    ) -> RawAnswer;
    // const in the header but for the last; here of slices lent for writing, so that a library that writes is seen to
    fn tinca_preview(
        card: *mut u8,
        card_len: usize,
        map: *mut u64,
        map_words: usize,
        numbers: *mut u64,
        count: usize,
        data: *mut u8,
        data_len: usize,
        blocks: *mut u32,
        blocks_len: usize,
    ) -> RawAnswer;
    fn tinca_commit_making_room(
        card: *mut u8,
        card_len: usize,
        disk: *mut u8,
        disk_len: usize,
        map: *mut u64,
        map_words: usize,
        table: *mut u8,
        table_len: usize,
        numbers: *const u64,
        count: usize,
        data: *const u8,
        data_len: usize,
        choice: *const u8,
        choice_len: usize,
        allowance: u64,
    ) -> RawAnswer;
    fn tinca_load(
        card: *mut u8,
        card_len: usize,
        disk: *const u8,
        disk_len: usize,
        map: *mut u64,
        map_words: usize,
        table: *mut u8,
        table_len: usize,
        block: u64,
        choice: *const u8,
        choice_len: usize,
        allowance: u64,
    ) -> RawAnswer;
    fn tinca_evict(
        card: *mut u8,
        card_len: usize,
        disk: *mut u8,
        disk_len: usize,
        map: *mut u64,
        map_words: usize,
        block: u64,
        choice: *const u8,
        choice_len: usize,
        allowance: u64,
    ) -> RawAnswer;
    fn tinca_recover(card: *mut u8, card_len: usize, map: *mut u64, map_words: usize, allowance: u64) -> RawAnswer;
    fn tinca_upgrade(card: *mut u8, card_len: usize, allowance: u64) -> RawAnswer;
    fn tinca_read(
        card: *const u8,
        card_len: usize,
        disk: *const u8,
        disk_len: usize,
        table: *mut u8,
        table_len: usize,
        block: u64,
        out: *mut u8,
        out_len: usize,
    ) -> RawPlace;
    fn tinca_look(card: *const u8, card_len: usize, disk: *const u8, disk_len: usize, block: u64) -> RawPlace;
    fn tinca_state_of(card: *const u8, card_len: usize) -> RawState;
    fn tinca_cached(card: *const u8, card_len: usize, place: u64) -> RawEntry;
    fn tinca_make_map(card: *const u8, card_len: usize) -> RawMap;
    fn tinca_free_count(low: u64, high: u64) -> u64;
}

/// The library. An empty slice is handed over as a null pointer.
pub struct Library;

fn lent<T>(slice: &[T]) -> *const T {
    if slice.is_empty() {
        std::ptr::null()
    } else {
        slice.as_ptr()
    }
}

fn lent_mut<T>(slice: &mut [T]) -> *mut T {
    if slice.is_empty() {
        std::ptr::null_mut()
    } else {
        slice.as_mut_ptr()
    }
}

/// What a kind leaves unused must be zero; anything else is no answer at all and equals none of the model's.
pub fn answer(raw: RawAnswer) -> Answer {
    match raw {
        RawAnswer { kind: 0, refusal: 0, stores } => Answer::Done(stores),
        RawAnswer { kind: 1, refusal: 0, stores: 0 } => Answer::Cut,
        RawAnswer { kind: 2, refusal, stores: 0 } => Answer::Refused(refusal),
        _ => Answer::Malformed(raw.kind, raw.refusal, raw.stores),
    }
}

pub fn place(raw: RawPlace) -> Place {
    match raw {
        RawPlace { kind: 0, refusal: 0, offset, length } => Place::Card(offset, length),
        RawPlace { kind: 1, refusal: 0, offset, length } => Place::Disk(offset, length),
        RawPlace { kind: 2, refusal, offset: 0, length: 0 } => Place::Refused(refusal),
        _ => Place::Malformed(raw.kind, raw.refusal, raw.offset, raw.length),
    }
}

pub fn state(raw: RawState) -> State {
    let geometry = Geometry { k: raw.k, slots: raw.slots, data_blocks: raw.data_blocks, disk_blocks: raw.disk_blocks };
    match raw {
        RawState { kind: 0, refusal: 0, first, second, .. } => State::Settled { geometry, in_use: first, modified: second },
        RawState { kind: 1, refusal: 0, first, second, .. } => State::Unsettled { geometry, undoable: first, window: second },
        RawState { kind: 2, refusal, k: 0, slots: 0, data_blocks: 0, disk_blocks: 0, first: 0, second: 0 } => State::Refused(refusal),
        _ => State::Malformed(raw.kind, raw.refusal),
    }
}

pub fn cached(raw: RawEntry) -> Cached {
    match raw {
        RawEntry { kind: 0, refusal: 0, block, modified: modified @ 0..=1 } => Cached::Block { number: block, modified: modified == 1 },
        RawEntry { kind: 1, refusal: 0, block: 0, modified: 0 } => Cached::Nothing,
        RawEntry { kind: 2, refusal, block: 0, modified: 0 } => Cached::Refused(refusal),
        _ => Cached::Malformed(raw.kind, raw.refusal, raw.block, raw.modified),
    }
}

pub fn free_map(raw: RawMap) -> FreeMap {
    match raw {
        RawMap { kind: 0, refusal: 0, low, high } => FreeMap::Made([low, high]),
        RawMap { kind: 2, refusal, low: 0, high: 0 } => FreeMap::Refused(refusal),
        _ => FreeMap::Malformed(raw.kind, raw.refusal, raw.low, raw.high),
    }
}

pub fn opened(raw: RawRecord) -> Opened {
    match raw {
        RawRecord { kind: 0, refusal: 0, tail, count } => Opened::Open([tail, count]),
        RawRecord { kind: 2, refusal, tail: 0, count: 0 } => Opened::Refused(refusal),
        _ => Opened::Malformed(raw.kind, raw.refusal, raw.tail, raw.count),
    }
}

impl Calls for Library {
    fn format(&self, k: u64, slots: u64, data_blocks: u64, disk_blocks: u64, card: &mut [u8]) -> Answer {
        answer(unsafe { tinca_format(k, slots, data_blocks, disk_blocks, lent_mut(card), card.len()) })
    }

    fn commit(&self, card: &mut [u8], map: &mut [u64], numbers: &[u64], data: &[u8], choice: &[u8], allowance: u64) -> Answer {
        let (card_len, words) = (card.len(), map.len());
        let (count, data_len, choice_len) = (numbers.len(), data.len(), choice.len());
        let (card, map, numbers) = (lent_mut(card), lent_mut(map), lent(numbers));
        answer(unsafe {
            tinca_commit(card, card_len, map, words, numbers, count, lent(data), data_len, lent(choice), choice_len, allowance)
        })
    }

    fn preview(&self, card: &mut [u8], map: &mut [u64], numbers: &mut [u64], data: &mut [u8], blocks: &mut [u32]) -> Answer {
        let (card_len, words, count) = (card.len(), map.len(), numbers.len());
        let (data_len, told) = (data.len(), blocks.len());
        let (card, map, numbers) = (lent_mut(card), lent_mut(map), lent_mut(numbers));
        answer(unsafe {
            tinca_preview(card, card_len, map, words, numbers, count, lent_mut(data), data_len, lent_mut(blocks), told)
        })
    }

    fn commit_making_room(
        &self,
        card: &mut [u8],
        disk: &mut [u8],
        map: &mut [u64],
        table: &mut [u8],
        numbers: &[u64],
        data: &[u8],
        choice: &[u8],
        allowance: u64,
    ) -> Answer {
        let (card_len, disk_len, words, table_len) = (card.len(), disk.len(), map.len(), table.len());
        let (count, data_len, choice_len) = (numbers.len(), data.len(), choice.len());
        let (card, disk, map, table) = (lent_mut(card), lent_mut(disk), lent_mut(map), lent_mut(table));
        let (numbers, data, choice) = (lent(numbers), lent(data), lent(choice));
        answer(unsafe {
            tinca_commit_making_room(
                card, card_len, disk, disk_len, map, words, table, table_len, numbers, count, data, data_len, choice, choice_len, allowance,
            )
        })
    }

    fn load(
        &self,
        card: &mut [u8],
        disk: &[u8],
        map: &mut [u64],
        table: &mut [u8],
        block: u64,
        choice: &[u8],
        allowance: u64,
    ) -> Answer {
        let (card_len, disk_len, words, table_len, choice_len) = (card.len(), disk.len(), map.len(), table.len(), choice.len());
        let (card, disk, map, table) = (lent_mut(card), lent(disk), lent_mut(map), lent_mut(table));
        answer(unsafe {
            tinca_load(card, card_len, disk, disk_len, map, words, table, table_len, block, lent(choice), choice_len, allowance)
        })
    }

    fn evict(&self, card: &mut [u8], disk: &mut [u8], map: &mut [u64], block: u64, choice: &[u8], allowance: u64) -> Answer {
        let (card_len, disk_len, words, choice_len) = (card.len(), disk.len(), map.len(), choice.len());
        let (card, disk, map) = (lent_mut(card), lent_mut(disk), lent_mut(map));
        answer(unsafe { tinca_evict(card, card_len, disk, disk_len, map, words, block, lent(choice), choice_len, allowance) })
    }

    fn recover(&self, card: &mut [u8], map: &mut [u64], allowance: u64) -> Answer {
        let (card_len, words) = (card.len(), map.len());
        answer(unsafe { tinca_recover(lent_mut(card), card_len, lent_mut(map), words, allowance) })
    }

    fn open(&self, card: &[u8]) -> Opened {
        opened(unsafe { tinca_open(lent(card), card.len()) })
    }

    fn put(
        &self,
        card: &mut [u8],
        map: &mut [u64],
        record: &mut [u64],
        block: u64,
        data: &[u8],
        choice: &[u8],
        allowance: u64,
    ) -> Answer {
        let (card_len, words, record_words) = (card.len(), map.len(), record.len());
        let (data_len, choice_len) = (data.len(), choice.len());
        let (card, map, record) = (lent_mut(card), lent_mut(map), lent_mut(record));
        let (data, choice) = (lent(data), lent(choice));
        answer(unsafe {
            tinca_put(card, card_len, map, words, record, record_words, block, data, data_len, choice, choice_len, allowance)
        })
    }

    fn finish(&self, card: &mut [u8], map: &mut [u64], record: &mut [u64], allowance: u64) -> Answer {
        let (card_len, words, record_words) = (card.len(), map.len(), record.len());
        let (card, map, record) = (lent_mut(card), lent_mut(map), lent_mut(record));
        answer(unsafe { tinca_finish(card, card_len, map, words, record, record_words, allowance) })
    }

    fn upgrade(&self, card: &mut [u8], allowance: u64) -> Answer {
        let card_len = card.len();
        answer(unsafe { tinca_upgrade(lent_mut(card), card_len, allowance) })
    }

    fn read(&self, card: &[u8], disk: &[u8], table: &mut [u8], block: u64, out: &mut [u8]) -> Place {
        let (table_len, out_len) = (table.len(), out.len());
        let (table, out) = (lent_mut(table), lent_mut(out));
        place(unsafe { tinca_read(lent(card), card.len(), lent(disk), disk.len(), table, table_len, block, out, out_len) })
    }

    fn look(&self, card: &[u8], disk: &[u8], block: u64) -> Place {
        place(unsafe { tinca_look(lent(card), card.len(), lent(disk), disk.len(), block) })
    }

    fn state(&self, card: &[u8]) -> State {
        state(unsafe { tinca_state_of(lent(card), card.len()) })
    }

    fn cached(&self, card: &[u8], place: u64) -> Cached {
        cached(unsafe { tinca_cached(lent(card), card.len(), place) })
    }

    fn make_map(&self, card: &[u8]) -> FreeMap {
        free_map(unsafe { tinca_make_map(lent(card), card.len()) })
    }

    fn free_count(&self, low: u64, high: u64) -> u64 {
        unsafe { tinca_free_count(low, high) }
    }
}
