//! A save in stages, from the model alone: the card after each kind of store, and what a recovery gives from there. The
//! words that name a store are made from its bytes. All that the picture of a save says is asserted here.

use crate::model::{
    ascending, commit_stores, in_order, logged, switched, undone, window_slots, write_entry, zeros, Card, Entry, Model, Store,
};
use crate::{Answer, Calls, Geometry, Place};
use std::ops::Range;

pub const SMALL: Geometry = Geometry { k: 9, slots: 8, data_blocks: 4, disk_blocks: 16 };
pub const BLOCK: usize = 512;
/// Saved before, each by a save of its own.
pub const EARLIER: [u64; 2] = [3, 7];
/// The save in stages: one block cached before it, one not.
pub const SAVED: [u64; 2] = [3, 5];

#[derive(Clone, Copy, Debug, PartialEq, Eq)]
pub enum Version {
    Disk,
    Earlier,
    New,
}

/// The bytes of a block in one version. Every word of every version differs from every other.
fn version(version: Version, number: u64) -> Vec<u8> {
    let name = match version {
        Version::Disk => "disk",
        Version::Earlier => "old ",
        Version::New => "new ",
    };
    (0..BLOCK / 8).flat_map(|word| format!("{name}{number:02}{word:02}").into_bytes()).collect()
}

/// Which version of which block these bytes are; `None` are zeros. A mixture of two is an error.
pub fn told(bytes: &[u8]) -> Option<(Version, u64)> {
    let all = [Version::Disk, Version::Earlier, Version::New];
    let found = all
        .iter()
        .flat_map(|v| (0..SMALL.disk_blocks).map(|number| (*v, number)))
        .find(|(v, number)| version(*v, *number) == bytes);
    assert!(found.is_some() || bytes.iter().all(|byte| *byte == 0), "a data block holds no whole version");
    found
}

/// A part of the card that a save stores to.
#[derive(Clone, Copy, Debug, PartialEq, Eq)]
pub enum Part {
    Head,
    Tail,
    Slot(u64),
    Entry(usize),
    Block(u32),
}

impl Part {
    pub fn range(self) -> Range<usize> {
        let (from, length) = match self {
            Part::Head => (64, 8),
            Part::Tail => (72, 8),
            Part::Slot(slot) => (SMALL.slot_at(slot), 8),
            Part::Entry(entry) => (SMALL.entry_at(entry), 16),
            Part::Block(block) => (SMALL.block_at(block), BLOCK),
        };
        from..from + length
    }

    /// The part that a store goes to.
    fn of(store: &Store) -> Part {
        let (on_disk, at, _) = store.unit();
        assert!(!on_disk);
        let slots = (0..SMALL.slots).map(Part::Slot);
        let entries = (0..SMALL.data_blocks as usize).map(Part::Entry);
        let blocks = (0..SMALL.data_blocks as u32).map(Part::Block);
        [Part::Head, Part::Tail]
            .into_iter()
            .chain(slots)
            .chain(entries)
            .chain(blocks)
            .find(|part| part.range().contains(&at))
            .unwrap()
    }
}

/// The card after some of the save's stores.
pub struct Stage {
    /// The part stored to since the stage before; `None` before the save.
    pub part: Option<Part>,
    /// What was stored.
    pub what: [String; 2],
    /// The stores made since the stage before are `first` to `last`.
    pub first: u64,
    pub last: u64,
    pub bytes: Vec<u8>,
    pub card: Card,
    pub recovery: Vec<Store>,
    /// What each store of that recovery does.
    pub undoing: Vec<String>,
    /// The saved blocks as they are read after that recovery.
    pub read: Vec<Reading>,
}

#[derive(Clone, Copy, Debug, PartialEq, Eq)]
pub struct Reading {
    pub number: u64,
    pub version: Version,
    pub on_card: bool,
}

fn disk() -> Vec<u8> {
    (0..SMALL.disk_blocks).flat_map(|number| version(Version::Disk, number)).collect()
}

fn new_data() -> Vec<u8> {
    SAVED.iter().flat_map(|number| version(Version::New, *number)).collect()
}

/// The settled card that the save starts from.
fn start(model: &Model) -> Vec<u8> {
    let mut card = vec![0; SMALL.card_length()];
    assert_eq!(model.format(SMALL.k, SMALL.slots, SMALL.data_blocks, SMALL.disk_blocks, &mut card), Answer::Done(0));
    let mut map = model.fresh_map(&card);
    for number in EARLIER {
        let count = commit_stores(1, BLOCK as u64);
        let data = version(Version::Earlier, number);
        assert_eq!(model.commit(&mut card, &mut map, &[number], &data, &zeros(BLOCK), u64::MAX), Answer::Done(count));
    }
    assert!(Card::open(&card, None).unwrap().settled());
    card
}

/// The card with the save cut after so many stores, made in order.
fn cut(model: &Model, allowance: u64) -> Vec<u8> {
    cut_by(model, &in_order(BLOCK, allowance), allowance)
}

/// The card with the save cut; where that falls into a block's words, those are made that are chosen.
fn cut_by(model: &Model, choice: &[u8], allowance: u64) -> Vec<u8> {
    let mut card = start(model);
    let mut map = model.fresh_map(&card);
    let count = commit_stores(SAVED.len() as u64, BLOCK as u64);
    let answer = if allowance < count { Answer::Cut } else { Answer::Done(count) };
    assert_eq!(model.commit(&mut card, &mut map, &SAVED, &new_data(), choice, allowance), answer);
    card
}

/// Recovery's stores, and every disk block as it is read after them.
fn recovered(model: &Model, card: &[u8]) -> (Vec<Store>, Vec<Reading>) {
    let stores = model.recover_list(card).unwrap();
    let mut card = card.to_vec();
    let mut map = model.fresh_map(&card);
    assert_eq!(model.recover(&mut card, &mut map, u64::MAX), Answer::Done(stores.len() as u64));
    let read = |number| {
        let mut out = vec![0; BLOCK];
        let on_card = match model.read(&card, &disk(), &mut ascending(), number, &mut out) {
            Place::Card(..) => true,
            Place::Disk(..) => false,
            other => panic!("block {number} is not read: {other:?}"),
        };
        let (version, of) = told(&out).expect("a block that is read has a version");
        assert_eq!(of, number);
        Reading { number, version, on_card }
    };
    (stores, (0..SMALL.disk_blocks).map(read).collect())
}

/// What a data block is to the entries.
#[derive(Clone, Copy, Debug, PartialEq, Eq)]
pub enum Role {
    /// Read after a recovery.
    Settled,
    /// An undoable entry's current block.
    Current,
    Free,
}

pub fn role(card: &Card, block: u32) -> Role {
    if card.in_use().any(|entry| card.settled_block(entry) == Some(block)) {
        Role::Settled
    } else if card.in_use().any(|entry| entry.current == block) {
        Role::Current
    } else {
        Role::Free
    }
}

pub fn word(bytes: &[u8], part: Part) -> u64 {
    u64::from_be_bytes(bytes[part.range()].try_into().unwrap())
}

/// What was stored, in words: from the bytes before and after, which differ in this part alone.
fn what(part: Part, before: &Stage, bytes: &[u8], card: &Card) -> [String; 2] {
    let range = part.range();
    assert_ne!(before.bytes[range.clone()], bytes[range.clone()]);
    assert_eq!(before.bytes[..range.start], bytes[..range.start]);
    assert_eq!(before.bytes[range.end..], bytes[range.end..]);
    match part {
        Part::Block(block) => {
            assert_eq!(role(&before.card, block), Role::Free);
            let (version, number) = told(&bytes[range]).unwrap();
            assert_eq!(version, Version::New);
            [format!("words of block {number}"), format!("into data block {block}")]
        }
        Part::Entry(index) => entry_words(index, before, card),
        Part::Slot(slot) => {
            assert_eq!(slot, card.head);
            [format!("number {} into slot {slot},", word(bytes, part)), "the slot at Head".to_string()]
        }
        Part::Head => {
            assert_eq!(card.head, (before.card.head + 1) % SMALL.slots);
            [format!("Head forward to {}:", card.head), format!("slot {} is in the window", before.card.head)]
        }
        Part::Tail => {
            assert!(card.tail == card.head && card.settled());
            [format!("Tail to {}, where Head is:", card.tail), "the window is empty".to_string()]
        }
    }
}

fn entry_words(index: usize, before: &Stage, card: &Card) -> [String; 2] {
    let (was, entry) = (before.card.entries[index], card.entries[index].unwrap());
    let number = entry.number;
    if entry.log_role {
        assert_eq!(told(&before.bytes[Part::Block(entry.current).range()]), Some((Version::New, number)));
        assert_eq!(entry, logged(card.version, number, before.card.entry_for(number).and(was), entry.current));
        let previous = entry.previous.map_or("FRESH".to_string(), |block| format!("data block {block}"));
        [format!("entry {index} for block {number},"), format!("previous: {previous}")]
    } else {
        assert_eq!(entry, switched(was.unwrap()));
        let window = window_slots(SMALL.slots, card.head, card.tail);
        let slot = window.iter().find(|slot| word(&before.bytes, Part::Slot(**slot)) == number).unwrap();
        [format!("role switch of entry {index}:"), format!("no R, but slot {slot} has {number}")]
    }
}

/// What one store of a recovery does.
fn recovery_words(card: &Card, store: &Store) -> String {
    let bytes = store.unit().2;
    match Part::of(store) {
        Part::Entry(index) => {
            let entry = card.entries[index].unwrap();
            assert!(card.undoable(&entry));
            let after = undone(card.version, entry);
            assert_eq!(bytes, write_entry(after));
            assert!(after.is_none_or(|after| after.modified == entry.previous_modified));
            format!("entry {index} {}", if entry.previous.is_some() { "back" } else { "zeroed" })
        }
        Part::Tail => {
            assert_eq!(bytes, card.head.to_be_bytes());
            "Tail to Head".to_string()
        }
        other => panic!("no store of a recovery: {other:?}"),
    }
}

/// One stage before the save and one after each part that it stores to.
fn stages(model: &Model) -> Vec<Stage> {
    let list = model.commit_list(&start(model), &SAVED, &new_data()).unwrap();
    let mut parts: Vec<(Option<Part>, u64)> = vec![(None, 0)];
    let groups = list.chunk_by(|a, b| Part::of(a) == Part::of(b));
    parts.extend(groups.map(|stores| (Some(Part::of(&stores[0])), stores.len() as u64)));
    let mut stages: Vec<Stage> = Vec::new();
    for (part, count) in parts {
        let made = stages.last().map_or(0, |before| before.last);
        let bytes = cut(model, made + count);
        let card = Card::open(&bytes, None).unwrap();
        let what = match (part, stages.last()) {
            (Some(part), Some(before)) => what(part, before, &bytes, &card),
            _ => ["before the save:".to_string(), "the card is settled".to_string()],
        };
        let (recovery, all) = recovered(model, &bytes);
        let read = SAVED.iter().map(|number| all[*number as usize]).collect();
        let undoing = recovery.iter().map(|store| recovery_words(&card, store)).collect();
        stages.push(Stage { part, what, first: made + 1, last: made + count, bytes, card, recovery, undoing, read });
    }
    stages
}

/// The order that the picture tells: each block's words, entry, slot and Head; the role switches; Tail. An entry of the
/// save is undoable from its store until Tail's.
fn check_order(stages: &[Stage]) {
    let (last, earlier) = stages.split_last().unwrap();
    let start = &stages[0].card;
    let (free, mut unused) = (start.free_blocks(), start.unused_entries().into_iter());
    let (mut parts, mut switches) = (vec![None], Vec::new());
    for (place, number) in SAVED.iter().enumerate() {
        let entry = start.entry_for(*number).unwrap_or_else(|| unused.next().unwrap());
        let slot = (start.head + place as u64) % SMALL.slots;
        parts.extend([Part::Block(free[place] as u32), Part::Entry(entry), Part::Slot(slot), Part::Head].map(Some));
        switches.push(Some(Part::Entry(entry)));
    }
    parts.extend(switches);
    parts.push(Some(Part::Tail));
    assert_eq!(stages.iter().map(|stage| stage.part).collect::<Vec<_>>(), parts);
    for Stage { card, bytes, .. } in earlier {
        let of_save = |entry: &Entry| told(&bytes[Part::Block(entry.current).range()]) == Some((Version::New, entry.number));
        assert!(card.in_use().all(|entry| card.undoable(entry) == of_save(entry)));
    }
    assert!(last.card.settled() && last.recovery.is_empty());
}

/// What is said of every cut, also of those between two stages, whatever words of a block it leaves: none, all, those in
/// order and every second one.
fn check_every_cut(model: &Model, stages: &[Stage]) {
    let every_second: Vec<u8> = (0..BLOCK / 8).map(|word| word as u8 % 2).collect();
    for allowance in 0..=stages.last().unwrap().last {
        for choice in [zeros(BLOCK), vec![1; BLOCK / 8], in_order(BLOCK, allowance), every_second.clone()] {
            check_cut(model, stages, &cut_by(model, &choice, allowance), allowance);
        }
    }
}

/// Ring, entries and recovery are those of the stage before the cut, and all sixteen blocks are read as before the save, or
/// after the last store as saved.
fn check_cut(model: &Model, stages: &[Stage], bytes: &[u8], allowance: u64) {
    let (stores, read) = recovered(model, bytes);
    let stage = stages.iter().rfind(|stage| stage.last <= allowance).unwrap();
    let data = SMALL.block_at(0);
    assert_eq!(bytes[..data], stage.bytes[..data]);
    assert_eq!(stores, stage.recovery);
    for (number, reading) in (0..).zip(&read) {
        let saved = allowance == stages.last().unwrap().last && SAVED.contains(&number);
        let before = if EARLIER.contains(&number) { Version::Earlier } else { Version::Disk };
        assert_eq!(reading.version, if saved { Version::New } else { before });
        assert_eq!(reading.on_card, reading.version != Version::Disk);
    }
    check_settled(bytes, &read);
    assert_eq!(recovered(model, &other_slots(bytes)), (stores, read));
}

/// A block that has a settled data block is read from it, any other from the disk.
fn check_settled(bytes: &[u8], read: &[Reading]) {
    let card = Card::open(bytes, None).unwrap();
    for Reading { number, version, on_card } in read {
        let settled = card.entry_for(*number).and_then(|index| card.settled_block(&card.entries[index].unwrap()));
        assert_eq!(*on_card, settled.is_some());
        if let Some(block) = settled {
            assert_eq!(told(&bytes[Part::Block(block).range()]), Some((*version, *number)));
        }
    }
}

/// The card with other bytes in every slot outside the window.
fn other_slots(bytes: &[u8]) -> Vec<u8> {
    let card = Card::open(bytes, None).unwrap();
    let window = window_slots(SMALL.slots, card.head, card.tail);
    let mut bytes = bytes.to_vec();
    for slot in (0..SMALL.slots).filter(|slot| !window.contains(slot)) {
        bytes[Part::Slot(slot).range()].fill(0xFF);
    }
    bytes
}

/// The stages of a save, held to what the picture says of them.
pub fn checked_stages(model: &Model) -> Vec<Stage> {
    let stages = stages(model);
    check_order(&stages);
    check_every_cut(model, &stages);
    stages
}

#[cfg(test)]
mod tests {
    use super::*;
    use crate::model::Slip;

    /// Counted by hand from document 01: 64 words, entry, slot and Head for each block, two role switches, Tail.
    #[test]
    fn the_stages_and_their_recoveries_are_those_of_the_document() {
        let stages = checked_stages(&Model::default());
        let last: Vec<u64> = stages.iter().map(|stage| stage.last).collect();
        assert_eq!(last, [0, 64, 65, 66, 67, 131, 132, 133, 134, 135, 136, 137]);
        let recoveries: Vec<usize> = stages.iter().map(|stage| stage.recovery.len()).collect();
        assert_eq!(recoveries, [0, 0, 1, 1, 2, 2, 3, 3, 3, 3, 3, 0]);
        let old = |number, version, on_card| Reading { number, version, on_card };
        for stage in &stages[..11] {
            assert_eq!(stage.read, [old(3, Version::Earlier, true), old(5, Version::Disk, false)]);
        }
        assert_eq!(stages[11].read, [old(3, Version::New, true), old(5, Version::New, true)]);
        // of block 3 and of block 5, as stored, after the role switch and after a recovery from there
        let flags = |bytes: &[u8]| [0, 2].map(|entry| bytes[SMALL.entry_at(entry)]);
        assert_eq!([0, 6, 10, 11].map(|stage| flags(&stages[stage].bytes)), [[0x82, 0], [0x87, 0x83], [0x86, 0x82], [0x86, 0x82]]);
        assert_eq!([6, 10].map(|stage| stages[stage].recovery[0].unit().2[0]), [0x86, 0x86]);
    }

    /// Of every wrong model whose save, or recovery from it, differs on this card, there are no stages.
    #[test]
    fn a_wrong_save_has_no_stages() {
        let slips = [
            Slip::CleanUndo,
            Slip::UndoDropsP,
            Slip::NewUndoneAsOld,
            Slip::AbsentLoggedModified,
            Slip::ModifiedLoggedClean,
            Slip::LoggedAsBefore,
            Slip::SwitchDropsP,
            Slip::SwitchKeepsR,
            Slip::FormatsOld,
            Slip::FreshAtSwitch,
            Slip::FreshAtUndo,
            Slip::WindowAlone,
            Slip::CountOneMore,
            Slip::CutAtCount,
            Slip::HeadAlone,
            Slip::SlotBeforeEntry,
            Slip::TailFirst,
            Slip::UnchangedCounted,
            Slip::SingleAfterCut,
            Slip::ChosenWhenDone,
        ];
        for slip in slips {
            let stages = std::panic::catch_unwind(|| checked_stages(&Model::wrong(slip)).len());
            assert!(stages.is_err(), "{slip:?} passes");
        }
    }

    #[test]
    fn no_two_versions_share_a_word() {
        let all = [Version::Disk, Version::Earlier, Version::New];
        let bytes: Vec<u8> = all.iter().flat_map(|v| (0..SMALL.disk_blocks).flat_map(|number| version(*v, number))).collect();
        let mut words: Vec<&[u8]> = bytes.chunks_exact(8).collect();
        let count = words.len();
        assert_eq!(count, 3 * 16 * 64);
        words.sort();
        words.dedup();
        assert_eq!(words.len(), count);
    }

    #[test]
    #[should_panic(expected = "no whole version")]
    fn a_mixture_of_two_versions_is_told() {
        told(&[&version(Version::New, 3)[..256], &version(Version::Earlier, 3)[256..]].concat());
    }
}
