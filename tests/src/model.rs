//! The model: document 01, and what is built of document 02, in Rust, plain rather than fast. A card is decoded into structures; each
//! storing call gives the list of its runs of stores; an allowance and a choice say which of the stores are made.

use crate::Calls;

#[derive(Clone, Copy, Debug, PartialEq, Eq)]
pub enum Answer {
    Done(u64),
    Cut,
    Refused(u32),
    /// What the C interface must never give: a kind that is none, or a field set that the kind leaves unused.
    Malformed(u32, u32, u64),
}

/// Where a block lies: offset and length.
#[derive(Clone, Copy, Debug, PartialEq, Eq)]
pub enum Place {
    Card(u64, u64),
    Disk(u64, u64),
    Refused(u32),
    Malformed(u32, u32, u64, u64),
}

#[derive(Clone, Copy, Debug, PartialEq, Eq)]
pub enum State {
    Settled { geometry: Geometry, in_use: u64, modified: u64 },
    Unsettled { geometry: Geometry, undoable: u64, window: u64 },
    Refused(u32),
    Malformed(u32, u32),
}

/// What the entry at a place caches.
#[derive(Clone, Copy, Debug, PartialEq, Eq)]
pub enum Cached {
    Block { number: u64, modified: bool },
    Nothing,
    Refused(u32),
    Malformed(u32, u32, u64, u64),
}

/// The free block map as it is made from a card.
#[derive(Clone, Copy, Debug, PartialEq, Eq)]
pub enum FreeMap {
    Made([u64; 2]),
    Refused(u32),
    Malformed(u32, u32, u64, u64),
}

/// A pending save as open gives it: the record's Tail and count.
#[derive(Clone, Copy, Debug, PartialEq, Eq)]
pub enum Opened {
    Open([u64; 2]),
    Refused(u32),
    Malformed(u32, u32, u64, u64),
}

/// The versions of a card: document 01's, which format does not write any more, and the one with flag P.
pub const OLD: u8 = 1;
pub const NOW: u8 = 2;

/// The byte of the header that tells the version.
pub const VERSION_AT: usize = 4;

#[derive(Clone, Copy, Debug, PartialEq, Eq)]
pub struct Geometry {
    pub k: u64,
    pub slots: u64,
    pub data_blocks: u64,
    pub disk_blocks: u64,
}

impl Geometry {
    pub fn allowed(&self) -> bool {
        (9..=12).contains(&self.k)
            && (8..=256).contains(&self.slots)
            && self.slots % 8 == 0
            && (4..=128).contains(&self.data_blocks)
            && self.data_blocks % 4 == 0
            && (1..=65_536).contains(&self.disk_blocks)
    }

    /// B.
    pub fn block(&self) -> usize {
        1 << self.k
    }

    pub fn slot_at(&self, slot: u64) -> usize {
        128 + 8 * slot as usize
    }

    pub fn entry_at(&self, entry: usize) -> usize {
        128 + 8 * self.slots as usize + 16 * entry
    }

    pub fn block_at(&self, block: u32) -> usize {
        128 + 8 * self.slots as usize + 16 * self.data_blocks as usize + block as usize * self.block()
    }

    pub fn card_length(&self) -> usize {
        128 + 8 * self.slots as usize + 16 * self.data_blocks as usize + self.data_blocks as usize * self.block()
    }

    pub fn disk_length(&self) -> usize {
        self.disk_blocks as usize * self.block()
    }

    pub fn header(&self, version: u8) -> [u8; 64] {
        let mut bytes = [0; 64];
        bytes[0..4].copy_from_slice(&64u32.to_be_bytes());
        bytes[VERSION_AT] = version;
        bytes[5] = self.k as u8;
        bytes[6..8].copy_from_slice(&(self.slots as u16).to_be_bytes());
        bytes[8..12].copy_from_slice(&(self.data_blocks as u32).to_be_bytes());
        bytes[12..16].copy_from_slice(&(self.disk_blocks as u32).to_be_bytes());
        bytes
    }

    /// Check 1 of a call that takes every version.
    pub fn from_header(card: &[u8]) -> Result<Geometry, u32> {
        Geometry::of_header(card, Taken::EITHER)
    }

    /// Check 1.
    fn of_header(card: &[u8], taken: Taken) -> Result<Geometry, u32> {
        if card.len() < 128 || !(taken.version)(card[VERSION_AT]) {
            return Err(1);
        }
        let geometry = Geometry {
            k: card[5] as u64,
            slots: u16::from_be_bytes(card[6..8].try_into().unwrap()) as u64,
            data_blocks: u32::from_be_bytes(card[8..12].try_into().unwrap()) as u64,
            disk_blocks: u32::from_be_bytes(card[12..16].try_into().unwrap()) as u64,
        };
        if geometry.allowed() && card[0..64] == geometry.header(card[VERSION_AT]) {
            Ok(geometry)
        } else {
            Err(1)
        }
    }
}

/// The flag bytes that check 5 allows.
pub fn allowed_flags(version: u8) -> &'static [u8] {
    match version {
        OLD => &[0x80, 0x82, 0x83],
        _ => &[0x80, 0x82, 0x83, 0x86, 0x87],
    }
}

/// An entry in use. A previous block of `None` is FRESH. On an old card no previous version is told to have been modified.
#[derive(Clone, Copy, Debug, PartialEq, Eq)]
pub struct Entry {
    pub previous_modified: bool,
    pub modified: bool,
    pub log_role: bool,
    pub number: u64,
    pub previous: Option<u32>,
    pub current: u32,
}

pub const FRESH: u32 = 0xFFFF_FFFF;

/// Reads sixteen bytes: an unused entry is `None`. Check 5, and 1 of a version that there is not.
pub fn read_entry(version: u8, bytes: &[u8; 16], data_blocks: u64, disk_blocks: u64) -> Result<Option<Entry>, u32> {
    match version {
        OLD | NOW => read_allowed(allowed_flags(version), bytes, data_blocks, disk_blocks),
        _ => Err(1),
    }
}

/// Check 5, where these flag bytes are allowed.
fn read_allowed(flags: &[u8], bytes: &[u8; 16], data_blocks: u64, disk_blocks: u64) -> Result<Option<Entry>, u32> {
    if *bytes == [0; 16] {
        return Ok(None);
    }
    if !flags.contains(&bytes[0]) {
        return Err(5);
    }
    let mut wide = [0; 8];
    wide[1..8].copy_from_slice(&bytes[1..8]);
    let number = u64::from_be_bytes(wide);
    let previous = u32::from_be_bytes(bytes[8..12].try_into().unwrap());
    let current = u32::from_be_bytes(bytes[12..16].try_into().unwrap());
    let previous = if previous == FRESH {
        None
    } else if (previous as u64) < data_blocks {
        Some(previous)
    } else {
        return Err(5);
    };
    if number >= disk_blocks || current as u64 >= data_blocks {
        return Err(5);
    }
    let has = |bit: u8| bytes[0] & bit != 0;
    Ok(Some(Entry { previous_modified: has(0x04), modified: has(0x02), log_role: has(0x01), number, previous, current }))
}

pub fn write_entry(entry: Option<Entry>) -> [u8; 16] {
    let mut bytes = [0; 16];
    if let Some(entry) = entry {
        bytes[0..8].copy_from_slice(&entry.number.to_be_bytes());
        bytes[0] = 0x80 | u8::from(entry.previous_modified) << 2 | u8::from(entry.modified) << 1 | u8::from(entry.log_role);
        bytes[8..12].copy_from_slice(&entry.previous.unwrap_or(FRESH).to_be_bytes());
        bytes[12..16].copy_from_slice(&entry.current.to_be_bytes());
    }
    bytes
}

/// The log entry of a block that goes to the data block `current`, over the entry that it has, if any.
pub fn logged(version: u8, number: u64, over: Option<Entry>, current: u32) -> Entry {
    let previous_modified = version != OLD && over.is_some_and(|entry| entry.modified);
    Entry { previous_modified, modified: true, log_role: true, number, previous: over.map(|entry| entry.current), current }
}

/// The entry after its role switch: R alone is cleared.
pub fn switched(entry: Entry) -> Entry {
    Entry { log_role: false, ..entry }
}

/// The entry after its undoing: modified as its previous version was, which an old card does not tell and takes for granted.
pub fn undone(version: u8, entry: Entry) -> Option<Entry> {
    let (previous_modified, modified) = match version {
        OLD => (false, true),
        _ => (entry.previous_modified, entry.previous_modified),
    };
    let Entry { number, previous, .. } = entry;
    previous.map(|current| Entry { previous_modified, modified, log_role: false, number, previous, current })
}

/// The count of a commit's stores.
pub fn commit_stores(n: u64, block: u64) -> u64 {
    n * (block / 8 + 4) + 1
}

/// The choice of a station in service, and of the drill.
pub fn zeros(block: usize) -> Vec<u8> {
    vec![0; block / 8]
}

/// The choice with which exactly the first stores of a call are made, as many as the allowance, as document 01 has it: ones up to where
/// the allowance ends in its run, then zeros. Between the words of one block of a commit and those of the next stand three single
/// stores; load and evict begin with their run.
pub fn in_order(block: usize, allowance: u64) -> Vec<u8> {
    let words = block as u64 / 8;
    (0..words).map(|word| u8::from(word < allowance % (words + 3))).collect()
}

/// Slots from `tail` up to but not including `head`, going round.
pub fn window_slots(slots: u64, head: u64, tail: u64) -> Vec<u64> {
    let mut window = Vec::new();
    let mut slot = tail;
    while slot != head {
        window.push(slot);
        slot = (slot + 1) % slots;
    }
    window
}

/// Places from `head` mod `count` upward and round where `wanted` holds.
pub fn walk(count: u64, head: u64, wanted: impl Fn(usize) -> bool) -> Vec<usize> {
    (0..count).map(|step| ((head % count + step) % count) as usize).filter(|place| wanted(*place)).collect()
}

pub const MAP_BITS: usize = 128;

fn set_bit(map: &mut [u64; 2], bit: usize) {
    map[bit / 64] |= 1 << (bit % 64);
}

fn clear_bit(map: &mut [u64; 2], bit: usize) {
    map[bit / 64] &= !(1 << (bit % 64));
}

/// The numbers of the recency table: one for each entry that a card can have.
pub const TABLE: usize = 128;

/// The table of a station that starts.
pub fn ascending() -> Vec<u8> {
    (0..TABLE as u8).collect()
}

/// The entries that a list stores, by their places: those that it zeroes, and those that it puts a block in.
#[derive(Clone, Debug, Default)]
struct Stored {
    zeroed: Vec<usize>,
    put: Vec<usize>,
}

impl Stored {
    fn of(card: &[u8], list: &Result<Vec<Run>, u32>) -> Stored {
        let (Ok(geometry), Ok(runs)) = (Geometry::from_header(card), list) else { return Stored::default() };
        let mut stored = Stored::default();
        for store in stores_of(runs) {
            let Store::Entry(at, bytes) = store else { continue };
            let entries = if bytes == [0; 16] { &mut stored.zeroed } else { &mut stored.put };
            entries.push((at - geometry.entry_at(0)) / 16);
        }
        stored
    }
}

/// What a commit of either kind, or a put, is asked to save.
#[derive(Clone, Copy)]
struct Save<'s> {
    numbers: &'s [u64],
    data: &'s [u8],
    choice: &'s [u8],
}

/// Which of the checks hold that commits and puts do not ask alike: 16, 8, 11 and 14.
struct Own {
    bad_table: bool,
    bad_count: bool,
    repeats: bool,
    no_room: bool,
}

/// Where the blocks of a commit can go: free data blocks and unused entries, in the order of the search.
struct Homes {
    blocks: Vec<usize>,
    entries: Vec<usize>,
}

/// The map that a card gives. A card that is refused gives none: then no bit is set, and no call looks at it.
pub fn map_of(card: &[u8]) -> [u64; 2] {
    Card::open(card, None).map_or([0; 2], |card| card.map())
}

/// The record that the card gives.
pub fn record_of(card: &[u8]) -> Option<[u64; 2]> {
    Card::open(card, None).ok()?.record()
}

/// A choice that is not refused with 17 on this card. On one that has no header none is looked at.
fn any_choice(card: &[u8]) -> Vec<u8> {
    Geometry::from_header(card).map_or(vec![], |geometry| zeros(geometry.block()))
}

/// The calls that look at a card.
#[derive(Clone, Copy, Debug, PartialEq, Eq)]
pub enum Call {
    Commit,
    Room,
    Preview,
    Load,
    Evict,
    Recover,
    Open,
    Put,
    Finish,
    Upgrade,
    Read,
    Look,
    State,
    Cached,
    MakeMap,
}

/// The cards that a call takes: of which versions, and with which slip it looks at their flag bytes.
#[derive(Clone, Copy)]
struct Taken {
    version: fn(u8) -> bool,
    slip: Option<Slip>,
}

impl Taken {
    const EITHER: Taken = Taken { version: |version| matches!(version, OLD | NOW), slip: None };

    fn flags(&self, version: u8) -> Vec<u8> {
        let mut flags = allowed_flags(version).to_vec();
        match self.slip {
            Some(Slip::FlagTaken(of, byte)) if of == version => flags.push(byte),
            Some(Slip::FlagRefused(of, byte)) if of == version => flags.retain(|flag| *flag != byte),
            _ => {}
        }
        flags
    }
}

/// A card that passed checks 1, 2 and 4 to 6, without its data blocks.
#[derive(Clone, Debug, PartialEq, Eq)]
pub struct Card {
    pub version: u8,
    pub geometry: Geometry,
    pub head: u64,
    pub tail: u64,
    /// The numbers that stand in the window.
    pub window: Vec<u64>,
    pub entries: Vec<Option<Entry>>,
}

fn word(bytes: &[u8], at: usize) -> u64 {
    u64::from_be_bytes(bytes[at..at + 8].try_into().unwrap())
}

impl Card {
    /// Checks 1 to 5; check 3 where a disk's length is given.
    fn decoded(taken: Taken, bytes: &[u8], disk_length: Option<usize>) -> Result<Card, u32> {
        let geometry = Geometry::of_header(bytes, taken)?;
        if bytes.len() != geometry.card_length() {
            return Err(2);
        }
        if disk_length.is_some_and(|length| length != geometry.disk_length()) {
            return Err(3);
        }
        let (head, tail) = (word(bytes, 64), word(bytes, 72));
        if head >= geometry.slots || tail >= geometry.slots {
            return Err(4);
        }
        let window: Vec<u64> =
            window_slots(geometry.slots, head, tail).iter().map(|slot| word(bytes, geometry.slot_at(*slot))).collect();
        if window.iter().any(|number| *number >= geometry.disk_blocks) {
            return Err(4);
        }
        let (version, mut entries) = (bytes[VERSION_AT], Vec::new());
        let flags = taken.flags(version);
        for index in 0..geometry.data_blocks as usize {
            let at = geometry.entry_at(index);
            let bytes: &[u8; 16] = bytes[at..at + 16].try_into().unwrap();
            entries.push(read_allowed(&flags, bytes, geometry.data_blocks, geometry.disk_blocks)?);
        }
        Ok(Card { version, geometry, head, tail, window, entries })
    }

    /// Checks 1 to 6 of a card of either version; check 3 where a disk's length is given.
    pub fn open(bytes: &[u8], disk_length: Option<usize>) -> Result<Card, u32> {
        Card::open_as(Taken::EITHER, bytes, disk_length)
    }

    /// Checks 1 to 6 of a card of any version, one that no call takes too.
    pub fn open_any(bytes: &[u8]) -> Result<Card, u32> {
        Card::open_as(Taken { version: |_| true, slip: None }, bytes, None)
    }

    /// Checks 1 to 7 of a card of either version.
    pub fn open_settled(bytes: &[u8], disk_length: Option<usize>) -> Result<Card, u32> {
        Card::open(bytes, disk_length)?.if_settled()
    }

    /// Checks 1 to 6.
    fn open_as(taken: Taken, bytes: &[u8], disk_length: Option<usize>) -> Result<Card, u32> {
        let card = Card::decoded(taken, bytes, disk_length)?;
        let mut taken: Vec<(&Entry, Option<u32>)> = Vec::new();
        for entry in card.in_use() {
            let settled = card.settled_block(entry);
            for (other, other_settled) in &taken {
                let same_settled = settled.is_some() && settled == *other_settled;
                if entry.number == other.number || entry.current == other.current || same_settled {
                    return Err(6);
                }
            }
            taken.push((entry, settled));
        }
        Ok(card)
    }

    /// Check 7.
    fn if_settled(self) -> Result<Card, u32> {
        if self.settled() {
            Ok(self)
        } else {
            Err(7)
        }
    }

    pub fn in_use(&self) -> impl Iterator<Item = &Entry> {
        self.entries.iter().flatten()
    }

    pub fn undoable(&self, entry: &Entry) -> bool {
        entry.log_role || self.window.contains(&entry.number)
    }

    pub fn settled_block(&self, entry: &Entry) -> Option<u32> {
        if self.undoable(entry) {
            entry.previous
        } else {
            Some(entry.current)
        }
    }

    pub fn settled(&self) -> bool {
        self.head == self.tail && !self.in_use().any(|entry| entry.log_role)
    }

    pub fn entry_for(&self, number: u64) -> Option<usize> {
        self.entries.iter().position(|entry| entry.is_some_and(|entry| entry.number == number))
    }

    /// The contents of a disk block, where the card is settled.
    pub fn contents<'b>(&self, card: &'b [u8], disk: &'b [u8], number: u64) -> &'b [u8] {
        let (from, at) = match self.entry_for(number) {
            Some(index) => (card, self.geometry.block_at(self.entries[index].unwrap().current)),
            None => (disk, number as usize * self.geometry.block()),
        };
        &from[at..at + self.geometry.block()]
    }

    /// Of a data block: it is no in-use entry's current block and no undoable entry's previous one.
    pub fn is_free(&self, block: usize) -> bool {
        let is_previous = |entry: &Entry| entry.previous == Some(block as u32) && self.undoable(entry);
        !self.in_use().any(|entry| entry.current as usize == block || is_previous(entry))
    }

    /// The free data blocks in the order of a commit's search.
    pub fn free_blocks(&self) -> Vec<usize> {
        self.free_from(self.head)
    }

    /// Those in the order of a search that starts at this slot position mod N.
    fn free_from(&self, start: u64) -> Vec<usize> {
        walk(self.geometry.data_blocks, start, |block| self.is_free(block))
    }

    /// The record of the pending save that is on the card, of count 0 where it is settled. None where the entries with R and the window's
    /// numbers are not the same, one to one.
    pub fn record(&self) -> Option<[u64; 2]> {
        let (mut logged, mut window) = (self.logged_numbers(), self.window.clone());
        logged.sort();
        window.sort();
        (logged == window).then_some([self.tail, window.len() as u64])
    }

    /// The numbers of the entries with R.
    fn logged_numbers(&self) -> Vec<u64> {
        self.in_use().filter(|entry| entry.log_role).map(|entry| entry.number).collect()
    }

    /// The free block map: bit d mod 64, from the lowest, of word d / 64 is set unless d is below N and data block d is free.
    pub fn map(&self) -> [u64; 2] {
        let mut words = [0; 2];
        for block in 0..MAP_BITS {
            if block as u64 >= self.geometry.data_blocks || !self.is_free(block) {
                set_bit(&mut words, block);
            }
        }
        words
    }

    /// The unused entries in the order of a commit's search.
    pub fn unused_entries(&self) -> Vec<usize> {
        self.unused_from(self.head)
    }

    /// As `free_from`, the unused entries.
    fn unused_from(&self, start: u64) -> Vec<usize> {
        walk(self.geometry.data_blocks, start, |entry| self.entries[entry].is_none())
    }
}

/// One store: a unit that is whole.
#[derive(Clone, Debug, PartialEq, Eq)]
pub enum Store {
    Word(usize, [u8; 8]),
    Entry(usize, [u8; 16]),
    Sector(usize, Vec<u8>),
}

impl Store {
    /// Offset and bytes, and whether they go to the disk.
    pub fn unit(&self) -> (bool, usize, &[u8]) {
        match self {
            Store::Word(at, bytes) => (false, *at, bytes),
            Store::Entry(at, bytes) => (false, *at, bytes),
            Store::Sector(at, bytes) => (true, *at, bytes),
        }
    }
}

/// What one fence closes. The words of a data block, and the sectors of a disk block, have no order among themselves, also where there is
/// but one of them; any other store is a run by itself.
#[derive(Clone, Debug, PartialEq, Eq)]
pub enum Run {
    Unordered(Vec<Store>),
    Single(Store),
}

impl Run {
    pub fn stores(&self) -> &[Store] {
        match self {
            Run::Unordered(stores) => stores,
            Run::Single(store) => std::slice::from_ref(store),
        }
    }

    fn words(at: usize, bytes: &[u8]) -> Run {
        let word = |(index, word): (usize, &[u8])| Store::Word(at + 8 * index, word.try_into().unwrap());
        Run::Unordered(bytes.chunks_exact(8).enumerate().map(word).collect())
    }

    fn sectors(at: usize, bytes: &[u8]) -> Run {
        let sector = |(index, sector): (usize, &[u8])| Store::Sector(at + 512 * index, sector.to_vec());
        Run::Unordered(bytes.chunks_exact(512).enumerate().map(sector).collect())
    }
}

/// The stores of all runs, one after the other.
pub fn stores_of(runs: &[Run]) -> Vec<Store> {
    runs.iter().flat_map(|run| run.stores().to_vec()).collect()
}

/// The run that an allowance ends in, and how many of its stores are within it. None where it covers all of them.
pub fn cut_run(runs: &[Run], allowance: u64) -> Option<(&Run, u64)> {
    let mut left = allowance;
    for run in runs {
        let length = run.stores().len() as u64;
        if left < length {
            return Some((run, left));
        }
        left -= length;
    }
    None
}

/// The store that ends a save.
fn tail_run(head: u64) -> Run {
    Run::Single(Store::Word(72, head.to_be_bytes()))
}

/// The first of the checks whose condition holds.
fn lowest(checks: &[(u32, bool)]) -> Result<(), u32> {
    checks.iter().find(|(_, holds)| *holds).map_or(Ok(()), |(number, _)| Err(*number))
}

/// What a wrong program might do. The comparison must see each of them.
#[derive(Clone, Copy, Debug, PartialEq, Eq)]
pub enum Slip {
    CleanUndo,
    FreshAtSwitch,
    FreshAtUndo,
    WindowAlone,
    CountOneMore,
    CutAtCount,
    ZeroBeforeSectors,
    /// An evict writes a clean block too.
    CleanWritten,
    OldBlockGivenOut,
    SearchFromZero,
    HeadAlone,
    SlotBeforeEntry,
    TailFirst,
    UnchangedCounted,
    RepeatsLetBy,
    LookOneByteLess,
    FormatClearsBlocks,
    ReadTouchesOnRefusal,
    CountsEveryEntry,
    CachedUnsettled,
    CachedCounted,
    /// The map's bits from N on are not set.
    MapWithoutRest,
    MapSwapped,
    /// An undoable entry's previous block is free.
    MapFreesPrevious,
    /// No map is made of an unsettled card.
    MapOfSettledAlone,
    CountsLowWord,
    AnyMapTaken,
    /// A map of three words is taken by its first two.
    LongMapTaken,
    /// A map of another length is taken for one of zeros, or of ones.
    OddMapAsZeros,
    OddMapAsOnes,
    /// Recover asks 15 before 6.
    MapBeforeEqual,
    /// The other calls ask 15 before 7.
    MapBeforeSettled,
    /// 15 comes after a call's own checks, as its number would have it.
    MapAskedLast,
    /// A wrong map is refused, and the right one written in its place.
    MapMended,
    NewMapAfterCut,
    OldMapAfterEvict,
    OldMapAfterRecover,
    /// A commit marks its new blocks and frees none.
    OldBlocksStayTaken,
    /// Recover clears and sets bits entry by entry: a block that one entry gets back and a later one gives up is lost.
    BitsMovedInTurn,
    /// Preview gives the data blocks out by the numbers' size, not by their order.
    PreviewBySize,
    /// Preview tells where a cached number lies now.
    PreviewOldBlocks,
    /// Preview tells the place of the entry, on a fresh card the same number as the data block's.
    PreviewEntries,
    /// Preview's done has the count of the numbers.
    PreviewCountsNumbers,
    /// Preview says done where the data blocks do not suffice.
    PreviewRoomUnasked,
    PreviewMapUnasked,
    /// Preview does not ask how long its output is, and fills what there is.
    PreviewAnyOutput,
    /// Preview takes the first numbers of a longer output.
    PreviewLongOutput,
    /// Preview asks for its output's length before all else, before 8, or after 14.
    PreviewOutputFirst,
    PreviewOutputBeforeCount,
    PreviewOutputLast,
    PreviewWritesRefused,
    /// Preview makes the commit's stores, or hands on the map of the card that they would leave.
    PreviewStores,
    PreviewHandsMapOn,
    /// Preview sorts the numbers in place, to find one that stands twice.
    PreviewSortsNumbers,
    PreviewWritesData,
    /// The choice plays no part: of the run that is cut the first stores are made, as document 01 has it.
    FirstStoresMade,
    /// Of the chosen stores as many are made as the allowance says.
    ChosenCounted,
    /// A chosen store past the allowance is not made.
    ChosenPastLeftOut,
    /// A store within the allowance is made, chosen or not.
    UnchosenMade,
    /// The single store behind the run that is cut is made.
    SingleAfterCut,
    /// Behind the run that is cut nothing is left of the allowance: the next such run is taken for one in which it ends.
    NextRunChosen,
    /// A run that the allowance just covers is chosen from.
    CoveredRunChosen,
    /// Every such run is chosen from, also in a call that is done.
    ChosenWhenDone,
    /// A block that is one sector is a single store.
    OneSectorSingle,
    /// The choice has a byte for each store of the call, counted round.
    ChoiceOfCall,
    /// The choice's last byte is the first store's.
    ChoiceBackward,
    /// 17 is asked before 15, before 9, after 10, or after all.
    ChoiceBeforeMap,
    ChoiceBeforeLength,
    ChoiceAfterNumber,
    ChoiceAskedLast,
    /// 17 is asked only of a call whose allowance could end.
    ChoiceAskedIfCut,
    /// An evict of a clean block, which has no such run, takes any choice.
    CleanTakesAnyChoice,
    /// An evict asks for as many bytes as it has sectors.
    ChoiceOfSectors,
    /// A choice of any length is taken, or only one of B/8 bytes.
    ShortChoiceTaken,
    LongChoiceRefused,
    /// A byte above 1 is a 1.
    AnyByteTaken,
    /// Bytes past B/8 are not looked at.
    BytesPastTaken,
    /// Room is made by the most recently used blocks, or by the entries in their order, whatever the table says.
    MostRecentVictim,
    VictimsByPlace,
    /// A block of the commit itself may be evicted.
    OwnBlockEvicted,
    /// 14 is asked of all cached blocks; where the others do not suffice, the commit's own go too.
    OwnBlocksCounted,
    /// 14 is asked as in the commit that makes no room.
    RoomAsPlain,
    OneVictimMore,
    /// Room is made for the numbers that are not cached.
    MissingUncached,
    /// Done has the count of the commit's stores alone.
    EvictionsUncounted,
    /// The evictions' stores come after the commit's.
    EvictionsLast,
    /// The search for data blocks, or that for entries, sees the card as at the start: what was evicted is found last.
    BlocksAtStart,
    EntriesAtStart,
    CleanVictimWritten,
    /// A victim's sectors are single stores.
    VictimSectorsSingle,
    /// The disk's length, or the table, is asked for only where a block must be evicted.
    DiskAskedForVictims,
    TableAskedForVictims,
    /// A commit that makes room, a load or a read moves entries though it is cut or refused.
    RoomMovedOnCut,
    LoadMovedOnCut,
    RoomMovedOnRefusal,
    LoadMovedOnRefusal,
    ReadMovedOnRefusal,
    /// 16 is asked before 15, before 7, behind 9 (load: behind 17), or after all.
    TableBeforeMap,
    TableBeforeSettled,
    TableAfterLength,
    TableAskedLast,
    /// The same of read alone: before 7, behind 9, or after all.
    ReadTableBeforeSettled,
    ReadTableAfterLength,
    ReadTableAskedLast,
    NumberTwiceTaken,
    /// Any 128 different numbers are taken.
    NumberAboveTaken,
    /// A longer table is taken by its first 128 numbers.
    LongTableTaken,
    /// The numbers from N on are not looked at, nor how many there are.
    TableOfEntriesTaken,
    /// A done commit moves its blocks in reverse, or those alone that were not cached, or none where nothing was evicted.
    MovedBackward,
    NewBlocksMoved,
    MovedIfEvicted,
    /// The entry of an evicted block goes to the end of the table.
    EvictedToBack,
    /// A read from the disk makes the least recently used number the first.
    DiskReadMoves,
    CardReadStays,
    LoadStays,
    /// The numbers of the table stand for data blocks.
    TableOfDataBlocks,
    /// An entry changes places with the first one, and the others do not move up.
    SwappedToFront,
    /// Undoing gives 82 where P is not set, or 82 where it is set.
    ModifiedUndo,
    UndoDropsP,
    /// Recovery of an old card goes by the rule of today, and of today's by the old one.
    OldUndoneAsNew,
    NewUndoneAsOld,
    /// An entry that stands undone in the window is stored again: with M the other way round, 80 to 82 and back, or with no byte changed, as
    /// by a recovery that starts again from its first store.
    UndoneFlipped,
    UndoneStoredAgain,
    /// Recovery stores Tail before the entries.
    RecoveryTailFirst,
    /// Recovery of an unsettled card undoes every entry in use.
    EveryEntryUndone,
    /// The log entry is 87 over every entry, also where there is none, never, or as P stood in the entry.
    CleanLoggedModified,
    AbsentLoggedModified,
    ModifiedLoggedClean,
    LoggedAsBefore,
    /// The role switch clears P too, or does not clear R.
    SwitchDropsP,
    SwitchKeepsR,
    /// On cards of the version that flag byte is allowed, or is not.
    FlagTaken(u8, u8),
    FlagRefused(u8, u8),
    FormatsOld,
    /// The call takes old cards, or refuses them.
    OldTaken(Call),
    OldRefused(Call),
    /// A version that is none is taken for today's.
    EveryVersionTaken,
    /// Upgrade takes a card of today, or of a version that is none.
    NewUpgraded,
    EveryVersionUpgraded,
    /// Upgrade does not ask 7, or 4 to 6.
    UpgradeUnsettled,
    UpgradeDamaged,
    /// Upgrade is done with any allowance; it counts no store; it makes none.
    UpgradeFree,
    UpgradeUncounted,
    UpgradeUnmade,
    /// The word that upgrade stores has no slots; it stores the modified entries too, with P.
    UpgradeClearsSlots,
    UpgradeSetsP,
    /// Open of an unsettled card gives its record.
    OpenUnsettled,
    /// A put gives out the previous version of a block of its save, as document 01's free has it.
    PreviousGivenOut,
    /// A put searches from Head; its data block from there alone, or its entry.
    PutFromHead,
    PutBlockFromHead,
    PutEntryFromHead,
    /// A cut put, or a refused one, hands on the next record; a done one the record that it got.
    RecordAfterCut,
    RecordAfterRefusal,
    RecordStays,
    /// Finish writes the record.
    FinishWritesRecord,
    /// Finish stores Tail before the last role switch, or the role switches in the order of the entries.
    FinishTailEarly,
    FinishByPlace,
    /// 18 is asked behind 15, or after all.
    MapBeforeRecord,
    RecordAskedLast,
    /// Put and finish ask 7 of a card without a pending save's record.
    SettledForRecord,
    /// 18 does not ask for Tail, or for the count.
    TailUnasked,
    CountUnasked,
    /// 18 does not ask for one to one: a number stands in the window twice; an entry with R is outside it; a number in it has no entry with R;
    /// there are as many of both.
    WindowTwiceTaken,
    RoleOutsideTaken,
    NoRoleTaken,
    RolesCounted,
    /// A record of three words is taken by its first two; of another length it is one of zeros.
    LongRecordTaken,
    OddRecordAsZeros,
    /// The record's numbers are looked at in their lowest 32 bits, or 8 bits.
    RecordNarrowed(u32),
    /// A put is taken at count S - 1; a finish at count 0.
    FullWindowTaken,
    EmptyFinished,
    /// A put does not ask 9, 17, 10, 11 or 14.
    PutUnasked(u32),
    /// A put refuses a number that is cached, as if it were in the save.
    CachedPutRefused,
    /// A put counts the stores of a commit; a finish does not count Tail's.
    PutCountsCommit,
    FinishCountsSwitches,
    /// A put, or a finish, hands on the map that it got.
    OldMapAfterPut,
    OldMapAfterFinish,
    /// A put frees the block that it saves over, as a whole commit does.
    PutFreesPrevious,
    /// Finish clears the bits of previous blocks, also of one that is another entry's current block.
    FinishFreesCurrent,
}

pub const SLIPS: [Slip; 203] = [
    Slip::CleanUndo,
    Slip::FreshAtSwitch,
    Slip::FreshAtUndo,
    Slip::WindowAlone,
    Slip::CountOneMore,
    Slip::CutAtCount,
    Slip::ZeroBeforeSectors,
    Slip::CleanWritten,
    Slip::OldBlockGivenOut,
    Slip::SearchFromZero,
    Slip::HeadAlone,
    Slip::SlotBeforeEntry,
    Slip::TailFirst,
    Slip::UnchangedCounted,
    Slip::RepeatsLetBy,
    Slip::LookOneByteLess,
    Slip::FormatClearsBlocks,
    Slip::ReadTouchesOnRefusal,
    Slip::CountsEveryEntry,
    Slip::CachedUnsettled,
    Slip::CachedCounted,
    Slip::MapWithoutRest,
    Slip::MapSwapped,
    Slip::MapFreesPrevious,
    Slip::MapOfSettledAlone,
    Slip::CountsLowWord,
    Slip::AnyMapTaken,
    Slip::LongMapTaken,
    Slip::OddMapAsZeros,
    Slip::OddMapAsOnes,
    Slip::MapBeforeEqual,
    Slip::MapBeforeSettled,
    Slip::MapAskedLast,
    Slip::MapMended,
    Slip::NewMapAfterCut,
    Slip::OldMapAfterEvict,
    Slip::OldMapAfterRecover,
    Slip::OldBlocksStayTaken,
    Slip::BitsMovedInTurn,
    Slip::PreviewBySize,
    Slip::PreviewOldBlocks,
    Slip::PreviewEntries,
    Slip::PreviewCountsNumbers,
    Slip::PreviewRoomUnasked,
    Slip::PreviewMapUnasked,
    Slip::PreviewAnyOutput,
    Slip::PreviewLongOutput,
    Slip::PreviewOutputFirst,
    Slip::PreviewOutputBeforeCount,
    Slip::PreviewOutputLast,
    Slip::PreviewWritesRefused,
    Slip::PreviewStores,
    Slip::PreviewHandsMapOn,
    Slip::PreviewSortsNumbers,
    Slip::PreviewWritesData,
    Slip::FirstStoresMade,
    Slip::ChosenCounted,
    Slip::ChosenPastLeftOut,
    Slip::UnchosenMade,
    Slip::SingleAfterCut,
    Slip::NextRunChosen,
    Slip::CoveredRunChosen,
    Slip::ChosenWhenDone,
    Slip::OneSectorSingle,
    Slip::ChoiceOfCall,
    Slip::ChoiceBackward,
    Slip::ChoiceBeforeMap,
    Slip::ChoiceBeforeLength,
    Slip::ChoiceAfterNumber,
    Slip::ChoiceAskedLast,
    Slip::ChoiceAskedIfCut,
    Slip::CleanTakesAnyChoice,
    Slip::ChoiceOfSectors,
    Slip::ShortChoiceTaken,
    Slip::LongChoiceRefused,
    Slip::AnyByteTaken,
    Slip::BytesPastTaken,
    Slip::MostRecentVictim,
    Slip::VictimsByPlace,
    Slip::OwnBlockEvicted,
    Slip::OwnBlocksCounted,
    Slip::RoomAsPlain,
    Slip::OneVictimMore,
    Slip::MissingUncached,
    Slip::EvictionsUncounted,
    Slip::EvictionsLast,
    Slip::BlocksAtStart,
    Slip::EntriesAtStart,
    Slip::CleanVictimWritten,
    Slip::VictimSectorsSingle,
    Slip::DiskAskedForVictims,
    Slip::TableAskedForVictims,
    Slip::RoomMovedOnCut,
    Slip::LoadMovedOnCut,
    Slip::RoomMovedOnRefusal,
    Slip::LoadMovedOnRefusal,
    Slip::ReadMovedOnRefusal,
    Slip::TableBeforeMap,
    Slip::TableBeforeSettled,
    Slip::TableAfterLength,
    Slip::TableAskedLast,
    Slip::ReadTableBeforeSettled,
    Slip::ReadTableAfterLength,
    Slip::ReadTableAskedLast,
    Slip::NumberTwiceTaken,
    Slip::NumberAboveTaken,
    Slip::LongTableTaken,
    Slip::TableOfEntriesTaken,
    Slip::MovedBackward,
    Slip::NewBlocksMoved,
    Slip::MovedIfEvicted,
    Slip::EvictedToBack,
    Slip::DiskReadMoves,
    Slip::CardReadStays,
    Slip::LoadStays,
    Slip::TableOfDataBlocks,
    Slip::SwappedToFront,
    Slip::ModifiedUndo,
    Slip::UndoDropsP,
    Slip::OldUndoneAsNew,
    Slip::NewUndoneAsOld,
    Slip::UndoneFlipped,
    Slip::UndoneStoredAgain,
    Slip::RecoveryTailFirst,
    Slip::EveryEntryUndone,
    Slip::CleanLoggedModified,
    Slip::AbsentLoggedModified,
    Slip::ModifiedLoggedClean,
    Slip::LoggedAsBefore,
    Slip::SwitchDropsP,
    Slip::SwitchKeepsR,
    Slip::FlagTaken(OLD, 0x84),
    Slip::FlagTaken(OLD, 0x85),
    Slip::FlagTaken(OLD, 0x86),
    Slip::FlagTaken(OLD, 0x87),
    Slip::FlagTaken(NOW, 0x81),
    Slip::FlagTaken(NOW, 0x84),
    Slip::FlagTaken(NOW, 0x85),
    Slip::FlagRefused(NOW, 0x86),
    Slip::FlagRefused(NOW, 0x87),
    Slip::FormatsOld,
    Slip::OldTaken(Call::Commit),
    Slip::OldTaken(Call::Room),
    Slip::OldTaken(Call::Preview),
    Slip::OldTaken(Call::Load),
    Slip::OldTaken(Call::Evict),
    Slip::OldTaken(Call::Read),
    Slip::OldTaken(Call::Look),
    Slip::OldTaken(Call::State),
    Slip::OldTaken(Call::Cached),
    Slip::OldRefused(Call::Recover),
    Slip::OldRefused(Call::MakeMap),
    Slip::EveryVersionTaken,
    Slip::NewUpgraded,
    Slip::EveryVersionUpgraded,
    Slip::UpgradeUnsettled,
    Slip::UpgradeDamaged,
    Slip::UpgradeFree,
    Slip::UpgradeUncounted,
    Slip::UpgradeUnmade,
    Slip::UpgradeClearsSlots,
    Slip::UpgradeSetsP,
    Slip::OldTaken(Call::Open),
    Slip::OldTaken(Call::Put),
    Slip::OldTaken(Call::Finish),
    Slip::OpenUnsettled,
    Slip::PreviousGivenOut,
    Slip::PutFromHead,
    Slip::PutBlockFromHead,
    Slip::PutEntryFromHead,
    Slip::RecordAfterCut,
    Slip::RecordAfterRefusal,
    Slip::RecordStays,
    Slip::FinishWritesRecord,
    Slip::FinishTailEarly,
    Slip::FinishByPlace,
    Slip::MapBeforeRecord,
    Slip::RecordAskedLast,
    Slip::SettledForRecord,
    Slip::TailUnasked,
    Slip::CountUnasked,
    Slip::WindowTwiceTaken,
    Slip::RoleOutsideTaken,
    Slip::NoRoleTaken,
    Slip::RolesCounted,
    Slip::LongRecordTaken,
    Slip::OddRecordAsZeros,
    Slip::RecordNarrowed(32),
    Slip::RecordNarrowed(8),
    Slip::FullWindowTaken,
    Slip::EmptyFinished,
    Slip::PutUnasked(9),
    Slip::PutUnasked(17),
    Slip::PutUnasked(10),
    Slip::PutUnasked(11),
    Slip::PutUnasked(14),
    Slip::CachedPutRefused,
    Slip::PutCountsCommit,
    Slip::FinishCountsSwitches,
    Slip::OldMapAfterPut,
    Slip::OldMapAfterFinish,
    Slip::PutFreesPrevious,
    Slip::FinishFreesCurrent,
];

/// The model; with a slip, a deliberately wrong one. That of the old version is the station of before request 7, whose calls made the cards
/// of version 1: they have the same arguments, and upgrade is none of them.
#[derive(Clone, Copy, Debug)]
pub struct Model {
    pub slip: Option<Slip>,
    pub version: u8,
}

impl Default for Model {
    fn default() -> Model {
        Model::NOW
    }
}

impl Model {
    /// Today's.
    pub const NOW: Model = Model { slip: None, version: NOW };

    pub fn wrong(slip: Slip) -> Model {
        Model { slip: Some(slip), ..Model::default() }
    }

    /// That of a version.
    pub fn of(version: u8) -> Model {
        Model { slip: None, version }
    }

    pub fn old() -> Model {
        Model::of(OLD)
    }

    fn slips(&self, slip: Slip) -> bool {
        self.slip == Some(slip)
    }

    /// The cards that a call takes: those of the model's own version; recover and make map also old ones, upgrade those alone.
    fn takes(&self, call: Call) -> Taken {
        let version: fn(u8) -> bool = match (self.slip, call) {
            (Some(Slip::OldTaken(taking)), _) if taking == call => Taken::EITHER.version,
            (Some(Slip::OldRefused(refusing)), _) if refusing == call => |version| version == NOW,
            (Some(Slip::NewUpgraded), Call::Upgrade) => Taken::EITHER.version,
            (Some(Slip::EveryVersionUpgraded), Call::Upgrade) => |version| version != NOW,
            (Some(Slip::EveryVersionTaken), Call::Recover | Call::MakeMap) => |_| true,
            (Some(Slip::EveryVersionTaken), _) if call != Call::Upgrade => |version| version != OLD,
            (_, Call::Upgrade) => |version| version == OLD,
            _ if self.version == OLD => |version| version == OLD,
            (_, Call::Recover | Call::MakeMap) => Taken::EITHER.version,
            _ => |version| version == NOW,
        };
        Taken { version, slip: self.slip }
    }

    /// Checks 1 to 6 of a call.
    fn checked(&self, call: Call, bytes: &[u8], disk_length: Option<usize>) -> Result<Card, u32> {
        Card::open_as(self.takes(call), bytes, disk_length)
    }

    /// Checks 1 to 7 of a call.
    fn open_settled(&self, call: Call, bytes: &[u8], disk_length: Option<usize>) -> Result<Card, u32> {
        self.checked(call, bytes, disk_length)?.if_settled()
    }

    /// The map that the card gives.
    fn given(&self, card: &Card) -> [u64; 2] {
        let mut words = card.map();
        if self.slips(Slip::MapWithoutRest) {
            let rest = u128::MAX.checked_shl(card.geometry.data_blocks as u32).unwrap_or(0);
            words = [words[0] & !rest as u64, words[1] & !(rest >> 64) as u64];
        }
        if self.slips(Slip::MapFreesPrevious) {
            let previous = card.in_use().filter(|entry| card.undoable(entry)).filter_map(|entry| entry.previous);
            let is_current = |block: &u32| card.in_use().any(|entry| entry.current == *block);
            previous.filter(|block| !is_current(block)).for_each(|block| clear_bit(&mut words, block as usize));
        }
        if self.slips(Slip::MapSwapped) {
            words.swap(0, 1);
        }
        words
    }

    /// Check 15.
    fn check_map(&self, card: &Card, map: &[u64]) -> Result<(), u32> {
        let looked_at = match map.len() {
            2 => map,
            _ if self.slips(Slip::LongMapTaken) => &map[..map.len().min(2)],
            _ if self.slips(Slip::OddMapAsZeros) => &[0; 2],
            _ if self.slips(Slip::OddMapAsOnes) => &[u64::MAX; 2],
            _ => map,
        };
        if looked_at == self.given(card) || (self.slips(Slip::AnyMapTaken) && map.len() == 2) {
            Ok(())
        } else {
            Err(15)
        }
    }

    /// Checks 1 to 7 and 15, all that come before the choice is looked at.
    fn check_settled(&self, call: Call, bytes: &[u8], disk_length: Option<usize>, map: &[u64], choice: &[u8]) -> Result<Card, u32> {
        if self.slips(Slip::MapBeforeSettled) {
            self.check_map(&self.checked(call, bytes, disk_length)?, map)?;
        }
        let card = self.open_settled(call, bytes, disk_length)?;
        if self.slips(Slip::ChoiceBeforeMap) && self.is_wrong(choice, card.geometry.block() / 8) {
            return Err(17);
        }
        if !self.slips(Slip::MapAskedLast) {
            self.check_map(&card, map)?;
        }
        Ok(card)
    }

    /// Checks 1 to 7 and 15 of a call that takes a table besides. 16 is the first of those that follow.
    fn check_lent(
        &self,
        call: Call,
        bytes: &[u8],
        disk_length: Option<usize>,
        map: &[u64],
        table: &[u8],
        choice: &[u8],
    ) -> Result<Card, u32> {
        let early = match self.slip {
            Some(Slip::TableBeforeSettled) => Some(self.checked(call, bytes, disk_length)?),
            Some(Slip::TableBeforeMap) => Some(self.open_settled(call, bytes, disk_length)?),
            _ => None,
        };
        match early {
            Some(card) if self.is_bad(table, card.geometry.data_blocks) => Err(16),
            _ => self.check_settled(call, bytes, disk_length, map, choice),
        }
    }

    /// Whether check 16 holds of the table: it is not the numbers 0 to 127, each once.
    fn is_bad(&self, table: &[u8], data_blocks: u64) -> bool {
        let mut times = [0; 256];
        table.iter().for_each(|number| times[*number as usize] += 1);
        let (below, above) = times.split_at(TABLE);
        match self.slip {
            Some(Slip::NumberTwiceTaken) => table.len() != TABLE || above.iter().any(|times| *times > 0),
            Some(Slip::NumberAboveTaken) => table.len() != TABLE || times.iter().any(|times| *times > 1),
            Some(Slip::LongTableTaken) if table.len() > TABLE => self.is_bad(&table[..TABLE], data_blocks),
            Some(Slip::TableOfEntriesTaken) => below[..data_blocks as usize].iter().any(|times| *times != 1),
            _ => table.len() != TABLE || below.iter().any(|times| *times != 1),
        }
    }

    /// The choice as the call sees it.
    fn looked_at<'c>(&self, choice: &'c [u8], allowance: u64) -> &'c [u8] {
        if allowance == u64::MAX && self.slips(Slip::ChoiceAskedIfCut) {
            &[0; 512]
        } else {
            choice
        }
    }

    /// Checks 1, 2, 4 to 6 and 15.
    fn check_unsettled(&self, bytes: &[u8], map: &[u64]) -> Result<(), u32> {
        if self.slips(Slip::MapBeforeEqual) {
            self.check_map(&Card::decoded(self.takes(Call::Recover), bytes, None)?, map)?;
        }
        self.check_map(&self.checked(Call::Recover, bytes, None)?, map)
    }

    /// Whether check 17 holds of the choice; `length` is how many bytes it must have at least.
    fn is_wrong(&self, choice: &[u8], length: usize) -> bool {
        let wrong_length = match self.slip {
            Some(Slip::ShortChoiceTaken) => false,
            Some(Slip::LongChoiceRefused) => choice.len() != length,
            _ => choice.len() < length,
        };
        let looked_at = if self.slips(Slip::BytesPastTaken) { &choice[..choice.len().min(length)] } else { choice };
        wrong_length || (looked_at.iter().any(|byte| *byte > 1) && !self.slips(Slip::AnyByteTaken))
    }

    /// The first of the checks, in the order in which they are made, whose condition holds.
    fn first_refusal(&self, mut checks: Vec<(u32, bool)>) -> Result<(), u32> {
        let place = |checks: &[(u32, bool)], number: u32| checks.iter().position(|check| check.0 == number);
        let last = checks.len() - 1;
        // 17 stands between 9, where the call asks it, and 10
        if let Some(from) = place(&checks, 17) {
            let to = match self.slip {
                Some(Slip::ChoiceBeforeLength) => from.saturating_sub(1),
                Some(Slip::ChoiceAfterNumber) => from + 1,
                Some(Slip::ChoiceAskedLast) => last,
                _ => from,
            };
            let choice = checks.remove(from);
            checks.insert(to, choice);
        }
        // 16, where the call takes a table, stands before all of them
        if let Some(from) = place(&checks, 16) {
            let to = match self.slip {
                Some(Slip::TableAfterLength) => place(&checks, 9).or(place(&checks, 17)).unwrap(),
                Some(Slip::TableAskedLast) => last,
                _ => from,
            };
            let table = checks.remove(from);
            checks.insert(to, table);
        }
        lowest(&checks)
    }

    /// The stores of a commit that is given the card's map and a choice that is none of 17's.
    pub fn commit_list(&self, bytes: &[u8], numbers: &[u64], data: &[u8]) -> Result<Vec<Store>, u32> {
        let card = self.open_settled(Call::Commit, bytes, None)?;
        let choice = zeros(card.geometry.block());
        self.commit_runs(&card, Save { numbers, data, choice: &choice }).map(|runs| stores_of(&runs))
    }

    /// As above, the runs of a commit that makes room.
    pub fn room_list(&self, bytes: &[u8], disk_length: usize, table: &[u8], numbers: &[u64], data: &[u8]) -> Result<Vec<Run>, u32> {
        let card = self.open_settled(Call::Room, bytes, Some(disk_length))?;
        let choice = zeros(card.geometry.block());
        self.room_runs(&card, bytes, table, Save { numbers, data, choice: &choice })
    }

    /// The stores of a load, with any table.
    pub fn load_list(&self, bytes: &[u8], disk: &[u8], number: u64) -> Result<Vec<Store>, u32> {
        let card = self.open_settled(Call::Load, bytes, Some(disk.len()))?;
        self.load_runs(&card, disk, &ascending(), number, &zeros(card.geometry.block())).map(|runs| stores_of(&runs))
    }

    /// The stores of an evict.
    pub fn evict_list(&self, bytes: &[u8], disk_length: usize, number: u64) -> Result<Vec<Store>, u32> {
        let card = self.open_settled(Call::Evict, bytes, Some(disk_length))?;
        self.evict_runs(&card, bytes, number, &zeros(card.geometry.block())).map(|runs| stores_of(&runs))
    }

    /// The runs of a commit, or which of its own checks refuses it.
    fn commit_runs(&self, card: &Card, save: Save) -> Result<Vec<Run>, u32> {
        let homes = self.homes(card, save.numbers);
        self.check_commit(card, save, false, save.numbers.len() > homes.blocks.len())?;
        Ok(self.saving_runs(card, homes, save))
    }

    /// The own checks of both commits; `bad_table` and `no_room` are 16 and 14.
    fn check_commit(&self, card: &Card, save: Save, bad_table: bool, no_room: bool) -> Result<(), u32> {
        let (numbers, n) = (save.numbers, save.numbers.len());
        let repeats = (0..n).any(|i| numbers[..i].contains(&numbers[i])) && !self.slips(Slip::RepeatsLetBy);
        let bad_count = n == 0 || n as u64 > card.geometry.slots - 1;
        self.check_save(card, save, Own { bad_table, bad_count, repeats, no_room }, &[])
    }

    /// The checks that commits and puts make of what they are to save, but for those that a wrong model does not ask.
    fn check_save(&self, card: &Card, save: Save, own: Own, unasked: &[u32]) -> Result<(), u32> {
        let (geometry, numbers, n) = (card.geometry, save.numbers, save.numbers.len());
        let mut checks = vec![
            (16, own.bad_table),
            (8, own.bad_count),
            (9, save.data.len() != n * geometry.block()),
            (17, self.is_wrong(save.choice, geometry.block() / 8)),
            (10, numbers.iter().any(|number| *number >= geometry.disk_blocks)),
            (11, own.repeats),
            (14, own.no_room),
        ];
        checks.iter_mut().filter(|check| unasked.contains(&check.0)).for_each(|check| check.1 = false);
        self.first_refusal(checks)
    }

    /// The searches of a commit.
    fn homes(&self, card: &Card, numbers: &[u64]) -> Homes {
        let start = if self.slips(Slip::SearchFromZero) { 0 } else { card.head };
        let mut blocks = card.free_from(start);
        if self.slips(Slip::OldBlockGivenOut) {
            let old = numbers.first().and_then(|number| card.entry_for(*number));
            blocks.extend(old.map(|entry| card.entries[entry].unwrap().current as usize));
        }
        Homes { blocks, entries: card.unused_from(start) }
    }

    /// The runs of a commit that passed its checks.
    fn saving_runs(&self, card: &Card, homes: Homes, save: Save) -> Vec<Run> {
        let geometry = card.geometry;
        let (mut unused, mut head) = (homes.entries.into_iter(), card.head);
        let (mut runs, mut written) = (Vec::new(), Vec::new());
        let blocks = save.data.chunks_exact(geometry.block()).zip(homes.blocks);
        for (i, (number, (block, home))) in save.numbers.iter().zip(blocks).enumerate() {
            let over = card.entry_for(*number);
            let index = over.unwrap_or_else(|| unused.next().unwrap());
            let entry = self.logged(card, *number, over.and_then(|index| card.entries[index]), home as u32);
            written.push((index, entry));
            let logging = self.logging_runs(geometry, block, index, entry, head);
            let skipped = if i > 0 && self.slips(Slip::HeadAlone) { logging.len() - 1 } else { 0 };
            runs.extend(logging.into_iter().skip(skipped));
            head = (head + 1) % geometry.slots;
        }
        let mut last = self.switching_runs(geometry, &written);
        last.insert(if self.slips(Slip::TailFirst) { 0 } else { last.len() }, tail_run(head));
        [runs, last].concat()
    }

    /// The role switches of these entries, each with its place.
    fn switching_runs(&self, geometry: Geometry, written: &[(usize, Entry)]) -> Vec<Run> {
        let switch = |(index, entry): &(usize, Entry)| Store::Entry(geometry.entry_at(*index), write_entry(Some(self.switched(*entry))));
        written.iter().map(|one| Run::Single(switch(one))).collect()
    }

    /// The log entry of a block of a commit.
    fn logged(&self, card: &Card, number: u64, over: Option<Entry>, current: u32) -> Entry {
        let right = logged(card.version, number, over, current);
        let previous_modified = match self.slip {
            Some(Slip::CleanLoggedModified) => over.is_some(),
            Some(Slip::AbsentLoggedModified) => right.previous_modified || over.is_none(),
            Some(Slip::ModifiedLoggedClean) => false,
            Some(Slip::LoggedAsBefore) => over.is_some_and(|entry| entry.previous_modified),
            _ => right.previous_modified,
        };
        Entry { previous_modified, ..right }
    }

    fn switched(&self, entry: Entry) -> Entry {
        let right = switched(entry);
        match self.slip {
            Some(Slip::FreshAtSwitch) => Entry { previous: None, ..right },
            Some(Slip::SwitchDropsP) => Entry { previous_modified: false, ..right },
            Some(Slip::SwitchKeepsR) => entry,
            _ => right,
        }
    }

    /// What a commit stores of one block, and a put: Head's store is the last.
    fn logging_runs(&self, geometry: Geometry, block: &[u8], index: usize, entry: Entry, head: u64) -> Vec<Run> {
        let mut runs = vec![
            Run::words(geometry.block_at(entry.current), block),
            Run::Single(Store::Entry(geometry.entry_at(index), write_entry(Some(entry)))),
            Run::Single(Store::Word(geometry.slot_at(head), entry.number.to_be_bytes())),
            Run::Single(Store::Word(64, ((head + 1) % geometry.slots).to_be_bytes())),
        ];
        if self.slips(Slip::SlotBeforeEntry) {
            runs.swap(1, 2);
        }
        runs
    }

    /// How many data blocks are missing.
    fn missing(&self, card: &Card, numbers: &[u64]) -> usize {
        let wanted = match self.slip {
            Some(Slip::MissingUncached) => numbers.iter().filter(|number| card.entry_for(**number).is_none()).count(),
            _ => numbers.len(),
        };
        wanted.saturating_sub(card.free_blocks().len())
    }

    /// The entries that can be evicted to make room, in the order in which they go: those in use whose number is not in the commit, the
    /// least recently used first.
    pub fn victims(&self, card: &Card, table: &[u8], numbers: &[u64]) -> Vec<usize> {
        let with_current = |block: u8| card.entries.iter().position(|entry| entry.is_some_and(|entry| entry.current == block as u32));
        let order: Vec<usize> = match self.slip {
            Some(Slip::MostRecentVictim) => table.iter().map(|number| *number as usize).collect(),
            Some(Slip::VictimsByPlace) => (0..card.entries.len()).collect(),
            Some(Slip::TableOfDataBlocks) => table.iter().rev().filter_map(|number| with_current(*number)).collect(),
            _ => table.iter().rev().map(|number| *number as usize).collect(),
        };
        let (mut own, mut others) = (Vec::new(), Vec::new());
        for index in order {
            let Some(entry) = card.entries.get(index).copied().flatten() else { continue };
            let is_own = numbers.contains(&entry.number) && !self.slips(Slip::OwnBlockEvicted);
            let victims = if is_own { &mut own } else { &mut others };
            // twice only in a table that a wrong model takes
            if !victims.contains(&index) {
                victims.push(index);
            }
        }
        if self.slips(Slip::OwnBlocksCounted) {
            others.extend(own);
        }
        others
    }

    /// The runs of a commit that makes room, or which of its own checks refuses it: those of the evictions, then those of a commit on the
    /// card that they leave.
    fn room_runs(&self, card: &Card, bytes: &[u8], table: &[u8], save: Save) -> Result<Vec<Run>, u32> {
        let (mut victims, missing) = (self.victims(card, table, save.numbers), self.missing(card, save.numbers));
        let asked = missing > 0 || !self.slips(Slip::TableAskedForVictims);
        let no_room = match self.slip {
            Some(Slip::RoomAsPlain) => missing > 0,
            Some(Slip::MissingUncached) => save.numbers.len() > card.free_blocks().len() + missing,
            Some(Slip::OwnBlockEvicted) => Model::default().victims(card, table, save.numbers).len() < missing,
            _ => victims.len() < missing,
        };
        self.check_commit(card, save, asked && self.is_bad(table, card.geometry.data_blocks), no_room)?;
        victims.truncate(if missing > 0 && self.slips(Slip::OneVictimMore) { missing + 1 } else { missing });
        let (mut left, mut evictions) = (card.clone(), Vec::new());
        for victim in &victims {
            evictions.extend(self.victim_runs(&left, bytes, *victim));
            left.entries[*victim] = None;
        }
        let mut homes = self.homes(&left, save.numbers);
        match self.slip {
            Some(Slip::BlocksAtStart) => homes.blocks = self.homes_at_start(card, &victims).blocks,
            Some(Slip::EntriesAtStart) => homes.entries = self.homes_at_start(card, &victims).entries,
            _ => {}
        }
        let saving = self.saving_runs(&left, homes, save);
        Ok(if self.slips(Slip::EvictionsLast) { [saving, evictions] } else { [evictions, saving] }.concat())
    }

    /// What a search finds that does not see the evictions, and behind it what they left.
    fn homes_at_start(&self, card: &Card, victims: &[usize]) -> Homes {
        let mut homes = self.homes(card, &[]);
        homes.blocks.extend(victims.iter().map(|victim| card.entries[*victim].unwrap().current as usize));
        homes.entries.extend(victims);
        homes
    }

    /// The eviction of a victim, as evict makes it.
    fn victim_runs(&self, card: &Card, bytes: &[u8], victim: usize) -> Vec<Run> {
        let mut card = card.clone();
        if let (Some(Slip::CleanVictimWritten), Some(entry)) = (self.slip, &mut card.entries[victim]) {
            entry.modified = true;
        }
        let runs = self.eviction_runs(&card, bytes, victim);
        match self.slip {
            Some(Slip::VictimSectorsSingle) => stores_of(&runs).into_iter().map(Run::Single).collect(),
            _ => runs,
        }
    }

    /// The runs of a load, or which of its own checks refuses it.
    fn load_runs(&self, card: &Card, disk: &[u8], table: &[u8], number: u64, choice: &[u8]) -> Result<Vec<Run>, u32> {
        let geometry = card.geometry;
        let free = card.free_blocks();
        self.first_refusal(vec![
            (16, self.is_bad(table, geometry.data_blocks)),
            (17, self.is_wrong(choice, geometry.block() / 8)),
            (10, number >= geometry.disk_blocks),
            (12, card.entry_for(number).is_some()),
            (14, free.is_empty()),
        ])?;
        let (current, index) = (free[0] as u32, card.unused_entries()[0]);
        let at = number as usize * geometry.block();
        let entry = Entry { previous_modified: false, modified: false, log_role: false, number, previous: None, current };
        Ok(vec![
            Run::words(geometry.block_at(current), &disk[at..at + geometry.block()]),
            Run::Single(Store::Entry(geometry.entry_at(index), write_entry(Some(entry)))),
        ])
    }

    /// The runs of an evict, or which of its own checks refuses it.
    fn evict_runs(&self, card: &Card, bytes: &[u8], number: u64, choice: &[u8]) -> Result<Vec<Run>, u32> {
        let geometry = card.geometry;
        let found = card.entry_for(number).map(|index| (index, card.entries[index].unwrap()));
        let clean = found.is_some_and(|(_, entry)| !entry.modified);
        let wrong = match self.slip {
            Some(Slip::ChoiceOfSectors) => self.is_wrong(&choice[..choice.len().min(geometry.block() / 512)], geometry.block() / 512),
            Some(Slip::CleanTakesAnyChoice) if clean => false,
            _ => self.is_wrong(choice, geometry.block() / 8),
        };
        self.first_refusal(vec![(17, wrong), (10, number >= geometry.disk_blocks), (13, found.is_none())])?;
        let mut card = card.clone();
        if let (Some(Slip::CleanWritten), Some((index, entry))) = (self.slip, found) {
            card.entries[index] = Some(Entry { modified: true, ..entry });
        }
        Ok(self.eviction_runs(&card, bytes, found.unwrap().0))
    }

    /// The runs with which an entry in use is evicted.
    fn eviction_runs(&self, card: &Card, bytes: &[u8], index: usize) -> Vec<Run> {
        let (geometry, entry) = (card.geometry, card.entries[index].unwrap());
        let mut runs = vec![Run::Single(Store::Entry(geometry.entry_at(index), write_entry(None)))];
        if entry.modified {
            let at = geometry.block_at(entry.current);
            let sectors = Run::sectors(entry.number as usize * geometry.block(), &bytes[at..at + geometry.block()]);
            runs.insert(if self.slips(Slip::ZeroBeforeSectors) { 1 } else { 0 }, sectors);
        }
        runs
    }

    pub fn recover_list(&self, bytes: &[u8]) -> Result<Vec<Store>, u32> {
        let card = self.checked(Call::Recover, bytes, None)?;
        let mut stores = Vec::new();
        for (index, entry) in card.entries.iter().enumerate() {
            let Some(entry) = entry else { continue };
            let undoable = match self.slip {
                Some(Slip::WindowAlone) if card.head != card.tail => card.window.contains(&entry.number),
                Some(Slip::EveryEntryUndone) => !card.settled(),
                _ => card.undoable(entry),
            };
            let (before, mut after) = (write_entry(Some(*entry)), write_entry(self.undone(card.version, *entry)));
            // 84 is allowed nowhere
            if after == before && !entry.previous_modified && self.slips(Slip::UndoneFlipped) {
                after[0] ^= 0x02;
            }
            let unchanged_too = matches!(self.slip, Some(Slip::UnchangedCounted | Slip::UndoneStoredAgain));
            if undoable && (after != before || unchanged_too) {
                stores.push(Store::Entry(card.geometry.entry_at(index), after));
            }
        }
        if card.tail != card.head || self.slips(Slip::UnchangedCounted) {
            let place = if self.slips(Slip::RecoveryTailFirst) { 0 } else { stores.len() };
            stores.insert(place, Store::Word(72, card.head.to_be_bytes()));
        }
        Ok(stores)
    }

    fn undone(&self, version: u8, entry: Entry) -> Option<Entry> {
        let by = match self.slip {
            Some(Slip::OldUndoneAsNew) => NOW,
            Some(Slip::NewUndoneAsOld) => OLD,
            _ => version,
        };
        let right = undone(by, entry)?;
        Some(match self.slip {
            Some(Slip::CleanUndo) => Entry { previous_modified: false, modified: false, ..right },
            Some(Slip::ModifiedUndo) => Entry { modified: true, ..right },
            Some(Slip::UndoDropsP) => Entry { previous_modified: false, ..right },
            Some(Slip::FreshAtUndo) => Entry { previous: None, ..right },
            _ => right,
        })
    }

    /// The stores of an upgrade: the header's first word, with today's version in it.
    pub fn upgrade_list(&self, bytes: &[u8]) -> Result<Vec<Store>, u32> {
        let opened = self.checked(Call::Upgrade, bytes, None);
        let settled = match opened {
            Ok(card) if self.slips(Slip::UpgradeUnsettled) => Some(card),
            Err(4..=6) if self.slips(Slip::UpgradeDamaged) => None,
            opened => Some(opened?.if_settled()?),
        };
        let mut first: [u8; 8] = bytes[..8].try_into().unwrap();
        first[VERSION_AT] = NOW;
        if self.slips(Slip::UpgradeClearsSlots) {
            first[6..8].fill(0);
        }
        let mut stores = vec![Store::Word(0, first)];
        if let (Some(Slip::UpgradeSetsP), Some(card)) = (self.slip, settled) {
            let modified = card.entries.iter().enumerate().filter(|(_, entry)| entry.is_some_and(|entry| entry.modified));
            let with_p = |entry: &Option<Entry>| entry.map(|entry| Entry { previous_modified: true, ..entry });
            stores.extend(modified.map(|(index, entry)| Store::Entry(card.geometry.entry_at(index), write_entry(with_p(entry)))));
        }
        Ok(stores)
    }

    /// The stores that are made: all of each run that the allowance covers, and of the run that it ends in the chosen ones.
    fn made<'r>(&self, runs: &'r [Run], choice: &[u8], allowance: u64) -> Vec<&'r Store> {
        let (mut made, mut before) = (Vec::new(), 0);
        for (place, run) in runs.iter().enumerate() {
            let end = before + run.stores().len() as u64;
            let unordered = matches!(run, Run::Unordered(_));
            let cut = allowance < end || (allowance == end && unordered && self.slips(Slip::CoveredRunChosen));
            if cut {
                made.extend(self.chosen(run, choice, before, allowance - before));
                made.extend(self.behind(&runs[place + 1..], unordered, choice));
                break;
            }
            if unordered && self.slips(Slip::ChosenWhenDone) {
                made.extend(self.chosen(run, choice, before, allowance - before));
            } else {
                made.extend(run.stores());
            }
            before = end;
        }
        made
    }

    /// What is made of the run that is cut, with so many stores before it and so many of its own within the allowance: of an unordered
    /// one the stores whose byte of the choice is 1, of a single store nothing.
    fn chosen<'r>(&self, run: &'r Run, choice: &[u8], before: u64, within: u64) -> Vec<&'r Store> {
        let Run::Unordered(stores) = run else { return vec![] };
        let byte = |store: usize| match self.slip {
            Some(Slip::ChoiceBackward) => choice.get(stores.len() - 1 - store),
            Some(Slip::ChoiceOfCall) => choice.get((before as usize + store) % choice.len()),
            _ => choice.get(store),
        };
        let is_made = |store: usize| {
            let (chosen, first) = (byte(store) == Some(&1), (store as u64) < within);
            match self.slip {
                Some(Slip::FirstStoresMade) => first,
                Some(Slip::ChosenPastLeftOut) => chosen && first,
                Some(Slip::UnchosenMade) => chosen || first,
                Some(Slip::AnyByteTaken) => byte(store).is_some_and(|byte| *byte > 0),
                Some(Slip::OneSectorSingle) => chosen && stores.len() > 1,
                _ => chosen,
            }
        };
        let most = if self.slips(Slip::ChosenCounted) { within as usize } else { stores.len() };
        (0..stores.len()).filter(|store| is_made(*store)).map(|store| &stores[store]).take(most).collect()
    }

    /// What is made of the runs behind the one that is cut: nothing, but by a wrong model.
    fn behind<'r>(&self, runs: &'r [Run], unordered: bool, choice: &[u8]) -> Vec<&'r Store> {
        match self.slip {
            Some(Slip::SingleAfterCut) if unordered => runs[0].stores().iter().collect(),
            Some(Slip::NextRunChosen) => runs.iter().flat_map(|run| self.chosen(run, choice, 0, 0)).collect(),
            _ => vec![],
        }
    }

    /// Makes the stores of the list that allowance and choice leave, and answers. A call that is done writes the map of the card that
    /// it leaves; a cut or refused one writes none.
    fn make(
        &self,
        list: Result<Vec<Run>, u32>,
        choice: &[u8],
        allowance: u64,
        card: &mut [u8],
        disk: &mut [u8],
        map: &mut [u64],
    ) -> Answer {
        let list = match list {
            Ok(_) if self.slips(Slip::MapAskedLast) && map != map_of(card) => Err(15),
            list => list,
        };
        let runs = match list {
            Ok(runs) => runs,
            Err(number) => {
                if number == 15 && map.len() == 2 && self.slips(Slip::MapMended) {
                    map.copy_from_slice(&map_of(card));
                }
                return Answer::Refused(number);
            }
        };
        let count = runs.iter().map(|run| run.stores().len() as u64).sum();
        for store in self.made(&runs, choice, allowance) {
            let (on_disk, at, bytes) = store.unit();
            let to = if on_disk { &mut *disk } else { &mut *card };
            to[at..at + bytes.len()].copy_from_slice(bytes);
        }
        let cut = allowance < count || (allowance == count && self.slips(Slip::CutAtCount));
        if !cut || self.slips(Slip::NewMapAfterCut) {
            // of a wrong model's card there may be no map
            if let Ok(after) = Card::open(card, None) {
                map.iter_mut().zip(self.given(&after)).for_each(|(word, new)| *word = new);
            }
        }
        if cut {
            Answer::Cut
        } else if self.slips(Slip::CountOneMore) {
            Answer::Done(count + 1)
        } else {
            Answer::Done(count)
        }
    }

    /// A commit with ample allowance, made on a copy of the card: its m and each number's data block, or its refusal. An output of
    /// another length is refused where wrong data is, after 8 and before 10.
    fn previewed(&self, card: &[u8], map: &[u64], numbers: &[u64], data: &[u8], output: usize) -> Result<(u64, Vec<u32>), u32> {
        let longer = output > numbers.len() && self.slips(Slip::PreviewLongOutput);
        let fits = output == numbers.len() || longer || self.slips(Slip::PreviewAnyOutput);
        if !fits && self.slips(Slip::PreviewOutputFirst) {
            return Err(9);
        }
        let mut after = card.to_vec();
        let mut map = if self.slips(Slip::PreviewMapUnasked) { map_of(card).to_vec() } else { map.to_vec() };
        let answer = self.save(Call::Preview, &mut after, &mut map, Save { numbers, data, choice: &any_choice(card) }, u64::MAX);
        let before_output = |number: u32| match number {
            10 | 11 | 14 => self.slips(Slip::PreviewOutputLast),
            8 => !self.slips(Slip::PreviewOutputBeforeCount),
            _ => true,
        };
        match answer {
            Answer::Refused(14) if fits && self.slips(Slip::PreviewRoomUnasked) => Ok((commit_stores(numbers.len() as u64, 1 << card[5]), vec![])),
            Answer::Refused(number) if fits || before_output(number) => Err(number),
            Answer::Done(_) if fits && self.slips(Slip::PreviewCountsNumbers) => Ok((numbers.len() as u64, self.told(card, &after, numbers))),
            Answer::Done(m) if fits => Ok((m, self.told(card, &after, numbers))),
            _ => Err(9),
        }
    }

    /// Where a commit put each number, by the card after it. A wrong model may have left a card without the number.
    fn told(&self, before: &[u8], after: &[u8], numbers: &[u64]) -> Vec<u32> {
        let block_of = |bytes: &[u8], number: u64| {
            let card = Card::decoded(Taken::EITHER, bytes, None).ok()?;
            card.entry_for(number).map(|index| card.entries[index].unwrap().current)
        };
        let mut told: Vec<u32> = numbers.iter().map(|number| block_of(after, *number).unwrap_or(FRESH)).collect();
        if self.slips(Slip::PreviewBySize) {
            let smaller = |number: &u64| numbers.iter().filter(|other| *other < number).count();
            told = numbers.iter().map(|number| told[smaller(number)]).collect();
        }
        if self.slips(Slip::PreviewOldBlocks) {
            told.iter_mut().zip(numbers).for_each(|(block, number)| *block = block_of(before, *number).unwrap_or(*block));
        }
        if self.slips(Slip::PreviewEntries) {
            let card = Card::decoded(Taken::EITHER, after, None).unwrap();
            told = numbers.iter().map(|number| card.entry_for(*number).unwrap() as u32).collect();
        }
        told
    }

    /// Where a block lies. A read gives its table and the length of its output, which look does not have.
    fn place(&self, card: &[u8], disk: &[u8], block: u64, read: Option<(&[u8], usize)>) -> Result<Place, u32> {
        let is_bad = |card: &Card| read.is_some_and(|(table, _)| self.is_bad(table, card.geometry.data_blocks));
        let call = if read.is_some() { Call::Read } else { Call::Look };
        if self.slips(Slip::ReadTableBeforeSettled) && is_bad(&self.checked(call, card, Some(disk.len()))?) {
            return Err(16);
        }
        let opened = self.open_settled(call, card, Some(disk.len()))?;
        let geometry = opened.geometry;
        let table = (16, is_bad(&opened));
        let length = (9, read.is_some_and(|(_, length)| length != geometry.block()));
        let number = (10, block >= geometry.disk_blocks);
        lowest(&match self.slip {
            Some(Slip::ReadTableAfterLength) => [length, table, number],
            Some(Slip::ReadTableAskedLast) => [length, number, table],
            _ => [table, length, number],
        })?;
        Ok(match opened.entry_for(block) {
            Some(index) => {
                let current = opened.entries[index].unwrap().current;
                Place::Card(geometry.block_at(current) as u64, geometry.block() as u64)
            }
            None => Place::Disk(block * geometry.block() as u64, geometry.block() as u64),
        })
    }

    /// What stands in the table for these blocks, those of them that are cached: their entries' places.
    fn stands_for(&self, card: &[u8], numbers: &[u64]) -> Vec<usize> {
        let Ok(card) = Card::decoded(Taken::EITHER, card, None) else { return vec![] };
        let places = numbers.iter().filter_map(|number| card.entry_for(*number));
        match self.slip {
            Some(Slip::TableOfDataBlocks) => places.map(|index| card.entries[index].unwrap().current as usize).collect(),
            _ => places.collect(),
        }
    }

    /// Numbers go to the front of the table, one after the other; the others keep their order.
    fn move_to_front(&self, table: &mut [u8], moved: &[usize]) {
        for number in moved {
            let Some(place) = table.iter().position(|one| *one as usize == *number) else { continue };
            match self.slip {
                Some(Slip::SwappedToFront) => table.swap(0, place),
                _ => table[..=place].rotate_right(1),
            }
        }
    }

    /// What a storing call leaves in its table: done, the entries of its blocks are at the front, the last block's first; cut or refused,
    /// it is what it was, but for these two slips.
    fn hand_table_on(&self, table: &mut [u8], card: &[u8], numbers: &[u64], answer: Answer, stored: &Stored, [cut, refused]: [Slip; 2]) {
        let moved = match answer {
            Answer::Done(_) => self.stands_for(card, numbers),
            Answer::Cut if self.slips(cut) => stored.put.clone(),
            Answer::Refused(_) if self.slips(refused) => self.stands_for(card, numbers),
            _ => vec![],
        };
        self.move_to_front(table, &moved);
    }

    /// The blocks that a done commit moves, in their order: all of its own.
    fn moving(&self, card: &[u8], numbers: &[u64], stored: &Stored) -> Vec<u64> {
        let is_new = |number: &&u64| Card::decoded(Taken::EITHER, card, None).is_ok_and(|card| card.entry_for(**number).is_none());
        match self.slip {
            Some(Slip::MovedBackward) => numbers.iter().rev().copied().collect(),
            Some(Slip::NewBlocksMoved) => numbers.iter().filter(is_new).copied().collect(),
            Some(Slip::MovedIfEvicted) if stored.zeroed.is_empty() => vec![],
            _ => numbers.to_vec(),
        }
    }
}

impl Model {
    /// A commit, or the one that a preview tells of.
    fn save(&self, call: Call, card: &mut [u8], map: &mut [u64], save: Save, allowance: u64) -> Answer {
        let checked = self.check_settled(call, card, None, map, save.choice);
        let list = checked.and_then(|opened| self.commit_runs(&opened, save));
        let before = map.to_vec();
        let answer = self.make(list, save.choice, allowance, card, &mut [], map);
        if self.slips(Slip::OldBlocksStayTaken) {
            map.iter_mut().zip(before).for_each(|(word, old)| *word |= old);
        }
        answer
    }
}

/// Open, put and finish.
impl Model {
    /// The record as the call sees it: two words, or none.
    fn recorded(&self, record: &[u64]) -> Option<[u64; 2]> {
        let words = match record {
            [tail, count] => [*tail, *count],
            [tail, count, ..] if self.slips(Slip::LongRecordTaken) => [*tail, *count],
            _ if self.slips(Slip::OddRecordAsZeros) => [0; 2],
            _ => return None,
        };
        match self.slip {
            Some(Slip::RecordNarrowed(bits)) => Some(words.map(|word| word & ((1 << bits) - 1))),
            _ => Some(words),
        }
    }

    /// Check 18.
    fn check_record(&self, card: &Card, record: &[u64]) -> Result<[u64; 2], u32> {
        let Some([tail, count]) = self.recorded(record) else { return Err(18) };
        let (logged, window) = (card.logged_numbers(), &card.window);
        let in_window = logged.iter().all(|number| window.contains(number));
        let with_role = window.iter().all(|number| logged.contains(number));
        let matches = match self.slip {
            Some(Slip::WindowTwiceTaken) => in_window && with_role,
            Some(Slip::RoleOutsideTaken) => with_role && window.iter().all(|number| window.iter().filter(|one| *one == number).count() == 1),
            Some(Slip::NoRoleTaken) => in_window,
            Some(Slip::RolesCounted) => logged.len() == window.len(),
            _ => card.record().is_some(),
        };
        let tail_fits = tail == card.tail || self.slips(Slip::TailUnasked);
        let count_fits = count == window.len() as u64 || self.slips(Slip::CountUnasked);
        match (matches && tail_fits && count_fits, self.slip) {
            (true, _) => Ok([tail, count]),
            (false, Some(Slip::RecordAskedLast)) => Ok([tail, count]),
            (false, Some(Slip::SettledForRecord)) if !card.settled() && card.record().is_none() => Err(7),
            _ => Err(18),
        }
    }

    /// Checks 1, 2, 4 to 6, 18 and 15, and the record.
    fn check_pending(&self, call: Call, bytes: &[u8], map: &[u64], record: &[u64], choice: &[u8]) -> Result<(Card, [u64; 2]), u32> {
        let card = self.checked(call, bytes, None)?;
        if self.slips(Slip::MapBeforeRecord) {
            self.check_map(&card, map)?;
        }
        let record = self.check_record(&card, record)?;
        if self.slips(Slip::ChoiceBeforeMap) && call == Call::Put && self.is_wrong(choice, card.geometry.block() / 8) {
            return Err(17);
        }
        if !self.slips(Slip::MapAskedLast) {
            self.check_map(&card, map)?;
        }
        Ok((card, record))
    }

    /// Where 18 is asked after all: it holds of a card that was let by.
    fn asked_last(&self, card: &Card, [tail, count]: [u64; 2]) -> Result<(), u32> {
        match self.slip {
            Some(Slip::RecordAskedLast) if card.record() != Some([tail, count]) => Err(18),
            _ => Ok(()),
        }
    }

    /// The searches of a put.
    fn put_homes(&self, card: &Card, tail: u64) -> Homes {
        let from = |slips: &[Slip]| match self.slip {
            Some(Slip::SearchFromZero) => 0,
            Some(slip) if slips.contains(&slip) => card.head,
            _ => tail,
        };
        let from_block = from(&[Slip::PutFromHead, Slip::PutBlockFromHead]);
        let is_current = |block: usize| card.in_use().any(|entry| entry.current as usize == block);
        let blocks = match self.slip {
            Some(Slip::PreviousGivenOut) => walk(card.geometry.data_blocks, from_block, |block| !is_current(block)),
            _ => card.free_from(from_block),
        };
        Homes { blocks, entries: card.unused_from(from(&[Slip::PutFromHead, Slip::PutEntryFromHead])) }
    }

    /// The runs of a put, or which of its own checks refuses it.
    fn put_runs(&self, card: &Card, [tail, count]: [u64; 2], save: Save) -> Result<Vec<Run>, u32> {
        let (geometry, number, homes) = (card.geometry, save.numbers[0], self.put_homes(card, tail));
        let over = card.entry_for(number);
        let own = Own {
            bad_table: false,
            bad_count: count >= geometry.slots - 1 && !self.slips(Slip::FullWindowTaken),
            repeats: card.window.contains(&number) || (over.is_some() && self.slips(Slip::CachedPutRefused)),
            no_room: homes.blocks.is_empty(),
        };
        let unasked: &[u32] = if let Some(Slip::PutUnasked(number)) = &self.slip { std::slice::from_ref(number) } else { &[] };
        self.check_save(card, save, own, unasked)?;
        self.asked_last(card, [tail, count])?;
        // a wrong model that does not ask 9 or 14 stores what it finds
        let home = homes.blocks.first().copied().unwrap_or((tail % geometry.data_blocks) as usize);
        let index = over.or(homes.entries.first().copied()).unwrap_or(home);
        let entry = self.logged(card, number, over.and_then(|index| card.entries[index]), home as u32);
        let mut block = save.data.to_vec();
        block.resize(geometry.block(), 0);
        Ok(self.logging_runs(geometry, &block, index, entry, card.head))
    }

    /// The runs of a finish, or 8.
    fn finish_runs(&self, card: &Card, [tail, count]: [u64; 2]) -> Result<Vec<Run>, u32> {
        lowest(&[(8, count == 0 && !self.slips(Slip::EmptyFinished))])?;
        self.asked_last(card, [tail, count])?;
        let mut places: Vec<usize> = card.window.iter().filter_map(|number| card.entry_for(*number)).collect();
        if self.slips(Slip::FinishByPlace) {
            places.sort();
        }
        let switched: Vec<(usize, Entry)> = places.iter().map(|place| (*place, card.entries[*place].unwrap())).collect();
        let mut runs = self.switching_runs(card.geometry, &switched);
        let early = usize::from(self.slips(Slip::FinishTailEarly));
        runs.insert(runs.len().saturating_sub(early), tail_run(card.head));
        Ok(runs)
    }

    /// What a put leaves in its record: done, it counts one more; cut or refused, it is what it was.
    fn hand_record_on(&self, record: &mut [u64], answer: Answer) {
        let next = match answer {
            Answer::Done(_) => !self.slips(Slip::RecordStays),
            Answer::Cut => self.slips(Slip::RecordAfterCut),
            Answer::Refused(_) => self.slips(Slip::RecordAfterRefusal),
            Answer::Malformed(..) => false,
        };
        if let (true, Some(count)) = (next, record.get_mut(1)) {
            *count = count.wrapping_add(1);
        }
    }

    /// The map that a done put or finish hands on, by the card and the map that it found.
    fn pending_map(&self, call: Call, found: &Card, number: u64, before: &[u64], map: &mut [u64]) {
        let of_save = |entry: &&Entry| call == Call::Finish && found.undoable(entry);
        let is_over = |entry: &&Entry| call == Call::Put && entry.number == number;
        let mut words: [u64; 2] = [before[0], before[1]];
        match (self.slip, call) {
            (Some(Slip::OldMapAfterPut), Call::Put) | (Some(Slip::OldMapAfterFinish), Call::Finish) => {}
            (Some(Slip::PutFreesPrevious), Call::Put) => {
                words = [map[0], map[1]];
                found.in_use().filter(is_over).for_each(|entry| clear_bit(&mut words, entry.current as usize));
            }
            (Some(Slip::FinishFreesCurrent), Call::Finish) => {
                let previous = found.in_use().filter(of_save).filter_map(|entry| entry.previous);
                previous.for_each(|block| clear_bit(&mut words, block as usize));
            }
            _ => return,
        }
        map.copy_from_slice(&words);
    }
}

impl Calls for Model {
    fn format(&self, k: u64, slots: u64, data_blocks: u64, disk_blocks: u64, card: &mut [u8]) -> Answer {
        let geometry = Geometry { k, slots, data_blocks, disk_blocks };
        if !geometry.allowed() {
            return Answer::Refused(1);
        }
        if card.len() != geometry.card_length() {
            return Answer::Refused(2);
        }
        card[0..64].copy_from_slice(&geometry.header(if self.slips(Slip::FormatsOld) { OLD } else { self.version }));
        card[64..geometry.block_at(0)].fill(0);
        if self.slips(Slip::FormatClearsBlocks) {
            card[64..].fill(0);
        }
        Answer::Done(0)
    }

    fn commit(&self, card: &mut [u8], map: &mut [u64], numbers: &[u64], data: &[u8], choice: &[u8], allowance: u64) -> Answer {
        let choice = self.looked_at(choice, allowance);
        self.save(Call::Commit, card, map, Save { numbers, data, choice }, allowance)
    }

    fn preview(&self, card: &mut [u8], map: &mut [u64], numbers: &mut [u64], data: &mut [u8], blocks: &mut [u32]) -> Answer {
        let answer = match self.previewed(card, map, numbers, data, blocks.len()) {
            Ok((m, told)) => {
                blocks.iter_mut().zip(told).for_each(|(block, new)| *block = new);
                Answer::Done(m)
            }
            Err(number) => Answer::Refused(number),
        };
        match (self.slip, answer) {
            (Some(Slip::PreviewWritesRefused), Answer::Refused(_)) => blocks.fill(0),
            (Some(Slip::PreviewStores), Answer::Done(_)) => {
                self.commit(card, &mut map.to_vec(), numbers, data, &any_choice(card), u64::MAX);
            }
            (Some(Slip::PreviewHandsMapOn), Answer::Done(_)) => {
                self.commit(&mut card.to_vec(), map, numbers, data, &any_choice(card), u64::MAX);
            }
            (Some(Slip::PreviewSortsNumbers), _) => numbers.sort(),
            (Some(Slip::PreviewWritesData), Answer::Done(_)) => data.fill(0),
            _ => {}
        }
        answer
    }

    fn commit_making_room(
        &self,
        card: &mut [u8],
        disk: &mut [u8],
        map: &mut [u64],
        table: &mut [u8],
        numbers: &[u64],
        data: &[u8],
        choice: &[u8],
        allowance: u64,
    ) -> Answer {
        let choice = self.looked_at(choice, allowance);
        let has_room = |bytes: &[u8]| Card::open(bytes, None).is_ok_and(|card| self.missing(&card, numbers) == 0);
        let disk_length = if self.slips(Slip::DiskAskedForVictims) && has_room(card) { None } else { Some(disk.len()) };
        let checked = self.check_lent(Call::Room, card, disk_length, map, table, choice);
        let list = checked.and_then(|opened| self.room_runs(&opened, card, table, Save { numbers, data, choice }));
        let stored = Stored::of(card, &list);
        let moving = self.moving(card, numbers, &stored);
        let answer = self.make(list, choice, allowance, card, disk, map);
        if let (Answer::Done(_), Some(Slip::EvictedToBack)) = (answer, self.slip) {
            for victim in &stored.zeroed {
                let place = table.iter().position(|number| *number as usize == *victim).unwrap();
                table[place..].rotate_left(1);
            }
        }
        self.hand_table_on(table, card, &moving, answer, &stored, [Slip::RoomMovedOnCut, Slip::RoomMovedOnRefusal]);
        match answer {
            Answer::Done(_) if self.slips(Slip::EvictionsUncounted) => Answer::Done(commit_stores(numbers.len() as u64, 1 << card[5])),
            _ => answer,
        }
    }

    fn load(
        &self,
        card: &mut [u8],
        disk: &[u8],
        map: &mut [u64],
        table: &mut [u8],
        block: u64,
        choice: &[u8],
        allowance: u64,
    ) -> Answer {
        let choice = self.looked_at(choice, allowance);
        let checked = self.check_lent(Call::Load, card, Some(disk.len()), map, table, choice);
        let list = checked.and_then(|opened| self.load_runs(&opened, disk, table, block, choice));
        let stored = Stored::of(card, &list);
        let answer = self.make(list, choice, allowance, card, &mut [], map);
        if !self.slips(Slip::LoadStays) {
            self.hand_table_on(table, card, &[block], answer, &stored, [Slip::LoadMovedOnCut, Slip::LoadMovedOnRefusal]);
        }
        answer
    }

    fn evict(&self, card: &mut [u8], disk: &mut [u8], map: &mut [u64], block: u64, choice: &[u8], allowance: u64) -> Answer {
        let choice = self.looked_at(choice, allowance);
        let checked = self.check_settled(Call::Evict, card, Some(disk.len()), map, choice);
        let list = checked.and_then(|opened| self.evict_runs(&opened, card, block, choice));
        let before = map.to_vec();
        let answer = self.make(list, choice, allowance, card, disk, map);
        if self.slips(Slip::OldMapAfterEvict) {
            map.copy_from_slice(&before);
        }
        answer
    }

    fn recover(&self, card: &mut [u8], map: &mut [u64], allowance: u64) -> Answer {
        let list = self.check_unsettled(card, map).and_then(|_| self.recover_list(card));
        let runs = list.map(|stores| stores.into_iter().map(Run::Single).collect());
        let (before, opened) = (map.to_vec(), Card::open(card, None));
        let answer = self.make(runs, &[], allowance, card, &mut [], map);
        if self.slips(Slip::OldMapAfterRecover) {
            map.copy_from_slice(&before);
        }
        if let (true, Ok(was), Answer::Done(_)) = (self.slips(Slip::BitsMovedInTurn), opened, answer) {
            let mut moved = was.map();
            for entry in was.in_use().filter(|entry| was.undoable(entry)) {
                clear_bit(&mut moved, entry.current as usize);
                entry.previous.iter().for_each(|block| set_bit(&mut moved, *block as usize));
            }
            map.copy_from_slice(&moved);
        }
        answer
    }

    fn open(&self, card: &[u8]) -> Opened {
        let opened = self.checked(Call::Open, card, None);
        let opened = if self.slips(Slip::OpenUnsettled) { opened } else { opened.and_then(Card::if_settled) };
        match opened {
            Ok(card) => Opened::Open(card.record().unwrap_or([card.tail, 0])),
            Err(number) => Opened::Refused(number),
        }
    }

    fn put(
        &self,
        card: &mut [u8],
        map: &mut [u64],
        record: &mut [u64],
        block: u64,
        data: &[u8],
        choice: &[u8],
        allowance: u64,
    ) -> Answer {
        let choice = self.looked_at(choice, allowance);
        let checked = self.check_pending(Call::Put, card, map, record, choice);
        let save = Save { numbers: &[block], data, choice };
        let list = checked.and_then(|(opened, record)| self.put_runs(&opened, record, save));
        let (before, found) = (map.to_vec(), Card::open(card, None));
        let answer = self.make(list, choice, allowance, card, &mut [], map);
        self.hand_record_on(record, answer);
        match (answer, found) {
            (Answer::Done(m), Ok(found)) => {
                self.pending_map(Call::Put, &found, block, &before, map);
                Answer::Done(if self.slips(Slip::PutCountsCommit) { m + 2 } else { m })
            }
            _ => answer,
        }
    }

    fn finish(&self, card: &mut [u8], map: &mut [u64], record: &mut [u64], allowance: u64) -> Answer {
        let checked = self.check_pending(Call::Finish, card, map, record, &[]);
        let list = checked.and_then(|(opened, record)| self.finish_runs(&opened, record));
        let (before, found) = (map.to_vec(), Card::open(card, None));
        let answer = self.make(list, &[], allowance, card, &mut [], map);
        match (answer, found) {
            (Answer::Done(m), Ok(found)) => {
                self.pending_map(Call::Finish, &found, 0, &before, map);
                if self.slips(Slip::FinishWritesRecord) {
                    record.fill(0);
                }
                Answer::Done(if self.slips(Slip::FinishCountsSwitches) { m - 1 } else { m })
            }
            _ => answer,
        }
    }

    fn upgrade(&self, card: &mut [u8], allowance: u64) -> Answer {
        let runs = self.upgrade_list(card).map(|stores| stores.into_iter().map(Run::Single).collect());
        let allowance = if self.slips(Slip::UpgradeFree) { u64::MAX } else { allowance };
        // it takes no map: what is free does not change
        let (mut after, mut map) = (card.to_vec(), map_of(card));
        let answer = self.make(runs, &[], allowance, &mut after, &mut [], &mut map);
        if !self.slips(Slip::UpgradeUnmade) {
            card.copy_from_slice(&after);
        }
        match answer {
            Answer::Done(_) if self.slips(Slip::UpgradeUncounted) => Answer::Done(0),
            _ => answer,
        }
    }

    fn read(&self, card: &[u8], disk: &[u8], table: &mut [u8], block: u64, out: &mut [u8]) -> Place {
        let place = match self.place(card, disk, block, Some((table, out.len()))) {
            Ok(place) => place,
            Err(number) => {
                if self.slips(Slip::ReadTouchesOnRefusal) {
                    out.fill(0);
                }
                Place::Refused(number)
            }
        };
        match place {
            Place::Card(at, length) => out.copy_from_slice(&card[at as usize..(at + length) as usize]),
            Place::Disk(at, length) => out.copy_from_slice(&disk[at as usize..(at + length) as usize]),
            _ => {}
        }
        let moves = match place {
            Place::Card(..) => !self.slips(Slip::CardReadStays),
            Place::Refused(_) => self.slips(Slip::ReadMovedOnRefusal),
            _ => false,
        };
        if moves {
            self.move_to_front(table, &self.stands_for(card, &[block]));
        }
        if let (Place::Disk(..), Some(Slip::DiskReadMoves)) = (place, self.slip) {
            table.rotate_right(1);
        }
        place
    }

    fn look(&self, card: &[u8], disk: &[u8], block: u64) -> Place {
        match self.place(card, disk, block, None) {
            Ok(Place::Card(at, length)) if self.slips(Slip::LookOneByteLess) => Place::Card(at, length - 1),
            Ok(place) => place,
            Err(number) => Place::Refused(number),
        }
    }

    fn state(&self, card: &[u8]) -> State {
        let card = match self.checked(Call::State, card, None) {
            Ok(card) => card,
            Err(number) => return State::Refused(number),
        };
        let geometry = card.geometry;
        if card.settled() {
            let every = self.slips(Slip::CountsEveryEntry);
            State::Settled {
                geometry,
                in_use: card.in_use().count() as u64,
                modified: card.in_use().filter(|entry| every || entry.modified).count() as u64,
            }
        } else {
            State::Unsettled {
                geometry,
                undoable: card.in_use().filter(|entry| card.undoable(entry)).count() as u64,
                window: card.window.len() as u64,
            }
        }
    }

    fn cached(&self, card: &[u8], place: u64) -> Cached {
        let opened = self.checked(Call::Cached, card, None);
        let opened = if self.slips(Slip::CachedUnsettled) { opened } else { opened.and_then(Card::if_settled) };
        let card = match opened {
            Ok(card) => card,
            Err(number) => return Cached::Refused(number),
        };
        let entry = match usize::try_from(place) {
            Ok(place) if self.slips(Slip::CachedCounted) => card.in_use().nth(place).copied(),
            Ok(place) => card.entries.get(place).copied().flatten(),
            Err(_) => None,
        };
        match entry {
            Some(entry) => Cached::Block { number: entry.number, modified: entry.modified },
            None => Cached::Nothing,
        }
    }

    fn make_map(&self, card: &[u8]) -> FreeMap {
        let opened = self.checked(Call::MakeMap, card, None);
        let opened = if self.slips(Slip::MapOfSettledAlone) { opened.and_then(Card::if_settled) } else { opened };
        match opened {
            Ok(card) => FreeMap::Made(self.given(&card)),
            Err(number) => FreeMap::Refused(number),
        }
    }

    fn free_count(&self, low: u64, high: u64) -> u64 {
        let clear = |word: u64| (0..64).filter(|bit| word >> bit & 1 == 0).count() as u64;
        clear(low) + if self.slips(Slip::CountsLowWord) { 0 } else { clear(high) }
    }
}
