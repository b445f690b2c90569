//! Formats a card, saves two blocks, loses the power in the next save, recovers, reads, is warned of a save without room, makes room, drains
//! the card, and upgrades one of version 1.

use tinca_tests::ffi::Library;
use tinca_tests::{Answer, Cached, Calls, Place, State};

const BLOCK_BYTES: usize = 512;

/// Which stores of a block a power cut leaves, one byte for each of its words. It matters to cuts alone, in drills and tests: a station in
/// service passes zeros.
const CHOICE: &[u8] = &[0; BLOCK_BYTES / 8];

/// The refusals that occur here, in the words of the C header.
fn text(number: u32) -> &'static str {
    match number {
        7 => "the card is not settled and must be recovered first",
        11 => "a commit has the same number twice (put: the save has the number already)",
        14 => "there are too few free data blocks (a room-making commit: too few blocks outside it to evict)",
        _ => unreachable!(),
    }
}

fn told(call: &str, answer: Answer) {
    match answer {
        Answer::Done(stores) => println!("{call}: done, {stores} stores"),
        Answer::Cut => println!("{call}: cut"),
        Answer::Refused(number) => println!("{call}: refused with {number}: {}", text(number)),
        Answer::Malformed(..) => unreachable!(),
    }
}

fn show(card: &[u8], disk: &[u8], table: &mut [u8], block: u64) {
    let mut out = [0; BLOCK_BYTES];
    match Library.read(card, disk, table, block, &mut out) {
        Place::Card(..) => println!("block {block}: on the card, bytes {}", out[0]),
        Place::Disk(..) => println!("block {block}: on the disk, bytes {}", out[0]),
        Place::Refused(number) => println!("block {block}: refused with {number}: {}", text(number)),
        Place::Malformed(..) => unreachable!(),
    }
}

fn state(card: &[u8]) {
    match Library.state(card) {
        State::Settled { in_use, modified, .. } => println!("settled: {in_use} in use, {modified} modified"),
        State::Unsettled { undoable, window, .. } => println!("unsettled: {undoable} to undo, {window} slots in the window"),
        State::Refused(number) => println!("refused with {number}: {}", text(number)),
        State::Malformed(..) => unreachable!(),
    }
}

/// Tells what a save of blocks 3 and 5 would do, without a store: a warning in time where it would be refused.
fn preview(save: &str, card: &mut [u8], map: &mut [u64], data: &mut [u8]) {
    let mut blocks = [0; 2];
    let answer = Library.preview(card, map, &mut [3, 5], data, &mut blocks);
    told(save, answer);
    if let Answer::Done(_) = answer {
        println!("  into data blocks {} and {}", blocks[0], blocks[1]);
    }
}

/// Evicts all that is cached, so that the disk alone has every block.
fn drain(card: &mut [u8], disk: &mut [u8], map: &mut [u64], data_blocks: u64) {
    for place in 0..data_blocks {
        if let Cached::Block { number, modified } = Library.cached(card, place) {
            println!("place {place} caches block {number}, {}", if modified { "modified" } else { "clean" });
            told("evict it", Library.evict(card, disk, map, number, CHOICE, u64::MAX));
        }
    }
}

/// What a station does with a card of version 1, which all other calls refuse: it recovers it and upgrades it, once.
fn take_over(card: &mut [u8]) {
    let mut map = Library.fresh_map(card);
    told("recover a card of version 1", Library.recover(card, &mut map, u64::MAX));
    told("upgrade it", Library.upgrade(card, u64::MAX));
    state(card);
}

fn main() {
    let mut card = vec![0; 2304];
    let mut disk = vec![0; 16 * BLOCK_BYTES];
    told("format", Library.format(9, 8, 4, 16, &mut card));
    // at start; done calls then keep it in step with the card, and refused ones leave it
    let mut map = Library.fresh_map(&card);
    // at start it ascends; reads from the card, loads and room-making saves then keep it in step with what is used
    let mut table: Vec<u8> = (0..128).collect();
    let mut first = [7; 2 * BLOCK_BYTES];
    preview("preview of the first save", &mut card, &mut map, &mut first);
    told("first save of 3 and 5", Library.commit(&mut card, &mut map, &[3, 5], &first, CHOICE, u64::MAX));
    println!("free data blocks: {}", Library.free_count(map[0], map[1]));
    told("evict 5", Library.evict(&mut card, &mut disk, &mut map, 5, CHOICE, u64::MAX));
    show(&card, &disk, &mut table, 3);
    show(&card, &disk, &mut table, 5);

    told("a save of 3 twice", Library.commit(&mut card, &mut map, &[3, 3], &[8; 2 * BLOCK_BYTES], CHOICE, u64::MAX));
    let second = [8; 2 * BLOCK_BYTES];
    let cut = Library.commit(&mut card, &mut map, &[3, 5], &second, CHOICE, 136);
    told("second save, power lost before its last store", cut);
    state(&card);
    show(&card, &disk, &mut table, 3);
    // after a cut it is made again
    map = Library.fresh_map(&card);
    told("recover, power lost again", Library.recover(&mut card, &mut map, 1));
    map = Library.fresh_map(&card);
    told("recover", Library.recover(&mut card, &mut map, u64::MAX));
    state(&card);
    show(&card, &disk, &mut table, 3);
    show(&card, &disk, &mut table, 5);

    told("second save again", Library.commit(&mut card, &mut map, &[3, 5], &second, CHOICE, u64::MAX));
    show(&card, &disk, &mut table, 3);
    show(&card, &disk, &mut table, 5);

    told("load 9", Library.load(&mut card, &disk, &mut map, &mut table, 9, CHOICE, u64::MAX));
    let mut third = [9; 2 * BLOCK_BYTES];
    preview("preview of a third save", &mut card, &mut map, &mut third);
    // saves where the card is full: the least recently used others go to the disk first
    let answer = Library.commit_making_room(&mut card, &mut disk, &mut map, &mut table, &[3, 5], &third, CHOICE, u64::MAX);
    told("third save of 3 and 5, block 9 goes", answer);
    show(&card, &disk, &mut table, 3);
    let more = [6; 3 * BLOCK_BYTES];
    let answer = Library.commit_making_room(&mut card, &mut disk, &mut map, &mut table, &[1, 2, 4], &more, CHOICE, u64::MAX);
    told("save of 1, 2 and 4, block 5 goes", answer);
    drain(&mut card, &mut disk, &mut map, 4);
    state(&card);
    show(&card, &disk, &mut table, 3);
    show(&card, &disk, &mut table, 5);
    show(&card, &disk, &mut table, 4);

    // as an older library left it: a card that caches nothing differs in this byte alone
    card[4] = 1;
    take_over(&mut card);
}
