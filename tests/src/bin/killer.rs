//! Starts a station, kills it at a random instant, and looks at what it left:
//!
//! 1. card and disk hold exactly the first stores of the call under way, as the model lists them, with at most one unit half made;
//!    a preview has none;
//! 2. after a recovery every save is whole, and none that was acknowledged is lost.
//!
//! Then it starts the station again on the same card, so that the cuts of all kills add up.
//!
//!     killer [--kills N] [--seed S] [--as-left] [--units] [--old]
//!
//! With `--old` the first station does not format the card: it finds one of version 1, full and with a save cut, as a station of before left it.
//!
//! A kill ends a process between two instructions; the stores made so far stay in the mapping. So this tests the order of the stores
//! as compiled. It says nothing of a processor's cache or of a memory controller. Document 01's units are whole; where the compiled
//! code makes a unit in several pieces, a kill can fall between them. Such a unit is counted, then made whole or taken back, as the
//! card's memory would. With `--as-left` it is left as it is, to see what comes of it: the run may then end with a loss.
//! With `--units` the station hands each unit to the card by one instruction; then nothing is lost with `--as-left` either.

use std::process::{Child, Command, Stdio};
use std::time::{Duration, Instant};
use tinca_tests::ffi::Library;
use tinca_tests::mapped::*;
use tinca_tests::model::{ascending, map_of, stores_of, zeros, Model, Store, NOW, OLD, VERSION_AT};
use tinca_tests::random::Random;
use tinca_tests::scratch::{option, Folder};
use tinca_tests::{Answer, Calls, Place, State};

/// The sequence number of each group, if all its blocks are whole and of one save.
fn saves(library: &Library, card: &[u8], disk: &[u8]) -> Result<Vec<u64>, String> {
    let mut found = Vec::new();
    for group in 0..GROUPS {
        let mut sequences = Vec::new();
        for number in numbers(group) {
            let mut out = [0; BLOCK];
            match library.read(card, disk, &mut ascending(), number, &mut out) {
                Place::Card(..) | Place::Disk(..) => sequences.push(sequence_of(&out, number)?),
                other => return Err(format!("read of block {number}: {other:?}")),
            }
        }
        if sequences.iter().any(|sequence| *sequence != sequences[0]) {
            return Err(format!("group {group} is torn: saves {sequences:?}"));
        }
        found.push(sequences[0]);
    }
    Ok(found)
}

/// How far the noted call came: the stores made, and the one half made if there is one. An error if it is anything else.
fn how_far(list: &[Store], before: &[u8], found: &[u8]) -> Result<(usize, bool), String> {
    let mut now = before.to_vec();
    for made in 0..=list.len() {
        if now == found {
            return Ok((made, false));
        }
        let Some(store) = list.get(made) else { break };
        let (on_disk, at, bytes) = store.unit();
        let at = if on_disk { CARD + at } else { at };
        let unit = at..at + bytes.len();
        let mixed = unit.clone().zip(bytes).all(|(place, byte)| found[place] == now[place] || found[place] == *byte);
        if mixed && now[..unit.start] == found[..unit.start] && now[unit.end..] == found[unit.end..] {
            let whole = found[unit.clone()] == *bytes;
            return Ok(if whole { (made + 1, false) } else { (made, true) });
        }
        now[unit].copy_from_slice(bytes);
    }
    Err("card and disk are not what the first stores of the call leave".to_string())
}

fn kind(store: &Store) -> usize {
    match store {
        Store::Word(0, _) => 6,
        Store::Entry(..) => 0,
        Store::Word(64, _) => 2,
        Store::Word(72, _) => 3,
        Store::Word(at, _) if *at < 128 + 8 * SLOTS as usize => 1,
        Store::Word(..) => 4,
        Store::Sector(..) => 5,
    }
}

const KINDS: [&str; 7] = ["entry", "slot", "Head", "Tail", "word", "sector", "header"];

/// A save of a station of before, which makes room for it.
fn old_save(card: &mut [u8], disk: &mut [u8], sequence: u64, group: u64, allowance: u64) -> Answer {
    let (mut map, mut table) = (map_of(card), ascending());
    let (numbers, data) = (numbers(group), saved(sequence, group));
    Model::old().commit_making_room(card, disk, &mut map, &mut table, &numbers, &data, &zeros(BLOCK), allowance)
}

/// What a station of before left: every group saved and noted, and then a save cut before its last store, so that nothing of it may stay.
fn leave_old(card: &mut [u8], disk: &mut [u8], notes: &mut Mapped) -> Result<(), String> {
    Model::old().format(K, SLOTS, DATA_BLOCKS, DISK_BLOCKS, card);
    for group in 0..GROUPS {
        if !matches!(old_save(card, disk, 1 + group, group, u64::MAX), Answer::Done(_)) {
            return Err("a save of a station of before is not done".to_string());
        }
        notes.set_number(1 + group as usize, 1 + group);
    }
    notes.set_number(ACKNOWLEDGED, GROUPS);
    notes.set_number(BEGUN, 1 + GROUPS);
    let Answer::Done(m) = old_save(&mut card.to_vec(), &mut disk.to_vec(), 1 + GROUPS, 3, u64::MAX) else {
        return Err("the last save of a station of before is refused".to_string());
    };
    match (old_save(card, disk, 1 + GROUPS, 3, m - 1), card[VERSION_AT]) {
        (Answer::Cut, OLD) => Ok(()),
        other => Err(format!("the last save of a station of before is not cut: {other:?}")),
    }
}

fn stop(child: &mut Child) {
    let _ = child.kill();
    let _ = child.wait();
}

fn run(kills: u64, seed: u64) -> Result<String, String> {
    let mut random = Random(seed);
    let folder = Folder::new("tinca-kill")?;
    let station = std::env::current_exe().map_err(|error| error.to_string())?.with_file_name("station");
    let open = |name: &str, length| Mapped::open(&folder.0.join(name), length).map_err(|error| error.to_string());
    let (mut card, mut disk, mut notes) = (open("card", CARD)?, open("disk", DISK)?, open("notes", NOTES)?);
    let before = open("before", BEFORE)?;
    let (library, model) = (Library, Model::default());
    let units = std::env::args().any(|word| word == "--units");
    let as_left = std::env::args().any(|word| word == "--as-left");
    let old = std::env::args().any(|word| word == "--old");
    if old {
        leave_old(card.bytes_mut(), disk.bytes_mut(), &mut notes)?;
    }
    let (mut inside, mut between, mut previewing, mut making_room, mut half) = (0, 0, 0, 0, [0u64; KINDS.len()]);
    let start = Instant::now();
    let (mut unsettled, mut undone_stores, mut newer, mut acknowledged_last, mut undoable_most) = (0, 0, 0, 0, 0);
    let mut left_to_station = 0;
    for kill in 0..kills {
        let first = notes.number(ACKNOWLEDGED);
        let mut command = Command::new(&station);
        command.arg(&folder.0).arg(random.next().to_string()).stdin(Stdio::null());
        if kill == 0 && !old {
            command.arg("format");
        }
        if units {
            command.arg("units");
        }
        let mut child = command.spawn().map_err(|error| format!("{}: {error}", station.display()))?;
        let begun = Instant::now();
        while notes.number(ACKNOWLEDGED) == first {
            if let Ok(Some(status)) = child.try_wait() {
                return Err(format!("kill {kill}: the station ended by itself: {status}"));
            }
            if begun.elapsed() > Duration::from_secs(10) {
                stop(&mut child);
                return Err(format!("kill {kill}: no save in ten seconds"));
            }
            std::thread::yield_now();
        }
        // mostly within microseconds, at times milliseconds
        // (by units a call takes a thousand times as long)
        let nanoseconds = if units { random.below(8_000_000) } else if random.once_in(4) { random.below(3_000_000) } else { random.below(200_000) };
        let instant = Instant::now();
        while (instant.elapsed().as_nanos() as u64) < nanoseconds {
            std::hint::spin_loop();
        }
        stop(&mut child);
        // how far did the call under way come?
        let (media_was, table_was) = before.bytes().split_at(CARD + DISK);
        let (was, disk_was) = media_was.split_at(CARD);
        let argument = notes.number(ARGUMENT);
        let call = notes.number(CALL);
        let list = match call {
            PREVIEW => Ok(vec![]),
            COMMIT => model.commit_list(was, &numbers(argument), &saved(notes.number(BEGUN), argument)),
            ROOM => {
                let data = saved(notes.number(BEGUN), argument);
                model.room_list(was, DISK, table_was, &numbers(argument), &data).map(|runs| stores_of(&runs))
            }
            LOAD => model.load_list(was, disk_was, argument),
            EVICT => model.evict_list(was, DISK, argument),
            UPGRADE => model.upgrade_list(was),
            _ => Err(0),
        };
        if let Ok(list) = list {
            let found = [card.bytes(), disk.bytes()].concat();
            let (made, torn) = how_far(&list, media_was, &found).map_err(|error| format!("kill {kill}: {error}"))?;
            match call {
                PREVIEW => previewing += 1,
                _ => inside += 1,
            }
            making_room += u64::from(call == ROOM);
            between += (made > 0 && made < list.len()) as u64;
            if torn {
                half[kind(&list[made])] += 1;
                if !as_left {
                    let (on_disk, at, new) = list[made].unit();
                    let to = if on_disk { &mut disk } else { &mut card };
                    let from = if on_disk { CARD + at } else { at };
                    // no earlier store of the list went to this unit, or it is the entry that gets its role switched
                    let mut old = before.bytes()[from..from + new.len()].to_vec();
                    for store in &list[..made] {
                        let (other_disk, other_at, bytes) = store.unit();
                        if (other_disk, other_at) == (on_disk, at) {
                            old = bytes.to_vec();
                        }
                    }
                    let whole = if random.once_in(2) { new } else { &old[..] };
                    to.bytes_mut()[at..at + new.len()].copy_from_slice(whole);
                }
            }
        }
        notes.set_number(CALL, 0);
        if card.bytes()[VERSION_AT] != NOW {
            return Err(format!("kill {kill}: saves on a card of version {}", card.bytes()[VERSION_AT]));
        }
        let state = library.state(card.bytes());
        match state {
            State::Settled { .. } => {}
            State::Unsettled { undoable, .. } => {
                unsettled += 1;
                undoable_most = undoable_most.max(undoable);
                // one time in four the next station finds the card as it is; its own recovery then comes first
                if random.once_in(4) {
                    left_to_station += 1;
                    continue;
                }
            }
            other => return Err(format!("kill {kill}: {other:?}")),
        }
        // the station's map went with it
        let mut map = library.fresh_map(card.bytes());
        match library.recover(card.bytes_mut(), &mut map, u64::MAX) {
            Answer::Done(stores) => undone_stores += stores,
            other => return Err(format!("kill {kill}: recover {other:?}")),
        }
        let found = saves(&library, card.bytes(), disk.bytes_mut()).map_err(|error| format!("kill {kill}: {error}"))?;
        let (acknowledged, begun) = (notes.number(ACKNOWLEDGED), notes.number(BEGUN));
        for (group, sequence) in found.iter().enumerate() {
            let noted = notes.number(1 + group);
            if *sequence < noted || (*sequence > noted && *sequence > begun) {
                return Err(format!("kill {kill}: group {group} holds save {sequence}, noted {noted}, begun {begun}"));
            }
            newer += (*sequence > noted) as u64;
        }
        if acknowledged < first {
            return Err(format!("kill {kill}: the notes went back"));
        }
        acknowledged_last = acknowledged;
    }
    let torn: Vec<String> = KINDS.iter().zip(half).map(|(kind, count)| format!("{kind} {count}")).collect();
    Ok(format!(
        "{kills} kills in {:.1} s{}: {acknowledged_last} saves acknowledged; {inside} kills in a storing call, {making_room} of them in one that \
         makes room, {between} between its first store and its last, each after exactly the first stores of its list; {previewing} in a \
         preview, without a store; units half made: {}; {unsettled} cards unsettled (at most {undoable_most} entries to undo, \
         {left_to_station} left to the station), {undone_stores} stores of recoveries, {newer} whole saves not yet noted; no save torn or lost",
        start.elapsed().as_secs_f64(),
        if old { ", on a card that was upgraded" } else { "" },
        torn.join(", ")
    ))
}

fn main() {
    match run(option("--kills", 1000), option("--seed", 1)) {
        Ok(line) => println!("{line}"),
        Err(error) => {
            println!("LOST: {error}");
            std::process::exit(1);
        }
    }
}
