//! Times of the library in one run: beside a plain copy of the same bytes (the floor), an unproved commit of the same contract and,
//! where installed, LMDB and libpmemobj. Each figure is the median of many rounds; within a round all take turns. With `--count` it
//! counts instructions instead.

mod count;
mod stores;
mod unproved;

use std::hint::black_box;
use std::time::Instant;
use stores::{Kind, Store, KINDS};
use unproved::Answer;

#[repr(C)]
#[derive(Clone, Copy)]
struct RawAnswer {
    kind: u32,
    refusal: u32,
    stores: u64,
}

#[repr(C)]
#[derive(Clone, Copy)]
struct RawPlace {
    kind: u32,
    refusal: u32,
    offset: u64,
    length: u64,
}

#[repr(C)]
#[derive(Clone, Copy)]
struct RawState {
    kind: u32,
    refusal: u32,
    geometry: [u64; 4],
    counts: [u64; 2],
}

#[repr(C)]
struct RawEntry {
    kind: u32,
    refusal: u32,
    block: u64,
    modified: u64,
}

#[repr(C)]
struct RawMap {
    kind: u32,
    refusal: u32,
    low: u64,
    high: u64,
}

#[repr(C)]
struct RawRecord {
    kind: u32,
    refusal: u32,
    tail: u64,
    count: u64,
}

extern "C" {
    fn tinca_open(card: *const u8, length: usize) -> RawRecord;
    fn tinca_put(
        card: *mut u8,
        length: usize,
        map: *mut u64,
        map_words: usize,
        record: *mut u64,
        record_words: usize,
        block: u64,
        data: *const u8,
        data_length: usize,
        choice: *const u8,
        choice_length: usize,
        allowance: u64,
    ) -> RawAnswer;
    fn tinca_finish(
        card: *mut u8,
        length: usize,
        map: *mut u64,
        map_words: usize,
        record: *const u64,
        record_words: usize,
        allowance: u64,
    ) -> RawAnswer;
    fn tinca_format(k: u64, slots: u64, data_blocks: u64, disk_blocks: u64, card: *mut u8, length: usize) -> RawAnswer;
    fn tinca_commit(
        card: *mut u8,
        length: usize,
        map: *mut u64,
        map_words: usize,
        numbers: *const u64,
        count: usize,
        data: *const u8,
        data_length: usize,
        choice: *const u8,
        choice_length: usize,
        allowance: u64,
    ) -> RawAnswer;
    fn tinca_preview(
        card: *const u8,
        length: usize,
        map: *const u64,
        map_words: usize,
        numbers: *const u64,
        count: usize,
        data: *const u8,
        data_length: usize,
        blocks: *mut u32,
        blocks_length: usize,
    ) -> RawAnswer;
    fn tinca_commit_making_room(
        card: *mut u8,
        length: usize,
        disk: *mut u8,
        disk_length: usize,
        map: *mut u64,
        map_words: usize,
        table: *mut u8,
        table_length: usize,
        numbers: *const u64,
        count: usize,
        data: *const u8,
        data_length: usize,
        choice: *const u8,
        choice_length: usize,
        allowance: u64,
    ) -> RawAnswer;
    fn tinca_load(
        card: *mut u8,
        length: usize,
        disk: *const u8,
        disk_length: usize,
        map: *mut u64,
        map_words: usize,
        table: *mut u8,
        table_length: usize,
        block: u64,
        choice: *const u8,
        choice_length: usize,
        allowance: u64,
    ) -> RawAnswer;
    fn tinca_evict(
        card: *mut u8,
        length: usize,
        disk: *mut u8,
        disk_length: usize,
        map: *mut u64,
        map_words: usize,
        block: u64,
        choice: *const u8,
        choice_length: usize,
        allowance: u64,
    ) -> RawAnswer;
    fn tinca_recover(card: *mut u8, length: usize, map: *mut u64, map_words: usize, allowance: u64) -> RawAnswer;
    fn tinca_read(
        card: *const u8,
        length: usize,
        disk: *const u8,
        disk_length: usize,
        table: *mut u8,
        table_length: usize,
        block: u64,
        out: *mut u8,
        out_length: usize,
    ) -> RawPlace;
    fn tinca_state_of(card: *const u8, length: usize) -> RawState;
    fn tinca_cached(card: *const u8, length: usize, place: u64) -> RawEntry;
    fn tinca_make_map(card: *const u8, length: usize) -> RawMap;
}

const ALL: u64 = u64::MAX;

/// The table of a station that starts.
fn ascending() -> [u8; 128] {
    std::array::from_fn(|place| place as u8)
}

/// The choice of a station in service: zeros, as many as are asked for.
fn zeros(k: u64) -> &'static [u8] {
    &[0; 512][..(1 << k) / 8]
}

fn commit(card: &mut [u8], map: &mut [u64], numbers: &[u64], data: &[u8], choice: &[u8], allowance: u64) -> Answer {
    let (card, length, map, words) = (card.as_mut_ptr(), card.len(), map.as_mut_ptr(), map.len());
    let (list, bytes, chosen) = (numbers.as_ptr(), data.as_ptr(), choice.as_ptr());
    let (count, data_length) = (numbers.len(), data.len());
    let raw =
        unsafe { tinca_commit(card, length, map, words, list, count, bytes, data_length, chosen, choice.len(), allowance) };
    match raw.kind {
        0 => Answer::Done(raw.stores),
        1 => Answer::Cut,
        _ => Answer::Refused(raw.refusal),
    }
}

fn done(raw: RawAnswer) {
    assert_eq!((raw.kind, raw.refusal), (0, 0));
}

/// Open, a put of each block and finish: a save in parts. A symbol of its own, so that its instructions can be counted.
#[no_mangle]
#[inline(never)]
fn save_in_parts(card: &mut [u8], map: &mut [u64; 2], numbers: &[u64], data: &[u8], choice: &[u8]) -> u64 {
    let (card, length, map) = (card.as_mut_ptr(), card.len(), map.as_mut_ptr());
    let opened = unsafe { tinca_open(card, length) };
    assert_eq!((opened.kind, opened.refusal), (0, 0));
    let mut record = [opened.tail, opened.count];
    let mut stores = 0;
    for (number, block) in numbers.iter().zip(data.chunks(data.len() / numbers.len())) {
        let held = record.as_mut_ptr();
        let (bytes, chosen) = ((block.as_ptr(), block.len()), (choice.as_ptr(), choice.len()));
        let raw = unsafe { tinca_put(card, length, map, 2, held, 2, *number, bytes.0, bytes.1, chosen.0, chosen.1, ALL) };
        done(raw);
        stores += raw.stores;
    }
    let raw = unsafe { tinca_finish(card, length, map, 2, record.as_ptr(), 2, ALL) };
    done(raw);
    stores + raw.stores
}

/// The map that the card gives; `None` where it is refused.
fn map_of(card: &[u8]) -> Option<[u64; 2]> {
    let raw = unsafe { tinca_make_map(card.as_ptr(), card.len()) };
    assert_eq!(raw.kind == 2, raw.refusal != 0);
    (raw.kind == 0).then_some([raw.low, raw.high])
}

fn formatted(k: u64, slots: u64, data_blocks: u64, disk_blocks: u64) -> Vec<u8> {
    let mut card = vec![0; (128 + 8 * slots + 16 * data_blocks + (data_blocks << k)) as usize];
    done(unsafe { tinca_format(k, slots, data_blocks, disk_blocks, card.as_mut_ptr(), card.len()) });
    card
}

fn next(state: &mut u64) -> u64 {
    *state = state.wrapping_add(0x9E37_79B9_7F4A_7C15);
    let z = (*state ^ (*state >> 30)).wrapping_mul(0xBF58_476D_1CE4_E5B9);
    let z = (z ^ (z >> 27)).wrapping_mul(0x94D0_49BB_1331_11EB);
    z ^ (z >> 31)
}

/// Of the words of a block any, none or all; once in sixteen times one that is refused.
fn some_choice(state: &mut u64) -> Vec<u8> {
    let mut choice: Vec<u8> = match next(state) % 3 {
        0 => vec![0; 64],
        1 => vec![1; 64],
        _ => (0..64 + next(state) % 8).map(|_| (next(state) % 2) as u8).collect(),
    };
    match next(state) % 32 {
        0 => drop(choice.pop()),
        1 => *choice.last_mut().unwrap() = 2,
        _ => {}
    }
    choice
}

/// The unproved commit answers, stores and hands on its map as the library does, on cards whole, cut and damaged, with right maps and
/// choices and wrong ones.
fn same_contract() -> u64 {
    let mut state = 3;
    let mut calls = 0;
    for (slots, data_blocks, disk_blocks) in [(8, 4, 6), (16, 12, 20), (256, 128, 65_536)] {
        let mut card = formatted(9, slots, data_blocks, disk_blocks);
        let mut map = map_of(&card).unwrap();
        for turn in 0..20_000u64 {
            let n = match next(&mut state) % 16 {
                0 => 0,
                1 => slots as usize,
                2 => slots as usize - 1,
                _ => 1 + next(&mut state) as usize % 4,
            };
            let bound = disk_blocks.min(2 * data_blocks) + (next(&mut state) % 24 == 0) as u64;
            let mut numbers: Vec<u64> = (0..n).map(|_| next(&mut state) % bound).collect();
            if next(&mut state) % 2 == 0 {
                let first = next(&mut state) % bound;
                numbers = (0..n as u64).map(|i| (first + i) % bound).collect();
            }
            let data: Vec<u8> = vec![turn as u8; n * 512 + (next(&mut state) % 32 == 0) as usize];
            let allowance = if next(&mut state) % 3 == 0 { next(&mut state) % (n as u64 * 68 + 3) } else { ALL };
            let mut one = card.clone();
            if next(&mut state) % 6 == 0 {
                let at = next(&mut state) as usize % (128 + 8 * slots + 16 * data_blocks) as usize;
                one[at] = next(&mut state) as u8;
            }
            let mut other = one.clone();
            let damaged = one != card;
            let mut given = if damaged { map_of(&one).unwrap_or(map) } else { map };
            if next(&mut state) % 16 == 0 {
                given[next(&mut state) as usize % 2] ^= 1 << (next(&mut state) % 64);
            }
            let (mut one_map, mut other_map, choice) = (given, given, some_choice(&mut state));
            let a = commit(&mut one, &mut one_map, &numbers, &data, &choice, allowance);
            let b = unproved::commit(&mut other, &mut other_map, &numbers, &data, &choice, allowance);
            assert!(a == b, "the unproved commit differs: {a:?} and {b:?} for {numbers:?}, allowance {allowance}");
            assert!(one == other && one_map == other_map, "the unproved commit leaves others: {a:?} for {numbers:?}, allowance {allowance}");
            calls += 1;
            if !damaged {
                card = one;
                if given == map {
                    map = one_map;
                }
                if a == Answer::Cut {
                    map = map_of(&card).unwrap();
                    done(unsafe { tinca_recover(card.as_mut_ptr(), card.len(), map.as_mut_ptr(), 2, ALL) });
                }
                if a == Answer::Refused(14) || turn % 64 == 63 {
                    card = formatted(9, slots, data_blocks, disk_blocks);
                    map = map_of(&card).unwrap();
                }
            }
        }
    }
    calls
}

fn median(mut times: Vec<f64>) -> f64 {
    times.sort_by(|a, b| a.total_cmp(b));
    times[times.len() / 2]
}

/// Nanoseconds of one turn of each, medians over the rounds; they take turns within a round.
fn timed(rounds: usize, turns: usize, runs: &mut [&mut dyn FnMut(usize)]) -> Vec<f64> {
    let mut times = vec![Vec::new(); runs.len()];
    for round in 0..rounds {
        for (index, run) in runs.iter_mut().enumerate() {
            let start = Instant::now();
            for turn in 0..turns {
                run(turn);
            }
            let time = start.elapsed().as_nanos() as f64 / turns as f64;
            if round >= rounds / 10 {
                times[index].push(time);
            }
        }
    }
    times.into_iter().map(median).collect()
}

fn spread(count: usize) -> Vec<u64> {
    (0..count as u64).map(|i| (i * 40_503 + 7) % 65_536).collect()
}

/// A card with the given numbers in use, saved `most` at a time, and its map.
fn filled(k: u64, slots: u64, data_blocks: u64, numbers: &[u64]) -> (Vec<u8>, [u64; 2]) {
    let mut card = formatted(k, slots, data_blocks, 65_536);
    let mut map = map_of(&card).unwrap();
    for part in numbers.chunks((data_blocks as usize / 2).max(1)) {
        let data = vec![1; part.len() << k];
        assert!(matches!(commit(&mut card, &mut map, part, &data, zeros(k), ALL), Answer::Done(_)));
    }
    (card, map)
}

/// Floor, library, unproved commit and the stores of the given kinds.
fn measured(k: u64, data_blocks: u64, n: usize, rounds: usize, kinds: &'static [Kind]) -> Vec<f64> {
    let (slots, in_use) = (256, data_blocks as usize / 2);
    let numbers = spread(in_use);
    let mut stores: Vec<Store> = kinds.iter().map(|kind| Store::filled(kind, 1 << k, &numbers)).collect();
    let (mut proved_card, mut proved_map) = filled(k, slots, data_blocks, &numbers);
    let (mut unproved_card, mut unproved_map) = (proved_card.clone(), proved_map);
    let mut area = proved_card.clone();
    let data: Vec<u8> = (0..n << k).map(|i| i as u8).collect();
    let saved = &numbers[..n];
    let blocks = area.len() - ((data_blocks as usize) << k);
    let mut at = 0;
    let turns = (4096 / n).clamp(8, 512);
    let mut copy = |_: usize| {
        let from = blocks + (at << k);
        area[from..from + (n << k)].copy_from_slice(black_box(&data));
        black_box(&mut area);
        at = if at + 2 * n > data_blocks as usize { 0 } else { at + n };
    };
    let mut proved = |_: usize| {
        let (card, map) = (black_box(&mut proved_card), black_box(&mut proved_map));
        let answer = commit(card, map, black_box(saved), black_box(&data), black_box(zeros(k)), black_box(ALL));
        assert!(matches!(answer, Answer::Done(_)));
    };
    let mut plain = |_: usize| {
        let (card, map) = (black_box(&mut unproved_card), black_box(&mut unproved_map));
        let answer = unproved::commit(card, map, black_box(saved), black_box(&data), black_box(zeros(k)), black_box(ALL));
        assert!(matches!(answer, Answer::Done(_)));
    };
    let bytes = &data;
    let mut saves: Vec<_> =
        stores.iter_mut().map(|store| move |_: usize| store.save(black_box(saved), black_box(bytes))).collect();
    let mut runs: Vec<&mut dyn FnMut(usize)> = vec![&mut copy, &mut proved, &mut plain];
    runs.extend(saves.iter_mut().map(|run| run as &mut dyn FnMut(usize)));
    let times = timed(rounds, turns, &mut runs);
    stores.iter().for_each(|store| store.check(saved, &data));
    times
}

fn commits(rounds: usize) {
    let names: String = KINDS.iter().map(|kind| format!(" {} |", kind.name)).collect();
    println!("Commit of n blocks; S 256, N 128, D 65,536, 64 entries in use. Nanoseconds, medians; in brackets the ratio to the copy.\n");
    println!("| B | n | copy of n B bytes | library | unproved | library / unproved |{names}");
    println!("|---|---|---|---|---|---|{}", "---|".repeat(KINDS.len()));
    for k in [9, 12] {
        for n in [1, 4, 16, 64] {
            let times = measured(k, 128, n, rounds, KINDS);
            let cell = |time: &f64| format!(" {time:.0} ({:.1}) |", time / times[0]);
            let ours: String = times[1..3].iter().map(cell).collect();
            let theirs: String = times[3..].iter().map(cell).collect();
            println!("| {} | {n} | {:.0} |{ours} {:.2} |{theirs}", 1 << k, times[0], times[1] / times[2]);
        }
    }
}

fn others(k: u64, rounds: usize) -> Vec<(&'static str, f64)> {
    let block = 1usize << k;
    let numbers = spread(96);
    let (cached, rest) = numbers.split_at(64);
    // the map is made once and then handed from call to call, as a station does
    let (mut card, mut words) = filled(k, 256, 128, cached);
    let length = card.len();
    let mut disk = vec![0u8; block * 65_536];
    let disk_length = disk.len();
    for number in &numbers {
        disk[*number as usize * block..][..block].fill(9);
    }
    let (mut out, mut table) = (vec![0u8; block], ascending());
    let (card, disk, map, table) = (card.as_mut_ptr(), disk.as_mut_ptr(), words.as_mut_ptr(), table.as_mut_ptr());
    let (choice, words) = (zeros(k).as_ptr(), zeros(k).len());
    let mut times = vec![Vec::new(); 11];
    let mut time = |index: usize, run: &mut dyn FnMut(usize)| {
        let start = Instant::now();
        for turn in 0..32 {
            run(turn);
        }
        times[index].push(start.elapsed().as_nanos() as f64 / 32.0);
    };
    let data = vec![3u8; 32 * block];
    let before = unsafe { std::slice::from_raw_parts(card, length) }.to_vec();
    for _ in 0..rounds {
        let evict = &mut |turn: usize| done(unsafe { tinca_evict(card, length, disk, disk_length, map, 2, rest[turn], choice, words, ALL) });
        let load = &mut |turn: usize| {
            done(unsafe { tinca_load(card, length, disk, disk_length, map, 2, table, 128, rest[turn], choice, words, ALL) });
        };
        time(0, load);
        time(1, evict);
        done(unsafe { tinca_commit(card, length, map, 2, rest.as_ptr(), 32, data.as_ptr(), data.len(), choice, words, ALL) });
        time(2, evict);
        time(3, &mut |turn| {
            let place = unsafe { tinca_read(card, length, disk, disk_length, table, 128, cached[turn], out.as_mut_ptr(), block) };
            assert_eq!((place.kind, place.refusal, place.length), (0, 0, block as u64));
            black_box(place.offset);
        });
        time(4, &mut |turn| {
            let place = unsafe { tinca_read(card, length, disk, disk_length, table, 128, rest[turn], out.as_mut_ptr(), block) };
            assert_eq!(place.kind, 1);
        });
        time(5, &mut |_| done(unsafe { tinca_recover(card, length, map, 2, ALL) }));
        time(7, &mut |_| {
            let state = unsafe { tinca_state_of(card, length) };
            assert_eq!((state.kind, state.refusal, state.counts[0]), (0, 0, 64));
            black_box(state.geometry);
        });
        time(8, &mut |turn| {
            let entry = unsafe { tinca_cached(card, length, turn as u64) };
            assert_eq!(entry.refusal, 0);
            black_box((entry.kind, entry.block, entry.modified));
        });
        time(9, &mut |_| {
            let made = unsafe { tinca_make_map(card, length) };
            assert_eq!((made.kind, made.refusal), (0, 0));
            black_box((made.low, made.high));
        });
        time(10, &mut |turn| {
            let (numbers, mut blocks) = (cached[turn..turn + 4].as_ptr(), [0; 4]);
            done(unsafe { tinca_preview(card, length, map, 2, numbers, 4, data.as_ptr(), 4 * block, blocks.as_mut_ptr(), 4) });
            black_box(blocks);
        });
    }
    // recovery of a commit of 16 that was cut before its last store
    let mut cut = before.clone();
    let mut map = map_of(&cut).unwrap();
    let answer = commit(&mut cut, &mut map, &cached[..16], &data[..16 * block], zeros(k), 16 * (block as u64 / 8 + 4));
    assert_eq!(answer, Answer::Cut);
    let cut_map = map_of(&cut).unwrap();
    let fields = 128 + 8 * 256 + 16 * 128;
    let mut card = cut.clone();
    for _ in 0..32 * rounds {
        card[..fields].copy_from_slice(&cut[..fields]);
        map = cut_map;
        let start = Instant::now();
        done(unsafe { tinca_recover(card.as_mut_ptr(), length, map.as_mut_ptr(), 2, ALL) });
        times[6].push(start.elapsed().as_nanos() as f64);
    }
    let names = [
        "load",
        "evict, clean",
        "evict, modified",
        "read from card",
        "read from disk",
        "recover, settled",
        "recover, 16 to undo",
        "state",
        "cached",
        "make map",
        "preview, 4 blocks",
    ];
    names.into_iter().zip(times.into_iter().map(median)).collect()
}

/// A card over its disk, with what the station keeps beside it.
#[derive(Clone)]
struct Pair {
    k: u64,
    card: Vec<u8>,
    disk: Vec<u8>,
    map: [u64; 2],
    table: [u8; 128],
}

impl Pair {
    fn new(k: u64, card: Vec<u8>, map: [u64; 2]) -> Pair {
        Pair { k, card, disk: vec![0; 65_536 << k], map, table: ascending() }
    }

    /// N 128 and all of it in use: the numbers cached in their order, modified or as loaded.
    fn full(k: u64, numbers: &[u64], modified: bool) -> Pair {
        let (card, map) = filled(k, 256, 128, if modified { numbers } else { &[] });
        let mut pair = Pair::new(k, card, map);
        numbers.iter().filter(|_| !modified).for_each(|number| pair.load(*number));
        pair
    }

    fn load(&mut self, block: u64) {
        let (card, disk, choice) = (&mut self.card, &self.disk, zeros(self.k));
        let (length, map, table) = (card.len(), self.map.as_mut_ptr(), self.table.as_mut_ptr());
        let (card, choice, words) = (card.as_mut_ptr(), choice.as_ptr(), choice.len());
        done(unsafe { tinca_load(card, length, disk.as_ptr(), disk.len(), map, 2, table, 128, block, choice, words, ALL) });
    }

    fn evict(&mut self, block: u64) {
        let (card, disk, choice) = (&mut self.card, &mut self.disk, zeros(self.k));
        let (length, disk_length, map) = (card.len(), disk.len(), self.map.as_mut_ptr());
        let (card, disk) = (card.as_mut_ptr(), disk.as_mut_ptr());
        done(unsafe { tinca_evict(card, length, disk, disk_length, map, 2, block, choice.as_ptr(), choice.len(), ALL) });
    }

    /// The room-making commit; its count of stores.
    fn save(&mut self, numbers: &[u64], data: &[u8]) -> u64 {
        let (card, disk, choice) = (&mut self.card, &mut self.disk, zeros(self.k));
        let (map, table) = (&mut self.map, &mut self.table);
        let raw = unsafe {
            tinca_commit_making_room(
                card.as_mut_ptr(),
                card.len(),
                disk.as_mut_ptr(),
                disk.len(),
                map.as_mut_ptr(),
                2,
                table.as_mut_ptr(),
                128,
                numbers.as_ptr(),
                numbers.len(),
                data.as_ptr(),
                data.len(),
                choice.as_ptr(),
                choice.len(),
                ALL,
            )
        };
        done(raw);
        raw.stores
    }

    /// The fields as they were, all but the data blocks, which no check looks at.
    fn restore(&mut self, from: &Pair) {
        let fields = 128 + 8 * 256 + 16 * 128;
        self.card[..fields].copy_from_slice(&from.card[..fields]);
        self.map = from.map;
        self.table = from.table;
    }
}

/// A save of n blocks that must evict n, on a full card; and n evictions and a commit in its stead.
fn making_room(k: u64, n: usize, modified: bool, rounds: usize) -> [f64; 2] {
    let numbers = spread(128 + n);
    let (cached, new) = numbers.split_at(128);
    let data = vec![5u8; n << k];
    let before = Pair::full(k, cached, modified);
    let mut pair = before.clone();
    let least: Vec<u64> = (0..n).map(|i| cached[if modified { 127 - i } else { i }]).collect();
    let count = n as u64 * ((1 << k) / 8 + 4) + 1 + n as u64 * (1 + if modified { (1 << k) / 512 } else { 0 });
    let mut times = [Vec::new(), Vec::new()];
    for _ in 0..4 * rounds {
        pair.restore(&before);
        let start = Instant::now();
        let stores = pair.save(black_box(new), black_box(&data));
        times[0].push(start.elapsed().as_nanos() as f64);
        assert_eq!(stores, count);
        pair.restore(&before);
        let start = Instant::now();
        least.iter().for_each(|block| pair.evict(black_box(*block)));
        let answer = commit(&mut pair.card, &mut pair.map, black_box(new), black_box(&data), zeros(k), ALL);
        times[1].push(start.elapsed().as_nanos() as f64);
        assert!(matches!(answer, Answer::Done(_)));
    }
    times.map(median)
}

fn rooms(rounds: usize) {
    println!("\nA save of n blocks on a full card, which must evict n: the room-making commit, and n evictions and a commit; S 256, N 128, D 65,536.\n");
    println!("| n | evicted | B 512 | by hand | B 4096 | by hand |");
    println!("|---|---|---|---|---|---|");
    for n in [1, 4, 16] {
        for (modified, name) in [(false, "clean"), (true, "modified")] {
            let [small, large] = [9, 12].map(|k| making_room(k, n, modified, rounds));
            println!("| {n} | {name} | {:.0} | {:.0} | {:.0} | {:.0} |", small[0], small[1], large[0], large[1]);
        }
    }
}

/// A save of n blocks: one commit, and open, n puts and finish on the same card.
fn in_parts(k: u64, n: usize, rounds: usize) -> [f64; 2] {
    let numbers = spread(64);
    let data = vec![6u8; n << k];
    let (mut whole, mut whole_map) = filled(k, 256, 128, &numbers);
    let (mut parts, mut parts_map) = (whole.clone(), whole_map);
    let saved = &numbers[..n];
    let mut one = |_: usize| {
        let answer = commit(black_box(&mut whole), &mut whole_map, black_box(saved), black_box(&data), zeros(k), ALL);
        assert!(matches!(answer, Answer::Done(_)));
    };
    let mut other = |_: usize| {
        let stores = save_in_parts(black_box(&mut parts), &mut parts_map, black_box(saved), black_box(&data), zeros(k));
        assert_eq!(stores, n as u64 * ((1 << k) / 8 + 4) + 1);
    };
    let times = timed(rounds, 64, &mut [&mut one, &mut other]);
    assert!(whole == parts && whole_map == parts_map, "a save in parts leaves another card than the commit");
    [times[0], times[1]]
}

fn parts(rounds: usize) {
    println!("\nA save of n blocks: one commit, and open, n puts and finish; S 256, N 128, D 65,536, 64 entries in use.\n");
    println!("| n | B 512, commit | in parts | B 4096, commit | in parts |");
    println!("|---|---|---|---|---|");
    for n in [1, 4, 16] {
        let [small, large] = [9, 12].map(|k| in_parts(k, n, rounds));
        println!("| {n} | {:.0} | {:.0} | {:.0} | {:.0} |", small[0], small[1], large[0], large[1]);
    }
}

fn main() {
    let words: Vec<String> = std::env::args().skip(1).collect();
    if words.first().is_some_and(|word| word == "--count") {
        return count::run(&words[1..]);
    }
    stores::persistent();
    let quick = words.iter().any(|word| word == "quick");
    let rounds = if quick { 20 } else { 1500 };
    println!("The unproved commit equals the library's in {} calls.\n", same_contract());
    measured(9, 128, 16, rounds, KINDS);
    commits(rounds);
    println!("\nCommit of one block as N grows; B 512, S 256, N / 2 entries in use.\n");
    println!("| N | copy | library | unproved | library / unproved |");
    println!("|---|---|---|---|---|");
    for data_blocks in [4, 16, 64, 128] {
        let times = measured(9, data_blocks, 1, rounds, &[]);
        println!("| {data_blocks} | {:.0} | {:.0} | {:.0} | {:.2} |", times[0], times[1], times[2], times[1] / times[2]);
    }
    println!("\nThe other calls; S 256, N 128, D 65,536, 64 to 96 entries in use.\n");
    println!("| call | B 512 | B 4096 |");
    println!("|---|---|---|");
    let (small, large) = (others(9, rounds), others(12, rounds));
    for (one, other) in small.iter().zip(&large) {
        println!("| {} | {:.0} | {:.0} |", one.0, one.1, other.1);
    }
    rooms(rounds);
    parts(rounds);
}
