//! Cards of either version somewhere in a history of saves, loads and evictions with power cuts among them, made by the
//! model alone: larger saves than `drive` makes, with room made for some of them, cut around their entries and role
//! switches, and recoveries that are cut themselves.

use crate::drive::{data_of, first_disk, Snapshot};
use crate::model::{ascending, commit_stores, map_of, stores_of, zeros, Card, Model};
use crate::random::Random;
use crate::{Answer, Calls, Geometry, Opened};

/// A store of a commit of `n` blocks after which power fails: near the entry of one block, or among the role
/// switches.
pub fn cut_place(random: &mut Random, geometry: Geometry, n: u64) -> u64 {
    let words = geometry.block() as u64 / 8;
    if random.once_in(3) {
        return n * (words + 3) + random.below(n + 1);
    }
    random.below(n) * (words + 3) + words + random.below(4)
}

/// The number of a block on the card; any number where there is none.
pub fn cached(random: &mut Random, geometry: Geometry, card: &[u8]) -> u64 {
    let numbers: Vec<u64> = Card::open(card, None).unwrap().in_use().map(|entry| entry.number).collect();
    if numbers.is_empty() {
        random.below(geometry.disk_blocks)
    } else {
        random.pick(&numbers)
    }
}

/// Some different blocks, at most `most`. Two times in three one of them is cached.
pub fn some_numbers(random: &mut Random, geometry: Geometry, card: &[u8], most: u64) -> Vec<u64> {
    let most = most.min(geometry.slots - 1).min(geometry.disk_blocks);
    if most == 0 {
        return Vec::new();
    }
    let count = 1 + random.below(most);
    let any = random.below(geometry.disk_blocks);
    let first = if random.once_in(3) {
        any
    } else {
        cached(random, geometry, card) + geometry.disk_blocks - random.below(count)
    };
    (0..count).map(|i| (first + i) % geometry.disk_blocks).collect()
}

/// As above, fewer where there could not be room made for so many.
pub fn some_numbers_making_room(random: &mut Random, geometry: Geometry, card: &[u8], most: u64) -> Vec<u64> {
    let mut numbers = some_numbers(random, geometry, card, most);
    let card = Card::open(card, None).unwrap();
    let cached = |numbers: &[u64]| numbers.iter().filter(|number| card.entry_for(**number).is_some()).count();
    while (numbers.len() + cached(&numbers)) as u64 > geometry.data_blocks {
        numbers.pop();
    }
    numbers
}

/// The stores of the evictions with which a commit of these blocks makes room.
pub fn evicting_stores(model: &Model, at: &Snapshot, numbers: &[u64]) -> Result<u64, String> {
    let n = numbers.len();
    let block = Geometry::from_header(&at.card).map_or(0, |geometry| geometry.block());
    let runs = model.room_list(&at.card, at.disk.len(), &at.table, numbers, &vec![0; n * block]);
    let stores = stores_of(&runs.map_err(|number| format!("a commit that makes room is refused with {number}"))?).len() as u64;
    Ok(stores - commit_stores(n as u64, block as u64))
}

/// Any words of the block in which a save is cut.
fn some_choice(seed: u64, geometry: Geometry) -> Vec<u8> {
    let mut random = Random(seed);
    (0..geometry.block() / 8).map(|_| random.below(2) as u8).collect()
}

/// As many blocks as there is room for; one time in three the save makes room itself, one time in three it is made block by block.
fn save(model: &Model, random: &mut Random, geometry: Geometry, at: &mut Snapshot, most: u64, cut: bool) {
    match random.below(3) {
        0 => return save_making_room(model, random, geometry, at, most, cut),
        1 => return save_in_parts(model, random, geometry, at, most, cut),
        _ => {}
    }
    let free = Card::open(&at.card, None).unwrap().free_blocks().len() as u64;
    let numbers = some_numbers(random, geometry, &at.card, most.min(free));
    let n = numbers.len() as u64;
    if n == 0 {
        return;
    }
    let allowance = if cut { cut_place(random, geometry, n) } else { commit_stores(n, geometry.block() as u64) };
    let seed = random.next();
    let data = data_of(seed, n as usize, geometry.block());
    let mut map = map_of(&at.card);
    model.commit(&mut at.card, &mut map, &numbers, &data, &some_choice(seed, geometry), allowance);
}

/// As many blocks as there can be victims for. A cut falls behind the evictions.
fn save_making_room(model: &Model, random: &mut Random, geometry: Geometry, at: &mut Snapshot, most: u64, cut: bool) {
    let numbers = some_numbers_making_room(random, geometry, &at.card, most);
    let (n, seed) = (numbers.len() as u64, random.next());
    let data = data_of(seed, n as usize, geometry.block());
    let allowance = if cut { evicting_stores(model, at, &numbers).unwrap() + cut_place(random, geometry, n) } else { u64::MAX };
    let Snapshot { card, disk, table, .. } = at;
    let (mut map, choice) = (map_of(card), some_choice(seed, geometry));
    model.commit_making_room(card, disk, &mut map, table, &numbers, &data, &choice, allowance);
}

/// A save block by block. A cut falls into a put, or among the role switches, or the save is left as it is.
fn save_in_parts(model: &Model, random: &mut Random, geometry: Geometry, at: &mut Snapshot, most: u64, cut: bool) {
    let free = Card::open(&at.card, None).unwrap().free_blocks().len() as u64;
    let numbers = some_numbers(random, geometry, &at.card, most.min(free));
    let Opened::Open(mut record) = model.open(&at.card) else { panic!("a settled card is not opened") };
    let (mut map, words) = (map_of(&at.card), geometry.block() as u64 / 8);
    for (place, number) in numbers.iter().enumerate() {
        let seed = random.next();
        let (data, choice) = (data_of(seed, 1, geometry.block()), some_choice(seed, geometry));
        let is_cut = cut && place + 1 == numbers.len() && random.once_in(2);
        let allowance = if is_cut { words + random.below(3) } else { u64::MAX };
        let answer = model.put(&mut at.card, &mut map, &mut record, *number, &data, &choice, allowance);
        assert_eq!(answer == Answer::Cut, is_cut);
    }
    // refused where the last put was cut behind its entry, or nothing was put
    let allowance = if cut { random.below(1 + record[1]) } else { u64::MAX };
    map = map_of(&at.card);
    model.finish(&mut at.card, &mut map, &mut record, allowance);
}

/// Recovers in full, or is cut again a few times before.
fn recover(model: &Model, random: &mut Random, card: &mut [u8]) {
    let mut map = map_of(card);
    while random.once_in(3) {
        model.recover(card, &mut map, random.below(4));
        map = map_of(card);
    }
    assert!(matches!(model.recover(card, &mut map, u64::MAX), Answer::Done(_)));
}

fn step(model: &Model, random: &mut Random, geometry: Geometry, at: &mut Snapshot, most: u64) {
    let number = random.below(geometry.disk_blocks);
    let (mut map, choice) = (map_of(&at.card), zeros(geometry.block()));
    match random.below(6) {
        0 => drop(model.load(&mut at.card, &at.disk, &mut map, &mut at.table, number, &choice, u64::MAX)),
        1 | 2 => {
            let number = cached(random, geometry, &at.card);
            model.evict(&mut at.card, &mut at.disk, &mut map, number, &choice, u64::MAX);
        }
        _ => {
            let cut = random.once_in(3);
            save(model, random, geometry, at, most, cut);
            recover(model, random, &mut at.card);
        }
    }
}

/// A card of the version and its disk. Mostly the last save was cut, at times its recovery too.
pub fn history(random: &mut Random, geometry: Geometry, most: u64, version: u8) -> Snapshot {
    let model = &Model::of(version);
    let mut card = vec![0; geometry.card_length()];
    random.fill(&mut card);
    let (k, slots, data_blocks, disk_blocks) =
        (geometry.k, geometry.slots, geometry.data_blocks, geometry.disk_blocks);
    assert_eq!(model.format(k, slots, data_blocks, disk_blocks, &mut card), Answer::Done(0));
    let mut at = Snapshot::new(card, first_disk(random.next(), geometry), ascending());
    for _ in 0..random.below(16) {
        step(model, random, geometry, &mut at, most);
    }
    if !random.once_in(6) {
        save(model, random, geometry, &mut at, most, true);
        if random.once_in(4) {
            let mut map = map_of(&at.card);
            model.recover(&mut at.card, &mut map, random.below(3));
        }
    }
    at
}

#[cfg(test)]
mod tests {
    use super::*;
    use crate::model::{undone, NOW, OLD};

    /// Settled cards, long and short lists, windows that go round, undoable entries with and without R: all of them
    /// occur, of both versions. Of version 2 some go back to a clean version and some to a modified one.
    #[test]
    fn histories_reach_what_they_should() {
        for version in [OLD, NOW] {
            reached(version);
        }
    }

    fn reached(version: u8) {
        let geometry = Geometry { k: 9, slots: 8, data_blocks: 8, disk_blocks: 16 };
        let mut random = Random(5);
        let (mut settled, mut lengths, mut round, mut no_role, mut outside) = (0, [0; 9], 0, 0, 0);
        let mut back = [0; 2];
        for _ in 0..2000 {
            let bytes = history(&mut random, geometry, 6, version).card;
            let card = Card::open(&bytes, None).unwrap();
            assert_eq!(card.version, version);
            for entry in card.in_use().filter(|entry| card.undoable(entry) && entry.previous.is_some()) {
                back[usize::from(undone(version, *entry).unwrap().modified)] += 1;
            }
            settled += card.settled() as u64;
            lengths[Model::default().recover_list(&bytes).unwrap().len()] += 1;
            round += (card.tail > card.head) as u64;
            no_role += card.in_use().any(|entry| card.undoable(entry) && !entry.log_role) as u64;
            outside += card.in_use().any(|entry| entry.log_role && !card.window.contains(&entry.number)) as u64;
        }
        assert!(
            [settled, round, no_role, outside].iter().all(|count| *count > 50),
            "{settled} {round} {no_role} {outside}"
        );
        assert!(lengths[..8].iter().all(|count| *count > 10), "{lengths:?}");
        assert!((back[0] > 50) == (version == NOW) && back[1] > 50, "{back:?}");
    }
}
