//! Writes the card images that the service program is tried on, and the disk beside them. The model makes them, so
//! that they are what documents 01 and 02 say; each run writes the same bytes. The images of version 1 that were stored
//! before there was another are not written: they stay what they were, and a test asks the model whether they
//! are its own.
//!
//!     images FOLDER

use std::path::Path;
use tinca_tests::drive::put;
use tinca_tests::model::{ascending, commit_stores, in_order, map_of, zeros, Model, VERSION_AT};
use tinca_tests::{Answer, Calls, Geometry};

const SMALL: Geometry = Geometry { k: 9, slots: 8, data_blocks: 4, disk_blocks: 16 };
const BLOCK: usize = 512;

/// A block that tells what it is: lines of text, and between them lines in which every byte value stands.
fn pattern(what: &str, block: u64) -> Vec<u8> {
    let mut bytes = Vec::with_capacity(BLOCK);
    for line in 0..BLOCK as u64 / 16 {
        if line % 2 == 0 {
            bytes.extend_from_slice(format!("{what:<7}{block:>2} at {:03X}", 16 * line).as_bytes());
        } else {
            bytes.extend((0..16).map(|column| (16 * (line / 2 + block) + column) as u8));
        }
    }
    assert_eq!(bytes.len(), BLOCK);
    bytes
}

fn disk() -> Vec<u8> {
    (0..SMALL.disk_blocks).flat_map(|block| pattern("disk", block)).collect()
}

/// A card and the station, today's or one of before, whose calls it goes through.
struct Made {
    model: Model,
    card: Vec<u8>,
}

fn fresh_by(model: Model) -> Made {
    let mut card = vec![0; SMALL.card_length()];
    let (k, slots, data_blocks, disk_blocks) = (SMALL.k, SMALL.slots, SMALL.data_blocks, SMALL.disk_blocks);
    assert_eq!(model.format(k, slots, data_blocks, disk_blocks, &mut card), Answer::Done(0));
    Made { model, card }
}

fn fresh() -> Made {
    fresh_by(Model::default())
}

impl Made {
    /// Saves the blocks, cut after so many stores; the bytes tell the save's name.
    fn save(mut self, name: &str, numbers: &[u64], allowance: u64) -> Made {
        let data: Vec<u8> = numbers.iter().flat_map(|number| pattern(name, *number)).collect();
        let count = commit_stores(numbers.len() as u64, BLOCK as u64);
        let answer = if allowance < count { Answer::Cut } else { Answer::Done(count) };
        let (mut map, choice) = (map_of(&self.card), in_order(BLOCK, allowance));
        assert_eq!(self.model.commit(&mut self.card, &mut map, numbers, &data, &choice, allowance), answer);
        self
    }

    fn load(mut self, number: u64) -> Made {
        let (mut map, mut table) = (map_of(&self.card), ascending());
        let answer = self.model.load(&mut self.card, &disk(), &mut map, &mut table, number, &zeros(BLOCK), u64::MAX);
        assert_eq!(answer, Answer::Done(65));
        self
    }

    /// Evicts a block that is clean.
    fn drop_clean(mut self, number: u64) -> Made {
        let mut map = map_of(&self.card);
        let answer = self.model.evict(&mut self.card, &mut disk(), &mut map, number, &zeros(BLOCK), u64::MAX);
        assert_eq!(answer, Answer::Done(1));
        self
    }

    fn recover(mut self, allowance: u64, answer: Answer) -> Made {
        let mut map = map_of(&self.card);
        assert_eq!(self.model.recover(&mut self.card, &mut map, allowance), answer);
        self
    }

    /// By today's station.
    fn upgrade(mut self) -> Made {
        assert_eq!(Model::default().upgrade(&mut self.card, u64::MAX), Answer::Done(1));
        self
    }
}

/// Blocks 3 and 7 saved, 3 once more, 12 loaded.
fn saved_by(model: Model) -> Made {
    let made = fresh_by(model).save("save a", &[3], u64::MAX).save("save b", &[7], u64::MAX);
    made.save("save c", &[3], u64::MAX).load(12)
}

fn saved() -> Vec<u8> {
    saved_by(Model::default()).card
}

fn old_saved() -> Vec<u8> {
    saved_by(Model::old()).card
}

/// Block 7 saved twice, 12 loaded; then a save of 12, which is clean, and of 7, which is modified: a recovery gives each
/// back as it was. The cut falls behind the entry of 7: it has R, and its number does not stand in the window.
fn cut() -> Made {
    let made = fresh().save("save a", &[7], u64::MAX).save("save b", &[7], u64::MAX);
    made.load(12).save("save c", &[12, 7], 67 + 65)
}

/// What was cut before there was version 2: a save of blocks 1 and 7, of which 7 is cached. Two data blocks must be free
/// for it, so 12, which is clean, goes first.
fn old_cut() -> Made {
    saved_by(Model::old()).drop_clean(12).save("save d", &[1, 7], 67 + 65)
}

/// Seven saves bring Head to slot 7; the eighth, of blocks 4 and 11, goes round. It is cut between its two role
/// switches, so that one undoable entry has no R any more. Bytes 80 to 127 are not looked at, whatever stands there.
fn round_by(model: Model) -> Made {
    let mut made = fresh_by(model);
    for (name, number) in
        [("save a", 2), ("save b", 4), ("save c", 2), ("save d", 4), ("save e", 2), ("save f", 4), ("save g", 2)]
    {
        made = made.save(name, &[number], u64::MAX);
    }
    made = made.save("save h", &[4, 11], 2 * 67 + 1);
    made.card[80..128].fill(0xA5);
    made
}

fn round() -> Made {
    round_by(Model::default())
}

fn full() -> Vec<u8> {
    fresh().save("save a", &[1, 2], u64::MAX).save("save b", &[15], u64::MAX).load(8).card
}

/// The card with these bytes in place of its own. They must change it.
fn with(mut card: Vec<u8>, at: usize, bytes: &[u8]) -> Vec<u8> {
    assert_ne!(card[at..at + bytes.len()], *bytes);
    put(&mut card, at, bytes);
    card
}

/// One byte or word of a field of entry `index` replaced.
fn entry(card: Vec<u8>, index: usize, from: usize, bytes: &[u8]) -> Vec<u8> {
    with(card, SMALL.entry_at(index) + from, bytes)
}

fn resized(mut card: Vec<u8>, length: usize) -> Vec<u8> {
    card.resize(length, 0);
    card
}

fn word(value: u64) -> [u8; 8] {
    value.to_be_bytes()
}

type Image = (&'static str, Vec<u8>);

fn sound() -> Vec<Image> {
    vec![
        ("fresh", fresh().card),
        ("saved", saved()),
        ("cut", cut().card),
        ("recovering", cut().recover(1, Answer::Cut).card),
        ("almost", cut().recover(2, Answer::Cut).card),
        ("recovered", cut().recover(u64::MAX, Answer::Done(3)).card),
        ("round", round().card),
        ("round-recovered", round().recover(u64::MAX, Answer::Done(3)).card),
        ("full", full()),
        ("old-upgraded", old_cut().recover(u64::MAX, Answer::Done(3)).upgrade().card),
    ]
}

/// Refused with 1 or 2.
fn misfitted() -> Vec<Image> {
    vec![
        ("length", with(saved(), 3, &[65])),
        ("version", with(saved(), VERSION_AT, &[3])),
        ("k", with(saved(), 5, &[8])),
        ("slots", with(saved(), 7, &[12])),
        ("blocks", with(saved(), 11, &[6])),
        ("disk-blocks", with(saved(), 15, &[0])),
        ("reserved", with(saved(), 63, &[1])),
        ("stub", resized(saved(), 100)),
        ("empty", Vec::new()),
        ("wide", with(saved(), 5, &[10])),
        ("longer", resized(saved(), 2305)),
        ("shorter", resized(saved(), 2303)),
        ("old-longer", resized(old_saved(), 2305)),
    ]
}

/// Refused with 4, 5 or 6. Entry 0 of the saved card holds block 3, entry 1 block 7, entry 3 block 12; of the one that
/// went round, entry 0 holds block 2 and entry 1 block 4.
fn damaged() -> Vec<Image> {
    let (settled_of_2, current_of_3) = (2u32.to_be_bytes(), 2u32.to_be_bytes());
    vec![
        ("old-head", with(old_saved(), 64, &word(8))),
        ("old-flags", entry(old_saved(), 1, 0, &[0x86])),
        ("old-samenumber", entry(old_saved(), 3, 7, &[3])),
        ("head", with(saved(), 64, &word(8))),
        ("tail", with(saved(), 72, &word(8))),
        ("window", with(cut().card, SMALL.slot_at(2), &word(16))),
        ("flags", entry(saved(), 1, 0, &[0x81])),
        ("cleanp", entry(saved(), 3, 0, &[0x84])),
        ("notzero", entry(saved(), 1, 0, &[0])),
        ("number", entry(saved(), 3, 7, &[16])),
        ("current", entry(saved(), 3, 15, &[4])),
        ("previous", entry(saved(), 0, 11, &[4])),
        ("samenumber", entry(saved(), 3, 7, &[3])),
        ("samecurrent", entry(saved(), 3, 12, &current_of_3)),
        ("samesettled", entry(round().card, 1, 8, &settled_of_2)),
    ]
}

fn write(folder: &Path, name: &str, bytes: &[u8]) -> std::io::Result<()> {
    std::fs::write(folder.join(format!("{name}.img")), bytes)
}

fn main() -> std::io::Result<()> {
    let Some(folder) = std::env::args_os().nth(1) else {
        eprintln!("usage: images FOLDER");
        std::process::exit(2);
    };
    let folder = Path::new(&folder);
    std::fs::create_dir_all(folder)?;
    for (name, bytes) in [sound(), misfitted(), damaged()].concat() {
        write(folder, name, &bytes)?;
    }
    write(folder, "disk", &disk())
}

#[cfg(test)]
mod tests {
    use super::*;
    use tinca_tests::model::{Card, State};

    fn refusal(card: &[u8]) -> u32 {
        Card::open(card, None).err().unwrap_or(0)
    }

    /// The images of version 1 as they are stored, and as the station of before makes them.
    fn kept() -> [(&'static [u8], Vec<u8>); 7] {
        let old = Model::old();
        [
            (include_bytes!("../../../crates/service/data/old-fresh.img"), fresh_by(old).card),
            (include_bytes!("../../../crates/service/data/old-saved.img"), old_saved()),
            (include_bytes!("../../../crates/service/data/old-cut.img"), old_cut().card),
            (include_bytes!("../../../crates/service/data/old-recovering.img"), old_cut().recover(1, Answer::Cut).card),
            (include_bytes!("../../../crates/service/data/old-recovered.img"), old_cut().recover(u64::MAX, Answer::Done(3)).card),
            (include_bytes!("../../../crates/service/data/old-round.img"), round_by(old).card),
            (
                include_bytes!("../../../crates/service/data/old-round-recovered.img"),
                round_by(old).recover(u64::MAX, Answer::Done(3)).card,
            ),
        ]
    }

    #[test]
    fn the_images_that_are_kept_are_those_of_before() {
        for (stored, made) in kept() {
            assert!(stored == made && stored[VERSION_AT] == 1);
            assert_eq!(Model::default().make_map(stored), tinca_tests::FreeMap::Made(map_of(&made)));
        }
    }

    /// Each image is refused with the number that it is there for, and no card is longer than the smallest, but one
    /// by one byte.
    #[test]
    fn the_images_are_what_their_names_say() {
        let refusals = |images: Vec<Image>| -> Vec<u32> { images.iter().map(|(_, card)| refusal(card)).collect() };
        assert_eq!(refusals(sound()), [0; 10]);
        assert_eq!(refusals(misfitted()), [1, 1, 1, 1, 1, 1, 1, 1, 1, 2, 2, 2, 2]);
        assert_eq!(refusals(damaged()), [4, 5, 6, 4, 4, 4, 5, 5, 5, 5, 5, 5, 6, 6, 6]);
        let old = |images: Vec<Image>| images.iter().all(|(name, card)| name.starts_with("old-") == (card.get(VERSION_AT) == Some(&1)));
        assert!(old(misfitted()) && old(damaged()));
        assert!(sound().iter().all(|(_, card)| card.len() == 2304 && card[VERSION_AT] == 2));
    }

    /// The flag bytes of the entries for these blocks.
    fn flags<const N: usize>(card: &[u8], numbers: [u64; N]) -> [u8; N] {
        let opened = Card::open(card, None).unwrap();
        numbers.map(|number| card[SMALL.entry_at(opened.entry_for(number).unwrap())])
    }

    #[test]
    fn the_cuts_fall_where_they_should() {
        let model = Model::default();
        assert_eq!(model.state(&cut().card), State::Unsettled { geometry: SMALL, undoable: 2, window: 1 });
        assert_eq!(model.state(&round().card), State::Unsettled { geometry: SMALL, undoable: 2, window: 2 });
        for (card, numbers) in [(cut().card, [12, 7]), (old_cut().card, [1, 7])] {
            let card = Card::open(&card, None).unwrap();
            let of_7 = card.entries[card.entry_for(7).unwrap()].unwrap();
            assert!(of_7.log_role && !card.window.contains(&7));
            assert_eq!(card.window, numbers[..1]);
        }
        let card = Card::open(&round().card, None).unwrap();
        assert_eq!((card.tail, card.head), (7, 1));
        assert!(!card.entries[card.entry_for(4).unwrap()].unwrap().log_role);
        assert!(Card::open(&full(), None).unwrap().free_blocks().is_empty());
    }

    /// What is saved over, clean and modified, and what a recovery makes of it; both look alike on an old card.
    #[test]
    fn the_flags_are_those_of_their_version() {
        assert_eq!(flags(&cut().card, [12, 7]), [0x83, 0x87]);
        assert_eq!(flags(&cut().recover(u64::MAX, Answer::Done(3)).card, [12, 7]), [0x80, 0x86]);
        assert_eq!(flags(&saved(), [3, 7, 12]), [0x86, 0x82, 0x80]);
        assert_eq!(flags(&old_saved(), [3, 7, 12]), [0x82, 0x82, 0x80]);
        assert_eq!(flags(&old_cut().card, [1, 7]), [0x83, 0x83]);
        assert_eq!(flags(&round().card, [4, 11]), [0x86, 0x83]);
    }

    /// Two entries are alike in one way only, so that each way is tried by itself. (Equal current blocks of two
    /// entries that are not undoable are equal settled blocks too.)
    #[test]
    fn each_pair_is_alike_in_its_own_way() {
        let with_other = |mut card: Vec<u8>, at: usize, bytes: &[u8]| {
            put(&mut card, at, bytes);
            refusal(&card)
        };
        let [.., (_, number), (_, current), (_, settled)] = &damaged()[..] else { unreachable!() };
        assert_eq!(with_other(number.clone(), SMALL.entry_at(3) + 7, &[4]), 0);
        assert_eq!(with_other(current.clone(), SMALL.entry_at(3) + 12, &[0; 4]), 0);
        assert_eq!(with_other(settled.clone(), SMALL.entry_at(1) + 8, &[0xFF; 4]), 0);
    }

    #[test]
    fn a_block_tells_its_number() {
        let blocks: Vec<Vec<u8>> = disk().chunks(BLOCK).map(|block| block.to_vec()).collect();
        assert_eq!(blocks.len(), 16);
        assert!((0..16).all(|i| (0..i).all(|j| blocks[i] != blocks[j])));
        assert!((0..=255u8).all(|byte| blocks[5].contains(&byte)));
    }
}
