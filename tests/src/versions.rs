//! Cards of version 1 and flag P: what is refused for a version or a flag byte alone, what a recovery owes the entries that a cut commit
//! saved over, and histories that begin with a station of before and go on with today's calls, upgrades among them.

use crate::choices::{Pick, PICKS};
use crate::drive::{
    all_hold, as_left, data_of, done, every_recovery, first_disk, goes_on, is_inside, make, make_in_full, some_call, Output, Pair, Row,
    Step, Tally,
};
use crate::model::{read_entry, Card, Model, NOW, OLD, VERSION_AT};
use crate::random::{mix, Random};
use crate::series::some_recoveries;
use crate::{Answer, Calls, Geometry, Opened};

/// The versions that are tried: both that there are, the ones next to them and the largest byte.
pub const VERSIONS: [u8; 5] = [0, OLD, NOW, 3, 255];

/// Flag bytes that are not allowed, on old cards or on all.
pub const ODD_FLAGS: [u8; 5] = [0x81, 0x84, 0x85, 0x86, 0x87];

/// The version, as its place in `VERSIONS`, where it is none of these and the card passes all that is asked besides.
pub fn odd_version(card: &[u8], taken: &[u8]) -> Option<usize> {
    let version = *card.get(VERSION_AT)?;
    let place = VERSIONS.iter().position(|one| *one == version)?;
    (!taken.contains(&version) && Card::open_any(card).is_ok()).then_some(place)
}

/// The flag byte, as its place in `ODD_FLAGS`, where it alone makes one entry alone one that check 5 forbids.
pub fn odd_flag(card: &[u8]) -> Option<usize> {
    let geometry = Geometry::from_header(card).ok()?;
    let read = |bytes: &[u8; 16]| read_entry(card[VERSION_AT], bytes, geometry.data_blocks, geometry.disk_blocks);
    let entries = card.get(geometry.entry_at(0)..geometry.block_at(0))?.chunks_exact(16);
    let mut refused = entries.map(|entry| <[u8; 16]>::try_from(entry).unwrap()).filter(|entry| read(entry).is_err());
    let (Some(mut entry), None) = (refused.next(), refused.next()) else { return None };
    let place = ODD_FLAGS.iter().position(|flag| *flag == entry[0])?;
    entry[0] = 0x80;
    read(&entry).is_ok().then_some(place)
}

/// What a commit saves over.
#[derive(Clone, Copy, Debug, PartialEq, Eq)]
pub enum Over {
    Modified,
    Clean,
    Absent,
}

pub const OVERS: [Over; 3] = [Over::Modified, Over::Clean, Over::Absent];

fn over(card: &Card, number: u64) -> Over {
    match card.entry_for(number).and_then(|index| card.entries[index]) {
        Some(entry) if entry.modified => Over::Modified,
        Some(_) => Over::Clean,
        None => Over::Absent,
    }
}

/// What a recovery owes after a commit of today that was cut, and of a pending save: the entries that were there, and no others, each at its
/// place with its number, its current block and whether it is modified. Evictions that a room-making commit had finished stay.
#[derive(Clone, Debug)]
pub struct Owed {
    /// The commit, or put where there was none, as its place in `CALLS`.
    pub call: usize,
    pub overs: Vec<Over>,
    entries: Vec<Option<(u64, u32, bool)>>,
}

fn told(card: &Card) -> Vec<Option<(u64, u32, bool)>> {
    card.entries.iter().map(|entry| entry.map(|entry| (entry.number, entry.current, entry.modified))).collect()
}

impl Owed {
    pub fn new(call: usize, before: Card, evicted: &[usize], numbers: &[u64]) -> Owed {
        let (overs, mut entries) = (numbers.iter().map(|number| over(&before, *number)).collect(), told(&before));
        evicted.iter().for_each(|index| entries[*index] = None);
        Owed { call, overs, entries }
    }

    /// One more put of the save, on the card that it found.
    pub fn saves_over(&mut self, found: &Card, number: u64) {
        self.overs.push(over(found, number));
    }

    pub fn is_paid(&self, after: &Card) -> Result<(), String> {
        let found = told(after);
        match (0..found.len()).find(|index| found[*index] != self.entries[*index]) {
            Some(index) => Err(format!("entry {index} comes back as {:?}, and was {:?}", found[index], self.entries[index])),
            None => Ok(()),
        }
    }
}

/// What a call does that refuses old cards: nothing, and it says 1.
fn refuses_old(pair: &mut Pair, geometry: Geometry) -> Result<(), String> {
    let (before, data) = (pair.snapshot(), data_of(3, 1, geometry.block()));
    let answers = [
        pair.commit(&[0], &data, Pick::Zeros, u64::MAX)?,
        pair.commit_making_room(&[0], &data, Pick::Zeros, u64::MAX)?,
        pair.preview(&[0], &data, Output::Whole)?,
        pair.load(0, Pick::Zeros, u64::MAX)?,
        pair.evict(0, Pick::Zeros, u64::MAX)?,
        pair.put(0, &data, Pick::Zeros, u64::MAX)?,
        pair.finish(u64::MAX)?,
    ];
    let opened = pair.open()?;
    if answers != [Answer::Refused(1); 7] || opened != Opened::Refused(1) || pair.snapshot() != before {
        return Err(format!("an old card is not refused with 1, or changed: {answers:?}, {opened:?}"));
    }
    Ok(())
}

/// What an upgrade must answer.
fn awaited(settled: bool, allowance: u64) -> Answer {
    match (settled, allowance) {
        (false, _) => Answer::Refused(7),
        (true, 0) => Answer::Cut,
        (true, _) => Answer::Done(1),
    }
}

/// Upgrades of one card, with none, one and more stores allowed: of a settled one the row is held before and after.
fn every_allowance(pair: &mut Pair, blocks: u64, row: &Row) -> Result<(), String> {
    let (from, settled) = (pair.snapshot(), pair.is_settled()?);
    for allowance in [0, 1, 2, u64::MAX] {
        pair.set(&from);
        let answer = pair.upgrade(allowance)?;
        if answer != awaited(settled, allowance) {
            return Err(format!("upgrade of a card, settled {settled}, at allowance {allowance}: {answer:?}"));
        }
        if settled {
            all_hold(pair, blocks, row)?;
        }
    }
    pair.set(&from);
    Ok(())
}

/// Part h: a station of before, the model, makes the script, each step cut at every allowance but inside the words of a block, where every
/// stride-th is tried. What it leaves is refused by today's calls, recovered at every allowance, upgraded and gone on with.
pub fn every_upgrade<'a>(
    one: &'a dyn Calls,
    other: &'a dyn Calls,
    geometry: Geometry,
    script: &[Step],
    blocks: u64,
    stride: u64,
) -> Result<Tally, String> {
    let (seed, model) = (31, Model::old());
    let mut past = Pair::old(&model, &model, &vec![0; geometry.card_length()], &first_disk(seed, geometry), 1);
    let mut pair = Pair::new(one, other, &[], &[], 3);
    let mut row = Row::new(seed, geometry);
    done(past.format(geometry.k, geometry.slots, geometry.data_blocks, geometry.disk_blocks)?)?;
    for step in script {
        let before = past.snapshot();
        let m = make_in_full(&mut past, geometry, step, &mut row.clone())?;
        for allowance in (0..=m).filter(|allowance| !is_inside(geometry, *allowance, m) || allowance % stride == 0) {
            past.set(&before);
            let (pick, mut after) = (PICKS[allowance as usize % PICKS.len()], row.clone());
            let answer = make(&mut past, geometry, step, pick, allowance, &mut after)?;
            pair.set(&past.snapshot());
            let found = found_old(&mut pair, geometry, blocks, step, answer, after);
            found.map_err(|difference| format!("{step:?} of before, choice {pick:?}, allowance {allowance}: {difference}"))?;
        }
        past.set(&before);
        make_in_full(&mut past, geometry, step, &mut row)?;
    }
    Ok(pair.tally)
}

/// An old card as a step left it.
fn found_old(pair: &mut Pair, geometry: Geometry, blocks: u64, step: &Step, answer: Answer, mut row: Row) -> Result<(), String> {
    as_left(pair, geometry, blocks, &row)?;
    refuses_old(pair, geometry)?;
    every_allowance(pair, blocks, &row)?;
    every_recovery(pair, blocks, &mut row)?;
    every_allowance(pair, blocks, &row)?;
    done(pair.upgrade(1)?)?;
    if pair.upgrade(u64::MAX)? != Answer::Refused(1) {
        return Err("an upgraded card is upgraded again".to_string());
    }
    goes_on(pair, geometry, blocks, step, answer, &mut row)
}

/// Part i: a random past of a station of before, the model, two times in three up to a cut; then today's calls on what it left, with upgrades
/// anywhere among them; the rule is asked after each call.
pub fn across<'a>(one: &'a dyn Calls, other: &'a dyn Calls, geometry: Geometry, calls: u64, seed: u64) -> Result<Tally, String> {
    let (mut random, model) = (Random(mix(seed)), Model::old());
    let mut card = vec![0; geometry.card_length()];
    random.fill(&mut card);
    let mut past = Pair::old(&model, &model, &card, &first_disk(seed, geometry), 0);
    let mut row = Row::new(seed, geometry);
    done(past.format(geometry.k, geometry.slots, geometry.data_blocks, geometry.disk_blocks)?)?;
    let (least, to_a_cut) = (random.below(calls), !random.once_in(3));
    for turn in 0..calls {
        if turn >= least && past.is_settled()? != to_a_cut {
            break;
        }
        some_call(&mut past, &mut random, geometry, &mut row)?;
    }
    let mut pair = Pair::new(one, other, &[], &[], (seed % 8) as usize);
    pair.set(&past.snapshot());
    keeps_rule(&mut pair, geometry, &row)?;
    for _ in 0..calls {
        match random.below(6) {
            0 if pair.is_old() => drop(pair.upgrade(random.pick(&[0, 0, 1, u64::MAX]))?),
            1 if pair.is_old() => some_recoveries(&mut pair, &mut random, &mut row)?,
            _ => some_call(&mut pair, &mut random, geometry, &mut row)?,
        }
        keeps_rule(&mut pair, geometry, &row)?;
    }
    Ok(pair.tally)
}

/// The rule after a list of calls: a settled card has the row; a recovery is not refused, and leaves a settled card that has the row too. The
/// card is then set back.
pub fn keeps_rule(pair: &mut Pair, geometry: Geometry, row: &Row) -> Result<(), String> {
    if pair.is_settled()? {
        all_hold(pair, geometry.disk_blocks, row)?;
    }
    let before = pair.snapshot();
    done(pair.recover(u64::MAX)?)?;
    if !pair.is_settled()? {
        return Err("not settled after a recovery that answered done".to_string());
    }
    all_hold(pair, geometry.disk_blocks, row)?;
    pair.set(&before);
    Ok(())
}

#[cfg(test)]
mod tests {
    use super::*;
    use crate::drive::{put, script, some_card};
    use crate::ffi::Library;
    use crate::model::{ascending, map_of, Slip, Store};
    use crate::room::room_script;
    use crate::{Cached, FreeMap, Place, State};

    const SMALL: Geometry = Geometry { k: 9, slots: 8, data_blocks: 4, disk_blocks: 6 };
    const ZEROS: &[u8] = &[0; 64];

    /// A card of the version, made by the model, over a disk of nines: block 3 saved in entry 0 and data block 0, block 1 loaded in entry 1 and
    /// data block 1.
    fn used(version: u8) -> (Vec<u8>, Vec<u8>) {
        let model = Model::of(version);
        let (mut card, disk) = (vec![0; SMALL.card_length()], vec![9; SMALL.disk_length()]);
        assert_eq!(model.format(SMALL.k, SMALL.slots, SMALL.data_blocks, SMALL.disk_blocks, &mut card), Answer::Done(0));
        assert_eq!(card[VERSION_AT], version);
        let mut map = map_of(&card);
        assert_eq!(model.commit(&mut card, &mut map, &[3], &[7; 512], ZEROS, u64::MAX), Answer::Done(69));
        assert_eq!(model.load(&mut card, &disk, &mut map, &mut ascending(), 1, ZEROS, u64::MAX), Answer::Done(65));
        (card, disk)
    }

    /// A save of blocks 3 and 1 on such a card, cut after so many stores.
    fn cut(version: u8, allowance: u64) -> (Vec<u8>, Vec<u8>) {
        let (mut card, disk) = used(version);
        let mut map = map_of(&card);
        let model = Model::of(version);
        assert_eq!(model.commit(&mut card, &mut map, &[3, 1], &[6; 1024], ZEROS, allowance), Answer::Cut);
        (card, disk)
    }

    /// The first eight bytes, as one number, of the first two entries.
    fn entries(card: &[u8]) -> [u64; 2] {
        [0, 1].map(|index| u64::from_be_bytes(card[SMALL.entry_at(index)..SMALL.entry_at(index) + 8].try_into().unwrap()))
    }

    fn flagged(flags: [u64; 2]) -> [u64; 2] {
        [flags[0] << 56 | 3, flags[1] << 56 | 1]
    }

    /// By hand, k 9: entries 3 and 1 are stored as 65th and 132nd store, switched as 135th and 136th.
    #[test]
    fn flags_of_a_cut_save() {
        for (version, stages) in [
            (OLD, [(64, [0x82, 0x80]), (65, [0x83, 0x80]), (132, [0x83, 0x83]), (135, [0x82, 0x83]), (136, [0x82, 0x82])]),
            (NOW, [(64, [0x82, 0x80]), (65, [0x87, 0x80]), (132, [0x87, 0x83]), (135, [0x86, 0x83]), (136, [0x86, 0x82])]),
        ] {
            for (allowance, flags) in stages {
                assert_eq!(entries(&cut(version, allowance).0), flagged(flags), "version {version}, allowance {allowance}");
            }
        }
    }

    /// By hand: an old card comes back with both blocks modified, and one of today as they were; then a clean block has one store to be
    /// evicted, and none on the disk.
    #[test]
    fn recoveries_by_hand() {
        for calls in [&Model::default() as &dyn Calls, &Library] {
            for (version, back, stores) in [(OLD, [0x82, 0x82], [2, 2]), (NOW, [0x86, 0x80], [2, 1])] {
                for allowance in [132, 133, 134, 135, 136] {
                    let (mut card, mut disk) = cut(version, allowance);
                    let mut map = calls.fresh_map(&card);
                    assert_eq!(calls.recover(&mut card, &mut map, u64::MAX), Answer::Done(3));
                    assert_eq!(entries(&card), flagged(back));
                    assert_eq!(calls.recover(&mut card, &mut map, u64::MAX), Answer::Done(0));
                    if version == OLD {
                        assert_eq!(calls.upgrade(&mut card, 1), Answer::Done(1));
                        assert_eq!(entries(&card), flagged(back));
                    }
                    let state = State::Settled { geometry: SMALL, in_use: 2, modified: stores.iter().map(|stores| stores - 1).sum() };
                    assert_eq!(calls.state(&card), state);
                    for (number, count) in [3, 1].into_iter().zip(stores) {
                        disk[number as usize * 512..][..512].fill(4);
                        assert_eq!(calls.evict(&mut card, &mut disk, &mut map, number, ZEROS, u64::MAX), Answer::Done(count));
                        let written = if number == 3 { 7 } else { 9 };
                        assert_eq!(disk[number as usize * 512], if count == 2 { written } else { 4 });
                    }
                }
            }
        }
    }

    /// By hand: the one store, done and cut; the header's other bytes stay.
    #[test]
    fn an_upgrade_by_hand() {
        let (card, disk) = used(OLD);
        assert_eq!(Model::default().upgrade_list(&card), Ok(vec![Store::Word(0, [0, 0, 0, 64, 2, 9, 0, 8])]));
        for calls in [&Model::default() as &dyn Calls, &Library] {
            let mut upgraded = card.clone();
            assert_eq!(calls.upgrade(&mut upgraded, 0), Answer::Cut);
            assert_eq!(upgraded, card);
            for allowance in [1, 2, u64::MAX] {
                let mut again = card.clone();
                assert_eq!(calls.upgrade(&mut again, allowance), Answer::Done(1));
                assert_eq!((&again[..4], again[4], &again[5..]), (&card[..4], 2, &card[5..]));
                upgraded = again;
            }
            let mut out = [0; 512];
            assert!(matches!(calls.read(&upgraded, &disk, &mut ascending(), 3, &mut out), Place::Card(..)));
            assert_eq!((out[0], calls.upgrade(&mut upgraded, 1)), (7, Answer::Refused(1)));
            // a save over the old entries then tells them apart
            let mut map = calls.fresh_map(&upgraded);
            assert_eq!(calls.commit(&mut upgraded, &mut map, &[3, 1], &[6; 1024], ZEROS, 132), Answer::Cut);
            assert_eq!(entries(&upgraded), flagged([0x87, 0x83]));
        }
    }

    /// Damage of an old card, each with the refusal of an upgrade: two at once, the lower number.
    #[test]
    fn refusals_of_an_upgrade() {
        let damages: [(u32, usize, &[u8]); 12] = [
            (1, 4, &[2]),
            (1, 4, &[0]),
            (1, 4, &[3]),
            (1, 4, &[255]),
            (1, 63, &[1]),
            (2, 5, &[10]),
            (4, 71, &[8]),
            (4, 72, &[255]),
            (5, SMALL.entry_at(0), &[0x86]),
            (5, SMALL.entry_at(1), &[0x84]),
            (6, SMALL.entry_at(1) + 7, &[3]),
            (7, SMALL.entry_at(0), &[0x83]),
        ];
        for calls in [&Model::default() as &dyn Calls, &Library] {
            for (i, (number, at, bytes)) in damages.iter().enumerate() {
                for (other, other_at, other_bytes) in &damages[i..] {
                    let (mut card, _) = used(OLD);
                    put(&mut card, *other_at, other_bytes);
                    put(&mut card, *at, bytes);
                    let before = card.clone();
                    for allowance in [0, 1, u64::MAX] {
                        assert_eq!(calls.upgrade(&mut card, allowance), Answer::Refused(*number), "{at} and {other_at}, {other}");
                    }
                    assert_eq!(card, before);
                }
            }
            for length in [0, 1, 5, 127] {
                assert_eq!(calls.upgrade(&mut vec![0; length], 1), Answer::Refused(1));
            }
            let (card, _) = used(OLD);
            assert_eq!(calls.upgrade(&mut card[..2303].to_vec(), 1), Answer::Refused(2));
            assert_eq!(calls.upgrade(&mut [&card[..], &[0]].concat(), 1), Answer::Refused(2));
        }
    }

    /// Every call on an old card, settled and not: refused with 1 and nothing changed, but for the three that take it.
    #[test]
    fn old_cards_are_refused() {
        for calls in [&Model::default() as &dyn Calls, &Library] {
            for (card, mut disk) in [used(OLD), cut(OLD, 132)] {
                let (mut after, before) = (card.clone(), disk.clone());
                let FreeMap::Made(map) = calls.make_map(&card) else { panic!("no map of an old card") };
                let (mut lent, mut table, mut out, mut blocks) = (map, ascending(), [5; 512], [5]);
                let refused = [
                    calls.commit(&mut after, &mut lent, &[5], &[6; 512], ZEROS, u64::MAX),
                    calls.commit_making_room(&mut after, &mut disk, &mut lent, &mut table, &[5], &[6; 512], ZEROS, u64::MAX),
                    calls.preview(&mut after, &mut lent, &mut [5], &mut [6; 512], &mut blocks),
                    calls.load(&mut after, &disk, &mut lent, &mut table, 5, ZEROS, u64::MAX),
                    calls.evict(&mut after, &mut disk, &mut lent, 3, ZEROS, u64::MAX),
                ];
                assert_eq!(refused, [Answer::Refused(1); 5]);
                assert_eq!(calls.read(&card, &disk, &mut table, 3, &mut out), Place::Refused(1));
                assert_eq!(calls.look(&card, &disk, 3), Place::Refused(1));
                assert_eq!(calls.state(&card), State::Refused(1));
                assert_eq!(calls.cached(&card, 0), Cached::Refused(1));
                assert_eq!((after, disk, lent, table, out, blocks), (card, before, map, ascending(), [5; 512], [5]));
            }
            for version in [0, 3, 4, 128, 255] {
                let (mut card, _) = used(NOW);
                card[VERSION_AT] = version;
                assert_eq!((calls.make_map(&card), calls.state(&card)), (FreeMap::Refused(1), State::Refused(1)));
                assert_eq!(calls.recover(&mut card, &mut [0; 2], u64::MAX), Answer::Refused(1));
                assert_eq!(calls.upgrade(&mut card, u64::MAX), Answer::Refused(1));
            }
        }
    }

    /// A station of before takes its own cards alone, and its format writes them.
    #[test]
    fn a_station_of_before() {
        let (model, (card, disk), (new, _)) = (Model::old(), used(OLD), used(NOW));
        let mut out = [0; 512];
        assert!(matches!(model.read(&card, &disk, &mut ascending(), 3, &mut out), Place::Card(..)));
        assert_eq!((out[0], model.read(&new, &disk, &mut ascending(), 3, &mut out)), (7, Place::Refused(1)));
        assert_eq!((model.make_map(&new), model.make_map(&card)), (FreeMap::Refused(1), FreeMap::Made(map_of(&card))));
        assert_eq!(model.recover(&mut new.clone(), &mut map_of(&new), u64::MAX), Answer::Refused(1));
    }

    #[test]
    fn what_is_odd_alone() {
        let (card, _) = used(NOW);
        let with = |at: usize, byte: u8| {
            let mut card = card.clone();
            card[at] = byte;
            card
        };
        assert_eq!(odd_version(&card, &[OLD]), Some(2));
        assert_eq!(odd_version(&card, &[OLD, NOW]), None);
        assert_eq!(
            [0, 1, 3, 4, 255].map(|version| odd_version(&with(VERSION_AT, version), &[NOW])),
            [Some(0), Some(1), Some(3), None, Some(4)]
        );
        assert_eq!(odd_version(&card[..128], &[OLD]), None);
        let (first, second) = (SMALL.entry_at(0), SMALL.entry_at(1));
        assert_eq!(
            [0x81, 0x84, 0x85, 0x86, 0x88, 0x7F].map(|flag| odd_flag(&with(first, flag))),
            [Some(0), Some(1), Some(2), None, None, None]
        );
        assert_eq!(
            [0x86, 0x87].map(|flag| {
                let mut card = with(second, flag);
                card[VERSION_AT] = OLD;
                odd_flag(&card)
            }),
            [Some(3), Some(4)]
        );
        // two entries, or something else of the entry
        let (mut two, mut more) = (with(first, 0x84), with(first, 0x84));
        two[second] = 0x81;
        more[first + 7] = 6;
        assert_eq!((odd_flag(&two), odd_flag(&more)), (None, None));
    }

    /// An entry that comes back with another number, block or flag, or does not, is told.
    #[test]
    fn what_is_owed_is_asked_for() {
        let open = |card: &[u8]| Card::open(card, None).unwrap();
        let (card, _) = used(NOW);
        let owed = Owed::new(1, open(&card), &[], &[3, 1, 5]);
        assert_eq!(owed.overs, OVERS);
        assert!(owed.is_paid(&open(&card)).is_ok());
        // the previous block and P are no part of it
        for (at, byte, paid) in [(0, 0x86, true), (11, 2, true), (0, 0x80, false), (7, 4, false), (15, 2, false)] {
            let mut other = card.clone();
            other[SMALL.entry_at(0) + at] = byte;
            if at == 11 {
                other[SMALL.entry_at(0) + 8..SMALL.entry_at(0) + 11].fill(0);
            }
            assert_eq!(owed.is_paid(&open(&other)).is_ok(), paid, "{at}");
        }
        let mut gone = card.clone();
        gone[SMALL.entry_at(1)..SMALL.entry_at(2)].fill(0);
        assert!(owed.is_paid(&open(&gone)).is_err());
        assert!(Owed::new(1, open(&card), &[1], &[3]).is_paid(&open(&gone)).is_ok());
        assert!(Owed::new(1, open(&card), &[1], &[3]).is_paid(&open(&card)).is_err());
    }

    /// The row sees a slip that loses a block of an old card, and the answers an upgrade that should not be, without a second model.
    #[test]
    fn the_histories_see_wrong_upgrades() {
        for slip in [
            Slip::OldUndoneAsNew,
            Slip::NewUpgraded,
            Slip::UpgradeUnsettled,
            Slip::UpgradeFree,
            Slip::UpgradeUncounted,
            Slip::UpgradeUnmade,
            Slip::UpgradeClearsSlots,
            Slip::UpgradeSetsP,
        ] {
            let wrong = Model::wrong(slip);
            assert!(every_upgrade(&wrong, &wrong, SMALL, &script(), 6, 64).is_err(), "{slip:?}");
        }
        for slip in [Slip::OldUndoneAsNew, Slip::CleanUndo, Slip::WindowAlone, Slip::ModifiedUndo] {
            let wrong = Model::wrong(slip);
            assert!((0..40).any(|seed| across(&wrong, &wrong, SMALL, 100, seed).is_err()), "{slip:?}");
        }
    }

    /// Old cards of the scripts and of random pasts come upon all that they can: settled and not, recovered in full and in part.
    #[test]
    fn pasts_reach_what_they_should() {
        let model = Model::default();
        for script in [script(), room_script()] {
            let tally = every_upgrade(&model, &model, SMALL, &script, 6, 64).unwrap();
            assert!(tally.old.iter().flatten().sum::<u64>() > 1000, "{:?}", tally.old);
        }
        let (mut unsettled, mut with_both) = (0, 0);
        let mut random = Random(12);
        for _ in 0..300 {
            let card = Card::open(&some_card(&mut random, SMALL, OLD).card, None).unwrap();
            assert_eq!(card.version, OLD);
            unsettled += u64::from(!card.settled());
            with_both += u64::from(card.in_use().any(|entry| entry.modified) && card.in_use().any(|entry| !entry.modified));
        }
        assert!(unsettled > 30 && with_both > 30, "{unsettled} {with_both}");
    }
}
