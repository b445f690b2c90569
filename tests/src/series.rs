//! Series of recoveries that are cut themselves, each after a call that was cut or in a pending save, and histories made of them.

use crate::bounded::{After, AFTERS};
use crate::choices::{Pick, PICKS};
use crate::drive::{done, first_disk, make, make_in_full, some_call, some_number, Pair, Row, Step, Tally};
use crate::histories::{cached, cut_place, evicting_stores, some_numbers, some_numbers_making_room};
use crate::model::{commit_stores, Card, Model, OLD};
use crate::pending::make_room;
use crate::random::{mix, Random};
use crate::versions::keeps_rule;
use crate::{Answer, Calls, Geometry};

/// Recoveries in a row, most of them cut after a few stores: with the map that the card gives or, at times, with that of before the last call, as
/// of a station that does not make it again.
pub fn some_recoveries(pair: &mut Pair, random: &mut Random, row: &mut Row) -> Result<(), String> {
    for _ in 0..2 + random.below(5) {
        let allowance = random.pick(&[0, 1, 1, 1, 2, 2, 3, u64::MAX]);
        let answer = if random.once_in(4) { pair.recover_stale(allowance)? } else { pair.recover(allowance)? };
        row.recover(answer);
    }
    Ok(())
}

/// Some blocks that a commit which makes no room, or the puts of a save, find data blocks for.
fn some_to_save(random: &mut Random, geometry: Geometry, card: &[u8]) -> Vec<u64> {
    let free = Card::open(card, None).map_or(0, |card| card.free_blocks().len());
    some_numbers(random, geometry, card, free as u64)
}

/// The last call before a series of recoveries, on a settled card with room for a block, and its allowance: it is cut anywhere, mostly where it
/// stores something else than words. Of a pending save the calls before it are made.
fn last_call(pair: &mut Pair, random: &mut Random, geometry: Geometry, after: After, row: &mut Row) -> Result<(Step, u64), String> {
    let (card, words, seed) = (Card::open(pair.card(), None), geometry.block() as u64 / 8, random.next());
    let card = card.map_err(|number| format!("a settled card is refused with {number}"))?;
    Ok(match after {
        After::CutCommit => {
            let numbers = some_to_save(random, geometry, pair.card());
            let (n, anywhere) = (numbers.len() as u64, random.once_in(4));
            let place = if anywhere { random.below(commit_stores(n, 8 * words)) } else { cut_place(random, geometry, n) };
            (Step::Commit(numbers, seed), place)
        }
        After::CutRoom => {
            let numbers = some_numbers_making_room(random, geometry, pair.card(), geometry.data_blocks);
            let (n, evicting) = (numbers.len() as u64, evicting_stores(&Model::of(card.version), &pair.snapshot(), &numbers)?);
            let place = if random.once_in(4) { random.below(evicting + 1) } else { evicting + cut_place(random, geometry, n) };
            (Step::Room(numbers, seed), place)
        }
        After::CutLoad => {
            let number = some_number(random, geometry);
            if card.entry_for(number).is_some() {
                make_in_full(pair, geometry, &Step::Evict(number), row)?;
            }
            (Step::Load(number), random.below(words + 1))
        }
        After::CutEvict => {
            let number = cached(random, geometry, pair.card());
            if card.entry_for(number).is_none() {
                make_in_full(pair, geometry, &Step::Load(number), row)?;
            }
            let modified = card.in_use().any(|entry| entry.number == number && entry.modified);
            (Step::Evict(number), if modified { random.below(words / 64 + 1) } else { 0 })
        }
        After::Put | After::CutPut | After::CutFinish => {
            let numbers = some_to_save(random, geometry, pair.card());
            let (last, before) = numbers.split_last().ok_or("no room for a put")?;
            make_in_full(pair, geometry, &Step::Open, row)?;
            for number in before {
                make_in_full(pair, geometry, &Step::Put(*number, random.next()), row)?;
            }
            let put = Step::Put(*last, seed);
            match after {
                After::Put => (put, u64::MAX),
                After::CutPut => (put, if random.once_in(4) { random.below(words) } else { words + random.below(3) }),
                _ => {
                    make_in_full(pair, geometry, &put, row)?;
                    (Step::Finish, random.below(numbers.len() as u64 + 1))
                }
            }
        }
    })
}

/// Some calls, a recovery in full, and the call that a series of recoveries is to follow.
fn lead_to(pair: &mut Pair, random: &mut Random, geometry: Geometry, after: After, row: &mut Row) -> Result<(), String> {
    for _ in 0..random.below(6) {
        some_call(pair, random, geometry, row)?;
    }
    let answer = pair.recover(u64::MAX)?;
    row.recover(answer);
    done(answer)?;
    // so that some saves are over a clean block
    if random.once_in(2) {
        pair.load(some_number(random, geometry), Pick::Zeros, u64::MAX)?;
    }
    let most = (geometry.slots - 1).min(geometry.data_blocks / 2).min(geometry.disk_blocks);
    make_room(pair, 1 + random.below(most) as usize)?;
    let (step, allowance) = last_call(pair, random, geometry, after, row)?;
    let answer = make(pair, geometry, &step, random.pick(&PICKS), allowance, row)?;
    if (answer == Answer::Cut) == (after == After::Put) {
        return Err(format!("{step:?}, allowance {allowance}: {answer:?}"));
    }
    Ok(())
}

/// Part n: a history in which series of recoveries follow each kind of call; the rule is asked after each series. An old card is brought there by
/// a station of before, the model, and recovered by both implementations.
pub fn history_of_series<'a>(
    one: &'a dyn Calls,
    other: &'a dyn Calls,
    geometry: Geometry,
    version: u8,
    count: usize,
    seed: u64,
) -> Result<Tally, String> {
    let (mut random, model) = (Random(mix(seed)), Model::old());
    let (card, disk) = (vec![0; geometry.card_length()], first_disk(seed, geometry));
    let mut pair = Pair::new(one, other, &card, &disk, (seed % 8) as usize);
    let mut past = Pair::old(&model, &model, &card, &disk, 0);
    let mut row = Row::new(seed, geometry);
    let is_old = version == OLD;
    let first = if is_old { &mut past } else { &mut pair };
    done(first.format(geometry.k, geometry.slots, geometry.data_blocks, geometry.disk_blocks)?)?;
    for turn in 0..count {
        let leading = if is_old { &mut past } else { &mut pair };
        lead_to(leading, &mut random, geometry, AFTERS[turn % AFTERS.len()], &mut row)?;
        if is_old {
            pair.set(&past.snapshot());
        }
        some_recoveries(&mut pair, &mut random, &mut row)?;
        keeps_rule(&mut pair, geometry, &row)?;
        if is_old {
            past.set(&pair.snapshot());
        }
    }
    Ok(pair.tally)
}

#[cfg(test)]
mod tests {
    use super::*;
    use crate::drive::{random_history, Reckoning};
    use crate::model::{Slip, NOW};
    use crate::pending::pending_history;
    use crate::versions::across;

    const SMALL: Geometry = Geometry { k: 9, slots: 8, data_blocks: 4, disk_blocks: 6 };

    /// The bound, or two recoveries in a row, show them in every kind of history without a second model.
    #[test]
    fn the_histories_see_wrong_recoveries() {
        let told = |error: &str| error.contains("the bound is") || error.contains("in a row leave");
        for slip in [Slip::UndoneFlipped, Slip::UndoneStoredAgain, Slip::RecoveryTailFirst, Slip::EveryEntryUndone] {
            let wrong = Model::wrong(slip);
            let histories: [&dyn Fn(u64) -> Result<Tally, String>; 4] = [
                &|seed| random_history(&wrong, &wrong, SMALL, 1000, seed),
                &|seed| pending_history(&wrong, &wrong, SMALL, 200, seed, Reckoning::Right),
                &|seed| across(&wrong, &wrong, SMALL, 100, seed),
                &|seed| history_of_series(&wrong, &wrong, SMALL, NOW, 70, seed),
            ];
            for (place, history) in histories.iter().enumerate() {
                assert!((0..20).any(|seed| history(seed).is_err_and(|error| told(&error))), "{slip:?} in history {place}");
            }
        }
    }
}
