//! Bounded recovery: the stores of all recoveries after a cut commit, or in a pending save, are summed and held to document 02's bound, and two
//! recoveries in a row to the one that they make up.

use crate::model::{NOW, OLD};
use crate::{Answer, Calls, FreeMap};

/// A storing call, as far as the stores of the recoveries behind it depend on it.
#[derive(Clone, Copy, Debug, PartialEq, Eq)]
pub enum Storing {
    Format,
    /// A commit of so many blocks, and one that makes room.
    Commit(u64),
    Room(u64),
    Load,
    Evict,
    /// A put whose record counts so many blocks.
    Put(u64),
    Finish,
    /// A recovery of that allowance: its stores are all single, so a cut one has made as many.
    Recover(u64),
    Upgrade,
}

/// How the bound is reckoned: as document 02 has it, or wrongly. The calls by hand must tell each wrong one.
#[derive(Clone, Copy, Debug, Default, PartialEq, Eq)]
pub enum Rule {
    #[default]
    Right,
    /// n, without Tail's store; n + 2.
    WithoutTail,
    OneMore,
    /// What cut recoveries store is not counted; each recovery is held to the bound alone.
    CutUncounted,
    EachAlone,
    /// A refused recovery counts with its allowance; a refused commit begins anew.
    RefusedCounted,
    RefusedBegins,
    /// A cut load or evict leaves as much as a cut commit of one block.
    LoadAsCommit,
    /// A cut put does not count; nor do the blocks of the cut commit that puts go on with; they count where puts do not go on with them too.
    CutPutUncounted,
    WithoutCutCommit,
    CutCommitKept,
    /// A cut finish, or a cut recovery, ends the save; a done recovery does not.
    CutFinishEnds,
    CutRecoveryEnds,
    RecoveryKeeps,
}

/// What a series of recoveries follows: a call that was cut, or a put that was done.
#[derive(Clone, Copy, Debug, PartialEq, Eq)]
pub enum After {
    CutCommit,
    CutRoom,
    CutLoad,
    CutEvict,
    Put,
    CutPut,
    CutFinish,
}

pub const AFTERS: [After; 7] =
    [After::CutCommit, After::CutRoom, After::CutLoad, After::CutEvict, After::Put, After::CutPut, After::CutFinish];

impl After {
    fn of(storing: Storing, is_done: bool) -> Option<After> {
        match (storing, is_done) {
            (Storing::Commit(_), false) => Some(After::CutCommit),
            (Storing::Room(_), false) => Some(After::CutRoom),
            (Storing::Load, false) => Some(After::CutLoad),
            (Storing::Evict, false) => Some(After::CutEvict),
            (Storing::Put(_), true) => Some(After::Put),
            (Storing::Put(_), false) => Some(After::CutPut),
            (Storing::Finish, false) => Some(After::CutFinish),
            _ => None,
        }
    }

    fn name(self) -> &'static str {
        match self {
            After::CutCommit => "a cut commit",
            After::CutRoom => "a cut room-making commit",
            After::CutLoad => "a cut load",
            After::CutEvict => "a cut evict",
            After::Put => "a put",
            After::CutPut => "a cut put",
            After::CutFinish => "a cut finish",
        }
    }
}

/// The recoveries since the last other storing call. Refused calls are none.
#[derive(Clone, Copy, Debug, Default, PartialEq, Eq)]
pub struct Series {
    after: Option<After>,
    recoveries: u64,
    cut: u64,
    stores: u64,
    /// The last of them made the last store that the bound allows.
    at_bound: bool,
}

impl Series {
    pub fn has_cut(&self) -> bool {
        self.cut > 0
    }
}

/// The bound on the stores of recoveries. It is fed each storing call of a history with its answer, and nothing of card or disk.
#[derive(Clone, Copy, Debug, Default, PartialEq, Eq)]
pub struct Bound {
    /// The blocks of the cut commit and the puts that were begun since the card was last settled. None where the calls that left the card are not
    /// known.
    begun: Option<u64>,
    /// The stores of the recoveries since then.
    made: u64,
    series: Series,
    rule: Rule,
}

impl Bound {
    pub fn is_known(&self) -> bool {
        self.begun.is_some()
    }

    pub fn series(&self) -> Series {
        self.series
    }

    /// How many stores all recoveries together may make.
    fn most(&self) -> Option<u64> {
        let besides = match self.rule {
            Rule::WithoutTail => 0,
            Rule::OneMore => 2,
            _ => 1,
        };
        self.begun.map(|begun| if begun == 0 { 0 } else { begun + besides })
    }

    fn begin(&mut self, blocks: u64) {
        self.begun = Some(blocks);
        self.made = 0;
    }

    /// An error where recoveries have made more stores than the bound.
    pub fn feed(&mut self, storing: Storing, answer: Answer) -> Result<(), String> {
        let is_done = match answer {
            Answer::Done(_) => true,
            Answer::Cut => false,
            _ => return self.feed_refused(storing),
        };
        match (storing, answer) {
            (Storing::Recover(_), Answer::Done(stores)) => return self.feed_recovery(stores, true),
            (Storing::Recover(allowance), _) => return self.feed_recovery(allowance, false),
            // of a settled card alone
            (Storing::Upgrade, _) => return Ok(()),
            (Storing::Commit(blocks) | Storing::Room(blocks), Answer::Cut) => self.begin(blocks),
            (Storing::Load | Storing::Evict, Answer::Cut) if self.rule == Rule::LoadAsCommit => self.begin(1),
            (Storing::Put(count), _) => self.feed_put(count, is_done),
            (Storing::Finish, Answer::Cut) if self.rule != Rule::CutFinishEnds => {}
            _ => self.begin(0),
        }
        self.series = Series { after: After::of(storing, is_done), ..Series::default() };
        Ok(())
    }

    fn feed_refused(&mut self, storing: Storing) -> Result<(), String> {
        match (storing, self.rule) {
            (Storing::Recover(allowance), Rule::RefusedCounted) => self.feed_recovery(allowance, false)?,
            (Storing::Commit(blocks), Rule::RefusedBegins) => self.begin(blocks),
            _ => {}
        }
        Ok(())
    }

    fn feed_put(&mut self, count: u64, is_done: bool) {
        let after_commit = matches!(self.series.after, Some(After::CutCommit | After::CutRoom));
        let on_settled = match self.rule {
            Rule::WithoutCutCommit => count == 0 || after_commit,
            Rule::CutCommitKept => count == 0 && !after_commit,
            _ => count == 0,
        };
        if on_settled {
            self.begin(0);
        }
        let counts = is_done || self.rule != Rule::CutPutUncounted;
        self.begun = self.begun.map(|begun| begun + u64::from(counts));
    }

    fn feed_recovery(&mut self, stores: u64, is_done: bool) -> Result<(), String> {
        self.made = match self.rule {
            Rule::CutUncounted if !is_done => self.made,
            Rule::EachAlone => stores,
            _ => self.made.saturating_add(stores),
        };
        self.series.recoveries += 1;
        self.series.cut += u64::from(!is_done);
        self.series.stores += stores;
        self.series.at_bound = stores > 0 && self.most() == Some(self.made);
        if let Some(most) = self.most().filter(|most| self.made > *most) {
            return Err(format!("{} stores of recoveries together, and the bound is {most}", self.made));
        }
        let ends = match self.rule {
            Rule::RecoveryKeeps => false,
            Rule::CutRecoveryEnds => true,
            _ => is_done,
        };
        if ends {
            self.begin(0);
        }
        Ok(())
    }
}

/// How many of what the series of recoveries came upon.
#[derive(Clone, Default, Debug)]
pub struct Recoveries {
    /// Series of two recoveries or more by what they follow, on today's cards and on old ones.
    pub series: [[u64; AFTERS.len()]; 2],
    /// The most recoveries of a series, and the most stores.
    pub longest: u64,
    pub most: u64,
    /// Series that made as many stores as the bound allows.
    pub at_bound: u64,
    /// Recoveries in a series that were cut, and that were refused.
    pub cut: u64,
    pub refused: u64,
    /// Recoveries that were made once more in two: both cut, the second done, the first done.
    pub in_two: [u64; 3],
}

impl Recoveries {
    pub fn add(&mut self, other: &Recoveries) {
        let more = |counts: &mut [u64], others: &[u64]| counts.iter_mut().zip(others).for_each(|(count, other)| *count += other);
        (0..2).for_each(|old| more(&mut self.series[old], &other.series[old]));
        more(&mut self.in_two, &other.in_two);
        self.longest = self.longest.max(other.longest);
        self.most = self.most.max(other.most);
        self.at_bound += other.at_bound;
        self.cut += other.cut;
        self.refused += other.refused;
    }

    /// Counts the last recovery of a series, or one that was refused in it.
    pub fn count(&mut self, series: Series, answer: Answer, is_old: bool) {
        let Some(after) = series.after else { return };
        match answer {
            Answer::Refused(_) => self.refused += 1,
            _ => {
                self.series[usize::from(is_old)][after as usize] += u64::from(series.recoveries == 2);
                self.longest = self.longest.max(series.recoveries);
                self.most = self.most.max(series.stores);
                self.at_bound += u64::from(series.at_bound && series.recoveries > 1);
                self.cut += u64::from(answer == Answer::Cut);
            }
        }
    }

    pub fn all_series(&self) -> u64 {
        self.series.iter().flatten().sum()
    }

    /// One line: series by what they follow, the largest of them, recoveries that were cut and refused, those made in two.
    pub fn line(&self) -> String {
        let sum = |counts: &[u64]| counts.iter().sum::<u64>();
        let by = |place: usize| sum(&self.series.map(|counts| counts[place]));
        let after: Vec<String> = AFTERS.iter().map(|after| format!("{} after {}", by(*after as usize), after.name())).collect();
        format!(
            "{} series, {} of them of old cards: {}; at most {} recoveries and {} stores in one, {} with as many stores as the bound allows; {} \
             recoveries cut, {} refused; {} made once more in two",
            self.all_series(),
            sum(&self.series[1]),
            after.join(", "),
            self.longest,
            self.most,
            self.at_bound,
            self.cut,
            self.refused,
            sum(&self.in_two)
        )
    }

    /// An error where there are fewer of anything.
    pub fn at_least(&self, least: u64) -> Result<(), String> {
        for (version, counts) in [NOW, OLD].iter().zip(&self.series) {
            if let Some((after, count)) = AFTERS.iter().zip(counts).find(|(_, count)| **count < least) {
                return Err(format!("{count} series of recoveries after {}, cards of version {version}", after.name()));
            }
        }
        let others = [("at the bound", self.at_bound), ("cut", self.cut), ("refused", self.refused)];
        let in_two = self.in_two.map(|count| ("made in two", count));
        match others.iter().chain(&in_two).find(|(_, count)| *count < least) {
            Some((what, count)) => Err(format!("{count} recoveries {what}")),
            None => Ok(()),
        }
    }
}

/// What a recovery left, and the stores that it made.
struct Left {
    card: Vec<u8>,
    map: [u64; 2],
    is_done: bool,
    stores: u64,
}

/// A recovery of a copy of the card, with the map that it gives.
fn left(calls: &dyn Calls, card: &[u8], allowance: u64) -> Result<Left, String> {
    let FreeMap::Made(mut map) = calls.make_map(card) else { return Err("a card of a history gives no map".to_string()) };
    let mut card = card.to_vec();
    let (is_done, stores) = match calls.recover(&mut card, &mut map, allowance) {
        Answer::Done(stores) => (true, stores),
        Answer::Cut => (false, allowance),
        other => return Err(format!("a recovery with the card's map: {other:?}")),
    };
    Ok(Left { card, map, is_done, stores })
}

/// Two recoveries in a row, each with the map that its card gives, leave what one with both allowances together leaves, and make as many stores:
/// what a cut one leaves to the next is the rest of its list. Gives how many of the two were done.
pub fn in_two(calls: &dyn Calls, card: &[u8], [first, second]: [u64; 2]) -> Result<usize, String> {
    let once = left(calls, card, first)?;
    let twice = left(calls, &once.card, second)?;
    let whole = left(calls, card, first.saturating_add(second))?;
    // a cut one hands back the map of the card that it found
    let same_map = twice.map == whole.map || !whole.is_done;
    if twice.card != whole.card || !same_map || twice.is_done != whole.is_done || once.stores + twice.stores != whole.stores {
        return Err(format!("recoveries of {first} and {second} stores in a row leave something else than one of both"));
    }
    Ok(usize::from(once.is_done) + usize::from(twice.is_done))
}

/// A recovery of this card makes no store.
pub fn leaves_nothing(calls: &dyn Calls, card: &[u8]) -> Result<(), String> {
    let next = left(calls, card, u64::MAX)?;
    if next.stores != 0 || next.card != card {
        return Err(format!("{} stores are left to the next recovery", next.stores));
    }
    Ok(())
}

#[cfg(test)]
mod tests {
    use super::Storing::*;
    use super::*;
    use crate::choices::Pick;
    use crate::drive::{first_disk, make, make_in_full, Pair, Row, Snapshot, Step};
    use crate::ffi::Library;
    use crate::model::{Model, Slip};
    use crate::Geometry;
    use Answer::{Cut, Done, Refused};

    const SMALL: Geometry = Geometry { k: 9, slots: 8, data_blocks: 4, disk_blocks: 6 };
    const ALL: u64 = u64::MAX;

    const WRONG_RULES: [Rule; 13] = [
        Rule::WithoutTail,
        Rule::OneMore,
        Rule::CutUncounted,
        Rule::EachAlone,
        Rule::RefusedCounted,
        Rule::RefusedBegins,
        Rule::LoadAsCommit,
        Rule::CutPutUncounted,
        Rule::WithoutCutCommit,
        Rule::CutCommitKept,
        Rule::CutFinishEnds,
        Rule::CutRecoveryEnds,
        Rule::RecoveryKeeps,
    ];

    /// By hand from document 02: calls on a fresh card, and the place of the one at which recoveries have made too many stores, if there is one.
    const BY_HAND: [(&[(Storing, Answer)], Option<usize>); 21] = [
        (&[(Commit(2), Cut), (Recover(1), Cut), (Recover(0), Cut), (Recover(2), Done(2)), (Recover(ALL), Done(0))], None),
        (&[(Room(2), Cut), (Recover(1), Cut), (Recover(1), Cut), (Recover(1), Cut), (Recover(1), Cut)], Some(4)),
        (&[(Commit(2), Cut), (Recover(3), Cut), (Recover(ALL), Done(1))], Some(2)),
        (&[(Commit(2), Cut), (Recover(ALL), Done(1)), (Recover(ALL), Done(1))], Some(2)),
        (&[(Commit(3), Done(205)), (Recover(ALL), Done(1))], Some(1)),
        (&[(Commit(1), Cut), (Recover(5), Refused(15)), (Recover(ALL), Done(2))], None),
        (&[(Commit(1), Cut), (Recover(2), Cut), (Commit(3), Refused(7)), (Recover(1), Cut)], Some(3)),
        (&[(Load, Cut), (Recover(ALL), Done(0)), (Evict, Cut), (Recover(0), Done(0))], None),
        (&[(Load, Cut), (Recover(ALL), Done(1))], Some(1)),
        (&[(Evict, Cut), (Recover(1), Cut)], Some(1)),
        (&[(Put(0), Done(67)), (Put(1), Cut), (Recover(ALL), Done(3))], None),
        (&[(Put(0), Done(67)), (Put(1), Refused(14)), (Recover(ALL), Done(3))], Some(2)),
        (&[(Put(0), Done(67)), (Put(1), Done(67)), (Finish, Cut), (Recover(1), Cut), (Recover(ALL), Done(2))], None),
        (&[(Put(0), Done(67)), (Finish, Done(2)), (Recover(ALL), Done(1))], Some(2)),
        // the first recovery undoes the put that was cut, and the save goes on
        (&[(Put(0), Done(67)), (Put(1), Cut), (Recover(1), Cut), (Put(1), Done(67)), (Recover(ALL), Done(3))], None),
        (&[(Put(0), Done(67)), (Put(1), Cut), (Recover(1), Cut), (Put(1), Done(67)), (Recover(ALL), Done(4))], Some(4)),
        // puts go on with the blocks of a cut commit, or begin on the settled card that it left
        (&[(Commit(2), Cut), (Put(2), Done(67)), (Recover(ALL), Done(4))], None),
        (&[(Room(2), Cut), (Put(1), Done(67)), (Finish, Done(3)), (Put(0), Cut), (Recover(ALL), Done(3))], Some(4)),
        (&[(Commit(2), Cut), (Put(0), Done(67)), (Recover(ALL), Done(3))], Some(2)),
        (&[(Commit(1), Cut), (Upgrade, Refused(7)), (Recover(ALL), Done(2))], None),
        (&[(Commit(1), Cut), (Recover(ALL), Done(2)), (Upgrade, Done(1)), (Recover(ALL), Done(1))], Some(3)),
    ];

    fn told(mut bound: Bound, calls: &[(Storing, Answer)]) -> Option<usize> {
        calls.iter().position(|(storing, answer)| bound.feed(*storing, *answer).is_err())
    }

    fn fresh(rule: Rule) -> Bound {
        let mut bound = Bound { rule, ..Bound::default() };
        bound.feed(Format, Done(0)).unwrap();
        bound
    }

    #[test]
    fn the_bound_by_hand() {
        for (calls, place) in BY_HAND {
            assert_eq!(told(fresh(Rule::Right), calls), place, "{calls:?}");
        }
        // what a card from elsewhere needs is not known before it is recovered
        assert_eq!(told(Bound::default(), &[(Recover(5), Cut), (Put(3), Cut), (Recover(ALL), Done(9)), (Recover(ALL), Done(1))]), Some(3));
    }

    #[test]
    fn a_wrong_rule_is_reported() {
        for rule in WRONG_RULES {
            assert!(BY_HAND.iter().any(|(calls, place)| told(fresh(rule), calls) != *place), "{rule:?}");
        }
    }

    /// A card of the version after these steps, the last of them cut.
    fn cut_at(version: u8, steps: &[Step], allowance: u64) -> Snapshot {
        let (model, card, disk) = (Model::of(version), vec![0; SMALL.card_length()], first_disk(1, SMALL));
        let mut pair = if version == OLD { Pair::old(&model, &model, &card, &disk, 0) } else { Pair::new(&model, &model, &card, &disk, 0) };
        let (mut row, (last, before)) = (Row::new(1, SMALL), steps.split_last().unwrap());
        assert_eq!(pair.format(SMALL.k, SMALL.slots, SMALL.data_blocks, SMALL.disk_blocks), Ok(Done(0)));
        before.iter().for_each(|step| assert!(make_in_full(&mut pair, SMALL, step, &mut row).is_ok()));
        assert_eq!(make(&mut pair, SMALL, last, Pick::Zeros, allowance, &mut row), Ok(Cut));
        pair.snapshot()
    }

    /// Blocks 3 and 1, one modified and one clean before, in a save that is cut.
    fn cut_save(version: u8, allowance: u64) -> Snapshot {
        cut_at(version, &[Step::Commit(vec![3], 1), Step::Load(1), Step::Commit(vec![3, 1], 2)], allowance)
    }

    /// What recoveries of these allowances answer, each with the map that its card gives, or what the bound says of them.
    fn answers(calls: &dyn Calls, at: &Snapshot, allowances: &[u64]) -> Result<Vec<Answer>, String> {
        let (mut card, mut bound) = (at.card.clone(), at.bound);
        let mut answer = |allowance: &u64| {
            let mut map = calls.fresh_map(&card);
            let answer = calls.recover(&mut card, &mut map, *allowance);
            bound.feed(Recover(*allowance), answer).map(|_| answer)
        };
        allowances.iter().map(&mut answer).collect()
    }

    /// By hand, k 9: the save's entries are stored as 65th and 132nd store, switched as 135th and 136th; Tail is the 137th.
    #[test]
    fn recoveries_by_hand() {
        for calls in [&Model::NOW as &dyn Calls, &Library] {
            for version in [OLD, NOW] {
                let after = |allowance: u64, allowances: &[u64]| answers(calls, &cut_save(version, allowance), allowances).unwrap();
                for allowance in [132, 134, 135, 136] {
                    assert_eq!(after(allowance, &[0, 1, 1, 1, 1]), [Cut, Cut, Cut, Done(1), Done(0)]);
                    assert_eq!(after(allowance, &[2, 0, 2, 0]), [Cut, Cut, Done(1), Done(0)]);
                    assert_eq!(after(allowance, &[ALL, ALL]), [Done(3), Done(0)]);
                }
                assert_eq!(after(67, &[0, 1, 0, 1]), [Cut, Cut, Cut, Done(1)]);
                assert_eq!(after(65, &[0, 1, 1]), [Cut, Done(1), Done(0)]);
                assert_eq!(after(64, &[0, 1, ALL]), [Done(0); 3]);
                for (step, allowance) in [(Step::Load(2), 64), (Step::Evict(3), 1)] {
                    let at = cut_at(version, &[Step::Commit(vec![3], 1), step], allowance);
                    assert_eq!(answers(calls, &at, &[0, 1, ALL]).unwrap(), [Done(0); 3]);
                }
                let at = cut_at(version, &[Step::Open, Step::Put(3, 1), Step::Put(1, 2), Step::Finish], 1);
                assert_eq!(answers(calls, &at, &[1, 1, 0, 1, 1]).unwrap(), [Cut, Cut, Cut, Done(1), Done(0)]);
            }
        }
    }

    /// As above, each split of its recovery into two.
    #[test]
    fn two_in_a_row_by_hand() {
        for calls in [&Model::NOW as &dyn Calls, &Library] {
            for (version, allowance) in [(OLD, 132), (OLD, 136), (NOW, 132), (NOW, 136)] {
                let at = cut_save(version, allowance);
                for [first, second] in (0..5).flat_map(|first| (0..5).map(move |second| [first, second])) {
                    let dones = usize::from(first >= 3) + usize::from(first + second >= 3);
                    assert_eq!(in_two(calls, &at.card, [first, second]), Ok(dones), "{first} {second}");
                }
                assert!(leaves_nothing(calls, &at.card).is_err());
            }
        }
    }

    /// The sum of their stores shows recoveries that start again, without a second model; so it does those that undo more than they have to.
    #[test]
    fn the_bound_sees_wrong_recoveries() {
        for slip in [Slip::UndoneFlipped, Slip::UndoneStoredAgain, Slip::UnchangedCounted] {
            let error = answers(&Model::wrong(slip), &cut_save(NOW, 136), &[1; 4]).unwrap_err();
            assert!(error.ends_with("the bound is 3"), "{slip:?}: {error}");
        }
        let at = cut_at(NOW, &[Step::Commit(vec![5], 1), Step::Commit(vec![5], 2), Step::Commit(vec![3], 3)], 68);
        assert_eq!(answers(&Model::NOW, &at, &[ALL]), Ok(vec![Done(2)]));
        let error = answers(&Model::wrong(Slip::EveryEntryUndone), &at, &[ALL]).unwrap_err();
        assert!(error.ends_with("the bound is 2"), "{error}");
    }

    /// Two in a row show recoveries that do not go on where the first was cut.
    #[test]
    fn two_in_a_row_see_wrong_recoveries() {
        for slip in [Slip::UndoneFlipped, Slip::UndoneStoredAgain, Slip::UnchangedCounted, Slip::RecoveryTailFirst] {
            assert!(in_two(&Model::wrong(slip), &cut_save(NOW, 136).card, [2, 1]).is_err(), "{slip:?}");
        }
    }

    #[test]
    fn too_few_are_reported() {
        let whole = Recoveries { series: [[5; AFTERS.len()]; 2], longest: 5, most: 5, at_bound: 5, cut: 5, refused: 5, in_two: [5; 3] };
        assert!(whole.at_least(5).is_ok() && whole.at_least(6).is_err());
        let reported = |change: &dyn Fn(&mut Recoveries)| {
            let mut fewer = whole.clone();
            change(&mut fewer);
            assert!(fewer.at_least(5).is_err());
        };
        (0..AFTERS.len()).for_each(|after| (0..2).for_each(|old| reported(&|fewer| fewer.series[old][after] = 4)));
        (0..3).for_each(|kind| reported(&|fewer| fewer.in_two[kind] = 4));
        reported(&|fewer| fewer.at_bound = 4);
        reported(&|fewer| fewer.cut = 4);
        reported(&|fewer| fewer.refused = 4);
    }
}
