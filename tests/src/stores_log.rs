//! The log that the shim keeps of a program's calls on files, and what must stand in it: recovery's stores in their
//! order, each by one pwrite, each durable before the next. A store that went in part is made once more, whole.

use crate::model::Store;

/// The file that all stores must go to.
pub const CARD: &str = "card.img";

/// What becomes of a recovery at store `j`, counted from 1: its process ends, a call fails, or the store goes in part:
/// once, twice, or before it fails.
#[derive(Clone, Copy, Debug, PartialEq, Eq)]
pub enum Stop {
    Before(usize),
    After(usize),
    Synced(usize),
    FailedStore(usize),
    FailedSync(usize),
    Short(usize),
    ShortTwice(usize),
    ShortFailed(usize),
}

impl Stop {
    pub const KINDS: [fn(usize) -> Stop; 8] = [
        Stop::Before,
        Stop::After,
        Stop::Synced,
        Stop::FailedStore,
        Stop::FailedSync,
        Stop::Short,
        Stop::ShortTwice,
        Stop::ShortFailed,
    ];

    /// The environment variables that tell the shim so. A store made once more is the next pwrite.
    pub fn variables(&self) -> Vec<(&'static str, String)> {
        match self {
            Stop::Before(j) => vec![("SHIM_END", format!("before:{j}"))],
            Stop::After(j) => vec![("SHIM_END", format!("after:{j}"))],
            Stop::Synced(j) => vec![("SHIM_END", format!("synced:{j}"))],
            Stop::FailedStore(j) => vec![("SHIM_FAIL", format!("pwrite:{j}"))],
            Stop::FailedSync(j) => vec![("SHIM_FAIL", format!("fdatasync:{j}"))],
            Stop::Short(j) => vec![("SHIM_SHORT", format!("pwrite:{j}"))],
            Stop::ShortTwice(j) => vec![("SHIM_SHORT", format!("pwrite:{j},{}", j + 1))],
            Stop::ShortFailed(j) => {
                vec![("SHIM_SHORT", format!("pwrite:{j}")), ("SHIM_FAIL", format!("pwrite:{}", j + 1))]
            }
        }
    }

    /// Whether the process ends there.
    pub fn ends(&self) -> bool {
        matches!(self, Stop::Before(_) | Stop::After(_) | Stop::Synced(_))
    }

    /// Whether the recovery goes on as if nothing had happened.
    pub fn goes_on(&self) -> bool {
        matches!(self, Stop::Short(_))
    }

    /// The stores, of a list of `count`, whose bytes are in the file whole.
    pub fn in_file(&self, count: usize) -> usize {
        match self {
            Stop::Before(j) | Stop::FailedStore(j) | Stop::ShortTwice(j) | Stop::ShortFailed(j) => j - 1,
            Stop::After(j) | Stop::Synced(j) | Stop::FailedSync(j) => *j,
            Stop::Short(_) => count,
        }
    }

    /// The store of which only the first half is in the file.
    pub fn half_in_file(&self) -> Option<usize> {
        match self {
            Stop::ShortTwice(j) | Stop::ShortFailed(j) => Some(*j),
            _ => None,
        }
    }

    /// The stores, of a list of `count`, that the program knows to be durable.
    pub fn durable(&self, count: usize) -> usize {
        match self {
            Stop::After(j) | Stop::FailedSync(j) => j - 1,
            _ => self.in_file(count),
        }
    }
}

/// The line of a store of which so many bytes were written, or -1.
fn store_line(store: &Store, result: i64) -> String {
    let (_, at, bytes) = store.unit();
    let hex: String = bytes.iter().map(|byte| format!("{byte:02X}")).collect();
    format!("pwrite {CARD} {at} {hex} {result}")
}

fn whole_line(store: &Store) -> String {
    store_line(store, store.unit().2.len() as i64)
}

fn half_line(store: &Store) -> String {
    store_line(store, store.unit().2.len() as i64 / 2)
}

fn sync_line(result: i64) -> String {
    format!("fdatasync {CARD} {result}")
}

/// The log of these stores, made in full.
pub fn in_full(list: &[Store]) -> Vec<String> {
    list.iter().flat_map(|store| [whole_line(store), sync_line(0)]).collect()
}

/// The log of a recovery that is stopped, or goes on after a store that went in part.
pub fn stopped(list: &[Store], stop: Stop) -> Vec<String> {
    let before = |j: usize| in_full(&list[..j - 1]);
    let (log, last) = match stop {
        Stop::Before(j) => (before(j), vec![]),
        Stop::After(j) => (before(j), vec![whole_line(&list[j - 1])]),
        Stop::Synced(j) => (in_full(&list[..j]), vec![]),
        Stop::FailedStore(j) => (before(j), vec![store_line(&list[j - 1], -1)]),
        Stop::FailedSync(j) => (before(j), vec![whole_line(&list[j - 1]), sync_line(-1)]),
        Stop::Short(j) => (before(j), [vec![half_line(&list[j - 1])], in_full(&list[j - 1..])].concat()),
        Stop::ShortTwice(j) => (before(j), vec![half_line(&list[j - 1]); 2]),
        Stop::ShortFailed(j) => (before(j), vec![half_line(&list[j - 1]), store_line(&list[j - 1], -1)]),
    };
    [log, last].concat()
}

/// Whether the log is the one that should be; the first difference if not.
pub fn same_log(found: &[String], wanted: &[String]) -> Result<(), String> {
    for line in 0..found.len().max(wanted.len()) {
        let (found, wanted) = (found.get(line), wanted.get(line));
        if found != wanted {
            return Err(format!("line {} of the log is {found:?}, not {wanted:?}", line + 1));
        }
    }
    Ok(())
}

#[cfg(test)]
mod tests {
    use super::*;

    fn list() -> Vec<Store> {
        vec![Store::Entry(192, [0; 16]), Store::Entry(208, [0x82; 16]), Store::Word(72, 2u64.to_be_bytes())]
    }

    #[test]
    fn a_log_in_full() {
        let log = in_full(&list()[1..]);
        let wanted = [
            "pwrite card.img 208 82828282828282828282828282828282 16",
            "fdatasync card.img 0",
            "pwrite card.img 72 0000000000000002 8",
            "fdatasync card.img 0",
        ];
        assert_eq!(log, wanted);
    }

    /// What a wrong program's log might be: each is reported.
    #[test]
    fn a_wrong_log_is_seen() {
        let right = in_full(&list());
        let changed = |change: &dyn Fn(&mut Vec<String>)| {
            let mut log = right.clone();
            change(&mut log);
            same_log(&log, &right).is_err()
        };
        assert!(same_log(&right, &right).is_ok());
        assert!(changed(&|log| drop(log.remove(1))), "not durable before the next");
        assert!(changed(&|log| log.swap(1, 2)), "durable together");
        assert!(changed(&|log| drop(log.drain(2..4))), "a store left out");
        assert!(changed(&|log| drop(log.split_off(4))), "Tail left where it was");
        assert!(changed(&|log| log.rotate_right(2)), "Tail first");
        assert!(changed(&|log| log.extend(log[4..].to_vec())), "a store made twice");
        assert!(changed(&|log| log[0] = log[0].replace("192", "193")), "another place");
        assert!(changed(&|log| log[2] = log[2].replace("8282 ", "8280 ")), "other bytes");
        assert!(changed(&|log| log[0] = log[0].replace(CARD, "disk.img")), "another file");
        assert!(changed(&|log| log.push("ftruncate card.img 0 0".to_string())), "another call");
        assert!(changed(&|log| log[1] = "fsync card.img 0".to_string()), "another way to make it durable");
    }

    /// No two ways to stop at a store leave the same log, but an end after a sync and one before the next store.
    #[test]
    fn each_stop_has_its_log() {
        for (i, kind) in Stop::KINDS.iter().enumerate() {
            for other in &Stop::KINDS[..i] {
                assert_ne!(stopped(&list(), kind(2)), stopped(&list(), other(2)));
            }
        }
        assert_eq!(stopped(&list(), Stop::Synced(1)), stopped(&list(), Stop::Before(2)));
        assert_eq!(stopped(&list(), Stop::Synced(3)), in_full(&list()));
    }

    /// A store that went in part is made again before it is made durable, and the rest follows.
    #[test]
    fn a_store_in_part_is_made_again() {
        let wanted = [
            "pwrite card.img 208 82828282828282828282828282828282 8",
            "pwrite card.img 208 82828282828282828282828282828282 16",
            "fdatasync card.img 0",
            "pwrite card.img 72 0000000000000002 8",
            "fdatasync card.img 0",
        ];
        assert_eq!(stopped(&list()[1..], Stop::Short(1)), wanted);
        let wanted = ["pwrite card.img 72 0000000000000002 4", "pwrite card.img 72 0000000000000002 4"];
        assert_eq!(stopped(&list()[2..], Stop::ShortTwice(1)), wanted);
        let wanted = ["pwrite card.img 72 0000000000000002 4", "pwrite card.img 72 0000000000000002 -1"];
        assert_eq!(stopped(&list()[2..], Stop::ShortFailed(1)), wanted);
    }

    /// What a stop leaves in the file and what its log says fit together.
    #[test]
    fn stores_in_the_file_are_in_the_log() {
        for kind in Stop::KINDS {
            let (stop, log) = (kind(2), stopped(&list(), kind(2)));
            let whole = list().iter().filter(|store| log.contains(&whole_line(store))).count();
            let half = list().iter().position(|store| log.contains(&half_line(store)));
            let synced = log.iter().filter(|line| **line == sync_line(0)).count();
            assert_eq!((stop.in_file(3), stop.durable(3)), (whole, synced), "{stop:?}");
            assert_eq!(stop.half_in_file(), half.filter(|_| whole < 3).map(|at| at + 1), "{stop:?}");
        }
    }
}
