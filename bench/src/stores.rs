//! LMDB and libpmemobj on memory-backed files, each where the build found it: a save is one transaction of theirs.

#![cfg_attr(not(any(lmdb, pmemobj)), allow(dead_code, unused_macros))]

use std::ffi::{c_char, c_int, c_void, CString};
use std::os::unix::process::CommandExt;
use std::process::Command;

type Blocks = unsafe extern "C" fn(store: *mut c_void, numbers: *const u64, n: usize, data: *const u8) -> c_int;

pub struct Kind {
    pub name: &'static str,
    open: unsafe extern "C" fn(path: *const c_char, block: usize) -> *mut c_void,
    save: Blocks,
    holds: Blocks,
    close: unsafe extern "C" fn(store: *mut c_void),
}

macro_rules! kind {
    ($name:literal, $open:ident, $save:ident, $holds:ident, $close:ident) => {{
        extern "C" {
            fn $open(path: *const c_char, block: usize) -> *mut c_void;
            fn $save(store: *mut c_void, numbers: *const u64, n: usize, data: *const u8) -> c_int;
            fn $holds(store: *mut c_void, numbers: *const u64, n: usize, data: *const u8) -> c_int;
            fn $close(store: *mut c_void);
        }
        Kind { name: $name, open: $open, save: $save, holds: $holds, close: $close }
    }};
}

pub const KINDS: &[Kind] = &[
    #[cfg(lmdb)]
    kind!("LMDB", bench_lmdb_open, bench_lmdb_save, bench_lmdb_holds, bench_lmdb_close),
    #[cfg(pmemobj)]
    kind!("libpmemobj", bench_pmemobj_open, bench_pmemobj_save, bench_pmemobj_holds, bench_pmemobj_close),
];

pub struct Store {
    kind: &'static Kind,
    raw: *mut c_void,
    block: usize,
}

impl Store {
    /// A store that holds a block under each of the numbers.
    pub fn filled(kind: &'static Kind, block: usize, numbers: &[u64]) -> Store {
        let path = CString::new(format!("/dev/shm/bench_{}_{}", kind.name, std::process::id())).unwrap();
        let raw = unsafe { (kind.open)(path.as_ptr(), block) };
        assert!(!raw.is_null(), "{} does not open {path:?}", kind.name);
        let mut store = Store { kind, raw, block };
        store.save(numbers, &vec![1; numbers.len() * block]);
        store
    }

    pub fn save(&mut self, numbers: &[u64], data: &[u8]) {
        assert_eq!(data.len(), numbers.len() * self.block);
        let saved = unsafe { (self.kind.save)(self.raw, numbers.as_ptr(), numbers.len(), data.as_ptr()) };
        assert_eq!(saved, 1, "{} does not save", self.kind.name);
    }

    pub fn check(&self, numbers: &[u64], data: &[u8]) {
        let holds = unsafe { (self.kind.holds)(self.raw, numbers.as_ptr(), numbers.len(), data.as_ptr()) };
        assert_eq!(holds, 1, "{} does not hold what was saved", self.kind.name);
    }
}

impl Drop for Store {
    fn drop(&mut self) {
        unsafe { (self.kind.close)(self.raw) }
    }
}

/// libpmemobj asks at its start whether to take any mapping for persistent memory: starts again with the answer.
pub fn persistent() {
    let flag = "PMEM_IS_PMEM_FORCE";
    if cfg!(pmemobj) && std::env::var_os(flag).is_none() {
        let program = std::env::current_exe().unwrap();
        panic!("{}", Command::new(program).args(std::env::args_os().skip(1)).env(flag, "1").exec());
    }
}
