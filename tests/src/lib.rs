//! What holds the library to documents 01 and 02 by running it: a separate model, the calls of the C interface, and a driver that makes
//! each call on both and compares all that they leave.

pub mod bounded;
pub mod choices;
pub mod drive;
pub mod ffi;
pub mod histories;
pub mod mapped;
pub mod model;
pub mod pending;
pub mod random;
pub mod records;
pub mod room;
pub mod scratch;
pub mod series;
pub mod shown;
pub mod stages;
pub mod stores_log;
pub mod tables;
pub mod versions;

pub use model::{Answer, Cached, FreeMap, Geometry, Opened, Place, State};

/// The calls of the interface. The library is one implementation, the model another.
pub trait Calls {
    fn format(&self, k: u64, slots: u64, data_blocks: u64, disk_blocks: u64, card: &mut [u8]) -> Answer;
    fn commit(&self, card: &mut [u8], map: &mut [u64], numbers: &[u64], data: &[u8], choice: &[u8], allowance: u64) -> Answer;
    /// In the header all but `blocks` is const. Here all is lent for writing, so that a preview that writes to it is seen.
    fn preview(&self, card: &mut [u8], map: &mut [u64], numbers: &mut [u64], data: &mut [u8], blocks: &mut [u32]) -> Answer;
    fn commit_making_room(
        &self,
        card: &mut [u8],
        disk: &mut [u8],
        map: &mut [u64],
        table: &mut [u8],
        numbers: &[u64],
        data: &[u8],
        choice: &[u8],
        allowance: u64,
    ) -> Answer;
    fn load(&self, card: &mut [u8], disk: &[u8], map: &mut [u64], table: &mut [u8], block: u64, choice: &[u8], allowance: u64)
        -> Answer;
    fn evict(&self, card: &mut [u8], disk: &mut [u8], map: &mut [u64], block: u64, choice: &[u8], allowance: u64) -> Answer;
    fn recover(&self, card: &mut [u8], map: &mut [u64], allowance: u64) -> Answer;
    fn open(&self, card: &[u8]) -> Opened;
    fn put(
        &self,
        card: &mut [u8],
        map: &mut [u64],
        record: &mut [u64],
        block: u64,
        data: &[u8],
        choice: &[u8],
        allowance: u64,
    ) -> Answer;
    /// In the header the record is const. Here it is lent for writing, so that a finish that writes to it is seen.
    fn finish(&self, card: &mut [u8], map: &mut [u64], record: &mut [u64], allowance: u64) -> Answer;
    fn upgrade(&self, card: &mut [u8], allowance: u64) -> Answer;
    fn read(&self, card: &[u8], disk: &[u8], table: &mut [u8], block: u64, out: &mut [u8]) -> Place;
    fn look(&self, card: &[u8], disk: &[u8], block: u64) -> Place;
    fn state(&self, card: &[u8]) -> State;
    fn cached(&self, card: &[u8], place: u64) -> Cached;
    fn make_map(&self, card: &[u8]) -> FreeMap;
    fn free_count(&self, low: u64, high: u64) -> u64;

    /// The map of a card that is not refused, as a station makes it when it starts and after a cut.
    fn fresh_map(&self, card: &[u8]) -> [u64; 2] {
        match self.make_map(card) {
            FreeMap::Made(map) => map,
            other => panic!("no map is made: {other:?}"),
        }
    }
}
