//! Files in memory, and what station and killer both know of them.

use crate::model::TABLE;
use crate::random::{mix, Random};
use std::fs::OpenOptions;
use std::io;
use std::os::fd::AsRawFd;
use std::path::Path;

extern "C" {
    fn mmap(at: *mut u8, length: usize, protection: i32, flags: i32, file: i32, offset: i64) -> *mut u8;
    fn munmap(at: *mut u8, length: usize) -> i32;
}

/// A file mapped so that every process that maps it sees the same bytes, and they outlive the process.
pub struct Mapped {
    at: *mut u8,
    length: usize,
}

impl Mapped {
    /// Makes the file as long as asked, if it is not.
    pub fn open(path: &Path, length: usize) -> io::Result<Mapped> {
        let file = OpenOptions::new().read(true).write(true).create(true).truncate(false).open(path)?;
        file.set_len(length as u64)?;
        const READ_WRITE: i32 = 1 | 2;
        const SHARED: i32 = 1;
        let at = unsafe { mmap(std::ptr::null_mut(), length, READ_WRITE, SHARED, file.as_raw_fd(), 0) };
        if at as isize == -1 {
            return Err(io::Error::last_os_error());
        }
        Ok(Mapped { at, length })
    }

    pub fn bytes(&self) -> &[u8] {
        unsafe { std::slice::from_raw_parts(self.at, self.length) }
    }

    pub fn bytes_mut(&mut self) -> &mut [u8] {
        unsafe { std::slice::from_raw_parts_mut(self.at, self.length) }
    }

    /// One number, read or written whole.
    pub fn number(&self, index: usize) -> u64 {
        assert!(8 * index + 8 <= self.length);
        unsafe { std::ptr::read_volatile((self.at as *const u64).add(index)) }
    }

    pub fn set_number(&mut self, index: usize, value: u64) {
        assert!(8 * index + 8 <= self.length);
        std::sync::atomic::fence(std::sync::atomic::Ordering::SeqCst);
        unsafe { std::ptr::write_volatile((self.at as *mut u64).add(index), value) };
        std::sync::atomic::fence(std::sync::atomic::Ordering::SeqCst);
    }
}

impl Drop for Mapped {
    fn drop(&mut self) {
        unsafe { munmap(self.at, self.length) };
    }
}

/// The station's card and its saves: each save is of one group, and writes all its blocks.
pub const K: u64 = 9;
pub const SLOTS: u64 = 16;
pub const DATA_BLOCKS: u64 = 16;
pub const DISK_BLOCKS: u64 = 24;
pub const BLOCK: usize = 512;
pub const CARD: usize = 128 + 8 * 16 + 16 * 16 + 16 * 512;
pub const DISK: usize = 24 * 512;
pub const GROUPS: u64 = 5;
pub const SIZES: [u64; 5] = [1, 2, 3, 4, 6];

/// The numbers of a group's blocks: the groups lie one after the other on the disk, the last one backward.
pub fn numbers(group: u64) -> Vec<u64> {
    let from: u64 = SIZES[..group as usize].iter().sum();
    let all: Vec<u64> = (from..from + SIZES[group as usize]).collect();
    if group == GROUPS - 1 {
        all.into_iter().rev().collect()
    } else {
        all
    }
}

/// The notes, 8 bytes each: the last save that was acknowledged, the last of each group, the save that was begun last; then the
/// storing call or preview under way (0 none) with its block or group.
pub const ACKNOWLEDGED: usize = 0;
pub const BEGUN: usize = 1 + GROUPS as usize;
pub const CALL: usize = BEGUN + 1;
pub const ARGUMENT: usize = BEGUN + 2;
pub const NOTES: usize = 8 * (BEGUN + 3);
/// What a call found: card, disk and the station's table.
pub const BEFORE: usize = CARD + DISK + TABLE;
pub const COMMIT: u64 = 1;
pub const LOAD: u64 = 2;
pub const EVICT: u64 = 3;
pub const PREVIEW: u64 = 4;
pub const ROOM: u64 = 5;
pub const UPGRADE: u64 = 6;

/// What a save writes.
pub fn saved(sequence: u64, group: u64) -> Vec<u8> {
    numbers(group).iter().flat_map(|number| block(sequence, *number)).collect()
}

/// A block of a save: its sequence number, its number, filling, and a checksum over all before.
pub fn block(sequence: u64, number: u64) -> [u8; BLOCK] {
    let mut bytes = [0; BLOCK];
    Random(mix(sequence) ^ number).fill(&mut bytes);
    bytes[0..8].copy_from_slice(&sequence.to_be_bytes());
    bytes[8..16].copy_from_slice(&number.to_be_bytes());
    let sum = checksum(&bytes[..BLOCK - 8]);
    bytes[BLOCK - 8..].copy_from_slice(&sum.to_be_bytes());
    bytes
}

pub fn checksum(bytes: &[u8]) -> u64 {
    bytes.chunks_exact(8).fold(1, |sum, word| mix(sum ^ u64::from_le_bytes(word.try_into().unwrap())))
}

/// The sequence number of a whole block; a block of zeros was never saved.
pub fn sequence_of(bytes: &[u8], number: u64) -> Result<u64, String> {
    if bytes.iter().all(|byte| *byte == 0) {
        return Ok(0);
    }
    let sum = u64::from_be_bytes(bytes[BLOCK - 8..].try_into().unwrap());
    let sequence = u64::from_be_bytes(bytes[0..8].try_into().unwrap());
    if sum != checksum(&bytes[..BLOCK - 8]) || bytes != block(sequence, number) {
        return Err(format!("block {number} is torn (it says save {sequence})"));
    }
    Ok(sequence)
}
