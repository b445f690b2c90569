//! Commit as one would write it without proofs: the same checks, answers, stores and map, in one pass with marks.

#[derive(Clone, Copy, Debug, PartialEq, Eq)]
pub enum Answer {
    Done(u64),
    Cut,
    Refused(u32),
}

const EMPTY: u32 = u32::MAX;
const FRESH: u32 = u32::MAX;

/// Numbers below 65,536 in a table of open addresses; at most 128 + 255 of them in 512 places.
struct Marks {
    keys: [u32; 512],
    entries: [u8; 512],
}

impl Marks {
    /// The place of the number, or the empty one where it goes.
    #[inline]
    fn place(&self, number: u32) -> usize {
        let mut at = (number.wrapping_mul(0x9E37_79B1) >> 23) as usize;
        while self.keys[at] != EMPTY && self.keys[at] != number {
            at = (at + 1) & 511;
        }
        at
    }
}

#[inline]
fn word(bytes: &[u8], at: usize) -> u64 {
    u64::from_be_bytes(bytes[at..at + 8].try_into().unwrap())
}

/// Checks 6 and 7 of a card that is not settled: it is refused either way.
#[cold]
fn unsettled(card: &[u8], slots: usize, count: usize, head: usize, tail: usize) -> u32 {
    let mut seen: Vec<(u64, u32, u32)> = Vec::new();
    for index in 0..count {
        let at = 128 + 8 * slots + 16 * index;
        if card[at] == 0 {
            continue;
        }
        let number = word(card, at) & ((1 << 56) - 1);
        let pair = word(card, at + 8);
        let (previous, current) = ((pair >> 32) as u32, pair as u32);
        let mut undoable = card[at] & 1 == 1;
        let mut slot = tail;
        while slot != head {
            undoable |= word(card, 128 + 8 * slot) == number;
            slot = (slot + 1) % slots;
        }
        let settled = if undoable { previous } else { current };
        if seen.iter().any(|one| one.0 == number || one.1 == current || (settled != FRESH && one.2 == settled)) {
            return 6;
        }
        seen.push((number, current, settled));
    }
    7
}

/// Places from `start` upward and round, below `count`, whose bit is set.
struct Round {
    upper: u128,
    lower: u128,
}

impl Round {
    #[inline]
    fn new(set: u128, start: usize) -> Round {
        let upper = set >> start << start;
        Round { upper, lower: set ^ upper }
    }

    #[inline]
    fn next(&mut self) -> usize {
        if self.upper != 0 {
            let place = self.upper.trailing_zeros() as usize;
            self.upper &= self.upper - 1;
            place
        } else {
            let place = self.lower.trailing_zeros() as usize;
            self.lower &= self.lower - 1;
            place
        }
    }
}

/// A symbol of its own, so that its instructions are counted apart.
#[inline(never)]
#[export_name = "unproved_commit"]
pub fn commit(card: &mut [u8], map: &mut [u64], numbers: &[u64], data: &[u8], choice: &[u8], allowance: u64) -> Answer {
    use Answer::*;
    if card.len() < 128 || card[0..5] != [0, 0, 0, 64, 2] || card[16..64] != [0; 48] {
        return Refused(1);
    }
    let k = card[5] as usize;
    let fields = word(card, 8);
    let slots = u16::from_be_bytes([card[6], card[7]]) as usize;
    let (count, disk_blocks) = ((fields >> 32) as usize, fields as u32 as usize);
    let good = (9..=12).contains(&k) && (8..=256).contains(&slots) && slots % 8 == 0;
    if !good || !(4..=128).contains(&count) || count % 4 != 0 || !(1..=65_536).contains(&disk_blocks) {
        return Refused(1);
    }
    let block = 1 << k;
    let entries = 128 + 8 * slots;
    let blocks = entries + 16 * count;
    if card.len() != blocks + count * block {
        return Refused(2);
    }
    let (head, tail) = (word(card, 64), word(card, 72));
    if head >= slots as u64 || tail >= slots as u64 {
        return Refused(4);
    }
    let (head, tail) = (head as usize, tail as usize);
    let mut slot = tail;
    while slot != head {
        if word(card, 128 + 8 * slot) >= disk_blocks as u64 {
            return Refused(4);
        }
        slot = if slot + 1 == slots { 0 } else { slot + 1 };
    }
    let mut marks = Marks { keys: [EMPTY; 512], entries: [0; 512] };
    let (mut taken, mut used): (u128, u128) = (0, 0);
    let (mut equal, mut role) = (false, false);
    for (index, entry) in card[entries..blocks].chunks_exact(16).enumerate() {
        let (first, second) = (word(entry, 0), word(entry, 8));
        if first | second == 0 {
            continue;
        }
        let flag = first >> 56;
        let number = first & ((1 << 56) - 1);
        let (previous, current) = ((second >> 32) as u32, second as u32);
        let allowed = flag == 0x80 || flag & 0xFA == 0x82;
        if !allowed || number >= disk_blocks as u64 || current as usize >= count || (previous as usize >= count && previous != FRESH) {
            return Refused(5);
        }
        role |= flag & 1 == 1;
        used |= 1 << index;
        equal |= taken >> current & 1 == 1;
        taken |= 1 << current;
        let place = marks.place(number as u32);
        equal |= marks.keys[place] != EMPTY;
        marks.keys[place] = number as u32;
        marks.entries[place] = index as u8;
    }
    if role || head != tail {
        return Refused(if equal { 6 } else { unsettled(card, slots, count, head, tail) });
    }
    if equal {
        return Refused(6);
    }
    let mask = if count == 128 { u128::MAX } else { (1 << count) - 1 };
    let mut bits = taken | !mask;
    if *map != [bits as u64, (bits >> 64) as u64] {
        return Refused(15);
    }
    let n = numbers.len();
    if n == 0 || n > slots - 1 {
        return Refused(8);
    }
    if data.len() != n << k {
        return Refused(9);
    }
    // all bytes are 0 or 1 where all together are
    if choice.len() < block / 8 || choice.iter().fold(0, |all, byte| all | byte) > 1 {
        return Refused(17);
    }
    if numbers.iter().any(|number| *number >= disk_blocks as u64) {
        return Refused(10);
    }
    let mut claimed: u128 = 0;
    let mut targets = [(0u8, false); 256];
    let mut unused = Round::new(!used & mask, head % count);
    let free = !bits;
    let enough = n <= free.count_ones() as usize;
    for (i, number) in numbers.iter().enumerate() {
        let place = marks.place(*number as u32);
        if marks.keys[place] == EMPTY {
            // with too few free blocks the unused entries may run out; repeats are looked for all the same
            let entry = if enough { unused.next() } else { 0 };
            marks.keys[place] = *number as u32;
            marks.entries[place] = 128 | entry as u8;
            targets[i] = (entry as u8, false);
        } else {
            let entry = marks.entries[place];
            if entry & 128 != 0 || claimed >> entry & 1 == 1 {
                return Refused(11);
            }
            claimed |= 1 << entry;
            targets[i] = (entry, true);
        }
    }
    if !enough {
        return Refused(14);
    }
    let m = (n * (block / 8 + 4) + 1) as u64;
    let mut left = allowance;
    let mut at_head = head;
    let mut free = Round::new(free, head % count);
    for (i, number) in numbers.iter().enumerate() {
        let current = free.next();
        let to = blocks + (current << k);
        let from = &data[i << k..(i + 1) << k];
        let words = block as u64 / 8;
        if left < words {
            put_chosen(&mut card[to..to + block], from, choice);
            return Cut;
        }
        card[to..to + block].copy_from_slice(from);
        left -= words;
        let entry = entries + 16 * targets[i].0 as usize;
        let previous = if targets[i].1 { word(card, entry + 8) as u32 } else { FRESH };
        // an unused entry is not modified
        let flag = if card[entry] & 0x02 == 0 { 0x83 } else { 0x87 };
        bits |= 1 << current;
        if previous != FRESH {
            bits &= !(1 << previous);
        }
        let next = if at_head + 1 == slots { 0 } else { at_head + 1 };
        if left < 3 {
            if left > 0 {
                put_entry(card, entry, flag, *number, previous, current);
            }
            if left > 1 {
                card[128 + 8 * at_head..136 + 8 * at_head].copy_from_slice(&number.to_be_bytes());
            }
            return Cut;
        }
        put_entry(card, entry, flag, *number, previous, current);
        card[128 + 8 * at_head..136 + 8 * at_head].copy_from_slice(&number.to_be_bytes());
        card[64..72].copy_from_slice(&(next as u64).to_be_bytes());
        left -= 3;
        at_head = next;
    }
    for target in &targets[..n] {
        if left == 0 {
            return Cut;
        }
        card[entries + 16 * target.0 as usize] &= 0xFE;
        left -= 1;
    }
    if left == 0 {
        return Cut;
    }
    card[72..80].copy_from_slice(&(at_head as u64).to_be_bytes());
    map.copy_from_slice(&[bits as u64, (bits >> 64) as u64]);
    Done(m)
}

/// Of the run that is cut the words whose byte is 1.
#[cold]
fn put_chosen(to: &mut [u8], from: &[u8], choice: &[u8]) {
    for (index, word) in from.chunks_exact(8).enumerate().filter(|(index, _)| choice[*index] == 1) {
        to[8 * index..8 * index + 8].copy_from_slice(word);
    }
}

#[inline]
fn put_entry(card: &mut [u8], at: usize, flag: u64, number: u64, previous: u32, current: usize) {
    card[at..at + 8].copy_from_slice(&(flag << 56 | number).to_be_bytes());
    card[at + 8..at + 16].copy_from_slice(&((previous as u64) << 32 | current as u64).to_be_bytes());
}
