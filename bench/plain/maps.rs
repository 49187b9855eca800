// The entries of a task, by rising address.

use crate::script::Range;

pub const SHARE: u8 = 0;
pub const COPY: u8 = 1;
pub const MOST_ENTRIES: usize = 256;

#[derive(Clone, Copy)]
pub struct Entry {
    pub address: u64,
    pub bytes: u64,
    /// The region's number.
    pub region: u32,
    pub offset: u32,
    pub prot: u8,
    pub inherit: u8,
}

impl Entry {
    pub fn end(&self) -> u64 {
        self.address + self.bytes
    }
}

impl Range {
    pub fn end(&self) -> u64 {
        self.address + self.bytes
    }

    /// Whether it is of whole pages, not empty, and below the end of addresses.
    pub fn is_whole(&self, size: u32) -> bool {
        (self.address | self.bytes) & (u64::from(size) - 1) == 0 && self.bytes > 0 && self.end() <= 1 << 32
    }
}

/// The entries that have an address of the range.
pub fn met(entries: &[Entry], range: Range) -> std::ops::Range<usize> {
    let from = entries.partition_point(|entry| entry.end() <= range.address);
    let count = entries[from..].partition_point(|entry| entry.address < range.end());
    from..from + count
}

pub fn entry_at(entries: &[Entry], address: u64) -> Option<&Entry> {
    let behind = entries.partition_point(|entry| entry.address <= address);
    entries[..behind].last().filter(|entry| address < entry.end())
}

pub fn is_covered(entries: &[Entry], range: Range) -> bool {
    let mut at = range.address;
    for entry in &entries[met(entries, range)] {
        if entry.address > at {
            return false;
        }
        at = entry.end();
    }
    at >= range.end()
}

pub fn enter(entries: &mut Vec<Entry>, entry: Entry) {
    match entries.last() {
        Some(last) if last.address > entry.address => {
            let at = entries.partition_point(|other| other.address < entry.address);
            entries.insert(at, entry);
        }
        _ => entries.push(entry),
    }
}

/// The entry that an address cuts in two.
pub fn cut_at(entries: &[Entry], address: u64) -> Option<usize> {
    let at = entries.partition_point(|entry| entry.end() <= address);
    entries.get(at).filter(|entry| entry.address < address).map(|_| at)
}

/// Cuts an entry at an address within it; both parts stand.
pub fn cut(entries: &mut Vec<Entry>, at: usize, address: u64, size: u32) {
    let mut rest = entries[at];
    let front = address - rest.address;
    entries[at].bytes = front;
    rest.address = address;
    rest.bytes -= front;
    rest.offset += (front / u64::from(size)) as u32;
    entries.insert(at + 1, rest);
}
