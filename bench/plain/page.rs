// The bytes of a page.

/// A page's bytes up to some place; behind that all are zeros.
#[derive(Clone, Default)]
pub struct Page(Vec<u8>);

impl Page {
    pub fn of(bytes: Vec<u8>) -> Page {
        let mut page = Page(bytes);
        page.trim();
        page
    }

    pub fn bytes(&self) -> &[u8] {
        &self.0
    }

    /// The little-endian number of so many bytes.
    pub fn get(&self, at: usize, size: usize) -> u64 {
        let mut bytes = [0; 8];
        let end = self.0.len().min(at + size);
        if at < end {
            bytes[..end - at].copy_from_slice(&self.0[at..end]);
        }
        u64::from_le_bytes(bytes)
    }

    pub fn put(&mut self, at: usize, size: usize, value: u64) {
        if self.0.len() < at + size {
            self.0.resize(at + size, 0);
        }
        self.0[at..at + size].copy_from_slice(&value.to_le_bytes()[..size]);
    }

    /// Leaves the zeros at the end out.
    pub fn trim(&mut self) {
        let blocks = self.0.rchunks(64).take_while(|block| block.iter().fold(0, |all, byte| all | byte) == 0);
        let mut end = self.0.len().saturating_sub(64 * blocks.count());
        while end > 0 && self.0[end - 1] == 0 {
            end -= 1;
        }
        self.0.truncate(end);
    }
}
