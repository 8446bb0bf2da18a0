use crate::{entries, Refusal};

/// The sizes that a dictionary is opened with.
#[derive(Clone, Copy, Debug, PartialEq, Eq)]
pub struct Sizes {
    /// A page has 2 to this power bytes: 13 to 20.
    pub page_width: u64,
    /// How many pages there are: 1 to 1,024.
    pub page_count: u64,
    /// How many entries each list takes: 1 to 1,048,576.
    pub list_length: u64,
    /// A block has 2 to this power numbers: 4 to 24.
    pub block_width: u64,
    /// How many blocks there are: 1 to 4,096.
    pub block_count: u64,
}

impl Sizes {
    /// How many bytes pages and lists need. Refusal 1.
    pub fn bytes(self) -> Result<(usize, usize), Refusal> {
        // With no memory, open says bad size or, where the sizes are right, short memory.
        if entries::open(&mut [], &mut [], self) == Refusal::BadSize as u64 {
            return Err(Refusal::BadSize);
        }
        let pages = self.page_count << self.page_width;
        let lists = 8 * (64 + self.page_count + 18 * self.list_length + 5 * self.block_count);
        Ok((pages as usize, lists as usize))
    }
}
