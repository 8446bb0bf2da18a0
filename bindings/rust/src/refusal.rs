//! The refusals, with their numbers and their words.

use std::error::Error;
use std::fmt;

/// Why a call was refused. Each has the number that the library gives it.
#[derive(Clone, Copy, Debug, PartialEq, Eq, Hash)]
#[repr(u64)]
pub enum Refusal {
    /// A size is outside its range.
    BadSize = 1,
    /// The memory lent to open is too short.
    ShortMemory = 2,
    /// The memory is no dictionary's.
    Unopened = 3,
    /// An IRI or a plain string with a second part.
    BadKind = 4,
    /// A name over 4,000 bytes, or a packed form over 8,002.
    TooLong = 5,
    /// A part is not UTF-8.
    NotText = 6,
    /// A tagged string with an empty tag.
    NoTag = 7,
    /// A list that would gain an entry is full.
    ListFull = 8,
    /// More pages are needed than are left.
    NoPage = 9,
    /// The block rule picks a block of `block_count` or above. Lower blocks may be free.
    NoBlock = 10,
    /// The buffer is shorter than the answer.
    ShortBuffer = 11,
    /// A frequent id for 2^30 or more.
    HighNumber = 12,
    /// A frequent id or a packed form that cannot be read.
    CutForm = 13,
}

impl Refusal {
    /// The refusals and their words, by their numbers from 1.
    const WORDS: [(Refusal, &'static str); 13] = [
        (Refusal::BadSize, "bad size"),
        (Refusal::ShortMemory, "short memory"),
        (Refusal::Unopened, "unopened"),
        (Refusal::BadKind, "bad kind"),
        (Refusal::TooLong, "too long"),
        (Refusal::NotText, "not text"),
        (Refusal::NoTag, "no tag"),
        (Refusal::ListFull, "list full"),
        (Refusal::NoPage, "no page"),
        (Refusal::NoBlock, "no block"),
        (Refusal::ShortBuffer, "short buffer"),
        (Refusal::HighNumber, "high number"),
        (Refusal::CutForm, "cut form"),
    ];

    /// The refusal that an entry's number means; 0 means none.
    pub(crate) fn check(number: u64) -> Result<(), Refusal> {
        match number {
            0 => Ok(()),
            _ => Err(Self::WORDS[number as usize - 1].0),
        }
    }
}

impl fmt::Display for Refusal {
    fn fmt(&self, out: &mut fmt::Formatter) -> fmt::Result {
        out.write_str(Self::WORDS[*self as usize - 1].1)
    }
}

impl Error for Refusal {}
