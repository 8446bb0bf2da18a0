//! The dictionary of a plant's asset names, for the configurator. It calls `libnamedict.a`, the
//! same code as the firmware of the switches.
//!
//! `tools/archive` makes the archive, in the repository's `target/staticlib`. This crate
//! links it from there, or from the folder that the environment variable `NAMEDICT_LIB_DIR` names.
//!
//! ```
//! use namedict::{Added, Dictionary, Kind, Name, Sizes};
//!
//! let sizes = Sizes {
//!     page_width: 13,
//!     page_count: 8,
//!     list_length: 200,
//!     block_width: 4,
//!     block_count: 16,
//! };
//! let mut dictionary = Dictionary::new(sizes)?;
//! let drive = Name::iri("http://plant/press#drive7");
//! assert_eq!(dictionary.add(drive)?, Added::Fresh(0));
//! assert_eq!(dictionary.add(drive)?, Added::Known(0));
//! assert_eq!(dictionary.find(Name::tagged("Antrieb", "de"))?, None);
//!
//! let mut buffer = [0; Name::LONGEST];
//! assert_eq!(dictionary.read(0, &mut buffer)?, Some(drive));
//! assert_eq!(dictionary.count(Kind::Iri)?, 1);
//! # Ok::<(), namedict::Refusal>(())
//! ```
//!
//! The rules that need no dictionary stand in [`rules`].
#![deny(unsafe_code)]
#![warn(missing_docs)]

#[allow(unsafe_code)]
mod entries;
mod name;
mod refusal;
pub mod rules;
mod sizes;

pub use name::{Kind, Name};
pub use refusal::Refusal;
pub use sizes::Sizes;

/// A dictionary in two pieces of memory: its own (`Vec<u8>`), lent (`&mut [u8]`), or lent for
/// reading alone (`&[u8]`).
///
/// A copy of the memory is a dictionary with the same names, and it changes independently. A refused
/// call changes nothing.
#[derive(Clone)]
pub struct Dictionary<M = Vec<u8>> {
    pages: M,
    lists: M,
}

/// What an add answers.
#[derive(Clone, Copy, Debug, PartialEq, Eq)]
pub enum Added {
    /// The name is new and got this number.
    Fresh(u64),
    /// The name had this number already.
    Known(u64),
}

impl Added {
    /// The name's number.
    pub fn number(self) -> u64 {
        match self {
            Added::Fresh(number) | Added::Known(number) => number,
        }
    }
}

impl Dictionary {
    /// Opens a dictionary with no names in memory of its own. Refusal 1.
    pub fn new(sizes: Sizes) -> Result<Self, Refusal> {
        let (pages, lists) = sizes.bytes()?;
        Self::open(vec![0; pages], vec![0; lists], sizes)
    }
}

impl<M: AsRef<[u8]> + AsMut<[u8]>> Dictionary<M> {
    /// Opens a dictionary with no names in this memory. Refusals 1, 2.
    pub fn open(mut pages: M, mut lists: M, sizes: Sizes) -> Result<Self, Refusal> {
        Refusal::check(entries::open(pages.as_mut(), lists.as_mut(), sizes))?;
        Ok(Self { pages, lists })
    }

    /// Gives a name its number. Refusals 3 to 10.
    pub fn add(&mut self, name: Name) -> Result<Added, Refusal> {
        let answer = entries::add(self.pages.as_mut(), self.lists.as_mut(), name);
        Refusal::check(answer.refusal)?;
        Ok(match answer.word {
            entries::FRESH => Added::Fresh(answer.number),
            _ => Added::Known(answer.number),
        })
    }
}

impl<M: AsRef<[u8]>> Dictionary<M> {
    /// Uses memory in which a dictionary was opened, or a copy of it. On memory that is no
    /// dictionary's the calls give refusal 3, or some answer if they cannot tell.
    pub fn over(pages: M, lists: M) -> Self {
        Self { pages, lists }
    }

    /// The number that a name has, if any. Refusals 3 to 7.
    pub fn find(&self, name: Name) -> Result<Option<u64>, Refusal> {
        let answer = entries::find(self.pages(), self.lists(), name);
        Refusal::check(answer.refusal)?;
        Ok((answer.word != entries::NONE).then_some(answer.number))
    }

    /// The name that has a number, if any. Its parts are put at the buffer's start; a buffer of
    /// `Name::LONGEST` bytes is always long enough. Refusals 3, 11.
    pub fn read<'b>(&self, number: u64, buffer: &'b mut [u8]) -> Result<Option<Name<'b>>, Refusal> {
        let answer = entries::read(self.pages(), self.lists(), number, buffer);
        Refusal::check(answer.refusal)?;
        if answer.word == entries::NONE {
            return Ok(None);
        }
        let (first, rest) = buffer.split_at(answer.first_len as usize);
        let second = &rest[..answer.second_len as usize];
        Ok(Some(Name {
            kind: Kind::of(answer.kind),
            first,
            second,
        }))
    }

    /// How many names of a kind there are. Refusal 3.
    pub fn count(&self, kind: Kind) -> Result<u64, Refusal> {
        let answer = entries::count(self.pages(), self.lists(), kind as u64);
        Refusal::check(answer.refusal)?;
        Ok(answer.count)
    }

    /// The first piece of memory. To keep a dictionary, copy both.
    pub fn pages(&self) -> &[u8] {
        self.pages.as_ref()
    }

    /// The second piece of memory.
    pub fn lists(&self) -> &[u8] {
        self.lists.as_ref()
    }
}
