//! The dictionaries that are measured, behind one trait.
use crate::names::Name;
use crate::ours;
use std::borrow::Borrow;
use std::collections::HashMap;
use std::hash::{Hash, Hasher};
use std::hint::black_box;

pub trait Dictionary {
    /// Begins again with no names.
    fn clear(&mut self);
    fn add(&mut self, name: &Name) -> u64;
    fn find(&self, name: &Name) -> Option<u64>;
    /// Reads the name that has the number.
    fn read(&self, number: u64, buffer: &mut [u8]);
    /// The bytes of that name, for the check.
    fn bytes(&self, number: u64) -> Vec<u8>;
}

// ---- the library

pub const SIZES: ours::Sizes = ours::Sizes { page_width: 20, pages: 32, list: 40_960, width: 24, blocks: 16 };

pub struct Library(ours::Dictionary);

impl Library {
    pub fn new() -> Self {
        Library(ours::Dictionary::none())
    }
}

impl Dictionary for Library {
    fn clear(&mut self) {
        self.0 = ours::Dictionary::open(SIZES, std::mem::replace(&mut self.0, ours::Dictionary::none()));
    }

    fn add(&mut self, name: &Name) -> u64 {
        let answer = self.0.add(name.kind as u64, name.first.as_bytes(), name.second.as_bytes());
        assert!(answer.refusal == 0);
        answer.number
    }

    fn find(&self, name: &Name) -> Option<u64> {
        let answer = self.0.find(name.kind as u64, name.first.as_bytes(), name.second.as_bytes());
        assert!(answer.refusal == 0);
        (answer.word != 0).then_some(answer.number)
    }

    fn read(&self, number: u64, buffer: &mut [u8]) {
        let answer = self.0.read(number, buffer);
        assert!(answer.refusal == 0 && answer.word != 0);
        black_box(buffer);
    }

    fn bytes(&self, number: u64) -> Vec<u8> {
        let mut buffer = vec![0; 4000];
        let answer = self.0.read(number, &mut buffer);
        buffer.truncate((answer.first_len + answer.second_len) as usize);
        buffer
    }
}

// ---- the original, once for each hash of the stand-in for hashbrown

macro_rules! original {
    ($dictionary:ident, $nemo:ident) => {
        pub struct $dictionary($nemo::oracle::Dictionary);

        impl $dictionary {
            pub fn new() -> Self {
                assert_eq!($nemo::oracle::width(), 24);
                $dictionary($nemo::oracle::Dictionary::new())
            }

            fn name(&self, number: u64) -> (String, String) {
                let (kind, first, second) = self.0.read(number).expect("a number that was given");
                match kind {
                    2 => $nemo::oracle::unpack(&first).expect("a packed form"),
                    _ => (first, second),
                }
            }
        }

        impl Dictionary for $dictionary {
            fn clear(&mut self) {
                self.0 = $nemo::oracle::Dictionary::new();
            }

            fn add(&mut self, name: &Name) -> u64 {
                self.0.add(name.kind, &name.first, &name.second).1
            }

            fn find(&self, name: &Name) -> Option<u64> {
                self.0.find(name.kind, &name.first, &name.second)
            }

            fn read(&self, number: u64, _: &mut [u8]) {
                black_box(self.name(number));
            }

            fn bytes(&self, number: u64) -> Vec<u8> {
                let (first, second) = self.name(number);
                [first.as_bytes(), second.as_bytes()].concat()
            }
        }
    };
}

original!(Original, nemo_sip);
original!(OriginalFold, nemo_fold);

// ---- HashMap with a Vec

struct Owned(usize, String, String);

/// A key as its parts, so that the map can be asked without making an owned key.
trait Key {
    fn parts(&self) -> (usize, &str, &str);
}

impl Key for Owned {
    fn parts(&self) -> (usize, &str, &str) {
        (self.0, &self.1, &self.2)
    }
}

impl Key for Name {
    fn parts(&self) -> (usize, &str, &str) {
        (self.kind, &self.first, &self.second)
    }
}

impl Hash for dyn Key + '_ {
    fn hash<H: Hasher>(&self, state: &mut H) {
        self.parts().hash(state)
    }
}

impl PartialEq for dyn Key + '_ {
    fn eq(&self, other: &Self) -> bool {
        self.parts() == other.parts()
    }
}

impl Eq for dyn Key + '_ {}

impl Hash for Owned {
    fn hash<H: Hasher>(&self, state: &mut H) {
        self.parts().hash(state)
    }
}

impl PartialEq for Owned {
    fn eq(&self, other: &Self) -> bool {
        self.parts() == other.parts()
    }
}

impl Eq for Owned {}

impl<'a> Borrow<dyn Key + 'a> for Owned {
    fn borrow(&self) -> &(dyn Key + 'a) {
        self
    }
}

#[derive(Default)]
pub struct MapAndVec {
    numbers: HashMap<Owned, u64>,
    names: [Vec<(String, String)>; 4],
}

impl MapAndVec {
    fn name(&self, number: u64) -> (&[u8], &[u8]) {
        let (first, second) = &self.names[(number >> 24) as usize][(number & 0xFF_FFFF) as usize];
        (first.as_bytes(), second.as_bytes())
    }
}

impl Dictionary for MapAndVec {
    fn clear(&mut self) {
        *self = MapAndVec::default();
    }

    fn add(&mut self, name: &Name) -> u64 {
        if let Some(number) = self.find(name) {
            return number;
        }
        let names = &mut self.names[name.kind];
        let number = ((name.kind as u64) << 24) + names.len() as u64;
        names.push((name.first.clone(), name.second.clone()));
        self.numbers.insert(Owned(name.kind, name.first.clone(), name.second.clone()), number);
        number
    }

    fn find(&self, name: &Name) -> Option<u64> {
        let key: &dyn Key = name;
        self.numbers.get(key).copied()
    }

    fn read(&self, number: u64, buffer: &mut [u8]) {
        let (first, second) = self.name(number);
        let whole = first.len() + second.len();
        buffer[..first.len()].copy_from_slice(first);
        buffer[first.len()..whole].copy_from_slice(second);
        black_box(buffer);
    }

    fn bytes(&self, number: u64) -> Vec<u8> {
        let (first, second) = self.name(number);
        [first, second].concat()
    }
}
