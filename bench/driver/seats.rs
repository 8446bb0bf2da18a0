//! What is done with each dictionary; and the hash alone, of several names at once and of names in turn.
use crate::dictionaries::Dictionary;
use crate::names::{Input, Name, COUNTS};
use std::hint::black_box;

#[derive(Clone, Copy)]
pub enum Operation {
    Fresh,
    Known,
    Hit,
    Miss,
    Read,
}

pub const OPERATIONS: [(Operation, &str); 5] = [
    (Operation::Fresh, "add fresh"),
    (Operation::Known, "add known"),
    (Operation::Hit, "find hit"),
    (Operation::Miss, "find miss"),
    (Operation::Read, "read"),
];

pub trait Contender {
    fn clear(&mut self);
    /// Makes a call for each name of the kind.
    fn run(&mut self, operation: Operation, kind: usize, input: &Input);
    /// After all adds: every name is found and read back, and no other is. The numbers given.
    fn check(&self, input: &Input) -> Option<&[Vec<u64>; 4]>;
}

pub struct Seat<B> {
    dictionary: B,
    numbers: [Vec<u64>; 4],
    buffer: Vec<u8>,
}

impl<B: Dictionary> Seat<B> {
    pub fn new(dictionary: B) -> Self {
        Seat { dictionary, numbers: COUNTS.map(|count| vec![0; count]), buffer: vec![0; 4000] }
    }
}

impl<B: Dictionary> Contender for Seat<B> {
    fn clear(&mut self) {
        self.dictionary.clear();
    }

    fn run(&mut self, operation: Operation, kind: usize, input: &Input) {
        let (dictionary, numbers) = (&mut self.dictionary, &mut self.numbers[kind]);
        match operation {
            Operation::Fresh => {
                for (name, number) in input.known[kind].iter().zip(numbers) {
                    *number = dictionary.add(name);
                }
            }
            Operation::Known => {
                for name in &input.asked[kind] {
                    black_box(dictionary.add(name));
                }
            }
            Operation::Hit => {
                for name in &input.asked[kind] {
                    black_box(dictionary.find(name));
                }
            }
            Operation::Miss => {
                for name in &input.missing[kind] {
                    black_box(dictionary.find(name));
                }
            }
            Operation::Read => {
                for i in &input.order[kind] {
                    dictionary.read(numbers[*i], &mut self.buffer);
                }
            }
        }
    }

    fn check(&self, input: &Input) -> Option<&[Vec<u64>; 4]> {
        for (name, number) in input.known.iter().flatten().zip(self.numbers.iter().flatten()) {
            assert_eq!(self.dictionary.find(name), Some(*number));
            assert_eq!(self.dictionary.bytes(*number), [name.first.as_bytes(), name.second.as_bytes()].concat());
        }
        assert!(input.missing.iter().flatten().all(|name| self.dictionary.find(name).is_none()));
        Some(&self.numbers)
    }
}

/// FNV-1a of 32 bits over a name's bytes: a multiply for each byte, each waiting for the one before.
pub struct HashAlone;

pub const FNV_START: u32 = 2_166_136_261;

pub fn fnv_from(start: u32, bytes: &[u8]) -> u32 {
    bytes.iter().fold(start, |h, b| (h ^ *b as u32).wrapping_mul(16_777_619))
}

fn fnv(start: u32, name: &Name) -> u32 {
    fnv_from(fnv_from(start, name.first.as_bytes()), name.second.as_bytes())
}

fn hash(name: &Name) {
    black_box(fnv(FNV_START, name));
}

fn names(operation: Operation, kind: usize, input: &Input) -> &[Name] {
    match operation {
        Operation::Fresh => &input.known[kind],
        Operation::Known | Operation::Hit => &input.asked[kind],
        Operation::Miss => &input.missing[kind],
        Operation::Read => &[],
    }
}

impl Contender for HashAlone {
    fn clear(&mut self) {}

    fn run(&mut self, operation: Operation, kind: usize, input: &Input) {
        names(operation, kind, input).iter().for_each(hash);
    }

    fn check(&self, _: &Input) -> Option<&[Vec<u64>; 4]> {
        None
    }
}

/// The same, where each name waits for the hash of the one before: what a single call has to wait.
pub struct HashInTurn;

impl Contender for HashInTurn {
    fn clear(&mut self) {}

    fn run(&mut self, operation: Operation, kind: usize, input: &Input) {
        let mut before = 0u64;
        for name in names(operation, kind, input) {
            // The high half of a hash is 0, which the compiler does not know of `before`.
            let zero = (black_box(before) >> 32) as u32;
            before = fnv(FNV_START ^ zero, name) as u64;
        }
        black_box(before);
    }

    fn check(&self, _: &Input) -> Option<&[Vec<u64>; 4]> {
        None
    }
}
