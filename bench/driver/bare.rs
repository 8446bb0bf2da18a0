//! Document 01's search and nothing else: what every dictionary needs. It checks neither its memory, its sizes, its arguments nor the text.
//! It expects head numbers below 2^14 and tags of fewer than 128 bytes.
use crate::dictionaries::{Dictionary, SIZES};
use crate::names::Name;
use crate::seats::{fnv_from, FNV_START};
use std::hint::black_box;

/// A dictionary's stored bytes with their index: a place has the entry's number + 1 and the top bits of its hash, as in the library.
struct Index {
    places: Vec<u32>,
    entries: Vec<(u32, u32)>,
    bytes: Vec<u8>,
}

const NUMBERS: u32 = 1 << 21;

impl Index {
    fn new() -> Self {
        Index { places: vec![0; 2 * SIZES.list as usize], entries: Vec::new(), bytes: Vec::new() }
    }

    fn stored(&self, i: usize) -> &[u8] {
        let (at, len) = self.entries[i];
        &self.bytes[at as usize..][..len as usize]
    }

    /// The number of the entry that `same` takes for the key, or the place where its search ended.
    #[inline(always)]
    fn search(&self, hash: u32, same: impl Fn(&[u8]) -> bool) -> Result<usize, usize> {
        let mut j = (hash % self.places.len() as u32) as usize;
        loop {
            let place = self.places[j];
            if place == 0 {
                return Err(j);
            }
            if place / NUMBERS == hash / NUMBERS {
                let i = (place % NUMBERS) as usize - 1;
                if same(self.stored(i)) {
                    return Ok(i);
                }
            }
            j = if j + 1 == self.places.len() { 0 } else { j + 1 };
        }
    }

    fn insert(&mut self, place: usize, hash: u32, parts: [&[u8]; 3]) -> usize {
        let i = self.entries.len();
        let at = self.bytes.len();
        parts.iter().for_each(|p| self.bytes.extend_from_slice(p));
        self.entries.push((at as u32, (self.bytes.len() - at) as u32));
        self.places[place] = i as u32 + 1 + hash / NUMBERS * NUMBERS;
        i
    }
}

/// A key that was searched for: a front of a few bytes, its parts, and where its search ended.
struct Searched<'a> {
    front: [u8; 2],
    long: usize,
    parts: [&'a [u8]; 2],
    hash: u32,
    found: Result<usize, usize>,
}

pub struct Bare {
    heads: [Index; 2],
    names: [Index; 4],
}

impl Bare {
    pub fn new() -> Self {
        Bare { heads: [Index::new(), Index::new()], names: [Index::new(), Index::new(), Index::new(), Index::new()] }
    }

    fn number(kind: usize, local: usize) -> u64 {
        ((kind as u64) << SIZES.width) + local as u64
    }

    #[inline(always)]
    fn plain<'a>(&self, text: &'a [u8]) -> Searched<'a> {
        let hash = fnv_from(FNV_START, text);
        Searched { front: [0; 2], long: 0, parts: [&[], text], hash, found: self.names[1].search(hash, |s| s == text) }
    }

    #[inline(always)]
    fn tagged<'a>(&self, text: &'a [u8], tag: &'a [u8]) -> Searched<'a> {
        let n = tag.len();
        let hash = fnv_from(fnv_from(fnv_from(FNV_START, &[n as u8]), tag), text);
        let same = |s: &[u8]| s.len() == 1 + n + text.len() && s[0] == n as u8 && &s[1..=n] == tag && &s[n + 1..] == text;
        Searched { front: [n as u8, 0], long: 1, parts: [tag, text], hash, found: self.names[2].search(hash, same) }
    }

    #[inline(always)]
    fn pair<'a>(&self, kind: usize, f: usize, rest: &'a [u8]) -> Searched<'a> {
        let names = &self.names[kind];
        if f < 64 {
            let a = f as u8;
            let hash = fnv_from(fnv_from(FNV_START, &[a]), rest);
            let same = |s: &[u8]| s.len() == 1 + rest.len() && s[0] == a && &s[1..] == rest;
            return Searched { front: [a, 0], long: 1, parts: [&[], rest], hash, found: names.search(hash, same) };
        }
        let (a, b) = (64 + (f / 256) as u8, f as u8);
        let hash = fnv_from(fnv_from(FNV_START, &[a, b]), rest);
        let same = |s: &[u8]| s.len() == 2 + rest.len() && s[0] == a && s[1] == b && &s[2..] == rest;
        Searched { front: [a, b], long: 2, parts: [&[], rest], hash, found: names.search(hash, same) }
    }

    fn split(name: &Name) -> (&[u8], &[u8]) {
        let (first, second) = (name.first.as_bytes(), name.second.as_bytes());
        if name.kind == 3 {
            return (first, second);
        }
        first.split_at(first.iter().rposition(|b| *b == b'/' || *b == b'#').map_or(0, |i| i + 1))
    }

    fn enter(&mut self, kind: usize, key: Searched) -> u64 {
        let names = &mut self.names[kind];
        let put = |place| names.insert(place, key.hash, [&key.front[..key.long], key.parts[0], key.parts[1]]);
        Self::number(kind, key.found.unwrap_or_else(put))
    }
}

impl Dictionary for Bare {
    fn clear(&mut self) {
        *self = Bare::new();
    }

    fn add(&mut self, name: &Name) -> u64 {
        let (kind, first, second) = (name.kind, name.first.as_bytes(), name.second.as_bytes());
        let key = match kind {
            1 => self.plain(first),
            2 => self.tagged(first, second),
            _ => {
                let (head, rest) = Self::split(name);
                let heads = &mut self.heads[kind / 2];
                let hash = fnv_from(FNV_START, head);
                let found = heads.search(hash, |s| s == head);
                let f = found.unwrap_or_else(|place| heads.insert(place, hash, [&[], &[], head]));
                self.pair(kind, f, rest)
            }
        };
        self.enter(kind, key)
    }

    fn find(&self, name: &Name) -> Option<u64> {
        let (kind, first, second) = (name.kind, name.first.as_bytes(), name.second.as_bytes());
        let found = match kind {
            1 => self.plain(first).found,
            2 => self.tagged(first, second).found,
            _ => {
                let (head, rest) = Self::split(name);
                let f = self.heads[kind / 2].search(fnv_from(FNV_START, head), |s| s == head).ok()?;
                self.pair(kind, f, rest).found
            }
        };
        found.ok().map(|i| Self::number(kind, i))
    }

    fn read(&self, number: u64, buffer: &mut [u8]) {
        let name = self.bytes(number);
        buffer[..name.len()].copy_from_slice(&name);
        black_box(buffer);
    }

    fn bytes(&self, number: u64) -> Vec<u8> {
        let kind = (number >> SIZES.width) as usize;
        let stored = self.names[kind].stored((number & ((1 << SIZES.width) - 1)) as usize);
        match (kind, stored) {
            (1, _) => stored.to_vec(),
            (2, [n, rest @ ..]) => [&rest[*n as usize..], &rest[..*n as usize]].concat(),
            (_, [f @ 0..64, rest @ ..]) => [self.heads[kind / 2].stored(*f as usize), rest].concat(),
            (_, [a, b, rest @ ..]) => [self.heads[kind / 2].stored((*a as usize - 64) * 256 + *b as usize), rest].concat(),
            _ => unreachable!("a pair has a front"),
        }
    }
}
