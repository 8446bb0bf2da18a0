//! The oracle that document 01 names: add_pair or add_str, then local_to_global; the lookups; global_to_local back.
use crate::dictionary::AddResult;
use crate::dictionary::StringDictionary;
use crate::dictionary::meta_dv_dict::{MetaDvDictionary, accessor as meta};
use crate::dictionary::ranked_pair_dictionary::{StringPairDictionary, accessor as pairs};
use crate::dictionary::ranked_pair_iri_dv_dict::accessor as iri;
use crate::dictionary::string_dv_dict;

pub use pairs::LeadReader;

pub struct Dictionary {
    iris: StringPairDictionary,
    plain: StringDictionary,
    tagged: StringDictionary,
    typed: StringPairDictionary,
    meta: MetaDvDictionary,
    dicts: [usize; 4],
}

impl Dictionary {
    pub fn new() -> Self {
        let meta = MetaDvDictionary::new();
        let dicts = meta::dicts(&meta);
        Dictionary {
            iris: StringPairDictionary::default(),
            plain: StringDictionary::default(),
            tagged: StringDictionary::default(),
            typed: StringPairDictionary::default(),
            meta,
            dicts,
        }
    }

    /// Whether it was fresh, and its number.
    pub fn add(&mut self, kind: usize, first: &str, second: &str) -> (bool, u64) {
        let result = match kind {
            0 => {
                let (head, rest) = first.split_at(split(first.as_bytes()));
                self.iris.add_pair(head, rest)
            }
            1 => self.plain.add_str(first),
            2 => self.tagged.add_str(&pack(first, second)),
            _ => self.typed.add_pair(first, second),
        };
        let (fresh, local) = match result {
            AddResult::Fresh(n) => (true, n),
            AddResult::Known(n) => (false, n),
            AddResult::Rejected => unreachable!(),
        };
        (fresh, meta::local_to_global(&mut self.meta, self.dicts[kind], local) as u64)
    }

    pub fn find(&self, kind: usize, first: &str, second: &str) -> Option<u64> {
        let local = match kind {
            0 => {
                let (head, rest) = first.split_at(split(first.as_bytes()));
                self.iris.pair_to_id(head, rest)
            }
            1 => self.plain.str_to_id(first),
            2 => self.tagged.str_to_id(&pack(first, second)),
            _ => self.typed.pair_to_id(first, second),
        }?;
        Some(meta::local_to_global_unchecked(&self.meta, self.dicts[kind], local) as u64)
    }

    /// The kind, and the stored strings: head and rest of a pair; a string or a packed form alone.
    pub fn read(&self, number: u64) -> Option<(usize, String, String)> {
        let (dict, local) = meta::global_to_local(&self.meta, number as usize)?;
        let kind = self.dicts.iter().position(|d| *d == dict).expect("no other dictionary has a block");
        match kind {
            0 => self.iris.id_to_pair(local).map(|(a, b)| (0, a, b)),
            1 => self.plain.id_to_string(local).map(|s| (1, s, String::new())),
            2 => self.tagged.id_to_string(local).map(|s| (2, s, String::new())),
            _ => self.typed.id_to_pair(local).map(|(a, b)| (3, a, b)),
        }
    }

    pub fn count(&self, kind: usize) -> u64 {
        match kind {
            0 => self.iris.len() as u64,
            1 => self.plain.len() as u64,
            2 => self.tagged.len() as u64,
            _ => self.typed.len() as u64,
        }
    }
}

pub fn width() -> u32 {
    meta::blocksize()
}

pub fn split(iri: &[u8]) -> usize {
    iri::rfind_hashslash_plus(iri)
}

pub fn pair_bytes(fid: usize, rare: &[u8]) -> Vec<u8> {
    pairs::pair_bytes(fid, rare)
}

pub fn pack(text: &str, tag: &str) -> String {
    string_dv_dict::two_strings_to_one(text, tag)
}

pub fn unpack(form: &str) -> Option<(String, String)> {
    string_dv_dict::one_string_to_two(form)
}
