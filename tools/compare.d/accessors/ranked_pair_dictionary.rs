//! A child module of ranked_pair_dictionary.rs, so that it sees the private function and fields.
use super::{GenericRankedPairDictionary, StringPairDictBytesBuffer};

type Pairs = GenericRankedPairDictionary<StringPairDictBytesBuffer>;

pub(crate) fn pair_bytes(fid: usize, rare: &[u8]) -> Vec<u8> {
    Pairs::pair_bytes(fid, rare)
}

/// Reads leads: heads 0 to count - 1 hold their own number, so that id_to_pair tells the number it has read.
pub struct LeadReader(Pairs);

impl LeadReader {
    pub fn new(count: usize) -> Self {
        let mut pairs = Pairs::default();
        for n in 0..count {
            assert_eq!(pairs.frequent_dict.add_bytes(&n.to_be_bytes()).value(), n);
        }
        LeadReader(pairs)
    }

    /// The number in the lead, and what follows it.
    pub fn read(&mut self, bytes: &[u8]) -> (usize, Vec<u8>) {
        let id = self.0.pair_dict.add_bytes(bytes).value();
        let (head, rare) = self.0.id_to_pair(id).expect("was just added");
        (usize::from_be_bytes(head.try_into().expect("eight bytes")), rare)
    }
}
