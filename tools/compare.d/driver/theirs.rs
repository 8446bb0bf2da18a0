//! The original, compiled once for each width of a block.
pub trait Dictionary {
    fn add(&mut self, kind: usize, first: &str, second: &str) -> (bool, u64);
    fn find(&self, kind: usize, first: &str, second: &str) -> Option<u64>;
    fn read(&self, number: u64) -> Option<(usize, String, String)>;
    fn count(&self, kind: usize) -> u64;
}

macro_rules! widths {
    ($($width:literal $nemo:ident),*) => {
        $(impl Dictionary for $nemo::oracle::Dictionary {
            fn add(&mut self, kind: usize, first: &str, second: &str) -> (bool, u64) {
                self.add(kind, first, second)
            }
            fn find(&self, kind: usize, first: &str, second: &str) -> Option<u64> {
                self.find(kind, first, second)
            }
            fn read(&self, number: u64) -> Option<(usize, String, String)> {
                self.read(number)
            }
            fn count(&self, kind: usize) -> u64 {
                self.count(kind)
            }
        })*

        pub fn dictionary(width: u64) -> Box<dyn Dictionary> {
            match width {
                $($width => {
                    assert_eq!($nemo::oracle::width(), $width);
                    Box::new($nemo::oracle::Dictionary::new())
                })*
                _ => panic!("no such width"),
            }
        }
    };
}

widths!(
    4 nemo_w4, 5 nemo_w5, 6 nemo_w6, 7 nemo_w7, 8 nemo_w8, 9 nemo_w9, 10 nemo_w10, 11 nemo_w11, 12 nemo_w12, 13 nemo_w13,
    14 nemo_w14, 15 nemo_w15, 16 nemo_w16, 17 nemo_w17, 18 nemo_w18, 19 nemo_w19, 20 nemo_w20, 21 nemo_w21, 22 nemo_w22,
    23 nemo_w23, 24 nemo_w24
);

// What does not depend on the width.
pub use nemo_w24::oracle::{pack, pair_bytes, split, unpack, LeadReader};
