//! A hash by folded multiplies, 16 bytes a step, in the manner of the crate foldhash.
use std::hash::Hasher;

const ONE: u64 = 0x243F_6A88_85A3_08D3;
const TWO: u64 = 0x1319_8A2E_0370_7344;

pub struct Folded(u64);

impl Default for Folded {
    fn default() -> Self {
        Folded(ONE)
    }
}

fn fold(a: u64, b: u64) -> u64 {
    let product = a as u128 * b as u128;
    product as u64 ^ (product >> 64) as u64
}

fn eight(bytes: &[u8], at: usize) -> u64 {
    u64::from_le_bytes(bytes[at..at + 8].try_into().expect("eight bytes"))
}

impl Hasher for Folded {
    fn write(&mut self, bytes: &[u8]) {
        let n = bytes.len();
        if n < 8 {
            let mut padded = [0; 8];
            padded[..n].copy_from_slice(bytes);
            self.0 = fold(self.0 ^ u64::from_le_bytes(padded), TWO);
            return;
        }
        let mut at = 0;
        while at + 16 < n {
            self.0 = fold(self.0 ^ eight(bytes, at), TWO ^ eight(bytes, at + 8));
            at += 16;
        }
        // The last 16 bytes, of which some may have been seen; all, where there are no more.
        self.0 = fold(self.0 ^ eight(bytes, n.max(16) - 16), TWO ^ eight(bytes, n - 8));
    }

    fn write_usize(&mut self, n: usize) {
        self.0 = fold(self.0 ^ n as u64, TWO);
    }

    fn finish(&self) -> u64 {
        self.0
    }
}
