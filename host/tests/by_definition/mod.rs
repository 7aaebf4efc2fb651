//! Document 01 once more, for clarity only: each rule as the document words it, no matter how slow.
#![allow(dead_code)]

pub mod asking;
pub mod random;
pub mod texts;
pub mod trees;

/// An answer as it is told: number, place, values, zeros.
pub fn told(number: u64, place: usize, values: &[u64]) -> [u64; 8] {
    let mut words = [0; 8];
    words[0] = number;
    words[1] = place as u64;
    words[2..2 + values.len()].copy_from_slice(values);
    words
}

pub fn refused(number: u64) -> [u64; 8] {
    told(number, 0, &[])
}
