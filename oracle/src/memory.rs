//! What is lent to a call that copies.

use crate::numbers::Random;

/// Bytes before, between and behind what is lent.
const APART: usize = 32;

/// A ring, and a source or a destination, with other bytes around them.
#[derive(Clone, Debug, PartialEq)]
pub struct Memory {
    bytes: Vec<u8>,
    ring: usize,
    other: usize,
}

impl Memory {
    pub fn new(random: &mut Random, ring: u64, other: u64) -> Self {
        let (ring, other) = (ring as usize, other as usize);
        let mut bytes = vec![0; ring + other + 3 * APART];
        for chunk in bytes.chunks_mut(8) {
            chunk.copy_from_slice(&random.next().to_le_bytes()[..chunk.len()]);
        }
        Self { bytes, ring, other }
    }

    pub fn parts(&mut self) -> (&mut [u8], &mut [u8]) {
        let (front, back) = self.bytes[APART..].split_at_mut(self.ring + APART);
        (&mut front[..self.ring], &mut back[..self.other])
    }
}
