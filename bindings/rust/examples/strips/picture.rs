//! A picture: strips of varying length, the same in every run.

use std::ops::Range;

const LONGEST_STRIP: u64 = 65536;

pub struct Picture {
    pub bytes: Vec<u8>,
    ends: Vec<usize>,
}

impl Picture {
    pub fn new(strips: usize) -> Self {
        let mut state = 20240229;
        let mut len = 0;
        let ends: Vec<usize> = (0..strips)
            .map(|_| {
                let longest = LONGEST_STRIP >> (random(&mut state) % 17);
                len += 1 + (random(&mut state) % longest) as usize;
                len
            })
            .collect();
        let bytes = (0..len).map(|_| (random(&mut state) >> 32) as u8).collect();
        Self { bytes, ends }
    }

    pub fn strips(&self) -> impl Iterator<Item = &[u8]> {
        let starts = std::iter::once(0).chain(self.ends.iter().copied());
        let ranges = starts
            .zip(&self.ends)
            .map(|(start, &end)| Range { start, end });
        ranges.map(|range| &self.bytes[range])
    }
}

/// Pseudo-random numbers.
fn random(state: &mut u64) -> u64 {
    *state ^= *state << 13;
    *state ^= *state >> 7;
    *state ^= *state << 17;
    *state
}
