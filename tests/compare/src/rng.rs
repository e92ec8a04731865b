//! The random numbers of all cases: the same from the same seed.

use crate::words::{bytes_mut, Words};

/// splitmix64
pub struct Rng(pub u64);

impl Rng {
    pub fn draw(&mut self) -> u64 {
        self.0 = self.0.wrapping_add(0x9e37_79b9_7f4a_7c15);
        let mut z = self.0;
        z = (z ^ (z >> 30)).wrapping_mul(0xbf58_476d_1ce4_e5b9);
        z = (z ^ (z >> 27)).wrapping_mul(0x94d0_49bb_1331_11eb);
        z ^ (z >> 31)
    }

    pub fn below(&mut self, n: usize) -> usize {
        (self.draw() % n as u64) as usize
    }

    pub fn fill(&mut self, bytes: &mut [u8]) {
        for part in bytes.chunks_mut(8) {
            let noise = self.draw().to_le_bytes();
            part.copy_from_slice(&noise[..part.len()]);
        }
    }

    pub fn noise(&mut self, length: usize) -> Vec<u8> {
        let mut bytes = vec![0; length];
        self.fill(&mut bytes);
        bytes
    }

    /// A value of any bytes.
    pub fn any<T: Words>(&mut self) -> T {
        let mut value = T::ZERO;
        self.fill(bytes_mut(&mut value));
        value
    }

    /// A generator of its own, so that all else is drawn as without it.
    pub fn aside(&self) -> Rng {
        Rng(!self.0)
    }
}
