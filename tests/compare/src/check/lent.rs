//! What is lent to a call: structs, numbers and bytes, each between noise that no call may change.

use super::{same_number, Outcome};
use crate::rng::Rng;
use crate::words::{bytes, Words};
use std::ops::Range;

const CHANGED: &str = "what was lent for reading was changed, or a byte beside it";

#[repr(C)]
#[derive(Clone, Copy, Debug, PartialEq)]
pub struct Guarded<T> {
    ahead: [u32; 4],
    pub value: T,
    behind: [u32; 4],
}

// Where one is made it is checked to have no hole.
unsafe impl<T: Words> Words for Guarded<T> {}

/// A struct or number that a call stores into or reads.
pub struct Place<T> {
    pub now: Guarded<T>,
    before: Guarded<T>,
}

impl<T: Words> Place<T> {
    /// Noise in every word.
    pub fn noise(rng: &mut Rng) -> Self {
        const { assert!(size_of::<Guarded<T>>() == size_of::<T>() + 32, "a hole") }
        let before = rng.any();
        Place { now: before, before }
    }

    pub fn holding(value: T, rng: &mut Rng) -> Self {
        let before = Guarded { value, ..rng.any() };
        Place { now: before, before }
    }

    pub fn lent(&mut self) -> &mut T {
        &mut self.now.value
    }

    /// Makes a call that may only read the value.
    pub fn only_read<A>(&mut self, call: impl FnOnce(&mut T) -> A) -> Result<A, String> {
        let before = self.now;
        let answer = call(&mut self.now.value);
        if self.now != before {
            return Err(format!("{CHANGED}: {:?}\nbefore: {:?}", self.now.value, before.value));
        }
        Ok(answer)
    }

    /// Every word as it was.
    pub fn kept(&self) -> Outcome {
        self.holds(self.before.value)
    }

    pub fn holds(&self, want: T) -> Outcome {
        let got = self.now.value;
        if got != want {
            let mut pairs = bytes(&got).iter().zip(bytes(&want));
            let at = pairs.position(|(got, want)| got != want).expect("unequal values");
            return Err(format!("stored, at byte {at}: got {got:?}\nwant {want:?}"));
        }
        if (self.now.ahead, self.now.behind) != (self.before.ahead, self.before.behind) {
            return Err(format!("a byte beside what was lent was changed; stored: {got:?}"));
        }
        Ok(())
    }

    /// The reference's number; where it is 0 the reference's value, else every word as it was.
    pub fn judge(&self, number: u32, want: Result<T, u32>) -> Outcome {
        same_number(number, want.err().unwrap_or(0))?;
        want.map_or_else(|_| self.kept(), |value| self.holds(value))
    }
}

/// Noise bytes around every lent buffer.
const GUARD: usize = 32;

/// A buffer that a call reads or writes; beside one to be written, how it was and how the reference
/// leaves it.
#[derive(Default)]
pub struct Buffer {
    now: Vec<u8>,
    before: Vec<u8>,
    want: Vec<u8>,
    lent: Range<usize>,
}

impl Buffer {
    /// Full of noise, to be written.
    pub fn noise(&mut self, length: usize, rng: &mut Rng) {
        // Any alignment may be lent.
        let start = GUARD + rng.below(8);
        self.now.resize(start + length + GUARD, 0);
        rng.fill(&mut self.now);
        self.before.clone_from(&self.now);
        self.want.clone_from(&self.now);
        self.lent = start..start + length;
    }

    /// Holds bytes to be read, of which the first `length` are lent; the others lie behind, so that
    /// reading too far shows.
    pub fn hold(&mut self, bytes: &[u8], length: usize, rng: &mut Rng) {
        let start = GUARD + rng.below(8);
        let end = start + bytes.len();
        self.now.resize(end + GUARD, 0);
        rng.fill(&mut self.now[..start]);
        self.now[start..end].copy_from_slice(bytes);
        rng.fill(&mut self.now[end..]);
        self.lent = start..start + length;
    }

    pub fn holding(bytes: &[u8], rng: &mut Rng) -> Self {
        let mut buffer = Buffer::default();
        buffer.hold(bytes, bytes.len(), rng);
        buffer
    }

    /// Puts other bytes in place of the noise.
    pub fn set(&mut self, bytes: &[u8]) {
        for memory in [&mut self.now, &mut self.before, &mut self.want] {
            memory[self.lent.clone()].copy_from_slice(bytes);
        }
    }

    pub fn lent(&mut self) -> &mut [u8] {
        &mut self.now[self.lent.clone()]
    }

    /// Makes a call that may only read the bytes.
    pub fn only_read<A>(&mut self, call: impl FnOnce(&mut [u8]) -> A) -> Result<A, String> {
        let before = self.now.clone();
        let answer = call(self.lent());
        if self.now != before {
            return Err(CHANGED.to_string());
        }
        Ok(answer)
    }

    pub fn bytes(&self) -> &[u8] {
        &self.now[self.lent.clone()]
    }

    pub fn before(&self) -> &[u8] {
        &self.before[self.lent.clone()]
    }

    /// The same bytes in the reference's hands.
    pub fn want(&mut self) -> &mut [u8] {
        &mut self.want[self.lent.clone()]
    }

    /// Every byte as the reference leaves it.
    pub fn judge(&self) -> Outcome {
        // Whole first, which is fast.
        if self.now == self.want {
            return Ok(());
        }
        let at = (0..self.want.len()).find(|&i| self.now[i] != self.want[i]).expect("equal lengths");
        let (got, want) = (self.now[at], self.want[at]);
        let at = at as isize - self.lent.start as isize;
        Err(format!("byte {at} of the buffer: got {got:02x}, want {want:02x}"))
    }

    /// The bytes beside those lent as they were.
    pub fn judge_outside(&self) -> Outcome {
        let outside = [0..self.lent.start, self.lent.end..self.now.len()];
        if outside.into_iter().any(|part| self.now[part.clone()] != self.before[part]) {
            return Err("a byte outside the buffer was changed".to_string());
        }
        Ok(())
    }
}
