//! The families of cases. Fixed sets first, then `cases` random ones in each random family.

pub mod assembly;
pub mod goes;
pub mod header;
pub mod ledger;
pub mod order;
pub mod replay;
pub mod reply;
pub mod returned;
pub mod setup;

use crate::calls::Calls;
use crate::check::{Checker, Outcome};
use crate::rng::Rng;

/// Counts and words near the places where sums, products and limits turn over.
fn edges() -> Vec<u32> {
    let powers = (5..32).flat_map(|bit| [-1, 0, 1, 16].map(|step| (1u32 << bit).wrapping_add_signed(step)));
    (0..=20).chain((0..=20).map(|n| u32::MAX - n)).chain(powers).collect()
}

impl Rng {
    /// Often one at which something turns over.
    fn word(&mut self) -> u32 {
        const NAMED: [u32; 10] = [0, 1, 2, 3, 4, 16, 17, 0x7fff_ffff, 0x8000_0000, u32::MAX];
        match self.below(4) {
            0 => NAMED[self.below(NAMED.len())],
            1 => self.below(40) as u32,
            _ => self.draw() as u32,
        }
    }
}

impl Rng {
    /// Another order, often that of before turned round, with two exchanged or with one moved; or none.
    pub fn reorder<T>(&mut self, list: &mut [T]) {
        if list.is_empty() {
            return;
        }
        let (one, two) = (self.below(list.len()), self.below(list.len()));
        let between = one.min(two)..=one.max(two);
        match self.below(8) {
            0 => {}
            1 => list.reverse(),
            2 => list.swap(one, two),
            3 => list[between].rotate_left(1),
            4 => list[between].rotate_right(1),
            _ => (1..list.len()).rev().for_each(|at| list.swap(at, self.below(at + 1))),
        }
    }
}

fn put(frame: &mut [u8], word: usize, value: u32) {
    frame[4 * word..4 * word + 4].copy_from_slice(&value.to_be_bytes());
}

pub fn words(words: &[u32]) -> Vec<u8> {
    words.iter().flat_map(|word| word.to_be_bytes()).collect()
}

pub fn run<C: Calls>(check: &mut Checker<C>, seed: u64, cases: u64) -> Outcome {
    let rng = &mut Rng(seed);
    header::run(check, rng, cases)?;
    setup::run(check, rng, cases)?;
    reply::run(check, rng, cases)?;
    assembly::run(check, rng, cases)?;
    goes::run(check, rng, cases)?;
    order::run(check, rng, cases)?;
    returned::run(check, rng, cases)?;
    ledger::run(check, rng, cases)?;
    replay::run(check, rng, cases)
}
