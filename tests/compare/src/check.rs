//! One case at a time: the same input to an implementation and to the reference.

mod assembly;
mod header;
mod ledger;
mod lent;
mod replay;
mod reply;
mod returned;
mod seen;
mod setup;
mod watched;

pub use assembly::Step;
pub use ledger::{Operation, Start};
pub use replay::Cuts;

use crate::calls::Calls;
use crate::rng::Rng;
use eoswynnor::ffi::ReadSegment;
use lent::{Buffer, Place};
use seen::Seen;
use watched::Watched;

/// Err holds the text of the first difference.
pub type Outcome = Result<(), String>;

fn same_number(got: u32, want: u32) -> Outcome {
    if got != want {
        return Err(format!("number: got {got}, want {want}"));
    }
    Ok(())
}

/// The positions and handles of a list, and zeros in the places behind it.
fn same_list(places: &[ReadSegment], count: u32, want: &[(u32, u32)]) -> Outcome {
    let (used, unused) = places.split_at(places.len().min(count as usize));
    let got: Vec<(u32, u32)> = used.iter().map(|entry| (entry.position, entry.target.handle)).collect();
    if got != want {
        return Err(format!("positions and handles: got {got:?}, want {want:?}"));
    }
    if unused.iter().any(|entry| *entry != ReadSegment::default()) {
        return Err(format!("behind the list: got {unused:?}, want zeros"));
    }
    Ok(())
}

pub fn hex(bytes: &[u8]) -> String {
    bytes.iter().map(|byte| format!("{byte:02x}")).collect()
}

pub struct Checker<C> {
    calls: Watched<C>,
    /// Whether each family's line is printed as it ends.
    pub loud: bool,
    families: Vec<(&'static str, u64)>,
    pub seen: Seen,
    noise: Rng,
    /// What a call is lent for reading.
    input: Buffer,
    /// What it may write.
    memory: Buffer,
}

impl<C: Calls> Checker<C> {
    pub fn new(calls: C, seed: u64) -> Self {
        Checker {
            calls: Watched(calls),
            loud: false,
            families: Vec::new(),
            seen: Seen::default(),
            noise: Rng(!seed),
            input: Buffer::default(),
            memory: Buffer::default(),
        }
    }

    pub fn family(&mut self, name: &'static str) {
        self.end_family();
        self.families.push((name, 0));
    }

    pub fn end_family(&self) {
        if let (true, Some((name, cases))) = (self.loud, self.families.last()) {
            println!("{name:<26}{cases:>10}");
        }
    }

    fn count(&mut self) {
        self.families.last_mut().expect("a family").1 += 1;
    }

    /// The family at work.
    pub fn name(&self) -> &'static str {
        self.families.last().map_or("none", |family| family.0)
    }

    pub fn total(&self) -> u64 {
        self.families.iter().map(|family| family.1).sum()
    }

    /// The number, the length stored and every byte of the memory beside what the reference gives
    /// and leaves.
    fn judge_memory(
        &mut self,
        number: u32,
        length: &Place<usize>,
        reference: impl FnOnce(&mut [u8]) -> Result<usize, u32>,
    ) -> Outcome {
        length.judge(number, reference(self.memory.want()))?;
        self.memory.judge()
    }

    fn buffer_text(&self) -> String {
        let before = self.memory.before();
        format!("buffer before ({} bytes): {}", before.len(), hex(before))
    }

    /// What the families should have drawn from the implementation but did not.
    pub fn unseen(&self) -> Vec<String> {
        self.seen.missing()
    }

    /// What no call may give.
    pub fn unwanted(&self) -> Vec<String> {
        self.seen.unwanted()
    }
}
