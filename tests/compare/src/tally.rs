//! The plain tally of demand 3, in document 01's words: it knows neither cut nor state, and keeps only T.

use crate::reference::header::{self, Kind};
use std::collections::BTreeMap;

pub struct Tally {
    /// The buffer as before the start, but with an inline base and all padding at their places.
    buffer: Vec<u8>,
    pulled: Vec<usize>,
    /// B + R1 + R2 + ...
    length: usize,
    /// T
    taken: Vec<u8>,
}

impl Tally {
    /// Fed the uncut frame of an accepted start and the buffer before it.
    pub fn new(frame: &[u8], before: &[u8]) -> Self {
        let (header, inline) = header::read(frame).expect("an accepted start");
        let mut totals = BTreeMap::<usize, usize>::new();
        for entry in &header.reads {
            *totals.entry(entry.position as usize).or_default() += entry.target.length as usize;
        }
        let zero = totals.remove(&0);
        let base = if header.kind == Kind::Nomsg { zero.expect("a base") } else { inline.len() };
        let length = base + totals.values().map(|total| total.next_multiple_of(4)).sum::<usize>();

        let mut fill = vec![true; length];
        for (&position, total) in &totals {
            fill[position..position + total.next_multiple_of(4)].fill(false);
        }
        let base: Vec<usize> = (0..length).filter(|&place| fill[place]).collect();
        let mut buffer = before.to_vec();
        for (&position, &total) in &totals {
            buffer[position + total..position + total.next_multiple_of(4)].fill(0);
        }
        let mut pulled = Vec::new();
        if header.kind == Kind::Nomsg {
            pulled.extend(base);
        } else {
            base.into_iter().zip(inline).for_each(|(place, &byte)| buffer[place] = byte);
        }
        pulled.extend(totals.iter().flat_map(|(&position, &total)| position..position + total));
        Tally { buffer, pulled, length, taken: Vec::new() }
    }

    /// N
    pub fn to_pull(&self) -> usize {
        self.pulled.len()
    }

    pub fn piece(&mut self, piece: &[u8]) -> u32 {
        if self.taken.len() + piece.len() > self.pulled.len() {
            return 18;
        }
        self.taken.extend_from_slice(piece);
        0
    }

    /// The number and the part handed back.
    pub fn ask(&self) -> (u32, Vec<u8>) {
        if self.taken.len() != self.pulled.len() {
            return (19, Vec::new());
        }
        (0, self.buffer()[..self.length].to_vec())
    }

    pub fn count(&self) -> usize {
        self.taken.len()
    }

    pub fn buffer(&self) -> Vec<u8> {
        let mut buffer = self.buffer.clone();
        self.pulled.iter().zip(&self.taken).for_each(|(&place, &byte)| buffer[place] = byte);
        buffer
    }
}

#[cfg(test)]
mod tests {
    use super::*;
    use crate::cases::assembly::{c6, c7, c8, c9, Frame, C6, C7_AT_16, C7_AT_20, C7_PULLED, INLINE, PULLED};
    use crate::rng::Rng;

    #[test]
    fn the_tally_counts() {
        let mut tally = Tally::new(&c8().bytes(), &[0x55; 22]);
        let pulled = [&INLINE[..], &PULLED].concat();
        assert_eq!((tally.to_pull(), tally.piece(&[0; 18]), tally.count()), (17, 18, 0));
        assert_eq!(tally.buffer(), [&[0x55; 13][..], &[0; 3], &[0x55; 6]].concat());
        assert_eq!((tally.piece(&pulled[..9]), tally.ask(), tally.count()), (0, (19, vec![]), 9));
        assert_eq!((tally.piece(&pulled), tally.piece(&[]), tally.count()), (18, 0, 9));
        assert_eq!((tally.piece(&pulled[9..]), tally.ask(), tally.count()), (0, (0, C6.to_vec()), 17));
        assert_eq!(tally.buffer(), [&C6[..], &[0x55; 2]].concat());
    }
    /// C6 to C9, and C7 with its segments exchanged on the wire.
    #[test]
    fn worked_examples_in_any_order() {
        let whole = [&INLINE[..], &PULLED].concat();
        let cases: [(Frame, &[u8], &[u8]); 5] = [
            (c6(), &PULLED, &C6),
            (c7(16), &C7_PULLED, &C7_AT_16),
            (c7(20), &C7_PULLED, &C7_AT_20),
            (c8(), &whole, &C6),
            (c9(), &PULLED, &C6),
        ];
        for (frame, pulled, message) in cases {
            for frame in [frame.falling(), frame] {
                let mut tally = Tally::new(&frame.bytes(), &[0x55; 30]);
                let (one, two) = pulled.split_at(3);
                assert_eq!((tally.piece(one), tally.piece(two)), (0, 0));
                assert_eq!(tally.ask(), (0, message.to_vec()));
            }
        }
    }

    /// Nothing of it hangs on the order of the wire, nor on where segments of one position are cut.
    #[test]
    fn the_tally_sees_neither_order_nor_cut() {
        let rng = &mut Rng(11);
        for at in 0..2_000 {
            let frame = rng.call([Kind::Msg, Kind::Nomsg][at % 2]);
            let (before, bytes) = (rng.noise(frame.length() + 3), rng.noise(frame.pulled()));
            let wire = rng.wire(&frame);
            let [mut one, mut two] =
                [&frame, &rng.cut(&wire)].map(|frame| Tally::new(&frame.bytes(), &before));
            for part in [&bytes[..bytes.len() / 2], &bytes[bytes.len() / 2..]] {
                assert_eq!((one.piece(part), two.piece(part)), (0, 0));
                assert_eq!((one.ask(), one.count(), one.buffer()), (two.ask(), two.count(), two.buffer()));
            }
        }
    }
}
