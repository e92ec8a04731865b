//! Families for the reassembly: starts, single calls with any state, whole lists of calls.

use super::header::bases;
use super::{put, words};
use crate::calls::Calls;
use crate::check::{Checker, Outcome, Step};
use crate::convert::flatten_state;
use crate::reference::assembly::{sorted, State, MAX_MESSAGE};
use crate::reference::header::{encode, Fault, Header, Kind, ReadSegment, Segment, MAX_READS};
use crate::rng::Rng;
use eoswynnor::ffi;
use std::collections::BTreeMap;

pub(super) const KINDS: [Kind; 2] = [Kind::Msg, Kind::Nomsg];
pub(super) const MOST: usize = MAX_MESSAGE as usize;

/// A header and what lies inline behind it.
#[derive(Clone)]
pub struct Frame {
    pub(super) header: Header,
    inline: Vec<u8>,
}

impl Frame {
    /// Segments by position and length.
    pub fn new(kind: Kind, segments: &[(u32, u32)], inline: &[u8]) -> Self {
        let reads = segments.iter().map(|&(position, length)| ReadSegment {
            position,
            target: Segment { handle: 7, length, offset: 1 << 40 },
        });
        let header = Header { xid: 0x2a, credit: 0x20, kind, reads: reads.collect(), ..Header::default() };
        Frame { header, inline: inline.to_vec() }
    }

    /// Each segment's memory begins where the one before it ends.
    pub(super) fn in_one_memory(mut self) -> Self {
        let mut offset = 1 << 40;
        for entry in &mut self.header.reads {
            entry.target.offset = offset;
            offset += u64::from(entry.target.length);
        }
        self
    }

    /// The same with another read list.
    fn with(&self, reads: Vec<ReadSegment>) -> Self {
        Frame { header: Header { reads, ..self.header.clone() }, inline: self.inline.clone() }
    }

    /// The same segments, with their positions in this order on the wire; those of one position stay
    /// in theirs.
    fn dealt(&self, positions: &[u32]) -> Self {
        let mut left = self.header.reads.clone();
        let deal = positions.iter().map(|&position| {
            let at = left.iter().position(|entry| entry.position == position);
            left.remove(at.expect("one for each position"))
        });
        self.with(deal.collect())
    }

    pub(super) fn positions(&self) -> Vec<u32> {
        self.header.reads.iter().map(|entry| entry.position).collect()
    }

    /// Sorted on the wire already.
    pub fn rising(&self) -> Self {
        let mut positions = self.positions();
        positions.sort();
        self.dealt(&positions)
    }

    /// Positions never rise along the wire; segments of one position stay in their order.
    pub fn falling(&self) -> Self {
        let mut positions = self.positions();
        positions.sort_by_key(|&position| !position);
        self.dealt(&positions)
    }

    pub fn bytes(&self) -> Vec<u8> {
        [encode(&self.header), self.inline.clone()].concat()
    }

    /// All lengths of segments together.
    pub fn pulled(&self) -> usize {
        self.header.reads.iter().map(|entry| entry.target.length as usize).sum()
    }

    /// The message's length if the start is accepted.
    pub fn length(&self) -> usize {
        let mut totals = BTreeMap::<u32, usize>::new();
        for entry in &self.header.reads {
            *totals.entry(entry.position).or_default() += entry.target.length as usize;
        }
        self.inline.len() + totals.values().map(|total| total.next_multiple_of(4)).sum::<usize>()
    }

    /// Around the message; small ones where it is large.
    fn rooms(&self) -> Vec<usize> {
        match self.length() {
            0 => vec![0, 1, 40],
            length @ 1..4096 => vec![0, length - 1, length, length + 1, length + 40],
            _ => vec![0, 64],
        }
    }

    /// The state as a start leaves it, whether or not one would be accepted.
    pub(super) fn state(&self, buffer: usize, taken: usize) -> State {
        State { reads: sorted(&self.header.reads), ..self.wire_state(buffer, taken) }
    }

    /// The same with the list as it lies on the wire.
    pub fn wire_state(&self, buffer: usize, taken: usize) -> State {
        let zero = self.header.reads.iter().filter(|entry| entry.position == 0);
        let base = match self.header.kind {
            Kind::Nomsg => zero.map(|entry| entry.target.length as usize).sum(),
            _ => self.inline.len(),
        };
        let (kind, reads) = (self.header.kind, self.header.reads.clone());
        State { kind, reads, base, buffer, taken }
    }
}

impl Rng {
    /// Often such that no padding is needed, or nothing at all; now and then long.
    fn total(&mut self) -> u32 {
        match self.below(32) {
            0 => self.below(1000) as u32,
            1..10 => self.below(6) as u32,
            10..20 => 4 * self.below(6) as u32,
            _ => self.below(40) as u32,
        }
    }

    /// Lengths that add up to the total, zeros among them.
    fn parts(&mut self, total: u32, count: usize) -> Vec<u32> {
        let mut ends: Vec<u32> = (1..count).map(|_| self.below(total as usize + 1) as u32).collect();
        ends.push(total);
        ends.sort();
        let mut before = 0;
        ends.into_iter().map(|end| end - std::mem::replace(&mut before, end)).collect()
    }

    pub(super) fn chunk(&mut self, position: u32, total: u32, segments: usize) -> Vec<ReadSegment> {
        let parts = self.parts(total, segments);
        let target = |length| Segment { length, ..self.segment() };
        parts.into_iter().map(target).map(|target| ReadSegment { position, target }).collect()
    }

    /// The same segments in another wire order; those of one position stay in theirs, so that all else
    /// is the same.
    pub fn wire(&mut self, frame: &Frame) -> Frame {
        let mut positions = frame.positions();
        positions.sort();
        self.reorder(&mut positions);
        frame.dealt(&positions)
    }

    /// A frame whose start is accepted, given room; its segments lie in any order.
    pub fn call(&mut self, kind: Kind) -> Frame {
        let mut header = self.shape(kind, 0, 0, None);
        if self.below(4) == 0 {
            let (chunks, reply) = (self.below(5), self.below(4).checked_sub(1));
            header = self.shape(kind, 0, chunks, reply);
        }
        let base =
            4 * [self.below(12), self.below(12), self.below(12), self.below(100)][self.below(4)] as u32;
        let most = 1 + self.below(3);
        let mut segments = |rng: &mut Rng, position, total| {
            let free = MAX_READS - header.reads.len();
            if free > 0 {
                let count = 1 + rng.below(most.min(free));
                header.reads.extend(rng.chunk(position, total, count));
            }
            free > 0
        };
        if kind == Kind::Nomsg {
            segments(self, 0, base);
        }
        let (mut position, mut left, mut step) = (0, base, 4);
        for _ in 0..[self.below(4), self.below(17)][self.below(2)] {
            // No chunk of this loop stands at 0, nor where an empty one does.
            if left < step {
                break;
            }
            let gap = [step, step, left, step + 4 * self.below((left - step) as usize / 4 + 1) as u32];
            let gap = gap[self.below(4)];
            let total = self.total();
            if !segments(self, position + gap, total) {
                break;
            }
            position += gap + total.next_multiple_of(4);
            left -= gap;
            step = if total == 0 { 4 } else { 0 };
        }
        self.reorder(&mut header.reads);
        let inline = if kind == Kind::Msg { base as usize } else { 0 };
        Frame { header, inline: self.noise(inline) }
    }

    /// One or more segments for each where it stood, 16 in all at most, with any handles and offsets.
    pub fn cut(&mut self, frame: &Frame) -> Frame {
        let mut spare = MAX_READS - frame.header.reads.len();
        let mut reads = Vec::new();
        for entry in &frame.header.reads {
            let more = [0, self.below(spare + 1), self.below(spare.min(2) + 1)][self.below(3)];
            spare -= more;
            reads.extend(self.chunk(entry.position, entry.target.length, more + 1));
        }
        frame.with(reads)
    }

    /// One thing that may or may not make the start refuse.
    fn spoil(&mut self, frame: &mut Frame) {
        let reads = &mut frame.header.reads;
        let at = self.below(reads.len().max(1));
        let step = 4 * (1 + self.below(3) as u32);
        match (self.below(13), reads.get_mut(at)) {
            (0, _) => frame.inline.push(7),
            (1, _) => frame.inline.truncate(frame.inline.len().saturating_sub(1 + self.below(8))),
            (2, Some(entry)) => entry.position = entry.position.wrapping_add(step),
            (3, Some(entry)) => entry.position = entry.position.wrapping_sub(step),
            // The whole chunk and all behind it in the message.
            (4, Some(&mut ReadSegment { position: first, .. })) => {
                let behind = reads.iter_mut().filter(|entry| entry.position >= first);
                behind.for_each(|entry| entry.position = entry.position.wrapping_add(step))
            }
            (5, Some(entry)) => entry.target.length = entry.target.length.wrapping_add(step / 4),
            (6, Some(entry)) => entry.target.length = entry.target.length.saturating_sub(step / 4),
            (7, Some(entry)) => entry.target.length = self.word(),
            (8, Some(entry)) => entry.position = [0, u32::MAX - 3, self.word() & !3, 2][self.below(4)],
            (9, Some(_)) => drop(reads.remove(at)),
            (10, Some(&mut entry)) => reads.insert(at, entry),
            (11, _) => frame.header.kind = KINDS[self.below(2)],
            (12, _) if self.below(4) == 0 => {
                let fault = [Fault::Chunk, Fault::Version { low: 1, high: 1 }][self.below(2)];
                *frame = Frame {
                    header: Header { kind: Kind::Error(fault), ..Header::default() },
                    inline: vec![],
                };
            }
            _ => {}
        }
    }

    /// A list that takes these bytes of those to pull; empty and refused pieces and askings between.
    pub fn list(&mut self, bytes: &[u8], to_pull: usize) -> Vec<Step> {
        let most = [1 + bytes.len() / 50, 3 + bytes.len() / 50, 9, 70, bytes.len().max(1)][self.below(5)];
        let (mut rest, mut steps) = (bytes, Vec::new());
        loop {
            for _ in 0..self.below(2) * self.below(4) {
                let left = to_pull - (bytes.len() - rest.len());
                let long = left + 1 + self.below(2) * self.below(40);
                steps.push(match self.below(4) {
                    0 => Step::Piece(vec![]),
                    1 => Step::Piece(self.noise(long)),
                    _ => Step::Ask,
                });
            }
            if rest.is_empty() {
                return steps;
            }
            let (now, later) = rest.split_at(1 + self.below(most.min(rest.len())));
            steps.push(Step::Piece(now.to_vec()));
            rest = later;
        }
    }

    /// Noise in every unused place and reserved word.
    pub(super) fn noisy_state(&mut self, state: &State) -> ffi::State {
        let mut flat = flatten_state(state);
        for place in &mut flat.reads[state.reads.len()..] {
            *place = ReadSegment { position: self.word(), target: self.segment() }.into();
        }
        self.reserved(&mut flat.reads);
        flat
    }
}

pub const INLINE: [u8; 12] = [1, 2, 3, 4, 5, 6, 7, 8, 9, 10, 11, 12];
pub const PULLED: [u8; 5] = [0xa1, 0xa2, 0xa3, 0xa4, 0xa5];
pub const C6: [u8; 20] = [1, 2, 3, 4, 5, 6, 7, 8, 0xa1, 0xa2, 0xa3, 0xa4, 0xa5, 0, 0, 0, 9, 10, 11, 12];
/// C7's messages: the second chunk b1 to b4 at 16 and at 20.
pub const C7_AT_16: [u8; 24] =
    [1, 2, 3, 4, 5, 6, 7, 8, 0xa1, 0xa2, 0xa3, 0xa4, 0xa5, 0, 0, 0, 0xb1, 0xb2, 0xb3, 0xb4, 9, 10, 11, 12];
pub const C7_AT_20: [u8; 24] =
    [1, 2, 3, 4, 5, 6, 7, 8, 0xa1, 0xa2, 0xa3, 0xa4, 0xa5, 0, 0, 0, 9, 10, 11, 12, 0xb1, 0xb2, 0xb3, 0xb4];
pub const C7_PULLED: [u8; 9] = [0xa1, 0xa2, 0xa3, 0xa4, 0xa5, 0xb1, 0xb2, 0xb3, 0xb4];

pub fn c6() -> Frame {
    Frame::new(Kind::Msg, &[(8, 5)], &INLINE)
}

/// C6 and a second chunk.
pub fn c7(position: u32) -> Frame {
    Frame::new(Kind::Msg, &[(8, 5), (position, 4)], &INLINE)
}

pub fn c8() -> Frame {
    Frame::new(Kind::Nomsg, &[(0, 12), (8, 5)], &[])
}

pub fn c9() -> Frame {
    Frame::new(Kind::Msg, &[(8, 2), (8, 3)], &INLINE)
}

/// As many chunks as there can be, for each kind.
fn sixteen() -> [Frame; 2] {
    let chunks = |first: u32| (0..16).map(move |i| (first + 12 * i, 5 - i % 2)).collect::<Vec<_>>();
    let zero = [&[(0, 128)], &chunks(0)[1..]].concat();
    [Frame::new(Kind::Msg, &chunks(4), &Rng(6).noise(128)), Frame::new(Kind::Nomsg, &zero, &[])]
}

pub type Named<C> = (&'static str, fn(&mut Checker<C>) -> Outcome);

/// Document 01's "Errors we made or met", each a case of its own with the outcome that 01 names.
pub fn mistakes<C: Calls>() -> [Named<C>; 6] {
    [
        ("error: segment padding", |check| check.worked(&c9().bytes(), &PULLED, 0x55, Ok((&C6, 2)))),
        ("error: inline positions", |check| {
            check.worked(&c7(16).bytes(), &C7_PULLED, 0x55, Ok((&C7_AT_16, 2)))?;
            check.worked(&c7(12).bytes(), &C7_PULLED, 0x55, Err(14))
        }),
        ("error: equal cursor", |check| check.worked(&c7(20).bytes(), &C7_PULLED, 0x55, Ok((&C7_AT_20, 2)))),
        ("error: any marker", |check| {
            // C5, and a read entry behind a marker of 2.
            check.worked(&words(&[0x2a, 1, 0x20, 0, 2, 0, 0]), &[], 0x55, Err(6))?;
            let mut frame = c6().bytes();
            put(&mut frame, 4, 2);
            check.worked(&frame, &PULLED, 0x55, Err(6))
        }),
        ("error: held padding", |check| {
            [0, 0x55, 0xff]
                .iter()
                .try_for_each(|&held| check.worked(&c6().bytes(), &PULLED, held, Ok((&C6, 1))))
        }),
        ("error: reply to an ERROR", |check| {
            for number in 0..=21 {
                check.error_reply(&words(&[0x2a, 1, 0x20, 4, 2]), 20, number, 32, 28)?;
                check.error_reply(&words(&[0x2a, 2, 0x20, 4, 1, 1, 1]), 28, number, 32, 28)?;
            }
            Ok(())
        }),
    ]
}

fn worked<C: Calls>(check: &mut Checker<C>) -> Outcome {
    check.family("worked messages");
    let c2 = words(&[0x2a, 1, 0x20, 0, 0, 0, 0]);
    for held in [0, 0x55, 0xff] {
        check.worked(&[], &[], held, Err(1))?;
        check.worked(&c2, &[], held, Ok((&[], 0)))?;
        check.worked(&c2[..27], &[], held, Err(5))?;
        check.worked(&c6().bytes(), &PULLED, held, Ok((&C6, 1)))?;
        check.worked(&c7(16).bytes(), &C7_PULLED, held, Ok((&C7_AT_16, 2)))?;
        check.worked(&c7(20).bytes(), &C7_PULLED, held, Ok((&C7_AT_20, 2)))?;
        check.worked(&c7(12).bytes(), &C7_PULLED, held, Err(14))?;
        check.worked(&c7(24).bytes(), &C7_PULLED, held, Err(14))?;
        check.worked(&c8().bytes(), &[&INLINE[..], &PULLED].concat(), held, Ok((&C6, 3)))?;
        check.worked(&c9().bytes(), &PULLED, held, Ok((&C6, 2)))?;
    }
    for (name, run) in mistakes() {
        check.family(name);
        run(check)?;
    }
    Ok(())
}

pub fn starts<C: Calls>(check: &mut Checker<C>, rng: &mut Rng, cases: u64) -> Outcome {
    check.family("start every position");
    for shape in 0..2 * 4 * 7 * 4 * 9 * 4 {
        let (kind, base) = (KINDS[shape % 2], 4 * (shape / 2 % 4));
        let (one, two) = (4 * (shape / 8 % 7) as u32, 4 * (shape / 224 % 9) as u32);
        let (first, second) = ([0, 1, 4, 5][shape / 56 % 4], [0, 3, 4, 9][shape / 2016]);
        let mut segments = vec![(one, first), (two, second)];
        let mut inline = rng.noise(base);
        if kind == Kind::Nomsg {
            segments.insert(rng.below(3), (0, base as u32));
            inline.clear();
        }
        let frame = Frame::new(kind, &segments, &inline);
        let bytes = frame.bytes();
        frame.rooms().into_iter().try_for_each(|room| check.start(&bytes, room))?;
        check.start(&Frame::new(kind, &segments[..segments.len() - 1], &inline).bytes(), 40)?;
    }
    check.family("start every edge");
    for _ in 0..60 {
        let kind = KINDS[rng.below(2)];
        let frame = rng.call(kind);
        for at in 0..frame.header.reads.len() {
            for position in (0..frame.length() as u32 + 12).step_by(2).chain([u32::MAX - 3, u32::MAX]) {
                let mut frame = frame.clone();
                frame.header.reads[at].position = position;
                check.start(&frame.bytes(), frame.length())?;
            }
        }
        // Each length of the base, one more or less of each segment, and every room.
        let bytes = frame.bytes();
        for length in 0..=frame.inline.len() {
            check.start_part(&bytes, bytes.len() - length, frame.length())?;
        }
        for (at, step) in (0..frame.header.reads.len()).flat_map(|at| [-5, -4, -1, 1, 3, 4].map(|n| (at, n)))
        {
            let mut frame = frame.clone();
            let length = &mut frame.header.reads[at].target.length;
            *length = length.saturating_add_signed(step);
            check.start(&frame.bytes(), frame.length())?;
        }
        (0..=frame.length() + 8).try_for_each(|room| check.start(&bytes, room))?;
    }
    check.family("start any counts of reads");
    for (kind, count) in KINDS.iter().flat_map(|&kind| (0..=18).map(move |count| (kind, count))) {
        for length in [0, 1, 4, 5] {
            let spread: Vec<_> = (0..count).map(|i| (4 + 12 * i, length)).collect();
            let joined: Vec<_> = (0..count).map(|i| (4 * (i / 6), length)).collect();
            for segments in [spread, joined] {
                let rising = Frame::new(kind, &segments, &[9; 64][..if kind == Kind::Msg { 64 } else { 0 }]);
                for frame in [rising.falling(), rng.wire(&rising), rising] {
                    frame.rooms().into_iter().try_for_each(|room| check.start(&frame.bytes(), room))?;
                }
            }
        }
    }
    check.family("start random");
    for _ in 0..cases {
        let kind = KINDS[rng.below(2)];
        let mut frame = rng.call(kind);
        (0..rng.below(4)).for_each(|_| rng.spoil(&mut frame));
        let rooms = frame.rooms();
        check.start(&frame.bytes(), rooms[rng.below(rooms.len())])?;
    }
    check.family("start every truncation");
    let frames = (0..20).map(|i| rng.call(KINDS[i % 2]).bytes()).collect::<Vec<_>>();
    let headers = bases(rng);
    for frame in frames.into_iter().chain(headers.iter().map(encode)).chain([c6().bytes(), c8().bytes()]) {
        for length in 0..=frame.len() {
            let room = [256, rng.below(64)][rng.below(2)];
            check.start_part(&frame, length, room)?;
        }
    }
    check.family("start edited");
    for _ in 0..cases {
        let mut frame = rng.edited();
        if rng.below(2) == 0 {
            // A fault of the reading comes before any of the start's own.
            let kind = KINDS[rng.below(2)];
            let mut spoiled = rng.call(kind);
            (0..rng.below(3)).for_each(|_| rng.spoil(&mut spoiled));
            frame = spoiled.bytes();
            let word = rng.below(frame.len() / 4);
            put(&mut frame, word, [rng.word(), rng.below(24) as u32][rng.below(2)]);
        }
        let room = [256, rng.below(200)][rng.below(2)];
        check.start(&frame, room)?;
    }
    Ok(())
}

/// Lengths whose sums and roundings pass 2^32.
pub fn sums<C: Calls>(check: &mut Checker<C>, rng: &mut Rng) -> Outcome {
    check.family("start sums");
    let lengths = [1, 4, 8, 1 << 28, 1 << 30, 1 << 31, (1 << 31) + 8, u32::MAX - 3, u32::MAX - 2, u32::MAX];
    for (&one, &two) in lengths.iter().flat_map(|one| lengths.iter().map(move |two| (one, two))) {
        for count in [0, 1, 2, 3, 7, 15] {
            for (kind, position) in [(Kind::Msg, 4), (Kind::Msg, 8), (Kind::Nomsg, 0), (Kind::Nomsg, 8)] {
                let mut segments = vec![(position, one)];
                segments.extend((0..count).map(|_| (position, two)));
                if kind == Kind::Nomsg && position > 0 && count < 15 {
                    segments.insert(0, (0, 8));
                }
                rng.reorder(&mut segments);
                let inline = if kind == Kind::Msg { rng.noise(8) } else { vec![] };
                check.start(&Frame::new(kind, &segments, &inline).bytes(), 64)?;
                // One more chunk behind, where a sum that wrapped would have its end.
                if segments.len() < MAX_READS {
                    let total = segments.iter().fold(0u32, |sum, entry| sum.wrapping_add(entry.1));
                    for behind in
                        [position + 4, total & !3, (total & !3).wrapping_add(position), u32::MAX - 3]
                    {
                        let mut segments = [&segments[..], &[(behind, 4)]].concat();
                        rng.reorder(&mut segments);
                        check.start(&Frame::new(kind, &segments, &inline).bytes(), 64)?;
                    }
                }
            }
        }
    }
    Ok(())
}

/// Around 1,048,576; only some of them with that much room.
pub fn largest<C: Calls>(check: &mut Checker<C>, rng: &mut Rng) -> Outcome {
    check.family("message limit");
    let mut whole = Vec::new();
    for step in [-8, -5, -4, -3, -1, 0, 1, 3, 4, 8] {
        let total = MOST.wrapping_add_signed(step);
        let rest = (total - 8) as u32;
        let spaced = |base: usize| {
            let each = ((total - base) / 12) as u32 & !3;
            let last = (total - base) as u32 - 11 * each;
            (0..12).map(move |i| (4 + i * (each + 4), if i < 11 { each } else { last })).collect::<Vec<_>>()
        };
        let zero = [&[(0, 60), (0, 4)], &spaced(64)[..]].concat();
        let frames = [
            Frame::new(Kind::Msg, &[(4, rest)], &rng.noise(8)),
            Frame::new(Kind::Msg, &[(8, rest)], &rng.noise(8)),
            Frame::new(Kind::Msg, &spaced(64), &rng.noise(64)),
            Frame::new(Kind::Nomsg, &[(0, total as u32)], &[]),
            Frame::new(Kind::Nomsg, &[(0, 8), (4, rest)], &[]),
            Frame::new(Kind::Nomsg, &zero, &[]),
            Frame::new(Kind::Msg, &[], &rng.noise(total)),
            Frame::new(Kind::Msg, &[(12, 5)], &rng.noise(total - 8)),
        ];
        for frame in frames {
            let frame = rng.wire(&frame);
            let bytes = frame.bytes();
            [0, 64].into_iter().try_for_each(|room| check.start(&bytes, room))?;
            if step == 0 {
                check.start(&bytes, MOST - 1)?;
                check.start(&bytes, MOST + 5)?;
            }
            // Three bytes less are padding, if a chunk lacks them and not the base.
            if frame.length() == MOST && frame.state(0, 0).base % 4 == 0 && [0, -3].contains(&step) {
                whole.push(frame);
            }
        }
    }
    // A state over a buffer that would hold the message above the limit.
    check.family("states at the limit");
    for (kind, length) in KINDS.iter().flat_map(|&kind| [MOST - 4, MOST, MOST + 4].map(|n| (kind, n))) {
        let base = if kind == Kind::Nomsg { &[][..] } else { &[9; 8] };
        let lists =
            [vec![(0, 8), (4, length as u32 - 8)], vec![(4, length as u32 - 8)], vec![(0, length as u32)]];
        for list in &lists {
            let frame = Frame::new(kind, list, base);
            let state = rng.noisy_state(&frame.state(MOST + 8, 0));
            check.take(&state, &[7; 13], MOST + 8)?;
            check.ask(&ffi::State { taken: frame.pulled(), ..state }, MOST + 8)?;
            check.ask(&ffi::State { base: length, read_count: 0, ..state }, MOST + 8)?;
        }
    }
    check.family("largest messages");
    for frame in whole {
        let (cut, bytes) = (rng.cut(&frame).bytes(), rng.noise(frame.pulled()));
        let (behind, at) = (rng.below(2), rng.below(bytes.len() + 1));
        let before = rng.noise(MOST + behind);
        let list = [Step::Piece(bytes[..at].to_vec()), Step::Piece(bytes[at..].to_vec()), Step::Ask];
        check.way(&cut, &before, &list)?;
        check.tallied(&frame.bytes(), &cut, &before, &list)?;
        check.two_cuts([&cut, &frame.bytes()], &before, [&list, &[Step::Piece(bytes)]])?;
    }
    Ok(())
}

/// Pieces that end where the bits say, and with the last byte.
pub(super) fn split(bytes: &[u8], ends: usize) -> Vec<Step> {
    let mut steps = vec![Step::Ask];
    let mut piece = Vec::new();
    for (at, &byte) in bytes.iter().enumerate() {
        piece.push(byte);
        let ends_here = ends.checked_shr(at as u32).is_some_and(|ends| ends & 1 == 1);
        if ends_here || at + 1 == bytes.len() {
            steps.extend([Step::Piece(std::mem::take(&mut piece)), Step::Ask]);
        }
    }
    steps
}

pub fn splits<C: Calls>(check: &mut Checker<C>, rng: &mut Rng) -> Outcome {
    check.family("every split");
    let mut frames = vec![
        c6(),
        c7(16),
        c7(20),
        c9(),
        Frame::new(Kind::Msg, &[(4, 0), (4, 3), (8, 1), (16, 0), (20, 4)], &INLINE),
        Frame::new(Kind::Nomsg, &[(0, 0)], &[]),
        Frame::new(Kind::Nomsg, &[(0, 3), (0, 1), (4, 5)], &[]),
        Frame::new(Kind::Nomsg, &[(0, 4), (0, 0), (0, 4), (4, 1), (12, 1)], &[]),
    ];
    while frames.len() < 16 {
        let frame = rng.call(KINDS[frames.len() % 2]);
        frames.extend((1..9).contains(&frame.pulled()).then_some(frame));
    }
    for frame in &frames {
        let bytes = rng.noise(frame.pulled());
        for ends in 0..1 << bytes.len().saturating_sub(1) {
            let wire = rng.wire(frame);
            let (uncut, cut) = (wire.bytes(), rng.cut(&wire).bytes());
            let (before, steps) = (rng.noise(frame.length() + ends % 3), split(&bytes, ends));
            check.way(&cut, &before, &steps)?;
            check.tallied(&uncut, &cut, &before, &steps)?;
            check.two_cuts([&cut, &uncut], &before, [&steps, &[Step::Piece(bytes.clone())]])?;
        }
    }
    check.family("every two pieces");
    let drawn = (0..200).map(|i| rng.call(KINDS[i % 2])).collect::<Vec<_>>();
    for frame in
        sixteen().iter().flat_map(|frame| [frame.clone(), frame.falling()]).chain([c8()]).chain(drawn)
    {
        let (uncut, bytes) = (frame.bytes(), rng.noise(frame.pulled()));
        // Of a long one some places must do.
        for at in (0..=bytes.len()).step_by(1 + bytes.len() / 100) {
            let before = rng.noise(frame.length());
            let steps = [&bytes[..at], &bytes[at..]].map(|piece| Step::Piece(piece.to_vec()));
            check.way(&uncut, &before, &steps)?;
            // One byte too many behind each first piece, then the rest all the same.
            let long = Step::Piece(rng.noise(bytes.len() - at + 1));
            let steps = [steps[0].clone(), long, Step::Ask, steps[1].clone(), Step::Ask];
            check.tallied(&uncut, &uncut, &before, &steps)?;
            check.way(&uncut, &before, &steps)?;
        }
    }
    Ok(())
}

pub fn lists<C: Calls>(check: &mut Checker<C>, rng: &mut Rng, cases: u64) -> Outcome {
    check.family("lists of calls");
    for _ in 0..cases / 4 {
        let kind = KINDS[rng.below(2)];
        let frame = rng.call(kind);
        let (uncut, to_pull) = (frame.bytes(), frame.pulled());
        let [one, two] = [0, 1].map(|_| rng.cut(&frame).bytes());
        let behind = rng.below(2) * rng.below(40);
        let before = rng.noise(frame.length() + behind);
        let taken = [to_pull, to_pull, rng.below(to_pull + 1)][rng.below(3)];
        let bytes = rng.noise(taken);
        let [first, second] = [0, 1].map(|_| rng.list(&bytes, to_pull));
        check.way(&one, &before, &first)?;
        check.tallied(&uncut, &one, &before, &first)?;
        check.two_cuts([&one, &two], &before, [&first, &second])?;
    }
    // Pieces of any length, and starts that may be refused: any state is then handed on.
    check.family("lists of any pieces");
    for _ in 0..cases / 4 {
        let kind = KINDS[rng.below(2)];
        let mut frame = rng.call(kind);
        (0..rng.below(3) * rng.below(2)).for_each(|_| rng.spoil(&mut frame));
        let steps: Vec<Step> = (0..rng.below(12))
            .map(|_| {
                let length = [rng.below(5), rng.below(60)][rng.below(2)];
                [Step::Ask, Step::Piece(rng.noise(length))][rng.below(3).min(1)].clone()
            })
            .collect();
        let (rooms, which) = (frame.rooms(), rng.below(3));
        let before = rng.noise(rooms[which % rooms.len()]);
        check.way(&frame.bytes(), &before, &steps)?;
    }
    Ok(())
}

/// All calls with a state, over its own buffer length if that can be lent, and over another.
fn every_call<C: Calls>(check: &mut Checker<C>, rng: &mut Rng, state: &ffi::State, room: usize) -> Outcome {
    let used = &state.reads[..(state.read_count as usize).min(MAX_READS)];
    let left = used.iter().map(|entry| entry.target.length as usize).sum::<usize>().wrapping_sub(state.taken);
    // Of an altered state any piece will do.
    let left = if left < 4096 { left } else { 5 };
    let mut rooms = vec![room, if state.buffer < 4096 { state.buffer } else { room }];
    rooms.dedup();
    for room in rooms {
        for piece in [0, 1, left, left + 1] {
            check.take(state, &rng.noise(piece), room)?;
        }
        check.ask(state, room)?;
    }
    Ok(())
}

/// Near a value, and where sums and casts turn over.
fn near(value: usize) -> Vec<usize> {
    let steps = [-8, -4, -3, -2, -1, 0, 1, 2, 3, 4, 8].map(|step| value.wrapping_add_signed(step));
    let high = [1 << 32, 1 << 33, 1 << 63].map(|bit| value | bit);
    let ends = [0, 4, MOST, MOST + 4, u32::MAX as usize, 1 << 63, usize::MAX - 3, usize::MAX];
    [&steps[..], &high, &ends].concat()
}

pub fn states<C: Calls>(check: &mut Checker<C>, rng: &mut Rng, cases: u64) -> Outcome {
    check.family("states field by field");
    let mut frames = vec![c6(), c7(16), c8(), c9(), Frame::new(Kind::Msg, &[], &[])];
    // All 16 places used, so that a count above leads to no other fault.
    frames.extend(sixteen());
    frames.push(Frame::new(Kind::Nomsg, &[(0, 4); 16], &[]));
    frames.extend((0..16).map(|i| rng.call(KINDS[i % 2])));
    for frame in &frames {
        let (room, to_pull) = (frame.length() + 4 * rng.below(4), frame.pulled());
        let taken = [0, to_pull, rng.below(to_pull + 1)][rng.below(3)];
        let good = rng.noisy_state(&frame.state(room, taken));
        let mut altered = vec![good];
        let mut with = |change: &dyn Fn(&mut ffi::State)| {
            let mut state = good;
            change(&mut state);
            altered.push(state);
        };
        (0..=5).chain([u32::MAX]).for_each(|kind| with(&|state| state.kind = kind));
        (0..=18).chain([32, u32::MAX]).for_each(|count| with(&|state| state.read_count = count));
        for bit in [1 << 8, 1 << 16, 1 << 31] {
            with(&|state| state.kind |= bit);
            with(&|state| state.read_count |= bit);
        }
        near(good.base).into_iter().for_each(|value| with(&|state| state.base = value));
        near(good.buffer).into_iter().for_each(|value| with(&|state| state.buffer = value));
        near(frame.length()).into_iter().for_each(|value| with(&|state| state.buffer = value));
        near(good.taken).into_iter().for_each(|value| with(&|state| state.taken = value));
        near(to_pull).into_iter().for_each(|value| with(&|state| state.taken = value));
        for at in 0..MAX_READS {
            let ffi::ReadSegment { position, target, reserved } = good.reads[at];
            for step in [-8, -4, -2, -1, 1, 2, 3, 4, 8] {
                with(&|state| state.reads[at].position = position.wrapping_add_signed(step));
                with(&|state| state.reads[at].target.length = target.length.wrapping_add_signed(step));
            }
            for value in [0, u32::MAX, u32::MAX - 3, 1 << 31] {
                with(&|state| state.reads[at].position = value);
                with(&|state| state.reads[at].target.length = value);
            }
            with(&|state| state.reads[at].target.handle = !target.handle);
            with(&|state| state.reads[at].target.offset = !target.offset);
            with(&|state| state.reads[at].reserved = !reserved);
        }
        for state in &altered {
            every_call(check, rng, state, room)?;
        }
    }
    // Falling positions that nothing else would refuse, and each kind's position zero.
    check.family("states of odd lists");
    let lists: [&[(u32, u32)]; 9] = [
        &[(0, 12), (8, 5), (0, 0)],
        &[(8, 5), (0, 12)],
        &[(0, 4), (4, 0), (0, 8), (8, 5)],
        &[(8, 0), (4, 0)],
        &[(8, 0), (0, 0)],
        &[(0, 0)],
        &[(0, 0), (4, 3)],
        &[],
        &[(2, 4), (6, 4)],
    ];
    for (kind, list) in KINDS.iter().flat_map(|&kind| lists.map(|list| (kind, list))) {
        for base in [0, 4, 8, 12] {
            let frame = Frame::new(kind, list, &[9; 12][..base]);
            let own = frame.wire_state(40, 0);
            let state = State { base, ..own.clone() };
            for (state, taken) in
                [state, own].iter().flat_map(|state| [0, 1, frame.pulled()].map(|n| (state, n)))
            {
                let state = rng.noisy_state(&State { taken, ..state.clone() });
                every_call(check, rng, &state, 40)?;
            }
        }
    }
    check.family("states over other buffers");
    for frame in &frames {
        let length = frame.length();
        for buffer in [length.max(1), length + 1, length + 9] {
            for taken in [0, frame.pulled()] {
                let state = rng.noisy_state(&frame.state(buffer, taken));
                for room in
                    (0..=length + 12).step_by(1 + length / 100).chain([buffer - 1, buffer, buffer + 1])
                {
                    check.take(&state, &[], room)?;
                    check.take(&state, &[7], room)?;
                    check.ask(&state, room)?;
                }
            }
        }
    }
    check.family("states of no start");
    for _ in 0..cases / 2 {
        let kind = KINDS[rng.below(2)];
        let frame = rng.call(kind);
        let (room, to_pull) = (frame.length() + rng.below(2) * rng.below(30), frame.pulled());
        let taken = [0, to_pull, rng.below(to_pull + 1)][rng.below(3)];
        let state = rng.noisy_state(&frame.state(room, taken));
        let left = to_pull - taken;
        let piece = [0, left, left + 1, rng.below(left + 1)][rng.below(4)];
        check.take(&state, &rng.noise(piece), room)?;
        check.ask(&state, room)?;
    }
    check.family("states random");
    for _ in 0..cases / 2 {
        let kind = KINDS[rng.below(2)];
        let mut frame = rng.call(kind);
        (0..rng.below(3)).for_each(|_| rng.spoil(&mut frame));
        frame.header.reads.truncate(MAX_READS);
        let (room, to_pull) = (frame.rooms()[1], frame.pulled());
        let taken = [0, to_pull, to_pull.wrapping_add(1), rng.below(to_pull + 1)][rng.below(4)];
        // An ERROR header's kind is none that a state can have.
        let error = matches!(frame.header.kind, Kind::Error(_));
        let buffer = [room, room + 1][rng.below(8) / 7];
        let lists = [frame.state(buffer, taken), frame.wire_state(buffer, taken)];
        let which = rng.below(4) / 3;
        let mut state = rng.noisy_state(&lists[which]);
        state.kind = if error { 2 + rng.below(2) as u32 } else { state.kind };
        if rng.below(4) == 0 {
            state.base = near(state.base)[rng.below(22)];
        }
        let piece = rng.below(12);
        check.take(&state, &rng.noise(piece), room)?;
        check.ask(&state, room)?;
    }
    Ok(())
}

pub fn run<C: Calls>(check: &mut Checker<C>, rng: &mut Rng, cases: u64) -> Outcome {
    worked(check)?;
    starts(check, rng, cases)?;
    sums(check, rng)?;
    splits(check, rng)?;
    lists(check, rng, cases)?;
    states(check, rng, cases)?;
    largest(check, rng)
}
