//! Families for the goes of pieces.

use super::assembly::{split, Frame, INLINE, KINDS, MOST};
use crate::calls::Calls;
use crate::check::{Checker, Outcome, Step};
use crate::reference::header::{Kind, MAX_READS};
use crate::rng::Rng;
use std::ops::Range;

impl Rng {
    /// Pieces of any bytes.
    fn pieces(&mut self, lengths: impl IntoIterator<Item = usize>) -> Vec<Step> {
        lengths.into_iter().map(|length| Step::Piece(self.noise(length))).collect()
    }

    /// A frame of many runs: all along the base stand chunks, few of them empty or back to back. Its
    /// segments lie in any order.
    pub fn dense(&mut self, kind: Kind) -> Frame {
        let base = 4 * (8 + self.below(24)) as u32;
        let zeros = [1, 1, 1 + self.below(3), 1 + self.below(12)][self.below(4)];
        let rare = [4, 64][self.below(2)];
        let mut reads = if kind == Kind::Nomsg { self.chunk(0, base, zeros) } else { vec![] };
        let (mut position, mut left, mut total) = (0, base, 0);
        while reads.len() < MAX_READS {
            // Not where an empty one stands.
            let gap = if self.below(rare) > 0 || total == 0 { 4 } else { 0 };
            if left < gap {
                break;
            }
            total = if self.below(rare) > 0 { 1 + self.below(9) as u32 } else { 0 };
            let more = if self.below(rare) > 0 { 0 } else { self.below(3) };
            let count = (1 + more).min(MAX_READS - reads.len());
            reads.extend(self.chunk(position + gap, total, count));
            position += gap + total.next_multiple_of(4);
            left -= gap;
        }
        let segments: Vec<_> = reads.iter().map(|entry| (entry.position, entry.target.length)).collect();
        let inline = if kind == Kind::Msg { base as usize } else { 0 };
        let frame = Frame::new(kind, &segments, &self.noise(inline));
        let frame = if self.below(2) == 0 { frame.in_one_memory() } else { frame };
        self.wire(&frame)
    }
}

/// A frame and the places of its pulled bytes, run by run.
pub type Laid = (Frame, Vec<Range<usize>>);

/// A MSG of so many bytes: 4 of the 64 inline ones before each of at most 16 chunks of equal length.
pub fn chunked(length: usize, chunks: usize) -> Laid {
    let each = (length - 64) / chunks;
    let runs: Vec<_> = (0..chunks).map(|i| 4 + i * (each + 4)).map(|place| place..place + each).collect();
    (Frame::new(Kind::Msg, &segments(&runs), &Rng(3).noise(64)), runs)
}

/// A NOMSG of so many bytes, a multiple of 4: one segment at 0 and 15 chunks between its bytes, so
/// 31 runs.
pub fn parted(length: usize) -> Laid {
    let each = (length / 31) & !3;
    let run = |at: usize| at * each..if at < 30 { (at + 1) * each } else { length };
    let [base, chunks] = [0, 1].map(|first| (first..31).step_by(2).map(run).collect::<Vec<_>>());
    let zero = base.iter().map(|run| run.len() as u32).sum();
    let frame = Frame::new(Kind::Nomsg, &[&[(0, zero)], &segments(&chunks)[..]].concat(), &[]);
    (frame, [base, chunks].concat())
}

/// One for each run, at its place.
fn segments(runs: &[Range<usize>]) -> Vec<(u32, u32)> {
    runs.iter().map(|run| (run.start as u32, run.len() as u32)).collect()
}

/// A frame and the lengths of pieces with the goes of each, counted by hand.
pub struct Counted {
    pub name: &'static str,
    pub frame: Frame,
    pub pieces: Vec<(usize, u32)>,
}

impl Counted {
    pub fn run<C: Calls>(&self, check: &mut Checker<C>, rng: &mut Rng) -> Outcome {
        let (lengths, goes): (Vec<usize>, Vec<u32>) = self.pieces.iter().copied().unzip();
        let (pieces, before) = (rng.pieces(lengths), rng.noise(self.frame.length() + 1));
        // The goes are those of the sorted list, whatever the wire's order.
        for frame in [self.frame.clone(), self.frame.falling(), rng.wire(&self.frame)] {
            check
                .goes(&frame.bytes(), &before, &pieces, &goes)
                .and_then(|()| check.way(&frame.bytes(), &before, &pieces))
                .map_err(|what| format!("{}: {what}", self.name))?;
        }
        Ok(())
    }
}

pub fn counted() -> Vec<Counted> {
    type Segments<'a> = &'a [(u32, u32)];
    let case = |name, frame, pieces: &[_]| Counted { name, frame, pieces: pieces.to_vec() };
    let msg = |name, list: Segments, pieces: &[_]| case(name, Frame::new(Kind::Msg, list, &INLINE), pieces);
    let nomsg = |name, list: Segments, pieces: &[_]| case(name, Frame::new(Kind::Nomsg, list, &[]), pieces);
    let memory = |kind, list: Segments, inline| Frame::new(kind, list, inline).in_one_memory();
    let zeros = [(0, 0), (0, 8), (0, 0), (0, 4), (0, 0)];
    let others = [(4, 0), (8, 0), (8, 5), (8, 0), (16, 0), (20, 0), (20, 4), (20, 0)];
    let empties = &[&zeros[..], &others].concat();
    let two_zeros: Vec<_> =
        [(0, 2), (0, 58)].into_iter().chain((0..14).map(|i| (4 + 8 * i, 4 - i % 3))).collect();
    vec![
        // Chunks alone.
        msg("one segment", &[(8, 5)], &[(5, 1)]),
        msg("two segments of one chunk", &[(8, 2), (8, 3)], &[(5, 2)]),
        msg("two chunks", &[(8, 5), (20, 4)], &[(9, 2)]),
        msg("chunks back to back", &[(8, 5), (16, 4)], &[(9, 2)]),
        msg("chunks that touch", &[(8, 4), (12, 4)], &[(8, 2)]),
        msg("16 segments of one chunk", &[(4, 1); 16], &[(16, 16)]),
        case("one memory", memory(Kind::Msg, &[(8, 2), (8, 3)], &INLINE), &[(5, 2)]),
        // The base.
        nomsg("a base alone", &[(0, 12)], &[(12, 1)]),
        nomsg("a base of two segments", &[(0, 8), (0, 4)], &[(12, 2)]),
        nomsg("a base of 16 segments", &[(0, 4); 16], &[(64, 16)]),
        case("a base of one memory", memory(Kind::Nomsg, &[(0, 8), (0, 4)], &[]), &[(12, 2)]),
        nomsg("a chunk in the base", &[(0, 12), (8, 5)], &[(17, 3)]),
        nomsg("a chunk where a base segment ends", &[(0, 8), (0, 4), (8, 5)], &[(17, 3)]),
        nomsg("a chunk in the second base segment", &[(0, 4), (0, 8), (8, 5)], &[(17, 4)]),
        nomsg("a chunk at the base's end", &[(0, 8), (8, 4)], &[(12, 2)]),
        nomsg("two chunks in the base", &[(0, 12), (4, 4), (12, 4)], &[(20, 5)]),
        nomsg("two padded chunks in the base", &[(0, 12), (4, 1), (12, 1)], &[(8, 2), (6, 3)]),
        nomsg("chunks back to back in the base", &[(0, 12), (8, 5), (16, 4)], &[(21, 4)]),
        nomsg("chunks that touch in the base", &[(0, 12), (8, 4), (12, 4)], &[(20, 4)]),
        nomsg("back to back where a segment ends", &[(0, 8), (0, 4), (8, 5), (16, 4)], &[(21, 4)]),
        // Nothing at all at some position.
        nomsg("an empty chunk in the base", &[(0, 12), (8, 0)], &[(12, 1)]),
        nomsg("a chunk of 0 and 0 in the base", &[(0, 12), (8, 0), (8, 0)], &[(12, 1)]),
        nomsg("a chunk of 0 and 5 in the base", &[(0, 12), (8, 0), (8, 5)], &[(17, 3)]),
        nomsg("a chunk of 5 and 0 in the base", &[(0, 12), (8, 5), (8, 0)], &[(17, 3)]),
        nomsg("an empty chunk behind a chunk", &[(0, 12), (4, 4), (8, 0), (12, 4)], &[(20, 5)]),
        nomsg("empty segments everywhere", empties, &[(21, 4)]),
        nomsg("empty segments, in pieces", empties, &[(9, 2), (0, 0), (4, 2), (8, 2)]),
        msg("an empty segment in a chunk", &[(8, 2), (8, 0), (8, 3)], &[(5, 2)]),
        // Pieces that begin or end inside a run, and with one.
        msg("pieces inside segments", &[(8, 2), (8, 3)], &[(1, 1), (2, 2), (2, 1)]),
        msg("pieces of one segment", &[(8, 5)], &[(2, 1), (1, 1), (2, 1)]),
        nomsg("pieces inside runs", &[(0, 12), (8, 5)], &[(3, 1), (7, 2), (7, 2)]),
        nomsg("pieces that are runs", &[(0, 12), (8, 5)], &[(8, 1), (4, 1), (5, 1)]),
        nomsg("byte by byte", &[(0, 4), (0, 8), (8, 5)], &[(1, 1); 17]),
        // No goes.
        msg("empty pieces", &[(8, 5)], &[(0, 0), (2, 1), (0, 0), (3, 1), (0, 0)]),
        nomsg("empty pieces between runs", &[(0, 12), (8, 5)], &[(8, 1), (0, 0), (4, 1), (0, 0), (5, 1)]),
        nomsg("pieces too long", &[(0, 12), (8, 5)], &[(18, 0), (10, 2), (8, 0), (7, 2), (1, 0)]),
        nomsg("nothing to pull", &[(0, 0)], &[(0, 0), (1, 0)]),
        msg("no segments", &[], &[(0, 0), (1, 0)]),
        // The bound.
        case("the most", parted(124).0, &[(124, 31)]),
        case("the most behind a byte", parted(124).0, &[(1, 1), (123, 31)]),
        case("the most before a byte", parted(124).0, &[(123, 31), (1, 1)]),
        case("one less", parted(124).0, &[(4, 1), (120, 30)]),
        nomsg("two base segments and 14 chunks", &two_zeros, &[(60 + 43, 30)]),
    ]
}

pub fn by_hand<C: Calls>(check: &mut Checker<C>, rng: &mut Rng) -> Outcome {
    check.family("goes by hand");
    counted().iter().try_for_each(|case| case.run(check, rng))
}

/// A base of 12 bytes and chunks of such segments, each behind so many bytes of the base.
fn small(kind: Kind, zero: &[u32], chunks: &[(u32, &[u32])]) -> Frame {
    let zero = if kind == Kind::Nomsg { zero } else { &[] };
    let mut list: Vec<(u32, u32)> = zero.iter().map(|&length| (0, length)).collect();
    let mut earlier = 0;
    for (behind, lengths) in chunks {
        list.extend(lengths.iter().map(|&length| (behind + earlier, length)));
        earlier += lengths.iter().sum::<u32>().next_multiple_of(4);
    }
    Frame::new(kind, &list, &INLINE[..if kind == Kind::Msg { 12 } else { 0 }])
}

pub fn pieces<C: Calls>(check: &mut Checker<C>, rng: &mut Rng) -> Outcome {
    check.family("goes of every piece");
    const ZERO: [&[u32]; 8] = [&[12], &[8, 4], &[4, 8], &[5, 7], &[0, 12], &[12, 0], &[6, 0, 6], &[4, 4, 4]];
    const CHUNK: [&[u32]; 9] = [&[0], &[0, 0], &[1], &[4], &[5], &[0, 5], &[5, 0], &[2, 3], &[4, 0, 4]];
    let bases: Vec<_> =
        [(Kind::Msg, ZERO[0])].into_iter().chain(ZERO.map(|zero| (Kind::Nomsg, zero))).collect();
    let chunks: Vec<_> =
        [4, 8, 12].into_iter().flat_map(|behind| CHUNK.map(|chunk| (behind, chunk))).collect();
    for &(kind, zero) in &bases {
        for at in 0..=chunks.len() {
            // Behind the last, none.
            let frame = small(kind, zero, &chunks[at..chunks.len().min(at + 1)]);
            let (length, to_pull) = (frame.length(), frame.pulled());
            for taken in 0..=to_pull {
                // The last is one byte too long.
                for piece in 0..=to_pull - taken + 1 {
                    let state = rng.noisy_state(&frame.state(length, taken));
                    check.take(&state, &rng.noise(piece), length)?;
                }
                // Over another buffer.
                let state = rng.noisy_state(&frame.state(length + 1, taken));
                check.take(&state, &rng.noise(to_pull - taken), length)?;
            }
        }
    }
    check.family("goes between two chunks");
    for &(kind, zero) in &bases {
        for (one, two) in chunks.iter().flat_map(|&one| chunks.iter().map(move |&two| (one, two))) {
            if one.0 > two.0 {
                continue;
            }
            let frame = small(kind, zero, &[one, two]);
            let (length, to_pull) = (frame.length(), frame.pulled());
            let (from, to) = (rng.below(to_pull + 1), rng.below(to_pull + 1));
            for bytes in [0..to_pull, 0..from, from..to_pull, from.min(to)..from.max(to)] {
                let state = rng.noisy_state(&frame.state(length, bytes.start));
                check.take(&state, &rng.noise(bytes.len()), length)?;
            }
        }
    }
    Ok(())
}

/// Lengths that add up to the total: one ends behind each byte whose bit is set.
fn lengths(total: u32, ends: u32) -> Vec<u32> {
    let mut before = 0;
    let ends = (1..=total).filter(|&end| end == total || ends >> (end - 1) & 1 == 1);
    ends.map(|end| end - std::mem::replace(&mut before, end)).collect()
}

pub fn cuts<C: Calls>(check: &mut Checker<C>, rng: &mut Rng) -> Outcome {
    check.family("goes of every split");
    let nomsg = |segments: &[(u32, u32)]| Frame::new(Kind::Nomsg, segments, &[]);
    let frames = [
        nomsg(&[(0, 8), (4, 2)]),
        nomsg(&[(0, 3), (0, 5), (4, 1), (8, 1)]),
        nomsg(&[(0, 8), (4, 0), (8, 2)]),
        nomsg(&[(0, 4), (0, 0), (0, 4), (4, 0), (4, 2)]),
        Frame::new(Kind::Msg, &[(4, 2), (4, 0), (4, 3), (12, 4), (16, 1)], &INLINE),
    ];
    for frame in &frames {
        let bytes = rng.noise(frame.pulled());
        for ends in 0..1 << (bytes.len() - 1) {
            let before = rng.noise(frame.length());
            check.way(&rng.wire(frame).bytes(), &before, &split(&bytes, ends))?;
        }
    }
    // A base of 8 bytes, 4 of them before a chunk of 3.
    check.family("goes of every cut");
    for (base, chunk) in (0..1u32 << 7).flat_map(|base| (0..1u32 << 2).map(move |chunk| (base, chunk))) {
        let zero = lengths(8, base).into_iter().map(|length| (0, length));
        let other = lengths(3, chunk).into_iter().map(|length| (4, length));
        let frame = rng.wire(&nomsg(&zero.chain(other).collect::<Vec<_>>()));
        // The base is parted behind its fourth byte, cut there or not.
        let want = (base | 1 << 3).count_ones() + 1 + chunk.count_ones() + 1;
        let before = rng.noise(12);
        check.goes(&frame.bytes(), &before, &rng.pieces([11]), &[want])?;
        let at = rng.below(12);
        check.way(&rng.cut(&frame).bytes(), &before, &rng.pieces([at, 11 - at]))?;
    }
    Ok(())
}

/// All counts of segments at 0 and of chunks, each chunk with base bytes before and behind it.
pub fn counts<C: Calls>(check: &mut Checker<C>, rng: &mut Rng) -> Outcome {
    check.family("goes of every count");
    for (zeros, chunks) in (0..=16).flat_map(|zeros| (0..=16 - zeros).map(move |chunks| (zeros, chunks))) {
        let base = 16 * (chunks + 1);
        for length in [1u32, 4, 6] {
            // All but the last end before the first chunk.
            let zero = (0..zeros).map(|at| (0, if at + 1 < zeros { 1 } else { base - (zeros - 1) }));
            let rounded = length.next_multiple_of(4);
            let others = (0..chunks).map(|at| (16 * (at + 1) + rounded * at, length));
            let (kind, inline) = if zeros > 0 { (Kind::Nomsg, 0) } else { (Kind::Msg, base as usize) };
            let frame = Frame::new(kind, &zero.chain(others).collect::<Vec<_>>(), &rng.noise(inline));
            let frame = rng.wire(&frame);
            let (bytes, before, to_pull) = (frame.bytes(), rng.noise(frame.length()), frame.pulled());
            let want = if zeros > 0 { zeros + 2 * chunks } else { chunks };
            check.goes(&bytes, &before, &rng.pieces([to_pull]), &[want])?;
            check.goes(&bytes, &before, &rng.pieces([0, to_pull + 1, to_pull, 0]), &[0, 0, want, 0])?;
            let at = rng.below(to_pull + 1);
            check.way(&bytes, &before, &rng.pieces([at, to_pull - at]))?;
        }
    }
    Ok(())
}

pub fn random<C: Calls>(check: &mut Checker<C>, rng: &mut Rng, cases: u64) -> Outcome {
    check.family("goes random");
    for _ in 0..cases {
        let kind = KINDS[rng.below(2)];
        let frame = if rng.below(4) == 0 { rng.call(kind) } else { rng.dense(kind) };
        let frame = if rng.below(2) == 0 { rng.cut(&frame) } else { frame };
        let (length, to_pull) = (frame.length(), frame.pulled());
        let taken = [0, rng.below(to_pull + 1)][rng.below(2)];
        let left = to_pull - taken;
        let piece = [left, left, rng.below(left + 1), rng.below(left.min(9) + 1)][rng.below(4)];
        let state = rng.noisy_state(&frame.state(length, taken));
        check.take(&state, &rng.noise(piece), length)?;
        // Refused: over another buffer, and too long.
        match rng.below(8) {
            0 => check.take(&state, &rng.noise(piece), length + 1)?,
            1 => check.take(&state, &rng.noise(left + 1), length)?,
            _ => {}
        }
    }
    check.family("goes of lists");
    for _ in 0..cases / 4 {
        let kind = KINDS[rng.below(2)];
        let frame = rng.dense(kind);
        let bytes = rng.noise(frame.pulled());
        let (steps, before) = (rng.list(&bytes, bytes.len()), rng.noise(frame.length()));
        check.way(&rng.cut(&frame).bytes(), &before, &steps)?;
    }
    Ok(())
}

/// How many of the runs, one behind the other, have a byte among these.
fn touched(runs: &[Range<usize>], bytes: &Range<usize>) -> u32 {
    let (mut end, mut count) = (0, 0);
    for run in runs {
        let start = end;
        end += run.len();
        count += u32::from(start < bytes.end && bytes.start < end);
    }
    count
}

/// Messages of 1 MiB in pieces of 32 KiB, and in one.
pub fn full_size<C: Calls>(check: &mut Checker<C>, rng: &mut Rng) -> Outcome {
    check.family("goes at full size");
    for (frame, runs) in [chunked(MOST, 1), chunked(MOST, 16), parted(MOST)] {
        let frame = rng.wire(&frame);
        let (bytes, to_pull, before) = (frame.bytes(), frame.pulled(), rng.noise(MOST));
        for piece in [32 << 10, MOST] {
            let parts: Vec<_> = (0..to_pull).step_by(piece).map(|at| at..to_pull.min(at + piece)).collect();
            let want: Vec<u32> = parts.iter().map(|part| touched(&runs, part)).collect();
            let pieces = rng.pieces(parts.iter().map(Range::len));
            check.goes(&bytes, &before, &pieces, &want)?;
            check.way(&bytes, &before, &pieces)?;
        }
        // A cut, and pieces of any such length.
        let (mut left, mut some) = (to_pull, Vec::new());
        while left > 0 {
            some.push(left.min(1 + rng.below(64 << 10)));
            left -= some[some.len() - 1];
        }
        check.way(&rng.cut(&frame).bytes(), &before, &rng.pieces(some))?;
    }
    Ok(())
}

pub fn run<C: Calls>(check: &mut Checker<C>, rng: &mut Rng, cases: u64) -> Outcome {
    by_hand(check, rng)?;
    pieces(check, rng)?;
    cuts(check, rng)?;
    counts(check, rng)?;
    random(check, rng, cases)?;
    full_size(check, rng)
}
