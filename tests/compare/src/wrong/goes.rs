//! A third count of a piece's goes, into which one mistake at a time is put. It looks at the state
//! handed in alone, so that no mistake of the reassembly shows in it.

use super::{can_fail, is_found, mistakes, outcome, Wrong};
use crate::cases::assembly::{c8, c9, Frame, C6, INLINE, PULLED};
use crate::cases::goes as families;
use crate::check::{Checker, Outcome, Step};
use crate::convert::flatten_state;
use crate::reference::assembly;
use crate::reference::header::Kind;
use crate::rng::Rng;
use eoswynnor::ffi::{PieceAnswer, ReadSegment, State, NOMSG};
use Mistake::*;
use Wrong::Goes;

mistakes! {
    // What parts the base.
    EmptyChunkParts GapsMissed OnlyFirstGap GapByFirstSegment GapByLastSegment EmptyRunBetweenChunks
    EmptyRunBehindChunk GapAtSegmentEndTwice OnlyFirstSegmentParted GapsAtPositions
    GapsByUnpaddedLengths InlineBaseParted
    // Where segments end.
    SegmentsJoined BaseSegmentsJoined ChunksForSegments TouchingChunksJoined BackToBackJoined
    BaseJoinedToChunk OneMemoryJoined EmptySegmentsCounted PaddingCounted
    // Which runs a piece has.
    WholeRunsOnly BegunRunMissed UnfinishedRunMissed RunBeforeCounted RunBehindCounted AllUpToNow
    AsFirstPiece AtMost16 AtMost30 PageByPage
    // No goes.
    EmptyTakesOne Refused17Goes Refused18Goes
    // Both in each other's place.
    Exchanged
}

fn length(entry: &ReadSegment) -> usize {
    entry.target.length as usize
}

fn total<'a>(segments: impl IntoIterator<Item = &'a ReadSegment>) -> usize {
    segments.into_iter().map(length).sum()
}

impl Wrong {
    fn miscounts(&self, mistake: Mistake) -> bool {
        *self == Goes(mistake)
    }

    /// How many of the base's bytes stand before each chunk that parts it.
    fn gaps(&self, used: &[ReadSegment], base: usize) -> Vec<usize> {
        let (mut gaps, mut earlier) = (Vec::new(), 0);
        let chunks = used.chunk_by(|one, two| one.position == two.position);
        for chunk in chunks.filter(|chunk| chunk[0].position != 0) {
            let (position, whole) = (chunk[0].position as usize, total(chunk));
            let parts = match self {
                Goes(EmptyChunkParts) => true,
                Goes(GapByFirstSegment) => length(&chunk[0]) > 0,
                Goes(GapByLastSegment) => length(&chunk[chunk.len() - 1]) > 0,
                _ => whole > 0,
            };
            let before = match self {
                Goes(GapsAtPositions) => position,
                // Saturating for states that only another mistake takes.
                _ => position.saturating_sub(earlier),
            };
            if parts && (before < base || before == base && self.miscounts(EmptyRunBehindChunk)) {
                gaps.push(before);
            }
            earlier += match self {
                Goes(GapsByUnpaddedLengths) => whole,
                _ => whole.next_multiple_of(4),
            };
        }
        match self {
            Goes(GapsMissed) => gaps.clear(),
            Goes(OnlyFirstGap) => gaps.truncate(1),
            Goes(OnlyFirstSegmentParted) => {
                let first = used.iter().map(length).find(|&length| length > 0);
                gaps.retain(|&before| Some(before) < first);
            }
            _ => {}
        }
        gaps
    }

    /// Whether two segments, one behind the other, count as one.
    fn joins(&self, used: &[ReadSegment], one: &ReadSegment, two: &ReadSegment) -> bool {
        let (same, base) = (one.position == two.position, one.position == 0);
        let chunk = total(used.iter().filter(|entry| entry.position == one.position));
        let (position, next) = (one.position as usize, two.position as usize);
        let memory = one.target.offset.wrapping_add(length(one) as u64);
        match self {
            Goes(SegmentsJoined) => same && !base,
            Goes(BaseSegmentsJoined) => same && base,
            Goes(ChunksForSegments) => same,
            Goes(TouchingChunksJoined) => !base && position + chunk == next,
            Goes(BackToBackJoined) => !base && position + chunk.next_multiple_of(4) == next,
            Goes(BaseJoinedToChunk) => !same && base,
            Goes(OneMemoryJoined) => {
                same && (one.target.handle, memory) == (two.target.handle, two.target.offset)
            }
            _ => false,
        }
    }

    /// Where among the pulled bytes a run ends and the next begins, in order.
    fn borders(&self, state: &State) -> Vec<usize> {
        let used = &state.reads[..state.read_count.min(16) as usize];
        let pulled = state.kind == NOMSG || self.miscounts(InlineBaseParted);
        let gaps = if pulled { self.gaps(used, state.base) } else { vec![] };
        let full: Vec<&ReadSegment> = used.iter().filter(|entry| length(entry) > 0).collect();
        let ends: Vec<usize> = (1..full.len())
            .filter(|&at| !self.joins(used, full[at - 1], full[at]))
            .map(|at| total(full[..at].iter().copied()))
            .collect();
        let mut borders = [&gaps[..], &ends].concat();
        borders.sort();
        borders.dedup();
        // A second time where something of no bytes stands.
        match self {
            Goes(EmptyRunBetweenChunks) => {
                borders.extend(gaps.windows(2).filter(|pair| pair[0] == pair[1]).map(|pair| pair[0]))
            }
            Goes(EmptyRunBehindChunk) => borders.extend(gaps.iter().find(|&&gap| gap == state.base)),
            Goes(GapAtSegmentEndTwice) => borders.extend(gaps.iter().filter(|gap| ends.contains(gap))),
            Goes(EmptySegmentsCounted) => {
                let empty = (0..used.len()).filter(|&at| length(&used[at]) == 0);
                borders.extend(empty.map(|at| total(&used[..at])));
            }
            Goes(PaddingCounted) => {
                let chunks = used.chunk_by(|one, two| one.position == two.position);
                let ends = chunks.scan(0, |end, chunk| {
                    *end += total(chunk);
                    Some((*end, total(chunk)))
                });
                borders.extend(ends.filter(|(_, whole)| whole % 4 > 0).map(|(end, _)| end));
            }
            _ => {}
        }
        borders.sort();
        borders
    }

    fn goes(&self, state: &State, piece: usize) -> u32 {
        if piece == 0 {
            return u32::from(self.miscounts(EmptyTakesOne));
        }
        let taken = if self.miscounts(AsFirstPiece) { 0 } else { state.taken };
        let end = taken.saturating_add(piece);
        let borders = self.borders(state);
        let inside: Vec<usize> = borders.iter().copied().filter(|&at| taken < at && at < end).collect();
        let goes = 1 + inside.len();
        let whole = total(&state.reads[..state.read_count.min(16) as usize]);
        let ends_at = |at: usize| borders.contains(&at);
        let goes = match self {
            Goes(WholeRunsOnly) => {
                let all = [&[0], &borders[..], &[whole]].concat();
                all.windows(2).filter(|run| taken <= run[0] && run[1] <= end).count()
            }
            Goes(BegunRunMissed) => goes - usize::from(taken > 0 && !ends_at(taken)),
            Goes(UnfinishedRunMissed) => goes - usize::from(end < whole && !ends_at(end)),
            Goes(RunBeforeCounted) => goes + usize::from(ends_at(taken)),
            Goes(RunBehindCounted) => goes + usize::from(ends_at(end)),
            Goes(AllUpToNow) => 1 + borders.iter().filter(|&&at| at < end).count(),
            Goes(AtMost16) => goes.min(16),
            Goes(AtMost30) => goes.min(30),
            Goes(PageByPage) => {
                let all = [&[taken], &inside[..], &[end]].concat();
                all.windows(2).map(|run| (run[1] - run[0]).div_ceil(4096)).sum()
            }
            _ => goes,
        };
        goes as u32
    }

    /// What a piece of so many bytes is answered with, if this is its number.
    pub fn answer(&self, state: &State, piece: usize, number: u32) -> PieceAnswer {
        let goes = match number {
            0 => self.goes(state, piece),
            17 if self.miscounts(Refused17Goes) => 1,
            18 if self.miscounts(Refused18Goes) => self.goes(state, piece),
            _ => 0,
        };
        if self.miscounts(Exchanged) {
            return PieceAnswer { number: goes, goes: number };
        }
        PieceAnswer { number, goes }
    }
}

#[test]
fn each_is_found() {
    for &mistake in MISTAKES {
        is_found(Goes(mistake), 5, |check| families::run(check, &mut Rng(5), 1_000));
    }
}

fn all_but(unseen: &[Mistake]) -> Vec<Mistake> {
    MISTAKES.iter().copied().filter(|mistake| !unseen.contains(mistake)).collect()
}

/// Each group of families alone: in a run an earlier one may find the fault before it.
#[test]
fn each_group_can_fail() {
    type Group = fn(&mut Checker<Wrong>, &mut Rng) -> Outcome;
    let groups: [(Group, Vec<Mistake>); 6] = [
        (|check, rng| families::by_hand(check, rng), all_but(&[PageByPage, Refused17Goes])),
        (
            |check, rng| families::pieces(check, rng),
            all_but(&[OneMemoryJoined, AtMost16, AtMost30, PageByPage]),
        ),
        (
            |check, rng| families::cuts(check, rng),
            vec![
                EmptyChunkParts,
                GapsMissed,
                GapByFirstSegment,
                GapByLastSegment,
                EmptyRunBetweenChunks,
                EmptyRunBehindChunk,
                GapAtSegmentEndTwice,
                OnlyFirstSegmentParted,
                GapsByUnpaddedLengths,
                SegmentsJoined,
                BaseSegmentsJoined,
                BackToBackJoined,
                EmptySegmentsCounted,
                WholeRunsOnly,
                BegunRunMissed,
                UnfinishedRunMissed,
                RunBeforeCounted,
                RunBehindCounted,
                AllUpToNow,
            ],
        ),
        (
            |check, rng| families::counts(check, rng),
            vec![
                GapsMissed,
                OnlyFirstGap,
                OnlyFirstSegmentParted,
                BaseSegmentsJoined,
                ChunksForSegments,
                BaseJoinedToChunk,
                AtMost16,
                AtMost30,
                EmptyTakesOne,
                Refused18Goes,
                Exchanged,
            ],
        ),
        (|check, rng| families::random(check, rng, 2_000), all_but(&[PageByPage])),
        (
            |check, rng| families::full_size(check, rng),
            vec![GapsMissed, SegmentsJoined, WholeRunsOnly, AtMost30, PageByPage],
        ),
    ];
    for (at, (run, found)) in groups.into_iter().enumerate() {
        for mistake in found {
            let outcome = run(&mut Checker::new(Goes(mistake), 8), &mut Rng(8));
            assert!(outcome.is_err(), "group {at} does not find {mistake:?}");
        }
    }
}

/// Each named case alone finds what it is there for.
#[test]
fn named_cases_find() {
    let found: [(&str, &[Mistake]); 25] = [
        ("two segments of one chunk", &[SegmentsJoined, ChunksForSegments]),
        ("chunks back to back", &[BackToBackJoined, PaddingCounted, InlineBaseParted]),
        ("chunks that touch", &[TouchingChunksJoined]),
        ("one memory", &[OneMemoryJoined]),
        ("a base of two segments", &[BaseSegmentsJoined, ChunksForSegments]),
        ("a base of one memory", &[OneMemoryJoined]),
        ("a chunk in the base", &[GapsMissed, BaseJoinedToChunk]),
        ("a chunk where a base segment ends", &[GapAtSegmentEndTwice]),
        ("a chunk in the second base segment", &[OnlyFirstSegmentParted, BaseSegmentsJoined]),
        ("a chunk at the base's end", &[EmptyRunBehindChunk]),
        ("two chunks in the base", &[OnlyFirstGap, GapsAtPositions]),
        ("two padded chunks in the base", &[GapsByUnpaddedLengths]),
        ("chunks back to back in the base", &[EmptyRunBetweenChunks, BackToBackJoined]),
        ("an empty chunk in the base", &[EmptyChunkParts]),
        ("a chunk of 0 and 0 in the base", &[EmptyChunkParts]),
        ("a chunk of 0 and 5 in the base", &[GapByFirstSegment]),
        ("a chunk of 5 and 0 in the base", &[GapByLastSegment]),
        ("empty segments everywhere", &[EmptySegmentsCounted, EmptyChunkParts]),
        ("pieces inside segments", &[WholeRunsOnly, AllUpToNow, AsFirstPiece]),
        ("pieces inside runs", &[WholeRunsOnly, BegunRunMissed, UnfinishedRunMissed]),
        ("pieces that are runs", &[RunBeforeCounted, RunBehindCounted]),
        ("empty pieces", &[EmptyTakesOne]),
        ("pieces too long", &[Refused18Goes]),
        ("the most", &[AtMost16, AtMost30]),
        ("two base segments and 14 chunks", &[AtMost16]),
    ];
    let cases = families::counted();
    for (name, mistakes) in found {
        let case = cases.iter().find(|case| case.name == name).expect(name);
        mistakes.iter().for_each(|&mistake| can_fail(Goes(mistake), |check| case.run(check, &mut Rng(1))));
    }
}

/// Each check of a piece alone: of one that is taken, an empty one and refused ones.
#[test]
fn each_check_of_a_piece_can_fail() {
    let started = assembly::start(&c8().bytes(), &mut [0; 20]).expect("an accepted start");
    for (mistake, length, goes) in [(GapsMissed, 17, 3), (EmptyTakesOne, 0, 0), (Refused18Goes, 18, 0)] {
        let (piece, before) = (vec![7; length], [0x55; 20]);
        can_fail(Goes(mistake), |check| check.take(&flatten_state(&started), &piece, 20));
        let steps = [Step::Piece(piece)];
        can_fail(Goes(mistake), |check| check.way(&c8().bytes(), &before, &steps));
        can_fail(Goes(mistake), |check| check.goes(&c8().bytes(), &before, &steps, &[goes]));
    }
    for length in [0, 17, 18] {
        let piece = vec![7; length];
        can_fail(Goes(Refused17Goes), |check| check.take(&flatten_state(&started), &piece, 21));
    }
    can_fail(Goes(SegmentsJoined), |check| check.worked(&c9().bytes(), &PULLED, 0x55, Ok((&C6, 2))));
    can_fail(Goes(Refused17Goes), |check| check.worked(&[], &PULLED, 0x55, Err(1)));
}

/// Demand 3 leaves the goes out: its checks say the same whatever they are.
#[test]
fn demand_3_leaves_the_goes_out() {
    let whole = [&INLINE[..], &PULLED].concat();
    let pieces: [&[u8]; 5] = [&[], &[0; 18], &whole[..10], &whole[10..], &[]];
    let steps: Vec<Step> = pieces.iter().flat_map(|piece| [Step::Piece(piece.to_vec()), Step::Ask]).collect();
    let (uncut, before) = (c8().bytes(), [0x55; 20]);
    let cut = Frame::new(Kind::Nomsg, &[(0, 4), (0, 8), (8, 2), (8, 3)], &[]).bytes();
    for mistake in all_but(&[Exchanged]) {
        let tallied = outcome(Goes(mistake), 1, |check| check.tallied(&uncut, &cut, &before, &steps));
        let two_cuts = outcome(Goes(mistake), 1, |check| {
            check.two_cuts([&cut, &uncut], &before, [&steps, &[Step::Piece(whole.clone())]])
        });
        assert_eq!((tallied, two_cuts), (Ok(()), Ok(())), "{mistake:?}");
    }
}
