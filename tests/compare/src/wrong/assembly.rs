//! A third reassembly, into which one mistake at a time is put.

use super::order::sort_frame;
use super::order::Mistake::{
    CheckedBeforeSorting, PulledInWireOrder, RefusedStateSorted, Signed, StartSortsFrame, StateGives8,
    StateInWireOrder,
};
use super::reply::is_echo;
use super::reply::Mistake::{ReplyToError, ReplyToErrorOfOtherVersion, StartOfEchoAs12};
use super::{can_fail, is_found, mistakes, store_behind, Wrong};
use crate::calls::AssemblyCalls;
use crate::cases::assembly::{self as families, c6, c9, PULLED};
use crate::check::{Checker, Outcome, Step};
use crate::convert::flatten_state;
use crate::plain::Plain;
use crate::reference::assembly::{self, State};
use crate::reference::header::{self, Kind, ReadSegment};
use crate::rng::Rng;
use crate::words::Words;
use eoswynnor::ffi::{self, MSG, NOMSG};
use Mistake::*;
use Wrong::{Assembly, Message, MessageOrder, Nowhere, Piece, PieceOrder, Reply};

mistakes! {
    // Where bytes stand.
    SegmentPadding InlinePositions EqualCursor UnpaddedCursor HeldPadding RoundingIgnored NoPadding
    AlwaysPadding OverlapTaken PastBaseTaken BaseEndRefused AdjacentRefused SumIn32Bits RoundingIn32Bits
    EndIn32Bits NomsgBaseLast SegmentsReversed MixedListBounded EmptyChunkRefused EmptySegmentEnds
    SegmentsApart
    // Numbers of a start.
    AnyMarker TwelveBeforeReading OneHandle ThirteenBeforeTwelve FourteenBeforeThirteen
    FifteenBeforeFourteen SixteenBeforeFifteen LargestRefused LargestExceeded ExactBufferRefused
    MsgAtZeroTaken NomsgWithoutZeroTaken ErrorTaken
    // What a start leaves.
    RefusedStartState RefusedStartKind RefusedStartWrites PulledCleared BehindCleared StartCounts
    HandlesLost BaseLost MessageForBuffer StartWritesNothing
    // Pieces.
    OnlyFirstPiece NothingWritten CountInvented EmptyCounts RefusedPieceState RefusedPieceWrites
    UnusedZeroed OneTooManyTaken LastRefused EmptyRefusedAtEnd AlwaysFirstPlace RunsJoined BehindTouched
    GuardTouched PaddingOnPiece FirstPieceWhole LongPieceRefused WholeWordsWritten KindMended
    RefusedStateZeroed RefusedUnusedZeroed
    // 17, clause by clause.
    AnyKind AnyCount No9 No8 No12Msg No12Nomsg No13 No14 No15 No16 AnyBuffer AnyTaken AnyBase
    AskingUnchecked EighteenFirst TakenIn32Bits BaseIn32Bits
    // Asking.
    No19 NineteenEarly FixedMessage LengthBeside19 EmptyNotStored WholeBufferLength UnpaddedLength
    AskingWrites MessageWrites
    // What is lent and the reserved words.
    RefusedStartZeroed RefusedReadingZeroed RefusedStartStores StartReservedKept StartUnusedReservedKept
    StartReservedSet StartUnusedKept StartBehindStored PieceReservedCleared PieceUnusedReservedCleared
    EmptyPieceReservedCleared RefusedReservedCleared PieceBehindStored Refused17Length Refused19Length
    Beside17Length MessageBehindStored ReservedRefused UnusedReservedRefused ReservedInPosition
    // What is lent for reading alone.
    StartChangesFrame RefusedStartChangesFrame PieceChanged RefusedPieceChanged MessageChangesState
    RefusedMessageChangesState
}

#[derive(Default)]
struct Laid {
    base: Vec<usize>,
    pulled: Vec<usize>,
    padding: Vec<usize>,
    length: usize,
}

impl Wrong {
    fn has(&self, mistake: Mistake) -> bool {
        matches!(*self, Assembly(own) | Piece(own) | Message(own) if own == mistake)
    }

    fn round(&self, length: usize) -> usize {
        match length.next_multiple_of(4) {
            _ if self.has(NoPadding) => length,
            _ if self.has(AlwaysPadding) => (length + 4) & !3,
            rounded if self.has(RoundingIn32Bits) => rounded as u32 as usize,
            rounded => rounded,
        }
    }

    /// Position, length and rounded length of each chunk not at 0.
    fn chunks(&self, kind: Kind, reads: &[ReadSegment]) -> Vec<(usize, usize, usize)> {
        let zeros = reads.iter().filter(|entry| entry.position == 0).count();
        let mut list: Vec<(usize, usize, usize)> = Vec::new();
        for entry in reads.iter().filter(|entry| entry.position != 0 || self.has(MsgAtZeroTaken)) {
            let (position, length) = (entry.position as usize, entry.target.length as usize);
            if self.has(EmptySegmentEnds) && length == 0 {
                break;
            }
            match list.last_mut() {
                Some(chunk) if chunk.0 == position && !self.has(SegmentsApart) => {
                    chunk.1 += length;
                    if self.has(SegmentPadding) {
                        chunk.2 += self.round(length);
                    }
                }
                _ => list.push((position, length, self.round(length))),
            }
        }
        if self.has(MixedListBounded) && kind == Kind::Nomsg {
            list.truncate(zeros);
        }
        for chunk in &mut list {
            if self.has(SumIn32Bits) {
                chunk.1 = chunk.1 as u32 as usize;
            }
            if !self.has(SegmentPadding) {
                chunk.2 = self.round(chunk.1);
            }
            // As a sum that wrapped leaves it.
            chunk.1 = chunk.1.min(chunk.2);
        }
        list
    }

    fn zero_length(&self, reads: &[ReadSegment]) -> usize {
        let zero = reads.iter().filter(|entry| entry.position == 0);
        let sum = zero.map(|entry| entry.target.length as usize).sum::<usize>();
        if self.has(SumIn32Bits) {
            sum as u32 as usize
        } else {
            sum
        }
    }

    /// `state` is whether a state is checked, where some checks are left out on purpose.
    fn lay(
        &self,
        kind: Kind,
        reads: &[ReadSegment],
        base: usize,
        room: usize,
        state: bool,
    ) -> Result<Laid, u32> {
        let without = |mistake| state && self.has(mistake);
        // Signed, the sorted list need not begin with it.
        let first = if self.misorders(Signed) { 1 } else { reads.len() };
        let at_zero = reads.iter().take(first).any(|entry| entry.position == 0);
        let twelve = match kind {
            Kind::Msg => at_zero && !self.has(MsgAtZeroTaken) && !without(No12Msg),
            Kind::Nomsg => !at_zero && !self.has(NomsgWithoutZeroTaken) && !without(No12Nomsg),
            Kind::Error(_) => !self.has(ErrorTaken),
        };
        let thirteen = base % 4 != 0 && !without(No13);
        let chunks = self.chunks(kind, reads);
        let (mut end, mut earlier, mut fourteen) = (0, 0, false);
        for (at, &(position, length, rounded)) in chunks.iter().enumerate() {
            let rest = if self.has(InlinePositions) { position } else { position.saturating_sub(earlier) };
            fourteen |= position < end && !self.has(OverlapTaken)
                || rest > base && !self.has(PastBaseTaken)
                || self.has(BaseEndRefused) && rest == base
                || self.has(AdjacentRefused) && at > 0 && position == end
                || self.has(EmptyChunkRefused) && length == 0
                || self.has(EqualCursor) && at > 0 && position != end
                || self.has(UnpaddedCursor) && at > 0 && position != chunks[at - 1].0 + chunks[at - 1].1;
            end = position + rounded;
            if self.has(EndIn32Bits) {
                end = end as u32 as usize;
            }
            if self.has(InlinePositions) {
                end = position;
            }
            earlier += if self.has(RoundingIgnored) { length } else { rounded };
        }
        fourteen &= !without(No14);
        let length = base.saturating_add(chunks.iter().map(|chunk| chunk.2).sum::<usize>());
        let most =
            (1 << 20) - usize::from(self.has(LargestRefused)) + 4 * usize::from(self.has(LargestExceeded));
        let fifteen = length > most && !without(No15);
        let sixteen = length > room && !without(No16) || self.has(ExactBufferRefused) && length == room;
        let mut order = vec![(12, twelve), (13, thirteen), (14, fourteen), (15, fifteen), (16, sixteen)];
        let swapped = [
            (ThirteenBeforeTwelve, 0),
            (FourteenBeforeThirteen, 1),
            (FifteenBeforeFourteen, 2),
            (SixteenBeforeFifteen, 3),
        ];
        if let Some(&(_, at)) = swapped.iter().find(|(mistake, _)| self.has(*mistake)) {
            order.swap(at, at + 1);
        }
        if let Some((number, _)) = order.into_iter().find(|(_, refused)| *refused) {
            return Err(number);
        }
        let mut laid = self.places(reads, &chunks, length.min(2 << 20));
        if kind == Kind::Nomsg {
            let parts = [laid.base.clone(), laid.pulled];
            laid.pulled =
                if self.has(NomsgBaseLast) { [&parts[1][..], &parts[0]].concat() } else { parts.concat() };
        }
        // A mistake may lead anywhere; it must not end the tests.
        for places in [&mut laid.base, &mut laid.padding] {
            places.retain(|&place| place < room);
        }
        laid.length = laid.length.min(room);
        Ok(laid)
    }

    fn places(&self, reads: &[ReadSegment], chunks: &[(usize, usize, usize)], length: usize) -> Laid {
        let mut laid = Laid { length, ..Laid::default() };
        let (mut next, mut earlier) = (0, 0);
        for &(position, length, rounded) in chunks {
            let start = if self.has(InlinePositions) { position + earlier } else { position }.min(2 << 20);
            laid.base.extend(next..start);
            next = start + rounded.min(2 << 20);
            earlier += rounded;
            let segments = reads.iter().filter(|entry| entry.position as usize == position);
            let lengths: Vec<usize> = segments.map(|entry| entry.target.length as usize).collect();
            if self.has(SegmentPadding) {
                let mut at = start;
                for length in lengths {
                    laid.pulled.extend(at..at + length);
                    laid.padding.extend(at + length..at + rounded_up(length));
                    at += rounded_up(length);
                }
                continue;
            }
            let end = start + length.min(2 << 20);
            if self.has(SegmentsReversed) {
                let mut end = end;
                for length in lengths.iter().rev().take_while(|&&length| length < 1 << 20) {
                    // Saturating for states whose sum wrapped elsewhere.
                    laid.pulled.extend(end.saturating_sub(*length)..end);
                    end = end.saturating_sub(*length);
                }
            } else {
                laid.pulled.extend(start..end);
            }
            laid.padding.extend(end..next);
        }
        laid.base.extend(next..length);
        laid
    }

    /// 12 as soon as the read list is known.
    fn read_list_fits(&self, frame: &[u8]) -> Result<(), u32> {
        let mut end = 16;
        while frame.get(end..end + 24).is_some_and(|entry| entry[..4] == [0, 0, 0, 1]) {
            end += 24;
        }
        let alone = [frame.get(..end).unwrap_or_default(), &[0; 12]].concat();
        match header::read(&alone) {
            Ok((header, _)) => self.lay(header.kind, &header.reads, 0, 0, false).map(drop),
            Err(_) => Ok(()),
        }
        .or_else(|number| if number == 12 { Err(12) } else { Ok(()) })
    }

    fn begin(&self, frame: &[u8], out: &mut [u8]) -> Result<State, u32> {
        let mut lent = frame.to_vec();
        if self.has(AnyMarker) && frame.len() >= 20 && frame[16..20] != [0; 4] {
            lent[16..20].copy_from_slice(&[0, 0, 0, 1]);
        }
        if self.has(TwelveBeforeReading) {
            self.read_list_fits(frame)?;
        }
        let (mut header, payload) = header::read(&lent)?;
        self.refused_order(header.kind, &header.reads)?;
        let handles = header.reads.windows(2).filter(|pair| pair[0].position == pair[1].position);
        if self.has(OneHandle)
            && handles.into_iter().any(|pair| pair[0].target.handle != pair[1].target.handle)
        {
            return Err(14);
        }
        let zero = self.at_zero(&header.reads);
        let base = if header.kind == Kind::Nomsg { self.zero_length(zero) } else { payload.len() };
        if self.has(RefusedStartWrites) && payload.len() <= out.len() {
            out[..payload.len()].copy_from_slice(payload);
        }
        if self.misorders(CheckedBeforeSorting) {
            self.lay(header.kind, &header.reads, base, out.len(), false)?;
        }
        let sorted = self.sort(header.kind, &header.reads);
        let laid = self.lay(header.kind, &sorted, base, out.len(), false)?;
        if !self.misorders(StateInWireOrder) && !self.misorders(PulledInWireOrder) {
            header.reads = sorted;
        }
        if self.has(PulledCleared) {
            laid.pulled.iter().for_each(|&place| out[place] = 0);
        }
        if self.has(BehindCleared) {
            out[laid.length..].fill(0);
        }
        if header.kind == Kind::Msg && !self.has(StartWritesNothing) {
            laid.base.iter().zip(payload).for_each(|(&place, &byte)| out[place] = byte);
        }
        if !self.has(HeldPadding) && !self.has(StartWritesNothing) {
            laid.padding.iter().for_each(|&place| out[place] = 0);
        }
        if self.has(HandlesLost) {
            header.reads.iter_mut().for_each(|entry| entry.target.handle = 0);
        }
        let base = if self.has(BaseLost) && header.kind == Kind::Nomsg { 0 } else { base };
        let buffer = if self.has(MessageForBuffer) { laid.length } else { out.len() };
        let taken = usize::from(self.has(StartCounts) && !laid.pulled.is_empty());
        Ok(State { kind: header.kind, reads: header.reads, base, buffer, taken })
    }

    fn faulty_start(&self, frame: &mut [u8], out: &mut [u8], place: &mut ffi::State) -> u32 {
        let before = *place;
        let number = match self.begin(frame, out) {
            Ok(state) => {
                *place = flatten_state(&state);
                0
            }
            Err(number) => number,
        };
        let used = place.read_count as usize;
        match number {
            1.. if self.has(RefusedStartState) => place.buffer = out.len(),
            1.. if self.has(RefusedStartKind) && frame.get(15) == Some(&1) => place.kind = NOMSG,
            1.. if self.has(RefusedStartZeroed) => *place = ffi::State::ZERO,
            1..12 if self.has(RefusedReadingZeroed) => *place = ffi::State::ZERO,
            // The state as it would be with more room.
            16 if self.has(RefusedStartStores) => {
                *place =
                    assembly::start(frame, &mut [0; 1 << 20]).map_or(before, |state| flatten_state(&state))
            }
            0 if self.has(StartChangesFrame) => frame[3] ^= 1,
            0 if self.misorders(StartSortsFrame) => sort_frame(frame),
            5.. if self.has(RefusedStartChangesFrame) => frame[4..8].reverse(),
            0 if self.has(StartReservedKept) && used > 0 => {
                place.reads[used - 1].reserved = before.reads[used - 1].reserved
            }
            0 if self.has(StartUnusedReservedKept) && used < 16 => {
                place.reads[15].reserved = before.reads[15].reserved
            }
            0 if self.has(StartReservedSet) && used > 0 => place.reads[0].reserved = 1,
            0 if self.has(StartUnusedKept) => {
                place.reads[used..].copy_from_slice(&before.reads[used..]);
            }
            _ => {}
        }
        if self.has(StartBehindStored) {
            store_behind(place, number);
        }
        number
    }

    fn settled(&self, flat: &ffi::State, room: usize) -> Result<(Laid, usize), u32> {
        let kind = match flat.kind {
            MSG => Kind::Msg,
            NOMSG => Kind::Nomsg,
            _ if self.has(AnyKind) => Kind::Msg,
            _ => return Err(17),
        };
        if flat.read_count > 16 && !self.has(AnyCount) {
            return Err(17);
        }
        let (used, unused) = flat.reads.split_at(flat.read_count.min(16) as usize);
        let reserved = |list: &[ffi::ReadSegment]| list.iter().any(|entry| entry.reserved != 0);
        if self.has(ReservedRefused) && reserved(used) || self.has(UnusedReservedRefused) && reserved(unused)
        {
            return Err(17);
        }
        // Position and reserved word taken as one, where the order of positions is checked.
        let joined = |entry: &ffi::ReadSegment| u64::from(entry.reserved) << 32 | u64::from(entry.position);
        if self.has(ReservedInPosition) && !used.is_sorted_by_key(joined) {
            return Err(17);
        }
        let wire: Vec<ReadSegment> = used.iter().map(|&entry| entry.into()).collect();
        let nine = !self.has(No9) && wire.iter().any(|entry| entry.position % 4 != 0);
        let unsorted = !self.has(No8) && !self.takes_order(&flat.reads, used.len());
        let mut sorted = wire.clone();
        if !self.has(No8) {
            sorted.sort_by_key(|entry| entry.position);
        }
        let reads = &sorted[..];
        let mut base = flat.base;
        if self.has(BaseIn32Bits) {
            base = base as u32 as usize;
        }
        let own = kind != Kind::Nomsg || base == self.zero_length(reads) || self.has(AnyBase);
        if unsorted && self.misorders(StateGives8) {
            return Err(8);
        }
        if nine || unsorted || !own || flat.buffer != room && !self.has(AnyBuffer) || base > 2 << 20 {
            return Err(17);
        }
        let mut room = room;
        if self.has(No16) {
            room = room.max(1 << 21);
        }
        let mut laid = self.lay(kind, reads, base, room, true).map_err(|_| 17u32)?;
        if self.has(No14) {
            laid.pulled.truncate(reads.iter().map(|entry| entry.target.length as usize).sum());
        }
        if self.misorders(PulledInWireOrder) {
            laid.pulled = self.pulled_order(&wire, laid.pulled);
        }
        let taken = if self.has(TakenIn32Bits) { flat.taken as u32 as usize } else { flat.taken };
        if taken > laid.pulled.len() && !self.has(AnyTaken) {
            return Err(17);
        }
        let taken = taken.min(laid.pulled.len());
        Ok((laid, taken))
    }

    fn faulty_take(&self, flat: &mut ffi::State, piece: &[u8], out: &mut [u8]) -> Result<(), u32> {
        let listed: usize = flat.reads.iter().map(|entry| entry.target.length as usize).sum();
        if self.has(EighteenFirst) && piece.len() > listed {
            return Err(18);
        }
        let (laid, taken) = self.settled(flat, out.len())?;
        let left = &laid.pulled[taken..];
        let refused = piece.len() > left.len() + usize::from(self.has(OneTooManyTaken))
            || self.has(LastRefused) && !piece.is_empty() && piece.len() == left.len()
            || self.has(EmptyRefusedAtEnd) && left.is_empty()
            || self.has(LongPieceRefused) && piece.len() > 65_536;
        let mut put = |places: &[usize]| {
            places.iter().zip(piece).for_each(|(&place, &byte)| {
                if let Some(place) = out.get_mut(place) {
                    *place = byte;
                }
            });
        };
        if refused {
            if self.has(RefusedPieceWrites) {
                put(left);
            }
            if self.has(RefusedPieceState) {
                flat.taken = laid.pulled.len();
            }
            return Err(18);
        }
        let first = left.first().copied().unwrap_or(0);
        let joined: Vec<usize> = (first..first + left.len()).collect();
        match () {
            _ if self.has(NothingWritten) || self.has(OnlyFirstPiece) && taken > 0 => {}
            _ if self.has(AlwaysFirstPlace) => put(&laid.pulled),
            _ if self.has(RunsJoined) => put(&joined),
            _ if self.has(WholeWordsWritten) => put(&left[..piece.len().min(left.len()) & !7]),
            _ => put(left),
        }
        let room = out.len();
        match () {
            _ if self.has(BehindTouched) && laid.length < room => out[laid.length] = 0,
            // The guard is there.
            _ if self.has(GuardTouched) => unsafe { *out.as_mut_ptr().add(room) ^= 1 },
            _ if self.has(PaddingOnPiece) => laid.padding.iter().for_each(|&place| out[place] = 0),
            _ => {}
        }
        flat.taken = taken.saturating_add(piece.len());
        match () {
            _ if self.has(TakenIn32Bits) => {}
            _ if self.has(CountInvented) => flat.taken = laid.pulled.len(),
            _ if self.has(FirstPieceWhole) && taken == 0 && !piece.is_empty() => {
                flat.taken = laid.pulled.len()
            }
            _ if self.has(EmptyCounts) && piece.is_empty() && !left.is_empty() => flat.taken += 1,
            _ => {}
        }
        if self.has(UnusedZeroed) {
            flat.reads[flat.read_count as usize..].fill(ffi::ReadSegment::default());
        }
        let used = flat.read_count.min(16) as usize;
        let clear = |list: &mut [ffi::ReadSegment]| list.iter_mut().for_each(|entry| entry.reserved = 0);
        match () {
            _ if self.has(PieceReservedCleared) && !piece.is_empty() => clear(&mut flat.reads[..used]),
            _ if self.has(PieceUnusedReservedCleared) => clear(&mut flat.reads[used..]),
            _ if self.has(EmptyPieceReservedCleared) && piece.is_empty() => clear(&mut flat.reads),
            _ => {}
        }
        Ok(())
    }

    fn faulty_take_piece(&self, state: &mut ffi::State, piece: &mut [u8], out: &mut [u8]) -> u32 {
        let number = self.faulty_take(state, piece, out).err().unwrap_or(0);
        match number {
            17 if self.has(KindMended) => state.kind = state.kind.min(NOMSG),
            17 if self.has(RefusedStateZeroed) => *state = ffi::State::ZERO,
            17 if self.misorders(RefusedStateSorted) => sort_used(state),
            18 if self.has(RefusedUnusedZeroed) => {
                state.reads[state.read_count as usize..].fill(Default::default())
            }
            17 | 18 if self.has(RefusedReservedCleared) => state.reads[0].reserved = 0,
            0 if self.has(PieceChanged) => piece.fill(0),
            17 | 18 if self.has(RefusedPieceChanged) => piece.fill(0xff),
            _ => {}
        }
        if self.has(PieceBehindStored) {
            store_behind(state, number);
        }
        number
    }

    fn finished(&self, state: &ffi::State, room: usize) -> Result<usize, u32> {
        if self.has(AskingUnchecked) && state.taken == 0 && state.read_count == 0 {
            return Ok(state.base.min(room));
        }
        let (laid, taken) = self.settled(state, room)?;
        let early = usize::from(self.has(NineteenEarly));
        if taken + early < laid.pulled.len() && !self.has(No19) {
            return Err(19);
        }
        Ok(match () {
            _ if self.has(WholeBufferLength) => room,
            _ if self.has(FixedMessage) => 20.min(room),
            _ if self.has(UnpaddedLength) => laid.length - laid.padding.len(),
            _ => laid.length,
        })
    }

    fn faulty_message(&self, state: &mut ffi::State, out: &mut [u8], place: &mut usize) -> u32 {
        let number = match self.finished(state, out.len()) {
            Ok(0) if self.has(EmptyNotStored) => 0,
            Ok(length) => {
                *place = length;
                if self.has(MessageWrites) && length > 0 {
                    out[length - 1] ^= 1;
                }
                0
            }
            Err(number) => number,
        };
        match number {
            17 if self.has(Refused17Length) => *place = 0,
            17 if self.has(Beside17Length) => *place = state.base,
            19 if self.has(Refused19Length) => *place = 0,
            19 if self.has(LengthBeside19) => *place = state.base.min(out.len()),
            19 if self.has(AskingWrites) => out[0] ^= 1,
            17 if self.misorders(RefusedStateSorted) => sort_used(state),
            0 if self.has(MessageChangesState) => state.reads[15].reserved ^= 1,
            17 | 19 if self.has(RefusedMessageChangesState) => state.taken = 0,
            _ => {}
        }
        if self.has(MessageBehindStored) {
            store_behind(place, number);
        }
        number
    }
}

fn sort_used(state: &mut ffi::State) {
    let used = state.read_count.min(16) as usize;
    state.reads[..used].sort_by_key(|entry| entry.position);
}

fn rounded_up(length: usize) -> usize {
    length.next_multiple_of(4)
}

impl AssemblyCalls for Wrong {
    fn start(&self, frame: &mut [u8], out: &mut [u8], state: &mut ffi::State) -> u32 {
        if *self == Reply(StartOfEchoAs12) && is_echo(frame) {
            return 12;
        }
        self.faulty_start(frame, out, state)
    }

    fn take_piece(&self, state: &mut ffi::State, piece: &mut [u8], out: &mut [u8]) -> ffi::PieceAnswer {
        let wrong = if let Message(_) | MessageOrder(_) = self { &Nowhere } else { self };
        let before = *state;
        let number = wrong.faulty_take_piece(state, piece, out);
        wrong.answer(&before, piece.len(), number)
    }

    fn message(&self, state: &mut ffi::State, out: &mut [u8], length: &mut usize) -> u32 {
        let wrong = if let Piece(_) | PieceOrder(_) = self { &Nowhere } else { self };
        wrong.faulty_message(state, out, length)
    }
}

#[test]
fn each_is_found() {
    for &mistake in MISTAKES {
        is_found(Assembly(mistake), 5, |check| families::run(check, &mut Rng(5), 1_000));
    }
}

/// Every clause of 17 counts in taking as well as in asking, and so does what must not be one.
#[test]
fn each_clause_of_17_in_each_call() {
    let clauses = [
        AnyKind,
        AnyCount,
        No9,
        No8,
        No12Msg,
        No12Nomsg,
        No13,
        No14,
        No15,
        No16,
        AnyBuffer,
        AnyTaken,
        AnyBase,
        TakenIn32Bits,
        BaseIn32Bits,
        ReservedRefused,
        UnusedReservedRefused,
        ReservedInPosition,
    ];
    for wrong in clauses.iter().flat_map(|&clause| [Piece(clause), Message(clause)]) {
        is_found(wrong, 7, |check| match wrong {
            Piece(No15) | Message(No15) => families::largest(check, &mut Rng(7)),
            _ => families::states(check, &mut Rng(7), 2_000),
        });
    }
}

/// Each group of families alone: in a run an earlier one may find the fault before it.
#[test]
fn each_group_can_fail() {
    type Group = fn(&mut Checker<Wrong>, &mut Rng) -> Outcome;
    let groups: [(Group, &[Mistake]); 6] = [
        (
            |check, rng| families::starts(check, rng, 2_000),
            &[
                SegmentPadding,
                HeldPadding,
                UnpaddedCursor,
                MixedListBounded,
                RefusedStartZeroed,
                RefusedReadingZeroed,
                RefusedStartStores,
                StartReservedKept,
                StartUnusedReservedKept,
                StartReservedSet,
                StartUnusedKept,
                StartBehindStored,
                StartChangesFrame,
                RefusedStartChangesFrame,
            ],
        ),
        (|check, rng| families::sums(check, rng), &[SumIn32Bits, RoundingIn32Bits, EndIn32Bits]),
        (
            |check, rng| families::splits(check, rng),
            &[
                RunsJoined,
                SegmentsReversed,
                NomsgBaseLast,
                EmptyRefusedAtEnd,
                PieceChanged,
                MessageChangesState,
            ],
        ),
        (
            |check, rng| families::lists(check, rng, 2_000),
            &[
                OnlyFirstPiece,
                SegmentsApart,
                OneTooManyTaken,
                PulledCleared,
                PieceReservedCleared,
                ReservedRefused,
                ReservedInPosition,
                RefusedStartZeroed,
                StartChangesFrame,
                RefusedPieceChanged,
                RefusedMessageChangesState,
            ],
        ),
        (
            |check, rng| families::states(check, rng, 2_000),
            &[
                PaddingOnPiece,
                UnusedZeroed,
                AskingUnchecked,
                EighteenFirst,
                PieceReservedCleared,
                PieceUnusedReservedCleared,
                EmptyPieceReservedCleared,
                RefusedReservedCleared,
                PieceBehindStored,
                Refused17Length,
                Refused19Length,
                Beside17Length,
                MessageBehindStored,
                EmptyNotStored,
                PieceChanged,
                RefusedPieceChanged,
                MessageChangesState,
                RefusedMessageChangesState,
            ],
        ),
        (
            |check, rng| families::largest(check, rng),
            &[LargestRefused, LargestExceeded, LongPieceRefused, SixteenBeforeFifteen],
        ),
    ];
    for (at, (run, found)) in groups.into_iter().enumerate() {
        for &mistake in found {
            let outcome = run(&mut Checker::new(Assembly(mistake), 8), &mut Rng(8));
            assert!(outcome.is_err(), "group {at} does not find {mistake:?}");
        }
    }
}

/// Document 01's errors: each named case alone finds its variants and passes the right ones.
#[test]
fn named_errors_are_found() {
    let variants = [
        [Assembly(SegmentPadding), Assembly(SegmentPadding)],
        [Assembly(InlinePositions), Assembly(OverlapTaken)],
        [Assembly(EqualCursor), Assembly(UnpaddedCursor)],
        [Assembly(AnyMarker), Assembly(RefusedStartZeroed)],
        [Assembly(HeldPadding), Assembly(StartWritesNothing)],
        [Reply(ReplyToError), Reply(ReplyToErrorOfOtherVersion)],
    ];
    for ((_, run), variants) in families::mistakes().into_iter().zip(variants) {
        variants.into_iter().for_each(|wrong| can_fail(wrong, run));
    }
    for (name, run) in families::mistakes() {
        let mut check = Checker::new(Plain, 1);
        check.family(name);
        assert_eq!(run(&mut check), Ok(()), "{name}");
    }
}

/// The checks over several calls, each alone: in a run another finds the fault before.
#[test]
fn checks_over_lists_can_fail() {
    type Check = fn(&mut Checker<Wrong>) -> Outcome;
    fn list() -> Vec<Step> {
        let pieces: [&[u8]; 7] = [&PULLED[..2], &[], &[0; 4], &[0; 9], &PULLED[2..4], &PULLED[4..], &[]];
        let calls = pieces.iter().flat_map(|piece| [Step::Piece(piece.to_vec()), Step::Ask]);
        [Step::Ask].into_iter().chain(calls).collect()
    }
    // Each list that begins this one is a list too.
    let tallied: Check = |check| {
        let (uncut, cut, steps) = (c6().bytes(), c9().bytes(), list());
        (0..=steps.len()).try_for_each(|count| check.tallied(&uncut, &cut, &[0x55; 21], &steps[..count]))
    };
    // Two cuts alone: no reference, no tally, just one run beside the other.
    let two_cuts: Check = |check| {
        let one = [Step::Piece(PULLED.to_vec())];
        check.two_cuts([&c6().bytes(), &c9().bytes()], &[0x55; 21], [&one, &list()])
    };
    let way: Check = |check| check.way(&c9().bytes(), &[0x55; 21], &list());
    let both = [
        SegmentPadding,
        SegmentsApart,
        SegmentsReversed,
        OnlyFirstPiece,
        RefusedPieceState,
        FirstPieceWhole,
        StartChangesFrame,
        PieceChanged,
        RefusedPieceChanged,
        MessageChangesState,
        RefusedMessageChangesState,
        AskingWrites,
        MessageWrites,
    ];
    let beside = [
        HeldPadding,
        NoPadding,
        BehindCleared,
        PulledCleared,
        StartCounts,
        NothingWritten,
        CountInvented,
        EmptyCounts,
        RefusedPieceWrites,
        OneTooManyTaken,
        LastRefused,
        EmptyRefusedAtEnd,
        AlwaysFirstPlace,
        BehindTouched,
        No19,
        NineteenEarly,
        LengthBeside19,
        Refused19Length,
        WholeBufferLength,
        UnpaddedLength,
        MessageForBuffer,
    ];
    for mistake in both {
        can_fail(Assembly(mistake), two_cuts);
    }
    for mistake in both.into_iter().chain(beside) {
        can_fail(Assembly(mistake), tallied);
        can_fail(Assembly(mistake), way);
    }
}
