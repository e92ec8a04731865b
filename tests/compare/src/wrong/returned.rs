//! A third reading of a reply, into which one mistake at a time is put.

use super::header::Mistake::{EmptyReplyChunkLost, ReadChangesFrame, WriteClearsReserved};
use super::{can_fail, is_found, mistakes, store_behind, Wrong};
use crate::calls::ReturnedCalls;
use crate::cases::returned::{self as families, full_pair, run, write1};
use crate::check::{Checker, Outcome};
use crate::rng::Rng;
use crate::words::Words;
use eoswynnor::ffi::{self, Landed, Segment, ERROR_CHUNK, ERROR_VERSION, MSG, NOMSG};
use Mistake::*;
use Wrong::{Header, Returned};

mistakes! {
    // 20.
    UnknownKindAsMsg UnknownSentKindTaken SentFlagUnchecked ReplyFlagUnchecked AnyFlagIsPresent
    SevenBeforeTwenty TwentyAsSeven
    // 7.
    OnlyRepliesSeven OnlySentSeven TwelveBeforeSeven ErrorBeforeSeven ErrorsUnlimited XidBeforeSeven
    ReadsBeforeSeven SevenAs26 TotalIn32Bits CountsBehindLimited SixteenOverLimit ReadsUnlimited
    ChunksUnlimited SeventeenSegments AbsentSegmentsTaken NineToo EightToo
    // 26: the headers.
    XidNotCompared XidIn16Bits CreditsCompared KindsCompared LowAndHighCompared ReservedCompared
    SentReadsRefused ReplyReadsTaken ErrorSentTaken ErrorReplyTaken ErrorVersionTaken ErrorChunkTaken
    TwelveForError
    // 26: how many chunks and segments.
    MoreChunksTaken FewerChunksTaken SegmentNumbersNotCompared OnlyTotalsCompared LastNumberNotCompared
    CountsBehindCompared ReplyNumbersNotCompared
    // 26: segment by segment.
    HandleNotCompared OffsetNotCompared OffsetIn32Bits OffsetByHighWord LastNotCompared
    EmptyNotCompared LastHandlesNotCompared SixteenthNotCompared AnyOrder WritePlacesBehindCompared
    ReplyPlacesBehindCompared AboveTaken EqualRefused SignedLengths
    // 26: from the front.
    GapTaken NeighbourOnly FirstOnly FullnessCarried FullnessCarriedToReply ZeroIsNotFull PartIsFull
    BehindEmptyRefused FullBySumIn32Bits ReplyGapTaken
    // 26: the reply chunk.
    MissingInMsgRefused MissingInNomsgTaken NoneInNomsgTaken UnsentTaken UnsentEmptyTaken LandedInMsgTaken
    MsgByFirstLength MsgReplyNotCompared MsgBySentKind EmptyInMsgRefused
    // What is stored.
    SumsIn32Bits SumsEndAt32Bits SentSummed PlacesBehindSummed ReplyAndWriteExchanged ChunksReversed
    EmptyChunksSkipped RunningSums BehindKept AbsentReplyKept ZeroNotStored StoresBehind ChunkStoredBehind
    // What a refusal stores.
    RefusalStoresZeros SevenStoresZeros TwentyStoresZeros StoredWhileChecked
    // What is lent for reading alone.
    SentChanged ReplyChanged RefusedSentChanged SevenMendsReply TwentyMendsKind
    // One header as both.
    ItselfTaken ItselfRefused ItselfNotStored ItselfChanged ItselfUnlimited
}

fn is_error(header: &ffi::Header) -> bool {
    header.kind == ERROR_VERSION || header.kind == ERROR_CHUNK
}

fn used(header: &ffi::Header) -> &[u32] {
    &header.write_counts[..header.write_chunks.min(4) as usize]
}

fn total(counts: &[u32]) -> u64 {
    counts.iter().map(|&count| u64::from(count)).sum()
}

/// Some mistakes let a count pass that the list does not hold.
fn part(list: &[Segment], start: u64, count: u32) -> &[Segment] {
    list.get(start as usize..start as usize + count as usize).unwrap_or_default()
}

impl Wrong {
    fn slips(&self, mistake: Mistake) -> bool {
        *self == Returned(mistake)
    }

    fn over_limit(&self, header: &ffi::Header) -> bool {
        let counts = if self.slips(CountsBehindLimited) { &header.write_counts } else { used(header) };
        let mut total = total(counts);
        if self.slips(TotalIn32Bits) {
            total = total as u32 as u64;
        }
        let most = if self.slips(SixteenOverLimit) { 15 } else { 16 };
        let most_replied = match header.reply_present {
            1 if self.slips(SeventeenSegments) => 17,
            0 if !self.slips(AbsentSegmentsTaken) => 0,
            _ => 16,
        };
        header.read_count > 16 && !self.slips(ReadsUnlimited)
            || header.write_chunks > 4 && !self.slips(ChunksUnlimited)
            || total > most
            || header.reply_count > most_replied
    }

    /// What comes before the headers are laid beside each other.
    fn checked(&self, sent: &ffi::Header, reply: &ffi::Header) -> Result<(), u32> {
        let limited = match () {
            _ if self.slips(OnlyRepliesSeven) => vec![reply],
            _ if self.slips(OnlySentSeven) => vec![sent],
            _ if self.slips(ErrorsUnlimited) => {
                [sent, reply].into_iter().filter(|header| !is_error(header)).collect()
            }
            _ => vec![sent, reply],
        };
        let seven = limited.into_iter().any(|header| self.over_limit(header));
        if self.slips(SevenBeforeTwenty) && seven {
            return Err(7);
        }
        let unknown = |header: &ffi::Header| header.kind > 3 || header.reply_present > 1;
        if unknown(sent) || unknown(reply) {
            return Err(20);
        }
        let listed = |h: &ffi::Header| h.read_count > 0 || h.write_chunks > 0 || h.reply_present == 1;
        let errors = [sent, reply].into_iter().filter(|header| is_error(header));
        if self.slips(TwelveBeforeSeven) && errors.clone().any(listed) {
            return Err(12);
        }
        let early = self.slips(ErrorBeforeSeven) && errors.count() > 0
            || self.slips(XidBeforeSeven) && sent.xid != reply.xid
            || self.slips(ReadsBeforeSeven) && reply.read_count > 0;
        if early {
            return Err(26);
        }
        if seven {
            return Err(7);
        }
        // The writer's 9, which is no part of its 7, and the 8 that it had.
        let reads = sent.reads.get(..sent.read_count as usize).unwrap_or_default();
        if self.slips(NineToo) && reads.iter().any(|entry| entry.position & 3 != 0) {
            return Err(9);
        }
        if self.slips(EightToo) && !reads.is_sorted_by_key(|entry| entry.position) {
            return Err(8);
        }
        Ok(())
    }

    /// Whether 26 is given for something outside the chunks.
    fn others(&self, sent: &ffi::Header, reply: &ffi::Header) -> bool {
        let xids = match () {
            _ if self.slips(XidNotCompared) => false,
            _ if self.slips(XidIn16Bits) => sent.xid as u16 != reply.xid as u16,
            _ => sent.xid != reply.xid,
        };
        let error = |header: &ffi::Header| match header.kind {
            ERROR_VERSION => !self.slips(ErrorVersionTaken),
            kind => kind == ERROR_CHUNK && !self.slips(ErrorChunkTaken),
        };
        xids || reply.read_count > 0 && !self.slips(ReplyReadsTaken)
            || sent.read_count > 0 && self.slips(SentReadsRefused)
            || error(sent) && !self.slips(ErrorSentTaken)
            || error(reply) && !self.slips(ErrorReplyTaken)
            || sent.credit != reply.credit && self.slips(CreditsCompared)
            || sent.kind != reply.kind && self.slips(KindsCompared)
            || (sent.low, sent.high) != (reply.low, reply.high) && self.slips(LowAndHighCompared)
            || sent.reserved != reply.reserved && self.slips(ReservedCompared)
    }

    /// Whether 26 is given for a number of write chunks or of their segments.
    fn numbers(&self, sent: &ffi::Header, reply: &ffi::Header) -> bool {
        let (ours, theirs) = (used(sent), used(reply));
        let chunks = match () {
            _ if self.slips(MoreChunksTaken) => theirs.len() < ours.len(),
            _ if self.slips(FewerChunksTaken) => theirs.len() > ours.len(),
            _ => theirs.len() != ours.len(),
        };
        let mut pairs = ours.iter().zip(theirs).take(if self.slips(LastNumberNotCompared) { 3 } else { 4 });
        chunks
            || match () {
                _ if self.slips(SegmentNumbersNotCompared) => false,
                _ if self.slips(OnlyTotalsCompared) => total(ours) != total(theirs),
                _ if self.slips(CountsBehindCompared) => sent.write_counts != reply.write_counts,
                _ => pairs.any(|(ours, theirs)| ours != theirs),
            }
    }

    fn other_memory(&self, ours: &Segment, theirs: &Segment) -> bool {
        let offset = match () {
            _ if self.slips(OffsetNotCompared) => false,
            _ if self.slips(OffsetIn32Bits) => ours.offset as u32 != theirs.offset as u32,
            _ if self.slips(OffsetByHighWord) => ours.offset >> 32 != theirs.offset >> 32,
            _ => ours.offset != theirs.offset,
        };
        offset || ours.handle != theirs.handle && !self.slips(HandleNotCompared)
    }

    /// The bytes of a chunk, or 26. `full` is whether all before it counts as full.
    fn chunk(&self, sent: &[Segment], back: &[Segment], full: &mut bool) -> Result<u64, u32> {
        let (mut bytes, mut missing) = (0, 0u32);
        let mut sorted = [sent.to_vec(), back.to_vec()];
        if self.slips(AnyOrder) {
            sorted.iter_mut().for_each(|list| list.sort_by_key(|segment| (segment.handle, segment.offset)));
        }
        let [sent, back] = &sorted;
        for (at, (ours, theirs)) in sent.iter().zip(back).enumerate() {
            let compared = match () {
                _ if self.slips(LastNotCompared) => at == 0 || at + 1 < sent.len(),
                _ if self.slips(SixteenthNotCompared) => at < 15,
                _ if self.slips(EmptyNotCompared) => theirs.length > 0,
                _ => true,
            };
            let above = match () {
                _ if self.slips(AboveTaken) => false,
                _ if self.slips(EqualRefused) => theirs.length >= ours.length,
                _ if self.slips(SignedLengths) => theirs.length as i32 > ours.length as i32,
                _ => theirs.length > ours.length,
            };
            let gap = !*full && theirs.length > 0 && !self.slips(GapTaken);
            if compared && self.other_memory(ours, theirs) || above || gap {
                return Err(26);
            }
            let filled = match () {
                _ if self.slips(ZeroIsNotFull) => ours.length > 0 && theirs.length == ours.length,
                _ if self.slips(PartIsFull) => theirs.length > 0 || ours.length == 0,
                _ if self.slips(BehindEmptyRefused) => theirs.length > 0,
                _ if self.slips(FirstOnly) => at > 0 || theirs.length == ours.length,
                _ if self.slips(FullBySumIn32Bits) => {
                    missing = missing.wrapping_add(ours.length - theirs.length);
                    *full = true;
                    missing == 0
                }
                _ => theirs.length == ours.length,
            };
            *full = filled && (*full || self.slips(NeighbourOnly));
            bytes += u64::from(if self.slips(SentSummed) { ours.length } else { theirs.length });
        }
        Ok(match () {
            _ if self.slips(SumsIn32Bits) => bytes as u32 as u64,
            _ if self.slips(SumsEndAt32Bits) => bytes.min(u32::MAX as u64),
            _ => bytes,
        })
    }

    /// Bytes of the reply chunk, or 26. `full` is handed on from the last write chunk.
    fn reply_chunk(&self, sent: &ffi::Header, reply: &ffi::Header, full: bool) -> Result<u64, u32> {
        let msg = if self.slips(MsgBySentKind) { sent.kind == MSG } else { reply.kind != NOMSG };
        let (lent, back) = (sent.reply_present > 0, reply.reply_present > 0);
        if !back {
            let refused = match msg {
                true => lent && self.slips(MissingInMsgRefused),
                false if lent => !self.slips(MissingInNomsgTaken),
                false => !self.slips(NoneInNomsgTaken),
            };
            return if refused { Err(26) } else { Ok(0) };
        }
        let segments = part(&reply.reply, 0, reply.reply_count);
        let landed = match segments.split_first() {
            _ if self.slips(LandedInMsgTaken) => false,
            Some((first, _)) if self.slips(MsgByFirstLength) => first.length > 0,
            _ => segments.iter().any(|segment| segment.length > 0),
        };
        if msg && (landed || self.slips(EmptyInMsgRefused)) {
            return Err(26);
        }
        if !lent {
            let taken = self.slips(UnsentTaken) || self.slips(UnsentEmptyTaken) && segments.is_empty();
            return if taken { Ok(0) } else { Err(26) };
        }
        if msg && self.slips(MsgReplyNotCompared) {
            return Ok(0);
        }
        if sent.reply_count != reply.reply_count && !self.slips(ReplyNumbersNotCompared) {
            return Err(26);
        }
        if self.slips(ReplyPlacesBehindCompared) && sent.reply[15].handle != reply.reply[15].handle {
            return Err(26);
        }
        let mut full = full || !self.slips(FullnessCarriedToReply);
        let sent = part(&sent.reply, 0, sent.reply_count);
        let wrong = if self.slips(ReplyGapTaken) { &Returned(GapTaken) } else { self };
        let bytes = wrong.chunk(sent, segments, &mut full)?;
        if self.slips(PlacesBehindSummed) {
            return Ok(reply.reply.iter().map(|segment| u64::from(segment.length)).sum());
        }
        Ok(bytes)
    }

    /// What is stored, or the number. `place` is stored into before all is checked by one mistake alone.
    fn land(&self, sent: &ffi::Header, reply: &ffi::Header, place: &mut Landed) -> Result<Landed, u32> {
        self.checked(sent, reply)?;
        if self.slips(TwelveForError) && (is_error(sent) || is_error(reply)) {
            return Err(12);
        }
        if self.others(sent, reply) || self.numbers(sent, reply) {
            return Err(26);
        }
        if self.slips(WritePlacesBehindCompared) && sent.writes[15].handle != reply.writes[15].handle {
            return Err(26);
        }
        let mut landed = Landed::ZERO;
        let (mut full, mut ours, mut theirs, mut at) = (true, 0, 0, 0);
        for (&lent, &back) in used(sent).iter().zip(used(reply)) {
            full |= !self.slips(FullnessCarried);
            let (one, two) = (part(&sent.writes, ours, lent), part(&reply.writes, theirs, back));
            let wrong = match self {
                Returned(LastHandlesNotCompared) if at == 3 => &Returned(HandleNotCompared),
                _ => self,
            };
            landed.writes[at] = wrong.chunk(one, two, &mut full)?;
            if self.slips(RunningSums) && at > 0 {
                landed.writes[at] += landed.writes[at - 1];
            }
            if self.slips(StoredWhileChecked) {
                place.writes[at] = landed.writes[at];
            }
            at += usize::from(back > 0 || !self.slips(EmptyChunksSkipped));
            (ours, theirs) = (ours + u64::from(lent), theirs + u64::from(back));
        }
        landed.reply = self.reply_chunk(sent, reply, full)?;
        Ok(landed)
    }

    fn store(&self, reply: &ffi::Header, mut landed: Landed, place: &mut Landed) {
        let chunks = used(reply).len();
        match *self {
            Returned(ReplyAndWriteExchanged) => std::mem::swap(&mut landed.writes[0], &mut landed.reply),
            Returned(ChunksReversed) => landed.writes[..chunks].reverse(),
            Returned(BehindKept) => landed.writes[chunks..].copy_from_slice(&place.writes[chunks..]),
            Returned(AbsentReplyKept) if reply.reply_present == 0 => landed.reply = place.reply,
            Returned(ZeroNotStored) if landed.writes[0] == 0 => landed.writes[0] = place.writes[0],
            Returned(ChunkStoredBehind) if chunks == 4 => store_behind(place, landed.writes[3] as u32),
            _ => {}
        }
        *place = landed;
    }
}

impl ReturnedCalls for Wrong {
    fn returned(&self, sent: &mut ffi::Header, reply: &mut ffi::Header, place: &mut Landed) -> u32 {
        let (mut ours, mut theirs) = (*sent, *reply);
        match *self {
            Returned(UnknownKindAsMsg) if theirs.kind > 3 => theirs.kind = MSG,
            Returned(UnknownSentKindTaken) if ours.kind > 3 => ours.kind = MSG,
            Returned(SentFlagUnchecked) => ours.reply_present = ours.reply_present.min(1),
            Returned(ReplyFlagUnchecked) => theirs.reply_present &= 1,
            Returned(AnyFlagIsPresent) => {
                (ours.reply_present, theirs.reply_present) =
                    (ours.reply_present.min(1), theirs.reply_present.min(1))
            }
            _ => {}
        }
        let number = match self.land(&ours, &theirs, place) {
            Ok(landed) => {
                self.store(&theirs, landed, place);
                0
            }
            Err(7) if self.slips(SevenAs26) => 26,
            Err(20) if self.slips(TwentyAsSeven) => 7,
            Err(number) => number,
        };
        match (*self, number) {
            (Returned(StoresBehind), _) => store_behind(place, number),
            (Returned(RefusalStoresZeros), 26) => *place = Landed::ZERO,
            (Returned(SevenStoresZeros), 7) => *place = Landed::ZERO,
            (Returned(TwentyStoresZeros), 20) => place.reply = 0,
            (Returned(SentChanged), 0) => sent.credit = reply.credit,
            (Returned(ReplyChanged), 0) => (reply.low, reply.high) = (0, 0),
            (Returned(RefusedSentChanged), 26) => sent.reserved ^= 1,
            (Returned(SevenMendsReply), 7) => reply.reply_count = reply.reply_count.min(16),
            (Returned(TwentyMendsKind), 20) => reply.kind = reply.kind.min(3),
            _ => {}
        }
        number
    }

    fn returned_itself(&self, both: &mut ffi::Header, place: &mut Landed) -> u32 {
        let before = *place;
        let number = self.returned(both, &mut { *both }, place);
        match (*self, number) {
            (Returned(ItselfTaken), 26) => return 0,
            (Returned(ItselfUnlimited), 7) => return 26,
            (Returned(ItselfRefused), 0) => {
                *place = before;
                return 26;
            }
            (Returned(ItselfNotStored), 0) => *place = before,
            (Returned(ItselfChanged), 0) => both.credit ^= 1,
            _ => {}
        }
        number
    }
}

#[test]
fn each_is_found() {
    for &mistake in MISTAKES {
        is_found(Returned(mistake), 5, |check| run(check, &mut Rng(5), 2_000));
    }
}

/// Each group of families alone: in a run an earlier one may find the fault before it.
#[test]
fn each_group_can_fail() {
    type Group = fn(&mut Checker<Wrong>, &mut Rng) -> Outcome;
    let groups: [(Group, &[Mistake]); 8] = [
        (
            |check, rng| families::by_hand(check, rng),
            &[
                GapTaken,
                NeighbourOnly,
                FullnessCarried,
                FullnessCarriedToReply,
                ZeroIsNotFull,
                PartIsFull,
                BehindEmptyRefused,
                FullBySumIn32Bits,
                AboveTaken,
                EqualRefused,
                MsgByFirstLength,
                MsgBySentKind,
                SumsIn32Bits,
                EmptyChunksSkipped,
                StoresBehind,
            ],
        ),
        (
            |check, rng| families::conditions(check, rng),
            &[
                UnknownKindAsMsg,
                SevenBeforeTwenty,
                OnlyRepliesSeven,
                OnlySentSeven,
                TwelveBeforeSeven,
                ErrorBeforeSeven,
                ErrorsUnlimited,
                XidBeforeSeven,
                ReadsBeforeSeven,
                CountsBehindCompared,
                WritePlacesBehindCompared,
                ReplyPlacesBehindCompared,
                CreditsCompared,
                NineToo,
                EightToo,
                AnyOrder,
                OnlyTotalsCompared,
                LastHandlesNotCompared,
                LastNumberNotCompared,
                StoredWhileChecked,
                RefusedSentChanged,
                SevenMendsReply,
                TwentyMendsKind,
            ],
        ),
        (
            |check, rng| families::lengths(check, rng),
            &[
                GapTaken,
                NeighbourOnly,
                FirstOnly,
                FullnessCarried,
                FullnessCarriedToReply,
                ZeroIsNotFull,
                PartIsFull,
                BehindEmptyRefused,
                ReplyGapTaken,
                AboveTaken,
                EqualRefused,
                LandedInMsgTaken,
                MsgByFirstLength,
                SentSummed,
            ],
        ),
        (
            |check, rng| families::shapes(check, rng, 2_000),
            &[
                SixteenOverLimit,
                CountsBehindLimited,
                KindsCompared,
                SentReadsRefused,
                LowAndHighCompared,
                ReservedCompared,
                NeighbourOnly,
                SignedLengths,
                MissingInMsgRefused,
                NoneInNomsgTaken,
                EmptyInMsgRefused,
                SumsIn32Bits,
                SumsEndAt32Bits,
                PlacesBehindSummed,
                ChunksReversed,
                RunningSums,
                BehindKept,
                AbsentReplyKept,
                ChunkStoredBehind,
                SentChanged,
                ReplyChanged,
            ],
        ),
        (
            |check, rng| families::limits(check, rng),
            &[
                SentFlagUnchecked,
                ReplyFlagUnchecked,
                UnknownSentKindTaken,
                TotalIn32Bits,
                SixteenOverLimit,
                ReadsUnlimited,
                ChunksUnlimited,
                SeventeenSegments,
                AbsentSegmentsTaken,
                ErrorsUnlimited,
                ReplyNumbersNotCompared,
                SevenStoresZeros,
                TwentyStoresZeros,
            ],
        ),
        (
            |check, rng| families::itself(check, rng, 2_000),
            &[
                TwelveBeforeSeven,
                ReplyReadsTaken,
                LandedInMsgTaken,
                SumsIn32Bits,
                ItselfTaken,
                ItselfRefused,
                ItselfNotStored,
                ItselfChanged,
                ItselfUnlimited,
            ],
        ),
        (
            |check, rng| families::damage(check, rng, 2_000),
            &[
                XidNotCompared,
                XidIn16Bits,
                HandleNotCompared,
                OffsetIn32Bits,
                OffsetByHighWord,
                LastNotCompared,
                EmptyNotCompared,
                LastHandlesNotCompared,
                SixteenthNotCompared,
                MoreChunksTaken,
                FewerChunksTaken,
                SegmentNumbersNotCompared,
                LastNumberNotCompared,
                ErrorVersionTaken,
                ErrorChunkTaken,
                ReservedCompared,
                UnsentTaken,
                MsgReplyNotCompared,
                MissingInNomsgTaken,
                StoredWhileChecked,
            ],
        ),
        (
            |check, rng| families::carried(check, rng, 2_000),
            &[
                XidNotCompared,
                CreditsCompared,
                NeighbourOnly,
                UnsentEmptyTaken,
                MsgBySentKind,
                ErrorReplyTaken,
                TwelveForError,
                SentReadsRefused,
                RefusalStoresZeros,
                SentChanged,
            ],
        ),
    ];
    for (at, (run, found)) in groups.into_iter().enumerate() {
        for &mistake in found {
            let outcome = run(&mut Checker::new(Returned(mistake), 8), &mut Rng(8));
            assert!(outcome.is_err(), "group {at} does not find {mistake:?}");
        }
    }
}

/// The check over several calls alone: in a run the families before it find the fault.
#[test]
fn checks_over_several_calls_can_fail() {
    let written = |check: &mut Checker<Wrong>, change: fn(&mut [ffi::Header; 2])| {
        let mut pair = full_pair();
        change(&mut pair);
        check.written_returned(&pair[0], &pair[1])
    };
    can_fail(Returned(SumsIn32Bits), |check| written(check, |_| {}));
    can_fail(Returned(SentChanged), |check| written(check, |[sent, _]| sent.credit ^= 1));
    can_fail(Returned(ErrorReplyTaken), |check| {
        let [sent, reply] = write1();
        check.written_returned(&sent, &reply)?;
        let error = ffi::Header { kind: ERROR_CHUNK, write_chunks: 0, ..reply };
        check.written_returned(&ffi::Header { write_chunks: 0, ..sent }, &error)
    });
    can_fail(Header(EmptyReplyChunkLost), |check| {
        written(check, |[sent, reply]| (sent.reply_count, reply.reply_count) = (0, 0))
    });
    can_fail(Header(ReadChangesFrame), |check| written(check, |_| {}));
    can_fail(Header(WriteClearsReserved), |check| written(check, |[sent, _]| sent.reserved = 1));
}
