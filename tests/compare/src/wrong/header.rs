//! Headers with one mistake.

use super::{can_fail, is_found, mistakes, order, reply, store_behind, Wrong};
use crate::calls::HeaderCalls;
use crate::cases::header::{by_hand, c2, full, longest, run};
use crate::check::Checker;
use crate::convert::{asked_length, flatten};
use crate::plain::Plain;
use crate::reference::header::{encode, MAX_HEADER};
use crate::rng::Rng;
use crate::words::Words;
use eoswynnor::ffi;
use Mistake::*;
use Wrong::{Header, Order, Reply};

mistakes! {
    // Reading.
    UnalignedAs8 OverLimitAsCutOff BytesBehindTaken EmptyReplyChunkLost
    HighestOffsetBitLost ErrorChunkCreditLost
    // The header lent for storing: a refusal changes it; a reserved word or an unused place is not zero.
    RefusalStoresXid RefusalZeroes RefusalStoresCredit BytesBehindZeroes ReservedKept UsedReservedKept
    UnusedReservedKept ReservedIsOne ReservedHoldsHandle UnusedReadsKept UnusedWritesKept
    UnusedReplyKept UnusedCountKept HighKept ReadStoresBehind
    // The payload.
    PayloadCutToWords EmptyPayloadOfOneByte PayloadInErrorChunk EmptyPayloadPlaced
    // Writing.
    KindAndListsAsOverLimit BadArgumentAsOverLimit ReservedRefused UsedReservedRefused
    UnusedReservedRefused ReservedInPosition
    // What a writing leaves.
    ByteBehindCleared ShortBufferWritten ShortBufferLength RefusalLengthZero RefusalLengthNeeded
    WriteStoresBehind
    // Number 21, which no header gets: the check kept at another length, for some headers, elsewhere.
    LongerThan959 LongerThan951 LongerThan512 LongerThan28 LongerThan959Behind16 FullMsgAs21 FullNomsgAs21
    FullWithEmptyChunksAs21
    // By the buffer's length; in place of 16.
    RoomUnder960As21 RoomUnder1024As21 RoomOf960As21 RoomOver960As21 RoomOver1024As21 ShortAs21 ShortFullAs21
    // 16 by another length than the header's, or not at all.
    RoomUnder960As16 RoomUnder1024As16 RoomUnder960First FullNeeds961 FullNeeds1024 CutToRoom
    // In place of 7: of each, by length, by the one count that is over its limit; no 7 below a length.
    OverLimitAs21 Over960As21 Over1024As21 ReadsOver1024As21 ChunksOver1024As21 SegmentsOver1024As21
    ReplyOver1024As21 AbsentReplyAs21 LimitsBy960 LimitsBy1024
    // In place of 12 and 9.
    ErrorFrom952As21 ErrorOver960As21 ErrorOver1024As21 UnalignedAs21 FullUnalignedAs21
    // 16 before the others.
    ShortBefore12 ShortBefore7 ShortBefore9 ShortBefore9InFull
    // A full header's bytes and length, and what a refusal leaves.
    FullByteShort FullSegmentShort FullLastByteKept FullLength1024 Length960 LengthOfRoom ZerosUpTo960
    ShortStores960 OverLimitStoresAsked OverLimitWritten UnalignedWritten KindWritten
    // What is lent for reading alone.
    ReadChangesFrame RefusedReadChangesFrame PayloadChangesFrame WriteClearsReserved
    RefusedWriteMendsKind
}

/// The number given in place of the right one where lengths are misjudged.
fn misjudge(mistake: Mistake, header: &ffi::Header, room: usize, number: u32) -> u32 {
    let (asked, kind) = (asked_length(header), header.kind);
    let full = asked == 960;
    let short = (room as u64) < asked;
    let counts = header.write_counts.iter().take(header.write_chunks as usize);
    let segments: u64 = counts.clone().map(|&count| u64::from(count)).sum();
    let over = [header.read_count > 16, header.write_chunks > 4, segments > 16, header.reply_count > 16];
    let over1024 =
        |which: usize| asked > 1024 && over.iter().enumerate().all(|(at, &is)| is == (at == which));
    let given = match (mistake, number) {
        (LongerThan959, 0 | 16) => (asked > 959).then_some(21),
        (LongerThan951, 0 | 16) => (asked > 951).then_some(21),
        (LongerThan512, 0 | 16) => (asked > 512).then_some(21),
        (LongerThan28, 0 | 16) => (asked > 28).then_some(21),
        (LongerThan959Behind16, 0) => (asked > 959).then_some(21),
        (FullMsgAs21, 0 | 16) => (full && kind == ffi::MSG).then_some(21),
        (FullNomsgAs21, 0 | 16) => (full && kind == ffi::NOMSG).then_some(21),
        (FullWithEmptyChunksAs21, 0 | 16) => (full && counts.clone().any(|&n| n == 0)).then_some(21),
        (RoomUnder960As21, 0 | 16) => (room < 960).then_some(21),
        (RoomUnder1024As21, 0 | 16) => (room < 1024).then_some(21),
        (RoomOf960As21, 0 | 16) => (room == 960).then_some(21),
        (RoomOver960As21, 0 | 16) => (room > 960).then_some(21),
        (RoomOver1024As21, 0 | 16) => (room > 1024).then_some(21),
        (ShortAs21, 16) => Some(21),
        (ShortFullAs21, 16) => full.then_some(21),
        (RoomUnder960As16, 0) => (room < 960).then_some(16),
        (RoomUnder1024As16, 0) => (room < 1024).then_some(16),
        (RoomUnder960First, 0 | 7 | 9 | 12) => (room < 960).then_some(16),
        (FullNeeds961, 0) => (full && room < 961).then_some(16),
        (FullNeeds1024, 0) => (full && room < 1024).then_some(16),
        (OverLimitAs21, 7) => Some(21),
        (Over960As21, 7) => (asked > 960).then_some(21),
        (Over1024As21, 7) => (asked > 1024).then_some(21),
        (ReadsOver1024As21, 7) => over1024(0).then_some(21),
        (ChunksOver1024As21, 7) => over1024(1).then_some(21),
        (SegmentsOver1024As21, 7) => over1024(2).then_some(21),
        (ReplyOver1024As21, 7) => over1024(3).then_some(21),
        (AbsentReplyAs21, 7) => (over == [false; 4]).then_some(21),
        // The room alone is left to be checked; what would be put is left out.
        (LimitsBy960, 7) => (asked <= 960).then_some(if short { 16 } else { 0 }),
        (LimitsBy1024, 7) => (asked <= 1024).then_some(if short { 16 } else { 0 }),
        (ErrorFrom952As21, 12) => (asked > 951).then_some(21),
        (ErrorOver960As21, 12) => (asked > 960).then_some(21),
        (ErrorOver1024As21, 12) => (asked > 1024).then_some(21),
        (UnalignedAs21, 9) => Some(21),
        (FullUnalignedAs21, 9) => full.then_some(21),
        (ShortBefore12, 12) | (ShortBefore7, 7) | (ShortBefore9, 9) => short.then_some(16),
        (ShortBefore9InFull, 9) => (full && short).then_some(16),
        _ => None,
    };
    given.unwrap_or(number)
}

impl HeaderCalls for Wrong {
    fn read_header(&self, frame: &mut [u8], header: &mut ffi::Header) -> u32 {
        match *self {
            Order(mistake) => return order::read(mistake, frame, header),
            Reply(mistake) => return reply::read(mistake, frame, header),
            _ => {}
        }
        let before = *header;
        let number = Plain.read_header(frame, header);
        let used = header.read_count as usize;
        match (*self, number) {
            (Header(OverLimitAsCutOff), 7) => return 5,
            (Header(BytesBehindTaken), 11) => return 0,
            (Header(RefusalStoresXid), 10) => header.xid = 1,
            (Header(EmptyReplyChunkLost), 0) if header.reply_count == 0 => header.reply_present = 0,
            (Header(HighestOffsetBitLost), 0) => header.reads[15].target.offset &= !(1 << 63),
            (Header(ErrorChunkCreditLost), 0) if header.kind == ffi::ERROR_CHUNK => header.credit = 0,
            (Header(UnalignedAs8), 9) => return 8,
            // The header lent is changed by a refusal: by all, by those behind the fixed words, by one alone.
            (Header(RefusalZeroes), 1..) => *header = ffi::Header::ZERO,
            (Header(RefusalStoresCredit), 5..) => {
                header.credit = u32::from_be_bytes(frame[8..12].try_into().expect("4 bytes"))
            }
            (Header(BytesBehindZeroes), 11) => *header = ffi::Header::ZERO,
            // A reserved word left as it was: the header's, a used entry's, an unused one's.
            (Header(ReservedKept), 0) => header.reserved = before.reserved,
            (Header(UsedReservedKept), 0) if used > 0 => {
                header.reads[used - 1].reserved = before.reads[used - 1].reserved
            }
            (Header(UnusedReservedKept), 0) if used < 16 => {
                header.reads[15].reserved = before.reads[15].reserved
            }
            // A reserved word that is 1; one that holds a part of the segment.
            (Header(ReservedIsOne), 0) => header.reserved = 1,
            (Header(ReservedHoldsHandle), 0) if used > 0 => {
                header.reads[0].reserved = header.reads[0].target.handle
            }
            // Unused places left as they were: of each list, the counts, low and high.
            (Header(UnusedReadsKept), 0) => header.reads[used..].copy_from_slice(&before.reads[used..]),
            (Header(UnusedWritesKept), 0) if header.write_chunks == 0 => header.writes = before.writes,
            (Header(UnusedReplyKept), 0) if header.reply_present == 0 => header.reply = before.reply,
            (Header(UnusedCountKept), 0) if header.write_chunks < 4 => {
                header.write_counts[3] = before.write_counts[3]
            }
            (Header(HighKept), 0) if header.kind < 2 => header.high = before.high,
            (Header(ReadStoresBehind), _) => store_behind(header, number),
            (Header(ReadChangesFrame), 0) => frame[3] ^= 1,
            (Header(RefusedReadChangesFrame), 5..) => frame[4..8].reverse(),
            _ => {}
        }
        number
    }

    fn payload(&self, frame: &mut [u8]) -> ffi::Part {
        if let Reply(mistake) = *self {
            return reply::payload(mistake, frame);
        }
        let mut part = Plain.payload(frame);
        match *self {
            Header(PayloadCutToWords) => part.length &= !3,
            Header(EmptyPayloadOfOneByte) if part.length == 0 && frame.len() > 28 => part.length = 1,
            Header(PayloadInErrorChunk) if frame.len() == 20 => part.length = 1,
            Header(EmptyPayloadPlaced) if part.length == 0 && frame.len() >= 28 => part.offset = 28,
            Header(PayloadChangesFrame) if part.length > 0 => frame[part.offset] ^= 1,
            _ => {}
        }
        part
    }

    fn write_header(&self, header: &mut ffi::Header, out: &mut [u8], length: &mut usize) -> u32 {
        if let Order(mistake) = *self {
            return order::write(mistake, header, out, length);
        }
        let mut given = *header;
        let used = header.reads.get(..header.read_count as usize).unwrap_or_default();
        match *self {
            // A reserved word that is not ignored: the header's, a used entry's, an unused one's.
            Header(ReservedRefused) if header.reserved != 0 => return 20,
            Header(UsedReservedRefused) if used.iter().any(|entry| entry.reserved != 0) => return 9,
            Header(UnusedReservedRefused)
                if header.reads[used.len()..].iter().any(|entry| entry.reserved != 0) =>
            {
                return 20
            }
            // Reserved word and position taken as one.
            Header(ReservedInPosition) if !used.is_empty() => {
                given.reads[0].position |= given.reads[0].reserved & 0x100
            }
            _ => {}
        }
        let before = out.to_vec();
        if let Header(mistake) = *self {
            let right = Plain.write_header(&mut given, &mut before.clone(), &mut { *length });
            let number = misjudge(mistake, header, out.len(), right);
            if number != right {
                return number;
            }
        }
        let number = Plain.write_header(&mut given, out, length);
        match (*self, number) {
            (Header(ByteBehindCleared), 0) if *length < out.len() => out[*length] = 0,
            (Header(ShortBufferWritten), 16) if !out.is_empty() => out[0] = 0,
            (Header(ShortBufferLength), 16) => *length = out.len(),
            (Header(KindAndListsAsOverLimit), 12) => return 7,
            (Header(BadArgumentAsOverLimit), 20) => return 7,
            // A refusal with length 0; with the length that it would need.
            (Header(RefusalLengthZero), 1..) => *length = 0,
            (Header(RefusalLengthNeeded), 16) => {
                Plain.write_header(header, &mut [0; MAX_HEADER], length);
            }
            (Header(CutToRoom), 16) => {
                let mut whole = [0; MAX_HEADER];
                Plain.write_header(&mut given, &mut whole, length);
                out.copy_from_slice(&whole[..out.len()]);
                *length = out.len();
                return 0;
            }
            // A full header without its last byte or its last segment; its last byte not put.
            (Header(FullByteShort), 0) if *length == 960 => {
                out[959] = before[959];
                *length = 959;
            }
            (Header(FullSegmentShort), 0) if *length == 960 => {
                out[944..960].copy_from_slice(&before[944..960]);
                *length = 944;
            }
            (Header(FullLastByteKept), 0) if *length == 960 => out[959] = before[959],
            (Header(FullLength1024), 0) if *length == 960 => *length = 1024,
            (Header(Length960), 0) => *length = 960,
            (Header(LengthOfRoom), 0) => *length = out.len(),
            // As many bytes as the longest header has, whatever was put into them.
            (Header(ZerosUpTo960), 0) => {
                let end = out.len().min(960);
                out[*length..end].fill(0);
            }
            (Header(ShortStores960), 16) => *length = 960,
            (Header(OverLimitStoresAsked), 7) => *length = asked_length(header) as usize,
            (Header(OverLimitWritten), 7) | (Header(UnalignedWritten), 9) | (Header(KindWritten), 12)
                if !out.is_empty() =>
            {
                out[0] ^= 1
            }
            (Header(WriteStoresBehind), 0) => store_behind(length, 0),
            (Header(WriteClearsReserved), 0) => header.reserved = 0,
            (Header(RefusedWriteMendsKind), 20) => header.kind = header.kind.min(3),
            _ => {}
        }
        number
    }
}

#[test]
fn each_is_found() {
    for &mistake in MISTAKES {
        is_found(Header(mistake), 5, |check| run(check, &mut Rng(5), 2_000));
    }
}

/// From the first named to the last.
fn those(first: Mistake, last: Mistake) -> impl Iterator<Item = Mistake> {
    MISTAKES[first as usize..=last as usize].iter().copied()
}

/// In a run the families before them find most: those of the limits, and the answers by hand, have to find
/// each too.
#[test]
fn families_of_limits_find_each() {
    for mistake in those(LongerThan959, KindWritten) {
        is_found(Header(mistake), 5, |check| longest(check, &mut Rng(5)));
        is_found(Header(mistake), 5, by_hand);
    }
}

/// Told as a difference, and as a number that no call gives.
#[test]
fn number_21_is_told() {
    let mut check = Checker::new(Header(LongerThan959), 1);
    check.family("one check alone");
    let told = check.write(&flatten(&full()), 959).unwrap_err();
    assert!(told.starts_with("number: got 21, want 16"), "{told}");
    assert_eq!(check.unwanted(), ["write gave 21"]);
}

/// The checks over several calls, each alone: in a run the families before them find the fault.
#[test]
fn checks_over_several_calls_can_fail() {
    let payload = || [encode(&full()), vec![7; 5]].concat();
    can_fail(Header(EmptyReplyChunkLost), |check| {
        let mut header = c2();
        header.reply.present = true;
        check.write_read(&flatten(&header), 40)
    });
    can_fail(Header(PayloadCutToWords), |check| check.read_write(&payload()));
    can_fail(Header(ReadChangesFrame), |check| check.write_read(&flatten(&full()), 1000));
    can_fail(Header(ReadChangesFrame), |check| check.read_write(&payload()));
    can_fail(Header(PayloadChangesFrame), |check| check.read_write(&payload()));
    can_fail(Header(WriteClearsReserved), |check| {
        let header = ffi::Header { reserved: 1, ..flatten(&full()) };
        check.write_read(&header, 1000)
    });
}
