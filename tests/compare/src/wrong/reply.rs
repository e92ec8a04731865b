//! Grants and error replies with one mistake.

use super::header::Mistake::{ErrorChunkCreditLost, PayloadInErrorChunk, UnalignedAs8};
use super::{can_fail, is_found, mistakes, store_behind, Wrong};
use crate::calls::{HeaderCalls, ReplyCalls};
use crate::cases::header::c2_with;
use crate::cases::reply::{echoes, number_21, number_21_by_hand, read_back, run, worked};
use crate::cases::words;
use crate::check::Checker;
use crate::plain::Plain;
use crate::rng::Rng;
use crate::words::Words;
use eoswynnor::ffi::{self, ERROR_CHUNK, ERROR_VERSION};
use Mistake::*;
use Wrong::{Header, Reply};

mistakes! {
    // The grant.
    ZeroForZero AllThatIsAsked OneAboveLimit LimitZeroGranted RefusedGrantIsOne RefusedGrantIsZero
    GrantStoresBehind
    // Which reply, if any.
    ReplyToError ReplyToErrorOfOtherVersion ProcedureByLastByte ShortFrameFilledUp
    NoReplyBeforeArgument ReplyFor10 ReplyFor4 ReplyFor16 NoReplyFor3 NoReplyFor8 NoReplyForStarts ChunkReplyFor2
    VersionReplyFor8 Number8Refused
    // Number 21: given no more, but still taken, and answered none.
    Number21Refused Number21Given ChunkReplyFor21 VersionReplyFor21 VersionReplyFor21ToOther Number21ReadAgain
    Number21RefusedWhole Number21RefusedUnanswered ShortRoomFor21 LimitZeroTakenFor21 LimitZeroFor21As21
    Length20For21 LengthKeptFor21 XidWrittenFor21 BufferClearedFor21
    // The numbers beside it, and 21 for another refusal.
    Number20Refused ChunkReplyFor20 ChunkReplyFor22 Numbers23To26Taken TableWithout8 NumberAbove21As21
    LimitZeroAs21 ShortRoomAs21
    Number22Taken NumberCutToByte LimitZeroTaken RoomBeforeNoReply LongerRoomForBoth
    // Its bytes.
    AskedForGrant LimitForGrant HighIsTwo XidReversed ChunkReplyOf28
    // A version reply's version word.
    VersionWordOne VersionWordTwo VersionWordFour VersionWordHeld XidForVersion AskedForVersion
    GrantForVersion ProcedureForVersion XidAndVersionExchanged CreditAndVersionExchanged EchoReversed
    EchoHalvesExchanged EchoLastByte EchoLowHalf EchoThreeBytes EchoTopBitLost EchoSecondByteLost
    EchoThirdByteLost EchoSignedBytes EchoOneMore EchoOneLess EchoAtMostLimit EchoAbove1Only EchoAtMost2
    EchoBelow256Only EchoOfLastByte1Lost EchoOfTurned1Lost EchoPositiveOnly EchoOfLargestLost OneAs0 OneAs2
    EchoOfMsgOnly EchoOfKnownOnly EchoOfLongOnly EchoInLongRoomOnly
    // Its other words.
    LowFollows HighFollows LowAndHighFollow LowAtMostVersion HighAtLeastVersion HighForVersion EchoInXid
    EchoInCredit EchoInProcedure EchoInCode
    // A chunk reply's version word.
    ChunkReplyEchoes ChunkReplyEchoesFor3 ChunkReplyEchoesForStarts ChunkReplyEchoesAbove1
    ChunkReplyAtMostVersion ChunkReplyTwo ChunkReplyTwoForOther
    // Which reply, by the version or the length.
    NoReplyTo1 ChunkReplyTo1 Version1Refused OtherVersionRefused VersionReplyToOther
    VersionReplyToOtherForNone NoChunkReplyToOther NumberReadAgain NumberOfVersionReadAgain
    VersionReplyToCutOff EchoLengthOf20 VersionReplyOf32
    // What an echo leaves.
    RefusalWritesVersion NoReplyWritesVersion BadArgumentWritesVersion EchoCutToRoom EchoMendsFrame
    // A reply to a reply.
    ReplyToEcho ReplyToEchoFor2 ReplyToVersionReply ReplyToChunkReply ReplyToReplyLengthKept
    ReplyToReplyClears
    // An echo that is started, or read.
    StartOfEchoAs12 EchoTaken EchoTakenByRange EchoOf0Taken EchoOf2Taken EchoOfTurned1Taken
    EchoOfLastByte1Taken EchoTakenUnstored EchoStored EchoStoresXid EchoStoresKind EchoStoresRange EchoZeroes
    EchoAs3 EchoAs10 EchoAs11 EchoMended EchoPayload EchoPayloadPlaced EchoPayloadMends
    // Another reply that is read.
    VersionReplyRefused VersionReplyAs11 VersionReplyAsChunk RangeLost HighOfRangeKept VersionReplyPayload
    ChunkReplyRefused ChunkReplyAs5 ChunkReplyAs10 ChunkReplyAsVersion ChunkRangeKept ChunkReplyPayload
    // What it leaves.
    NoReplyClearsBuffer BytesBehindCleared RefusalWritesXid GuardTouched RefusalLengthZero
    RefusalLengthNeeded NoReplyLengthKept
    // What is lent for reading alone.
    ReplyChangesFrame NoReplyChangesFrame
}

const CHUNK: [u32; 11] = [3, 5, 6, 7, 8, 9, 11, 12, 13, 14, 15];

fn word(bytes: &[u8], index: usize) -> u32 {
    u32::from_be_bytes(bytes[4 * index..4 * index + 4].try_into().expect("4 bytes"))
}

/// A version reply, its version left open.
fn is_version_reply(frame: &[u8]) -> bool {
    frame.len() == 28 && frame[12..] == words(&[4, 1, 1, 1])
}

fn is_chunk_reply(frame: &[u8]) -> bool {
    frame.len() == 20 && frame[4..8] == [0, 0, 0, 1] && frame[12..] == words(&[4, 2])
}

/// A mistake in the words of a reply to a frame.
fn misword(mistake: Mistake, frame: &[u8], number: u32, limit: u32, reply: &mut [u32]) {
    let [xid, version, asked, procedure] = [0, 1, 2, 3].map(|index| word(frame, index));
    if let [of_xid, echo, credit, error, code, low, high] = reply {
        match mistake {
            VersionWordOne => *echo = 1,
            // The answer number's; that of the procedure; one of the frame's or of the reply's other words.
            VersionWordTwo => *echo = 2,
            VersionWordFour => *echo = 4,
            XidForVersion => *echo = xid,
            AskedForVersion => *echo = asked,
            GrantForVersion => *echo = *credit,
            ProcedureForVersion => *echo = procedure,
            XidAndVersionExchanged => (*of_xid, *echo) = (version, xid),
            CreditAndVersionExchanged => (*credit, *echo) = (version, *credit),
            // A part of it, or its bytes elsewhere.
            EchoReversed => *echo = version.swap_bytes(),
            EchoHalvesExchanged => *echo = version.rotate_left(16),
            EchoLastByte => *echo = version & 0xff,
            EchoLowHalf => *echo = version & 0xffff,
            EchoThreeBytes => *echo = version & 0xff_ffff,
            EchoTopBitLost => *echo = version & 0x7fff_ffff,
            EchoSecondByteLost => *echo = version & 0xff00_ffff,
            EchoThirdByteLost => *echo = version & 0xffff_00ff,
            // The last byte's sign carried into the others.
            EchoSignedBytes => *echo = version | version as u8 as i8 as u32,
            EchoOneMore => *echo = version.wrapping_add(1),
            EchoOneLess => *echo = version.wrapping_sub(1),
            EchoAtMostLimit => *echo = version.min(limit),
            // Only for some versions.
            EchoAbove1Only => *echo = version.max(1),
            EchoAtMost2 => *echo = version.min(2),
            EchoBelow256Only if version > 255 => *echo = 1,
            EchoOfLastByte1Lost if version & 0xff == 1 => *echo = 1,
            EchoOfTurned1Lost if version == 0x0100_0000 => *echo = 1,
            EchoPositiveOnly if version > 0x7fff_ffff => *echo = 1,
            EchoOfLargestLost if version == u32::MAX => *echo = 1,
            OneAs0 if version == 1 => *echo = 0,
            OneAs2 if version == 1 => *echo = 2,
            // Only for some frames.
            EchoOfMsgOnly if procedure != 0 => *echo = 1,
            EchoOfKnownOnly if procedure > 4 => *echo = 1,
            EchoOfLongOnly if frame.len() == 16 => *echo = 1,
            LowFollows => *low = version,
            HighFollows => *high = version,
            LowAndHighFollow => (*low, *high) = (version, version),
            // A range that reaches the version.
            LowAtMostVersion => *low = version.min(1),
            HighAtLeastVersion => *high = version.max(1),
            HighForVersion => (*echo, *high) = (1, version),
            EchoInXid => *of_xid = version,
            EchoInCredit => *credit = version,
            EchoInProcedure => *error = version,
            EchoInCode => *code = version,
            _ => {}
        }
    } else {
        match mistake {
            ChunkReplyEchoes => reply[1] = version,
            ChunkReplyEchoesFor3 if number == 3 => reply[1] = version,
            ChunkReplyEchoesForStarts if number >= 12 => reply[1] = version,
            ChunkReplyEchoesAbove1 => reply[1] = version.max(1),
            ChunkReplyAtMostVersion => reply[1] = version.min(1),
            ChunkReplyTwo => reply[1] = 2,
            ChunkReplyTwoForOther if version != 1 => reply[1] = 2,
            _ => {}
        }
    }
}

/// Whether a frame is an ERROR of another version than 1.
pub fn is_echo(frame: &[u8]) -> bool {
    frame.len() >= 16 && word(frame, 1) != 1 && word(frame, 3) == 4
}

/// An ERROR of another version read as if it were one of version 1, or refused in a wrong way.
fn read_echo(mistake: Mistake, frame: &mut [u8], header: &mut ffi::Header) -> u32 {
    let version = word(frame, 1);
    let mut mended = frame.to_vec();
    mended[4..8].copy_from_slice(&[0, 0, 0, 1]);
    let mut taken = *header;
    let number = Plain.read_header(&mut mended, &mut taken);
    let takes = match mistake {
        EchoTaken => true,
        EchoTakenByRange => is_version_reply(frame),
        EchoOf0Taken => version == 0,
        EchoOf2Taken => version == 2,
        EchoOfTurned1Taken => version == 0x0100_0000,
        EchoOfLastByte1Taken => version & 0xff == 1,
        _ => false,
    };
    if takes {
        *header = taken;
        return number;
    }
    match mistake {
        EchoTakenUnstored => return number,
        // Refused, but the header lent for storing is changed: as a whole or one part of it.
        EchoStored => *header = taken,
        EchoStoresXid => header.xid = word(frame, 0),
        EchoStoresKind => header.kind = taken.kind,
        EchoStoresRange => (header.low, header.high) = (taken.low, taken.high),
        EchoZeroes => *header = ffi::Header::ZERO,
        EchoAs3 => return 3,
        EchoAs10 => return 10,
        EchoAs11 => return 11,
        EchoMended => frame.copy_from_slice(&mended),
        _ => {}
    }
    2
}

pub fn read(mistake: Mistake, frame: &mut [u8], header: &mut ffi::Header) -> u32 {
    if is_echo(frame) {
        return read_echo(mistake, frame, header);
    }
    let before = *header;
    let number = Plain.read_header(frame, header);
    let refused = match (mistake, number, header.kind) {
        (VersionReplyRefused, 0, ERROR_VERSION) | (ChunkReplyRefused, 0, ERROR_CHUNK) => 2,
        // Low and high not looked for, or looked for behind a chunk's code too.
        (VersionReplyAs11, 0, ERROR_VERSION) => 11,
        (ChunkReplyAs5, 0, ERROR_CHUNK) => 5,
        (ChunkReplyAs10, 0, ERROR_CHUNK) => 10,
        _ => 0,
    };
    if refused != 0 {
        *header = before;
        return refused;
    }
    match (mistake, number, header.kind) {
        (VersionReplyAsChunk, 0, ERROR_VERSION) => {
            (header.kind, header.low, header.high) = (ERROR_CHUNK, 0, 0)
        }
        (RangeLost, 0, ERROR_VERSION) => (header.low, header.high) = (0, 0),
        (HighOfRangeKept, 0, ERROR_VERSION) => header.high = before.high,
        (ChunkReplyAsVersion, 0, ERROR_CHUNK) => header.kind = ERROR_VERSION,
        (ChunkRangeKept, 0, ERROR_CHUNK) => (header.low, header.high) = (before.low, before.high),
        _ => {}
    }
    number
}

pub fn payload(mistake: Mistake, frame: &mut [u8]) -> ffi::Part {
    let length = frame.len();
    match mistake {
        // All behind the fixed words; the same, but empty.
        EchoPayload if is_echo(frame) => return ffi::Part { offset: 16, length: length - 16 },
        EchoPayloadPlaced if is_echo(frame) => return ffi::Part { offset: 16, length: 0 },
        EchoPayloadMends if is_echo(frame) => frame[4..8].copy_from_slice(&[0, 0, 0, 1]),
        // What follows the code, and the code itself.
        VersionReplyPayload if is_version_reply(frame) && word(frame, 1) == 1 => {
            return ffi::Part { offset: 20, length: 8 }
        }
        ChunkReplyPayload if is_chunk_reply(frame) => return ffi::Part { offset: 16, length: 4 },
        _ => {}
    }
    Plain.payload(frame)
}

impl ReplyCalls for Wrong {
    fn grant(&self, asked: u32, limit: u32, credit: &mut u32) -> u32 {
        let number = Plain.grant(asked, limit, credit);
        match *self {
            Reply(ZeroForZero) if limit > 0 => *credit = asked.min(limit),
            Reply(AllThatIsAsked) if limit > 0 => *credit = asked.max(1),
            Reply(OneAboveLimit) if limit > 0 => *credit = asked.clamp(1, limit.saturating_add(1)),
            Reply(LimitZeroGranted) if limit == 0 => {
                *credit = 1;
                return 0;
            }
            Reply(RefusedGrantIsOne) if limit == 0 => *credit = 1,
            Reply(RefusedGrantIsZero) if limit == 0 => *credit = 0,
            Reply(GrantStoresBehind) => store_behind(credit, number),
            _ => {}
        }
        number
    }

    fn error_reply(
        &self,
        frame: &mut [u8],
        mut number: u32,
        mut limit: u32,
        out: &mut [u8],
        length: &mut usize,
    ) -> u32 {
        let (before, fine, whole) = (*length, limit > 0 && number <= 21, frame.len() >= 16);
        let error = whole && frame[12..16] == [0, 0, 0, 4];
        let version = if whole { word(frame, 1) } else { 1 };
        let held = if out.len() < 8 { 0 } else { word(out, 1) };
        let mut lent = frame.to_vec();
        match *self {
            Reply(ReplyToError) if error => lent[15] = 0,
            Reply(ReplyToErrorOfOtherVersion) if error && frame[4..8] != [0, 0, 0, 1] => lent[15] = 0,
            Reply(ProcedureByLastByte) if whole => lent[12..15].fill(0),
            Reply(ShortFrameFilledUp) if !whole => lent.resize(16, 0),
            Reply(NoReplyBeforeArgument) if !whole || error => {
                *length = 0;
                return 0;
            }
            Reply(ReplyFor10) if number == 10 => number = 11,
            Reply(ReplyFor4) if number == 4 => number = 3,
            Reply(ReplyFor16) if number == 16 => number = 15,
            Reply(NoReplyFor3) if number == 3 => number = 4,
            // 8 is given no more, but still taken.
            Reply(NoReplyFor8) if number == 8 => number = 0,
            Reply(VersionReplyFor8) if number == 8 => number = 2,
            Reply(Number8Refused) if number == 8 => return 20,
            Reply(NoReplyForStarts) if (12..=15).contains(&number) => number = 0,
            Reply(ChunkReplyFor2) if number == 2 => number = 3,
            Reply(Number21Refused) if number == 21 => return 20,
            Reply(Number21Given) if fine && number == 21 => return 21,
            Reply(ChunkReplyFor21) if number == 21 => number = 15,
            Reply(VersionReplyFor21) if number == 21 => number = 2,
            Reply(VersionReplyFor21ToOther) if number == 21 && version != 1 => number = 2,
            // The number that reading gives, since none is given with 21.
            Reply(Number21ReadAgain) if number == 21 => {
                number = Plain.read_header(frame, &mut { ffi::Header::ZERO })
            }
            // Only where a reply could be; only where none could.
            Reply(Number21RefusedWhole) if number == 21 && whole && !error => return 20,
            Reply(Number21RefusedUnanswered) if number == 21 && (!whole || error) => return 20,
            Reply(ShortRoomFor21) if fine && number == 21 && out.len() < 20 => return 16,
            Reply(LimitZeroTakenFor21) if number == 21 => limit = limit.max(1),
            Reply(LimitZeroFor21As21) if number == 21 && limit == 0 => return 21,
            Reply(Number20Refused) if number == 20 => return 20,
            Reply(ChunkReplyFor20) if number == 20 => number = 15,
            Reply(ChunkReplyFor22) if number == 22 => number = 15,
            // Numbers that calls give.
            Reply(Numbers23To26Taken) if (23..=26).contains(&number) => number = 0,
            // Each entry behind that of 8 moved forward.
            Reply(TableWithout8) if number >= 8 => number = number.saturating_add(1),
            Reply(NumberAbove21As21) if number > 21 => return 21,
            Reply(LimitZeroAs21) if limit == 0 => return 21,
            Reply(Number22Taken) if number == 22 => number = 21,
            Reply(NumberCutToByte) => number &= 0xff,
            Reply(LimitZeroTaken) => limit = limit.max(1),
            Reply(RoomBeforeNoReply) if fine && out.len() < 20 => return 16,
            Reply(LongerRoomForBoth) if fine && whole && !error && number == 5 && out.len() < 28 => {
                return 16
            }
            Reply(NoReplyTo1) if number == 2 && version == 1 => number = 0,
            Reply(ChunkReplyTo1) if number == 2 && version == 1 => number = 3,
            Reply(Version1Refused) if number == 2 && whole && !error && version == 1 => return 20,
            Reply(OtherVersionRefused) if fine && number != 2 && !error && version != 1 => return 2,
            Reply(VersionReplyToOther) if CHUNK.contains(&number) && version != 1 => number = 2,
            Reply(VersionReplyToOtherForNone) if fine && !CHUNK.contains(&number) && version != 1 => {
                number = 2
            }
            Reply(NoChunkReplyToOther) if CHUNK.contains(&number) && version != 1 => number = 0,
            // The number that reading gives in place of the one handed in: of any, of 2.
            Reply(NumberReadAgain) if fine => number = Plain.read_header(frame, &mut { ffi::Header::ZERO }),
            Reply(NumberOfVersionReadAgain) if number == 2 => {
                number = Plain.read_header(frame, &mut { ffi::Header::ZERO })
            }
            // The version word is whole, so there is something to echo.
            Reply(VersionReplyToCutOff) if number == 2 && (8..16).contains(&frame.len()) => {
                lent.resize(16, 0)
            }
            Reply(ReplyToEcho) if is_version_reply(frame) && version != 1 => lent[15] = 0,
            Reply(ReplyToEchoFor2) if is_version_reply(frame) && version != 1 && number == 2 => lent[15] = 0,
            Reply(ReplyToVersionReply) if is_version_reply(frame) && version == 1 => lent[15] = 0,
            Reply(ReplyToChunkReply) if is_chunk_reply(frame) => lent[15] = 0,
            _ => {}
        }
        let answer = Plain.error_reply(&mut lent, number, limit, out, length);
        let written = if answer == 0 { *length } else { 0 };
        if let (Reply(mistake), 1..) = (*self, written) {
            let mut reply: Vec<u32> = (0..written / 4).map(|index| word(out, index)).collect();
            misword(mistake, &lent, number, limit, &mut reply);
            out[..written].copy_from_slice(&words(&reply));
        }
        match (*self, answer, written) {
            (Reply(ShortRoomAs21), 16, _) => return 21,
            // No reply, but not all is left as it is for one.
            (Reply(Length20For21), 0, 0) if number == 21 => *length = 20,
            (Reply(LengthKeptFor21), 0, 0) if number == 21 => *length = before,
            (Reply(XidWrittenFor21), 0, 0) if number == 21 && whole && out.len() >= 4 => {
                out[..4].copy_from_slice(&frame[..4])
            }
            (Reply(BufferClearedFor21), 0, 0) if number == 21 => out.fill(0),
            (Reply(AskedForGrant), 0, 20 | 28) => out[8..12].copy_from_slice(&frame[8..12]),
            (Reply(LimitForGrant), 0, 20 | 28) => out[8..12].copy_from_slice(&limit.to_be_bytes()),
            (Reply(HighIsTwo), 0, 28) => out[27] = 2,
            (Reply(XidReversed), 0, 20 | 28) => out[..4].reverse(),
            (Reply(ChunkReplyOf28), 0, 20) if out.len() >= 28 => {
                out[20..28].fill(0);
                *length = 28;
            }
            // The word not put at all; put only where more room is left.
            (Reply(VersionWordHeld), 0, 28) => out[4..8].copy_from_slice(&held.to_be_bytes()),
            (Reply(EchoInLongRoomOnly), 0, 28) if out.len() == 28 => out[4..8].copy_from_slice(&[0, 0, 0, 1]),
            (Reply(EchoLengthOf20), 0, 28) if version != 1 => *length = 20,
            (Reply(VersionReplyOf32), 0, 28) if out.len() >= 32 => {
                out.copy_within(4..8, 28);
                *length = 32;
            }
            (Reply(RefusalWritesVersion), 16, _) if out.len() >= 8 => out[4..8].copy_from_slice(&frame[4..8]),
            // The word put before all checks were made.
            (Reply(NoReplyWritesVersion), 0, 0) if whole && out.len() >= 8 => {
                out[4..8].copy_from_slice(&frame[4..8])
            }
            (Reply(BadArgumentWritesVersion), 20, _) if whole && out.len() >= 8 => {
                out[4..8].copy_from_slice(&frame[4..8])
            }
            // A version reply without low and high where they do not fit.
            (Reply(EchoCutToRoom), 16, _) if number == 2 && out.len() >= 20 => {
                let mut reply = [0; 28];
                let answer = Plain.error_reply(&mut lent, number, limit, &mut reply, length);
                out[..20].copy_from_slice(&reply[..20]);
                *length = 20;
                return answer;
            }
            (Reply(EchoMendsFrame), 0, 28) => frame[4..8].copy_from_slice(&[0, 0, 0, 1]),
            (Reply(ReplyToReplyLengthKept), 0, 0) if is_version_reply(frame) || is_chunk_reply(frame) => {
                *length = before
            }
            (Reply(ReplyToReplyClears), 0, 0) if is_version_reply(frame) || is_chunk_reply(frame) => {
                out.fill(0)
            }
            (Reply(NoReplyClearsBuffer), 0, 0) => out.fill(0),
            (Reply(BytesBehindCleared), 0, 20 | 28) => out[written..].fill(0),
            (Reply(RefusalWritesXid), 16, _) if out.len() >= 4 => out[..4].copy_from_slice(&frame[..4]),
            // The guard is there.
            (Reply(GuardTouched), 0, 20) => unsafe { *out.as_mut_ptr().add(out.len()) ^= 1 },
            (Reply(RefusalLengthZero), 20, _) => *length = 0,
            (Reply(RefusalLengthNeeded), 16, _) => *length = if number == 2 { 28 } else { 20 },
            (Reply(NoReplyLengthKept), 0, 0) => *length = before,
            (Reply(ReplyChangesFrame), 0, 20 | 28) => frame[8..12].copy_from_slice(&out[8..12]),
            (Reply(NoReplyChangesFrame), 0, 0) => frame.reverse(),
            _ => {}
        }
        answer
    }
}

/// Mistakes of the reading before an error reply, or of one that is read back.
const READINGS: [Wrong; 3] =
    [Header(ErrorChunkCreditLost), Header(UnalignedAs8), Header(PayloadInErrorChunk)];

#[test]
fn each_is_found() {
    for wrong in MISTAKES.iter().map(|&mistake| Reply(mistake)).chain(READINGS) {
        is_found(wrong, 5, |check| run(check, &mut Rng(5), 2_000));
    }
}

/// From the first named to the last.
fn those(first: Mistake, last: Mistake) -> impl Iterator<Item = Mistake> {
    MISTAKES[first as usize..=last as usize].iter().copied()
}

/// In a run the worked replies find most of them: the families of the version have to find each too.
#[test]
fn families_of_versions_find_each() {
    for mistake in those(VersionWordOne, EchoMendsFrame) {
        is_found(Reply(mistake), 5, |check| echoes(check, &mut Rng(5), 0));
    }
    for mistake in those(ReplyToEcho, ReplyToReplyClears).chain(those(EchoTaken, ChunkReplyPayload)) {
        is_found(Reply(mistake), 5, |check| read_back(check, &mut Rng(5), 0));
    }
    let by_hand = [
        VersionWordOne,
        EchoReversed,
        OneAs0,
        LowFollows,
        ChunkReplyEchoes,
        NoReplyTo1,
        VersionReplyToOther,
        ReplyToEchoFor2,
        StartOfEchoAs12,
        EchoTaken,
        EchoStored,
        EchoPayload,
        VersionReplyRefused,
        ChunkReplyRefused,
    ];
    by_hand.into_iter().for_each(|mistake| can_fail(Reply(mistake), worked));
}

/// In a run the families before them find most: those of 21 have to find each too.
#[test]
fn families_of_21_find_each() {
    for mistake in those(Number21Refused, Number22Taken) {
        is_found(Reply(mistake), 5, |check| number_21(check, &mut Rng(5)));
        is_found(Reply(mistake), 5, number_21_by_hand);
    }
}

/// Told as a difference, and as a number that no call gives.
#[test]
fn number_21_is_told() {
    let mut check = Checker::new(Reply(Number21Given), 1);
    check.family("one check alone");
    let told = check.error_reply(&c2_with(1, 1), 28, 21, 32, 28).unwrap_err();
    assert!(told.starts_with("number: got 21, want 0"), "{told}");
    assert_eq!(check.unwanted(), ["error reply gave 21"]);
}

/// The checks over several calls, each alone: in a run the families before them find the fault.
#[test]
fn checks_over_several_calls_can_fail() {
    can_fail(Reply(AskedForGrant), |check| check.read_reply(&c2_with(2, 33)[..20], 32, 20));
    can_fail(Header(ErrorChunkCreditLost), |check| check.read_reply(&c2_with(4, 2), 32, 20));
    can_fail(Header(UnalignedAs8), |check| check.read_reply(&words(&[1, 1, 1, 0, 1, 2, 0, 0, 0, 0]), 32, 20));
    can_fail(Header(PayloadInErrorChunk), |check| check.read_reply(&c2_with(4, 2), 32, 20));
    can_fail(Reply(ReplyChangesFrame), |check| check.read_reply(&c2_with(2, 33)[..20], 32, 20));
    can_fail(Reply(NoReplyChangesFrame), |check| check.read_reply(&c2_with(1, 1), 32, 20));
}

/// The frames are no ERROR and the replies' words are right: only a reply that is read back, or answered
/// itself, shows these.
#[test]
fn replies_read_back_can_fail() {
    for mistake in those(EchoTaken, EchoPayloadMends).chain(those(ReplyToEcho, ReplyToEchoFor2)) {
        let version = match mistake {
            EchoOf0Taken => 0,
            EchoOfTurned1Taken => 0x0100_0000,
            EchoOfLastByte1Taken => 0x0701,
            _ => 2,
        };
        can_fail(Reply(mistake), |check| check.read_reply(&c2_with(1, version), 32, 28));
        can_fail(Reply(mistake), |check| check.reply_back(&c2_with(1, version)[..16], 2, 32, 40));
    }
    for mistake in those(VersionReplyRefused, VersionReplyPayload).chain([ReplyToVersionReply]) {
        can_fail(Reply(mistake), |check| check.reply_back(&c2_with(1, 1), 2, 32, 28));
    }
    for mistake in those(ChunkReplyRefused, ChunkReplyPayload).chain([ReplyToChunkReply]) {
        can_fail(Reply(mistake), |check| check.read_reply(&c2_with(4, 2), 32, 20));
        can_fail(Reply(mistake), |check| check.reply_back(&c2_with(1, 7), 5, 32, 20));
    }
    for mistake in [ReplyToReplyLengthKept, ReplyToReplyClears] {
        can_fail(Reply(mistake), |check| check.read_reply(&c2_with(1, 2), 32, 28));
        can_fail(Reply(mistake), |check| check.reply_back(&c2_with(1, 7), 5, 32, 20));
    }
    // Its kind judged before its version.
    can_fail(Reply(StartOfEchoAs12), |check| check.start(&words(&[0x2a, 2, 0x20, 4, 1, 1, 1]), 64));
}
