//! What an implementation answered so far, and what the families must draw from it.

use eoswynnor::ffi::{PieceAnswer, SendAnswer};
use std::collections::BTreeMap;

/// Where answer numbers are counted; Replied is the reader's number that a reply was made for.
#[derive(Clone, Copy)]
pub enum Call {
    Read,
    Write,
    SetupRead,
    SetupWritten,
    Agreement,
    Grant,
    ErrorReply,
    Replied,
    Start,
    Piece,
    Message,
    Returned,
    LedgerOpen,
    LedgerSend,
    LedgerReply,
    Replay,
}

/// Each call's name and the numbers the families must draw from it; it never gives another. 8 and 21 stay
/// reserved: document 02, orders 3 and 7.
const CALLS: [(&str, &[u32]); 16] = [
    ("read", &[0, 1, 2, 3, 4, 5, 6, 7, 9, 10, 11]),
    ("write", &[0, 7, 9, 12, 16, 20]),
    ("setup read", &[0]),
    ("setup written", &[0, 16, 20]),
    ("agreement", &[0, 20]),
    ("grant", &[0, 20]),
    ("error reply", &[0, 16, 20]),
    ("replied", &[0, 1, 2, 3, 4, 5, 6, 7, 9, 10, 11]),
    ("start", &[0, 1, 2, 3, 4, 5, 6, 7, 9, 10, 11, 12, 13, 14, 15, 16]),
    ("piece", &[0, 17, 18]),
    ("message", &[0, 17, 19]),
    ("returned", &[0, 7, 20, 26]),
    ("ledger open", &[0]),
    ("ledger send", &[0, 17, 23]),
    ("ledger reply", &[0, 17, 24, 25]),
    ("replay", &[0, 1, 2, 3, 4, 5, 6, 7, 9, 10, 11]),
];

/// Answers that number 0 does not tell apart; each must be seen too.
#[derive(Clone, Copy)]
pub enum Form {
    Setup,
    NoSetup,
    NoReply,
    VersionReply,
    ChunkReply,
    ChunkReplyFor8,
    NoReplyFor21,
    VersionEchoed,
    VersionReplyTo1,
    ChunkReplyToOther,
    VersionReadAs2,
    VersionReadAs0,
    ChunkToOtherRead,
    NoReplyToReply,
    UnsortedRead,
    UnsortedWritten,
    FullWritten,
    FullShort,
    FullUnaligned,
    LongOverLimit,
    LongError,
    MsgFinished,
    NomsgFinished,
    PaddedFinished,
    SixteenChunksFinished,
    LargestFinished,
    EmptyPieceAtEnd,
    RefusalBetween,
    CutsCompared,
    UnsortedFinished,
    ApartFinished,
    BaseLastFinished,
    FallingFinished,
    OrdersCompared,
    UnsortedPiece,
    UnsortedAsking,
    MsgWithoutReplyChunk,
    MsgWithReplyChunk,
    NomsgLanded,
    PartLanded,
    AllLanded,
    LandedAbove32Bits,
    OneHeaderAsBoth,
    XidAcrossWrap,
    PassedAcrossWrap,
    RunAcrossWrap,
    RunBroken,
    RunOutOfOrder,
    RunBehindLast,
    RunLastAnswered,
    RunOnBehind,
    AllPassedOver,
    NonePassedOver,
    NoneButRunBehind,
    RunAtGrant,
    RunOf32,
    RunWithGrant0,
    RunWithOneTwice,
    RunOverfull,
    LastPlaceTaken,
    RoomFullBelowGrant,
    SendClears,
    SendRefusedClearsNot,
    AgainBehind,
    GrantAbove32,
    GrantBelowInFlight,
    AnsweredAboveGrant,
    AnsweredOf32,
    ReplyClears,
    ReplyRefusedClearsNot,
    UnknownButBehind,
    Grant0AndUnknown,
    HistoryFull,
    HistoryAcrossWrap,
    HistoryAboveGrant,
    HistoryEmptied,
    HistoryPassedOver,
    HistoryPassedAgain,
    HistoryRunAcrossWrap,
    LineNone,
    LineVers,
    LineChunk,
    LineNoneFor2,
    LineNoneFor5,
    LineAccepted,
    LineRefused,
    LineWithPayload,
    LineOfUpperCase,
    LineOfLowerCase,
    LineOf8192,
    LineEmpty,
    LineOdd,
    LineOther,
    LineLong,
    LastWithoutNewline,
    LastBadWithoutNewline,
    NoLine,
    SumAbove16Bits,
    SumAbove24Bits,
    MillionLines,
    MillionLinesWithoutNewline,
    TooLong,
    TooLongAtNewline,
    TooLongHeldOpen,
    FedSingly,
    FedFromFile,
}

const FORMS: [&str; 106] = [
    "setup data",
    "no setup data",
    "no reply",
    "version reply",
    "chunk reply",
    "chunk reply for 8",
    "no reply for 21",
    "version reply to another version",
    "version reply to version 1",
    "chunk reply to another version",
    "version reply read back with 2",
    "version reply read back with 0",
    "chunk reply to another version read back with 0",
    "reply that gets no reply",
    "unsorted list read",
    "unsorted list written",
    "header of 960 bytes written",
    "16 for a header of 960 bytes and room for 959",
    "9 for a header of 960 bytes",
    "7 where 960 bytes would be passed",
    "12 where 960 bytes would be passed",
    "MSG finished",
    "NOMSG finished",
    "message with padding",
    "message of 16 chunks",
    "largest message",
    "empty piece at the end",
    "refusal before the end",
    "two cuts compared",
    "message of an unsorted list",
    "message of segments apart",
    "message with its base last",
    "message of 16 falling",
    "two wire orders compared",
    "piece for an unsorted state",
    "asking an unsorted state",
    "reply chunk missing in MSG",
    "reply chunk back in MSG",
    "reply chunk landed in NOMSG",
    "chunk landed in part",
    "32 segments landed in full",
    "more landed than 32 bits",
    "one header as both",
    "xid given across the wrap",
    "xids passed over across the wrap",
    "run that wraps passed over",
    "run passed over that goes on behind a gap",
    "run passed over in another order",
    "run passed over behind a last in flight",
    "run passed over behind a last answered",
    "run that would go on in places behind",
    "all in flight passed over, below 31",
    "none passed over with calls in flight",
    "none passed over before a run",
    "23 at the grant before a run",
    "23 for 32 in flight before a run",
    "17 for grant 0 before a run",
    "17 for one twice before a run",
    "17 for more than 32 before a run",
    "32nd call sent",
    "32 in flight below the grant",
    "send with garbage behind",
    "send refused with garbage behind",
    "xid in flight and again behind",
    "grant above 32 set",
    "grant below those in flight set",
    "reply with more in flight than the grant",
    "reply with 32 in flight",
    "reply with garbage behind",
    "reply refused with garbage behind",
    "reply to an xid behind those in flight",
    "grant 0 and an xid not in flight",
    "history with 32 in flight",
    "history across the wrap",
    "history with more in flight than the grant",
    "history with all answered",
    "history with xids passed over",
    "history with xids passed over again",
    "history with a run that wraps passed over",
    "line with none",
    "line with vers",
    "line with chunk",
    "line with 2 and none",
    "line with 5 and none",
    "line accepted",
    "line refused",
    "line with a payload",
    "line of upper case accepted",
    "line of lower case accepted",
    "line of 8,192 digits accepted",
    "line that is empty",
    "line bad by an odd number of digits alone",
    "line bad by another character alone",
    "line bad by more than 8,192 digits alone",
    "last line without newline",
    "last line without newline bad",
    "input without a line",
    "sum of payloads above 16 bits",
    "sum of payloads above 24 bits",
    "input of 1,000,000 lines",
    "input of 1,000,000 lines, the last without newline",
    "input that is too long",
    "input that is too long by a newline",
    "input that is too long, held open",
    "input byte by byte",
    "input from a file",
];

/// Order 2's bound: a piece takes as many goes at most.
pub const MOST_GOES: u32 = 31;

/// Order 6's bound: a send passes over as many xids at most.
pub const MOST_PASSED: u32 = 31;

/// What the implementation answered so far.
pub struct Seen {
    numbers: [BTreeMap<u32, u64>; CALLS.len()],
    /// Of pieces that were taken; each count up to the bound must be seen.
    goes: BTreeMap<u32, u64>,
    /// Xids passed over by sends that were taken; each count up to the bound must be seen.
    passed: BTreeMap<u32, u64>,
    forms: [u64; FORMS.len()],
}

// By hand: none is derived for an array this long.
impl Default for Seen {
    fn default() -> Self {
        let (goes, passed) = Default::default();
        Seen { numbers: Default::default(), goes, passed, forms: [0; FORMS.len()] }
    }
}

fn listed(counts: &BTreeMap<u32, u64>) -> String {
    counts.iter().map(|(what, seen)| format!("{what}:{seen}")).collect::<Vec<_>>().join(" ")
}

/// Whether a frame has another version than 1.
fn is_other(frame: &[u8]) -> bool {
    frame.get(4..8) != Some(&[0, 0, 0, 1])
}

/// Whether a frame gets a reply where its answer number has one.
fn is_answered(frame: &[u8]) -> bool {
    frame.get(12..16).is_some_and(|procedure| procedure != [0, 0, 0, 4])
}

impl Seen {
    pub fn number(&mut self, call: Call, number: u32) {
        *self.numbers[call as usize].entry(number).or_default() += 1;
    }

    pub fn piece(&mut self, answer: PieceAnswer) {
        self.number(Call::Piece, answer.number);
        if answer.number == 0 {
            *self.goes.entry(answer.goes).or_default() += 1;
        }
    }

    pub fn sent(&mut self, answer: SendAnswer) {
        self.number(Call::LedgerSend, answer.number);
        if answer.number == 0 {
            *self.passed.entry(answer.passed).or_default() += 1;
        }
    }

    pub fn form(&mut self, form: Form) {
        self.forms[form as usize] += 1;
    }

    /// Those that were seen.
    pub fn forms(&mut self, forms: &[(Form, bool)]) {
        forms.iter().filter(|(_, seen)| *seen).for_each(|(form, _)| self.form(*form));
    }

    /// The answer to an error reply for a frame and an answer number.
    pub fn reply(&mut self, frame: &[u8], about: u32, number: u32, length: usize) {
        self.number(Call::ErrorReply, number);
        let [none, chunk, version] = [0, 20, 28].map(|long| (number, length) == (0, long));
        self.forms(&[
            (Form::NoReply, none),
            (Form::VersionReply, version),
            (Form::ChunkReply, chunk),
            (Form::ChunkReplyFor8, chunk && about == 8),
            (Form::NoReplyFor21, none && about == 21 && is_answered(frame)),
            (Form::VersionEchoed, version && is_other(frame)),
            (Form::VersionReplyTo1, version && !is_other(frame)),
            (Form::ChunkReplyToOther, chunk && is_other(frame)),
        ]);
    }

    /// The number that a reply to a frame was read back with.
    pub fn read_back(&mut self, frame: &[u8], length: usize, number: u32) {
        let [chunk, version] = [20, 28].map(|long| length == long);
        self.forms(&[
            (Form::VersionReadAs2, version && number == 2),
            (Form::VersionReadAs0, version && number == 0),
            (Form::ChunkToOtherRead, chunk && is_other(frame) && number == 0),
        ]);
    }

    /// A line for each call, one for the goes and one for the xids passed over, then one for each form.
    pub fn lines(&self) -> Vec<String> {
        let calls = CALLS.iter().zip(&self.numbers);
        let calls = calls.map(|((name, _), numbers)| format!("{name} numbers: {}", listed(numbers)));
        let forms = FORMS.iter().zip(self.forms).map(|(name, seen)| format!("{name}: {seen}"));
        let goes = format!("goes of a piece: {}", listed(&self.goes));
        let passed = format!("xids passed over: {}", listed(&self.passed));
        calls.chain([goes, passed]).chain(forms).collect()
    }

    /// Numbers, goes and counts of xids passed over that are never given.
    pub fn unwanted(&self) -> Vec<String> {
        let numbers = CALLS.iter().zip(&self.numbers).flat_map(|((name, must), numbers)| {
            let other = numbers.keys().filter(|number| !must.contains(number));
            other.map(move |number| format!("{name} gave {number}"))
        });
        let goes = self.goes.keys().filter(|goes| **goes > MOST_GOES);
        let goes = goes.map(|goes| format!("a piece took {goes} goes"));
        let passed = self.passed.keys().filter(|passed| **passed > MOST_PASSED);
        let passed = passed.map(|passed| format!("a send passed over {passed} xids"));
        numbers.chain(goes).chain(passed).collect()
    }

    pub fn missing(&self) -> Vec<String> {
        let numbers = CALLS.iter().zip(&self.numbers).flat_map(|((name, must), numbers)| {
            let unseen = must.iter().filter(|number| !numbers.contains_key(number));
            unseen.map(move |number| format!("{name} never gave {number}"))
        });
        let goes = (0..=MOST_GOES).filter(|goes| !self.goes.contains_key(goes));
        let goes = goes.map(|goes| format!("no piece took {goes} goes"));
        let passed = (0..=MOST_PASSED).filter(|passed| !self.passed.contains_key(passed));
        let passed = passed.map(|passed| format!("no send passed over {passed} xids"));
        let forms = FORMS.iter().zip(self.forms).filter(|(_, seen)| *seen == 0);
        let forms = forms.map(|(name, _)| format!("{name} never seen"));
        numbers.chain(goes).chain(passed).chain(forms).collect()
    }
}

#[cfg(test)]
mod tests {
    use super::*;
    use crate::cases::words;

    /// 8 and 21 are never given, by whatever call, nor is a number that the call does not check.
    #[test]
    fn no_call_gives_8_or_21() {
        use Call::*;
        let calls = [
            Read,
            Write,
            SetupRead,
            SetupWritten,
            Agreement,
            Grant,
            ErrorReply,
            Replied,
            Start,
            Piece,
            Message,
            Returned,
            LedgerOpen,
            LedgerSend,
            LedgerReply,
            Replay,
        ];
        for (call, (name, must)) in calls.into_iter().zip(CALLS) {
            let mut seen = Seen::default();
            must.iter().for_each(|&number| seen.number(call, number));
            assert_eq!(seen.unwanted(), Vec::<String>::new());
            seen.number(call, 8);
            assert_eq!(seen.unwanted(), [format!("{name} gave 8")]);
            seen.number(call, 21);
            assert_eq!(seen.unwanted(), [8, 21].map(|number| format!("{name} gave {number}")));
        }
        let mut seen = Seen::default();
        seen.piece(PieceAnswer { number: 0, goes: 32 });
        assert_eq!(seen.unwanted(), ["a piece took 32 goes"]);
    }

    /// Each count from 0 to 31 stands for itself, and a refused send for none.
    #[test]
    fn counts_of_xids_passed_over() {
        let missing = |seen: &Seen| {
            let missing = seen.missing().into_iter();
            missing.filter(|what| what.starts_with("no send passed over ")).collect::<Vec<_>>()
        };
        let never = |counts: std::ops::RangeInclusive<u32>| {
            counts.map(|passed| format!("no send passed over {passed} xids")).collect::<Vec<_>>()
        };
        let mut seen = Seen::default();
        seen.sent(SendAnswer { number: 23, xid: 0, passed: 0 });
        seen.sent(SendAnswer { number: 17, xid: 0, passed: 3 });
        assert_eq!(missing(&seen), never(0..=31));
        for passed in 0..=31 {
            seen.sent(SendAnswer { number: 0, xid: 8, passed });
            assert_eq!(missing(&seen), never(passed + 1..=31));
        }
        assert_eq!(seen.unwanted(), Vec::<String>::new());
        seen.sent(SendAnswer { number: 0, xid: 8, passed: 32 });
        assert_eq!(seen.unwanted(), ["a send passed over 32 xids"]);
    }

    /// A frame's version tells the replies to it apart; none stands for another.
    #[test]
    fn forms_of_replies() {
        use Form::*;
        let frame = |version| words(&[0x2a, version, 0x20, 0]);
        let told = |see: &dyn Fn(&mut Seen), want: &[Form]| {
            let mut seen = Seen::default();
            see(&mut seen);
            let mut counts = [0; FORMS.len()];
            want.iter().for_each(|form| counts[*form as usize] += 1);
            assert_eq!(seen.forms, counts);
            want.iter().for_each(|form| {
                let never = format!("{} never seen", FORMS[*form as usize]);
                assert!(Seen::default().missing().contains(&never) && !seen.missing().contains(&never));
            });
        };
        told(&|seen| seen.reply(&frame(1), 2, 0, 28), &[VersionReply, VersionReplyTo1]);
        told(&|seen| seen.reply(&frame(1), 8, 0, 20), &[ChunkReply, ChunkReplyFor8]);
        // To a frame that would get a reply for another number.
        told(&|seen| seen.reply(&frame(1), 21, 0, 0), &[NoReply, NoReplyFor21]);
        told(&|seen| seen.reply(&frame(1), 20, 0, 0), &[NoReply]);
        told(&|seen| seen.reply(&frame(1)[..15], 21, 0, 0), &[NoReply]);
        told(&|seen| seen.reply(&words(&[0x2a, 1, 0x20, 4]), 21, 0, 0), &[NoReply]);
        told(&|seen| seen.reply(&frame(1), 21, 20, 0), &[]);
        for other in [0, 2, 0x0101, 0x0100_0000, 0x0100_0001, u32::MAX] {
            let frame = &frame(other);
            told(&|seen| seen.reply(frame, 2, 0, 28), &[VersionReply, VersionEchoed]);
            told(&|seen| seen.reply(frame, 5, 0, 20), &[ChunkReply, ChunkReplyToOther]);
            told(&|seen| seen.reply(frame, 0, 0, 0), &[NoReply]);
            told(&|seen| seen.reply(frame, 2, 16, 28), &[]);
            told(&|seen| seen.reply(frame, 5, 20, 20), &[]);
            told(&|seen| seen.read_back(frame, 20, 0), &[ChunkToOtherRead]);
        }
        told(&|seen| seen.read_back(&frame(1), 20, 0), &[]);
        told(&|seen| seen.read_back(&frame(1), 28, 0), &[VersionReadAs0]);
        told(&|seen| seen.read_back(&frame(2), 28, 2), &[VersionReadAs2]);
        told(&|seen| seen.read_back(&frame(2), 20, 2), &[]);
    }
}
