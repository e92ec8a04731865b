//! The program `replay` with one mistake.

use super::{can_fail, is_found, mistakes, outcome, Wrong};
use crate::calls::{AssemblyCalls, HeaderCalls, ReplayCalls, ReplyCalls, Way, NOT_STOPPED};
use crate::cases::replay::{characters, counts, cuts, headers, lengths, million, random, sums, worked};
use crate::check::{Checker, Cuts, Outcome};
use crate::plain::Plain;
use crate::rng::Rng;
use crate::words::Words;
use eoswynnor::ffi;
use Mistake::*;
use Wrong::Replay;

mistakes! {
    // The head, and how lines are written.
    HeadMissing HeadCapital HeadOfEmptyMissing HeadLast SumsOfEmptyMissing LastNewlineMissing NewlineTwice
    CrBehindLines BlankBehindLines TabsBetween FieldsExchanged AnswerOfTwoDigits PayloadHexadecimal
    PayloadMissingIfRefused PayloadMissingIfZero
    BadAlone BadWithFields BadWithZeros BadCapital BadBeforeNumber VersSpelledOut ChunkShortened NoneAsDash
    // A frame's number.
    NumbersFrom0 BadNotNumbered EmptyNotNumbered RefusedNotNumbered NumberOf8Bits NumberOf16Bits
    NumberWithZero NumberOfSevenDigits NumberHexadecimal NumberWithComma
    // What is a line.
    LastDropped LastDroppedIfBad LastDroppedIfGood LastBad EmptyLineAtEnd EmptyInputHasLine EmptySkipped
    EmptySilent EmptyBad EmptyAccepted EmptyEndsInput EmptiesAtEndSkipped EmptyRepeats CrEndsLine CrLfJoined
    NulEndsLine FormFeedEndsLine ControlZEndsInput LineEndBelow32
    // What is a digit.
    UpperRefused LowerRefused MixedRefused SmallGTaken CapitalGTaken SlashTaken ColonTaken AtTaken
    BacktickTaken AllLettersTaken CaseByBit HighBitLost NineRefused ZeroRefused SmallFRefused CapitalFRefused
    SmallAFromZero CapitalAFromZero LettersFromOne LowHalfFirst HighHalfLost BytesReversed BlankAsZero
    BadAsZero FirstUnjudged LastUnjudged
    // What is passed over.
    CrStripped CrPassedOver BlanksTrimmed BlanksPassedOver NulPassedOver CutAtNul CutAtBlank PrefixTaken
    MarkPassedOver CommentTaken OthersPassedOver Above127PassedOver
    // How long a line may be.
    OddLastDropped OddZeroBefore OddZeroBehind OddFirstDropped OneDigitTaken OddRefused OddOfLongTaken
    Limit8190 Limit8191 Limit8194 Limit4096 Limit16384 LimitWithNewline LimitWithoutLastNewline LimitMissing
    LengthOf16Bits LongCutOff LongAsTwo LongRefused LongEndsInput LongIsEmpty LongSkipped AllLinesLimited
    // What is left of the line before.
    BadCarried BadCarriedOver BadForEver HalfCarried DigitsCarried LengthCarried FrameCarried PayloadCarried
    ReplyCarried AnswerCarried
    // The answer.
    StartedForRead FallingAs8 ShortAs5 VersionUnread ErrorsRefused FrameCutTo1024 FrameCutTo4095
    CreditsLimited
    // The payload.
    PayloadOfRefused PayloadIsFrame PayloadInDigits PayloadBehind28 PayloadOf8Bits PayloadAtMost1024
    PayloadInWords PayloadRounded
    // The reply.
    ReplyToError VersToErrorOf2 ReplyToShort VersToShort RepliesExchanged ChunkFor2 VersFor3 NoReplyFor2
    NoReplyFor3 ReplyFor4 NoReplyFor5 NoReplyFor6 NoReplyFor7 NoReplyFor9 ReplyFor10 NoReplyFor11 ReplyFor0
    RefusedIsChunk
    // The sums.
    BadAsRefusedToo BadAsRefused BadAsAccepted BadSumMissing PayloadSumMissing RefusedInAccepted
    WithPayloadAccepted EmptyUncounted LastUncounted FirstUncounted SumOf8Bits SumOf16Bits SumOf24Bits
    SumOfFrames SumOfRefused SumOfLast SumOfLargest CountsOf8Bits CountsOf16Bits SumsExchanged
    ErrorsAsRefused RepliedAsRefused
    // Blocks.
    BlockEndsLine BlockLosesHalf BlockForgetsBad BlockFirstLost BlockLastLost BlockRestartsLine
    ShortBlockEnds FirstBlockOnly BlockOf64KiB NewlineFirstLost BlockDoublesNumber ByteBlockLost
    // Too long.
    LimitOneLess LimitOneMore LimitBinary LimitNever TooLongAtNewline TooLongNotByNewline TooLongNotByOther
    TooLongAtItsNewline TooLongAtItsEnd TooLongAtInputEnd SumsBeforeTooLong SumsBehindTooLong SumsForTooLong
    NothingForTooLong TooLongNumbered TooLongUnended TooLongCapital TooLongAlone TooLongBehindHead
    ReportBehindLimit TooLongAgain GoesOnBehind BadsNotLimited EmptiesNotLimited RefusedNotLimited
    AcceptedNotLimited MillionthUnreported MillionthUncounted NumberOfSixDigits
}

const HEAD: &str = "frame answer payload reply\n";

#[derive(Default)]
struct Machine {
    mistake: Option<Mistake>,
    report: Vec<u8>,
    line: Vec<u8>,
    begun: bool,
    /// The lines begun, and those of them that had nothing in them.
    lines: u64,
    empties: u64,
    accepted: u64,
    refused: u64,
    bads: u64,
    payload: u64,
    largest: u64,
    stopped: bool,
    /// Reads no more, but writes the sums.
    ended: bool,
    /// What is left of lines before.
    was_bad: bool,
    half: Option<u8>,
    digits: Vec<u8>,
    length: usize,
    frame: Vec<u8>,
    told: (u32, usize, &'static str),
}

impl Machine {
    fn is(&self, mistake: Mistake) -> bool {
        self.mistake == Some(mistake)
    }

    fn put(&mut self, text: &str) {
        self.report.extend_from_slice(text.as_bytes());
    }

    fn limit(&self) -> u64 {
        match self.mistake {
            Some(LimitOneLess) => 999_999,
            Some(LimitOneMore) => 1_000_001,
            Some(LimitBinary) => 1_048_576,
            Some(LimitNever) => u64::MAX,
            _ => 1_000_000,
        }
    }

    /// Whether no other line may begin.
    fn is_full(&self) -> bool {
        let counted = match self.mistake {
            Some(BadsNotLimited) => self.lines - self.bads,
            Some(EmptiesNotLimited) => self.lines - self.empties,
            Some(RefusedNotLimited) => self.lines - self.refused,
            Some(AcceptedNotLimited) => self.lines - self.accepted,
            _ => self.lines,
        };
        counted >= self.limit()
    }

    fn begin(&mut self, byte: u8) {
        let late = match self.mistake {
            Some(TooLongNotByNewline) => byte == b'\n',
            Some(TooLongNotByOther) => byte != b'\n' && !byte.is_ascii_hexdigit(),
            Some(TooLongAtItsNewline | TooLongAtItsEnd | TooLongAtInputEnd | ReportBehindLimit) => true,
            _ => false,
        };
        if self.is_full() && !late {
            self.too_long();
        }
        self.lines += 1;
        self.begun = true;
    }

    fn too_long(&mut self) {
        match self.mistake {
            Some(SumsBeforeTooLong) => self.sums(),
            Some(TooLongAlone) => self.report.clear(),
            Some(TooLongBehindHead) => self.report = HEAD.into(),
            // The line's own, which is the last.
            Some(MillionthUnreported) => {
                self.report.pop();
                let end = self.report.iter().rposition(|&byte| byte == b'\n').expect("a line");
                self.report.truncate(end + 1);
            }
            _ => {}
        }
        match self.mistake {
            Some(SumsForTooLong) => self.sums(),
            Some(NothingForTooLong) => {}
            Some(TooLongNumbered) => self.put("1000001 too long\n"),
            Some(TooLongUnended) => self.put("too long"),
            Some(TooLongCapital) => self.put("Too long\n"),
            _ => self.put("too long\n"),
        }
        if self.is(SumsBehindTooLong) {
            self.sums();
        }
        self.stopped = !self.is(GoesOnBehind);
    }

    fn byte(&mut self, byte: u8) {
        let byte = match (self.mistake, byte) {
            (Some(HighBitLost), _) => byte & 0x7f,
            (Some(CrEndsLine), b'\r') => b'\n',
            (Some(NulEndsLine), 0) => b'\n',
            (Some(FormFeedEndsLine), 0x0b | 0x0c) => b'\n',
            (Some(LineEndBelow32), 0..=9 | 11..=31) => b'\n',
            (Some(CrPassedOver), b'\r') => return,
            (Some(BlanksPassedOver), b' ' | b'\t') => return,
            (Some(NulPassedOver), 0) => return,
            (Some(Above127PassedOver), 128..) => return,
            (Some(ControlZEndsInput), 0x1a) => {
                self.ended = true;
                return;
            }
            _ => byte,
        };
        if !self.begun {
            self.begin(byte);
            if self.stopped {
                return;
            }
        }
        if self.is(LongAsTwo) && byte != b'\n' && self.line.len() == 8192 {
            self.end_line();
            self.begin(byte);
        }
        if byte == b'\n' {
            self.end_line();
        } else {
            self.line.push(byte);
        }
    }

    fn end_line(&mut self) {
        let late = self.is(TooLongAtItsNewline) || self.is(TooLongAtItsEnd);
        if late && self.lines > self.limit() {
            return self.too_long();
        }
        let mut line = std::mem::take(&mut self.line);
        self.begun = false;
        self.empties += u64::from(line.is_empty());
        if line.is_empty() {
            match self.mistake {
                Some(EmptySkipped | EmptyNotNumbered) => self.lines -= 1,
                Some(EmptyEndsInput) => self.ended = true,
                Some(EmptyRepeats) => {
                    line = self.frame.iter().flat_map(|b| format!("{b:02x}").into_bytes()).collect()
                }
                _ => {}
            }
            if self.is(EmptySkipped) || self.is(EmptySilent) {
                return;
            }
        }
        let long = line.len() > 8192;
        match self.mistake {
            Some(LongIsEmpty) if long => line.clear(),
            Some(LongEndsInput) if long => self.ended = true,
            Some(LongSkipped) if long => {
                self.lines -= 1;
                return;
            }
            _ => {}
        }
        match self.read(line) {
            Some(frame) => self.judge(frame),
            None => self.put_bad(long),
        }
        match self.mistake {
            Some(FirstUncounted) if self.lines == 1 => {
                (self.accepted, self.refused, self.bads, self.payload) = (0, 0, 0, 0)
            }
            Some(MillionthUncounted) if self.lines == 1_000_000 => self.refused -= 1,
            Some(TooLongAtNewline) if self.lines == self.limit() => self.too_long(),
            Some(ReportBehindLimit) if self.lines > self.limit() => self.too_long(),
            _ => {}
        }
    }

    fn digit(&self, character: u8) -> Option<u8> {
        let character = match self.mistake {
            Some(CaseByBit) => character | 0x20,
            _ => character,
        };
        let right = (character as char).to_digit(16).map(|digit| digit as u8);
        match (self.mistake, character) {
            (Some(UpperRefused), b'A'..=b'F') | (Some(LowerRefused), b'a'..=b'f') => None,
            (Some(NineRefused), b'9') | (Some(ZeroRefused), b'0') => None,
            (Some(SmallFRefused), b'f') | (Some(CapitalFRefused), b'F') => None,
            (Some(SmallGTaken), b'g') | (Some(CapitalGTaken), b'G') => Some(0),
            (Some(SlashTaken), b'/') | (Some(ColonTaken), b':') => Some(10),
            (Some(AtTaken), b'@') | (Some(BacktickTaken), b'`') => Some(9),
            (Some(AllLettersTaken), b'g'..=b'z' | b'G'..=b'Z') => Some(15),
            (Some(SmallAFromZero), b'a'..=b'f') => Some(character - b'a'),
            (Some(CapitalAFromZero), b'A'..=b'F') => Some(character - b'A'),
            (Some(LettersFromOne), b'a'..=b'f' | b'A'..=b'F') => right.map(|digit| (digit + 1) & 15),
            (Some(BlankAsZero), b' ') => Some(0),
            (Some(BadAsZero), _) => right.or(Some(0)),
            _ => right,
        }
    }

    /// The line as it is judged.
    fn stripped(&self, mut line: Vec<u8>) -> Vec<u8> {
        match self.mistake {
            Some(CrStripped) if line.last() == Some(&b'\r') => drop(line.pop()),
            Some(CrLfJoined) if !self.ended && line.last() == Some(&b'\r') => drop(line.pop()),
            Some(BlanksTrimmed) => line = line.trim_ascii().to_vec(),
            Some(CutAtNul) => line.truncate(line.iter().position(|&c| c == 0).unwrap_or(line.len())),
            Some(CutAtBlank) => line.truncate(line.iter().position(|&c| c == b' ').unwrap_or(line.len())),
            Some(PrefixTaken) if line.starts_with(b"0x") => drop(line.drain(..2)),
            Some(MarkPassedOver) if line.starts_with(b"\xef\xbb\xbf") => drop(line.drain(..3)),
            Some(CommentTaken) if line.starts_with(b"#") => line.clear(),
            Some(OthersPassedOver) => line.retain(u8::is_ascii_hexdigit),
            Some(LongCutOff) => line.truncate(8192),
            Some(FirstUnjudged) if !line.is_empty() && self.digit(line[0]).is_none() => line[0] = b'0',
            Some(LastUnjudged) => {
                if let Some(last) = line.last_mut().filter(|last| self.digit(**last).is_none()) {
                    *last = b'0';
                }
            }
            _ => {}
        }
        line
    }

    /// The frame, none for a bad line.
    fn read(&mut self, line: Vec<u8>) -> Option<Vec<u8>> {
        let line = self.stripped(line);
        let unended = self.ended;
        let limit = match self.mistake {
            Some(Limit8190) => 8190,
            Some(Limit8191) => 8191,
            Some(Limit8194) => 8194,
            Some(Limit4096) => 4096,
            Some(Limit16384) => 16_384,
            Some(LimitWithNewline) if !unended => 8191,
            Some(LimitWithoutLastNewline) if unended => usize::MAX,
            Some(LimitMissing) => usize::MAX,
            _ => 8192,
        };
        let mut length = line.len();
        match self.mistake {
            Some(LengthOf16Bits) => length &= 0xffff,
            Some(LengthCarried) => {
                self.length = if self.length > limit { self.length } else { length };
                length = self.length;
            }
            Some(AllLinesLimited) => {
                self.length += length;
                length = if self.length > 100_000 { usize::MAX - 1 } else { length };
            }
            _ => {}
        }
        let has = |is: fn(&u8) -> bool| line.iter().any(is);
        let mixed = has(u8::is_ascii_uppercase) && has(u8::is_ascii_lowercase);
        let digits: Option<Vec<u8>> = line.iter().map(|&character| self.digit(character)).collect();
        let known: Vec<u8> = match (self.mistake, &digits) {
            (Some(DigitsCarried), None) => {
                line.iter().map_while(|&character| self.digit(character)).collect()
            }
            _ => vec![],
        };
        let bad = digits.is_none() || length > limit || (self.is(MixedRefused) && mixed);
        let mut digits = digits.unwrap_or_default();
        if let (Some(HalfCarried), Some(half)) = (self.mistake, self.half.take()) {
            digits.insert(0, half);
        }
        if self.is(DigitsCarried) {
            digits.splice(0..0, self.digits.drain(..));
        }
        let odd = digits.len() % 2 == 1;
        if odd && !bad {
            match self.mistake {
                Some(OddLastDropped) => drop(digits.pop()),
                Some(OddFirstDropped) => drop(digits.remove(0)),
                Some(OddZeroBefore) => digits.insert(0, 0),
                Some(OddZeroBehind) => digits.push(0),
                Some(OneDigitTaken) if digits.len() == 1 => digits.insert(0, 0),
                Some(OddRefused) => return Some(vec![]),
                Some(OddOfLongTaken) if digits.len() > 4096 => drop(digits.pop()),
                _ => {}
            }
        }
        let own = bad || digits.len() % 2 == 1;
        let is_bad = own
            || match self.mistake {
                Some(BadCarried) => self.was_bad,
                Some(BadCarriedOver) => self.was_bad && length > 0,
                Some(BadForEver) => self.bads > 0,
                _ => false,
            };
        self.was_bad = own;
        if is_bad {
            self.half = digits.last().copied().filter(|_| odd);
            self.digits = known;
            return None;
        }
        let pairs = digits.chunks(2).map(|pair| match self.mistake {
            Some(LowHalfFirst) => 16 * pair[1] + pair[0],
            Some(HighHalfLost) => pair[1],
            _ => 16 * pair[0] + pair[1],
        });
        let mut frame: Vec<u8> = pairs.collect();
        match self.mistake {
            Some(BytesReversed) => frame.reverse(),
            Some(FrameCutTo1024) => frame.truncate(1024),
            Some(FrameCutTo4095) => frame.truncate(4095),
            Some(FrameCarried) if frame.len() < 16 && self.frame.len() >= 28 => {
                frame.extend_from_slice(&self.frame[frame.len()..28])
            }
            _ => {}
        }
        Some(frame)
    }

    fn number(&self) -> String {
        let number = match self.mistake {
            Some(NumbersFrom0) => self.lines - 1,
            Some(BadNotNumbered) => self.lines - self.bads,
            Some(RefusedNotNumbered) => self.lines - self.refused,
            Some(NumberOf8Bits) => self.lines & 0xff,
            Some(NumberOf16Bits) => self.lines & 0xffff,
            Some(NumberOfSixDigits) => self.lines % 1_000_000,
            _ => self.lines,
        };
        match self.mistake {
            Some(NumberWithZero) => format!("{number:02}"),
            Some(NumberOfSevenDigits) => format!("{number:7}"),
            Some(NumberHexadecimal) => format!("{number:x}"),
            Some(NumberWithComma) if number > 999 => format!("{},{:03}", number / 1000, number % 1000),
            _ => number.to_string(),
        }
    }

    fn put_line(&mut self, fields: &[&str]) {
        let between = if self.is(TabsBetween) { "\t" } else { " " };
        let behind = match self.mistake {
            Some(CrBehindLines) => "\r\n",
            Some(BlankBehindLines) => " \n",
            _ => "\n",
        };
        for (at, field) in fields.iter().enumerate() {
            self.put(if at == 0 { "" } else { between });
            self.put(field);
        }
        self.put(behind);
    }

    fn put_bad(&mut self, long: bool) {
        self.bads += 1;
        match self.mistake {
            Some(BadAsRefusedToo) => self.refused += 1,
            Some(BadAsRefused) => (self.refused, self.bads) = (self.refused + 1, 0),
            Some(BadAsAccepted) => self.accepted += 1,
            _ => {}
        }
        let number = self.number();
        match self.mistake {
            Some(BadAlone) => self.put_line(&["bad"]),
            Some(BadWithFields) => self.put_line(&[&number, "bad", "0", "none"]),
            Some(BadWithZeros) => self.put_line(&[&number, "0", "0", "bad"]),
            Some(BadCapital) => self.put_line(&[&number, "BAD"]),
            Some(BadBeforeNumber) => self.put_line(&["bad", &number]),
            Some(LongRefused) if long => self.put_line(&[&number, "5", "0", "chunk"]),
            _ => self.put_line(&[&number, "bad"]),
        }
    }

    fn judge(&mut self, mut frame: Vec<u8>) {
        let mut header = ffi::Header::ZERO;
        let whole = frame.len() >= 16;
        let other = whole && frame[4..8] != [0, 0, 0, 1];
        let error = whole && frame[12..16] == [0, 0, 0, 4];
        if self.is(VersionUnread) && other {
            frame[4..8].copy_from_slice(&[0, 0, 0, 1]);
        }
        let mut answer = Plain.read_header(&mut frame, &mut header);
        let falling = !header.reads[..header.read_count as usize].is_sorted_by_key(|entry| entry.position);
        match self.mistake {
            Some(StartedForRead) => {
                answer = Plain.start(&mut frame, &mut [0; 8192], &mut { ffi::State::ZERO })
            }
            Some(FallingAs8) if answer == 0 && falling => answer = 8,
            Some(ShortAs5) if answer == 1 && !frame.is_empty() => answer = 5,
            Some(ErrorsRefused) if answer == 0 && error => answer = 12,
            Some(EmptyAccepted) if frame.is_empty() => answer = 0,
            // The limit of the grant taken for one of what is asked.
            Some(CreditsLimited) if whole && frame[8..12] > [0, 0, 0, 32][..] => answer = 20,
            Some(AnswerCarried) if answer == 0 => answer = self.told.0,
            _ => {}
        }
        let payload = self.payload_of(&mut frame, answer);
        let reply = self.reply_to(&mut frame, answer, error);
        self.count(&frame, answer, payload, reply, error);
        self.told = (answer, payload, reply);
        self.frame = frame;
        let (number, answer) = (self.number(), answer.to_string());
        let payload = if self.is(PayloadHexadecimal) { format!("{payload:x}") } else { payload.to_string() };
        let reply = match (self.mistake, reply) {
            (Some(VersSpelledOut), "vers") => "version",
            (Some(ChunkShortened), "chunk") => "chun",
            (Some(NoneAsDash), "none") => "-",
            _ => reply,
        };
        match self.mistake {
            Some(EmptyBad) if self.frame.is_empty() => {
                (self.refused, self.bads) = (self.refused - 1, self.bads + 1);
                self.put_line(&[&number, "bad"])
            }
            Some(FieldsExchanged) => self.put_line(&[&number, &payload, &answer, reply]),
            Some(AnswerOfTwoDigits) => self.put_line(&[&number, &format!("{answer:0>2}"), &payload, reply]),
            Some(PayloadMissingIfRefused) if answer != "0" => self.put_line(&[&number, &answer, reply]),
            Some(PayloadMissingIfZero) if payload == "0" => self.put_line(&[&number, &answer, reply]),
            _ => self.put_line(&[&number, &answer, &payload, reply]),
        }
    }

    fn payload_of(&self, frame: &mut [u8], answer: u32) -> usize {
        let payload = if answer == 0 { Plain.payload(frame).length } else { 0 };
        match self.mistake {
            Some(PayloadOfRefused) if answer != 0 => frame.len().saturating_sub(28),
            Some(PayloadCarried) if answer != 0 => self.told.1,
            Some(PayloadIsFrame) if answer == 0 => frame.len(),
            Some(PayloadInDigits) => 2 * payload,
            Some(PayloadBehind28) if answer == 0 => frame.len().saturating_sub(28),
            Some(PayloadOf8Bits) => payload & 0xff,
            Some(PayloadAtMost1024) => payload.min(1024),
            Some(PayloadInWords) => payload / 4,
            Some(PayloadRounded) => payload.next_multiple_of(4),
            _ => payload,
        }
    }

    fn reply_to(&self, frame: &mut [u8], answer: u32, error: bool) -> &'static str {
        let number = match (self.mistake, answer) {
            (Some(ChunkFor2), 2) => 3,
            (Some(VersFor3), 3) => 2,
            (Some(NoReplyFor2), 2) | (Some(NoReplyFor3), 3) | (Some(NoReplyFor5), 5) => 0,
            (Some(NoReplyFor6), 6) | (Some(NoReplyFor7), 7) | (Some(NoReplyFor9), 9) => 0,
            (Some(NoReplyFor11), 11) => 0,
            (Some(ReplyFor4), 4) | (Some(ReplyFor10), 10) | (Some(ReplyFor0), 0) => 5,
            (Some(RefusedIsChunk), 1..) => 5,
            _ => answer,
        };
        match self.mistake {
            Some(ReplyToShort) if answer == 1 => return "chunk",
            Some(VersToShort) if answer == 1 && frame.len() >= 8 && frame[4..8] != [0, 0, 0, 1] => {
                return "vers"
            }
            Some(VersToErrorOf2) if answer == 2 && error => return "vers",
            Some(ReplyFor10) if answer == 10 => return "chunk",
            _ => {}
        }
        let mut lent = frame.to_vec();
        if self.is(ReplyToError) && error {
            lent[15] = 0;
        }
        let mut length = 0;
        Plain.error_reply(&mut lent, number, 32, &mut [0; 28], &mut length);
        match (self.mistake, length) {
            (Some(RepliesExchanged), 20) => "vers",
            (Some(RepliesExchanged), 28) => "chunk",
            (Some(ReplyCarried), 0) if self.told.2 == "vers" && answer == 0 => "vers",
            (_, 20) => "chunk",
            (_, 28) => "vers",
            _ => "none",
        }
    }

    fn count(&mut self, frame: &[u8], answer: u32, payload: usize, reply: &str, error: bool) {
        let accepted = match self.mistake {
            Some(WithPayloadAccepted) => answer == 0 && payload > 0,
            Some(ErrorsAsRefused) => answer == 0 && !error,
            _ => answer == 0,
        };
        if self.is(EmptyUncounted) && frame.is_empty() {
            return;
        }
        if accepted {
            self.accepted += 1;
        } else if !self.is(RepliedAsRefused) || reply != "none" {
            self.refused += 1;
        }
        let payload = payload as u64;
        self.largest = self.largest.max(payload);
        self.payload = match self.mistake {
            Some(SumOfFrames) if answer == 0 => self.payload + frame.len() as u64,
            Some(SumOfRefused) if answer != 0 => self.payload + frame.len().saturating_sub(28) as u64,
            Some(SumOfLast) if answer == 0 => payload,
            Some(SumOfLargest) => self.largest,
            _ => self.payload + payload,
        };
    }

    fn sums(&mut self) {
        let mut counts = [self.accepted, self.refused, self.bads];
        let mut payload = self.payload;
        match self.mistake {
            Some(RefusedInAccepted) => counts[0] += counts[1],
            Some(CountsOf8Bits) => counts = counts.map(|count| count & 0xff),
            Some(CountsOf16Bits) => counts = counts.map(|count| count & 0xffff),
            Some(SumsExchanged) => counts.swap(0, 1),
            Some(SumOf8Bits) => payload &= 0xff,
            Some(SumOf16Bits) => payload &= 0xffff,
            Some(SumOf24Bits) => payload &= 0xff_ffff,
            _ => {}
        }
        let [accepted, refused, bad] = counts;
        let text = match self.mistake {
            Some(BadSumMissing) => format!("accepted {accepted} refused {refused} payload {payload}\n"),
            Some(PayloadSumMissing) => format!("accepted {accepted} refused {refused} bad {bad}\n"),
            Some(HeadLast) => {
                format!("{HEAD}accepted {accepted} refused {refused} bad {bad} payload {payload}\n")
            }
            _ => format!("accepted {accepted} refused {refused} bad {bad} payload {payload}\n"),
        };
        self.put(&text);
    }

    /// The bytes of a block that are read, and what the cut behind it does.
    fn block(&mut self, block: &[u8], first: bool) {
        let mut block = block;
        match self.mistake {
            Some(BlockFirstLost) if !first => block = &block[1.min(block.len())..],
            Some(BlockLastLost) if block.len() > 1 && block.last() != Some(&b'\n') => {
                block = &block[..block.len() - 1]
            }
            Some(ByteBlockLost) if block.len() == 1 && !first => return,
            Some(NewlineFirstLost) if !first => block = block.strip_prefix(b"\n").unwrap_or(block),
            Some(BlockOf64KiB) => block = &block[..block.len().min(65_536)],
            _ => {}
        }
        for &byte in block {
            if self.stopped || self.ended {
                return;
            }
            self.byte(byte);
        }
        let odd = self.line.len() % 2 == 1;
        match self.mistake {
            Some(BlockEndsLine) if self.begun => self.end_line(),
            Some(BlockLosesHalf) if odd => drop(self.line.pop()),
            Some(BlockForgetsBad) => self.line.retain(u8::is_ascii_hexdigit),
            Some(BlockRestartsLine) => self.line.clear(),
            Some(BlockDoublesNumber) if self.begun => self.lines += 1,
            Some(ShortBlockEnds) if block.len() < 65_536 => self.ended = true,
            Some(FirstBlockOnly) => self.ended = true,
            _ => {}
        }
    }

    fn end(&mut self) {
        self.ended = true;
        if self.begun {
            let odd = self.line.len() % 2 == 1;
            let good = !odd && self.line.iter().all(u8::is_ascii_hexdigit);
            match self.mistake {
                Some(LastDropped) => {}
                Some(LastDroppedIfBad) if !good => {}
                Some(LastDroppedIfGood) if good => {}
                Some(TooLongAtItsNewline) if self.lines > self.limit() => {}
                Some(LastBad) => self.put_bad(false),
                Some(LastUncounted) => {
                    let before = (self.accepted, self.refused, self.bads, self.payload);
                    self.end_line();
                    (self.accepted, self.refused, self.bads, self.payload) = before;
                }
                _ => self.end_line(),
            }
        } else if self.is(EmptyLineAtEnd) && self.lines > 0 || self.is(EmptyInputHasLine) && self.lines == 0 {
            self.begin(b'\n');
            self.end_line();
        }
        if self.is(EmptiesAtEndSkipped) {
            self.skip_empties();
        }
        if !self.stopped {
            self.sums();
        }
    }

    /// The reports of empty lines at the end taken back.
    fn skip_empties(&mut self) {
        let text = String::from_utf8(std::mem::take(&mut self.report)).expect("text");
        let mut lines: Vec<&str> = text.lines().collect();
        while self.frame.is_empty()
            && lines.len() > 1
            && lines.last().is_some_and(|l| l.ends_with(" 1 0 none"))
        {
            lines.pop();
            self.refused -= 1;
        }
        self.report = lines.iter().flat_map(|line| [line, "\n"].concat().into_bytes()).collect();
    }

    fn whole(mut self, blocks: &[&[u8]], way: Way) -> Result<Vec<u8>, String> {
        let nothing = blocks.concat().is_empty();
        match self.mistake {
            Some(HeadMissing | HeadLast) => {}
            Some(HeadOfEmptyMissing) if nothing => {}
            Some(HeadCapital) => self.put("Frame answer payload reply\n"),
            _ => self.put(HEAD),
        }
        for (at, block) in blocks.iter().enumerate() {
            self.block(block, at == 0);
        }
        if way == Way::Held && !self.stopped {
            return Err(NOT_STOPPED.to_string());
        }
        if self.is(TooLongAtInputEnd) && self.lines > self.limit() {
            // What was reported behind the limit is not written.
            let ends = self.report.iter().enumerate().filter(|(_, byte)| **byte == b'\n');
            let end = ends.map(|(at, _)| at + 1).nth(1_000_000).expect("as many lines");
            self.report.truncate(end);
            self.too_long();
        }
        let silent = self.is(SumsOfEmptyMissing) && nothing;
        if !self.stopped && !silent {
            self.end();
        }
        match self.mistake {
            Some(LastNewlineMissing) => drop(self.report.pop()),
            Some(NewlineTwice) => self.put("\n"),
            Some(TooLongAgain) if blocks.concat().split(|&byte| byte == b'\n').count() > 1_000_002 => {
                self.put("too long\n")
            }
            _ => {}
        }
        Ok(self.report)
    }
}

impl ReplayCalls for Wrong {
    fn replay(&self, blocks: &[&[u8]], way: Way) -> Result<Vec<u8>, String> {
        let mistake = if let Replay(mistake) = *self { Some(mistake) } else { None };
        Machine { mistake, told: (0, 0, "none"), ..Machine::default() }.whole(blocks, way)
    }
}

/// From the first named to the last.
fn those(first: Mistake, last: Mistake) -> impl Iterator<Item = Wrong> {
    MISTAKES[first as usize..=last as usize].iter().map(|&mistake| Replay(mistake))
}

/// What finds most mistakes first.
fn few(check: &mut Checker<Wrong>) -> Outcome {
    worked(check)?;
    characters(check)?;
    lengths(check)?;
    headers(check, &mut Rng(5))?;
    cuts(check, &mut Rng(5))
}

/// By a run; those of long inputs straight by their families.
#[test]
fn each_is_found() {
    for wrong in those(HeadMissing, ByteBlockLost) {
        let run = match wrong {
            Replay(NumberOf16Bits | CountsOf16Bits) => counts,
            Replay(SumOf24Bits) => sums,
            _ => few,
        };
        is_found(wrong, 5, run);
    }
}

/// In a run the worked examples find most of them: the families have to find theirs too.
#[test]
fn families_find_each() {
    those(UpperRefused, Above127PassedOver).for_each(|wrong| is_found(wrong, 5, characters));
    those(OddLastDropped, AnswerCarried).for_each(|wrong| is_found(wrong, 5, lengths));
    for wrong in those(StartedForRead, RefusedIsChunk) {
        is_found(wrong, 5, |check| headers(check, &mut Rng(5)));
    }
    for wrong in those(BadAsRefusedToo, RepliedAsRefused) {
        is_found(wrong, 5, if wrong == Replay(CountsOf16Bits) { counts } else { sums });
    }
    those(NumbersFrom0, NumberWithComma).for_each(|wrong| is_found(wrong, 5, counts));
    for wrong in those(BlockEndsLine, ByteBlockLost).chain(those(LastDropped, EmptyLineAtEnd)) {
        is_found(wrong, 5, |check| cuts(check, &mut Rng(5)));
    }
    for wrong in those(BadCarried, DigitsCarried).chain(those(FrameCarried, AnswerCarried)) {
        is_found(wrong, 5, |check| random(check, &mut Rng(5), 20_000));
    }
}

/// The input of the family that finds it.
fn finding(mistake: Mistake) -> usize {
    match mistake {
        LimitOneLess | TooLongAtNewline | MillionthUncounted | NumberOfSixDigits => 1,
        LimitOneMore | TooLongAtItsNewline | TooLongAtItsEnd => 4,
        TooLongNotByNewline | TooLongAtInputEnd | EmptiesNotLimited | RefusedNotLimited => 5,
        TooLongNotByOther => 6,
        LimitNever | TooLongAgain => 8,
        BadsNotLimited | AcceptedNotLimited => 11,
        _ => 7,
    }
}

#[test]
fn each_at_the_limit_is_found() {
    for wrong in those(LimitOneLess, NumberOfSixDigits) {
        let Replay(mistake) = wrong else { unreachable!() };
        is_found(wrong, 5, |check| million(check, finding(mistake)));
    }
}

/// With no mistake put in all agree there too.
#[test]
fn without_a_mistake_the_limit_is_kept() {
    let mut used: Vec<usize> = MISTAKES.iter().map(|&mistake| finding(mistake)).collect();
    used.sort();
    used.dedup();
    used.iter().for_each(|&at| assert_eq!(outcome(Wrong::Nowhere, 5, |check| million(check, at)), Ok(())));
}

/// The checks alone, of an input that shows the mistake.
#[test]
fn checks_can_fail() {
    can_fail(Replay(LastNewlineMissing), |check| check.replay(b"", Cuts::Whole));
    can_fail(Replay(EmptyBad), |check| check.replay(b"\n", Cuts::Singly));
    can_fail(Replay(CrStripped), |check| check.replay(b"00\r\n", Cuts::File));
    can_fail(Replay(BlockEndsLine), |check| check.replay(b"0000\n", Cuts::At(1)));
    can_fail(Replay(LastBad), |check| {
        let told = "frame answer payload reply\n1 1 0 none\naccepted 0 refused 1 bad 0 payload 0\n";
        check.worked_replay(b"00", Cuts::Random(1), told)
    });
}
