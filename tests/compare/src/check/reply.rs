//! The checks of grants and error replies.

use super::lent::{Buffer, Place};
use super::seen::{Call, Form};
use super::{hex, same_number, Checker, Outcome};
use crate::calls::Calls;
use crate::convert::flatten;
use crate::reference::header::{self, Fault, Header, Kind};
use crate::reference::reply::{self, LAST_NUMBER};
use eoswynnor::ffi::{self, Part};

/// What reading a reply to a frame back gives: the ERROR header that it is meant to be, or the 2 of a version
/// reply that echoes another version than 1.
fn read_back(frame: &[u8], number: u32, limit: u32) -> Result<Header, u32> {
    let word = |i: usize| frame[4 * i..4 * i + 4].iter().fold(0, |word, &byte| word << 8 | u32::from(byte));
    let fault = match (number, word(1)) {
        (2, 1) => Fault::Version { low: 1, high: 1 },
        (2, _) => return Err(2),
        _ => Fault::Chunk,
    };
    let credit = reply::grant(word(2), limit).expect("a reply has a limit above 0");
    Ok(Header { xid: word(0), credit, kind: Kind::Error(fault), ..Header::default() })
}

impl<C: Calls> Checker<C> {
    pub fn grant(&mut self, asked: u32, limit: u32) -> Outcome {
        self.count();
        let mut credit = Place::noise(&mut self.noise);
        let number = self.calls.grant(asked, limit, &mut credit);
        self.seen.number(Call::Grant, number);
        credit
            .judge(number, reply::grant(asked, limit))
            .map_err(|what| format!("{what}\nasked {asked}, limit {limit}"))
    }

    /// Lends the first `length` bytes as the frame, with the others lying behind.
    pub fn error_reply(
        &mut self,
        bytes: &[u8],
        length: usize,
        number: u32,
        limit: u32,
        room: usize,
    ) -> Outcome {
        self.count();
        self.input.hold(bytes, length, &mut self.noise);
        self.memory.noise(room, &mut self.noise);
        let mut written = Place::noise(&mut self.noise);
        let frame = &bytes[..length];
        self.calls
            .error_reply(&mut self.input, number, limit, self.memory.lent(), &mut written)
            .and_then(|got| {
                self.seen.reply(frame, number, got, written.now.value);
                self.judge_memory(got, &written, |out| reply::error_reply(frame, number, limit, out))
            })
            .map_err(|what| self.reply_text(what, frame, number, limit))
    }

    fn reply_text(&self, what: String, frame: &[u8], number: u32, limit: u32) -> String {
        let (length, frame, buffer) = (frame.len(), hex(frame), self.buffer_text());
        format!("{what}\nnumber {number}, limit {limit}, frame ({length} bytes): {frame}\n{buffer}")
    }

    /// The reply for the number that the frame's reading gives, read back.
    pub fn read_reply(&mut self, frame: &[u8], limit: u32, room: usize) -> Outcome {
        let mut header = Place::holding(self.noise.any(), &mut self.noise.aside());
        let mut lent = Buffer::holding(frame, &mut self.noise.aside());
        let number = self.calls.read_header(&mut lent, &mut header).and_then(|number| {
            self.seen.number(Call::Replied, number);
            let right = header::read(frame).err().unwrap_or(0);
            same_number(number, right).map(|()| number).map_err(|what| format!("reading: {what}"))
        });
        let number = number.map_err(|what| format!("{what}\nframe: {}", hex(frame)))?;
        self.reply_back(frame, number, limit, room)
    }

    /// The reply for any number handed in, read back.
    pub fn reply_back(&mut self, frame: &[u8], number: u32, limit: u32, room: usize) -> Outcome {
        let reply = |out: &mut [u8]| reply::error_reply(frame, number, limit, out);
        self.reply_beside(frame, number, limit, room, reply, || read_back(frame, number, limit))
    }

    /// The reply's bytes and what reading it back gives are the caller's and not the reference's.
    pub fn worked_reply(
        &mut self,
        frame: &[u8],
        number: u32,
        limit: u32,
        reply: &[u8],
        back: Result<Header, u32>,
    ) -> Outcome {
        let put = |out: &mut [u8]| {
            out[..reply.len()].copy_from_slice(reply);
            Ok(reply.len())
        };
        self.reply_beside(frame, number, limit, reply.len() + 5, put, || back)
    }

    /// No reply, or a refusal: the answer is the caller's and not the reference's.
    pub fn no_reply(&mut self, frame: &[u8], number: u32, limit: u32, room: usize, answer: u32) -> Outcome {
        let none = |_: &mut [u8]| if answer == 0 { Ok(0) } else { Err(answer) };
        self.reply_beside(frame, number, limit, room, none, || unreachable!("there is no reply"))
    }

    fn reply_beside(
        &mut self,
        frame: &[u8],
        number: u32,
        limit: u32,
        room: usize,
        reply: impl FnOnce(&mut [u8]) -> Result<usize, u32>,
        back: impl FnOnce() -> Result<Header, u32>,
    ) -> Outcome {
        self.count();
        self.memory.noise(room, &mut self.noise);
        let mut length = Place::noise(&mut self.noise);
        let mut lent = Buffer::holding(frame, &mut self.noise.aside());
        self.calls
            .error_reply(&mut lent, number, limit, self.memory.lent(), &mut length)
            .and_then(|got| {
                self.seen.reply(frame, number, got, length.now.value);
                self.judge_memory(got, &length, reply)?;
                if got != 0 || length.now.value == 0 {
                    return Ok(());
                }
                self.judge_reply(frame, limit, length.now.value, back().map(|header| flatten(&header)))
            })
            .map_err(|what| self.reply_text(what, frame, number, limit))
    }

    /// The reply in the memory is read back as it should be, without a payload, and gets no reply.
    fn judge_reply(
        &mut self,
        frame: &[u8],
        limit: u32,
        length: usize,
        want: Result<ffi::Header, u32>,
    ) -> Outcome {
        let mut header = Place::noise(&mut self.noise);
        let aside = &mut self.noise.aside();
        let mut reply = Buffer::holding(&self.memory.bytes()[..length], aside);
        let read = self.calls.read_header(&mut reply, &mut header)?;
        header.judge(read, want).map_err(|what| format!("reply read back: {what}"))?;
        let part = self.calls.payload(&mut reply)?;
        if part != Part::default() {
            return Err(format!("reply read back: {part:?}, want no payload"));
        }
        self.seen.read_back(frame, length, read);
        let mut out = Buffer::default();
        out.noise(28, aside);
        for number in 0..=LAST_NUMBER {
            let mut length = Place::noise(aside);
            let got = self.calls.error_reply(&mut reply, number, limit, out.lent(), &mut length)?;
            let outcome = length.judge(got, Ok(0)).and_then(|()| out.judge());
            outcome.map_err(|what| format!("reply to a reply, number {number}: {what}"))?;
        }
        self.seen.form(Form::NoReplyToReply);
        Ok(())
    }
}
