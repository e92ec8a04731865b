//! The checks of what a reply says was landed.

use super::lent::{Buffer, Place};
use super::seen::{Call, Form};
use super::{Checker, Outcome};
use crate::calls::Calls;
use crate::convert::{flatten_landed, unflatten};
use crate::reference::header::MAX_HEADER;
use crate::reference::returned::returned;
use eoswynnor::ffi::{Header, Landed, Segment, MSG, NOMSG};

/// The reference's answer.
fn right(sent: &Header, reply: &Header) -> Result<Landed, u32> {
    let (sent, reply) = (unflatten(sent)?, unflatten(reply)?);
    returned(&sent, &reply).map(|landed| flatten_landed(&landed))
}

fn told(what: String, sent: &Header, reply: &Header) -> String {
    format!("{what}\nsent: {sent:?}\nreply: {reply:?}")
}

impl<C: Calls> Checker<C> {
    pub fn returned(&mut self, sent: &Header, reply: &Header) -> Outcome {
        self.landed(sent, reply, right(sent, reply))
    }

    /// The answer is the caller's and not the reference's.
    pub fn landed(&mut self, sent: &Header, reply: &Header, want: Result<Landed, u32>) -> Outcome {
        self.count();
        let mut landed = Place::noise(&mut self.noise);
        let aside = &mut self.noise.aside();
        let [mut one, mut two] = [sent, reply].map(|header| Place::holding(*header, aside));
        self.calls
            .returned(&mut one, &mut two, &mut landed)
            .and_then(|number| self.judge_landed(sent, reply, number, &landed, want))
            .map_err(|what| told(what, sent, reply))
    }

    /// One header lent as both.
    pub fn returned_itself(&mut self, header: &Header) -> Outcome {
        self.count();
        let mut landed = Place::noise(&mut self.noise);
        let mut both = Place::holding(*header, &mut self.noise.aside());
        self.calls
            .returned_itself(&mut both, &mut landed)
            .and_then(|number| {
                if number == 0 {
                    self.seen.form(Form::OneHeaderAsBoth);
                }
                self.judge_landed(header, header, number, &landed, right(header, header))
            })
            .map_err(|what| format!("{what}\nsent and reply: {header:?}"))
    }

    /// Both written, read back and then handed in: the answer for the headers themselves.
    pub fn written_returned(&mut self, sent: &Header, reply: &Header) -> Outcome {
        self.count();
        let mut landed = Place::noise(&mut self.noise);
        let mut run = || {
            let (mut one, mut two) = (self.carried(sent)?, self.carried(reply)?);
            let number = self.calls.returned(&mut one, &mut two, &mut landed)?;
            self.judge_landed(sent, reply, number, &landed, right(sent, reply))
        };
        run().map_err(|what| told(what, sent, reply))
    }

    /// A header as the other side reads it, with a payload behind if it may have one.
    fn carried(&mut self, header: &Header) -> Result<Place<Header>, String> {
        let payload = if header.kind == MSG { self.noise.below(9) } else { 0 };
        let mut out = self.noise.noise(MAX_HEADER + payload);
        let (mut length, mut back) = (Place::noise(&mut self.noise), Place::noise(&mut self.noise));
        let aside = &mut self.noise.aside();
        let written = self.calls.write_header(&mut Place::holding(*header, aside), &mut out, &mut length)?;
        let end = length.now.value.saturating_add(payload);
        let mut frame = Buffer::holding(out.get(..end).unwrap_or_default(), aside);
        let read = self.calls.read_header(&mut frame, &mut back)?;
        if (written, read) != (0, 0) {
            return Err(format!("numbers: got {written} then {read}, want 0 twice"));
        }
        Ok(back)
    }

    fn judge_landed(
        &mut self,
        sent: &Header,
        reply: &Header,
        number: u32,
        landed: &Place<Landed>,
        want: Result<Landed, u32>,
    ) -> Outcome {
        self.seen.number(Call::Returned, number);
        landed.judge(number, want)?;
        if let Ok(landed) = want {
            self.forms_landed(sent, reply, &landed);
        }
        Ok(())
    }

    fn forms_landed(&mut self, sent: &Header, reply: &Header, landed: &Landed) {
        let bytes = |list: &[Segment], count: u32| -> u64 {
            list[..count as usize].iter().map(|segment| u64::from(segment.length)).sum()
        };
        let written: u64 = landed.writes.iter().sum();
        let count = sent.write_counts[..sent.write_chunks as usize].iter().sum();
        let lent = bytes(&sent.writes, count);
        let full = (written, landed.reply) == (lent, bytes(&sent.reply, sent.reply_count));
        let [missing, back] = [0, 1].map(|flag| reply.kind == MSG && reply.reply_present == flag);
        self.seen.forms(&[
            (Form::MsgWithoutReplyChunk, missing && sent.reply_present == 1),
            (Form::MsgWithReplyChunk, back && sent.reply_count > 0),
            (Form::NomsgLanded, reply.kind == NOMSG && landed.reply > 0),
            (Form::PartLanded, (1..lent).contains(&written)),
            (Form::AllLanded, full && (count, reply.reply_count) == (16, 16)),
            (Form::LandedAbove32Bits, landed.writes.iter().any(|&bytes| bytes > u64::from(u32::MAX))),
        ]);
    }
}
