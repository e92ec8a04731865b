//! The checks of reading and writing headers.

use super::lent::{Buffer, Place};
use super::seen::{Call, Form};
use super::{hex, same_list, same_number, Checker, Outcome};
use crate::calls::Calls;
use crate::convert::{asked_length, flatten, unflatten};
use crate::reference::header;
use eoswynnor::ffi::{Header, Part};

fn judge_read(frame: &[u8], number: u32, place: &Place<Header>, part: Part) -> Outcome {
    let right = header::read(frame);
    let payload = right.as_ref().map_or(&[][..], |(_, payload)| payload);
    place.judge(number, right.as_ref().map(|(header, _)| flatten(header)).map_err(|number| *number))?;
    let got = match part.offset.checked_add(part.length) {
        _ if part == Part::default() => &[][..],
        _ if part.length == 0 => return Err(format!("{part:?}, want 0, 0 where it is empty")),
        Some(end) if end <= frame.len() => &frame[part.offset..end],
        _ => return Err(format!("payload {part:?} lies outside the frame")),
    };
    if got != payload {
        return Err(format!("payload: got {}, want {}", hex(got), hex(payload)));
    }
    Ok(())
}

fn unsorted(header: &Header) -> bool {
    let reads = header.reads.get(..header.read_count as usize).unwrap_or_default();
    !reads.is_sorted_by_key(|entry| entry.position)
}

impl<C: Calls> Checker<C> {
    pub fn read(&mut self, frame: &[u8]) -> Outcome {
        self.read_part(frame, frame.len())
    }

    /// Lends the first `length` bytes, with the others lying behind: reading too far shows.
    pub fn read_part(&mut self, bytes: &[u8], length: usize) -> Outcome {
        self.count();
        self.input.hold(bytes, length, &mut self.noise);
        let mut header = Place::noise(&mut self.noise);
        let frame = &bytes[..length];
        let mut run = || {
            let number = self.calls.read_header(&mut self.input, &mut header)?;
            self.seen.number(Call::Read, number);
            let part = self.calls.payload(&mut self.input)?;
            if number == 0 && unsorted(&header.now.value) {
                self.seen.form(Form::UnsortedRead);
            }
            judge_read(frame, number, &header, part)
        };
        run().map_err(|what| format!("{what}\nframe ({length} bytes): {}", hex(frame)))
    }

    pub fn write(&mut self, header: &Header, room: usize) -> Outcome {
        self.write_beside(header, room, |right| right)
    }

    /// The number and the length are the caller's and not the reference's.
    pub fn worked_write(&mut self, header: &Header, room: usize, want: Result<usize, u32>) -> Outcome {
        self.write_beside(header, room, |_| want)
    }

    fn write_beside(
        &mut self,
        header: &Header,
        room: usize,
        want: impl FnOnce(Result<usize, u32>) -> Result<usize, u32>,
    ) -> Outcome {
        self.count();
        self.memory.noise(room, &mut self.noise);
        let mut length = Place::noise(&mut self.noise);
        let mut place = Place::holding(*header, &mut self.noise.aside());
        self.calls
            .write_header(&mut place, self.memory.lent(), &mut length)
            .and_then(|number| {
                self.seen.number(Call::Write, number);
                let asked = asked_length(header);
                self.seen.forms(&[
                    (Form::UnsortedWritten, number == 0 && unsorted(header)),
                    (Form::FullWritten, (number, length.now.value) == (0, 960)),
                    (Form::FullShort, (number, asked, room) == (16, 960, 959)),
                    (Form::FullUnaligned, (number, asked) == (9, 960)),
                    (Form::LongOverLimit, number == 7 && asked > 960),
                    (Form::LongError, number == 12 && asked > 960),
                ]);
                self.judge_memory(number, &length, |out| {
                    want(unflatten(header).and_then(|header| header::write(&header, out)))
                })
            })
            .map_err(|what| format!("{what}\nheader: {header:?}\n{}", self.buffer_text()))
    }

    /// Written, then read back: the header with its unused places zero, and no payload.
    pub fn write_read(&mut self, header: &Header, room: usize) -> Outcome {
        self.count();
        let want = flatten(&unflatten(header).expect("a valid header"));
        let mut out = self.noise.noise(room);
        let (mut length, mut back) = (Place::noise(&mut self.noise), Place::noise(&mut self.noise));
        let aside = &mut self.noise.aside();
        let mut run = || {
            let mut place = Place::holding(*header, aside);
            let written = self.calls.write_header(&mut place, &mut out, &mut length)?;
            let mut frame = Buffer::holding(out.get(..length.now.value).unwrap_or_default(), aside);
            let read = self.calls.read_header(&mut frame, &mut back)?;
            if (written, read) != (0, 0) {
                return Err(format!("numbers: got {written} then {read}, want 0 twice"));
            }
            if self.calls.payload(&mut frame)?.length != 0 {
                return Err("payload of a written header is not empty".to_string());
            }
            back.holds(want)
        };
        run().map_err(|what| format!("{what}\nheader: {header:?}\nwritten: {}", hex(&out)))
    }

    /// Read, then written again: the frame's bytes before its payload.
    pub fn read_write(&mut self, frame: &[u8]) -> Outcome {
        self.count();
        let (mut header, mut length) = (Place::noise(&mut self.noise), Place::noise(&mut self.noise));
        let mut lent = Buffer::holding(frame, &mut self.noise.aside());
        let mut run = || {
            let read = self.calls.read_header(&mut lent, &mut header)?;
            let before = frame.len() - self.calls.payload(&mut lent)?.length.min(frame.len());
            let mut out = self.noise.noise(before);
            let written = self.calls.write_header(&mut header, &mut out, &mut length)?;
            let length = length.now.value;
            if (read, written, length) == (0, 0, before) && out == frame[..before] {
                return Ok(());
            }
            let numbers = format!("read {read}, written {written}, length {length}");
            Err(format!("{numbers}, want 0, 0, {before}\nwritten: {}", hex(&out)))
        };
        run().map_err(|what| format!("{what}\nframe: {}", hex(frame)))
    }

    /// A frame without a payload and each read segment's position and handle, both the caller's and not
    /// the reference's: read in this order, and written again as the frame.
    pub fn in_wire_order(&mut self, frame: &[u8], want: &[(u32, u32)]) -> Outcome {
        self.count();
        let (mut header, mut length) = (Place::noise(&mut self.noise), Place::noise(&mut self.noise));
        let mut lent = Buffer::holding(frame, &mut self.noise.aside());
        let mut run = || {
            let read = self.calls.read_header(&mut lent, &mut header)?;
            same_number(read, 0).map_err(|what| format!("reading: {what}"))?;
            same_list(&header.now.value.reads, header.now.value.read_count, want)?;
            let mut out = vec![0x55; frame.len()];
            let written = self.calls.write_header(&mut header, &mut out, &mut length)?;
            same_number(written, 0).map_err(|what| format!("writing: {what}"))?;
            if out != frame || length.now.value != frame.len() {
                return Err(format!("written ({} bytes): {}", length.now.value, hex(&out)));
            }
            Ok(())
        };
        run().map_err(|what| format!("{what}\nframe: {}", hex(frame)))
    }
}

#[cfg(test)]
mod tests {
    use super::*;
    use crate::cases::header::full;
    use crate::plain::Plain;
    use eoswynnor::ffi::{ERROR_CHUNK, ERROR_VERSION};

    /// A full header, changed or in too little room, stands for one of the forms or for none.
    #[test]
    fn forms_of_full_headers() {
        let told = |room: usize, change: fn(&mut Header), form: &[&str]| {
            let mut check = Checker::new(Plain, 1);
            check.family("one check alone");
            let mut header = flatten(&full());
            change(&mut header);
            check.write(&header, room).unwrap();
            let lines = check.seen.lines().into_iter();
            let lines: Vec<String> =
                lines.filter(|line| line.contains("960") && !line.ends_with(": 0")).collect();
            assert_eq!(lines, form.iter().map(|form| format!("{form}: 1")).collect::<Vec<_>>());
        };
        told(960, |_| {}, &["header of 960 bytes written"]);
        told(961, |_| {}, &["header of 960 bytes written"]);
        told(960, |h| h.reply_count = 15, &[]);
        told(959, |_| {}, &["16 for a header of 960 bytes and room for 959"]);
        told(958, |_| {}, &[]);
        told(943, |h| h.reply_count = 15, &[]);
        told(0, |h| h.reads[15].position |= 1, &["9 for a header of 960 bytes"]);
        told(960, |h| (h.reads[0].position, h.reply_count) = (1, 15), &[]);
        told(960, |h| h.read_count = 17, &["7 where 960 bytes would be passed"]);
        told(960, |h| h.reply_present = 0, &[]);
        told(960, |h| (h.kind, h.read_count) = (ERROR_VERSION, 17), &["12 where 960 bytes would be passed"]);
        told(960, |h| h.kind = ERROR_VERSION, &[]);
        told(960, |h| h.kind = ERROR_CHUNK, &[]);
    }
}
