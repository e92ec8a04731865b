//! The program `replay`: byte by byte, with no line kept but its frame.

use super::Plain;
use crate::calls::{HeaderCalls, ReplayCalls, ReplyCalls, Way, NOT_STOPPED};
use crate::words::Words;
use eoswynnor::ffi;
use std::io::Write;

struct Replay {
    frame: [u8; 4096],
    /// The digits of the line so far.
    digits: usize,
    begun: bool,
    bad: bool,
    lines: u32,
    accepted: u32,
    refused: u32,
    bads: u32,
    payload: u64,
    report: Vec<u8>,
}

impl Replay {
    fn new() -> Self {
        Replay {
            frame: [0; 4096],
            digits: 0,
            begun: false,
            bad: false,
            lines: 0,
            accepted: 0,
            refused: 0,
            bads: 0,
            payload: 0,
            report: b"frame answer payload reply\n".to_vec(),
        }
    }

    /// Whether it goes on.
    fn byte(&mut self, byte: u8) -> bool {
        if !self.begun {
            if self.lines == 1_000_000 {
                self.report.extend_from_slice(b"too long\n");
                return false;
            }
            self.lines += 1;
            self.begun = true;
        }
        match (byte, (byte as char).to_digit(16)) {
            (b'\n', _) => self.end_line(),
            (_, Some(digit)) if self.digits < 8192 => {
                let place = &mut self.frame[self.digits / 2];
                *place = *place << 4 | digit as u8;
                self.digits += 1;
            }
            _ => self.bad = true,
        }
        true
    }

    fn end_line(&mut self) {
        if self.bad || self.digits % 2 == 1 {
            let number = self.lines;
            self.bads += 1;
            self.put(format_args!("{number} bad\n"));
        } else {
            self.judge();
        }
        (self.digits, self.begun, self.bad) = (0, false, false);
    }

    fn judge(&mut self) {
        let (number, frame) = (self.lines, &mut self.frame[..self.digits / 2]);
        let answer = Plain.read_header(frame, &mut { ffi::Header::ZERO });
        let payload = Plain.payload(frame).length;
        let mut length = 0;
        Plain.error_reply(frame, answer, 32, &mut [0; 28], &mut length);
        let reply = ["none", "chunk", "vers"][length.div_ceil(20)];
        if answer == 0 {
            self.accepted += 1;
            self.payload += payload as u64;
        } else {
            self.refused += 1;
        }
        self.put(format_args!("{number} {answer} {payload} {reply}\n"));
    }

    fn put(&mut self, text: std::fmt::Arguments) {
        self.report.write_fmt(text).expect("a vector takes all");
    }

    fn end(&mut self) {
        if self.begun {
            self.end_line();
        }
        let Replay { accepted, refused, bads, payload, .. } = *self;
        self.put(format_args!("accepted {accepted} refused {refused} bad {bads} payload {payload}\n"));
    }
}

impl ReplayCalls for Plain {
    fn replay(&self, blocks: &[&[u8]], way: Way) -> Result<Vec<u8>, String> {
        let mut replay = Replay::new();
        if blocks.iter().all(|block| block.iter().all(|&byte| replay.byte(byte))) {
            if way == Way::Held {
                return Err(NOT_STOPPED.to_string());
            }
            replay.end();
        }
        Ok(replay.report)
    }
}
