//! The transport header as the C header has it, and the inline payload.

pub use crate::ffi::Segment;

use crate::answer::{stored, Refusal};
use crate::ffi;

/// A segment to be pulled, and where in the message its bytes go.
#[derive(Clone, Copy, Debug, Default, PartialEq, Eq)]
pub struct ReadSegment {
    pub position: u32,
    pub target: Segment,
}

impl From<ReadSegment> for ffi::ReadSegment {
    fn from(read: ReadSegment) -> ffi::ReadSegment {
        ffi::ReadSegment { position: read.position, reserved: 0, target: read.target }
    }
}

impl From<ffi::ReadSegment> for ReadSegment {
    fn from(read: ffi::ReadSegment) -> ReadSegment {
        ReadSegment { position: read.position, target: read.target }
    }
}

impl ffi::Header {
    /// Reads the header of a frame. Numbers 1 to 7 and 9 to 11.
    pub fn read(frame: &[u8]) -> Result<ffi::Header, Refusal> {
        stored(|header| unsafe { ffi::eos_read_header(frame.as_ptr(), frame.len(), header) })
    }

    /// Writes the header to the front of a buffer; answers its length. [`MAX_HEADER`](crate::MAX_HEADER) bytes suffice. An
    /// inline payload goes right behind it. Numbers 20, 12, 7, 9, 16.
    pub fn write(&self, out: &mut [u8]) -> Result<usize, Refusal> {
        stored(|length| unsafe { ffi::eos_write_header(self, out.as_mut_ptr(), out.len(), length) })
    }

    /// Compares this header, which was sent, with the reply's header: the bytes that the reply says were put into each
    /// chunk. Numbers 20, 7, 26.
    pub fn returned(&self, reply: &ffi::Header) -> Result<ffi::Landed, Refusal> {
        stored(|landed| unsafe { ffi::eos_returned(self, reply, landed) })
    }
}

/// The inline payload of a frame; empty where [`ffi::Header::read`] refuses.
pub fn payload(frame: &[u8]) -> &[u8] {
    let part = unsafe { ffi::eos_payload(frame.as_ptr(), frame.len()) };
    &frame[part.offset..][..part.length]
}
