//! The reassembly of a call.

use crate::answer::{stored, unless_refused, Refusal};
use crate::ffi;
use crate::header::ReadSegment;
use crate::limits::MAX_READ_SEGMENTS;

/// A call in reassembly, in a buffer that it holds.
#[derive(Debug)]
pub struct Assembly<'a> {
    state: ffi::State,
    /// Those of the state, without its reserved words.
    reads: [ReadSegment; MAX_READ_SEGMENTS],
    out: &'a mut [u8],
}

impl<'a> Assembly<'a> {
    /// Starts the reassembly of a call in a buffer that holds its message, or [`MAX_MESSAGE`](crate::MAX_MESSAGE) bytes. Numbers 1 to 7 and
    /// 9 to 16.
    pub fn start(frame: &[u8], out: &'a mut [u8]) -> Result<Assembly<'a>, Refusal> {
        let state = stored::<ffi::State>(|state| unsafe {
            ffi::eos_start(frame.as_ptr(), frame.len(), out.as_mut_ptr(), out.len(), state)
        })?;
        Ok(Assembly { reads: state.reads.map(ReadSegment::from), state, out })
    }

    /// What is to be pulled, in this order: the frame's read list sorted by position, segments of one position in wire
    /// order. The list of a [`Header`](crate::Header) that was read may have another order.
    pub fn reads(&self) -> &[ReadSegment] {
        &self.reads[..self.state.read_count as usize]
    }

    /// The number of bytes taken so far.
    pub fn taken(&self) -> usize {
        self.state.taken
    }

    /// The number of bytes still to be pulled.
    pub fn remaining(&self) -> usize {
        self.reads().iter().map(|read| read.target.length as usize).sum::<usize>() - self.state.taken
    }

    /// Takes the next pulled bytes, in the order of [`Assembly::reads`] and cut as they come; answers how many goes it
    /// took to place them: the fewest runs that make the piece up, each of one segment and with no gap between its places
    /// in the message. At most [`MAX_GOES`](crate::MAX_GOES), and 0 for an empty piece. A refused piece changes nothing and takes none.
    /// Number 18.
    pub fn take(&mut self, piece: &[u8]) -> Result<u32, Refusal> {
        let Assembly { state, out, .. } = self;
        let answer =
            unsafe { ffi::eos_take_piece(state, piece.as_ptr(), piece.len(), out.as_mut_ptr(), out.len()) };
        unless_refused(answer.number, answer.goes)
    }

    /// The message, once all bytes are in. Number 19.
    pub fn message(&self) -> Result<&[u8], Refusal> {
        let length = stored(|length| unsafe {
            ffi::eos_message(&self.state, self.out.as_ptr(), self.out.len(), length)
        })?;
        Ok(&self.out[..length])
    }

    /// The message for as long as the buffer was lent, once all bytes are in; else the assembly back, to go on with.
    // There is no heap to put the assembly on.
    #[allow(clippy::result_large_err)]
    pub fn finish(self) -> Result<&'a [u8], (Refusal, Assembly<'a>)> {
        match self.message().map(<[u8]>::len) {
            Ok(length) => Ok(&self.out[..length]),
            Err(refusal) => Err((refusal, self)),
        }
    }
}
