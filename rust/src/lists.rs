//! The transport header with its lists.

use crate::answer::Refusal;
use crate::ffi;
use crate::header::{ReadSegment, Segment};
use alloc::vec::Vec;

#[derive(Clone, Copy, Debug, PartialEq, Eq)]
pub enum Kind {
    Msg,
    Nomsg,
    ErrorVersion { low: u32, high: u32 },
    ErrorChunk,
}

/// A transport header with its lists.
#[derive(Clone, Debug, PartialEq, Eq)]
pub struct Header {
    pub xid: u32,
    pub credit: u32,
    pub kind: Kind,
    /// In wire order, which may be any order of position.
    pub reads: Vec<ReadSegment>,
    pub writes: Vec<Vec<Segment>>,
    pub reply: Option<Vec<Segment>>,
}

/// How many bytes a reply says were put into each chunk: the first ones of the chunk, its segments joined.
#[derive(Clone, Debug, PartialEq, Eq)]
pub struct Landed {
    /// One number for each write chunk that was sent.
    pub writes: Vec<u64>,
    /// 0 where no reply chunk came back.
    pub reply: u64,
}

impl Header {
    /// Reads the header of a frame. Numbers 1 to 7 and 9 to 11.
    pub fn read(frame: &[u8]) -> Result<Header, Refusal> {
        let flat = ffi::Header::read(frame)?;
        let kind = match flat.kind {
            ffi::MSG => Kind::Msg,
            ffi::NOMSG => Kind::Nomsg,
            ffi::ERROR_VERSION => Kind::ErrorVersion { low: flat.low, high: flat.high },
            _ => Kind::ErrorChunk,
        };
        let mut places = flat.writes.iter().copied();
        let counts = &flat.write_counts[..flat.write_chunks as usize];
        Ok(Header {
            xid: flat.xid,
            credit: flat.credit,
            kind,
            reads: flat.reads[..flat.read_count as usize].iter().map(|&read| read.into()).collect(),
            writes: counts.iter().map(|&count| places.by_ref().take(count as usize).collect()).collect(),
            reply: (flat.reply_present == 1).then(|| flat.reply[..flat.reply_count as usize].to_vec()),
        })
    }

    /// Writes the header to the front of a buffer; answers its length. [`MAX_HEADER`](crate::MAX_HEADER) bytes suffice. An
    /// inline payload goes right behind it. Numbers 12, 7, 9, 16.
    pub fn write(&self, out: &mut [u8]) -> Result<usize, Refusal> {
        self.flat().write(out)
    }

    /// Compares this header, which was sent, with the reply's header. Numbers 7, 26.
    pub fn returned(&self, reply: &Header) -> Result<Landed, Refusal> {
        let landed = self.flat().returned(&reply.flat())?;
        Ok(Landed { writes: landed.writes[..self.writes.len()].to_vec(), reply: landed.reply })
    }

    /// Counts are handed on as they are, so that the library judges a list that is too long; its entries are not looked at.
    fn flat(&self) -> ffi::Header {
        let (kind, low, high) = match self.kind {
            Kind::Msg => (ffi::MSG, 0, 0),
            Kind::Nomsg => (ffi::NOMSG, 0, 0),
            Kind::ErrorVersion { low, high } => (ffi::ERROR_VERSION, low, high),
            Kind::ErrorChunk => (ffi::ERROR_CHUNK, 0, 0),
        };
        let reply = self.reply.as_deref();
        let mut flat = ffi::Header {
            read_count: count(self.reads.len()),
            write_chunks: count(self.writes.len()),
            reply_present: u32::from(reply.is_some()),
            reply_count: count(reply.unwrap_or_default().len()),
            kind,
            low,
            high,
            xid: self.xid,
            credit: self.credit,
            ..ffi::Header::default()
        };
        flat.reads.iter_mut().zip(&self.reads).for_each(|(place, read)| *place = (*read).into());
        flat.writes
            .iter_mut()
            .zip(self.writes.iter().flatten())
            .for_each(|(place, segment)| *place = *segment);
        flat.reply.iter_mut().zip(reply.unwrap_or_default()).for_each(|(place, segment)| *place = *segment);
        flat.write_counts.iter_mut().zip(&self.writes).for_each(|(place, chunk)| *place = count(chunk.len()));
        flat
    }
}

fn count(length: usize) -> u32 {
    u32::try_from(length).unwrap_or(u32::MAX)
}
