//! Reading and writing a header.

use super::put_front;

pub const MAX_READS: usize = 16;
pub const MAX_WRITE_CHUNKS: usize = 4;
pub const MAX_WRITE_SEGMENTS: usize = 16;
pub const MAX_REPLY_SEGMENTS: usize = 16;
/// The longest header that the limits allow: a buffer of as many bytes suffices for each.
pub const MAX_HEADER: usize = 960;

#[derive(Clone, Copy, Debug, Default, PartialEq, Eq)]
pub struct Segment {
    pub handle: u32,
    pub length: u32,
    pub offset: u64,
}

#[derive(Clone, Copy, Debug, Default, PartialEq, Eq)]
pub struct ReadSegment {
    pub position: u32,
    pub target: Segment,
}

#[derive(Clone, Copy, Debug, PartialEq, Eq)]
pub enum Fault {
    Version { low: u32, high: u32 },
    Chunk,
}

#[derive(Clone, Copy, Debug, Default, PartialEq, Eq)]
pub enum Kind {
    #[default]
    Msg,
    Nomsg,
    Error(Fault),
}

/// Not an Option: a header to be written may hold segments in an absent reply chunk.
#[derive(Clone, Debug, Default, PartialEq, Eq)]
pub struct Reply {
    pub present: bool,
    pub segments: Vec<Segment>,
}

#[derive(Clone, Debug, Default, PartialEq, Eq)]
pub struct Header {
    pub xid: u32,
    pub credit: u32,
    pub kind: Kind,
    pub reads: Vec<ReadSegment>,
    pub writes: Vec<Vec<Segment>>,
    pub reply: Reply,
}

struct Cursor<'a> {
    rest: &'a [u8],
}

impl Cursor<'_> {
    fn word(&mut self) -> Result<u32, u32> {
        if self.rest.len() < 4 {
            return Err(5);
        }
        let (word, rest) = self.rest.split_at(4);
        self.rest = rest;
        Ok(u32::from_be_bytes([word[0], word[1], word[2], word[3]]))
    }

    fn marker(&mut self) -> Result<bool, u32> {
        match self.word()? {
            0 => Ok(false),
            1 => Ok(true),
            _ => Err(6),
        }
    }

    fn segment(&mut self) -> Result<Segment, u32> {
        let handle = self.word()?;
        let length = self.word()?;
        let (upper, lower) = (self.word()?, self.word()?);
        Ok(Segment { handle, length, offset: u64::from(upper) << 32 | u64::from(lower) })
    }

    fn segments(&mut self, count: u32) -> Result<Vec<Segment>, u32> {
        (0..count).map(|_| self.segment()).collect()
    }

    fn read_list(&mut self) -> Result<Vec<ReadSegment>, u32> {
        let mut list = Vec::new();
        while self.marker()? {
            if list.len() == MAX_READS {
                return Err(7);
            }
            let entry = ReadSegment { position: self.word()?, target: self.segment()? };
            if entry.position % 4 != 0 {
                return Err(9);
            }
            list.push(entry);
        }
        Ok(list)
    }

    fn write_list(&mut self) -> Result<Vec<Vec<Segment>>, u32> {
        let mut list = Vec::new();
        let mut total = 0u64;
        while self.marker()? {
            if list.len() == MAX_WRITE_CHUNKS {
                return Err(7);
            }
            let count = self.word()?;
            total += u64::from(count);
            if total > MAX_WRITE_SEGMENTS as u64 {
                return Err(7);
            }
            list.push(self.segments(count)?);
        }
        Ok(list)
    }

    fn reply_chunk(&mut self) -> Result<Reply, u32> {
        if !self.marker()? {
            return Ok(Reply::default());
        }
        let count = self.word()?;
        if count > MAX_REPLY_SEGMENTS as u32 {
            return Err(7);
        }
        Ok(Reply { present: true, segments: self.segments(count)? })
    }

    fn fault(&mut self) -> Result<Fault, u32> {
        match self.word()? {
            1 => Ok(Fault::Version { low: self.word()?, high: self.word()? }),
            2 => Ok(Fault::Chunk),
            _ => Err(10),
        }
    }
}

/// The header and the inline payload, or the number of the refusal.
pub fn read(frame: &[u8]) -> Result<(Header, &[u8]), u32> {
    if frame.len() < 16 {
        return Err(1);
    }
    let mut cursor = Cursor { rest: frame };
    let xid = cursor.word()?;
    let version = cursor.word()?;
    let credit = cursor.word()?;
    let procedure = cursor.word()?;
    if version != 1 {
        return Err(2);
    }
    let mut header = Header { xid, credit, ..Header::default() };
    match procedure {
        0 | 1 => {
            header.kind = if procedure == 0 { Kind::Msg } else { Kind::Nomsg };
            header.reads = cursor.read_list()?;
            header.writes = cursor.write_list()?;
            header.reply = cursor.reply_chunk()?;
        }
        3 => return Err(4),
        4 => header.kind = Kind::Error(cursor.fault()?),
        _ => return Err(3),
    }
    if header.kind == Kind::Msg {
        return Ok((header, cursor.rest));
    }
    if !cursor.rest.is_empty() {
        return Err(11);
    }
    Ok((header, &[]))
}

fn put(bytes: &mut Vec<u8>, word: u32) {
    bytes.extend_from_slice(&word.to_be_bytes());
}

fn put_segment(bytes: &mut Vec<u8>, segment: &Segment) {
    put(bytes, segment.handle);
    put(bytes, segment.length);
    bytes.extend_from_slice(&segment.offset.to_be_bytes());
}

fn put_chunk(bytes: &mut Vec<u8>, segments: &[Segment]) {
    put(bytes, 1);
    put(bytes, segments.len() as u32);
    for segment in segments {
        put_segment(bytes, segment);
    }
}

/// The bytes of a header with no check at all, so that faulty frames can be built too.
pub fn encode(header: &Header) -> Vec<u8> {
    let rest = match header.kind {
        Kind::Msg => vec![0],
        Kind::Nomsg => vec![1],
        Kind::Error(Fault::Version { low, high }) => vec![4, 1, low, high],
        Kind::Error(Fault::Chunk) => vec![4, 2],
    };
    let mut bytes = Vec::new();
    for word in [header.xid, 1, header.credit].into_iter().chain(rest) {
        put(&mut bytes, word);
    }
    if matches!(header.kind, Kind::Error(_)) {
        return bytes;
    }
    for entry in &header.reads {
        put(&mut bytes, 1);
        put(&mut bytes, entry.position);
        put_segment(&mut bytes, &entry.target);
    }
    put(&mut bytes, 0);
    for chunk in &header.writes {
        put_chunk(&mut bytes, chunk);
    }
    put(&mut bytes, 0);
    if header.reply.present {
        put_chunk(&mut bytes, &header.reply.segments);
    } else {
        put(&mut bytes, 0);
    }
    bytes
}

/// The writer's 7.
pub fn over_limit(header: &Header) -> bool {
    let total: usize = header.writes.iter().map(Vec::len).sum();
    header.reads.len() > MAX_READS
        || header.writes.len() > MAX_WRITE_CHUNKS
        || total > MAX_WRITE_SEGMENTS
        || header.reply.segments.len() > MAX_REPLY_SEGMENTS
        || (!header.reply.present && !header.reply.segments.is_empty())
}

/// The number a header to be written gets before the buffer is looked at.
fn refusal(header: &Header) -> Option<u32> {
    let any_entry = !header.reads.is_empty() || !header.writes.is_empty();
    if matches!(header.kind, Kind::Error(_)) && (any_entry || header.reply.present) {
        return Some(12);
    }
    if over_limit(header) {
        return Some(7);
    }
    // In any order: document 02, order 3.
    if header.reads.iter().any(|entry| entry.position % 4 != 0) {
        return Some(9);
    }
    None
}

/// The length written, or the number of the refusal, which leaves `out` alone.
pub fn write(header: &Header, out: &mut [u8]) -> Result<usize, u32> {
    // No length is checked, so 21 is never given: document 02, order 7.
    match refusal(header) {
        Some(number) => Err(number),
        None => put_front(&encode(header), out),
    }
}

#[cfg(test)]
mod tests {
    use super::*;
    use crate::cases::header::{c2, c2_with, full};

    #[test]
    fn worked_examples() {
        assert_eq!(read(&[]), Err(1)); // C1
        assert_eq!(read(&c2_with(1, 1)), Ok((c2(), &[][..])));
        assert_eq!(read(&c2_with(1, 2)), Err(2)); // C3
        assert_eq!(read(&c2_with(1, 1)[..27]), Err(5)); // C4
        assert_eq!(read(&c2_with(4, 2)), Err(6)); // C5
        let (full, mut out) = (full(), [7; 1000]);
        assert_eq!(write(&full, &mut out), Ok(960)); // C13
        assert_eq!(read(&out[..960]), Ok((full.clone(), &[][..])));
        assert_eq!(read(&out), Ok((full, &[7; 40][..])));
    }

    /// 8 then 4, with 9 and 7 still met from left to right.
    #[test]
    fn lists_in_any_order() {
        let at = |position| ReadSegment { position, ..ReadSegment::default() };
        let with = |list: &[u32]| Header { reads: list.iter().map(|&p| at(p)).collect(), ..c2() };
        let mut out = [7; MAX_HEADER];
        for list in [&[8, 4][..], &[8, 4, 8], &[4, 4], &[u32::MAX - 3, 0], &[60; 16]] {
            let length = write(&with(list), &mut out).unwrap();
            assert_eq!((length, read(&out[..length])), (28 + 24 * list.len(), Ok((with(list), &[][..]))));
        }
        let seventeen = |at: usize| {
            let mut list = [8, 4, 8, 0, 4, 12, 4, 8, 8, 4, 0, 0, 8, 4, 4, 8, 4];
            list[at] += 2;
            read(&encode(&with(&list))).err()
        };
        assert_eq!([0, 1, 15, 16].map(seventeen), [9, 9, 9, 7].map(Some));
        assert_eq!(read(&encode(&with(&[8, 4, 2, 3]))), Err(9));
        assert_eq!(write(&with(&[8, 4, 2, 3]), &mut out), Err(9));
    }

    #[test]
    fn refusals_of_writing() {
        let (mut header, mut out) = (full(), [7; MAX_HEADER]);
        assert_eq!(write(&header, &mut out[..959]), Err(16));
        header.reads[2].position = 6;
        header.reads[3].position = 0;
        assert_eq!(write(&header, &mut out), Err(9));
        header.reply.present = false;
        assert_eq!(write(&header, &mut out), Err(7));
        header.kind = Kind::Error(Fault::Chunk);
        assert_eq!(write(&header, &mut out), Err(12));
        assert_eq!(out, [7; MAX_HEADER]);
    }

    /// A header of so many entries, all of them zero.
    fn counted(kind: Kind, reads: usize, counts: &[usize], reply: Option<usize>) -> Header {
        Header {
            kind,
            reads: vec![ReadSegment::default(); reads],
            writes: counts.iter().map(|&count| vec![Segment::default(); count]).collect(),
            reply: Reply { present: reply.is_some(), segments: vec![Segment::default(); reply.unwrap_or(0)] },
            ..c2()
        }
    }

    /// The length that a header of the limits has, into the least room and into one that suffices for each.
    fn length(header: &Header) -> usize {
        let length = encode(header).len();
        let mut out = [7; 960];
        assert_eq!(write(header, &mut out[..length - 1]), Err(16));
        assert_eq!(out, [7; 960]);
        assert_eq!(write(header, &mut out[..length]), Ok(length));
        assert_eq!(write(header, &mut out), Ok(length));
        assert_eq!(out[length..], vec![7; 960 - length]);
        length
    }

    /// Every number of entries within the limits, but that of a list of write chunks only its length and
    /// its total are told apart: 960 bytes are reached by all limits full, and next to it come 952.
    #[test]
    fn no_header_passes_960_bytes() {
        let replies = || [None].into_iter().chain((0..=16).map(Some));
        let totals = |chunks: usize| 0..=if chunks == 0 { 0 } else { 16 };
        let mut lengths = Vec::new();
        for (kind, reads) in
            [Kind::Msg, Kind::Nomsg].into_iter().flat_map(|kind| (0..=16).map(move |n| (kind, n)))
        {
            for (chunks, total) in (0..=4).flat_map(|chunks| totals(chunks).map(move |total| (chunks, total)))
            {
                let mut counts = vec![0; chunks];
                if let Some(last) = counts.last_mut() {
                    *last = total;
                }
                for reply in replies() {
                    let length = length(&counted(kind, reads, &counts, reply));
                    // Four fixed words, the ends of two lists and the reply's marker, and each entry's own.
                    let lists = 24 * reads + 8 * chunks + 16 * total;
                    assert_eq!(length, 28 + lists + reply.map_or(0, |count| 4 + 16 * count));
                    lengths.push((length, reads, chunks, total, reply));
                }
            }
        }
        assert_eq!(lengths.len(), 2 * 17 * (1 + 4 * 17) * 18);
        lengths.sort_unstable();
        assert_eq!(lengths.last().map(|longest| longest.0), Some(MAX_HEADER));
        // Once as MSG and once as NOMSG.
        let full = (960, 16, 4, 16, Some(16));
        assert_eq!(lengths[lengths.len() - 2..], [full; 2]);
        assert_eq!(lengths[lengths.len() - 4..lengths.len() - 2], [(952, 16, 3, 16, Some(16)); 2]);
        for (fault, bytes) in [(Fault::Version { low: 1, high: 1 }, 28), (Fault::Chunk, 20)] {
            assert_eq!(length(&counted(Kind::Error(fault), 0, &[], None)), bytes);
        }
    }

    /// Every spread of up to 16 segments over up to four chunks, all else full: 960 bytes where there are
    /// four chunks and 16 segments, which four chunks can hold in 969 ways.
    #[test]
    fn spreads_of_960_bytes() {
        let mut spreads = vec![vec![]];
        for chunks in 0..4 {
            let longer: Vec<Vec<usize>> =
                spreads.iter().filter(|counts| counts.len() == chunks).cloned().collect();
            for counts in longer {
                let left = 16 - counts.iter().sum::<usize>();
                spreads.extend((0..=left).map(|count| [&counts[..], &[count]].concat()));
            }
        }
        assert_eq!(spreads.len(), 1 + 17 + 153 + 969 + 4845);
        for kind in [Kind::Msg, Kind::Nomsg] {
            let full = |counts: &&Vec<usize>| length(&counted(kind, 16, counts, Some(16))) == 960;
            let full: Vec<_> = spreads.iter().filter(full).collect();
            assert!(full.iter().all(|counts| counts.len() == 4 && counts.iter().sum::<usize>() == 16));
            assert_eq!(full.len(), 969);
        }
    }

    /// A count over its limit gets 7 however long the header would be, from all limits full on and alone.
    #[test]
    fn over_a_limit_at_any_length() {
        let (mut long, mut out) = (0, [7; 2048]);
        let mut refused = |header: &Header| {
            long += usize::from(encode(header).len() > 1024);
            [0, 960, 2048].iter().for_each(|&room| assert_eq!(write(header, &mut out[..room]), Err(7)));
        };
        for kind in [Kind::Msg, Kind::Nomsg] {
            for count in 17..40 {
                refused(&counted(kind, count, &[4; 4], Some(16)));
                refused(&counted(kind, count, &[], None));
                refused(&counted(kind, 16, &[4, 4, 4, count - 12], Some(16)));
                refused(&counted(kind, 0, &[count], None));
                refused(&counted(kind, 16, &[4; 4], Some(count)));
                refused(&counted(kind, 0, &[], Some(count)));
            }
            for count in 5..40 {
                refused(&counted(kind, 16, &[vec![4; 4], vec![0; count - 4]].concat(), Some(16)));
                refused(&counted(kind, 0, &vec![0; count], None));
            }
        }
        // Past 1,024 from the 19th read segment, the 21st of a chunk, written or of the reply, and the 13th
        // chunk on.
        assert_eq!(long, 2 * (21 + 19 + 19 + 27));
        assert_eq!(out, [7; 2048]);
    }
}
