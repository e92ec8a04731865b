//! Frames that several subjects start from.

use eoswynnor::{Header, Kind, ReadSegment, Segment, MAX_HEADER};

pub fn written(header: &Header) -> Vec<u8> {
    let mut frame = vec![0; MAX_HEADER];
    let length = header.write(&mut frame).unwrap();
    frame.truncate(length);
    frame
}

/// A call with segments of these positions and lengths, one behind the other in one memory, and bytes inline.
pub fn call(kind: Kind, segments: &[(u32, u32)], inline: &[u8]) -> Vec<u8> {
    let mut offset = 0;
    let read = |&(position, length)| {
        let target = Segment { handle: 1, length, offset };
        offset += u64::from(length);
        ReadSegment { position, target }
    };
    call_with(kind, segments.iter().map(read).collect(), inline)
}

/// A call with these read segments and bytes inline.
pub fn call_with(kind: Kind, reads: Vec<ReadSegment>, inline: &[u8]) -> Vec<u8> {
    let header = Header { xid: 0x1234_5678, credit: 9, kind, reads, writes: vec![], reply: None };
    [written(&header), inline.to_vec()].concat()
}

/// A segment of 5 bytes at 8 over 12 bytes inline: worked example C6.
pub fn c6() -> Vec<u8> {
    call(Kind::Msg, &[(8, 5)], &[1, 2, 3, 4, 5, 6, 7, 8, 9, 10, 11, 12])
}
