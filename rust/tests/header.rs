//! Headers: lists to C structs and back in wire order, and the refusals of lists that are too long.

mod common;

use common::{c6, written};
use eoswynnor::{ffi, payload, Header, Kind, ReadSegment, Refusal, Segment, MAX_HEADER};

fn segment(n: u32) -> Segment {
    Segment { handle: n, length: n + 1000, offset: u64::from(n) << 33 }
}

fn full() -> Header {
    Header {
        xid: 0x1234_5678,
        credit: 9,
        kind: Kind::Nomsg,
        reads: (0..16).map(|n| ReadSegment { position: 4 * n, target: segment(n) }).collect(),
        writes: [0..3, 3..3, 3..11, 11..16].map(|range| range.map(segment).collect()).to_vec(),
        reply: Some((50..66).map(segment).collect()),
    }
}

#[test]
fn headers_read_back() {
    let empty = Header { kind: Kind::Msg, reads: vec![], writes: vec![], reply: None, ..full() };
    let version = Header { kind: Kind::ErrorVersion { low: 5, high: 6 }, ..empty.clone() };
    let chunk = Header { kind: Kind::ErrorChunk, ..empty.clone() };
    let replying = Header { reply: Some(vec![]), ..empty.clone() };
    for header in [full(), empty, version, chunk, replying] {
        assert_eq!(Header::read(&written(&header)).as_ref(), Ok(&header));
    }
    assert_eq!(payload(&c6()), (1..=12).collect::<Vec<u8>>());
}

#[test]
fn the_longest_header_fills_its_room() {
    let mut room = [0; MAX_HEADER];
    assert_eq!(full().write(&mut room[..959]), Err(Refusal(16)));
    assert_eq!(room, [0; MAX_HEADER]);
    assert_eq!((full().write(&mut room), MAX_HEADER), (Ok(960), 960));
    assert_eq!(Header::read(&room), Ok(full()));
}

/// The bytes of a MSG frame with empty read segments at these positions.
fn frame_of(positions: &[u32]) -> Vec<u8> {
    let entry = |(n, &position)| [1, position, n, 0, 0, 0];
    let entries = (0..).zip(positions).flat_map(entry);
    [0x2a, 1, 0x20, 0].into_iter().chain(entries).chain([0; 3]).flat_map(u32::to_be_bytes).collect()
}

#[test]
fn a_list_keeps_wire_order() {
    let sixteen: Vec<u32> = (0..16).rev().map(|n| 4 * n).collect();
    for positions in [&[8, 4][..], &[8, 4, 8], &[4, 4, 0], &sixteen] {
        let frame = frame_of(positions);
        let header = Header::read(&frame).unwrap();
        let reads = header.reads.iter().map(|read| (read.position, read.target.handle));
        assert!(reads.eq(positions.iter().copied().zip(0..)), "{positions:?}");
        assert_eq!(written(&header), frame, "{positions:?}");
    }
}

#[test]
fn positions_are_multiples_of_4_in_any_order() {
    let read = |positions: &[u32]| Header::read(&frame_of(positions)).map(|header| header.reads.len());
    let mut seventeen = [0; 17];
    assert_eq!(read(&seventeen[..16]), Ok(16));
    assert_eq!(read(&[8, 6]), Err(Refusal(9)), "below the one before, too");
    assert_eq!(read(&[8, 4, 6]), Err(Refusal(9)));
    seventeen[16] = 2;
    assert_eq!(read(&seventeen), Err(Refusal(7)), "a seventeenth, unaligned");
    seventeen[15] = 2;
    assert_eq!(read(&seventeen), Err(Refusal(9)), "the sixteenth comes first");

    let mut header = Header::read(&frame_of(&[8, 4])).unwrap();
    assert_eq!(header.write(&mut [0; 75]), Err(Refusal(16)));
    header.reads[1].position = 6;
    assert_eq!(header.write(&mut [0; 75]), Err(Refusal(9)));
}

#[test]
fn lists_over_a_limit_are_refused() {
    let mut room = [0; MAX_HEADER];
    let mut header = full();
    header.reads.push(header.reads[15]);
    assert_eq!(header.write(&mut room), Err(Refusal(7)));
    let mut header = full();
    header.writes[1].push(segment(0));
    assert_eq!(header.write(&mut room), Err(Refusal(7)));
    let mut header = full();
    header.writes = vec![vec![]; 5];
    assert_eq!(header.write(&mut room), Err(Refusal(7)));
    let mut header = full();
    header.reply = Some(vec![segment(0); 17]);
    assert_eq!(header.write(&mut room), Err(Refusal(7)));
    assert_eq!(room, [0; MAX_HEADER]);
}

/// The struct of the C header has the same calls, and needs no heap.
#[test]
fn the_flat_header_is_read_and_written() {
    let frame = written(&full());
    let flat = ffi::Header::read(&frame).unwrap();
    assert_eq!(
        (flat.xid, flat.kind, flat.read_count, flat.write_counts),
        (0x1234_5678, ffi::NOMSG, 16, [3, 0, 8, 5])
    );
    let mut room = [0; MAX_HEADER];
    assert_eq!(flat.write(&mut room), Ok(frame.len()));
    assert_eq!(room[..frame.len()], frame);
    assert_eq!(flat.write(&mut room[..1]), Err(Refusal::BUFFER_SHORT));
    assert_eq!(ffi::Header { kind: 4, ..flat }.write(&mut room), Err(Refusal::BAD_ARGUMENT));
    assert_eq!(ffi::Header::read(&frame[..15]), Err(Refusal::SHORT_FRAME));
    // A reply to it: no read segments, and as much in each chunk as there is room for.
    let reply = ffi::Header { read_count: 0, ..flat };
    let sum = |segments: &[Segment]| segments.iter().map(|segment| u64::from(segment.length)).sum::<u64>();
    let writes = [sum(&flat.writes[..3]), 0, sum(&flat.writes[3..11]), sum(&flat.writes[11..])];
    assert_eq!(flat.returned(&reply), Ok(ffi::Landed { writes, reply: sum(&flat.reply) }));
    assert_eq!(flat.returned(&flat), Err(Refusal::REPLY_MISMATCH));
}
