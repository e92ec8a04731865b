//! The reassembly: the state and the buffer that an assembly keeps, the order of its list, and the goes of its pieces.

mod common;

use common::{c6, call, call_with};
use eoswynnor::{ffi, Assembly, Header, Kind, ReadSegment, Refusal, Segment, MAX_GOES};

const MESSAGE: [u8; 20] = [1, 2, 3, 4, 5, 6, 7, 8, 0xa1, 0xa2, 0xa3, 0xa4, 0xa5, 0, 0, 0, 9, 10, 11, 12];

#[test]
fn an_assembly_goes_on_after_a_refusal() {
    let mut out = [0xee; 21];
    let mut assembly = Assembly::start(&c6(), &mut out).unwrap();
    assert_eq!(assembly.take(&[0; 6]), Err(Refusal(18)));
    assert_eq!(assembly.take(&[0xa1, 0xa2]), Ok(1));
    assert_eq!(assembly.message(), Err(Refusal(19)));
    assert_eq!((assembly.taken(), assembly.reads()[0].target.length), (2, 5));
    assert_eq!(assembly.take(&[]), Ok(0));
    assert_eq!(assembly.take(&[0xa3, 0xa4, 0xa5]), Ok(1));
    assert_eq!(assembly.message(), Ok(&MESSAGE[..]));
    assert_eq!(out[20], 0xee);
    assert_eq!(Assembly::start(&c6(), &mut out[..19]).err(), Some(Refusal(16)));
}

#[test]
fn a_message_outlives_its_assembly() {
    fn received<'a>(frame: &[u8], buffer: &'a mut [u8]) -> &'a [u8] {
        let mut assembly = Assembly::start(frame, buffer).unwrap();
        assert_eq!(assembly.remaining(), 5);
        assembly.take(&[0xa1, 0xa2]).unwrap();
        assert_eq!(assembly.remaining(), 3);
        let (refusal, mut assembly) = assembly.finish().unwrap_err();
        assert_eq!(refusal, Refusal(19));
        assembly.take(&[0xa3, 0xa4, 0xa5]).unwrap();
        assembly.finish().unwrap()
    }
    let mut buffer = [0xee; 32];
    assert_eq!(received(&c6(), &mut buffer), MESSAGE);
}

/// The first bytes of the client's memory under a handle: 01, 02 and so on, a1, a2 and so on.
fn memory(handle: u32, length: u32) -> Vec<u8> {
    (1..=length).map(|n| (16 * handle + n) as u8).collect()
}

/// A call by position, handle and length of its segments as they come on the wire; MSG has 01 to 0c inline.
fn wire(kind: Kind, segments: &[(u32, u32, u32)]) -> Vec<u8> {
    let read = |&(position, handle, length)| ReadSegment {
        position,
        target: Segment { handle, length, offset: 1 << 40 },
    };
    let inline = if kind == Kind::Msg { memory(0, 12) } else { vec![] };
    call_with(kind, segments.iter().map(read).collect(), &inline)
}

/// The handles in the order in which they are to be pulled, and the message when they are.
fn pulled(frame: &[u8]) -> (Vec<u32>, Vec<u8>) {
    let mut out = [0xee; 76];
    let mut assembly = Assembly::start(frame, &mut out).unwrap();
    let reads = assembly.reads().to_vec();
    assert!(reads.is_sorted_by_key(|read| read.position));
    for Segment { handle, length, .. } in reads.iter().map(|read| read.target) {
        assembly.take(&memory(handle, length)).unwrap();
    }
    let message = assembly.message().unwrap().to_vec();
    (reads.iter().map(|read| read.target.handle).collect(), message)
}

#[test]
fn a_start_sorts_by_position() {
    let frame = wire(Kind::Msg, &[(8, 0xa, 4), (4, 0xb, 4)]);
    let header = Header::read(&frame).unwrap();
    let mut out = [0xee; 20];
    let assembly = Assembly::start(&frame, &mut out).unwrap();
    assert_eq!(assembly.reads(), [header.reads[1], header.reads[0]]);
    let message = [1, 2, 3, 4, 0xb1, 0xb2, 0xb3, 0xb4, 0xa1, 0xa2, 0xa3, 0xa4, 5, 6, 7, 8, 9, 10, 11, 12];
    assert_eq!(pulled(&frame), (vec![0xb, 0xa], message.to_vec()));
}

#[test]
fn segments_of_one_position_keep_wire_order() {
    let message = [
        1, 2, 3, 4, 0xb1, 0xb2, 0xb3, 0xb4, 0xa1, 0xa2, 0xc1, 0xc2, 0xc3, 0, 0, 0, 5, 6, 7, 8, 9, 10, 11, 12,
    ];
    let apart = wire(Kind::Msg, &[(8, 0xa, 2), (4, 0xb, 4), (8, 0xc, 3)]);
    assert_eq!(pulled(&apart), (vec![0xb, 0xa, 0xc], message.to_vec()));
    let falling = wire(Kind::Msg, &[(8, 0xc, 2), (8, 0xb, 2), (8, 0xa, 1)]);
    let message = [1, 2, 3, 4, 5, 6, 7, 8, 0xc1, 0xc2, 0xb1, 0xb2, 0xa1, 0, 0, 0, 9, 10, 11, 12];
    assert_eq!(pulled(&falling), (vec![0xc, 0xb, 0xa], message.to_vec()), "handles do not count");
}

#[test]
fn the_base_is_pulled_first() {
    let last = wire(Kind::Nomsg, &[(8, 0xa, 5), (0, 0, 12)]);
    assert_eq!(pulled(&last), (vec![0, 0xa], MESSAGE.to_vec()), "C8 with its base last");
    let message = [1, 2, 3, 4, 5, 6, 7, 8, 0xa1, 0xa2, 0xa3, 0xa4, 0xa5, 0, 0, 0, 0xd1, 0xd2, 0xd3, 0xd4];
    let cut = wire(Kind::Nomsg, &[(0, 0, 8), (8, 0xa, 5), (0, 0xd, 4)]);
    assert_eq!(pulled(&cut), (vec![0, 0xd, 0xa], message.to_vec()), "a segment of the base last");
}

#[test]
fn sixteen_that_fall_are_turned_round() {
    let mut segments = [(0, 0, 12); 16];
    (1..16).for_each(|n| segments[n as usize] = (4 * n, n, 4));
    let sorted = pulled(&wire(Kind::Nomsg, &segments));
    segments.reverse();
    assert_eq!(pulled(&wire(Kind::Nomsg, &segments)), sorted);
    assert_eq!(sorted.0, Vec::from_iter(0..16));
}

#[test]
fn c7_exchanged_is_c7() {
    for position in [16, 20] {
        let (a, b) = ((8, 0xa, 5), (position, 0xb, 4));
        assert_eq!(pulled(&wire(Kind::Msg, &[b, a])), pulled(&wire(Kind::Msg, &[a, b])));
    }
    for position in [12, 24] {
        let frame = wire(Kind::Msg, &[(position, 0xb, 4), (8, 0xa, 5)]);
        assert_eq!(Assembly::start(&frame, &mut [0; 24]).err(), Some(Refusal(14)));
    }
}

/// An assembly keeps its state from being one that is not sorted.
#[test]
fn an_unsorted_state_is_refused_and_kept() {
    let frame = wire(Kind::Msg, &[(8, 0xa, 4), (4, 0xb, 4)]);
    let (mut out, mut state) = ([0xee; 20], ffi::State::default());
    assert_eq!(unsafe { ffi::eos_start(frame.as_ptr(), frame.len(), out.as_mut_ptr(), 20, &mut state) }, 0);
    state.reads.swap(0, 1);
    for taken in [0, 8] {
        state.taken = taken;
        let (was, buffer) = (state, out);
        for piece in [&[][..], &[7], &[7; 9]] {
            let answer =
                unsafe { ffi::eos_take_piece(&mut state, piece.as_ptr(), piece.len(), out.as_mut_ptr(), 20) };
            assert_eq!(answer, ffi::PieceAnswer { number: 17, goes: 0 });
        }
        let mut length = 99;
        assert_eq!(unsafe { ffi::eos_message(&state, out.as_ptr(), 20, &mut length) }, 17);
        assert_eq!((state, out, length), (was, buffer, 99));
    }
    // Sorted again, it is the state of the start with all bytes taken.
    state.reads.swap(0, 1);
    let mut length = 99;
    assert_eq!(unsafe { ffi::eos_message(&state, out.as_ptr(), 20, &mut length) }, 0);
    assert_eq!(length, 20);
}

/// The goes of pieces of these lengths, which are all bytes that are to be pulled.
fn goes(frame: &[u8], pieces: &[usize]) -> Vec<u32> {
    let mut out = [0xee; 124];
    let mut assembly = Assembly::start(frame, &mut out).unwrap();
    let goes = pieces.iter().map(|&length| assembly.take(&vec![7; length]).unwrap()).collect();
    assert_eq!(assembly.remaining(), 0);
    goes
}

/// Over 12 bytes inline.
fn msg(segments: &[(u32, u32)], pieces: &[usize]) -> Vec<u32> {
    goes(&call(Kind::Msg, segments, &[7; 12]), pieces)
}

fn nomsg(segments: &[(u32, u32)], pieces: &[usize]) -> Vec<u32> {
    goes(&call(Kind::Nomsg, segments, &[]), pieces)
}

#[test]
fn a_run_ends_with_its_segment() {
    assert_eq!(msg(&[(8, 5)], &[5]), [1], "C6");
    assert_eq!(msg(&[(8, 2), (8, 3)], &[5]), [2], "C9");
    assert_eq!(msg(&[(8, 4), (12, 4)], &[8]), [2], "chunks back to back");
    assert_eq!(msg(&[(8, 5), (16, 4)], &[9]), [2], "chunks back to back, with padding");
    assert_eq!(nomsg(&[(0, 12)], &[12]), [1], "a base of one segment");
    assert_eq!(nomsg(&[(0, 8), (0, 4)], &[12]), [2], "a base of two segments");
}

#[test]
fn a_run_ends_where_a_chunk_parts_the_base() {
    assert_eq!(nomsg(&[(0, 12), (8, 5)], &[17]), [3], "C8");
    assert_eq!(nomsg(&[(0, 8), (0, 4), (8, 5)], &[17]), [3], "a chunk where a segment ends");
    assert_eq!(nomsg(&[(0, 4), (0, 8), (8, 5)], &[17]), [4], "a chunk inside the second segment");
    assert_eq!(nomsg(&[(0, 12), (4, 4), (8, 4)], &[12, 8]), [2, 2], "no run between chunks back to back");
    assert_eq!(nomsg(&[(0, 12), (4, 4), (8, 4)], &[20]), [4], "chunks back to back, in one piece");
}

#[test]
fn what_is_empty_parts_nothing() {
    assert_eq!(nomsg(&[(0, 12), (8, 0)], &[12]), [1], "an empty chunk");
    assert_eq!(nomsg(&[(0, 12), (8, 0), (8, 0)], &[12]), [1], "a chunk of 0 and 0");
    assert_eq!(nomsg(&[(0, 12), (8, 0), (8, 5)], &[12, 5]), [2, 1], "a chunk of 0 and 5");
    assert_eq!(nomsg(&[(0, 12), (8, 0), (8, 5)], &[17]), [3], "the same in one piece");
    assert_eq!(msg(&[(8, 2), (8, 0), (8, 3)], &[5]), [2], "an empty segment inside a chunk");
}

#[test]
fn a_piece_counts_every_run_that_it_has_bytes_of() {
    assert_eq!(nomsg(&[(0, 12), (8, 5)], &[3, 7, 7]), [1, 2, 2], "pieces that end inside runs");
    assert_eq!(nomsg(&[(0, 12), (8, 5)], &[8, 0, 4, 0, 5]), [1, 0, 1, 0, 1], "pieces that are runs");
    assert_eq!(msg(&[(8, 2), (8, 3)], &[1, 2, 2]), [1, 2, 1], "pieces that end inside segments");
}

#[test]
fn the_most_goes_are_reached() {
    let chunks = (0..15).map(|i| (4 + 8 * i, 4));
    let segments: Vec<_> = [(0, 64)].into_iter().chain(chunks).collect();
    assert_eq!(nomsg(&segments, &[124]), [MAX_GOES]);
    assert_eq!(nomsg(&segments, &[1, 122, 1]), [1, MAX_GOES, 1]);
    assert_eq!(nomsg(&segments, &[4, 120]), [1, MAX_GOES - 1]);
}

/// An assembly does not hand out the goes of a refused piece, and keeps its state from being one that cannot arise.
#[test]
fn a_refused_piece_took_no_goes() {
    let (frame, mut out, mut state) = (c6(), [0; 20], ffi::State::default());
    assert_eq!(unsafe { ffi::eos_start(frame.as_ptr(), frame.len(), out.as_mut_ptr(), 20, &mut state) }, 0);
    let mut take = |piece: &[u8], room: usize| unsafe {
        ffi::eos_take_piece(&mut state, piece.as_ptr(), piece.len(), out.as_mut_ptr(), room)
    };
    assert_eq!(take(&[7; 5], 19), ffi::PieceAnswer { number: 17, goes: 0 });
    assert_eq!(take(&[7; 6], 20), ffi::PieceAnswer { number: 18, goes: 0 });
    assert_eq!(take(&[7; 5], 20), ffi::PieceAnswer { number: 0, goes: 1 });
}
