//! The structs and calls of include/eoswynnor.h, under its names without `eos_`. What a caller has to keep to is said
//! there.

use crate::limits::{
    MAX_IN_FLIGHT, MAX_READ_SEGMENTS, MAX_REPLY_SEGMENTS, MAX_WRITE_CHUNKS, MAX_WRITE_SEGMENTS,
};

/// Memory that one side registered for the other.
#[repr(C)]
#[derive(Clone, Copy, Debug, Default, PartialEq, Eq)]
pub struct Segment {
    pub handle: u32,
    pub length: u32,
    pub offset: u64,
}

#[repr(C)]
#[derive(Clone, Copy, Debug, Default, PartialEq, Eq)]
pub struct ReadSegment {
    pub position: u32,
    /// Fills what would be a hole.
    pub reserved: u32,
    pub target: Segment,
}

pub const MSG: u32 = 0;
pub const NOMSG: u32 = 1;
pub const ERROR_VERSION: u32 = 2;
pub const ERROR_CHUNK: u32 = 3;

#[repr(C)]
#[derive(Clone, Copy, Debug, Default, PartialEq, Eq)]
pub struct Header {
    /// In wire order.
    pub reads: [ReadSegment; MAX_READ_SEGMENTS],
    /// Of all write chunks, one behind the other.
    pub writes: [Segment; MAX_WRITE_SEGMENTS],
    pub reply: [Segment; MAX_REPLY_SEGMENTS],
    /// Segments of each write chunk.
    pub write_counts: [u32; MAX_WRITE_CHUNKS],
    pub read_count: u32,
    pub write_chunks: u32,
    pub reply_present: u32,
    pub reply_count: u32,
    pub kind: u32,
    pub low: u32,
    pub high: u32,
    pub xid: u32,
    pub credit: u32,
    pub reserved: u32,
}

#[repr(C)]
#[derive(Clone, Copy, Debug, Default, PartialEq, Eq)]
pub struct Part {
    pub offset: usize,
    pub length: usize,
}

#[repr(C)]
#[derive(Clone, Copy, Debug, Default, PartialEq, Eq)]
pub struct Setup {
    pub remote_invalidation: u32,
    pub send: u32,
    pub receive: u32,
}

#[repr(C)]
#[derive(Clone, Copy, Debug, Default, PartialEq, Eq)]
pub struct Agreement {
    pub client_to_server: u32,
    pub server_to_client: u32,
    pub remote_invalidation: u32,
}

#[repr(C)]
#[derive(Clone, Copy, Debug, Default, PartialEq, Eq)]
pub struct State {
    /// Sorted by position, segments of one position in wire order.
    pub reads: [ReadSegment; MAX_READ_SEGMENTS],
    pub base: usize,
    pub buffer: usize,
    pub taken: usize,
    pub read_count: u32,
    pub kind: u32,
}

/// What a piece is answered with.
#[repr(C)]
#[derive(Clone, Copy, Debug, Default, PartialEq, Eq)]
pub struct PieceAnswer {
    /// 0 if the piece was taken.
    pub number: u32,
    /// How many goes it took to place the piece; 0 for an empty or a refused one.
    pub goes: u32,
}

/// The bytes that a reply says were put into each write chunk and into the reply chunk.
#[repr(C)]
#[derive(Clone, Copy, Debug, Default, PartialEq, Eq)]
pub struct Landed {
    /// 0 behind the last chunk.
    pub writes: [u64; MAX_WRITE_CHUNKS],
    /// 0 where there is no reply chunk.
    pub reply: u64,
}

/// The calls in flight of one connection, the grant and the last xid given.
#[repr(C)]
#[derive(Clone, Copy, Debug, Default, PartialEq, Eq)]
pub struct Ledger {
    /// Of the calls in flight, in sending order; places behind them are ignored, and zero after an accepted operation.
    pub xids: [u32; MAX_IN_FLIGHT],
    /// How many calls are in flight.
    pub count: u32,
    pub grant: u32,
    /// The last xid given.
    pub last: u32,
}

/// What a send is answered with.
#[repr(C)]
#[derive(Clone, Copy, Debug, Default, PartialEq, Eq)]
pub struct SendAnswer {
    /// 0 if the call may be sent.
    pub number: u32,
    /// The call's xid; 0 where it may not be sent.
    pub xid: u32,
    /// How many xids in flight were passed over on the way to it; 0 where it may not be sent.
    pub passed: u32,
}

// As many bytes as the fields have together: no holes.
const _: () = assert!(size_of::<Segment>() == 16 && size_of::<ReadSegment>() == 24);
const _: () = assert!(size_of::<Header>() == 16 * (24 + 16 + 16) + 14 * 4);
const _: () = assert!(size_of::<Part>() == 2 * 8);
const _: () = assert!(size_of::<Setup>() == 3 * 4 && size_of::<Agreement>() == 3 * 4);
const _: () = assert!(size_of::<State>() == 16 * 24 + 3 * 8 + 2 * 4);
const _: () = assert!(size_of::<PieceAnswer>() == 2 * 4 && core::mem::offset_of!(PieceAnswer, goes) == 4);
const _: () = assert!(size_of::<Landed>() == 5 * 8);
const _: () = assert!(size_of::<Ledger>() == 35 * 4);
const _: () = assert!(size_of::<SendAnswer>() == 3 * 4 && core::mem::offset_of!(SendAnswer, passed) == 8);

extern "C" {
    pub fn eos_read_header(frame: *const u8, frame_len: usize, header: *mut Header) -> u32;
    pub fn eos_payload(frame: *const u8, frame_len: usize) -> Part;
    pub fn eos_write_header(header: *const Header, out: *mut u8, out_len: usize, length: *mut usize) -> u32;
    pub fn eos_read_setup(bytes: *const u8, bytes_len: usize, setup: *mut Setup, present: *mut u32) -> u32;
    pub fn eos_write_setup(setup: *const Setup, out: *mut u8, out_len: usize, length: *mut usize) -> u32;
    pub fn eos_agree(client: *const Setup, server: *const Setup, agreement: *mut Agreement) -> u32;
    pub fn eos_grant(asked: u32, limit: u32, credit: *mut u32) -> u32;
    pub fn eos_error_reply(
        frame: *const u8,
        frame_len: usize,
        number: u32,
        limit: u32,
        out: *mut u8,
        out_len: usize,
        length: *mut usize,
    ) -> u32;
    pub fn eos_start(
        frame: *const u8,
        frame_len: usize,
        out: *mut u8,
        out_len: usize,
        state: *mut State,
    ) -> u32;
    pub fn eos_take_piece(
        state: *mut State,
        piece: *const u8,
        piece_len: usize,
        out: *mut u8,
        out_len: usize,
    ) -> PieceAnswer;
    pub fn eos_message(state: *const State, out: *const u8, out_len: usize, length: *mut usize) -> u32;
    pub fn eos_returned(sent: *const Header, reply: *const Header, landed: *mut Landed) -> u32;
    pub fn eos_ledger_open(last: u32, ledger: *mut Ledger) -> u32;
    pub fn eos_ledger_send(ledger: *mut Ledger) -> SendAnswer;
    pub fn eos_ledger_reply(ledger: *mut Ledger, xid: u32, grant: u32) -> u32;
}
