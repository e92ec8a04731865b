//! The limits, under the names of the C header without `EOS_`.

/// Segments in the read list.
pub const MAX_READ_SEGMENTS: usize = 16;
/// Chunks in the write list.
pub const MAX_WRITE_CHUNKS: usize = 4;
/// Segments in all write chunks together.
pub const MAX_WRITE_SEGMENTS: usize = 16;
/// Segments in the reply chunk.
pub const MAX_REPLY_SEGMENTS: usize = 16;
/// Bytes of a reassembled message: room that suffices for every one.
pub const MAX_MESSAGE: usize = 1_048_576;
/// The most goes of one piece.
pub const MAX_GOES: u32 = 31;
/// Bytes of the longest header: room that suffices for every one that is written.
pub const MAX_HEADER: usize = 960;
/// Bytes of an error reply: room that suffices for every one.
pub const MAX_REPLY: usize = 28;
/// Calls of a ledger that may be in flight at once, whatever the grant.
pub const MAX_IN_FLIGHT: usize = 32;
/// The most xids that one send passes over.
pub const MAX_PASSED: u32 = 31;
/// Bytes of setup data.
pub const SETUP_BYTES: usize = 8;
/// The least send or receive size, which is a multiple of 1,024.
pub const MIN_SIZE: u32 = 1024;
/// The largest send or receive size.
pub const MAX_SIZE: u32 = 262_144;
