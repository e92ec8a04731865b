//! The credit grant and the error reply.

use super::Plain;
use crate::calls::ReplyCalls;

#[inline(never)]
fn plain_grant(asked: u32, limit: u32, credit: &mut u32) -> u32 {
    if limit == 0 {
        return 20;
    }
    *credit = asked.clamp(1, limit);
    0
}

#[derive(Clone, Copy, PartialEq)]
enum ReplyKind {
    None,
    Version,
    Chunk,
}

/// By answer number.
const REPLIES: [ReplyKind; 22] = {
    use ReplyKind::{Chunk as C, None as N, Version as V};
    [N, N, V, C, N, C, C, C, C, C, N, C, C, C, C, C, N, N, N, N, N, N]
};

/// The replies, with zeros where the frame's first words and the grant go: xid and version, or the xid alone.
const VERSION: [u8; 28] =
    [0, 0, 0, 0, 0, 0, 0, 0, 0, 0, 0, 0, 0, 0, 0, 4, 0, 0, 0, 1, 0, 0, 0, 1, 0, 0, 0, 1];
const CHUNK: [u8; 20] = [0, 0, 0, 0, 0, 0, 0, 1, 0, 0, 0, 0, 0, 0, 0, 4, 0, 0, 0, 2];

/// Puts a reply with the first `F` bytes of the frame; the lengths are known to the compiler.
fn put_reply<const F: usize, const N: usize>(
    fixed: &[u8; 16],
    grant: u32,
    mut reply: [u8; N],
    out: &mut [u8],
    length: &mut usize,
) -> u32 {
    let Some(place) = out.first_chunk_mut::<N>() else { return 16 };
    reply[..F].copy_from_slice(&fixed[..F]);
    reply[8..12].copy_from_slice(&grant.to_be_bytes());
    *place = reply;
    *length = N;
    0
}

#[inline(never)]
fn plain_error_reply(frame: &[u8], number: u32, limit: u32, out: &mut [u8], length: &mut usize) -> u32 {
    let kind = match REPLIES.get(number as usize) {
        Some(kind) if limit > 0 => *kind,
        _ => return 20,
    };
    let fixed = match frame.first_chunk::<16>() {
        Some(fixed) if kind != ReplyKind::None && fixed[12..] != [0, 0, 0, 4] => fixed,
        _ => {
            *length = 0;
            return 0;
        }
    };
    let grant = u32::from_be_bytes([fixed[8], fixed[9], fixed[10], fixed[11]]).clamp(1, limit);
    match kind {
        ReplyKind::Version => put_reply::<8, 28>(fixed, grant, VERSION, out, length),
        _ => put_reply::<4, 20>(fixed, grant, CHUNK, out, length),
    }
}

impl ReplyCalls for Plain {
    #[inline(always)]
    fn grant(&self, asked: u32, limit: u32, credit: &mut u32) -> u32 {
        plain_grant(asked, limit, credit)
    }

    #[inline(always)]
    fn error_reply(
        &self,
        frame: &mut [u8],
        number: u32,
        limit: u32,
        out: &mut [u8],
        length: &mut usize,
    ) -> u32 {
        plain_error_reply(frame, number, limit, out, length)
    }
}
