//! The credit grant and the error reply.

use crate::answer::{stored, Refusal};
use crate::ffi;

/// The credits to grant to one who asks, under our limit.
pub fn grant(asked: u32, limit: u32) -> Result<u32, Refusal> {
    stored(|credit| unsafe { ffi::eos_grant(asked, limit, credit) })
}

/// Writes the reply to a frame that was refused to the front of a buffer; empty where it gets none, and nothing is to be
/// sent. [`MAX_REPLY`](crate::MAX_REPLY) bytes suffice. A version error has the frame's own version word, by which its sender matches it;
/// [`ffi::Header::read`] gives 2 for it unless that word is 1.
pub fn error_reply<'a>(
    frame: &[u8],
    refusal: Refusal,
    limit: u32,
    out: &'a mut [u8],
) -> Result<&'a [u8], Refusal> {
    let (place, room) = (out.as_mut_ptr(), out.len());
    let length = stored(|length| unsafe {
        ffi::eos_error_reply(frame.as_ptr(), frame.len(), refusal.0, limit, place, room, length)
    })?;
    Ok(&out[..length])
}
