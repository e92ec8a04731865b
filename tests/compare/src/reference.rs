//! The reference: the calls and the program `replay` once more, straight from documents 01 and 02; clear
//! rather than fast, and independent of the library.

pub mod assembly;
pub mod header;
pub mod ledger;
pub mod replay;
pub mod reply;
pub mod returned;
pub mod setup;

/// Puts bytes at the front of a buffer: their length, or 16 if they do not fit.
fn put_front(bytes: &[u8], out: &mut [u8]) -> Result<usize, u32> {
    if bytes.len() > out.len() {
        return Err(16);
    }
    out[..bytes.len()].copy_from_slice(bytes);
    Ok(bytes.len())
}
