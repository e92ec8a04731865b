//! The answer numbers, and how a call's answer becomes a `Result`.

use core::fmt;

/// The number of a refusal, 1 to 20 or 23 to 26; 8 and 21 are reserved and never given. Each has its name, by which it can be
/// matched, and its text (`to_string`), the words of the C header's `eos_text`.
///
/// ```
/// # use eoswynnor::{Ledger, Refusal};
/// # let mut ledger = Ledger::open(41);
/// match ledger.send() {
///     Ok(sent) => assert_eq!(sent.xid, 42),
///     Err(Refusal::CREDIT_SPENT) => { /* wait for a reply */ }
///     Err(refusal) => panic!("{refusal}"),
/// }
/// ```
#[derive(Clone, Copy, Debug, PartialEq, Eq, Hash)]
pub struct Refusal(pub u32);

/// The names of the C header, without `EOS_`.
impl Refusal {
    pub const SHORT_FRAME: Refusal = Refusal(1);
    pub const OTHER_VERSION: Refusal = Refusal(2);
    pub const OTHER_PROCEDURE: Refusal = Refusal(3);
    pub const DONE_RECEIVED: Refusal = Refusal(4);
    pub const ENDS_INSIDE_FIELD: Refusal = Refusal(5);
    pub const BAD_MARKER: Refusal = Refusal(6);
    pub const OVER_LIMIT: Refusal = Refusal(7);
    /// Reserved: never given.
    pub const POSITION_FALLS: Refusal = Refusal(8);
    pub const POSITION_UNALIGNED: Refusal = Refusal(9);
    pub const OTHER_ERROR_CODE: Refusal = Refusal(10);
    pub const BYTES_BEHIND: Refusal = Refusal(11);
    pub const KIND_AND_LISTS: Refusal = Refusal(12);
    pub const BASE_UNALIGNED: Refusal = Refusal(13);
    pub const CHUNK_OVERLAPS: Refusal = Refusal(14);
    pub const MESSAGE_LONG: Refusal = Refusal(15);
    pub const BUFFER_SHORT: Refusal = Refusal(16);
    pub const STATE_UNFIT: Refusal = Refusal(17);
    pub const PIECE_LONG: Refusal = Refusal(18);
    pub const BYTES_MISSING: Refusal = Refusal(19);
    pub const BAD_ARGUMENT: Refusal = Refusal(20);
    /// Reserved: never given.
    pub const HEADER_LONG: Refusal = Refusal(21);
    pub const CREDIT_SPENT: Refusal = Refusal(23);
    pub const XID_UNKNOWN: Refusal = Refusal(24);
    pub const GRANT_ZERO: Refusal = Refusal(25);
    pub const REPLY_MISMATCH: Refusal = Refusal(26);
}

const NO_NUMBER: &str = "no answer number";

const TEXTS: [&str; 27] = [
    "done",
    "frame under 16 bytes",
    "version is not 1",
    "procedure is 2 or above 4",
    "procedure is 3",
    "frame ends inside a field that must be there",
    "a marker word above 1",
    "an entry or count that goes over a limit",
    "reserved: never given",
    "a read position that is no multiple of 4",
    "error code neither 1 nor 2",
    "bytes behind a NOMSG or ERROR header",
    "kind and lists do not fit",
    "base length no multiple of 4",
    "a chunk's position overlaps or lies past the base",
    "message above 1,048,576 bytes",
    "output buffer too short",
    "state or ledger not one that can arise, or another buffer length than at the start",
    "piece longer than what is still to be pulled",
    "message asked for before all bytes are in",
    "bad argument: credit limit 0, a size out of rule, an answer number above 21",
    "reserved: never given",
    // 22: no call answers it.
    NO_NUMBER,
    "the calls in flight reach or pass the grant or 32",
    "a reply's xid is not in flight",
    "a reply's grant is 0",
    "a reply that cannot answer the header that was sent",
];

impl fmt::Display for Refusal {
    fn fmt(&self, f: &mut fmt::Formatter) -> fmt::Result {
        f.write_str(TEXTS.get(self.0 as usize).unwrap_or(&NO_NUMBER))
    }
}

impl core::error::Error for Refusal {}

/// What a call made, unless its number says that it refused.
#[cfg(feature = "link")]
pub(crate) fn unless_refused<T>(number: u32, made: T) -> Result<T, Refusal> {
    match number {
        0 => Ok(made),
        number => Err(Refusal(number)),
    }
}

/// Makes a call that stores into a place; hands out what it stored. A refused call stores nothing.
#[cfg(feature = "link")]
pub(crate) fn stored<T: Default>(call: impl FnOnce(&mut T) -> u32) -> Result<T, Refusal> {
    let mut place = T::default();
    let number = call(&mut place);
    unless_refused(number, place)
}
