//! The calls in flight of a client.

use crate::answer::{stored, unless_refused, Refusal};
use crate::ffi;

/// A call that may be sent.
#[derive(Clone, Copy, Debug, PartialEq, Eq)]
pub struct Sent {
    pub xid: u32,
    /// How many xids were passed over: the length of the unbroken run of xids in flight right behind the last one given
    /// before this send. At most as many as were in flight, so at most
    /// [`MAX_PASSED`](crate::MAX_PASSED).
    pub passed: u32,
}

/// The calls in flight of one connection, the grant and the last xid given. Nobody else can change it, so that 17 does
/// not come.
#[derive(Clone, Debug, PartialEq, Eq)]
pub struct Ledger {
    record: ffi::Ledger,
}

impl Ledger {
    /// No call in flight and a grant of 1; the first xid to be given is the one behind `last`.
    pub fn open(last: u32) -> Ledger {
        let record = stored(|record| unsafe { ffi::eos_ledger_open(last, record) });
        Ledger { record: record.expect("opening is never refused") }
    }

    /// Sends a call: its xid, and how many were passed over. With number 23 there is no credit until a reply comes.
    pub fn send(&mut self) -> Result<Sent, Refusal> {
        let ffi::SendAnswer { number, xid, passed } = unsafe { ffi::eos_ledger_send(&mut self.record) };
        unless_refused(number, Sent { xid, passed })
    }

    /// Takes a reply, with the xid and the credit word of its header: the call is in flight no longer, and the grant is
    /// set. Numbers 25, 24.
    pub fn reply(&mut self, xid: u32, grant: u32) -> Result<(), Refusal> {
        let number = unsafe { ffi::eos_ledger_reply(&mut self.record, xid, grant) };
        unless_refused(number, ())
    }

    /// The xids of the calls in flight, in sending order.
    pub fn in_flight(&self) -> &[u32] {
        &self.record.xids[..self.record.count as usize]
    }

    /// How many calls may be in flight, if it is not above [`MAX_IN_FLIGHT`](crate::MAX_IN_FLIGHT).
    pub fn grant(&self) -> u32 {
        self.record.grant
    }

    /// The last xid given.
    pub fn last(&self) -> u32 {
        self.record.last
    }
}

#[cfg(test)]
mod tests {
    extern crate std;

    use super::*;
    use crate::MAX_PASSED;
    use std::vec::Vec;

    /// A send by a ledger put together: one that was opened meets no xid again before it has given all of them.
    fn send(in_flight: &[u32], grant: u32, last: u32) -> Result<Sent, Refusal> {
        let mut record = ffi::Ledger { count: in_flight.len() as u32, grant, last, ..Default::default() };
        record.xids[..in_flight.len()].copy_from_slice(in_flight);
        Ledger { record }.send()
    }

    #[test]
    fn xids_in_flight_are_passed_over() {
        let sent = |xid, passed| Ok(Sent { xid, passed });
        let behind = |last: u32, count: u32| (1..=count).map(|k| last.wrapping_add(k)).collect::<Vec<_>>();
        assert_eq!(send(&[7, 6], 3, 5), sent(8, 2));
        assert_eq!(send(&behind(5, MAX_PASSED), 32, 5), sent(37, MAX_PASSED));
        // Across the largest xid.
        assert_eq!(send(&behind(u32::MAX - 2, 4), 9, u32::MAX - 2), sent(2, 4));
        // Only the first stretch counts, and only right behind the last one.
        assert_eq!(send(&[6, 8, 9], 9, 5), sent(7, 1));
        assert_eq!(send(&[5, 7, 8], 9, 5), sent(6, 0));
        // Refused, whatever stands behind the last one.
        assert_eq!(send(&[6, 7], 2, 5), Err(Refusal(23)));
        assert_eq!(send(&[6, 6], 3, 5), Err(Refusal(17)));
    }
}
