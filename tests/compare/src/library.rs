//! The calls of the compiled library, and the program beside it. Each is lent exactly what it is given.

use crate::calls::{
    AssemblyCalls, HeaderCalls, LedgerCalls, ReplayCalls, ReplyCalls, ReturnedCalls, SetupCalls, Way,
};
use crate::program;
use eoswynnor::ffi;

pub struct Library;

impl HeaderCalls for Library {
    #[inline(always)]
    fn read_header(&self, frame: &mut [u8], header: &mut ffi::Header) -> u32 {
        unsafe { ffi::eos_read_header(frame.as_mut_ptr(), frame.len(), header) }
    }

    #[inline(always)]
    fn payload(&self, frame: &mut [u8]) -> ffi::Part {
        unsafe { ffi::eos_payload(frame.as_mut_ptr(), frame.len()) }
    }

    #[inline(always)]
    fn write_header(&self, header: &mut ffi::Header, out: &mut [u8], length: &mut usize) -> u32 {
        unsafe { ffi::eos_write_header(&raw mut *header, out.as_mut_ptr(), out.len(), length) }
    }
}

impl SetupCalls for Library {
    #[inline(always)]
    fn read_setup(&self, data: &mut [u8], setup: &mut ffi::Setup, present: &mut u32) -> u32 {
        unsafe { ffi::eos_read_setup(data.as_mut_ptr(), data.len(), setup, present) }
    }

    #[inline(always)]
    fn write_setup(&self, setup: &mut ffi::Setup, out: &mut [u8], length: &mut usize) -> u32 {
        unsafe { ffi::eos_write_setup(&raw mut *setup, out.as_mut_ptr(), out.len(), length) }
    }

    #[inline(always)]
    fn agree(&self, client: &mut ffi::Setup, server: &mut ffi::Setup, both: &mut ffi::Agreement) -> u32 {
        unsafe { ffi::eos_agree(&raw mut *client, &raw mut *server, both) }
    }
}

impl ReplyCalls for Library {
    #[inline(always)]
    fn grant(&self, asked: u32, limit: u32, credit: &mut u32) -> u32 {
        unsafe { ffi::eos_grant(asked, limit, credit) }
    }

    #[inline(always)]
    fn error_reply(
        &self,
        frame: &mut [u8],
        number: u32,
        limit: u32,
        out: &mut [u8],
        length: &mut usize,
    ) -> u32 {
        let (bytes, room) = (out.as_mut_ptr(), out.len());
        unsafe { ffi::eos_error_reply(frame.as_mut_ptr(), frame.len(), number, limit, bytes, room, length) }
    }
}

impl AssemblyCalls for Library {
    #[inline(always)]
    fn start(&self, frame: &mut [u8], out: &mut [u8], state: &mut ffi::State) -> u32 {
        unsafe { ffi::eos_start(frame.as_mut_ptr(), frame.len(), out.as_mut_ptr(), out.len(), state) }
    }

    #[inline(always)]
    fn take_piece(&self, state: &mut ffi::State, piece: &mut [u8], out: &mut [u8]) -> ffi::PieceAnswer {
        unsafe { ffi::eos_take_piece(state, piece.as_mut_ptr(), piece.len(), out.as_mut_ptr(), out.len()) }
    }

    #[inline(always)]
    fn message(&self, state: &mut ffi::State, out: &mut [u8], length: &mut usize) -> u32 {
        unsafe { ffi::eos_message(&raw mut *state, out.as_mut_ptr(), out.len(), length) }
    }
}

impl ReturnedCalls for Library {
    #[inline(always)]
    fn returned(&self, sent: &mut ffi::Header, reply: &mut ffi::Header, landed: &mut ffi::Landed) -> u32 {
        unsafe { ffi::eos_returned(&raw mut *sent, &raw mut *reply, landed) }
    }

    #[inline(always)]
    fn returned_itself(&self, both: &mut ffi::Header, landed: &mut ffi::Landed) -> u32 {
        let both = &raw mut *both;
        unsafe { ffi::eos_returned(both, both, landed) }
    }
}

impl LedgerCalls for Library {
    #[inline(always)]
    fn ledger_open(&self, last: u32, ledger: &mut ffi::Ledger) -> u32 {
        unsafe { ffi::eos_ledger_open(last, ledger) }
    }

    #[inline(always)]
    fn ledger_send(&self, ledger: &mut ffi::Ledger) -> ffi::SendAnswer {
        unsafe { ffi::eos_ledger_send(ledger) }
    }

    #[inline(always)]
    fn ledger_reply(&self, ledger: &mut ffi::Ledger, xid: u32, grant: u32) -> u32 {
        unsafe { ffi::eos_ledger_reply(ledger, xid, grant) }
    }
}

impl ReplayCalls for Library {
    fn replay(&self, blocks: &[&[u8]], way: Way) -> Result<Vec<u8>, String> {
        program::run(&program::usual_file(), blocks, way)
    }
}
