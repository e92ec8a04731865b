//! What an implementation under comparison has: the calls of include/eoswynnor.h and the program `replay`.
//! Each call answers its number, for a piece with the goes beside it, for a send with the xid and the
//! number of those passed over, and stores what it makes; the program answers its report.
//!
//! All is lent for writing, also what a call may only read: an implementation that changes it can
//! then be written, and the comparison afterwards is one that the compiler may not leave out.

use eoswynnor::ffi;

pub trait HeaderCalls {
    fn read_header(&self, frame: &mut [u8], header: &mut ffi::Header) -> u32;
    fn payload(&self, frame: &mut [u8]) -> ffi::Part;
    fn write_header(&self, header: &mut ffi::Header, out: &mut [u8], length: &mut usize) -> u32;
}

pub trait SetupCalls {
    fn read_setup(&self, data: &mut [u8], setup: &mut ffi::Setup, present: &mut u32) -> u32;
    fn write_setup(&self, setup: &mut ffi::Setup, out: &mut [u8], length: &mut usize) -> u32;
    fn agree(&self, client: &mut ffi::Setup, server: &mut ffi::Setup, both: &mut ffi::Agreement) -> u32;
}

pub trait ReplyCalls {
    fn grant(&self, asked: u32, limit: u32, credit: &mut u32) -> u32;
    fn error_reply(
        &self,
        frame: &mut [u8],
        number: u32,
        limit: u32,
        out: &mut [u8],
        length: &mut usize,
    ) -> u32;
}

pub trait AssemblyCalls {
    fn start(&self, frame: &mut [u8], out: &mut [u8], state: &mut ffi::State) -> u32;
    fn take_piece(&self, state: &mut ffi::State, piece: &mut [u8], out: &mut [u8]) -> ffi::PieceAnswer;
    fn message(&self, state: &mut ffi::State, out: &mut [u8], length: &mut usize) -> u32;
}

pub trait ReturnedCalls {
    fn returned(&self, sent: &mut ffi::Header, reply: &mut ffi::Header, landed: &mut ffi::Landed) -> u32;
    /// The same call, with one header lent as both.
    fn returned_itself(&self, both: &mut ffi::Header, landed: &mut ffi::Landed) -> u32;
}

pub trait LedgerCalls {
    /// Always 0.
    fn ledger_open(&self, last: u32, ledger: &mut ffi::Ledger) -> u32;
    fn ledger_send(&self, ledger: &mut ffi::Ledger) -> ffi::SendAnswer;
    fn ledger_reply(&self, ledger: &mut ffi::Ledger, xid: u32, grant: u32) -> u32;
}

/// How the program's input comes.
#[derive(Clone, Copy, Debug, PartialEq)]
pub enum Way {
    /// Through a pipe that is closed behind the last block.
    Closed,
    /// Through a pipe that stays open until the report is at its end, which has to come without that of the
    /// input.
    Held,
    /// Byte by byte, so that no reading gets more than one, whatever the blocks.
    Singly,
    /// From a file, whatever the blocks.
    File,
}

/// Said where the input was held open and the report had no end.
pub const NOT_STOPPED: &str = "does not stop, but waits for more input";

pub trait ReplayCalls {
    /// The program's report, or why there is none.
    fn replay(&self, blocks: &[&[u8]], way: Way) -> Result<Vec<u8>, String>;
}

pub trait Calls:
    HeaderCalls + SetupCalls + ReplyCalls + AssemblyCalls + ReturnedCalls + LedgerCalls + ReplayCalls
{
}

impl<T> Calls for T where
    T: HeaderCalls + SetupCalls + ReplyCalls + AssemblyCalls + ReturnedCalls + LedgerCalls + ReplayCalls
{
}
