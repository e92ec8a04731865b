//! The calls as every check makes them: behind each, what was lent for reading alone is as it was.

use super::lent::{Buffer, Place};
use crate::calls::{Calls, Way};
use eoswynnor::ffi;

/// The number, or what was changed that may only be read.
type Number = Result<u32, String>;

pub struct Watched<C>(pub C);

impl<C: Calls> Watched<C> {
    pub fn read_header(&self, frame: &mut Buffer, header: &mut Place<ffi::Header>) -> Number {
        frame.only_read(|frame| self.0.read_header(frame, header.lent()))
    }

    pub fn payload(&self, frame: &mut Buffer) -> Result<ffi::Part, String> {
        frame.only_read(|frame| self.0.payload(frame))
    }

    pub fn write_header(
        &self,
        header: &mut Place<ffi::Header>,
        out: &mut [u8],
        length: &mut Place<usize>,
    ) -> Number {
        header.only_read(|header| self.0.write_header(header, out, length.lent()))
    }

    pub fn read_setup(
        &self,
        data: &mut Buffer,
        setup: &mut Place<ffi::Setup>,
        present: &mut Place<u32>,
    ) -> Number {
        data.only_read(|data| self.0.read_setup(data, setup.lent(), present.lent()))
    }

    pub fn write_setup(
        &self,
        setup: &mut Place<ffi::Setup>,
        out: &mut [u8],
        length: &mut Place<usize>,
    ) -> Number {
        setup.only_read(|setup| self.0.write_setup(setup, out, length.lent()))
    }

    pub fn agree(
        &self,
        client: &mut Place<ffi::Setup>,
        server: &mut Place<ffi::Setup>,
        both: &mut Place<ffi::Agreement>,
    ) -> Number {
        client.only_read(|client| server.only_read(|server| self.0.agree(client, server, both.lent())))?
    }

    pub fn grant(&self, asked: u32, limit: u32, credit: &mut Place<u32>) -> u32 {
        self.0.grant(asked, limit, credit.lent())
    }

    pub fn error_reply(
        &self,
        frame: &mut Buffer,
        number: u32,
        limit: u32,
        out: &mut [u8],
        length: &mut Place<usize>,
    ) -> Number {
        frame.only_read(|frame| self.0.error_reply(frame, number, limit, out, length.lent()))
    }

    pub fn start(&self, frame: &mut Buffer, out: &mut [u8], state: &mut Place<ffi::State>) -> Number {
        frame.only_read(|frame| self.0.start(frame, out, state.lent()))
    }

    pub fn take_piece(
        &self,
        state: &mut Place<ffi::State>,
        piece: &mut Buffer,
        out: &mut [u8],
    ) -> Result<ffi::PieceAnswer, String> {
        piece.only_read(|piece| self.0.take_piece(state.lent(), piece, out))
    }

    pub fn message(
        &self,
        state: &mut Place<ffi::State>,
        out: &mut Buffer,
        length: &mut Place<usize>,
    ) -> Number {
        state.only_read(|state| out.only_read(|out| self.0.message(state, out, length.lent())))?
    }

    pub fn returned(
        &self,
        sent: &mut Place<ffi::Header>,
        reply: &mut Place<ffi::Header>,
        landed: &mut Place<ffi::Landed>,
    ) -> Number {
        sent.only_read(|sent| reply.only_read(|reply| self.0.returned(sent, reply, landed.lent())))?
    }

    pub fn returned_itself(&self, both: &mut Place<ffi::Header>, landed: &mut Place<ffi::Landed>) -> Number {
        both.only_read(|both| self.0.returned_itself(both, landed.lent()))
    }

    pub fn ledger_open(&self, last: u32, ledger: &mut Place<ffi::Ledger>) -> u32 {
        self.0.ledger_open(last, ledger.lent())
    }

    pub fn ledger_send(&self, ledger: &mut Place<ffi::Ledger>) -> ffi::SendAnswer {
        self.0.ledger_send(ledger.lent())
    }

    pub fn ledger_reply(&self, ledger: &mut Place<ffi::Ledger>, xid: u32, grant: u32) -> u32 {
        self.0.ledger_reply(ledger.lent(), xid, grant)
    }

    pub fn replay(&self, blocks: &[&[u8]], way: Way) -> Result<Vec<u8>, String> {
        self.0.replay(blocks, way)
    }
}
