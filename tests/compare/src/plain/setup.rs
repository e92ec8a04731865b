//! Setup data and what follows from two of them.

use super::Plain;
use crate::calls::SetupCalls;
use eoswynnor::ffi::{Agreement, Setup};

/// Identifier, version byte 1, and zeros for the flags and the size bytes.
const SETUP: u64 = 0xf6ab_0e18_0100_0000;

#[inline(never)]
fn plain_read_setup(data: &[u8], setup: &mut Setup, present: &mut u32) -> u32 {
    *setup = Setup { remote_invalidation: 0, send: 1024, receive: 1024 };
    let all = data.first_chunk::<8>().map_or(0, |bytes| u64::from_be_bytes(*bytes));
    *present = u32::from(all >> 24 == SETUP >> 24);
    if *present == 1 {
        let all = all as u32;
        setup.remote_invalidation = all >> 16 & 1;
        setup.send += (all >> 8 & 0xff) << 10;
        setup.receive += (all & 0xff) << 10;
    }
    0
}

/// The size byte of a size in rule, above 255 for any other:
/// the low bits of no multiple of 1,024 become the highest.
fn size_byte(size: u32) -> u32 {
    size.wrapping_sub(1024).rotate_right(10)
}

fn out_of_rule(setup: &Setup) -> bool {
    setup.remote_invalidation > 1 || size_byte(setup.send) | size_byte(setup.receive) > 255
}

#[inline(never)]
fn plain_write_setup(setup: &Setup, out: &mut [u8], length: &mut usize) -> u32 {
    if out_of_rule(setup) {
        return 20;
    }
    let Some(place) = out.first_chunk_mut::<8>() else { return 16 };
    let low = setup.remote_invalidation << 16 | size_byte(setup.send) << 8 | size_byte(setup.receive);
    *place = (SETUP | u64::from(low)).to_be_bytes();
    *length = 8;
    0
}

#[inline(never)]
fn plain_agree(client: &Setup, server: &Setup, agreement: &mut Agreement) -> u32 {
    if out_of_rule(client) || out_of_rule(server) {
        return 20;
    }
    *agreement = Agreement {
        client_to_server: client.send.min(server.receive),
        server_to_client: server.send.min(client.receive),
        remote_invalidation: client.remote_invalidation & server.remote_invalidation,
    };
    0
}

impl SetupCalls for Plain {
    #[inline(always)]
    fn read_setup(&self, data: &mut [u8], setup: &mut Setup, present: &mut u32) -> u32 {
        plain_read_setup(data, setup, present)
    }

    #[inline(always)]
    fn write_setup(&self, setup: &mut Setup, out: &mut [u8], length: &mut usize) -> u32 {
        plain_write_setup(setup, out, length)
    }

    #[inline(always)]
    fn agree(&self, client: &mut Setup, server: &mut Setup, both: &mut Agreement) -> u32 {
        plain_agree(client, server, both)
    }
}
