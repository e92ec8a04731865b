//! Setup data and what follows from two of them.

use super::put_front;

pub const IDENTIFIER: [u8; 4] = [0xf6, 0xab, 0x0e, 0x18];
pub const VERSION: u8 = 1;
/// The lowest bit of the flags byte.
pub const R: u8 = 1;
pub const LENGTH: usize = 8;
pub const SMALLEST: u32 = 1024;
pub const LARGEST: u32 = 262_144;

#[derive(Clone, Copy, Debug, PartialEq, Eq)]
pub struct Setup {
    pub remote_invalidation: bool,
    pub send: u32,
    pub receive: u32,
}

/// What a peer without setup data counts as.
impl Default for Setup {
    fn default() -> Self {
        Setup { remote_invalidation: false, send: SMALLEST, receive: SMALLEST }
    }
}

#[derive(Clone, Copy, Debug, PartialEq, Eq)]
pub struct Agreement {
    pub client_to_server: u32,
    pub server_to_client: u32,
    pub remote_invalidation: bool,
}

fn size(byte: u8) -> u32 {
    (u32::from(byte) + 1) * 1024
}

fn size_byte(size: u32) -> u8 {
    (size / 1024 - 1) as u8
}

/// None if there is no setup data. It stands at the start of what is lent or nowhere:
/// document 01 has no search for the identifier, which RFC 8797 section 5.2 describes.
pub fn read(data: &[u8]) -> Option<Setup> {
    let data = data.get(..LENGTH)?;
    if data[..4] != IDENTIFIER || data[4] != VERSION {
        return None;
    }
    let remote_invalidation = data[5] & R == R;
    Some(Setup { remote_invalidation, send: size(data[6]), receive: size(data[7]) })
}

/// The bytes of setup data whose sizes are in rule.
pub fn encode(setup: &Setup) -> [u8; LENGTH] {
    let mut bytes = [0; LENGTH];
    bytes[..4].copy_from_slice(&IDENTIFIER);
    bytes[4] = VERSION;
    bytes[5] = if setup.remote_invalidation { R } else { 0 };
    bytes[6] = size_byte(setup.send);
    bytes[7] = size_byte(setup.receive);
    bytes
}

fn in_rule(setup: &Setup) -> bool {
    let good = |size: u32| size % 1024 == 0 && (SMALLEST..=LARGEST).contains(&size);
    good(setup.send) && good(setup.receive)
}

/// The length written, or the number of the refusal, which leaves `out` alone.
pub fn write(setup: &Setup, out: &mut [u8]) -> Result<usize, u32> {
    if !in_rule(setup) {
        return Err(20);
    }
    put_front(&encode(setup), out)
}

/// What follows from the two peers' setup data, or the number of the refusal.
pub fn agree(client: &Setup, server: &Setup) -> Result<Agreement, u32> {
    if !in_rule(client) || !in_rule(server) {
        return Err(20);
    }
    Ok(Agreement {
        client_to_server: client.send.min(server.receive),
        server_to_client: server.send.min(client.receive),
        remote_invalidation: client.remote_invalidation && server.remote_invalidation,
    })
}

#[cfg(test)]
mod tests {
    use super::*;
    use crate::cases::setup::C10;

    #[test]
    fn worked_examples() {
        let c10 = Setup { remote_invalidation: true, send: 4096, receive: 8192 };
        assert_eq!(read(&C10), Some(c10));
        assert_eq!(read(&C10[..7]), None); // C11
        let none = Setup { remote_invalidation: false, send: 1024, receive: 1024 };
        assert_eq!(Setup::default(), none);

        let mut out = [7; 9];
        assert_eq!(write(&c10, &mut out), Ok(8));
        assert_eq!((&out[..8], out[8]), (&C10[..], 7));
        let server = Setup { remote_invalidation: true, send: 262_144, receive: 3072 };
        let both = Agreement { client_to_server: 3072, server_to_client: 8192, remote_invalidation: true };
        assert_eq!(agree(&c10, &server), Ok(both));
        let both = Agreement { client_to_server: 1024, server_to_client: 1024, remote_invalidation: false };
        assert_eq!(agree(&c10, &none), Ok(both));
    }

    #[test]
    fn refusals() {
        let mut out = [7; 8];
        let good = Setup { remote_invalidation: false, send: 262_144, receive: 1024 };
        assert_eq!(write(&good, &mut out[..7]), Err(16));
        for size in [0, 1023, 1025, 262_145, 263_168, u32::MAX, u32::MAX - 1023] {
            for bad in [Setup { send: size, ..good }, Setup { receive: size, ..good }] {
                assert_eq!(write(&bad, &mut out), Err(20));
                assert_eq!(write(&bad, &mut out[..7]), Err(20));
                assert_eq!(agree(&bad, &good), Err(20));
                assert_eq!(agree(&good, &bad), Err(20));
            }
        }
        assert_eq!(out, [7; 8]);
    }
}
