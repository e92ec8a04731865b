//! Setup data: written, read back, and what both sides agree on.

use eoswynnor::{Agreement, Refusal, Setup, SETUP_BYTES};

const CLIENT: Setup = Setup { remote_invalidation: true, send: 4096, receive: 8192 };

#[test]
fn setup_data_reads_back() {
    let mut bytes = [0; SETUP_BYTES];
    assert_eq!(CLIENT.write(&mut bytes), Ok(8));
    assert_eq!(bytes, [0xf6, 0xab, 0x0e, 0x18, 1, 1, 3, 7]);
    assert_eq!(Setup::read(&bytes), (CLIENT, true));
    let none = Setup { remote_invalidation: false, send: 1024, receive: 1024 };
    assert_eq!(Setup::read(&bytes[..7]), (none, false));
    assert_eq!(CLIENT.write(&mut bytes[..7]), Err(Refusal(16)));
}

#[test]
fn both_sides_agree() {
    let server = Setup { remote_invalidation: true, send: 262_144, receive: 3072 };
    let agreement = Agreement { client_to_server: 3072, server_to_client: 8192, remote_invalidation: true };
    assert_eq!(Setup::agree(CLIENT, server), Ok(agreement));
    let odd = Setup { send: 4097, ..CLIENT };
    assert_eq!(Setup::agree(CLIENT, odd), Err(Refusal(20)));
}
