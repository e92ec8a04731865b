//! Setup data with one mistake.

use super::{can_fail, is_found, mistakes, store_behind, Wrong};
use crate::calls::SetupCalls;
use crate::cases::setup::{run, C10};
use crate::plain::Plain;
use crate::reference::setup;
use crate::rng::Rng;
use eoswynnor::ffi;
use Mistake::*;
use Wrong::Setup;

mistakes! {
    // Reading.
    NoLengthTest MissingBytesAsZero AnyVersion ThreeIdentifierBytes BytesBehindRefused
    IdentifierSearched AnyFlagAsR RInHighestBit WholeFlagsByte SizeByteWithoutOne SizesExchanged
    AbsentSizesZero AbsentRefused AbsentNotStored AbsentFlagNotStored AbsentPresenceNotStored
    PresenceStoresBehind
    // Writing.
    SizeRoundedDown UpperEndTooHigh SizeZeroTaken UpperEndLeftOut ReceiveUnchecked RoomBeforeArgument
    AnyFlagWritten BytesBehindCleared IdentifierBeforeCheck ShortBufferFilled BufferLengthForLength
    RefusalLengthZero RefusalLengthNeeded
    // The agreement.
    ClientFlagUnchecked ServerSendUnchecked LargerOfTwoSizes SendWithSend ReceiveWithReceive
    DirectionsExchanged RFromClient RFromServer RFromEither RefusalStoresSize RefusalZeroes
    RefusalClearsFlag AgreeStoresBehind
    // What is lent for reading alone.
    ReadChangesData WriteChangesSetup RefusedWriteMendsFlag AgreeChangesClient AgreeChangesServer
    RefusedAgreeMendsServer
}

impl SetupCalls for Wrong {
    fn read_setup(&self, data: &mut [u8], setup: &mut ffi::Setup, present: &mut u32) -> u32 {
        let (before, held) = (*setup, *present);
        let mut lent = match *self {
            // The guard behind what is lent is long enough.
            Setup(NoLengthTest) if data.len() < 8 => {
                unsafe { std::slice::from_raw_parts(data.as_ptr(), 8) }.to_vec()
            }
            Setup(MissingBytesAsZero) if data.len() < 8 => [&*data, &[0; 8][data.len()..]].concat(),
            Setup(AnyVersion) if data.len() >= 8 => [&data[..4], &[1], &data[5..]].concat(),
            Setup(ThreeIdentifierBytes) if data.len() >= 8 => [&data[..3], &[0x18], &data[4..]].concat(),
            Setup(BytesBehindRefused) if data.len() > 8 => vec![],
            // The identifier searched for, as RFC 8797 section 5.2 has it.
            Setup(IdentifierSearched) => {
                let at = data.windows(4).position(|four| four == setup::IDENTIFIER);
                data[at.unwrap_or(0)..].to_vec()
            }
            _ => data.to_vec(),
        };
        let number = Plain.read_setup(&mut lent, setup, present);
        let found = *present == 1;
        match *self {
            Setup(AnyFlagAsR) if found => setup.remote_invalidation = u32::from(data[5] != 0),
            Setup(RInHighestBit) if found => setup.remote_invalidation = u32::from(data[5] >> 7),
            Setup(WholeFlagsByte) if found => setup.remote_invalidation = u32::from(data[5]),
            // Size byte n taken as n × 1,024.
            Setup(SizeByteWithoutOne) if found => {
                (setup.send, setup.receive) = (setup.send - 1024, setup.receive - 1024)
            }
            Setup(SizesExchanged) => (setup.send, setup.receive) = (setup.receive, setup.send),
            Setup(AbsentSizesZero) if !found => (setup.send, setup.receive) = (0, 0),
            Setup(AbsentRefused) if !found => return 20,
            Setup(AbsentNotStored) if !found => *setup = before,
            Setup(AbsentFlagNotStored) if !found => setup.remote_invalidation = before.remote_invalidation,
            Setup(AbsentPresenceNotStored) if !found => *present = held,
            // Presence stored as a word of eight bytes.
            Setup(PresenceStoresBehind) => store_behind(present, 0),
            Setup(ReadChangesData) if found => data[5] &= setup::R,
            _ => {}
        }
        number
    }

    fn write_setup(&self, given: &mut ffi::Setup, out: &mut [u8], length: &mut usize) -> u32 {
        let mut setup = *given;
        match *self {
            Setup(SizeRoundedDown) => {
                (setup.send, setup.receive) = (setup.send & !1023, setup.receive & !1023)
            }
            // The size byte wraps.
            Setup(UpperEndTooHigh) if setup.receive == 263_168 => setup.receive = 1024,
            // Here too.
            Setup(SizeZeroTaken) if setup.send == 0 => setup.send = 262_144,
            Setup(UpperEndLeftOut) if setup.send == 262_144 => setup.send = 0,
            Setup(ReceiveUnchecked) => setup.receive = setup.receive.clamp(1024, 262_144) & !1023,
            Setup(RoomBeforeArgument) if out.len() < 8 => return 16,
            // Written as it is below.
            Setup(AnyFlagWritten) => setup.remote_invalidation = 0,
            _ => {}
        }
        let number = Plain.write_setup(&mut setup, out, length);
        match (*self, number) {
            (Setup(AnyFlagWritten), 0) => out[5] = given.remote_invalidation as u8,
            (Setup(BytesBehindCleared), 0) => out[8..].fill(0),
            (Setup(IdentifierBeforeCheck), 20) if out.len() >= 4 => {
                out[..4].copy_from_slice(&setup::IDENTIFIER)
            }
            (Setup(ShortBufferFilled), 16) => out.copy_from_slice(&C10[..out.len()]),
            (Setup(BufferLengthForLength), 0) => *length = out.len(),
            (Setup(RefusalLengthZero), 20) => *length = 0,
            (Setup(RefusalLengthNeeded), 16) => *length = 8,
            (Setup(WriteChangesSetup), 0) => given.send = given.send / 1024 - 1,
            (Setup(RefusedWriteMendsFlag), 20) => {
                given.remote_invalidation = given.remote_invalidation.min(1)
            }
            _ => {}
        }
        number
    }

    fn agree(
        &self,
        lent_client: &mut ffi::Setup,
        lent_server: &mut ffi::Setup,
        both: &mut ffi::Agreement,
    ) -> u32 {
        let (mut client, mut server) = (*lent_client, *lent_server);
        match *self {
            Setup(ClientFlagUnchecked) => client.remote_invalidation = client.remote_invalidation.min(1),
            Setup(ServerSendUnchecked) => server.send = server.send.clamp(1024, 262_144) & !1023,
            _ => {}
        }
        let number = Plain.agree(&mut client, &mut server, both);
        let good = number == 0;
        match *self {
            Setup(LargerOfTwoSizes) if good => both.client_to_server = client.send.max(server.receive),
            Setup(SendWithSend) if good => both.client_to_server = client.send.min(server.send),
            Setup(ReceiveWithReceive) if good => both.server_to_client = client.receive.min(server.receive),
            Setup(DirectionsExchanged) if good => {
                (both.client_to_server, both.server_to_client) =
                    (both.server_to_client, both.client_to_server)
            }
            Setup(RFromClient) if good => both.remote_invalidation = client.remote_invalidation,
            Setup(RFromServer) if good => both.remote_invalidation = server.remote_invalidation,
            Setup(RFromEither) if good => {
                both.remote_invalidation = client.remote_invalidation | server.remote_invalidation
            }
            Setup(RefusalStoresSize) if !good => both.client_to_server = client.send.min(server.receive),
            Setup(RefusalZeroes) if !good => *both = ffi::Agreement::default(),
            Setup(RefusalClearsFlag) if !good => both.remote_invalidation = 0,
            Setup(AgreeStoresBehind) => store_behind(both, number),
            Setup(AgreeChangesClient) if good => lent_client.send = both.client_to_server,
            Setup(AgreeChangesServer) if good => lent_server.send = both.server_to_client,
            Setup(RefusedAgreeMendsServer) if !good => lent_server.send &= !1023,
            _ => {}
        }
        number
    }
}

#[test]
fn each_is_found() {
    for &mistake in MISTAKES {
        is_found(Setup(mistake), 5, |check| run(check, &mut Rng(5), 2_000));
    }
}

/// The checks over several calls, each alone: in a run the families before them find the fault.
#[test]
fn checks_over_several_calls_can_fail() {
    const LARGE: ffi::Setup = ffi::Setup { remote_invalidation: 1, send: 262_144, receive: 1024 };
    const FLAGS: [u8; 8] = [0xf6, 0xab, 0x0e, 0x18, 1, 0xff, 3, 7];
    const OTHER: [u8; 8] = [0xf6, 0xab, 0x0e, 0x18, 1, 0, 9, 2];
    const VERSION_2: [u8; 8] = [0xf6, 0xab, 0x0e, 0x18, 2, 1, 3, 7];
    const LARGEST: [u8; 8] = [0xf6, 0xab, 0x0e, 0x18, 1, 0, 255, 0];
    can_fail(Setup(WholeFlagsByte), |check| check.read_write_setup(&FLAGS));
    can_fail(Setup(SizesExchanged), |check| check.read_write_setup(&C10));
    can_fail(Setup(AnyVersion), |check| check.read_agree(&C10, &VERSION_2));
    can_fail(Setup(BytesBehindRefused), |check| check.write_read_setup(LARGE, 9));
    can_fail(Setup(UpperEndLeftOut), |check| check.write_read_setup(LARGE, 8));
    can_fail(Setup(UpperEndLeftOut), |check| check.read_write_setup(&LARGEST));
    can_fail(Setup(SendWithSend), |check| check.read_agree(&OTHER, &C10));
    can_fail(Setup(RFromClient), |check| check.read_agree(&C10, &OTHER));
    can_fail(Setup(ReadChangesData), |check| check.read_write_setup(&FLAGS));
    can_fail(Setup(WriteChangesSetup), |check| check.write_read_setup(LARGE, 8));
    can_fail(Setup(WriteChangesSetup), |check| check.read_write_setup(&C10));
    can_fail(Setup(AgreeChangesClient), |check| check.read_agree(&C10, &OTHER));
    can_fail(Setup(AgreeChangesServer), |check| check.read_agree(&OTHER, &LARGEST));
}
