//! The connection setup data, and what follows from that of both sides.

use crate::answer::{stored, Refusal};
use crate::ffi;

/// The setup data of one side. Sizes are numbers of bytes.
#[derive(Clone, Copy, Debug, PartialEq, Eq)]
pub struct Setup {
    pub remote_invalidation: bool,
    pub send: u32,
    pub receive: u32,
}

/// What follows from the setup data of both sides.
#[derive(Clone, Copy, Debug, PartialEq, Eq)]
pub struct Agreement {
    pub client_to_server: u32,
    pub server_to_client: u32,
    pub remote_invalidation: bool,
}

impl Setup {
    /// The setup data, or what counts in its place, and whether it was there.
    pub fn read(bytes: &[u8]) -> (Setup, bool) {
        let (mut setup, mut present) = (ffi::Setup::default(), 0);
        // Always number 0.
        unsafe { ffi::eos_read_setup(bytes.as_ptr(), bytes.len(), &mut setup, &mut present) };
        (setup.into(), present == 1)
    }

    /// Writes the setup data to the front of a buffer; answers its length.
    pub fn write(self, out: &mut [u8]) -> Result<usize, Refusal> {
        stored(|length| unsafe { ffi::eos_write_setup(&self.into(), out.as_mut_ptr(), out.len(), length) })
    }

    /// The size for each direction, and whether remote invalidation may be used.
    pub fn agree(client: Setup, server: Setup) -> Result<Agreement, Refusal> {
        stored::<ffi::Agreement>(|agreement| unsafe {
            ffi::eos_agree(&client.into(), &server.into(), agreement)
        })
        .map(Agreement::from)
    }
}

impl From<Setup> for ffi::Setup {
    fn from(setup: Setup) -> ffi::Setup {
        let Setup { remote_invalidation, send, receive } = setup;
        ffi::Setup { remote_invalidation: u32::from(remote_invalidation), send, receive }
    }
}

impl From<ffi::Setup> for Setup {
    fn from(setup: ffi::Setup) -> Setup {
        let ffi::Setup { remote_invalidation, send, receive } = setup;
        Setup { remote_invalidation: remote_invalidation == 1, send, receive }
    }
}

impl From<ffi::Agreement> for Agreement {
    fn from(agreement: ffi::Agreement) -> Agreement {
        let ffi::Agreement { client_to_server, server_to_client, remote_invalidation } = agreement;
        Agreement { client_to_server, server_to_client, remote_invalidation: remote_invalidation == 1 }
    }
}
