//! The checks of setup data and of what follows from two of them.

use super::lent::{Buffer, Place};
use super::seen::{Call, Form};
use super::{hex, same_number, Checker, Outcome};
use crate::calls::Calls;
use crate::convert::{flatten_agreement, flatten_setup, unflatten_setup};
use crate::reference::setup;
use eoswynnor::ffi::Setup;

impl<C: Calls> Checker<C> {
    /// Lends the first `length` bytes, with the others lying behind.
    pub fn read_setup(&mut self, bytes: &[u8], length: usize) -> Outcome {
        self.count();
        self.input.hold(bytes, length, &mut self.noise);
        let (mut setup, mut present) = (Place::noise(&mut self.noise), Place::noise(&mut self.noise));
        let data = &bytes[..length];
        let mut run = || {
            let number = self.calls.read_setup(&mut self.input, &mut setup, &mut present)?;
            self.seen.number(Call::SetupRead, number);
            self.seen.form(if present.now.value == 0 { Form::NoSetup } else { Form::Setup });
            let read = setup::read(data);
            same_number(number, 0)?;
            setup.holds(flatten_setup(&read.unwrap_or_default()))?;
            present.holds(u32::from(read.is_some()))
        };
        run().map_err(|what| format!("{what}\nsetup data ({length} bytes): {}", hex(data)))
    }

    pub fn write_setup(&mut self, setup: Setup, room: usize) -> Outcome {
        self.count();
        self.memory.noise(room, &mut self.noise);
        let mut length = Place::noise(&mut self.noise);
        let mut place = Place::holding(setup, &mut self.noise.aside());
        self.calls
            .write_setup(&mut place, self.memory.lent(), &mut length)
            .and_then(|number| {
                self.seen.number(Call::SetupWritten, number);
                self.judge_memory(number, &length, |out| {
                    unflatten_setup(&setup).and_then(|setup| setup::write(&setup, out))
                })
            })
            .map_err(|what| format!("{what}\n{setup:?}\n{}", self.buffer_text()))
    }

    /// Setup data that is there, read and written again: its bytes, the ignored flags being 0.
    pub fn read_write_setup(&mut self, data: &[u8]) -> Outcome {
        self.count();
        let mut want = data[..setup::LENGTH].to_vec();
        want[5] &= setup::R;
        let mut out = self.noise.noise(setup::LENGTH);
        let mut length = Place::noise(&mut self.noise);
        let mut run = || {
            let (_, mut setup, _) = self.setup_of(data)?;
            let written = self.calls.write_setup(&mut setup, &mut out, &mut length)?;
            length.judge(written, Ok(setup::LENGTH))?;
            if out != want {
                return Err(format!("{:?}\nbuffer: {}\nwant: {}", setup.now.value, hex(&out), hex(&want)));
            }
            Ok(())
        };
        run().map_err(|what| format!("{what}\nsetup data: {}", hex(data)))
    }

    /// Written, then read: the same values.
    pub fn write_read_setup(&mut self, setup: Setup, room: usize) -> Outcome {
        self.count();
        let mut out = self.noise.noise(room);
        let mut length = Place::noise(&mut self.noise);
        let mut place = Place::holding(setup, &mut self.noise.aside());
        let mut run = || {
            let written = self.calls.write_setup(&mut place, &mut out, &mut length)?;
            let (read, got, present) = self.setup_of(&out)?;
            length.judge(written, Ok(setup::LENGTH))?;
            same_number(read, 0)?;
            got.holds(setup)?;
            present.holds(1)
        };
        run().map_err(|what| format!("{what}\n{setup:?}\nbuffer: {}", hex(&out)))
    }

    /// A reading's number and what it stored.
    fn setup_of(&mut self, data: &[u8]) -> Result<(u32, Place<Setup>, Place<u32>), String> {
        let (setup, present) = (self.noise.any(), self.noise.any());
        let aside = &mut self.noise.aside();
        let (mut setup, mut present) = (Place::holding(setup, aside), Place::holding(present, aside));
        let mut data = Buffer::holding(data, aside);
        let number = self.calls.read_setup(&mut data, &mut setup, &mut present)?;
        Ok((number, setup, present))
    }

    pub fn agree(&mut self, client: Setup, server: Setup) -> Outcome {
        self.count();
        let mut agreement = Place::noise(&mut self.noise);
        let aside = &mut self.noise.aside();
        let [mut one, mut two] = [client, server].map(|setup| Place::holding(setup, aside));
        let mut run = || {
            let number = self.calls.agree(&mut one, &mut two, &mut agreement)?;
            self.seen.number(Call::Agreement, number);
            let both = unflatten_setup(&client).and_then(|client| Ok((client, unflatten_setup(&server)?)));
            let want = both.and_then(|(client, server)| setup::agree(&client, &server));
            agreement.judge(number, want.map(|agreement| flatten_agreement(&agreement)))
        };
        run().map_err(|what| format!("{what}\nclient: {client:?}\nserver: {server:?}"))
    }

    /// Any bytes read as the two setup data: what is read is in rule, so an agreement follows.
    pub fn read_agree(&mut self, client: &[u8], server: &[u8]) -> Outcome {
        self.count();
        let mut agreement = Place::noise(&mut self.noise);
        let mut run = || {
            let ((_, mut one, _), (_, mut two, _)) = (self.setup_of(client)?, self.setup_of(server)?);
            let number = self.calls.agree(&mut one, &mut two, &mut agreement)?;
            let [one, two] = [client, server].map(|data| setup::read(data).unwrap_or_default());
            let want = setup::agree(&one, &two).expect("two in rule");
            agreement.judge(number, Ok(flatten_agreement(&want)))
        };
        run().map_err(|what| format!("{what}\nclient: {}\nserver: {}", hex(client), hex(server)))
    }
}
