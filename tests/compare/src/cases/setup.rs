//! Families for setup data and for what follows from two of them.

use super::edges;
use crate::calls::Calls;
use crate::check::{Checker, Outcome};
use crate::reference::setup::{IDENTIFIER, LENGTH, VERSION};
use crate::rng::Rng;
use eoswynnor::ffi;

/// C10's bytes.
pub const C10: [u8; LENGTH] = [0xf6, 0xab, 0x0e, 0x18, 1, 1, 3, 7];

/// In rule at both ends and between, and out of rule in each way.
const SIZES: [u32; 15] = [
    1024,
    2048,
    4096,
    8192,
    262_144,
    0,
    1,
    1023,
    1025,
    4098,
    262_143,
    262_145,
    263_168,
    0x8000_0000,
    0xffff_fc00,
];

impl Rng {
    /// A size in rule, often one of the ends.
    fn size(&mut self) -> u32 {
        1024 * [1, 256, 1 + self.below(256), 1 + self.below(256)][self.below(4)] as u32
    }

    /// A size in rule, near it, or any word.
    fn any_size(&mut self) -> u32 {
        match self.below(4) {
            0 => SIZES[self.below(SIZES.len())],
            1 => self.word(),
            _ => self.size(),
        }
    }

    fn setup(&mut self) -> ffi::Setup {
        ffi::Setup { remote_invalidation: self.below(2) as u32, send: self.size(), receive: self.size() }
    }

    /// Setup data with any flags and sizes, and noise behind it.
    fn setup_data(&mut self, behind: usize) -> Vec<u8> {
        let mut data = vec![0; LENGTH + behind];
        self.fill(&mut data);
        data[..4].copy_from_slice(&IDENTIFIER);
        data[4] = VERSION;
        data
    }

    /// Setup data or not, of any length to 40.
    fn any_data(&mut self) -> Vec<u8> {
        let mut data = self.setup_data(32);
        match self.below(4) {
            0 => self.fill(&mut data),
            1 => data[self.below(LENGTH)] ^= 1 << self.below(8),
            _ => {}
        }
        data.truncate([LENGTH, self.below(41)][self.below(2)]);
        data
    }
}

fn every_length<C: Calls>(check: &mut Checker<C>, data: &[u8]) -> Outcome {
    (0..=data.len()).try_for_each(|length| check.read_setup(data, length))
}

fn reading<C: Calls>(check: &mut Checker<C>, rng: &mut Rng, cases: u64) -> Outcome {
    let mut bases = vec![C10.to_vec(), rng.setup_data(0), rng.setup_data(1), rng.setup_data(32)];
    bases.extend([[0, 0, 0], [1, 0, 0], [0, 255, 0], [1, 255, 255], [0xfe, 3, 7]].map(|end| {
        let mut data = C10.to_vec();
        data[5..].copy_from_slice(&end);
        data
    }));
    check.family("setup every length");
    for _ in 0..50 {
        let mut data = rng.setup_data(32);
        every_length(check, &data)?;
        // Setup data once more, right behind the first, and then behind bytes that are none.
        data[LENGTH..2 * LENGTH].copy_from_slice(&C10);
        every_length(check, &data)?;
        data[rng.below(5)] ^= 1 << rng.below(8);
        every_length(check, &data)?;
        rng.fill(&mut data);
        every_length(check, &data)?;
    }
    every_length(check, &[0; 40])?;
    every_length(check, &[0xff; 40])?;
    check.family("setup bit flips");
    for base in &bases {
        for (one, two) in (0..64).flat_map(|one| (0..=one).map(move |two| (one, two))) {
            let mut data = base.clone();
            data[one / 8] ^= 1 << (one % 8);
            if one != two {
                data[two / 8] ^= 1 << (two % 8);
            }
            check.read_setup(&data, data.len())?;
        }
    }
    check.family("setup every byte");
    for (base, place) in bases.iter().flat_map(|base| (0..LENGTH).map(move |place| (base, place))) {
        let mut data = base.clone();
        for byte in 0..=255 {
            data[place] = byte;
            check.read_setup(&data, data.len())?;
        }
    }
    check.family("setup size bytes");
    for (flags, pair) in
        [0, 1, 0xfe, 0xff].into_iter().flat_map(|flags| (0..=u16::MAX).map(move |p| (flags, p)))
    {
        let [send, receive] = pair.to_be_bytes();
        check.read_setup(&[0xf6, 0xab, 0x0e, 0x18, 1, flags, send, receive], LENGTH)?;
    }
    // RFC 8797 section 5.2 describes a search for the identifier; document 01 has none.
    check.family("setup behind others");
    for (ahead, byte) in (1..=32).flat_map(|ahead| [(ahead, 0), (ahead, 1), (ahead, 0xf6), (ahead, 0xff)]) {
        let data = [vec![byte; ahead], rng.setup_data(8)].concat();
        check.read_setup(&data, data.len())?;
    }
    check.family("setup random bytes");
    (0..cases).try_for_each(|_| {
        let data = rng.any_data();
        check.read_setup(&data, data.len())
    })
}

fn writing<C: Calls>(check: &mut Checker<C>, rng: &mut Rng, cases: u64) -> Outcome {
    let flags = [0, 1, 2, u32::MAX];
    check.family("setup write sizes");
    let near = (0..=258).flat_map(|n| [-1, 0, 1].map(|step| (n * 1024u32).wrapping_add_signed(step)));
    for size in near.chain(edges()) {
        for (other, remote_invalidation) in
            [1024, 4096, 262_144, 0, 1025, u32::MAX].iter().flat_map(|&other| flags.map(|flag| (other, flag)))
        {
            for room in [0, 7, 8, 40] {
                check.write_setup(ffi::Setup { remote_invalidation, send: size, receive: other }, room)?;
                check.write_setup(ffi::Setup { remote_invalidation, send: other, receive: size }, room)?;
            }
        }
    }
    check.family("setup write all sizes");
    for (send, receive) in
        (1..=256).flat_map(|send| (1..=256).map(move |receive| (send * 1024, receive * 1024)))
    {
        let remote_invalidation = rng.below(2) as u32;
        check.write_setup(ffi::Setup { remote_invalidation, send, receive }, 8 + rng.below(3))?;
    }
    check.family("setup write rooms");
    for (send, receive) in SIZES.iter().flat_map(|&send| SIZES.map(|receive| (send, receive))) {
        for (remote_invalidation, room) in
            flags.iter().flat_map(|&flag| (0..=40).map(move |room| (flag, room)))
        {
            check.write_setup(ffi::Setup { remote_invalidation, send, receive }, room)?;
        }
    }
    check.family("setup write flags");
    for remote_invalidation in edges() {
        for room in [0, 7, 8, 9] {
            check.write_setup(ffi::Setup { remote_invalidation, ..rng.setup() }, room)?;
        }
    }
    check.family("setup write random");
    for _ in 0..cases {
        let remote_invalidation = [rng.below(2) as u32, rng.word()][rng.below(2)];
        let setup = ffi::Setup { remote_invalidation, send: rng.any_size(), receive: rng.any_size() };
        check.write_setup(setup, [8, rng.below(41)][rng.below(2)])?;
    }
    Ok(())
}

fn round_trips<C: Calls>(check: &mut Checker<C>, rng: &mut Rng) -> Outcome {
    check.family("setup read then write");
    for pair in 0..=u16::MAX {
        let [send, receive] = pair.to_be_bytes();
        for flags in [0, 1] {
            check.read_write_setup(&[0xf6, 0xab, 0x0e, 0x18, 1, flags, send, receive])?;
        }
    }
    for flags in 0..=255 {
        let mut data = rng.setup_data(flags as usize % 4);
        data[5] = flags;
        check.read_write_setup(&data)?;
    }
    check.family("setup write then read");
    for (send, receive) in
        (1..=256).flat_map(|send| (1..=256).map(move |receive| (send * 1024, receive * 1024)))
    {
        for remote_invalidation in [0, 1] {
            let setup = ffi::Setup { remote_invalidation, send, receive };
            check.write_read_setup(setup, LENGTH + rng.below(9))?;
        }
    }
    Ok(())
}

fn agreements<C: Calls>(check: &mut Checker<C>, rng: &mut Rng, cases: u64) -> Outcome {
    check.family("agreement grid");
    let setups: Vec<ffi::Setup> = SIZES
        .iter()
        .flat_map(|&send| SIZES.map(|receive| (send, receive)))
        .flat_map(|(send, receive)| [0, 1, 2].map(|r| ffi::Setup { remote_invalidation: r, send, receive }))
        .collect();
    for client in &setups {
        setups.iter().try_for_each(|server| check.agree(*client, *server))?;
    }
    check.family("agreement all sizes");
    for (one, two) in (1..=256).flat_map(|one| (1..=256).map(move |two| (one * 1024, two * 1024))) {
        check.agree(ffi::Setup { send: one, ..rng.setup() }, ffi::Setup { receive: two, ..rng.setup() })?;
        check.agree(ffi::Setup { receive: one, ..rng.setup() }, ffi::Setup { send: two, ..rng.setup() })?;
    }
    check.family("agreement one place");
    for edge in edges() {
        for place in 0..6 {
            let mut both = [rng.setup(), rng.setup()];
            let setup = &mut both[place / 3];
            *[&mut setup.remote_invalidation, &mut setup.send, &mut setup.receive][place % 3] = edge;
            check.agree(both[0], both[1])?;
        }
    }
    check.family("agreement random");
    for _ in 0..cases {
        let both = [rng.setup(), rng.setup()];
        let [client, server] = both.map(|setup| match rng.below(6) {
            0 => ffi::Setup { send: rng.any_size(), ..setup },
            1 => ffi::Setup { receive: rng.any_size(), ..setup },
            _ => setup,
        });
        check.agree(client, server)?;
    }
    check.family("setup read then agree");
    (0..cases).try_for_each(|_| check.read_agree(&rng.any_data(), &rng.any_data()))
}

pub fn run<C: Calls>(check: &mut Checker<C>, rng: &mut Rng, cases: u64) -> Outcome {
    reading(check, rng, cases)?;
    writing(check, rng, cases)?;
    round_trips(check, rng)?;
    agreements(check, rng, cases)
}
