//! Families for the grant and the error reply.

use super::header::{bases, c2_with};
use super::{edges, put, words};
use crate::calls::Calls;
use crate::check::{Checker, Outcome};
use crate::reference::header::{Fault, Header, Kind};
use crate::rng::Rng;

const LIMITS: [u32; 6] = [0, 1, 2, 32, u32::MAX - 1, u32::MAX];

/// None, one byte too few for each reply, just enough, and more.
const ROOMS: [usize; 6] = [0, 19, 20, 27, 28, 40];

fn numbers() -> impl Iterator<Item = u32> {
    (0..=40).chain(edges().into_iter().filter(|number| *number > 40))
}

/// Those of document 01, those above, and words of which a part is 4.
fn procedures() -> impl Iterator<Item = u32> {
    (0..=8).chain([0x0104, 0x0001_0004, 0x0400_0000, 0x0000_0400, 0x8000_0000, 0x8000_0004, u32::MAX])
}

/// The first ones, the ends, one byte alone in each place, so that 1 with its bytes turned round is among
/// them, 1 beside another byte, and four different bytes.
fn versions() -> Vec<u32> {
    let bytes = [1, 2, 0x80, 0xff].into_iter().flat_map(|byte| [0, 8, 16, 24].map(|place| byte << place));
    let beside = [0x0101, 0x0001_0001, 0x0100_0001, 0x8000_0001, 0xffff_ff01];
    let others = [0, 3, 4, 7, 0x0102_0304, 0x0403_0201, 0x89ab_cdef, 0x7fff_ffff, u32::MAX - 1, u32::MAX];
    bytes.chain(beside).chain(others).collect()
}

/// A version and words that have all of its bytes, some of them or none.
fn sharing(version: u32) -> [u32; 8] {
    let (turned, moved) = (version.swap_bytes(), version.rotate_left(8));
    [
        version,
        turned,
        moved,
        version ^ 0xff,
        version ^ 0xff00_0000,
        version & 0xffff,
        version.wrapping_add(1),
        !version,
    ]
}

impl Rng {
    /// Ten words: the fixed ones and noise behind.
    fn fixed(&mut self, version: u32, credit: u32, procedure: u32) -> Vec<u8> {
        let mut frame = vec![0; 40];
        self.fill(&mut frame);
        put(&mut frame, 1, version);
        put(&mut frame, 2, credit);
        put(&mut frame, 3, procedure);
        frame
    }

    /// Noise, equal bytes, and fixed words of the first versions and procedures.
    fn fronts(&mut self) -> Vec<Vec<u8>> {
        let mut noise = vec![0; 40];
        self.fill(&mut noise);
        let mut fronts = vec![noise, vec![0; 40], vec![0xff; 40]];
        for (version, procedure) in
            (0..3).flat_map(|version| (0..6).map(move |procedure| (version, procedure)))
        {
            let credit = self.word();
            fronts.push(self.fixed(version, credit, procedure));
        }
        fronts
    }

    /// 1, one of those named, one that differs from 1 in a bit, or any.
    fn version(&mut self) -> u32 {
        let named = versions();
        match self.below(4) {
            0 => 1,
            1 => named[self.below(named.len())],
            2 => 1 ^ 1 << self.below(32),
            _ => self.word(),
        }
    }

    fn limit(&mut self) -> u32 {
        [LIMITS[self.below(LIMITS.len())], 1 + self.below(40) as u32, self.word()][self.below(3)]
    }
}

/// Words asked that lie around the limit, and the ends.
fn around(limit: u32) -> [u32; 7] {
    [0, 1, limit.wrapping_sub(1), limit, limit.wrapping_add(1), u32::MAX - 1, u32::MAX]
}

fn grants<C: Calls>(check: &mut Checker<C>, rng: &mut Rng, cases: u64) -> Outcome {
    check.family("grant");
    for limit in edges() {
        edges().into_iter().chain(around(limit)).try_for_each(|asked| check.grant(asked, limit))?;
    }
    check.family("grant random");
    for _ in 0..cases {
        let limit = rng.limit();
        check.grant([rng.word(), around(limit)[rng.below(7)]][rng.below(2)], limit)?;
    }
    Ok(())
}

fn replies<C: Calls>(check: &mut Checker<C>, rng: &mut Rng, cases: u64) -> Outcome {
    check.family("reply numbers");
    for (number, procedure) in numbers().flat_map(|number| procedures().map(move |p| (number, p))) {
        for version in [1, 2, 0x0100_0000] {
            let (credit, drawn) = (rng.word(), rng.word());
            let frame = rng.fixed(version, credit, procedure);
            for limit in LIMITS.into_iter().chain([drawn]) {
                ROOMS.iter().try_for_each(|&room| check.error_reply(&frame, 40, number, limit, room))?;
            }
        }
    }
    let fronts = rng.fronts();
    check.family("reply frame lengths");
    for (frame, length) in fronts.iter().flat_map(|frame| (0..=40).map(move |length| (frame, length))) {
        for (number, limit) in (0..=22).flat_map(|number| [(number, 0), (number, 32)]) {
            for room in [0, 20, 28] {
                check.error_reply(frame, length, number, limit, room)?;
            }
        }
    }
    check.family("reply buffers");
    for (frame, room) in fronts.iter().flat_map(|frame| (0..=40).map(move |room| (frame, room))) {
        for (number, limit) in (0..=22).flat_map(|number| [0, 1, 32, u32::MAX].map(|limit| (number, limit))) {
            check.error_reply(frame, 16 + rng.below(25), number, limit, room)?;
        }
    }
    check.family("reply credits");
    for limit in LIMITS.into_iter().chain(edges()).chain((0..50).map(|_| rng.word()).collect::<Vec<_>>()) {
        for (credit, number) in around(limit).iter().flat_map(|&credit| (0..=22).map(move |n| (credit, n))) {
            check.error_reply(&rng.fixed(1, credit, 0), 40, number, limit, 28)?;
        }
        for credit in edges() {
            check.error_reply(&rng.fixed(2, credit, 0), 40, 2, limit, 28)?;
            check.error_reply(&rng.fixed(1, credit, 1), 40, 8, limit, 20)?;
        }
    }
    check.family("reply random");
    for _ in 0..cases {
        let limit = rng.limit();
        let credit = [rng.word(), around(limit)[rng.below(7)]][rng.below(2)];
        let procedure = [rng.below(6) as u32, rng.word()][rng.below(2)];
        let version = [1, 2, rng.word()][rng.below(3)];
        let mut frame = rng.fixed(version, credit, procedure);
        if rng.below(8) == 0 {
            rng.fill(&mut frame);
        }
        let length = [40, 16, rng.below(41)][rng.below(3)];
        let number = [rng.below(23) as u32, rng.word()][rng.below(2)];
        check.error_reply(&frame, length, number, limit, [28, rng.below(41)][rng.below(2)])?;
    }
    Ok(())
}

/// The version word: echoed by a version reply and by nothing else.
pub fn echoes<C: Calls>(check: &mut Checker<C>, rng: &mut Rng, cases: u64) -> Outcome {
    check.family("reply versions");
    for (version, number) in versions().into_iter().flat_map(|version| (0..=22).map(move |n| (version, n))) {
        for procedure in procedures() {
            let (credit, limit) = (rng.word(), rng.limit());
            let frame = rng.fixed(version, credit, procedure);
            for (length, room) in [15, 16, 40].into_iter().flat_map(|length| ROOMS.map(|room| (length, room)))
            {
                check.error_reply(&frame, length, number, limit, room)?;
            }
        }
    }
    // The bytes behind would make the words whole.
    check.family("reply versions cut off");
    for (version, length) in versions().into_iter().flat_map(|version| (0..=16).map(move |n| (version, n))) {
        let procedure = [0, 1, 4][rng.below(3)];
        let frame = rng.fixed(version, 32, procedure);
        for (number, room) in (0..=22).flat_map(|number| [0, 20, 28].map(|room| (number, room))) {
            check.error_reply(&frame, length, number, 32, room)?;
        }
    }
    check.family("reply versions shared");
    for version in versions() {
        for (xid, credit) in sharing(version).into_iter().flat_map(|xid| sharing(version).map(|c| (xid, c))) {
            for procedure in sharing(version).into_iter().chain([0]) {
                let frame = words(&[xid, version, credit, procedure]);
                for (number, limit) in [2, 5].into_iter().flat_map(|n| [1, version, u32::MAX].map(|l| (n, l)))
                {
                    check.error_reply(&frame, 16, number, limit, 28)?;
                }
            }
        }
    }
    check.family("reply versions, long");
    for (version, number) in [1, 2, 7, u32::MAX].into_iter().flat_map(|version| [(version, 2), (version, 5)])
    {
        let frame = [rng.fixed(version, 32, 0), vec![0xa5; 1 << 20]].concat();
        for (length, room) in [(frame.len(), 28), (1 << 16, 1 << 16), (16, frame.len())] {
            check.error_reply(&frame, length, number, 32, room)?;
        }
    }
    check.family("reply versions random");
    for _ in 0..cases {
        let (version, limit) = (rng.version(), rng.limit());
        let words = [rng.word(), [0, 1, rng.word()][rng.below(3)]];
        let [credit, procedure] = words.map(|word| [word, sharing(version)[rng.below(8)]][rng.below(2)]);
        let frame = rng.fixed(version, credit, procedure);
        let length = [40, 16, rng.below(41)][rng.below(3)];
        let number = [2, 5, rng.below(23) as u32][rng.below(3)];
        check.error_reply(&frame, length, number, limit, [28, rng.below(41)][rng.below(2)])?;
    }
    Ok(())
}

/// Frames of all sorts, each with the number that reading it gives.
fn after_reading<C: Calls>(check: &mut Checker<C>, rng: &mut Rng, cases: u64) -> Outcome {
    check.family("read then reply");
    for header in bases(rng) {
        let frame = rng.frame(&header, 9);
        for length in 0..=frame.len() {
            check.read_reply(&frame[..length], 1 + rng.below(40) as u32, 28)?;
        }
    }
    for (version, procedure) in [1, 2, 3].into_iter().flat_map(|v| procedures().map(move |p| (v, p))) {
        for (credit, limit) in
            LIMITS.into_iter().flat_map(|limit| around(limit).map(|credit| (credit, limit)))
        {
            for code in 0..4 {
                let frame = words(&[0x2a, version, credit, procedure, code, 0, 0]);
                check.read_reply(&frame, limit, ROOMS[rng.below(6)])?;
            }
        }
    }
    for (version, procedure) in versions().into_iter().flat_map(|v| procedures().map(move |p| (v, p))) {
        for code in 0..4 {
            let frame = words(&[rng.word(), version, rng.word(), procedure, code, 0, 0]);
            let limit = rng.limit();
            check.read_reply(&frame, limit, 28)?;
        }
    }
    for _ in 0..cases {
        let mut frame = rng.edited();
        if frame.len() >= 16 && rng.below(4) == 0 {
            put(&mut frame, [1, 3][rng.below(2)], rng.word());
        }
        let limit = rng.limit();
        check.read_reply(&frame, limit, [28, rng.below(41)][rng.below(2)])?;
    }
    Ok(())
}

/// Replies by hand: C3's, and what is easily missed about the version.
pub fn worked<C: Calls>(check: &mut Checker<C>) -> Outcome {
    check.family("worked replies");
    let version = |version| words(&[0x2a, version, 0x20, 4, 1, 1, 1]);
    let chunk = words(&[0x2a, 1, 0x20, 4, 2]);
    let header = |fault| Header { xid: 0x2a, credit: 0x20, kind: Kind::Error(fault), ..Header::default() };
    let (range, list) = (header(Fault::Version { low: 1, high: 1 }), header(Fault::Chunk));
    for other in [2, 0, 7, 0x0100_0000, 0x0102_0304, u32::MAX] {
        let frame = c2_with(1, other);
        check.worked_reply(&frame, 2, 32, &version(other), Err(2))?;
        check.worked_reply(&frame, 5, 32, &chunk, Ok(list.clone()))?;
        // The reply as a frame of its own.
        check.read(&version(other))?;
        check.start(&version(other), 64)?;
    }
    check.worked_reply(&c2_with(1, 1), 2, 32, &version(1), Ok(range))?;
    check.worked_reply(&c2_with(1, 1), 5, 32, &chunk, Ok(list))?;
    [version(1), chunk].iter().try_for_each(|reply| check.read(reply).and_then(|()| check.start(reply, 64)))
}

/// Frames that get replies and frames that get none, as (frame, whether there is a reply to it): a header's,
/// with other versions and procedures, cut off, damaged.
fn told_apart(rng: &mut Rng) -> Vec<(Vec<u8>, bool)> {
    let mut frames = Vec::new();
    for header in bases(rng) {
        let frame = rng.frame(&header, 9);
        let answered = !matches!(header.kind, Kind::Error(_));
        frames.push((frame.clone(), answered));
        for version in [0, 2, 0x0100_0000, u32::MAX] {
            let mut frame = frame.clone();
            put(&mut frame, 1, version);
            frames.push((frame, answered));
        }
        for procedure in [2, 3, 4, 5, 0x0400_0000] {
            let mut frame = frame.clone();
            put(&mut frame, 3, procedure);
            frames.push((frame, procedure != 4));
        }
        for length in [0, 1, 4, 15, 16, 17, frame.len() - 1] {
            frames.push((frame[..length].to_vec(), answered && length >= 16));
        }
        let mut damaged = frame.clone();
        let at = 16 + rng.below(damaged.len() - 16);
        damaged[at] ^= 1 << rng.below(8);
        frames.push((damaged, answered));
    }
    frames
}

/// Number 21 is given no more, but still taken, and answered none; those beside it are as they were.
pub fn number_21<C: Calls>(check: &mut Checker<C>, rng: &mut Rng) -> Outcome {
    check.family("reply for 21");
    let frames = told_apart(rng);
    for (frame, limit) in
        frames.iter().flat_map(|(frame, _)| [0, 1, 32, u32::MAX].map(|limit| (frame, limit)))
    {
        for (number, room) in (20..=23).flat_map(|number| ROOMS.map(|room| (number, room))) {
            check.error_reply(frame, frame.len(), number, limit, room)?;
        }
        for number in [0, 2, 4, 5, 8, 9, 15, 16, 19, 21, 22, 24, 26, 29, 30, 0x15_00, 0x1500_0000, u32::MAX] {
            check.error_reply(frame, frame.len(), number, limit, [19, 28, 960, 1024][rng.below(4)])?;
        }
    }
    Ok(())
}

/// The same with answers by hand.
pub fn number_21_by_hand<C: Calls>(check: &mut Checker<C>) -> Outcome {
    check.family("reply for 21 by hand");
    for (frame, answered) in &told_apart(&mut Rng(9)) {
        for room in [0, 1, 19, 20, 27, 28, 960, 1024] {
            for number in [20, 21] {
                check.no_reply(frame, number, 0, room, 20)?;
                [1, 32, u32::MAX]
                    .iter()
                    .try_for_each(|&limit| check.no_reply(frame, number, limit, room, 0))?;
            }
            for number in [22, 23, 26, 29] {
                [0, 1, 32].iter().try_for_each(|&limit| check.no_reply(frame, number, limit, room, 20))?;
            }
        }
        // For contrast: numbers that have a reply, to which frames.
        for (number, room) in [(2, 27), (8, 19), (15, 19)] {
            check.no_reply(frame, number, 32, room, if *answered { 16 } else { 0 })?;
        }
    }
    Ok(())
}

/// Frames of all sorts, each with any number.
pub fn read_back<C: Calls>(check: &mut Checker<C>, rng: &mut Rng, cases: u64) -> Outcome {
    check.family("reply read back");
    for (version, number) in versions().into_iter().flat_map(|version| (0..=22).map(move |n| (version, n))) {
        for procedure in procedures() {
            let (credit, limit, room) = (rng.word(), rng.limit(), ROOMS[rng.below(6)]);
            let frame = rng.fixed(version, credit, procedure);
            check.reply_back(&frame, number, 1 + rng.below(40) as u32, 28)?;
            check.reply_back(&frame[..16], number, limit, room)?;
        }
    }
    for header in bases(rng) {
        let mut frame = rng.frame(&header, 9);
        for version in [1, 2, rng.version()] {
            put(&mut frame, 1, version);
            let cut = rng.below(frame.len());
            for number in 0..=22 {
                check.reply_back(&frame, number, 32, 28)?;
                check.reply_back(&frame[..cut], number, 32, 28)?;
            }
        }
    }
    for (version, number) in [(1, 2), (2, 2), (u32::MAX, 2), (1, 5), (7, 5)] {
        let frame = [rng.fixed(version, 32, 0), vec![0xa5; 1 << 20]].concat();
        check.reply_back(&frame, number, 32, 1 << 16)?;
    }
    check.family("reply read back random");
    for _ in 0..cases {
        let mut frame = rng.edited();
        if frame.len() >= 8 && rng.below(2) == 0 {
            let version = rng.version();
            put(&mut frame, 1, version);
        }
        let (limit, number) = (rng.limit(), [2, 5, rng.below(23) as u32][rng.below(3)]);
        check.reply_back(&frame, number, limit, [28, rng.below(41)][rng.below(2)])?;
    }
    Ok(())
}

pub fn run<C: Calls>(check: &mut Checker<C>, rng: &mut Rng, cases: u64) -> Outcome {
    grants(check, rng, cases)?;
    worked(check)?;
    replies(check, rng, cases)?;
    echoes(check, rng, cases)?;
    after_reading(check, rng, cases)?;
    read_back(check, rng, cases)?;
    // Drawn aside, so that all else is drawn as without it.
    number_21(check, &mut rng.aside())?;
    number_21_by_hand(check)
}
