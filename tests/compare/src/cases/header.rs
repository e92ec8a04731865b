//! Families for headers: reading, writing, and both in turn.

use super::{edges, put, words};
use crate::calls::Calls;
use crate::check::{Checker, Outcome};
use crate::convert::{asked_length, flatten, unflatten};
use crate::reference::header::{encode, Fault, Header, Kind, ReadSegment, Reply, Segment};
use crate::rng::Rng;
use eoswynnor::ffi;

impl Rng {
    pub(super) fn segment(&mut self) -> Segment {
        let offset = u64::from(self.word()) << 32 | u64::from(self.word());
        Segment { handle: self.word(), length: self.word(), offset }
    }

    pub(super) fn segments(&mut self, count: usize) -> Vec<Segment> {
        (0..count).map(|_| self.segment()).collect()
    }

    /// Positions are multiples of 4 in any order and often are equal.
    fn reads(&mut self, count: usize) -> Vec<ReadSegment> {
        let most = [u32::MAX, 40][self.below(2)];
        let mut positions: Vec<u32> = (0..count).map(|_| self.word().min(most) & !3).collect();
        positions.sort();
        self.reorder(&mut positions);
        positions.into_iter().map(|position| ReadSegment { position, target: self.segment() }).collect()
    }

    pub(super) fn header(
        &mut self,
        kind: Kind,
        reads: usize,
        counts: &[usize],
        reply: Option<usize>,
    ) -> Header {
        Header {
            xid: self.word(),
            credit: self.word(),
            kind,
            reads: self.reads(reads),
            writes: counts.iter().map(|&count| self.segments(count)).collect(),
            reply: Reply { present: reply.is_some(), segments: self.segments(reply.unwrap_or(0)) },
        }
    }

    fn error(&mut self) -> Header {
        let version = Fault::Version { low: self.word(), high: self.word() };
        let fault = [version, Fault::Chunk][self.below(2)];
        self.header(Kind::Error(fault), 0, &[], None)
    }

    /// A MSG or NOMSG of that many reads and write chunks.
    pub(super) fn shape(&mut self, kind: Kind, reads: usize, chunks: usize, reply: Option<usize>) -> Header {
        let (mut left, mut counts) = (16, Vec::new());
        for _ in 0..chunks {
            counts.push([0, left, self.below(left + 1), self.below(left + 1)][self.below(4)]);
            left -= counts[counts.len() - 1];
        }
        self.header(kind, reads, &counts, reply)
    }

    pub(super) fn valid(&mut self) -> Header {
        let kind = match self.below(5) {
            0 => return self.error(),
            1 => Kind::Nomsg,
            _ => Kind::Msg,
        };
        let (reads, chunks, reply) = (self.below(17), self.below(5), self.below(18).checked_sub(1));
        self.shape(kind, reads, chunks, reply)
    }

    /// The header's frame; MSG gets up to `most` bytes of payload.
    pub(super) fn frame(&mut self, header: &Header, most: usize) -> Vec<u8> {
        let mut frame = encode(header);
        if header.kind == Kind::Msg {
            let end = frame.len();
            frame.resize(end + self.below(most + 1), 0);
            self.fill(&mut frame[end..]);
        }
        frame
    }

    /// A valid header's frame with a few words or bytes changed, put in, taken out or cut off.
    pub(super) fn edited(&mut self) -> Vec<u8> {
        let header = self.valid();
        let mut frame = self.frame(&header, 12);
        for _ in 0..1 + self.below(3) {
            let whole = frame.len() / 4;
            let at = self.below(whole.max(1));
            match self.below(7) {
                0 | 1 if whole > 0 => put(&mut frame, at, self.word()),
                2 if whole > 0 => frame[4 * at + self.below(4)] ^= 1 << self.below(8),
                3 if whole > 0 => drop(frame.drain(4 * at..4 * at + 4)),
                4 => drop(frame.splice(4 * at..4 * at, self.word().to_be_bytes())),
                5 => frame.truncate(self.below(frame.len() + 1)),
                _ => frame.push(self.draw() as u8),
            }
        }
        frame
    }

    /// Noise in the reserved words of the list, drawn aside.
    pub(super) fn reserved(&self, reads: &mut [ffi::ReadSegment]) -> Rng {
        let mut own = self.aside();
        reads.iter_mut().for_each(|entry| entry.reserved = own.word());
        own
    }

    /// The flat header with noise in every unused place and reserved word, which must be ignored.
    pub(super) fn noisy(&mut self, header: &Header) -> ffi::Header {
        let mut flat = flatten(header);
        for place in &mut flat.reads[header.reads.len()..] {
            *place = ReadSegment { position: self.word(), target: self.segment() }.into();
        }
        flat.reserved = self.reserved(&mut flat.reads).word();
        let writes = &mut flat.writes[header.writes.concat().len()..];
        for place in writes.iter_mut().chain(&mut flat.reply[header.reply.segments.len()..]) {
            *place = self.segment().into();
        }
        for place in &mut flat.write_counts[header.writes.len()..] {
            *place = self.word();
        }
        if flat.kind != ffi::ERROR_VERSION {
            (flat.low, flat.high) = (self.word(), self.word());
        }
        flat
    }

    /// The same of a header drawn before.
    fn noisy_of(&mut self, kind: Kind, reads: usize, counts: &[usize], reply: Option<usize>) -> ffi::Header {
        let header = self.header(kind, reads, counts, reply);
        self.noisy(&header)
    }
}

pub fn c2() -> Header {
    Header { xid: 0x2a, credit: 0x20, ..Header::default() }
}

/// C2's frame with one word replaced.
pub fn c2_with(word: usize, value: u32) -> Vec<u8> {
    let mut list = [0x2a, 1, 0x20, 0, 0, 0, 0];
    list[word] = value;
    words(&list)
}

/// Positions 8 apart and rising, so that one can fall, or be equal, without more ado.
fn spread(mut header: Header) -> Header {
    header.reads.iter_mut().enumerate().for_each(|(i, entry)| entry.position = 8 * (i as u32 + 2));
    header
}

pub fn reads16() -> Header {
    spread(Rng(1).header(Kind::Msg, 16, &[], None))
}

pub fn full() -> Header {
    let mut header = Rng(2).header(Kind::Msg, 16, &[4, 4, 4, 4], Some(16));
    header.reads.sort_by_key(|entry| entry.position);
    header
}

/// With the read list turned round.
pub fn turned(mut header: Header) -> Header {
    header.reads.reverse();
    header
}

/// Some dozens of valid headers, the corner shapes among them.
pub(super) fn bases(rng: &mut Rng) -> Vec<Header> {
    let mut bases = vec![
        c2(),
        reads16(),
        full(),
        turned(reads16()),
        turned(full()),
        rng.header(Kind::Error(Fault::Version { low: 1, high: 2 }), 0, &[], None),
        rng.header(Kind::Error(Fault::Chunk), 0, &[], None),
        rng.header(Kind::Nomsg, 16, &[16, 0, 0, 0], Some(16)),
        rng.header(Kind::Nomsg, 0, &[], None),
        rng.header(Kind::Nomsg, 1, &[0, 0, 0, 0], Some(0)),
        rng.header(Kind::Msg, 0, &[0, 16], None),
        rng.header(Kind::Msg, 2, &[], Some(1)),
    ];
    bases.extend((0..30).map(|_| rng.valid()));
    bases
}

fn need(flat: &ffi::Header) -> usize {
    unflatten(flat).map_or(100, |header| encode(&header).len())
}

fn every_cut<C: Calls>(check: &mut Checker<C>, frame: &[u8]) -> Outcome {
    (0..=frame.len()).try_for_each(|length| check.read_part(frame, length))
}

fn rooms<C: Calls>(check: &mut Checker<C>, flat: &ffi::Header) -> Outcome {
    let need = need(flat);
    [0, need - 1, need, need + 1, need + 1500].into_iter().try_for_each(|room| check.write(flat, room))
}

fn shapes<C: Calls>(check: &mut Checker<C>, rng: &mut Rng, cases: u64) -> Outcome {
    let mut grid: Vec<Header> = (0..20).map(|_| rng.error()).collect();
    for shape in 0..2 * 17 * 5 * 18 {
        let kind = [Kind::Msg, Kind::Nomsg][shape % 2];
        grid.push(rng.shape(kind, shape / 2 % 17, shape / 34 % 5, (shape / 170).checked_sub(1)));
    }
    check.family("read shapes");
    for header in &grid {
        for most in [0, 4, 40] {
            check.read(&rng.frame(header, most))?;
        }
    }
    for _ in 0..cases {
        let header = rng.valid();
        check.read(&rng.frame(&header, 300))?;
    }
    check.family("write shapes");
    grid.iter().try_for_each(|header| rooms(check, &rng.noisy(header)))?;
    check.family("write then read");
    for i in 0..cases as usize {
        let header = grid.get(i).cloned().unwrap_or_else(|| rng.valid());
        let flat = rng.noisy(&header);
        check.write_read(&flat, need(&flat) + rng.below(60))?;
    }
    check.family("read then write");
    for i in 0..cases as usize {
        let header = grid.get(i).cloned().unwrap_or_else(|| rng.valid());
        check.read_write(&rng.frame(&header, 100))?;
    }
    Ok(())
}

fn damage<C: Calls>(check: &mut Checker<C>, rng: &mut Rng) -> Outcome {
    let frames: Vec<Vec<u8>> = bases(rng).iter().map(|header| rng.frame(header, 9)).collect();
    check.family("read every truncation");
    frames.iter().try_for_each(|frame| every_cut(check, frame))?;
    check.family("read one damaged word");
    for (frame, word) in frames.iter().flat_map(|frame| (0..frame.len() / 4).map(move |word| (frame, word))) {
        let old = u32::from_be_bytes(frame[4 * word..4 * word + 4].try_into().expect("4 bytes"));
        let near = [-8, -4, -2, -1, 1, 2, 4, 8].map(|step| old.wrapping_add_signed(step));
        let flips = (0..32).map(|bit| old ^ 1 << bit);
        let mut frame = frame.clone();
        for value in [0, 1, 2, 3, 4, 5, 16, 17, u32::MAX].into_iter().chain(near).chain(flips) {
            put(&mut frame, word, value);
            check.read(&frame)?;
        }
    }
    Ok(())
}

fn fixed_words<C: Calls>(check: &mut Checker<C>, rng: &mut Rng) -> Outcome {
    check.family("read version, procedure");
    for version in [0, 1, 2, 3, 0x0100_0000, 0x8000_0001, u32::MAX] {
        for procedure in (0..=8).chain([0x100, 0x104, 0x0100_0000, 0x0400_0000, 0x8000_0000, u32::MAX]) {
            every_cut(check, &words(&[0x2a, version, 0x20, procedure, 1, 0, 0, 0]))?;
            every_cut(check, &words(&[0x2a, version, 0x20, procedure, 0, 0, 0]))?;
            every_cut(check, &words(&[0x2a, version, 0x20, procedure, 2]))?;
        }
    }
    check.family("read error codes");
    for code in edges() {
        every_cut(check, &words(&[7, 1, 8, 4, code, 0, u32::MAX, 0]))?;
    }
    check.family("read bytes behind");
    for header in bases(rng).iter().filter(|header| header.kind != Kind::Msg) {
        for (behind, byte) in (0..=24).chain([1000]).flat_map(|n| [(n, 0), (n, 1), (n, 0xff)]) {
            check.read(&[encode(header), vec![byte; behind]].concat())?;
        }
    }
    Ok(())
}

fn limits<C: Calls>(check: &mut Checker<C>, rng: &mut Rng) -> Outcome {
    check.family("read limits");
    for kind in [Kind::Msg, Kind::Nomsg] {
        for count in 15..=18 {
            every_cut(check, &encode(&rng.header(kind, count, &[1], Some(1))))?;
            every_cut(check, &encode(&rng.header(kind, 1, &[1], Some(count))))?;
        }
        let five = [4, 4, 4, 4, 0];
        for counts in
            [&[0; 4][..], &[0; 5], &[0; 6], &five[..4], &five, &[5, 5, 6, 1, 1], &[16], &[17], &[8, 9]]
        {
            every_cut(check, &encode(&rng.header(kind, 1, counts, Some(1))))?;
        }
        // A fault before the limit is met first; a position that falls is none.
        for (entry, step) in (0..17).flat_map(|entry| [(entry, 9), (entry, 12)]) {
            let mut header = spread(rng.header(kind, 17, &[], None));
            header.reads[entry].position -= step;
            check.read(&encode(&header))?;
            check.read(&encode(&turned(header)))?;
        }
    }
    // Every spread of 15, 16 and 17 segments over four chunks or fewer.
    for digits in 0..18usize.pow(4) {
        let counts = [digits % 18, digits / 18 % 18, digits / 324 % 18, digits / 5832];
        if (15..=17).contains(&counts.iter().sum::<usize>()) {
            let used = 4 - counts.iter().rev().take_while(|&&count| count == 0).count();
            check.read(&encode(&rng.header(Kind::Msg, 0, &counts, None)))?;
            check.read(&encode(&rng.header(Kind::Nomsg, 0, &counts[..used], None)))?;
        }
    }
    for edge in edges() {
        // As many segments as can be there, then the ends of the lists; cut behind the count too.
        let segments = rng.segments(edge.min(17) as usize);
        let reply = Reply { present: true, segments: segments.clone() };
        let mut frame = encode(&Header { reply, ..c2() });
        put(&mut frame, 7, edge);
        check.read(&frame)?;
        check.read_part(&frame, 32)?;
        for before in (0..=16).map(|n| vec![n]).chain([vec![5, 6], vec![0, 16], vec![3, 0, 9]]) {
            let mut header = rng.header(Kind::Msg, 0, &before, None);
            header.writes.push(segments.clone());
            let mut frame = encode(&header);
            let count = 6 + 2 * before.len() + 4 * before.iter().sum::<usize>() - 1;
            put(&mut frame, count, edge);
            check.read(&frame)?;
            check.read_part(&frame, 4 * count + 4)?;
        }
    }
    // The message limit is no limit of reading.
    for payload in [1024, 1_048_576, 1_048_577, 2_000_000] {
        check.read(&[encode(&full()), vec![0xa5; payload]].concat())?;
    }
    Ok(())
}

/// What is wrong, or just not wrong, with an entry's position, given the one before it. None that is
/// a multiple of 4 is wrong.
const POSITIONS: [fn(u32, u32) -> u32; 8] = [
    |old, _| old.wrapping_add(1),
    |old, _| old.wrapping_add(2),
    |old, _| old.wrapping_add(3),
    |_, before| before.wrapping_sub(4),
    |_, before| before.wrapping_sub(1),
    |_, before| before.wrapping_sub(2),
    |_, before| before,
    |_, _| 0,
];

fn positions<C: Calls>(check: &mut Checker<C>, rng: &mut Rng) -> Outcome {
    let mut headers = Vec::new();
    for count in [1, 2, 3, 7, 16] {
        let base = spread(rng.header(Kind::Msg, count, &[], None));
        for (one, two) in (0..count).flat_map(|one| (one..count).map(move |two| (one, two))) {
            for (first, second) in (0..64).map(|n| (n / 8, n % 8)) {
                let mut header = base.clone();
                rng.reorder(&mut header.reads);
                for (entry, fault) in [(one, first), (two, second)] {
                    let before = if entry == 0 { 0 } else { header.reads[entry - 1].position };
                    header.reads[entry].position = POSITIONS[fault](header.reads[entry].position, before);
                }
                headers.push((header, one));
            }
        }
    }
    check.family("read positions");
    for (header, entry) in &headers {
        let frame = encode(header);
        let start = 16 + 24 * entry;
        for length in [start + 8, start + 23, start + 24, frame.len()] {
            check.read_part(&frame, length)?;
        }
    }
    check.family("write positions");
    headers.iter().try_for_each(|(header, _)| rooms(check, &rng.noisy(header)))
}

fn random_frames<C: Calls>(check: &mut Checker<C>, rng: &mut Rng, cases: u64) -> Outcome {
    check.family("read random bytes");
    for _ in 0..cases {
        let mut frame = vec![0; rng.below(400)];
        rng.fill(&mut frame);
        // Half of them get past the version word.
        if frame.len() >= 16 && rng.below(2) == 0 {
            put(&mut frame, 1, 1);
            put(&mut frame, 3, rng.below(5) as u32);
        }
        check.read(&frame)?;
    }
    check.family("read random words");
    for _ in 0..cases {
        let mut list = vec![rng.word(), 1, rng.word(), [0, 0, 1, 1, 4][rng.below(5)]];
        for _ in 0..rng.below(120) {
            list.push([rng.below(2) as u32, rng.word() & !3][rng.below(2)]);
        }
        check.read(&words(&list))?;
    }
    check.family("read edited frames");
    (0..cases).try_for_each(|_| check.read(&rng.edited()))
}

/// One fault, or a change that makes room for another, in a header to be written.
const FAULTS: [fn(&mut ffi::Header); 27] = [
    |h| h.read_count = 0,
    |h| h.read_count = 16,
    |h| h.read_count = 17,
    |h| h.write_chunks = 0,
    |h| h.write_chunks = 4,
    |h| h.write_chunks = 5,
    |h| h.write_counts = [16, 0, 0, 0],
    |h| h.write_counts = [0, 0, 0, 17],
    |h| h.write_counts = [u32::MAX, 1, 0, 0],
    |h| h.write_counts = [0x4000_0000; 4],
    |h| (h.reply_present, h.reply_count) = (0, 0),
    |h| (h.reply_present, h.reply_count) = (1, 0),
    |h| (h.reply_present, h.reply_count) = (1, 17),
    |h| (h.reply_present, h.reply_count) = (0, 1),
    |h| (h.reply_present, h.reply_count) = (0, u32::MAX),
    |h| h.reply_present = 2,
    |h| h.reads[0].position |= 1,
    |h| h.reads[1].position |= 2,
    |h| h.reads[15].position |= 3,
    |h| h.reads[0].position = 0xffff_fffc,
    |h| h.reads[1].position = 0,
    |h| h.reads[2].position = 1,
    |h| h.reads[15].position = 0,
    |h| h.kind = 1,
    |h| h.kind = 2,
    |h| h.kind = 3,
    |h| h.kind = 4,
];

pub(super) const COUNTED: usize = 9;

/// One of the fields that a header is judged by before its entries.
pub(super) fn counted(flat: &mut ffi::Header, field: usize) -> &mut u32 {
    match field {
        0 => &mut flat.read_count,
        1 => &mut flat.write_chunks,
        2..=5 => &mut flat.write_counts[field - 2],
        6 => &mut flat.reply_count,
        7 => &mut flat.reply_present,
        _ => &mut flat.kind,
    }
}

fn faulty_headers<C: Calls>(check: &mut Checker<C>, rng: &mut Rng) -> Outcome {
    let bases: Vec<ffi::Header> = bases(rng)[..16].iter().map(|header| rng.noisy(header)).collect();
    check.family("write every room");
    for flat in &bases {
        (0..=need(flat) + 8).try_for_each(|room| check.write(flat, room))?;
    }
    check.family("write fault pairs");
    for base in &bases {
        for (one, two) in FAULTS.iter().flat_map(|one| FAULTS.iter().map(move |two| (one, two))) {
            let mut flat = *base;
            one(&mut flat);
            two(&mut flat);
            rooms(check, &flat)?;
        }
    }
    check.family("write any counts");
    for edge in edges() {
        for (base, field) in bases.iter().flat_map(|base| (0..COUNTED).map(move |field| (base, field))) {
            let mut flat = *base;
            *counted(&mut flat, field) = edge;
            check.write(&flat, 1100)?;
        }
        for other in edges() {
            let mut flat = bases[0];
            flat.write_chunks = 2 + rng.below(3) as u32;
            flat.write_counts = [0; 4];
            flat.write_counts[rng.below(2)] = edge;
            flat.write_counts[flat.write_chunks as usize - 1] = other;
            check.write(&flat, 1100)?;
        }
    }
    Ok(())
}

/// Around 960, which no header passes, around 1,024, where 01's number 21 began, and more.
const LONG_ROOMS: [usize; 8] = [959, 960, 961, 1023, 1024, 1025, 2048, 4096];

/// None, a byte, what the counts ask for and one less or more, and the long ones.
fn long_rooms<C: Calls>(check: &mut Checker<C>, flat: &ffi::Header) -> Outcome {
    let asked = asked_length(flat).min(5000) as usize;
    let near = [0, 1, asked - 1, asked, asked + 1];
    near.into_iter().chain(LONG_ROOMS).try_for_each(|room| check.write(flat, room))
}

/// Write chunks of no, all and nearly all segments: few chunks or many, even and uneven.
const SPREADS: [&[usize]; 12] = [
    &[],
    &[0],
    &[15],
    &[16],
    &[8, 8],
    &[5, 5, 6],
    &[0; 4],
    &[16, 0, 0, 0],
    &[0, 0, 0, 16],
    &[1, 2, 3, 10],
    &[4, 4, 4, 3],
    &[4; 4],
];

/// Those with all 16 segments in four chunks.
fn full_spreads() -> impl Iterator<Item = &'static [usize]> {
    SPREADS.into_iter().filter(|counts| (counts.len(), counts.iter().sum()) == (4, 16))
}

/// Counts of reads, write chunks and the reply chunk, and the length by hand: 28 and 24 for each read, 8 for
/// each chunk, 16 for each segment of one, 4 for a reply chunk and 16 for each segment of it.
const LENGTHS: [(usize, &[usize], Option<usize>, usize); 16] = [
    (16, &[4; 4], Some(16), 960), // C13
    (16, &[16, 0, 0, 0], Some(16), 960),
    (16, &[0, 0, 0, 16], Some(16), 960),
    (16, &[5, 5, 6], Some(16), 952),
    (16, &[4, 4, 4, 3], Some(16), 944),
    (16, &[4; 4], Some(15), 944),
    (16, &[8, 8], Some(16), 944),
    (15, &[4; 4], Some(16), 936),
    (16, &[4; 4], Some(0), 704),
    (16, &[4; 4], None, 700),
    (16, &[], Some(16), 672),
    (0, &[4; 4], Some(16), 576),
    (16, &[], None, 412),
    (0, &[0], None, 36),
    (0, &[], Some(0), 32),
    (0, &[], None, 28), // C2
];

/// One count past its limit where the header is full: by one, by so much that 1,024 bytes would be passed in
/// an ERROR too, and in an absent chunk.
const OVER: [fn(&mut ffi::Header); 12] = [
    |h| h.read_count = 17,
    |h| h.write_chunks = 5,
    |h| h.write_counts[0] += 1,
    |h| h.write_counts[1] += 1,
    |h| h.write_counts[2] += 1,
    |h| h.write_counts[3] += 1,
    |h| h.reply_count = 17,
    |h| h.read_count = 20,
    |h| h.write_chunks = 14,
    |h| h.write_counts[3] += 6,
    |h| h.reply_count = 22,
    |h| h.reply_present = 0,
];

/// Lengths and refusals by hand, of headers at their limits: 12, 7, 9 and 16 in this order, and no other.
pub fn by_hand<C: Calls>(check: &mut Checker<C>) -> Outcome {
    let rng = &mut Rng(8);
    let wide = [0, 1, 28, 959, 960, 961, 1024, 65_536];
    let refused = |check: &mut Checker<C>, flat: &ffi::Header, number: u32| {
        wide.iter().try_for_each(|&room| check.worked_write(flat, room, Err(number)))
    };
    check.family("lengths by hand");
    for (kind, (reads, counts, reply, length)) in
        [Kind::Msg, Kind::Nomsg].into_iter().flat_map(|kind| LENGTHS.map(|case| (kind, case)))
    {
        let header = rng.header(kind, reads, counts, reply);
        for flat in [flatten(&header), rng.noisy(&header)] {
            for room in wide.into_iter().chain([length - 1, length, length + 1]) {
                let want = if room < length { Err(16) } else { Ok(length) };
                check.worked_write(&flat, room, want)?;
            }
            for at in 0..reads {
                let mut flat = flat;
                flat.reads[at].position |= 1 + at as u32 % 3;
                refused(check, &flat, 9)?;
            }
        }
    }
    for (fault, length) in [(Fault::Version { low: 1, high: 1 }, 28), (Fault::Chunk, 20)] {
        let flat = rng.noisy_of(Kind::Error(fault), 0, &[], None);
        for room in wide.into_iter().chain([length - 1, length, length + 1]) {
            check.worked_write(&flat, room, if room < length { Err(16) } else { Ok(length) })?;
        }
    }
    check.family("limits by hand");
    for counts in full_spreads() {
        for (kind, over) in [Kind::Msg, Kind::Nomsg].into_iter().flat_map(|kind| OVER.map(|o| (kind, o))) {
            let mut flat = rng.noisy_of(kind, 16, counts, Some(16));
            over(&mut flat);
            refused(check, &flat, 7)?;
            flat.reads[15].position |= 2;
            refused(check, &flat, 7)?;
        }
        for kind in [ffi::ERROR_VERSION, ffi::ERROR_CHUNK] {
            let mut flat = rng.noisy_of(Kind::Msg, 16, counts, Some(16));
            flat.kind = kind;
            refused(check, &flat, 12)?;
            for over in OVER {
                let mut flat = flat;
                over(&mut flat);
                flat.reads[0].position |= 1;
                refused(check, &flat, 12)?;
            }
        }
    }
    Ok(())
}

/// Headers at their limits and around them, in rooms of all sorts.
pub fn longest<C: Calls>(check: &mut Checker<C>, rng: &mut Rng) -> Outcome {
    check.family("write at the limits");
    for (kind, reads) in
        [Kind::Msg, Kind::Nomsg].into_iter().flat_map(|kind| [0, 1, 15, 16].map(|n| (kind, n)))
    {
        for (counts, reply) in SPREADS
            .iter()
            .flat_map(|counts| [None, Some(0), Some(1), Some(15), Some(16)].map(|n| (counts, n)))
        {
            long_rooms(check, &rng.noisy_of(kind, reads, counts, reply))?;
        }
    }
    // The 969 spreads of 16 segments over four chunks, all else full.
    for digits in 0..17usize.pow(3) {
        let [one, two, three] = [digits % 17, digits / 17 % 17, digits / 289];
        if let Some(four) = 16usize.checked_sub(one + two + three) {
            let kind = [Kind::Msg, Kind::Nomsg][digits % 2];
            let flat = rng.noisy_of(kind, 16, &[one, two, three, four], Some(16));
            [959, 960, 961].iter().try_for_each(|&room| check.write(&flat, room))?;
        }
    }
    let fulls: Vec<Header> = [Kind::Msg, Kind::Nomsg]
        .into_iter()
        .flat_map(|kind| full_spreads().map(move |counts| (kind, counts)))
        .map(|(kind, counts)| rng.header(kind, 16, counts, Some(16)))
        .collect();
    let empties = [Kind::Msg, Kind::Nomsg].map(|kind| rng.header(kind, 0, &[0; 4], Some(0)));
    check.family("write over the limits");
    for base in fulls.iter().chain(&empties) {
        let flat = rng.noisy(base);
        // One count, by so much that 960 and 1,024 bytes would be passed, or none; then two counts.
        for (field, over) in (0..7).flat_map(|field| (1..=30).map(move |over| (field, over))) {
            let mut flat = flat;
            let count = counted(&mut flat, field);
            *count = over + [16, 4, *count, *count, *count, *count, 16][field];
            long_rooms(check, &flat)?;
        }
        for (field, edge) in (0..7).flat_map(|field| edges().into_iter().map(move |edge| (field, edge))) {
            let mut flat = flat;
            *counted(&mut flat, field) = edge;
            [0, 960, 1024, 4096].iter().try_for_each(|&room| check.write(&flat, room))?;
        }
        for (one, two) in OVER.iter().flat_map(|one| OVER.iter().map(move |two| (one, two))) {
            let mut flat = flat;
            one(&mut flat);
            two(&mut flat);
            long_rooms(check, &flat)?;
        }
    }
    check.family("write full ERRORs");
    for (base, kind) in fulls
        .iter()
        .chain(&empties)
        .flat_map(|base| [ffi::ERROR_VERSION, ffi::ERROR_CHUNK].map(|kind| (base, kind)))
    {
        let flat = ffi::Header { kind, ..rng.noisy(base) };
        // All, each alone, and none of the three; then with one over its limit.
        for kept in 0..8 {
            let mut flat = flat;
            if kept & 1 == 0 {
                flat.read_count = 0;
            }
            if kept & 2 == 0 {
                flat.write_chunks = 0;
            }
            if kept & 4 == 0 {
                (flat.reply_present, flat.reply_count) = (0, 0);
            }
            long_rooms(check, &flat)?;
            for over in OVER {
                let mut flat = flat;
                over(&mut flat);
                long_rooms(check, &flat)?;
            }
        }
        for over in (0..7).flat_map(|field| (1..=30).map(move |over| (field, over))) {
            let mut flat = flat;
            *counted(&mut flat, over.0) += over.1;
            [0, 28, 960, 1024, 4096].iter().try_for_each(|&room| check.write(&flat, room))?;
        }
    }
    check.family("write full, unaligned");
    for (base, entry) in fulls.iter().flat_map(|base| (0..16).map(move |entry| (base, entry))) {
        let flat = rng.noisy(base);
        for step in 1..=3 {
            let mut flat = flat;
            flat.reads[entry].position |= step;
            long_rooms(check, &flat)?;
            OVER[(entry + step as usize) % 12](&mut flat);
            long_rooms(check, &flat)?;
        }
    }
    Ok(())
}

fn random_headers<C: Calls>(check: &mut Checker<C>, rng: &mut Rng, cases: u64) -> Outcome {
    check.family("write random headers");
    for _ in 0..cases {
        let header = rng.valid();
        let mut flat = rng.noisy(&header);
        for _ in 0..rng.below(4) {
            let (at, value) = (rng.below(16), rng.word());
            match rng.below(9) {
                0 => flat.read_count = rng.below(18) as u32,
                1 => flat.write_chunks = rng.below(6) as u32,
                2 => flat.write_counts[at % 4] = value,
                3 => flat.write_counts[at % 4] = rng.below(9) as u32,
                4 => (flat.reply_present, flat.reply_count) = (rng.below(2) as u32, rng.below(18) as u32),
                5 => flat.kind = rng.below(6) as u32,
                6 => flat.reads[at].position = value,
                7 => flat.reads[at].position = value & !3,
                _ => FAULTS[rng.below(FAULTS.len())](&mut flat),
            }
        }
        let need = need(&flat);
        let room = [need, need - 1, need + 1, need + 700, rng.below(need), need + rng.below(9)][rng.below(6)];
        check.write(&flat, room)?;
    }
    Ok(())
}

pub fn run<C: Calls>(check: &mut Checker<C>, rng: &mut Rng, cases: u64) -> Outcome {
    shapes(check, rng, cases)?;
    damage(check, rng)?;
    fixed_words(check, rng)?;
    limits(check, rng)?;
    positions(check, rng)?;
    random_frames(check, rng, cases)?;
    faulty_headers(check, rng)?;
    random_headers(check, rng, cases)?;
    // Drawn aside, so that all else is drawn as without them.
    by_hand(check)?;
    longest(check, &mut rng.aside())
}
