//! Families for what a reply says was landed.

use super::edges;
use super::header::{c2, counted, full, COUNTED};
use crate::calls::Calls;
use crate::check::{Checker, Outcome};
use crate::convert::flatten;
use crate::reference::header::{Header, Kind, Reply, Segment, MAX_WRITE_CHUNKS};
use crate::rng::Rng;
use crate::words::bytes_mut;
use eoswynnor::ffi::{self, Landed, ERROR_CHUNK, ERROR_VERSION, MSG, NOMSG};

/// What was sent, and the reply to it.
type Pair = [ffi::Header; 2];

/// The sent header, the reply, and both.
const WHICH: [&[usize]; 3] = [&[0], &[1], &[0, 1]];

fn check_pair<C: Calls>(check: &mut Checker<C>, [sent, reply]: &Pair) -> Outcome {
    check.returned(sent, reply)
}

fn emptied(segments: &[Segment]) -> Vec<Segment> {
    segments.iter().map(|segment| Segment { length: 0, ..*segment }).collect()
}

impl Rng {
    /// Often nothing, all, or one byte less.
    fn part(&mut self, length: u32) -> u32 {
        let any = self.below(length as usize + 1) as u32;
        [0, length, length.saturating_sub(1), any][self.below(4)]
    }

    /// A chunk as it comes back from a server that fills it from the front.
    fn filled(&mut self, sent: &[Segment]) -> Vec<Segment> {
        let whole = [0, sent.len(), self.below(sent.len() + 1)][self.below(3)];
        let mut back = emptied(sent);
        back[..whole].copy_from_slice(&sent[..whole]);
        if let Some(segment) = back.get_mut(whole) {
            segment.length = self.part(sent[whole].length);
        }
        back
    }

    /// A reply that is taken; of kind NOMSG only where a reply chunk was sent.
    fn reply_to(&mut self, sent: &Header, kind: Kind) -> Header {
        let writes = sent.writes.iter().map(|chunk| self.filled(chunk)).collect();
        let segments = match kind {
            Kind::Nomsg => self.filled(&sent.reply.segments),
            _ => emptied(&sent.reply.segments),
        };
        let reply = match kind {
            Kind::Msg if self.below(2) == 0 => Reply::default(),
            _ => Reply { present: sent.reply.present, segments },
        };
        Header { xid: sent.xid, credit: self.word(), kind, reads: vec![], writes, reply }
    }

    /// Some segments made empty.
    fn thinned(&mut self, mut header: Header) -> Header {
        let segments = header.writes.iter_mut().flatten().chain(&mut header.reply.segments);
        segments.filter(|_| self.below(4) == 0).for_each(|segment| segment.length = 0);
        header
    }

    fn sent(&mut self) -> Header {
        let kind = [Kind::Msg, Kind::Nomsg][self.below(2)];
        let reads = [0, self.below(17)][self.below(2)];
        let (chunks, reply) = (self.below(5), self.below(18).checked_sub(1));
        let sent = self.shape(kind, reads, chunks, reply);
        if self.below(2) == 0 {
            return sent;
        }
        self.thinned(sent)
    }

    /// A pair that is taken.
    fn answered(&mut self) -> [Header; 2] {
        let sent = self.sent();
        let nomsg = sent.reply.present && self.below(3) > 0;
        let reply = self.reply_to(&sent, if nomsg { Kind::Nomsg } else { Kind::Msg });
        [sent, reply]
    }

    /// Noise in every unused place and reserved word.
    fn noisy_pair(&mut self, [sent, reply]: &[Header; 2]) -> Pair {
        [self.noisy(sent), self.noisy(reply)]
    }

    /// One word of a pair, or one bit, made another.
    fn damage(&mut self, pair: &mut Pair) {
        let at = self.below(2 * WORDS);
        let old = word(pair, at);
        let bit = old ^ 1 << self.below(32);
        let near = old.wrapping_add_signed(self.below(5) as i32 - 2);
        put(pair, at, [self.word(), bit, near][self.below(3)]);
    }
}

/// Words of a header.
const WORDS: usize = size_of::<ffi::Header>() / 4;

fn word(pair: &mut Pair, at: usize) -> u32 {
    let bytes = &bytes_mut(&mut pair[at / WORDS])[at % WORDS * 4..][..4];
    u32::from_ne_bytes(bytes.try_into().expect("4 bytes"))
}

fn put(pair: &mut Pair, at: usize, value: u32) {
    bytes_mut(&mut pair[at / WORDS])[at % WORDS * 4..][..4].copy_from_slice(&value.to_ne_bytes());
}

/// Lengths of segments, chunk by chunk, and those of the reply chunk.
type Lengths = (&'static [&'static [u32]], Option<&'static [u32]>);

/// A pair worked by hand: the reply's kind, what was sent, what came back, and what landed or the number.
pub struct Worked {
    pub name: &'static str,
    kind: Kind,
    sent: Lengths,
    back: Lengths,
    pub want: Result<Landed, u32>,
}

fn of_lengths(kind: Kind, (writes, reply): Lengths) -> Header {
    let chunk = |lengths: &[u32]| -> Vec<Segment> {
        lengths.iter().map(|&length| Segment { handle: 7, length, offset: 1 << 40 }).collect()
    };
    Header {
        kind,
        writes: writes.iter().map(|lengths| chunk(lengths)).collect(),
        reply: Reply { present: reply.is_some(), segments: chunk(reply.unwrap_or_default()) },
        ..c2()
    }
}

impl Worked {
    /// The kind of the sent one does not matter.
    pub fn headers(&self, sent: Kind) -> [Header; 2] {
        [of_lengths(sent, self.sent), of_lengths(self.kind, self.back)]
    }
}

const FULL: &[&[u32]] = &[&[u32::MAX; 4] as &[u32]; 4];

pub fn worked() -> Vec<Worked> {
    type Chunks = &'static [&'static [u32]];
    type Chunk = Option<&'static [u32]>;
    let landed = |writes, reply| Ok(Landed { writes, reply });
    let none = landed([0; 4], 0);
    let msg = |name, sent: Chunks, back: Chunks, want| {
        let (sent, back) = ((sent, None), (back, None));
        Worked { name, kind: Kind::Msg, sent, back, want }
    };
    let reply = |name, kind, sent: Chunk, back: Chunk, want| {
        let (sent, back): (Lengths, Lengths) = ((&[], sent), (&[], back));
        Worked { name, kind, sent, back, want }
    };
    use Kind::{Msg, Nomsg};
    vec![
        // Write chunks.
        msg("an empty segment is full", &[&[4, 0, 4]], &[&[4, 0, 2]], landed([6, 0, 0, 0], 0)),
        msg("a gap", &[&[4, 4, 4]], &[&[4, 0, 1]], Err(26)),
        msg("nothing landed", &[&[4, 4]], &[&[0, 0]], none),
        msg("each chunk for itself", &[&[4, 4], &[4]], &[&[2, 0], &[3]], landed([2, 3, 0, 0], 0)),
        msg("a gap before the neighbour", &[&[4, 0, 4]], &[&[2, 0, 1]], Err(26)),
        msg("a part is not full", &[&[4, 4]], &[&[3, 1]], Err(26)),
        msg("a gap of 2^32 bytes", &[&[1 << 31, 1 << 31, 4]], &[&[0, 0, 1]], Err(26)),
        msg("all full", &[&[4, 4], &[5]], &[&[4, 4], &[5]], landed([8, 5, 0, 0], 0)),
        msg("one byte too many", &[&[4]], &[&[5]], Err(26)),
        msg("one byte where none was lent", &[&[0]], &[&[1]], Err(26)),
        msg("four chunks", &[&[1], &[2], &[3], &[4]], &[&[1], &[2], &[3], &[4]], landed([1, 2, 3, 4], 0)),
        msg(
            "chunks of no segments",
            &[&[], &[3], &[], &[5]],
            &[&[], &[3], &[], &[5]],
            landed([0, 3, 0, 5], 0),
        ),
        msg("no chunks", &[], &[], none),
        msg("a chunk less", &[&[4], &[]], &[&[4]], Err(26)),
        msg("a chunk more", &[&[4]], &[&[4], &[]], Err(26)),
        msg("a segment less", &[&[4, 4]], &[&[4]], Err(26)),
        msg("the same segments in other chunks", &[&[0, 0], &[0]], &[&[0], &[0, 0]], Err(26)),
        msg(
            "the most in one chunk",
            &[&[u32::MAX; 16]],
            &[&[u32::MAX; 16]],
            landed([0xf_ffff_fff0, 0, 0, 0], 0),
        ),
        msg("the most in four", FULL, FULL, landed([0x3_ffff_fffc; 4], 0)),
        // The reply chunk.
        reply("missing in MSG", Msg, Some(&[4]), None, none),
        reply("empty in MSG", Msg, Some(&[4, 4]), Some(&[0, 0]), none),
        reply("landed in MSG", Msg, Some(&[4, 4]), Some(&[1, 0]), Err(26)),
        reply("full in MSG", Msg, Some(&[4, 4]), Some(&[4, 4]), Err(26)),
        reply("landed behind an empty segment in MSG", Msg, Some(&[0, 4]), Some(&[0, 1]), Err(26)),
        reply("of no segments in MSG", Msg, Some(&[]), Some(&[]), none),
        reply("fewer segments in MSG", Msg, Some(&[4, 4]), Some(&[0]), Err(26)),
        reply("not sent, in MSG", Msg, None, Some(&[]), Err(26)),
        reply("none in MSG", Msg, None, None, none),
        reply("missing in NOMSG", Nomsg, Some(&[4]), None, Err(26)),
        reply("landed in NOMSG", Nomsg, Some(&[4, 4]), Some(&[4, 1]), landed([0; 4], 5)),
        reply("empty in NOMSG", Nomsg, Some(&[4, 4]), Some(&[0, 0]), none),
        reply(
            "an empty segment is full in NOMSG",
            Nomsg,
            Some(&[4, 0, 4]),
            Some(&[4, 0, 2]),
            landed([0; 4], 6),
        ),
        reply("a gap in NOMSG", Nomsg, Some(&[4, 4, 4]), Some(&[4, 0, 1]), Err(26)),
        reply("of no segments in NOMSG", Nomsg, Some(&[]), Some(&[]), none),
        reply("not sent, in NOMSG", Nomsg, None, Some(&[0]), Err(26)),
        reply("none in NOMSG", Nomsg, None, None, Err(26)),
        reply("the most", Nomsg, Some(&[u32::MAX; 16]), Some(&[u32::MAX; 16]), landed([0; 4], 0xf_ffff_fff0)),
        // Neither fills up the other.
        Worked {
            name: "write and reply chunk",
            kind: Nomsg,
            sent: (&[&[4, 4]], Some(&[4, 4])),
            back: (&[&[1, 0]], Some(&[4, 2])),
            want: landed([1, 0, 0, 0], 6),
        },
        Worked {
            name: "all limits full",
            kind: Nomsg,
            sent: (FULL, Some(&[u32::MAX; 16])),
            back: (FULL, Some(&[u32::MAX; 16])),
            want: landed([0x3_ffff_fffc; 4], 0xf_ffff_fff0),
        },
    ]
}

pub fn by_hand<C: Calls>(check: &mut Checker<C>, rng: &mut Rng) -> Outcome {
    check.family("returned worked");
    for (case, kind) in worked().iter().flat_map(|case| [(case, Kind::Msg), (case, Kind::Nomsg)]) {
        let headers = case.headers(kind);
        for [sent, reply] in [[flatten(&headers[0]), flatten(&headers[1])], rng.noisy_pair(&headers)] {
            check.landed(&sent, &reply, case.want).map_err(|what| format!("{}: {what}", case.name))?;
        }
    }
    Ok(())
}

/// One write chunk of one segment, filled in part.
pub fn write1() -> Pair {
    let header =
        |length| Header { writes: vec![vec![Segment { handle: 7, length, offset: 1 << 40 }]], ..c2() };
    [flatten(&header(32 << 10)), flatten(&header(20_000))]
}

/// All limits full, and all filled.
pub fn full_pair() -> Pair {
    let sent = full();
    [flatten(&sent), flatten(&Header { kind: Kind::Nomsg, reads: vec![], ..sent })]
}

/// Each list has room for one more, no segment is empty, and all are full.
fn rich() -> [Header; 2] {
    let mut sent = Rng(3).header(Kind::Msg, 3, &[3, 5, 4], Some(13));
    let segments = sent.writes.iter_mut().flatten().chain(&mut sent.reply.segments);
    segments.zip(2..).for_each(|(segment, length)| segment.length = 10 * length);
    let reply = Header { kind: Kind::Nomsg, reads: vec![], credit: !sent.credit, ..sent.clone() };
    [sent, reply]
}

/// The rich pair with equal noise in unused places, so that a count may grow in both.
fn twins(rng: &mut Rng) -> Pair {
    let sent = rng.noisy(&rich()[0]);
    [sent, ffi::Header { kind: NOMSG, read_count: 0, ..sent }]
}

/// Some dozens of pairs that are taken, the rich one first.
fn bases(rng: &mut Rng) -> Vec<Pair> {
    let [sent, reply] = rich();
    let chunk = Reply { present: true, segments: emptied(&sent.reply.segments) };
    let msg = Header { kind: Kind::Msg, reply: chunk, ..reply.clone() };
    let mut bases = vec![rng.noisy_pair(&[sent.clone(), reply]), rng.noisy_pair(&[sent, msg])];
    bases.extend([twins(rng), full_pair(), write1(), [flatten(&c2()); 2]]);
    bases.extend((0..20).map(|_| {
        let pair = rng.answered();
        rng.noisy_pair(&pair)
    }));
    bases
}

fn last_write(header: &mut ffi::Header) -> &mut ffi::Segment {
    let total =
        header.write_counts.iter().take(header.write_chunks as usize).fold(0u32, |a, &b| a.wrapping_add(b));
    &mut header.writes[total.clamp(1, 16) as usize - 1]
}

fn no_reply_chunk(header: &mut ffi::Header) {
    (header.reply_present, header.reply_count) = (0, 0);
}

fn empty(segments: &mut [ffi::Segment]) {
    segments.iter_mut().for_each(|segment| segment.length = 0);
}

/// The number that a change of the rich pair leads to, and the change.
type Leading<T> = (u32, fn(&mut T));

/// In one header or in both.
const OF_HEADERS: [Leading<ffi::Header>; 20] = [
    (26, |h| h.kind = ERROR_VERSION),
    (26, |h| h.kind = ERROR_CHUNK),
    (7, |h| h.read_count = 17),
    (7, |h| h.read_count = u32::MAX),
    (7, |h| h.write_chunks = 5),
    (7, |h| h.write_chunks = u32::MAX),
    (7, |h| h.write_counts[2] = 9),
    (7, |h| h.write_counts[0] = 17),
    (7, |h| h.write_counts = [u32::MAX, 1, 0, 0]),
    (7, |h| (h.write_chunks, h.write_counts) = (4, [0x4000_0000; 4])),
    (7, |h| (h.write_chunks, h.write_counts) = (4, [4, 4, 4, 5])),
    (7, |h| h.reply_count = 17),
    (7, |h| h.reply_count = u32::MAX),
    (7, |h| h.reply_present = 0),
    (7, |h| (h.reply_present, h.reply_count) = (0, 1)),
    (7, |h| (h.reply_present, h.reply_count) = (0, u32::MAX)),
    (20, |h| h.kind = 4),
    (20, |h| h.kind = u32::MAX),
    (20, |h| h.reply_present = 2),
    (20, |h| h.reply_present = 1 << 31 | 1),
];

const OF_PAIRS: [Leading<Pair>; 84] = [
    // The xids.
    (26, |[_, reply]| reply.xid ^= 1),
    (26, |[sent, _]| sent.xid ^= 1 << 31),
    (0, |[sent, reply]| (sent.xid, reply.xid) = (0, 0)),
    // Read segments.
    (26, |[_, reply]| reply.read_count = 1),
    (26, |[_, reply]| reply.read_count = 16),
    (0, |[sent, _]| sent.read_count = 0),
    (0, |[sent, _]| sent.read_count = 16),
    (0, |[sent, _]| sent.reads[0].position |= 1),
    (0, |[sent, _]| sent.reads[1].position = sent.reads[2].position.wrapping_add(4)),
    // Kinds and what goes with them.
    (0, |[sent, _]| sent.kind = NOMSG),
    (26, |[_, reply]| reply.kind = MSG),
    (0, |[sent, _]| (sent.low, sent.high) = (1, 2)),
    (0, |[_, reply]| (reply.low, reply.high) = (3, 4)),
    (0, |[sent, _]| sent.credit ^= 1),
    (0, |[_, reply]| reply.credit = 0),
    // The number of write chunks.
    (26, |[_, reply]| reply.write_chunks = reply.write_chunks.wrapping_sub(1)),
    (26, |[sent, _]| sent.write_chunks = sent.write_chunks.wrapping_sub(1)),
    (26, |[_, reply]| reply.write_chunks = 0),
    (26, |[sent, _]| sent.write_chunks = 0),
    (0, |[sent, reply]| (sent.write_chunks, reply.write_chunks) = (0, 0)),
    (26, |[_, reply]| (reply.write_chunks, reply.write_counts[3]) = (4, 0)),
    (26, |[sent, _]| (sent.write_chunks, sent.write_counts[3]) = (4, 0)),
    (0, |[sent, _]| sent.write_counts[3] ^= 1),
    (0, |[_, reply]| reply.write_counts[3] = u32::MAX),
    // Segments in a write chunk.
    (26, |[_, reply]| reply.write_counts[0] = reply.write_counts[0].wrapping_sub(1)),
    (26, |[_, reply]| reply.write_counts[2] = reply.write_counts[2].wrapping_add(1)),
    (26, |[sent, _]| sent.write_counts[2] = sent.write_counts[2].wrapping_sub(1)),
    (26, |[sent, _]| sent.write_counts[2] = sent.write_counts[2].wrapping_add(1)),
    (26, |[_, reply]| reply.write_counts[..3].rotate_left(1)),
    (26, |[_, reply]| reply.write_counts = [4, 4, 4, 0]),
    (26, |[sent, _]| sent.write_counts = [0, 8, 4, 0]),
    // Segments in the reply chunk.
    (26, |[_, reply]| reply.reply_count = reply.reply_count.wrapping_sub(1)),
    (26, |[_, reply]| reply.reply_count = reply.reply_count.wrapping_add(1)),
    (26, |[sent, _]| sent.reply_count = sent.reply_count.wrapping_sub(1)),
    (26, |[sent, _]| sent.reply_count = sent.reply_count.wrapping_add(1)),
    (26, |[_, reply]| reply.reply_count = 0),
    (0, |[sent, reply]| (sent.reply_count, reply.reply_count) = (0, 0)),
    // Handles and offsets.
    (26, |[_, reply]| reply.writes[0].handle ^= 1),
    (26, |[_, reply]| last_write(reply).handle ^= 1 << 31),
    (26, |[sent, _]| sent.writes[3].handle ^= 1 << 16),
    (26, |[_, reply]| reply.reply[0].handle ^= 1 << 31),
    (26, |[sent, _]| sent.reply[12].handle ^= 1),
    (26, |[_, reply]| reply.writes[0].offset ^= 1),
    (26, |[_, reply]| last_write(reply).offset ^= 1 << 32),
    (26, |[sent, _]| sent.writes[4].offset ^= 1 << 63),
    (26, |[_, reply]| reply.reply[0].offset ^= 1 << 63),
    (26, |[sent, _]| sent.reply[12].offset ^= 1 << 31),
    (26, |[_, reply]| reply.writes.swap(0, 1)),
    (26, |[_, reply]| reply.reply.swap(0, 1)),
    // Lengths above those sent, in the last segment of a chunk and in others.
    (26, |[_, reply]| reply.writes[2].length = reply.writes[2].length.wrapping_add(1)),
    (26, |[_, reply]| last_write(reply).length = u32::MAX),
    (26, |[sent, _]| sent.writes[0].length = 0),
    (26, |[sent, _]| last_write(sent).length = 0),
    (26, |[_, reply]| reply.reply[12].length = 1 << 31),
    (26, |[sent, _]| sent.reply[12].length = 1),
    // Not full, and something behind it or nothing.
    (26, |[_, reply]| reply.writes[0].length = 1),
    (26, |[_, reply]| reply.writes[1].length = 0),
    (26, |[_, reply]| (reply.writes[3].length, reply.writes[7].length) = (1, 0)),
    (26, |[sent, _]| sent.writes[10].length = u32::MAX),
    (26, |[_, reply]| reply.reply[0].length = 1),
    (26, |[_, reply]| reply.reply[11].length = 0),
    (26, |[_, reply]| empty(&mut reply.writes[..2])),
    (26, |[_, reply]| empty(&mut reply.reply[..12])),
    (0, |[_, reply]| reply.writes[2].length = 1),
    (0, |[_, reply]| last_write(reply).length = 1),
    (0, |[_, reply]| empty(&mut reply.writes)),
    (0, |[_, reply]| empty(&mut reply.writes[..3])),
    (0, |[_, reply]| empty(&mut reply.writes[5..8])),
    (0, |[_, reply]| reply.reply[12].length = 0),
    (0, |[_, reply]| empty(&mut reply.reply)),
    (0, |[sent, reply]| (sent.writes[1].length, reply.writes[1].length) = (0, 0)),
    (0, |[sent, reply]| (sent.reply[5].length, reply.reply[5].length) = (0, 0)),
    // The reply chunk there or not.
    (26, |[_, reply]| no_reply_chunk(reply)),
    (26, |[sent, _]| no_reply_chunk(sent)),
    (26, |pair| pair.iter_mut().for_each(no_reply_chunk)),
    (0, |[_, reply]| {
        no_reply_chunk(reply);
        reply.kind = MSG;
    }),
    (0, |pair| {
        pair.iter_mut().for_each(no_reply_chunk);
        pair[1].kind = MSG;
    }),
    (0, |[_, reply]| {
        empty(&mut reply.reply);
        reply.kind = MSG;
    }),
    (26, |[_, reply]| {
        empty(&mut reply.reply);
        (reply.kind, reply.reply[0].length) = (MSG, 1);
    }),
    (26, |[_, reply]| {
        empty(&mut reply.reply[..12]);
        reply.kind = MSG;
    }),
    (26, |[_, reply]| {
        empty(&mut reply.reply);
        (reply.kind, reply.reply[7].handle) = (MSG, !reply.reply[7].handle);
    }),
    (26, |[_, reply]| (reply.kind, reply.reply_count) = (MSG, 0)),
    (26, |[sent, reply]| {
        no_reply_chunk(sent);
        empty(&mut reply.reply);
        reply.kind = MSG;
    }),
    // Unused places.
    (0, |[sent, reply]| {
        sent.writes[12..].fill(ffi::Segment::default());
        sent.reply[13..].fill(ffi::Segment::default());
        reply.reads.fill(ffi::ReadSegment::default());
        (sent.reserved, reply.reserved) = (1, 0);
    }),
];

type Change = Box<dyn Fn(&mut Pair)>;

fn changes() -> Vec<(u32, Change)> {
    let mut list: Vec<(u32, Change)> = Vec::new();
    for (number, change) in OF_HEADERS {
        for which in WHICH {
            list.push((number, Box::new(move |pair| which.iter().for_each(|&at| change(&mut pair[at])))));
        }
    }
    list.extend(OF_PAIRS.into_iter().map(|(number, change)| (number, Box::new(change) as Change)));
    list
}

/// Each condition alone, and two of them.
pub fn conditions<C: Calls>(check: &mut Checker<C>, rng: &mut Rng) -> Outcome {
    let (changes, bases) = (changes(), bases(rng));
    check.family("returned conditions");
    for (base, (_, change)) in bases.iter().flat_map(|base| changes.iter().map(move |change| (base, change)))
    {
        let mut pair = *base;
        change(&mut pair);
        check_pair(check, &pair)?;
    }
    check.family("returned two conditions");
    for base in &bases[..9] {
        for (at, (_, one)) in changes.iter().enumerate() {
            for (_, two) in &changes[at..] {
                let mut pair = *base;
                one(&mut pair);
                two(&mut pair);
                check_pair(check, &pair)?;
            }
        }
    }
    Ok(())
}

/// Every length from 0 to 2 in every segment, sent and back.
pub fn lengths<C: Calls>(check: &mut Checker<C>, rng: &mut Rng) -> Outcome {
    check.family("returned every length");
    for (count, cuts) in [(1, &[0, 1][..]), (2, &[0, 1, 2]), (3, &[0, 1, 2, 3]), (4, &[2, 4])] {
        let segments = rng.segments(count);
        let ways = 3usize.pow(count as u32);
        let way = |number: usize| -> Vec<Segment> {
            let lengths = (0..count as u32).map(|at| (number / 3usize.pow(at) % 3) as u32);
            segments.iter().zip(lengths).map(|(segment, length)| Segment { length, ..*segment }).collect()
        };
        for (sent, back) in (0..ways).flat_map(|sent| (0..ways).map(move |back| (sent, back))) {
            let chunks = [way(sent), way(back)];
            for &cut in cuts {
                let pair = chunks.each_ref().map(|chunk| {
                    let (one, two) = chunk.split_at(cut);
                    Header { writes: vec![one.to_vec(), two.to_vec()], ..c2() }
                });
                check_pair(check, &rng.noisy_pair(&pair))?;
            }
            for (kind, cut) in [(Kind::Nomsg, 0), (Kind::Nomsg, count / 2), (Kind::Msg, 0)] {
                let pair = chunks.each_ref().map(|chunk| {
                    let (one, two) = chunk.split_at(cut);
                    let reply = Reply { present: true, segments: two.to_vec() };
                    Header { kind, writes: vec![one.to_vec()], reply, ..c2() }
                });
                check_pair(check, &rng.noisy_pair(&pair))?;
            }
        }
    }
    Ok(())
}

/// Replies that are taken, of all shapes; and lengths that now and then are.
pub fn shapes<C: Calls>(check: &mut Checker<C>, rng: &mut Rng, cases: u64) -> Outcome {
    check.family("returned shapes");
    for shape in 0..2 * 3 * 5 * 18 {
        let (kind, reads) = ([Kind::Msg, Kind::Nomsg][shape % 2], [0, 1, 16][shape / 2 % 3]);
        let sent = rng.shape(kind, reads, shape / 6 % 5, (shape / 30).checked_sub(1));
        for sent in [rng.thinned(sent.clone()), sent] {
            for kind in [Kind::Msg, Kind::Nomsg] {
                let reply = rng.reply_to(&sent, kind);
                check_pair(check, &rng.noisy_pair(&[sent.clone(), reply]))?;
            }
        }
    }
    for _ in 0..cases {
        let pair = rng.answered();
        check_pair(check, &rng.noisy_pair(&pair))?;
    }
    check.family("returned any lengths");
    for _ in 0..cases {
        let [sent, mut reply] = rng.answered();
        let ours = sent.writes.iter().flatten().chain(&sent.reply.segments);
        for (segment, ours) in reply.writes.iter_mut().flatten().chain(&mut reply.reply.segments).zip(ours) {
            match rng.below(12) {
                0 => segment.length = rng.part(ours.length),
                1 => segment.length = segment.length.wrapping_add_signed(rng.below(3) as i32 - 1),
                2 => segment.length = ours.length,
                _ => {}
            }
        }
        check_pair(check, &rng.noisy_pair(&[sent, reply]))?;
    }
    Ok(())
}

/// Counts, kinds and flags at their limits and over them.
pub fn limits<C: Calls>(check: &mut Checker<C>, rng: &mut Rng) -> Outcome {
    let (bases, twins) = (bases(rng), twins(rng));
    check.family("returned any counts");
    for edge in edges() {
        for (base, field) in bases[..8].iter().flat_map(|base| (0..COUNTED).map(move |field| (base, field))) {
            for which in WHICH {
                let mut pair = *base;
                which.iter().for_each(|&at| *counted(&mut pair[at], field) = edge);
                check_pair(check, &pair)?;
            }
        }
        // Sums that wrap.
        for other in edges() {
            let mut pair = twins;
            let chunks = 2 + rng.below(3);
            let first = rng.below(chunks - 1);
            for &at in WHICH[rng.below(3)] {
                (pair[at].write_chunks, pair[at].write_counts) = (chunks as u32, [0; MAX_WRITE_CHUNKS]);
                pair[at].write_counts[first] = edge;
                pair[at].write_counts[chunks - 1] = other;
            }
            check_pair(check, &pair)?;
        }
    }
    // Every spread of 15, 16 and 17 segments over the four chunks, and the numbers of the other lists.
    check.family("returned limits");
    for digits in 0..18usize.pow(4) {
        let counts = [digits % 18, digits / 18 % 18, digits / 324 % 18, digits / 5832];
        if (15..=17).contains(&counts.iter().sum::<usize>()) {
            let mut pair = twins;
            for header in &mut pair {
                (header.write_chunks, header.write_counts) = (4, counts.map(|count| count as u32));
            }
            check_pair(check, &pair)?;
        }
    }
    for (count, present) in (0..=18).flat_map(|count| [(count, 0), (count, 1)]) {
        for (which, kind) in WHICH.iter().flat_map(|which| (0..4).map(move |kind| (which, kind))) {
            let mut pair = twins;
            which.iter().for_each(|&at| (pair[at].reply_present, pair[at].reply_count) = (present, count));
            pair[1].kind = kind;
            check_pair(check, &pair)?;
            let mut pair = twins;
            which.iter().for_each(|&at| (pair[at].read_count, pair[at].kind) = (count, kind));
            check_pair(check, &pair)?;
        }
    }
    Ok(())
}

/// ERROR headers without lists, as they are read, in either place and in both.
fn errors<C: Calls>(check: &mut Checker<C>, rng: &mut Rng) -> Outcome {
    check.family("returned ERROR");
    for base in bases(rng) {
        for kind in [ERROR_VERSION, ERROR_CHUNK] {
            let error = ffi::Header { kind, xid: base[0].xid, ..rng.noisy(&Header::default()) };
            for pair in [[base[0], error], [error, base[1]], [error, error]] {
                check_pair(check, &pair)?;
            }
        }
    }
    Ok(())
}

/// Each header beside itself.
pub fn itself<C: Calls>(check: &mut Checker<C>, rng: &mut Rng, cases: u64) -> Outcome {
    check.family("returned itself");
    let (changes, bases) = (changes(), bases(rng));
    for (base, (_, change)) in
        bases[..6].iter().flat_map(|base| changes.iter().map(move |change| (base, change)))
    {
        let mut pair = *base;
        change(&mut pair);
        pair.iter().try_for_each(|header| check.returned_itself(header))?;
    }
    for _ in 0..cases {
        let [sent, reply] = rng.answered();
        let mut pair = rng.noisy_pair(&[reply, sent]);
        (0..rng.below(2)).for_each(|_| rng.damage(&mut pair));
        check.returned_itself(&pair[rng.below(8) / 7])?;
    }
    Ok(())
}

pub fn damage<C: Calls>(check: &mut Checker<C>, rng: &mut Rng, cases: u64) -> Outcome {
    let bases = bases(rng);
    check.family("returned one damaged word");
    for (base, at) in bases[..6].iter().flat_map(|base| (0..2 * WORDS).map(move |at| (base, at))) {
        let mut pair = *base;
        let old = word(&mut pair, at);
        let near = [-1, 1].map(|step| old.wrapping_add_signed(step));
        let flips = (0..32).map(|bit| old ^ 1 << bit);
        for value in [0, 1, 17, u32::MAX].into_iter().chain(near).chain(flips) {
            put(&mut pair, at, value);
            check_pair(check, &pair)?;
        }
    }
    let changes = changes();
    check.family("returned random damage");
    for _ in 0..cases {
        let pair = rng.answered();
        let mut pair = rng.noisy_pair(&pair);
        for _ in 0..1 + rng.below(3) {
            match rng.below(3) {
                0 => changes[rng.below(changes.len())].1(&mut pair),
                _ => rng.damage(&mut pair),
            }
        }
        check_pair(check, &pair)?;
    }
    Ok(())
}

/// Headers that have nothing to do with each other.
fn any_pairs<C: Calls>(check: &mut Checker<C>, rng: &mut Rng, cases: u64) -> Outcome {
    check.family("returned random pairs");
    for _ in 0..cases {
        let [mut sent, mut reply] = [rng.valid(), rng.valid()];
        reply.xid = [sent.xid, reply.xid][rng.below(8) / 7];
        if rng.below(2) == 0 {
            reply.reads.clear();
        }
        // Little enough for the two to fit now and then.
        if rng.below(2) == 0 {
            [&mut sent, &mut reply].into_iter().for_each(|header| header.writes.clear());
        }
        if rng.below(2) == 0 {
            sent.reply.segments = reply.reply.segments.clone();
        }
        check_pair(check, &rng.noisy_pair(&[sent, reply]))?;
    }
    check.family("returned any bytes");
    for _ in 0..cases {
        let mut pair: Pair = [rng.any(), rng.any()];
        for header in &mut pair {
            for field in 0..COUNTED {
                *counted(header, field) = match (field, rng.below(16)) {
                    (_, 0) => rng.word(),
                    (0 | 6, _) => rng.below(18) as u32,
                    (2..=5, _) => rng.below(6) as u32,
                    (1, _) => rng.below(5) as u32,
                    _ => rng.below(2) as u32,
                };
            }
        }
        check_pair(check, &pair)?;
    }
    Ok(())
}

/// Headers that are carried over the wire before.
pub fn carried<C: Calls>(check: &mut Checker<C>, rng: &mut Rng, cases: u64) -> Outcome {
    check.family("written, read, returned");
    for case in worked() {
        let [sent, reply] = case.headers(Kind::Msg);
        check.written_returned(&flatten(&sent), &flatten(&reply))?;
    }
    for _ in 0..cases {
        let [mut sent, mut reply] = rng.answered();
        match rng.below(8) {
            0 => sent = Header { xid: reply.xid, ..rng.valid() },
            1 => reply = Header { xid: sent.xid, ..rng.valid() },
            2 => reply.kind = [Kind::Msg, Kind::Nomsg][rng.below(2)],
            3 => sent.reply = Reply::default(),
            4 => reply.xid ^= 1 << rng.below(32),
            _ => {}
        }
        let [sent, reply] = rng.noisy_pair(&[sent, reply]);
        check.written_returned(&sent, &reply)?;
    }
    Ok(())
}

pub fn run<C: Calls>(check: &mut Checker<C>, rng: &mut Rng, cases: u64) -> Outcome {
    by_hand(check, rng)?;
    itself(check, rng, cases)?;
    conditions(check, rng)?;
    lengths(check, rng)?;
    shapes(check, rng, cases)?;
    limits(check, rng)?;
    errors(check, rng)?;
    damage(check, rng, cases)?;
    any_pairs(check, rng, cases)?;
    carried(check, rng, cases)
}

#[cfg(test)]
mod tests {
    use super::*;
    use crate::convert::unflatten;
    use crate::reference::returned::returned;

    #[test]
    fn each_change_leads_to_its_number() {
        let noisy = Rng(9).noisy_pair(&rich());
        for (at, (number, change)) in changes().iter().enumerate() {
            let mut pair = noisy;
            change(&mut pair);
            let [sent, reply] = pair.map(|header| unflatten(&header));
            let answer = sent.and_then(|sent| returned(&sent, &reply?));
            assert_eq!(answer.err().unwrap_or(0), *number, "change {at}");
        }
    }
}
