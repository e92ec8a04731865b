//! What a reply says was put into the chunks that were sent.

use eoswynnor::{Header, Kind, Landed, ReadSegment, Refusal, Segment, MAX_HEADER};

/// Segments of these lengths, each in memory of its own.
fn chunk(lengths: &[u32]) -> Vec<Segment> {
    (1..).zip(lengths).map(|(n, &length)| Segment { handle: n, length, offset: u64::from(n) << 40 }).collect()
}

fn header(kind: Kind, writes: &[&[u32]], reply: Option<&[u32]>) -> Header {
    Header {
        xid: 0x1234_5678,
        credit: 9,
        kind,
        reads: vec![],
        writes: writes.iter().map(|lengths| chunk(lengths)).collect(),
        reply: reply.map(chunk),
    }
}

fn landed(writes: &[u64], reply: u64) -> Result<Landed, Refusal> {
    Ok(Landed { writes: writes.to_vec(), reply })
}

/// What a MSG reply says, where write chunks of these lengths were sent and came back.
fn filled(sent: &[&[u32]], back: &[&[u32]]) -> Result<Landed, Refusal> {
    header(Kind::Msg, sent, None).returned(&header(Kind::Msg, back, None))
}

/// Likewise for the reply chunk, in a reply of this kind.
fn replied(kind: Kind, sent: Option<&[u32]>, back: Option<&[u32]>) -> Result<Landed, Refusal> {
    header(Kind::Msg, &[], sent).returned(&header(kind, &[], back))
}

/// A call and a NOMSG reply to it, with bytes in each of its chunks.
fn pair() -> (Header, Header) {
    let sent = header(Kind::Msg, &[&[8, 8], &[6]], Some(&[8, 8]));
    let reply = header(Kind::Nomsg, &[&[8, 3], &[6]], Some(&[8, 5]));
    (sent, reply)
}

/// A name, and what it makes of a header.
type Change = (&'static str, fn(&mut Header));

const MISMATCH: Result<Landed, Refusal> = Err(Refusal(26));
const OVER_LIMIT: Result<Landed, Refusal> = Err(Refusal(7));

#[test]
fn write_chunks_are_filled_from_the_front() {
    assert_eq!(filled(&[&[4, 0, 4]], &[&[4, 0, 2]]), landed(&[6], 0), "an empty segment is full");
    assert_eq!(filled(&[&[4, 4, 4]], &[&[4, 0, 1]]), MISMATCH, "a gap");
    assert_eq!(filled(&[&[4, 4]], &[&[0, 0]]), landed(&[0], 0), "nothing landed");
    assert_eq!(filled(&[&[4, 4], &[4]], &[&[2, 0], &[3]]), landed(&[2, 3], 0), "each chunk for itself");
    assert_eq!(filled(&[&[4, 0, 4]], &[&[2, 0, 1]]), MISMATCH, "a gap before an empty segment");
    assert_eq!(filled(&[], &[]), landed(&[], 0), "no chunks");
    assert_eq!(filled(&[&[1], &[], &[2], &[3]], &[&[1], &[], &[2], &[3]]), landed(&[1, 0, 2, 3], 0));
}

#[test]
fn sums_do_not_wrap() {
    let all: &[u32] = &[u32::MAX; 16];
    let sum = 16 * u64::from(u32::MAX);
    assert_eq!(filled(&[all], &[all]), landed(&[sum], 0));
    assert_eq!(replied(Kind::Nomsg, Some(all), Some(all)), landed(&[], sum));
}

#[test]
fn a_reply_chunk_is_filled_in_nomsg_alone() {
    assert_eq!(replied(Kind::Msg, Some(&[4]), None), landed(&[], 0), "missing in MSG");
    assert_eq!(replied(Kind::Msg, Some(&[4, 4]), Some(&[0, 0])), landed(&[], 0), "empty in MSG");
    assert_eq!(replied(Kind::Msg, Some(&[4, 4]), Some(&[1, 0])), MISMATCH, "filled in MSG");
    assert_eq!(replied(Kind::Nomsg, Some(&[4, 4]), Some(&[4, 1])), landed(&[], 5), "filled in NOMSG");
    assert_eq!(replied(Kind::Nomsg, Some(&[4, 4]), Some(&[0, 0])), landed(&[], 0), "empty in NOMSG");
    assert_eq!(replied(Kind::Nomsg, Some(&[4]), None), MISMATCH, "missing in NOMSG");
    assert_eq!(replied(Kind::Msg, None, Some(&[])), MISMATCH, "not sent, in MSG");
    assert_eq!(replied(Kind::Nomsg, None, Some(&[0])), MISMATCH, "not sent, in NOMSG");
}

/// As a client does it: the reply is read from a frame. Its credits are its own.
#[test]
fn a_reply_from_a_frame() {
    let (mut sent, reply) = pair();
    sent.credit = 32;
    sent.reads = vec![ReadSegment { position: 4, target: Segment { handle: 1, length: 5, offset: 0 } }];
    let mut frame = [0; MAX_HEADER];
    let length = reply.write(&mut frame).unwrap();
    assert_eq!(Header::read(&frame[..length]).and_then(|reply| sent.returned(&reply)), landed(&[11, 6], 13));
}

#[test]
fn one_difference_is_a_mismatch() {
    let (sent, reply) = pair();
    assert_eq!(sent.returned(&reply), landed(&[11, 6], 13));
    let changes: [Change; 16] = [
        ("xid", |reply| reply.xid += 1),
        ("read segments", |reply| reply.reads.push(ReadSegment::default())),
        ("chunk ERROR", |reply| reply.kind = Kind::ErrorChunk),
        ("version ERROR", |reply| reply.kind = Kind::ErrorVersion { low: 1, high: 1 }),
        ("a chunk less", |reply| reply.writes.truncate(1)),
        ("a chunk more", |reply| reply.writes.push(vec![])),
        ("a segment less", |reply| reply.writes[0].truncate(1)),
        ("a segment more", |reply| reply.reply.as_mut().unwrap().push(Segment::default())),
        ("handle", |reply| reply.writes[1][0].handle += 1),
        ("handle in the reply chunk", |reply| reply.reply.as_mut().unwrap()[1].handle += 1),
        ("offset", |reply| reply.writes[1][0].offset += 1 << 63),
        ("offset in the reply chunk", |reply| reply.reply.as_mut().unwrap()[1].offset += 1),
        ("length above", |reply| reply.writes[1][0].length += 1),
        ("length above in the reply chunk", |reply| reply.reply.as_mut().unwrap()[1].length = 9),
        ("behind one that is not full", |reply| reply.reply.as_mut().unwrap()[0].length -= 1),
        ("no reply chunk", |reply| reply.reply = None),
    ];
    for (name, change) in changes {
        let mut reply = reply.clone();
        change(&mut reply);
        assert_eq!(sent.returned(&reply), MISMATCH, "{name}");
    }
    let error = Header { kind: Kind::ErrorChunk, ..sent.clone() };
    assert_eq!(error.returned(&reply), MISMATCH, "a sent ERROR");
    let without = Header { reply: None, ..sent };
    assert_eq!(without.returned(&reply), MISMATCH, "a reply chunk that was not sent");
}

#[test]
fn a_list_over_a_limit_comes_first() {
    let changes: [Change; 4] = [
        ("read segments", |header| header.reads = vec![ReadSegment::default(); 17]),
        ("write chunks", |header| header.writes = vec![vec![]; 5]),
        ("segments of write chunks", |header| header.writes = vec![chunk(&[0; 8]), chunk(&[0; 9])]),
        ("segments of the reply chunk", |header| header.reply = Some(chunk(&[0; 17]))),
    ];
    for (name, change) in changes {
        for kind in [Kind::Msg, Kind::Nomsg, Kind::ErrorChunk] {
            let (sent, mut reply) = pair();
            reply.xid += 1;
            let mut long = Header { kind, ..reply.clone() };
            change(&mut long);
            assert_eq!(sent.returned(&long), OVER_LIMIT, "{name} of the reply, {kind:?}");
            assert_eq!(long.returned(&sent), OVER_LIMIT, "{name} of what was sent, {kind:?}");
        }
    }
}
