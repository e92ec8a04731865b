//! Grants and error replies.

mod common;

use common::c6;
use eoswynnor::{error_reply, grant, Header, Kind, Refusal, MAX_REPLY};

#[test]
fn replies_and_refusals() {
    let mut room = [0; MAX_REPLY];
    assert_eq!(error_reply(&c6(), Refusal(14), 32, &mut room).map(<[u8]>::len), Ok(20));
    // 8 is never given, and still has its reply.
    assert_eq!(error_reply(&c6(), Refusal(8), 32, &mut room).map(<[u8]>::len), Ok(20));
    assert_eq!(error_reply(&c6(), Refusal(2), 32, &mut room).map(<[u8]>::len), Ok(28));
    assert_eq!(error_reply(&c6(), Refusal(19), 32, &mut room), Ok(&[][..]));
    assert_eq!(error_reply(&c6(), Refusal(2), 32, &mut room[..27]), Err(Refusal(16)));
    assert_eq!(error_reply(&c6(), Refusal(26), 32, &mut room), Err(Refusal(20)));
}

/// A version reply has the frame's version; one that is not 1 is refused by a reader of version 1. A chunk reply has 1.
#[test]
fn the_version_is_echoed() {
    for version in [0, 1, 2, 7, u32::MAX] {
        let (mut frame, mut room) = (c6(), [0; MAX_REPLY]);
        frame[4..8].copy_from_slice(&version.to_be_bytes());
        let reply = error_reply(&frame, Refusal(2), 32, &mut room).unwrap();
        assert_eq!((&reply[..8], &reply[20..]), (&frame[..8], &[0, 0, 0, 1, 0, 0, 0, 1][..]));
        let kind = Header::read(reply).map(|header| header.kind);
        let named = Kind::ErrorVersion { low: 1, high: 1 };
        assert_eq!(kind, if version == 1 { Ok(named) } else { Err(Refusal(2)) }, "{version}");
        let chunk = error_reply(&frame, Refusal(5), 32, &mut room).unwrap();
        assert_eq!((&chunk[..4], &chunk[4..8]), (&frame[..4], &[0, 0, 0, 1][..]));
        assert_eq!(Header::read(chunk).map(|header| header.kind), Ok(Kind::ErrorChunk));
    }
}

#[test]
fn number_21_is_taken_and_gets_no_reply() {
    let mut room = [7; MAX_REPLY];
    for frame in [&c6()[..], &c6()[..15], &[]] {
        assert_eq!(error_reply(frame, Refusal(21), 32, &mut room), Ok(&[][..]));
        assert_eq!(error_reply(frame, Refusal(21), 32, &mut []), Ok(&[][..]));
        assert_eq!(error_reply(frame, Refusal(21), 0, &mut room), Err(Refusal(20)));
        assert_eq!(error_reply(frame, Refusal(22), 32, &mut room), Err(Refusal(20)));
    }
    assert_eq!(room, [7; MAX_REPLY]);
}

#[test]
fn grants() {
    assert_eq!((grant(0, 32), grant(100, 32), grant(1, 0)), (Ok(1), Ok(32), Err(Refusal(20))));
}

#[test]
fn a_refusal_has_its_text() {
    assert_eq!(Refusal(8).to_string(), "reserved: never given");
    assert_eq!(Refusal(14).to_string(), "a chunk's position overlaps or lies past the base");
    assert_eq!(Refusal(21).to_string(), "reserved: never given");
    assert_eq!(Refusal(23).to_string(), "the calls in flight reach or pass the grant or 32");
    assert_eq!(Refusal(24).to_string(), "a reply's xid is not in flight");
    assert_eq!(Refusal(25).to_string(), "a reply's grant is 0");
    assert_eq!(Refusal(26).to_string(), "a reply that cannot answer the header that was sent");
    for number in [22, 27] {
        assert_eq!(Refusal(number).to_string(), "no answer number");
    }
}
