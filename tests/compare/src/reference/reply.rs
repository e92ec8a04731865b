//! The credit grant and the error reply.

use super::put_front;

/// The largest answer number that an error reply takes.
pub const LAST_NUMBER: u32 = 21;

/// The grant, or the number of the refusal.
pub fn grant(asked: u32, limit: u32) -> Result<u32, u32> {
    if limit == 0 {
        return Err(20);
    }
    Ok(asked.min(limit).max(1))
}

fn word(frame: &[u8], index: usize) -> u32 {
    let bytes = &frame[4 * index..4 * index + 4];
    u32::from_be_bytes([bytes[0], bytes[1], bytes[2], bytes[3]])
}

/// The reply's words, none where there is no reply, or the number of the refusal.
fn reply_words(frame: &[u8], number: u32, limit: u32) -> Result<Vec<u32>, u32> {
    if limit == 0 || number > LAST_NUMBER {
        return Err(20);
    }
    if frame.len() < 16 || word(frame, 3) == 4 {
        return Ok(vec![]);
    }
    let (xid, version, credit) = (word(frame, 0), word(frame, 1), grant(word(frame, 2), limit)?);
    Ok(match number {
        // The client matches it by the version that it sent: document 02, order 4.
        2 => vec![xid, version, credit, 4, 1, 1, 1],
        3 | 5..=9 | 11..=15 => vec![xid, 1, credit, 4, 2],
        _ => vec![],
    })
}

/// The length written, 0 where there is no reply, or the number of the refusal;
/// these two leave `out` alone.
pub fn error_reply(frame: &[u8], number: u32, limit: u32, out: &mut [u8]) -> Result<usize, u32> {
    let words = reply_words(frame, number, limit)?;
    let bytes: Vec<u8> = words.iter().flat_map(|word| word.to_be_bytes()).collect();
    put_front(&bytes, out)
}

#[cfg(test)]
mod tests {
    use super::*;
    use crate::cases::header::c2_with;
    use crate::cases::words;
    use crate::reference::header::{read, Fault, Header, Kind};

    const CHUNK: [u32; 11] = [3, 5, 6, 7, 8, 9, 11, 12, 13, 14, 15];

    /// Ends, single bytes, and words with four different bytes.
    const VERSIONS: [u32; 12] = [
        0,
        1,
        2,
        7,
        0x0100,
        0x0001_0000,
        0x0100_0000,
        0x0102_0304,
        0x0403_0201,
        0x8000_0001,
        0xdead_be01,
        u32::MAX,
    ];

    #[test]
    fn worked_examples() {
        let mut out = [7; 30];
        assert_eq!(error_reply(&c2_with(1, 2), 2, 32, &mut out), Ok(28)); // C3
        assert_eq!(out[..28], words(&[0x2a, 2, 0x20, 4, 1, 1, 1]));
        assert_eq!(out[28..], [7; 2]);
        assert_eq!(grant(0, 32), Ok(1)); // C12
        assert_eq!(grant(100, 32), Ok(32));
        assert_eq!(grant(5, 0), Err(20));
    }

    #[test]
    fn every_reply() {
        for number in 0..30 {
            let mut out = [7; 28];
            let answer = error_reply(&c2_with(2, 50), number, 32, &mut out);
            let (length, reply) = match number {
                2 => (28, [0x2a, 1, 32, 4, 1, 1, 1]),
                22.. => {
                    assert_eq!((answer, out), (Err(20), [7; 28]));
                    continue;
                }
                _ if CHUNK.contains(&number) => (20, [0x2a, 1, 32, 4, 2, 0x0707_0707, 0x0707_0707]),
                _ => (0, [0x0707_0707; 7]),
            };
            assert_eq!((answer, &out[..]), (Ok(length), &words(&reply)[..]), "{number}");
            assert_eq!(error_reply(&c2_with(2, 50), number, 0, &mut out), Err(20));
            assert_eq!(error_reply(&c2_with(2, 50)[..15], number, 32, &mut out), Ok(0));
            assert_eq!(error_reply(&c2_with(3, 4), number, 32, &mut out), Ok(0));
            if length > 0 {
                assert_eq!(error_reply(&c2_with(2, 50), number, 32, &mut out[..length - 1]), Err(16));
                assert_eq!(error_reply(&c2_with(2, 50)[..16], number, 32, &mut out[..length]), Ok(length));
            }
            assert_eq!(out[..], words(&reply)[..]);
        }
    }

    /// By number alone, whatever the version: 2 is answered with the frame's, a chunk reply holds 1.
    #[test]
    fn every_version() {
        for (version, number) in VERSIONS.iter().flat_map(|&version| (0..=21).map(move |n| (version, n))) {
            let reply = match number {
                2 => vec![0x2a, version, 0x20, 4, 1, 1, 1],
                _ if CHUNK.contains(&number) => vec![0x2a, 1, 0x20, 4, 2],
                _ => vec![],
            };
            let (frame, length) = (c2_with(1, version), 4 * reply.len());
            let mut out = [7; 28];
            assert_eq!(error_reply(&frame[..15], number, 32, &mut out), Ok(0));
            if length > 0 {
                assert_eq!(error_reply(&frame, number, 32, &mut out[..length - 1]), Err(16));
            }
            assert_eq!(out, [7; 28]);
            for frame in [&frame[..16], &frame] {
                let mut out = [7; 28];
                assert_eq!(error_reply(frame, number, 32, &mut out), Ok(length));
                assert_eq!(out[..], [words(&reply), vec![7; 28 - length]].concat(), "{version:x} {number}");
            }
        }
    }

    /// 2 for a version reply whose second word is not 1, else the ERROR header; none gets a reply.
    #[test]
    fn read_back() {
        for (version, number) in VERSIONS.iter().flat_map(|&version| [(version, 2), (version, 5)]) {
            let mut out = [7; 28];
            let length = error_reply(&c2_with(1, version), number, 9, &mut out).unwrap();
            let reply = &out[..length];
            let fault = if number == 2 { Fault::Version { low: 1, high: 1 } } else { Fault::Chunk };
            let header = Header { xid: 0x2a, credit: 9, kind: Kind::Error(fault), ..Header::default() };
            let want = if number == 5 || version == 1 { Ok((header, &[][..])) } else { Err(2) };
            assert_eq!(read(reply), want, "{version:x} {number}");
            for number in 0..=21 {
                assert_eq!(error_reply(reply, number, 9, &mut [7; 28]), Ok(0), "{version:x} {number}");
            }
        }
    }
}
