//! What a reply says was put into the chunks that we sent: document 02, order 1.

use super::header::{over_limit, Header, Kind, Segment};

/// Numbers of bytes.
#[derive(Clone, Debug, Default, PartialEq, Eq)]
pub struct Landed {
    /// One for each write chunk.
    pub writes: Vec<u64>,
    /// 0 where the reply has no reply chunk.
    pub reply: u64,
}

/// What 26 asks of a chunk that came back, beside the one sent.
fn chunk_unfit(sent: &[Segment], back: &[Segment]) -> bool {
    if sent.len() != back.len() {
        return true;
    }
    let not_full = |at: usize| back[at].length != sent[at].length;
    (0..sent.len()).any(|at| {
        sent[at].handle != back[at].handle
            || sent[at].offset != back[at].offset
            || back[at].length > sent[at].length
            || (back[at].length > 0 && (0..at).any(not_full))
    })
}

/// What 26 asks of the reply chunk.
fn reply_chunk_unfit(sent: &Header, reply: &Header) -> bool {
    let any_byte = reply.reply.segments.iter().any(|segment| segment.length > 0);
    match (sent.reply.present, reply.reply.present) {
        // Missing: fine in MSG.
        (_, false) => reply.kind == Kind::Nomsg,
        (false, true) => true,
        (true, true) => {
            chunk_unfit(&sent.reply.segments, &reply.reply.segments) || (reply.kind == Kind::Msg && any_byte)
        }
    }
}

fn unfit(sent: &Header, reply: &Header) -> bool {
    sent.xid != reply.xid
        || !reply.reads.is_empty()
        || [sent, reply].iter().any(|header| matches!(header.kind, Kind::Error(_)))
        || sent.writes.len() != reply.writes.len()
        || sent.writes.iter().zip(&reply.writes).any(|(sent, back)| chunk_unfit(sent, back))
        || reply_chunk_unfit(sent, reply)
}

fn bytes(chunk: &[Segment]) -> u64 {
    chunk.iter().map(|segment| u64::from(segment.length)).sum()
}

/// The bytes landed, or the number of the refusal.
pub fn returned(sent: &Header, reply: &Header) -> Result<Landed, u32> {
    if over_limit(sent) || over_limit(reply) {
        return Err(7);
    }
    if unfit(sent, reply) {
        return Err(26);
    }
    let writes = reply.writes.iter().map(|chunk| bytes(chunk)).collect();
    Ok(Landed { writes, reply: bytes(&reply.reply.segments) })
}

#[cfg(test)]
mod tests {
    use super::*;
    use crate::cases::returned::worked;
    use crate::convert::flatten_landed;

    #[test]
    fn worked_examples() {
        for (case, kind) in worked().iter().flat_map(|case| [(case, Kind::Msg), (case, Kind::Nomsg)]) {
            let [sent, reply] = case.headers(kind);
            let answer = returned(&sent, &reply).map(|landed| flatten_landed(&landed));
            assert_eq!(answer, case.want, "{}", case.name);
        }
    }
}
