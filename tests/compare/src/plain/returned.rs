//! What a reply says was put into the chunks that we sent.

use super::{number, Plain};
use crate::calls::ReturnedCalls;
use eoswynnor::ffi::{Header, Landed, Segment, MSG, NOMSG};

fn unknown(header: &Header) -> bool {
    header.kind > 3 || header.reply_present > 1
}

/// The writer's 7.
fn over_limit(header: &Header) -> bool {
    let counts = header.write_counts.iter().take(header.write_chunks as usize);
    let total: u64 = counts.map(|&count| u64::from(count)).sum();
    header.read_count > 16
        || header.write_chunks > 4
        || total > 16
        || header.reply_count > 16 * header.reply_present
}

fn other_memory(sent: &Segment, back: &Segment) -> bool {
    sent.handle != back.handle || sent.offset != back.offset
}

/// The bytes in a chunk of as many segments as were sent.
// Always, as it is called from two places.
#[inline(always)]
fn chunk(sent: &[Segment], back: &[Segment]) -> Result<u64, u32> {
    let mut pairs = sent.iter().zip(back);
    let mut bytes = 0;
    for (sent, back) in pairs.by_ref() {
        if other_memory(sent, back) || back.length > sent.length {
            return Err(26);
        }
        bytes += u64::from(back.length);
        if back.length < sent.length {
            break;
        }
    }
    // Behind the first that is not full.
    for (sent, back) in pairs {
        if other_memory(sent, back) || back.length > 0 {
            return Err(26);
        }
    }
    Ok(bytes)
}

fn land(sent: &Header, reply: &Header) -> Result<Landed, u32> {
    if unknown(sent) || unknown(reply) {
        return Err(20);
    }
    if over_limit(sent) || over_limit(reply) {
        return Err(7);
    }
    if sent.xid != reply.xid
        || reply.read_count > 0
        || sent.kind > NOMSG
        || reply.kind > NOMSG
        || sent.write_chunks != reply.write_chunks
    {
        return Err(26);
    }
    let mut landed = Landed::default();
    let (mut ours, mut theirs) = (&sent.writes[..], &reply.writes[..]);
    let counts = sent.write_counts.iter().zip(&reply.write_counts).take(reply.write_chunks as usize);
    for (place, (lent, count)) in landed.writes.iter_mut().zip(counts) {
        if lent != count {
            return Err(26);
        }
        let (sent, back);
        (sent, ours) = ours.split_at(*count as usize);
        (back, theirs) = theirs.split_at(*count as usize);
        *place = chunk(sent, back)?;
    }
    if reply.reply_present == 1 {
        if sent.reply_present == 0 || sent.reply_count != reply.reply_count {
            return Err(26);
        }
        let count = reply.reply_count as usize;
        landed.reply = chunk(&sent.reply[..count], &reply.reply[..count])?;
        if reply.kind == MSG && landed.reply > 0 {
            return Err(26);
        }
    } else if reply.kind == NOMSG {
        return Err(26);
    }
    Ok(landed)
}

#[inline(never)]
fn plain_returned(sent: &Header, reply: &Header, landed: &mut Landed) -> u32 {
    number(land(sent, reply).map(|bytes| *landed = bytes))
}

impl ReturnedCalls for Plain {
    #[inline(always)]
    fn returned(&self, sent: &mut Header, reply: &mut Header, landed: &mut Landed) -> u32 {
        plain_returned(sent, reply, landed)
    }

    #[inline(always)]
    fn returned_itself(&self, both: &mut Header, landed: &mut Landed) -> u32 {
        plain_returned(both, both, landed)
    }
}
