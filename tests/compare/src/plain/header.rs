//! Reading and writing a header.

use super::{number, Plain};
use crate::calls::HeaderCalls;
use crate::words::Words;
use eoswynnor::ffi::{Header, Part, ReadSegment, Segment, ERROR_CHUNK, ERROR_VERSION, MSG, NOMSG};

fn word(rest: &mut &[u8]) -> Result<u32, u32> {
    let (bytes, behind) = rest.split_first_chunk::<4>().ok_or(5u32)?;
    *rest = behind;
    Ok(u32::from_be_bytes(*bytes))
}

fn marker(rest: &mut &[u8]) -> Result<bool, u32> {
    let word = word(rest)?;
    if word > 1 {
        return Err(6);
    }
    Ok(word == 1)
}

fn segment(rest: &mut &[u8]) -> Result<Segment, u32> {
    let (bytes, behind) = rest.split_first_chunk::<16>().ok_or(5u32)?;
    *rest = behind;
    let all = u128::from_be_bytes(*bytes);
    Ok(Segment { handle: (all >> 96) as u32, length: (all >> 64) as u32, offset: all as u64 })
}

// Always, so that the benchmark does not hang on how the compiler cuts the files.
#[inline(always)]
fn lists(rest: &mut &[u8], flat: &mut Header) -> Result<(), u32> {
    let mut reads = 0;
    while marker(rest)? {
        let place = flat.reads.get_mut(reads).ok_or(7u32)?;
        let position = word(rest)?;
        *place = ReadSegment { position, reserved: 0, target: segment(rest)? };
        if position % 4 != 0 {
            return Err(9);
        }
        reads += 1;
    }
    flat.read_count = reads as u32;

    let mut chunks = 0;
    let mut free = &mut flat.writes[..];
    while marker(rest)? {
        let place = flat.write_counts.get_mut(chunks).ok_or(7u32)?;
        *place = word(rest)?;
        let (here, behind) = free.split_at_mut_checked(*place as usize).ok_or(7u32)?;
        for place in here {
            *place = segment(rest)?;
        }
        free = behind;
        chunks += 1;
    }
    flat.write_chunks = chunks as u32;

    if marker(rest)? {
        flat.reply_present = 1;
        flat.reply_count = word(rest)?;
        for place in flat.reply.get_mut(..flat.reply_count as usize).ok_or(7u32)? {
            *place = segment(rest)?;
        }
    }
    Ok(())
}

/// Fills a zeroed header; hands back what lies behind it.
pub fn decode<'a>(frame: &'a [u8], flat: &mut Header) -> Result<&'a [u8], u32> {
    if frame.len() < 16 {
        return Err(1);
    }
    let mut rest = frame;
    flat.xid = word(&mut rest)?;
    let version = word(&mut rest)?;
    flat.credit = word(&mut rest)?;
    let procedure = word(&mut rest)?;
    if version != 1 {
        return Err(2);
    }
    match procedure {
        0 | 1 => {
            flat.kind = if procedure == 0 { MSG } else { NOMSG };
            lists(&mut rest, flat)?;
        }
        3 => return Err(4),
        4 => match word(&mut rest)? {
            1 => {
                flat.kind = ERROR_VERSION;
                flat.low = word(&mut rest)?;
                flat.high = word(&mut rest)?;
            }
            2 => flat.kind = ERROR_CHUNK,
            _ => return Err(10),
        },
        _ => return Err(3),
    }
    if flat.kind != MSG && !rest.is_empty() {
        return Err(11);
    }
    Ok(rest)
}

#[inline(never)]
fn plain_read(frame: &[u8], header: &mut Header) -> u32 {
    let mut flat = Header::ZERO;
    number(decode(frame, &mut flat).map(|_| *header = flat))
}

fn plain_payload(frame: &[u8]) -> Part {
    match decode(frame, &mut { Header::ZERO }) {
        Ok(rest) if !rest.is_empty() => Part { offset: frame.len() - rest.len(), length: rest.len() },
        _ => Part::default(),
    }
}

/// The length of the header, or its refusal.
fn measure(flat: &Header) -> Result<usize, u32> {
    if flat.kind > 3 || flat.reply_present > 1 {
        return Err(20);
    }
    let error = flat.kind == ERROR_VERSION || flat.kind == ERROR_CHUNK;
    if error && (flat.read_count > 0 || flat.write_chunks > 0 || flat.reply_present == 1) {
        return Err(12);
    }
    let reads = flat.reads.get(..flat.read_count as usize).ok_or(7u32)?;
    let counts = flat.write_counts.get(..flat.write_chunks as usize).ok_or(7u32)?;
    let total: u64 = counts.iter().map(|&count| u64::from(count)).sum();
    let reply_limit = if flat.reply_present == 1 { 16 } else { 0 };
    if total > 16 || flat.reply_count > reply_limit {
        return Err(7);
    }
    if reads.iter().any(|entry| entry.position % 4 != 0) {
        return Err(9);
    }
    Ok(match flat.kind {
        ERROR_VERSION => 28,
        ERROR_CHUNK => 20,
        _ => {
            let writes = 8 * counts.len() + 16 * total as usize;
            let reply = 4 * flat.reply_present as usize + 16 * flat.reply_count as usize;
            28 + 24 * reads.len() + writes + reply
        }
    })
}

struct Out<'a> {
    free: &'a mut [u8],
}

impl Out<'_> {
    fn bytes<const N: usize>(&mut self, bytes: [u8; N]) {
        let (here, behind) = std::mem::take(&mut self.free).split_at_mut(N);
        here.copy_from_slice(&bytes);
        self.free = behind;
    }

    fn word(&mut self, word: u32) {
        self.bytes(word.to_be_bytes());
    }

    fn segment(&mut self, s: &Segment) {
        let all = u128::from(s.handle) << 96 | u128::from(s.length) << 64 | u128::from(s.offset);
        self.bytes(all.to_be_bytes());
    }
}

#[inline(never)]
fn plain_write(flat: &Header, out: &mut [u8], length: &mut usize) -> u32 {
    let need = match measure(flat) {
        Ok(need) if need <= out.len() => need,
        Ok(_) => return 16,
        Err(number) => return number,
    };
    *length = need;
    let mut out = Out { free: &mut out[..need] };
    out.word(flat.xid);
    out.word(1);
    out.word(flat.credit);
    if flat.kind == ERROR_VERSION || flat.kind == ERROR_CHUNK {
        out.word(4);
        out.word(flat.kind - 1);
        if flat.kind == ERROR_VERSION {
            out.word(flat.low);
            out.word(flat.high);
        }
        return 0;
    }
    out.word(flat.kind);
    for entry in &flat.reads[..flat.read_count as usize] {
        out.word(1);
        out.word(entry.position);
        out.segment(&entry.target);
    }
    out.word(0);
    let mut rest = &flat.writes[..];
    for &count in &flat.write_counts[..flat.write_chunks as usize] {
        let (here, behind) = rest.split_at(count as usize);
        out.word(1);
        out.word(count);
        here.iter().for_each(|segment| out.segment(segment));
        rest = behind;
    }
    out.word(0);
    out.word(flat.reply_present);
    if flat.reply_present == 1 {
        out.word(flat.reply_count);
        flat.reply[..flat.reply_count as usize].iter().for_each(|segment| out.segment(segment));
    }
    0
}

impl HeaderCalls for Plain {
    #[inline(always)]
    fn read_header(&self, frame: &mut [u8], header: &mut Header) -> u32 {
        plain_read(frame, header)
    }

    #[inline(always)]
    fn payload(&self, frame: &mut [u8]) -> Part {
        plain_payload(frame)
    }

    #[inline(always)]
    fn write_header(&self, header: &mut Header, out: &mut [u8], length: &mut usize) -> u32 {
        plain_write(header, out, length)
    }
}
