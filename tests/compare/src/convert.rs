//! Between the reference's values, with lists and enums, and the flat structs of C.

use crate::reference::assembly::State;
use crate::reference::header::{self, Fault, Header, Kind, ReadSegment, Reply, Segment};
use crate::reference::ledger::{self, Ledger};
use crate::reference::returned::Landed;
use crate::reference::setup::{Agreement, Setup};
use crate::words::Words;
use eoswynnor::ffi::{self, ERROR_CHUNK, ERROR_VERSION, MSG, NOMSG};

impl From<Segment> for ffi::Segment {
    fn from(segment: Segment) -> Self {
        let Segment { handle, length, offset } = segment;
        ffi::Segment { handle, length, offset }
    }
}

impl From<ffi::Segment> for Segment {
    fn from(segment: ffi::Segment) -> Self {
        let ffi::Segment { handle, length, offset } = segment;
        Segment { handle, length, offset }
    }
}

impl From<ReadSegment> for ffi::ReadSegment {
    fn from(entry: ReadSegment) -> Self {
        ffi::ReadSegment { position: entry.position, reserved: 0, target: entry.target.into() }
    }
}

/// The reserved word is ignored.
impl From<ffi::ReadSegment> for ReadSegment {
    fn from(entry: ffi::ReadSegment) -> Self {
        ReadSegment { position: entry.position, target: entry.target.into() }
    }
}

/// Puts a list into the first places.
fn place<F: From<N>, N: Copy>(places: &mut [F], list: &[N]) {
    places[..list.len()].iter_mut().zip(list).for_each(|(place, entry)| *place = (*entry).into());
}

/// A header within the limits, unused places and reserved words zero.
pub fn flatten(header: &Header) -> ffi::Header {
    let mut flat = ffi::Header {
        read_count: header.reads.len() as u32,
        write_chunks: header.writes.len() as u32,
        reply_present: u32::from(header.reply.present),
        reply_count: header.reply.segments.len() as u32,
        xid: header.xid,
        credit: header.credit,
        ..ffi::Header::ZERO
    };
    flat.kind = match header.kind {
        Kind::Msg => MSG,
        Kind::Nomsg => NOMSG,
        Kind::Error(Fault::Chunk) => ERROR_CHUNK,
        Kind::Error(Fault::Version { low, high }) => {
            (flat.low, flat.high) = (low, high);
            ERROR_VERSION
        }
    };
    let counts: Vec<u32> = header.writes.iter().map(|chunk| chunk.len() as u32).collect();
    place(&mut flat.reads, &header.reads);
    place(&mut flat.write_counts, &counts);
    place(&mut flat.writes, &header.writes.concat());
    place(&mut flat.reply, &header.reply.segments);
    flat
}

/// The natural header of a flat one, or 20 as the boundary has it.
/// Lists are cut one past their limit: any count over it gets the same answer,
/// and lists of 2^32 entries need not be built.
pub fn unflatten(flat: &ffi::Header) -> Result<Header, u32> {
    let kind = match flat.kind {
        MSG => Kind::Msg,
        NOMSG => Kind::Nomsg,
        ERROR_VERSION => Kind::Error(Fault::Version { low: flat.low, high: flat.high }),
        ERROR_CHUNK => Kind::Error(Fault::Chunk),
        _ => return Err(20),
    };
    if flat.reply_present > 1 {
        return Err(20);
    }
    let mut places = flat.writes.iter().map(|&segment| segment.into());
    let counts = flat.write_counts.iter().copied().chain([0]).take(flat.write_chunks as usize);
    Ok(Header {
        xid: flat.xid,
        credit: flat.credit,
        kind,
        reads: cut(flat.reads.iter().map(|&entry| entry.into()), flat.read_count, header::MAX_READS),
        writes: counts.map(|count| cut(places.by_ref(), count, header::MAX_WRITE_SEGMENTS)).collect(),
        reply: Reply {
            present: flat.reply_present == 1,
            segments: cut(
                flat.reply.iter().map(|&segment| segment.into()),
                flat.reply_count,
                header::MAX_REPLY_SEGMENTS,
            ),
        },
    })
}

fn cut<T: Default>(mut places: impl Iterator<Item = T>, count: u32, limit: usize) -> Vec<T> {
    (0..(count as usize).min(limit + 1)).map(|_| places.next().unwrap_or_default()).collect()
}

/// The length that the counts of a flat header ask for, whatever the limits and its kind.
pub fn asked_length(flat: &ffi::Header) -> u64 {
    let chunks = flat.write_counts.iter().take(flat.write_chunks as usize);
    let segments: u64 = chunks.chain([&flat.reply_count]).map(|&count| u64::from(count)).sum();
    let [reads, chunks, reply] = [flat.read_count, flat.write_chunks, flat.reply_present].map(u64::from);
    let fixed = if flat.kind == ERROR_CHUNK { 20 } else { 28 };
    fixed + 24 * reads + 8 * chunks + 4 * reply + 16 * segments
}

pub fn flatten_setup(setup: &Setup) -> ffi::Setup {
    let remote_invalidation = u32::from(setup.remote_invalidation);
    ffi::Setup { remote_invalidation, send: setup.send, receive: setup.receive }
}

/// The natural setup of a flat one, or 20 as the boundary has it.
pub fn unflatten_setup(flat: &ffi::Setup) -> Result<Setup, u32> {
    let remote_invalidation = match flat.remote_invalidation {
        0 => false,
        1 => true,
        _ => return Err(20),
    };
    Ok(Setup { remote_invalidation, send: flat.send, receive: flat.receive })
}

pub fn flatten_agreement(agreement: &Agreement) -> ffi::Agreement {
    let &Agreement { client_to_server, server_to_client, remote_invalidation } = agreement;
    ffi::Agreement { client_to_server, server_to_client, remote_invalidation: u32::from(remote_invalidation) }
}

/// A state as a start stores it, unused places and reserved words zero.
pub fn flatten_state(state: &State) -> ffi::State {
    let &State { base, buffer, taken, .. } = state;
    let kind = if state.kind == Kind::Nomsg { NOMSG } else { MSG };
    let read_count = state.reads.len() as u32;
    let mut flat = ffi::State { base, buffer, taken, read_count, kind, ..ffi::State::ZERO };
    place(&mut flat.reads, &state.reads);
    flat
}

/// The natural state of a flat one, or 17 for a kind that no state can have.
pub fn unflatten_state(flat: &ffi::State) -> Result<State, u32> {
    let kind = match flat.kind {
        MSG => Kind::Msg,
        NOMSG => Kind::Nomsg,
        _ => return Err(17),
    };
    let &ffi::State { base, buffer, taken, .. } = flat;
    let reads = cut(flat.reads.iter().map(|&entry| entry.into()), flat.read_count, header::MAX_READS);
    Ok(State { kind, reads, base, buffer, taken })
}

/// 0 behind the last write chunk.
pub fn flatten_landed(landed: &Landed) -> ffi::Landed {
    let mut flat = ffi::Landed { reply: landed.reply, ..ffi::Landed::ZERO };
    place(&mut flat.writes, &landed.writes);
    flat
}

/// A ledger with room for its calls, the places behind them zero.
pub fn flatten_ledger(ledger: &Ledger) -> ffi::Ledger {
    let &Ledger { grant, last, .. } = ledger;
    let count = ledger.in_flight.len() as u32;
    let mut flat = ffi::Ledger { count, grant, last, ..ffi::Ledger::ZERO };
    place(&mut flat.xids, &ledger.in_flight);
    flat
}

/// The places behind the calls in flight are ignored.
pub fn unflatten_ledger(flat: &ffi::Ledger) -> Ledger {
    let &ffi::Ledger { count, grant, last, .. } = flat;
    Ledger { in_flight: cut(flat.xids.iter().copied(), count, ledger::ROOM), grant, last }
}
