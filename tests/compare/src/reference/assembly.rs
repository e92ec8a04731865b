//! The reassembly of a call.

use super::header::{self, Kind, ReadSegment, MAX_READS};
use std::collections::BTreeSet;
use std::iter::repeat_n;

pub const MAX_MESSAGE: u128 = 1_048_576;

#[derive(Clone, Debug, Default, PartialEq, Eq)]
pub struct State {
    pub kind: Kind,
    pub reads: Vec<ReadSegment>,
    pub base: usize,
    pub buffer: usize,
    pub taken: usize,
}

/// Document 02, order 3: by position, segments of one position in wire order.
pub fn sorted(wire: &[ReadSegment]) -> Vec<ReadSegment> {
    let positions: BTreeSet<u32> = wire.iter().map(|entry| entry.position).collect();
    let at = |position| wire.iter().filter(move |entry| entry.position == position);
    positions.into_iter().flat_map(at).copied().collect()
}

/// Whether no position is below the one before it.
pub fn is_sorted(reads: &[ReadSegment]) -> bool {
    (1..reads.len()).all(|at| reads[at - 1].position <= reads[at].position)
}

/// Read segments with the same position; lengths are those of all its segments together.
struct Chunk {
    position: u128,
    length: u128,
}

impl Chunk {
    fn rounded(&self) -> u128 {
        self.length.div_ceil(4) * 4
    }
}

/// Of a sorted list.
fn chunks(reads: &[ReadSegment]) -> Vec<Chunk> {
    let mut list: Vec<Chunk> = Vec::new();
    for entry in reads {
        let (position, length) = (u128::from(entry.position), u128::from(entry.target.length));
        match list.last_mut() {
            Some(chunk) if chunk.position == position => chunk.length += length,
            _ => list.push(Chunk { position, length }),
        }
    }
    list
}

/// The length of the position-zero chunk, 0 if there is none.
fn zero_length(reads: &[ReadSegment]) -> u128 {
    reads.iter().filter(|entry| entry.position == 0).map(|entry| u128::from(entry.target.length)).sum()
}

/// Every place of a message, by what stands there, each list in order.
#[derive(Default)]
struct Places {
    base: Vec<usize>,
    chunks: Vec<usize>,
    padding: Vec<usize>,
}

impl Places {
    fn length(&self) -> usize {
        self.base.len() + self.chunks.len() + self.padding.len()
    }

    /// Sorted order: the position-zero chunk comes first.
    fn pulled(&self, kind: Kind) -> Vec<usize> {
        let base = if kind == Kind::Nomsg { &self.base[..] } else { &[] };
        [base, &self.chunks].concat()
    }
}

/// For each byte to be pulled, the segment it comes from, by its index in the sorted list.
fn sources(reads: &[ReadSegment]) -> impl Iterator<Item = usize> + '_ {
    reads.iter().enumerate().flat_map(|(index, entry)| repeat_n(index, entry.target.length as usize))
}

/// How many goes bytes take, each with its segment and its place: the fewest runs that have one
/// segment and no gap and make them up. A new one begins only at a byte that cannot go on with the
/// one before it.
fn goes(bytes: impl IntoIterator<Item = (usize, usize)>) -> u32 {
    let (mut count, mut next) = (0, None);
    for (segment, place) in bytes {
        if next != Some((segment, place)) {
            count += 1;
        }
        next = Some((segment, place + 1));
    }
    count
}

/// 12 to 16 of a sorted list, then the places. The base's length is handed in: a state has its own.
fn places(kind: Kind, reads: &[ReadSegment], base: u128, room: usize) -> Result<Places, u32> {
    let at_zero = reads.iter().any(|entry| entry.position == 0);
    match kind {
        Kind::Msg if !at_zero => {}
        Kind::Nomsg if at_zero => {}
        _ => return Err(12),
    }
    if base % 4 != 0 {
        return Err(13);
    }
    let chunks: Vec<Chunk> = chunks(reads).into_iter().filter(|chunk| chunk.position != 0).collect();
    let (mut end, mut earlier) = (0, 0);
    for chunk in &chunks {
        // Behind the former's end the difference cannot fall below 0.
        if chunk.position < end || chunk.position - earlier > base {
            return Err(14);
        }
        end = chunk.position + chunk.rounded();
        earlier += chunk.rounded();
    }
    let length = base + earlier;
    if length > MAX_MESSAGE {
        return Err(15);
    }
    if length > room as u128 {
        return Err(16);
    }
    let mut places = Places::default();
    let mut next = 0;
    for chunk in &chunks {
        let [start, end, behind] = [0, chunk.length, chunk.rounded()].map(|n| (chunk.position + n) as usize);
        places.base.extend(next..start);
        places.chunks.extend(start..end);
        places.padding.extend(end..behind);
        next = behind;
    }
    places.base.extend(next..length as usize);
    Ok(places)
}

/// The state, or the number of the refusal, which leaves `out` alone.
pub fn start(frame: &[u8], out: &mut [u8]) -> Result<State, u32> {
    let (header, payload) = header::read(frame)?;
    let base = match header.kind {
        Kind::Nomsg => zero_length(&header.reads),
        _ => payload.len() as u128,
    };
    let reads = sorted(&header.reads);
    let places = places(header.kind, &reads, base, out.len())?;
    if header.kind == Kind::Msg {
        places.base.iter().zip(payload).for_each(|(&place, &byte)| out[place] = byte);
    }
    places.padding.iter().for_each(|&place| out[place] = 0);
    let (base, buffer) = (places.base.len(), out.len());
    Ok(State { kind: header.kind, reads, base, buffer, taken: 0 })
}

/// The places of a state that can arise, over the buffer length of its start; else 17.
fn settled(state: &State, room: usize) -> Result<Places, u32> {
    let State { kind, ref reads, base, buffer, taken } = *state;
    let listed =
        reads.len() <= MAX_READS && reads.iter().all(|entry| entry.position % 4 == 0) && is_sorted(reads);
    let own_base = kind != Kind::Nomsg || base as u128 == zero_length(reads);
    if !listed || !own_base || buffer != room {
        return Err(17);
    }
    let places = places(kind, reads, base as u128, buffer).map_err(|_| 17u32)?;
    if taken > places.pulled(kind).len() {
        return Err(17);
    }
    Ok(places)
}

/// Takes a piece: how many goes it took, or the number of the refusal, which leaves state and `out`
/// alone.
pub fn take(state: &mut State, piece: &[u8], out: &mut [u8]) -> Result<u32, u32> {
    let pulled = settled(state, out.len())?.pulled(state.kind);
    let left = &pulled[state.taken..];
    if piece.len() > left.len() {
        return Err(18);
    }
    left.iter().zip(piece).for_each(|(&place, &byte)| out[place] = byte);
    let goes = goes(sources(&state.reads).zip(pulled).skip(state.taken).take(piece.len()));
    state.taken += piece.len();
    Ok(goes)
}

/// The length of the message, which is the first part of the buffer, or the number of the refusal.
pub fn ask(state: &State, room: usize) -> Result<usize, u32> {
    let places = settled(state, room)?;
    if state.taken < places.pulled(state.kind).len() {
        return Err(19);
    }
    Ok(places.length())
}

#[cfg(test)]
mod tests {
    use super::*;
    use crate::cases::assembly::{c6, c7, c8, c9, Frame, C6, INLINE, PULLED};
    use crate::cases::goes::counted;
    use crate::reference::header::Segment;
    use crate::rng::Rng;

    #[test]
    fn worked_examples() {
        let whole = [&INLINE[..], &PULLED].concat();
        for (frame, pulled) in [(c6(), &PULLED[..]), (c9(), &PULLED), (c8(), &whole)] {
            let mut out = [0x55; 23];
            let mut state = start(&frame.bytes(), &mut out).unwrap();
            assert_eq!(out[13..16], [0; 3]);
            for &byte in pulled {
                assert_eq!(ask(&state, 23), Err(19));
                assert_eq!(take(&mut state, &[byte], &mut out), Ok(1));
            }
            assert_eq!(take(&mut state, &[1], &mut out), Err(18));
            assert_eq!((ask(&state, 23), ask(&state, 22)), (Ok(20), Err(17)));
            assert_eq!((&out[..20], &out[20..]), (&C6[..], &[0x55; 3][..]));
            assert_eq!(state.taken, pulled.len());
        }
        let numbers = [12, 16, 20, 24].map(|position| start(&c7(position).bytes(), &mut [0; 24]).err());
        assert_eq!(numbers, [Some(14), None, None, Some(14)]);
        let c2 = Frame::new(Kind::Msg, &[], &[]).bytes();
        let state = start(&c2, &mut []).unwrap();
        assert_eq!((ask(&state, 0), state), (Ok(0), State::default()));
    }

    /// Each number is the place on the wire.
    #[test]
    fn lists_sorted_by_hand() {
        let lists: [(&[u32], &[u32]); 8] = [
            (&[], &[]),
            (&[8], &[0]),
            (&[8, 4], &[1, 0]),
            (&[8, 4, 8], &[1, 0, 2]),
            (&[8, 8, 4], &[2, 0, 1]),
            (&[8, 8, 8], &[0, 1, 2]),
            (&[4, 0, 8, 0, 4], &[1, 3, 0, 4, 2]),
            (&[u32::MAX - 3, 1 << 31, 65_536, 4, 0], &[4, 3, 2, 1, 0]),
        ];
        for (positions, want) in lists {
            let entry = |(&position, handle)| {
                let target = Segment { handle, ..Segment::default() };
                ReadSegment { position, target }
            };
            let wire: Vec<ReadSegment> = positions.iter().zip(0..).map(entry).collect();
            let list: Vec<u32> = sorted(&wire).iter().map(|entry| entry.target.handle).collect();
            assert_eq!((&list[..], is_sorted(&wire)), (want, want.is_sorted()));
        }
    }

    /// The same segments, never falling, those of one position in wire order: the standard's own stable
    /// sort has no other choice.
    #[test]
    fn sorting_is_stable() {
        let rng = &mut Rng(10);
        for at in 0..3_000 {
            let State { reads: wire, .. } = rng.call([Kind::Msg, Kind::Nomsg][at % 2]).wire_state(0, 0);
            let mut list = wire.clone();
            list.sort_by_key(|entry| entry.position);
            assert_eq!(sorted(&wire), list);
            assert!(is_sorted(&list) && sorted(&list) == list);
        }
    }

    /// A wire list in a state: 17 unless it is sorted.
    #[test]
    fn unsorted_states() {
        let frame = c7(16).falling();
        let mut out = [0x55; 24];
        let left = start(&frame.bytes(), &mut out).unwrap();
        assert_eq!((ask(&left, 24), left.reads[0].position), (Err(19), 8));
        let mut wire = frame.wire_state(24, 0);
        assert_eq!((take(&mut wire, &[], &mut out), ask(&wire, 24)), (Err(17), Err(17)));
        wire.reads.reverse();
        assert_eq!((take(&mut wire, &[], &mut out), wire), (Ok(0), left));
    }

    /// Each frame has all later faults too.
    #[test]
    fn refusals_of_a_start_in_their_order() {
        let frames = [
            (12, Frame::new(Kind::Msg, &[(0, 1), (64, u32::MAX)], &[1; 5])),
            (13, Frame::new(Kind::Msg, &[(64, u32::MAX)], &[1; 5])),
            (14, Frame::new(Kind::Msg, &[(64, u32::MAX)], &[1; 8])),
            (15, Frame::new(Kind::Msg, &[(8, u32::MAX)], &[1; 8])),
            (16, Frame::new(Kind::Msg, &[(8, 5)], &[1; 8])),
            (12, Frame::new(Kind::Nomsg, &[(4, 1)], &[])),
            (13, Frame::new(Kind::Nomsg, &[(0, 1), (4, 1)], &[])),
            (14, Frame::new(Kind::Nomsg, &[(0, 0), (4, 1)], &[])),
            // Sixteen of the longest need 36 bits.
            (15, Frame::new(Kind::Nomsg, &[(0, u32::MAX); 16], &[])),
            (14, Frame::new(Kind::Msg, &[(4, u32::MAX), (4, 1), (8, 4)], &[1; 8])),
        ];
        for (number, frame) in frames {
            let mut out = [0x55; 15];
            assert_eq!(start(&frame.bytes(), &mut out), Err(number));
            assert_eq!(out, [0x55; 15]);
        }
    }

    #[test]
    fn goes_counted_by_hand() {
        for case in counted() {
            let mut out = vec![0x55; case.frame.length()];
            let mut state = start(&case.frame.bytes(), &mut out).expect(case.name);
            for &(length, want) in &case.pieces {
                let goes = take(&mut state, &vec![7; length], &mut out).unwrap_or(0);
                assert_eq!(goes, want, "{}", case.name);
            }
        }
    }

    /// A byte's segment and place.
    type Byte = (usize, usize);

    /// One segment and no gap.
    fn is_run(bytes: &[Byte]) -> bool {
        let (segment, first) = bytes[0];
        bytes.iter().zip(first..).all(|(&byte, place)| byte == (segment, place))
    }

    /// Of all splits into runs the one with the fewest; a set bit ends a part behind its byte.
    fn fewest(bytes: &[Byte]) -> u32 {
        let all_runs = |ends: &u32| {
            let mut start = 0;
            (1..=bytes.len()).filter(|end| *end == bytes.len() || ends >> (end - 1) & 1 == 1).all(|end| {
                let part = start..end;
                start = end;
                is_run(&bytes[part])
            })
        };
        match bytes.len() {
            0 => 0,
            n => (0..1 << (n - 1)).filter(all_runs).map(|ends: u32| ends.count_ones() + 1).min().unwrap(),
        }
    }

    /// All lists of up to 7 bytes in which one follows the other in any of six ways.
    #[test]
    fn goes_are_the_fewest_runs() {
        let steps: [fn(Byte) -> Byte; 6] = [
            |(segment, place)| (segment, place + 1),
            |(segment, place)| (segment, place + 2),
            |(segment, place)| (segment, place),
            |(segment, place)| (segment + 1, place + 1),
            |(segment, place)| (segment + 1, place + 4),
            |(segment, place)| (segment + 1, place - 3),
        ];
        let mut lists: Vec<Vec<Byte>> = vec![vec![]];
        for length in 0..=7 {
            for list in &lists {
                assert_eq!(goes(list.iter().copied()), fewest(list), "{list:?}");
            }
            let first = [(3, 100)].into_iter().filter(|_| length == 0).map(|byte| vec![byte]);
            let longer = lists
                .iter()
                .filter(|list| !list.is_empty())
                .flat_map(|list| steps.map(|step| [&list[..], &[step(list[list.len() - 1])]].concat()));
            lists = first.chain(longer).collect();
        }
    }

    /// Each byte's place by where it lands alone, its segment by the lengths.
    fn landings(frame: &Frame) -> Vec<Byte> {
        let mut state = start(&frame.bytes(), &mut vec![0; frame.length()]).expect("an accepted start");
        let mut bytes = Vec::new();
        for (segment, entry) in state.reads.clone().iter().enumerate() {
            for _ in 0..entry.target.length {
                let mut out = vec![0; frame.length()];
                take(&mut state, &[1], &mut out).expect("a byte to be pulled");
                bytes.push((segment, out.iter().position(|&byte| byte == 1).expect("a byte written")));
            }
        }
        bytes
    }

    /// Every piece of up to 10 bytes of small messages.
    #[test]
    fn goes_of_pieces_are_the_fewest_runs() {
        let rng = &mut Rng(9);
        let mut frames: Vec<Frame> = counted().into_iter().map(|case| case.frame).collect();
        frames.extend((0..3_000).map(|at| rng.call([Kind::Msg, Kind::Nomsg][at % 2])));
        frames.extend((0..3_000).map(|_| rng.dense(Kind::Nomsg)));
        frames.retain(|frame| frame.pulled() <= 60);
        assert!(frames.len() > 500);
        for frame in &frames {
            let bytes = landings(frame);
            let mut out = vec![0; frame.length()];
            let fresh = start(&frame.bytes(), &mut out).expect("an accepted start");
            for taken in 0..=bytes.len() {
                for length in 0..=(bytes.len() - taken).min(10) {
                    let mut state = State { taken, ..fresh.clone() };
                    let goes = take(&mut state, &vec![7; length], &mut out);
                    assert_eq!(goes, Ok(fewest(&bytes[taken..taken + length])), "{fresh:?} {length}");
                }
            }
        }
    }
}
