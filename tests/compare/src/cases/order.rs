//! Families for lists that are not sorted: document 02, order 3.

use super::assembly::{c7, split, Frame, C7_AT_16, C7_AT_20, C7_PULLED, INLINE, KINDS, MOST};
use super::header::{c2, turned};
use crate::calls::Calls;
use crate::check::{Checker, Outcome, Step};
use crate::convert::{flatten, flatten_state};
use crate::reference::assembly::{is_sorted, sorted};
use crate::reference::header::{encode, Header, Kind, ReadSegment, MAX_READS};
use crate::rng::Rng;
use crate::tally::Tally;
use eoswynnor::ffi;

/// A segment's position and handle.
type Mark = (u32, u32);

fn marks<'a>(list: impl IntoIterator<Item = &'a ReadSegment>) -> Vec<Mark> {
    list.into_iter().map(|entry| (entry.position, entry.target.handle)).collect()
}

/// The first segment's handle where each is known by it.
const MARK: u32 = 100;

/// Each segment is known by its handle. Handles and offsets fall along the wire: an order that is
/// theirs too shows.
fn marked(mut frame: Frame) -> Frame {
    for (at, entry) in frame.header.reads.iter_mut().enumerate() {
        entry.target.handle = MARK - at as u32;
        entry.target.offset = u64::from(entry.target.handle) << 33;
    }
    frame
}

/// A wire list and what has to become of it, by hand.
pub struct Wire {
    pub name: &'static str,
    pub frame: Frame,
    /// The places of the wire list, in sorted order.
    sorted: Vec<usize>,
    message: Vec<u8>,
    goes: u32,
}

/// The bytes of the segment at such a place of the wire list: 11, 12 and so on, then 22, 23, then 33.
fn bytes(place: usize, length: usize) -> Vec<u8> {
    (0..length).map(|k| (0x11 * (place + 1) + k) as u8).collect()
}

impl Wire {
    /// What is pulled, in sorted order.
    fn pulled(&self) -> Vec<u8> {
        let reads = &self.frame.header.reads;
        self.sorted.iter().flat_map(|&place| bytes(place, reads[place].target.length as usize)).collect()
    }

    pub fn run<C: Calls>(&self, check: &mut Checker<C>) -> Outcome {
        self.checks(check).map_err(|what| format!("{}: {what}", self.name))
    }

    fn checks<C: Calls>(&self, check: &mut Checker<C>) -> Outcome {
        let (frame, reads) = (self.frame.bytes(), &self.frame.header.reads);
        let (room, pulled) = (self.message.len() + 3, self.pulled());
        check.in_wire_order(&encode(&self.frame.header), &marks(reads))?;
        check.listed(&frame, room, &marks(self.sorted.iter().map(|&place| &reads[place])))?;
        for held in [0, 0x55, 0xff] {
            check.worked(&frame, &pulled, held, Ok((&self.message, self.goes)))?;
        }
        let memory = |handle, length| bytes(usize::from(MARK.wrapping_sub(handle) as u8), length);
        check.received(&frame, &vec![0x55; room], memory, &self.message)?;
        let stays = self.sorted.is_sorted();
        check.arises(&flatten_state(&self.frame.wire_state(room, 0)), room, stays)?;
        check.arises(&flatten_state(&self.frame.state(room, pulled.len())), room, true)?;
        // The same beside the reference and the tally, byte by byte if it is not long.
        let steps = match pulled.len() {
            0..64 => split(&pulled, usize::MAX),
            _ => split(&pulled, 1),
        };
        let before = vec![0x55; room];
        check.read(&frame)?;
        check.way(&frame, &before, &steps)?;
        check.tallied(&frame, &frame, &before, &steps)
    }
}

/// By hand, each of the points of order 3 that are easily missed.
pub fn wires() -> Vec<Wire> {
    let wire = |name, kind, list: &[(u32, u32)], sorted: &[usize], message: &[&[u8]], goes| Wire {
        name,
        frame: marked(Frame::new(kind, list, if kind == Kind::Msg { &INLINE } else { &[] })),
        sorted: sorted.to_vec(),
        message: message.concat(),
        goes,
    };
    let msg = |name, list: &[(u32, u32)], sorted: &[usize], message: &[&[u8]], goes| {
        wire(name, Kind::Msg, list, sorted, message, goes)
    };
    let nomsg = |name, list: &[(u32, u32)], sorted: &[usize], message: &[&[u8]], goes| {
        wire(name, Kind::Nomsg, list, sorted, message, goes)
    };
    let (first, rest) = INLINE.split_at(4);
    let (most, last) = INLINE.split_at(8);
    let pad = &[0; 3][..];
    let [one, two, three, four] = [0, 1, 2, 3].map(|place| bytes(place, 16));
    let each: Vec<Vec<u8>> = (0..16).map(|place| [bytes(place, 1), vec![0; 3]].concat()).collect();
    let singles: Vec<u8> = (0..16).flat_map(|place| bytes(place, 1)).collect();
    let falling: Vec<(u32, u32)> = (0..16).rev().map(|i| (4 + 4 * i, 1)).collect();
    let backwards = each.iter().rev().flatten().copied().collect::<Vec<u8>>();
    let lowest_last: Vec<(u32, u32)> = (1..16).chain([0]).map(|i| (4 + 4 * i, 1)).collect();
    let moved: Vec<u8> = [&each[15..], &each[..15]].concat().concat();
    let exchanged: Vec<(u32, u32)> = (0..14).chain([15, 14]).map(|i| (4 + 4 * i, 1)).collect();
    let at_end: Vec<u8> = [&each[..14], &[each[15].clone(), each[14].clone()]].concat().concat();
    let behind: Vec<usize> = [15].into_iter().chain(0..15).collect();
    let swapped: Vec<usize> = (0..14).chain([15, 14]).collect();
    let straight: Vec<usize> = (0..16).collect();
    let back: Vec<usize> = (0..16).rev().collect();
    vec![
        // Positions that fall.
        msg("8 then 4", &[(8, 4), (4, 4)], &[1, 0], &[first, &two[..4], &one[..4], rest], 2),
        msg("C7 exchanged, 16", &[(16, 4), (8, 5)], &[1, 0], &[most, &two[..5], pad, &one[..4], last], 2),
        msg("C7 exchanged, 20", &[(20, 4), (8, 5)], &[1, 0], &[most, &two[..5], pad, last, &one[..4]], 2),
        msg(
            "the lowest last",
            &[(8, 4), (12, 4), (16, 4), (4, 4)],
            &[3, 0, 1, 2],
            &[first, &four[..4], &one[..4], &two[..4], &three[..4], rest],
            4,
        ),
        msg(
            "the highest first",
            &[(16, 4), (4, 4), (8, 4), (12, 4)],
            &[1, 2, 3, 0],
            &[first, &two[..4], &three[..4], &four[..4], &one[..4], rest],
            4,
        ),
        msg("16 falling", &falling, &back, &[first, &backwards, rest], 16),
        msg("the lowest sixteenth", &lowest_last, &behind, &[first, &moved, rest], 16),
        msg("the last two exchanged", &exchanged, &swapped, &[first, &at_end, rest], 16),
        msg(
            "beyond 16 bits",
            &[(65_540, 4), (4, 65_536)],
            &[1, 0],
            &[first, &bytes(1, 65_536), &one[..4], rest],
            2,
        ),
        // Segments of one position, apart and side by side.
        msg(
            "8, 4, 8",
            &[(8, 2), (4, 4), (8, 3)],
            &[1, 0, 2],
            &[first, &two[..4], &one[..2], &three[..3], pad, rest],
            3,
        ),
        msg(
            "8, 4, 8, the longer one first",
            &[(8, 3), (4, 4), (8, 2)],
            &[1, 0, 2],
            &[first, &two[..4], &one[..3], &three[..2], pad, rest],
            3,
        ),
        msg(
            "8, 8, 4",
            &[(8, 2), (8, 3), (4, 4)],
            &[2, 0, 1],
            &[first, &three[..4], &one[..2], &two[..3], pad, rest],
            3,
        ),
        msg(
            "two positions in turn",
            &[(8, 1), (4, 1), (8, 1), (4, 1), (8, 1), (4, 1)],
            &[1, 3, 5, 0, 2, 4],
            &[first, &[0x22, 0x44, 0x66, 0], &[0x11, 0x33, 0x55, 0], rest],
            6,
        ),
        msg(
            "empty segments apart",
            &[(8, 0), (4, 4), (8, 5), (4, 0)],
            &[1, 3, 0, 2],
            &[first, &two[..4], &three[..5], pad, rest],
            2,
        ),
        msg(
            "one position",
            &[(8, 2), (8, 0), (8, 3)],
            &[0, 1, 2],
            &[most, &one[..2], &three[..3], pad, last],
            2,
        ),
        msg("16 of one position", &[(4, 1); 16], &straight, &[first, &singles, rest], 16),
        // The position-zero chunk.
        nomsg("the base last", &[(8, 5), (0, 12)], &[1, 0], &[&two[..8], &one[..5], pad, &two[8..12]], 3),
        nomsg(
            "the base behind two chunks",
            &[(16, 4), (8, 5), (0, 12)],
            &[2, 1, 0],
            &[&three[..8], &two[..5], pad, &one[..4], &three[8..12]],
            4,
        ),
        nomsg(
            "the base around a chunk",
            &[(0, 8), (8, 5), (0, 4)],
            &[0, 2, 1],
            &[&one[..8], &two[..5], pad, &three[..4]],
            3,
        ),
        // Nothing moves, with many unused places behind.
        msg("sorted", &[(4, 4), (8, 4)], &[0, 1], &[first, &one[..4], &two[..4], rest], 2),
        msg("one segment", &[(8, 5)], &[0], &[most, &one[..5], pad, last], 1),
        msg("no segment", &[], &[], &[&INLINE], 0),
        nomsg("the base alone", &[(0, 8), (0, 4)], &[0, 1], &[&one[..8], &two[..4]], 2),
    ]
}

/// Starts that are refused whatever the order, by hand; none with 8.
pub fn refusals() -> Vec<(&'static str, u32, Frame)> {
    let msg = |list: &[(u32, u32)]| Frame::new(Kind::Msg, list, &INLINE);
    let nomsg = |list: &[(u32, u32)]| Frame::new(Kind::Nomsg, list, &[]);
    let seventeen = |unaligned: u32| {
        let list = (0..17).map(|i| (80 - 4 * i + if i == unaligned { 2 } else { 0 }, 0));
        msg(&list.collect::<Vec<_>>())
    };
    vec![
        ("a segment at 0 last in MSG", 12, msg(&[(8, 5), (0, 4)])),
        ("none at 0 in NOMSG", 12, nomsg(&[(8, 5), (4, 4)])),
        ("a base of 5 and 6 bytes apart", 13, nomsg(&[(8, 5), (0, 5), (4, 0), (0, 6)])),
        ("C7 exchanged, 12", 14, msg(&[(12, 4), (8, 5)])),
        ("C7 exchanged, 24", 14, msg(&[(24, 4), (8, 5)])),
        ("past the base, first", 14, msg(&[(32, 4), (4, 4)])),
        ("over a chunk whose segments lie apart", 14, msg(&[(8, 4), (12, 4), (8, 4)])),
        ("2^31 before the base", 14, nomsg(&[(1 << 31, 4), (0, 12)])),
        ("the highest position before the base", 14, nomsg(&[(u32::MAX - 3, 0), (0, 12)])),
        ("above 1 MiB", 15, msg(&[(8, 1 << 20), (4, 4)])),
        ("a short buffer", 16, msg(&[(8, 80), (4, 4)])),
        ("unaligned behind a fall", 9, msg(&[(8, 4), (4, 4), (6, 4)])),
        ("unaligned where it falls", 9, msg(&[(8, 4), (6, 4), (4, 4)])),
        ("unaligned before a fall", 9, msg(&[(6, 4), (4, 4)])),
        ("seventeen falling", 7, seventeen(17)),
        ("the seventeenth unaligned", 7, seventeen(16)),
        ("the sixteenth of seventeen unaligned", 9, seventeen(15)),
    ]
}

/// Lists of states and whether they can arise, by hand.
pub fn lists() -> Vec<(&'static str, Kind, Vec<(u32, u32)>, bool)> {
    let case = |name, kind, list: &[(u32, u32)], arises| (name, kind, list.to_vec(), arises);
    let msg = |name, list: &[(u32, u32)], arises| case(name, Kind::Msg, list, arises);
    let nomsg = |name, list: &[(u32, u32)], arises| case(name, Kind::Nomsg, list, arises);
    let sixteen: Vec<(u32, u32)> = (0..16).map(|i| (4 + 4 * (i / 2), i % 3)).collect();
    let mut list = vec![
        msg("8 then 4", &[(8, 4), (4, 4)], false),
        msg("4 then 8", &[(4, 4), (8, 4)], true),
        msg("8, 4, 8", &[(8, 4), (4, 4), (8, 4)], false),
        msg("empty ones, 8 then 4", &[(8, 0), (4, 0)], false),
        msg("equal positions", &[(8, 2), (8, 3)], true),
        msg("4, 8, 8, 16", &[(4, 4), (8, 2), (8, 3), (16, 1)], true),
        msg("16 of one position", &[(4, 1); 16], true),
        msg("unaligned", &[(6, 4)], false),
        msg("unaligned, sorted", &[(4, 4), (10, 4)], false),
        msg("unaligned and falling", &[(10, 4), (4, 4)], false),
        msg("none", &[], true),
        nomsg("the base last", &[(8, 5), (0, 12)], false),
        nomsg("an empty segment of the base last", &[(0, 12), (8, 5), (0, 0)], false),
        nomsg("the base around an empty chunk", &[(0, 4), (4, 0), (0, 8)], false),
        nomsg("the base first", &[(0, 8), (0, 4), (8, 5)], true),
        msg("beyond 16 bits", &[(4, 65_536), (65_540, 4)], true),
        msg("beyond 16 bits, falling", &[(65_540, 4), (4, 65_536)], false),
        msg("sixteen", &sixteen, true),
    ];
    // Two neighbours of sixteen exchanged, where that is a fall.
    for at in (1..15).step_by(2) {
        let mut falls = sixteen.clone();
        falls.swap(at, at + 1);
        list.push(msg("sixteen with one fall", &falls, false));
    }
    // Each pair of neighbours, the others rising.
    for at in 0..15 {
        let mut falls: Vec<(u32, u32)> = (0..16).map(|i| (4 + 4 * i, 1)).collect();
        falls.swap(at, at + 1);
        list.push(msg("sixteen rising but for two", &falls, false));
    }
    list
}

fn list_state((_, kind, list, _): &(&str, Kind, Vec<(u32, u32)>, bool)) -> (ffi::State, usize) {
    let frame = Frame::new(*kind, list, if *kind == Kind::Msg { &INLINE } else { &[] });
    (flatten_state(&frame.wire_state(frame.length() + 4, 0)), frame.length() + 4)
}

/// What may lie behind a list: nothing of it counts.
const BEHIND: [fn(u32) -> u32; 6] =
    [|_| 0, |at| 60 - 4 * at, |at| 4 * at, |_| 6, |_| u32::MAX, |_| u32::MAX - 3];

pub fn by_hand<C: Calls>(check: &mut Checker<C>) -> Outcome {
    check.family("orders by hand");
    wires().iter().try_for_each(|wire| wire.run(check))?;
    // C7's own bytes.
    for (position, message) in [(16, C7_AT_16), (20, C7_AT_20)] {
        let exchanged = c7(position).falling().bytes();
        check.worked(&exchanged, &C7_PULLED, 0x55, Ok((&message, 2)))?;
        check.two_orders([&c7(position).bytes(), &exchanged], &[0x55; 27])?;
        let steps = split(&C7_PULLED, 0x5b);
        check.tallied(&c7(position).bytes(), &exchanged, &[0x55; 24], &steps)?;
    }
    // A cut of 8, 4, 8 where each stood.
    let uncut = Frame::new(Kind::Msg, &[(8, 5), (4, 4), (8, 4)], &INLINE);
    let cut = Frame::new(Kind::Msg, &[(8, 2), (8, 3), (4, 0), (4, 4), (8, 1), (8, 0), (8, 3)], &INLINE);
    let pulled: Vec<u8> = (0xa1..=0xad).collect();
    let steps = split(&pulled, 0x124);
    check.way(&cut.bytes(), &[0x55; 28], &steps)?;
    check.tallied(&uncut.bytes(), &cut.bytes(), &[0x55; 28], &steps)?;
    let whole = [Step::Piece(pulled)];
    check.two_cuts([&cut.bytes(), &uncut.bytes()], &[0x55; 28], [&steps, &whole])?;

    check.family("refusals of any order");
    for (name, number, frame) in refusals() {
        let named = |what| format!("{name}: {what}");
        check.worked(&frame.bytes(), &[], 0x55, Err(number)).map_err(named)?;
        check.start(&frame.bytes(), 67).map_err(named)?;
        check.read(&frame.bytes()).map_err(named)?;
        if frame.header.reads.len() <= MAX_READS {
            check.write(&flatten(&frame.header), 1000).map_err(named)?;
        }
    }
    check.family("lists of states by hand");
    for case in lists() {
        let (state, room) = list_state(&case);
        let named = |what| format!("{}: {what}", case.0);
        check.arises(&state, room, case.3).map_err(named)?;
        for behind in BEHIND {
            let mut state = state;
            let used = state.read_count as usize;
            let unused = state.reads[used..].iter_mut();
            unused.enumerate().for_each(|(at, entry)| entry.position = behind(at as u32));
            check.arises(&state, room, case.3).map_err(named)?;
            check.take(&state, &[7], room).map_err(named)?;
            check.ask(&state, room).map_err(named)?;
        }
    }
    // The number stays in the table of replies.
    check.family("reply for 8");
    let frame = Frame::new(Kind::Msg, &[(8, 4), (4, 4)], &[]).bytes();
    for (limit, room) in [0, 1, 32].iter().flat_map(|&limit| [0, 19, 20, 28].map(|room| (limit, room))) {
        check.error_reply(&frame, frame.len(), 8, limit, room)?;
    }
    Ok(())
}

/// All lists of so many digits below `base`.
fn digits(count: usize, base: usize) -> impl Iterator<Item = Vec<usize>> {
    (0..base.pow(count as u32))
        .map(move |number| (0..count).map(|at| number / base.pow(at as u32) % base).collect())
}

/// All orders of so many.
fn permutations(count: usize) -> Vec<Vec<usize>> {
    match count {
        0 => vec![vec![]],
        _ => {
            let longer = |list: Vec<usize>| {
                (0..count).map(move |at| [&list[..at], &[count - 1], &list[at..]].concat())
            };
            permutations(count - 1).into_iter().flat_map(longer).collect()
        }
    }
}

impl Rng {
    /// A segment for each of these chunks, in this order on the wire. Chunk n stands at 64 n; those up
    /// to 15 are accepted if each has few segments and NOMSG has one at 0.
    fn of_chunks(&mut self, kind: Kind, chunks: &[usize]) -> Frame {
        const BASE: u32 = 64 * 15;
        let zeros = chunks.iter().filter(|&&chunk| chunk == 0).count();
        let mut zero = self.chunk(0, BASE, zeros.max(1)).into_iter();
        let most = if chunks.len() > 8 { 4 } else { 8 };
        let segments: Vec<(u32, u32)> = chunks
            .iter()
            .map(|&chunk| match chunk {
                0 => (0, zero.next().expect("as many").target.length),
                _ => (64 * chunk as u32, self.below(most) as u32),
            })
            .collect();
        let inline = if kind == Kind::Msg { self.noise(BASE as usize) } else { vec![] };
        marked(Frame::new(kind, &segments, &inline))
    }

    /// One of the kinds that the list leaves, and now and then the other.
    fn kind_of(&mut self, chunks: &[usize]) -> Kind {
        KINDS[usize::from(chunks.contains(&0) != (self.below(16) == 0))]
    }
}

/// Headers: the reader and the writer keep the order, whatever it is.
pub fn kept<C: Calls>(check: &mut Checker<C>, rng: &mut Rng, cases: u64) -> Outcome {
    check.family("every order kept");
    const AT: [u32; 5] = [0, 4, 8, 1 << 31, u32::MAX - 3];
    for list in (0..=4).flat_map(|count| digits(count, AT.len())) {
        let segments: Vec<(u32, u32)> = list.iter().map(|&at| (AT[at], at as u32)).collect();
        for kind in KINDS {
            let header = marked(Frame::new(kind, &segments, &[])).header;
            let (frame, flat) = (encode(&header), rng.noisy(&header));
            check.in_wire_order(&frame, &marks(&header.reads))?;
            check.read(&frame)?;
            check.write(&flat, frame.len())?;
            check.write_read(&flat, frame.len() + 9)?;
            check.read_write(&frame)?;
        }
    }
    check.family("any order kept");
    for _ in 0..cases / 4 {
        let count = [16, rng.below(17)][rng.below(2)];
        let kind = KINDS[rng.below(2)];
        let header = rng.header(kind, count, &[1, 0, 2], Some(1));
        let flat = rng.noisy(&header);
        check.write_read(&flat, encode(&header).len())?;
        check.read_write(&rng.frame(&header, 20))?;
        check.read(&rng.frame(&header, 4))?;
        check.write(&flat, encode(&header).len())?;
    }
    // 9 from left to right and the limit before the seventeenth's, whatever falls.
    check.family("unaligned in any order");
    for count in 1..=18 {
        for (one, two) in (0..count).flat_map(|one| (one..count).map(move |two| (one, two))) {
            let mut header = Header { kind: Kind::Nomsg, ..c2() };
            let mut positions: Vec<u32> = (0..count as u32).map(|at| 4 * (at / 2)).collect();
            rng.reorder(&mut positions);
            header.reads =
                positions.iter().map(|&position| ReadSegment { position, ..Default::default() }).collect();
            header.reads[one].position += 1 + rng.below(3) as u32;
            header.reads[two].position |= 2;
            let frame = encode(&header);
            let behind = 16 + 24 * one;
            for length in [behind + 4, behind + 23, behind + 24, frame.len()] {
                check.read_part(&frame, length)?;
                check.start_part(&frame, length, 64)?;
            }
            check.read(&encode(&turned(header.clone())))?;
            if count <= MAX_READS {
                check.write(&rng.noisy(&header), frame.len())?;
            }
        }
    }
    Ok(())
}

/// What a start makes of a list, over just enough room.
fn sorts<C: Calls>(check: &mut Checker<C>, frame: &Frame) -> Outcome {
    check.start(&frame.bytes(), frame.length())
}

pub fn sorting<C: Calls>(check: &mut Checker<C>, rng: &mut Rng) -> Outcome {
    check.family("start every order");
    for chunks in (0..=5).flat_map(|count| digits(count, 4)) {
        let kind = rng.kind_of(&chunks);
        sorts(check, &rng.of_chunks(kind, &chunks))?;
    }
    check.family("start every permutation");
    for order in (0..=7).flat_map(permutations) {
        for first in [0, 1] {
            let chunks: Vec<usize> = order.iter().map(|at| at + first).collect();
            let kind = KINDS[1 - first];
            sorts(check, &rng.of_chunks(kind, &chunks))?;
        }
    }
    check.family("start two positions");
    for chunks in (6..=MAX_READS).step_by(2).flat_map(|count| digits(count, 2)) {
        // 16 long, one of them in each 8.
        if chunks.len() < MAX_READS || rng.below(8) == 0 {
            let first = rng.below(2);
            let chunks: Vec<usize> = chunks.iter().map(|chunk| chunk + first).collect();
            let kind = rng.kind_of(&chunks);
            sorts(check, &rng.of_chunks(kind, &chunks))?;
        }
    }
    check.family("start one out of place");
    for count in 2..=MAX_READS {
        // Rising, and in steps of two and of three of one position.
        for (each, first) in [1, 2, 3].iter().flat_map(|&each| [0, 1].map(|first| (each, first))) {
            let rising: Vec<usize> = (0..count).map(|at| first + at / each).collect();
            // There are 15 places for chunks behind the base.
            let rising: Vec<usize> = rising.into_iter().map(|chunk| chunk.min(15)).collect();
            for (one, two) in (0..count).flat_map(|one| (0..count).map(move |two| (one, two))) {
                let (mut exchanged, mut moved) = (rising.clone(), rising.clone());
                exchanged.swap(one, two);
                let entry = moved.remove(one);
                moved.insert(two, entry);
                for chunks in [exchanged, moved] {
                    let kind = KINDS[1 - first];
                    sorts(check, &rng.of_chunks(kind, &chunks))?;
                }
            }
        }
    }
    // Positions that differ in one bit, those past the largest message too.
    check.family("start position bits");
    for bit in 2..32 {
        for lower in [4, 8, 12] {
            let (upper, inline) = (lower + (1u32 << bit), [lower, 4 + lower][rng.below(2)]);
            let fill = if bit < 20 { (1 << bit) - 4 } else { 4 };
            for rising in [
                vec![(lower, fill), (upper, 4)],
                vec![(lower, fill / 2), (lower, fill - fill / 2), (upper, 4)],
            ] {
                let rising = Frame::new(Kind::Msg, &rising, &rng.noise(inline as usize + 8));
                for frame in [rising.falling(), rng.wire(&rising), rising] {
                    check.start(&frame.bytes(), frame.length().min(MOST))?;
                }
            }
        }
    }
    for bit in 2..32 {
        let mut list = vec![(1 << bit, 0), (0, 12), (4, 0), (1 << bit, 4)];
        for _ in 0..6 {
            rng.reorder(&mut list);
            check.start(&Frame::new(Kind::Nomsg, &list, &[]).bytes(), 64)?;
        }
    }
    Ok(())
}

/// A receiver's message beside the tally's, which is fed each handle's bytes in sorted order.
fn receives<C: Calls>(check: &mut Checker<C>, rng: &mut Rng, frame: &Frame) -> Outcome {
    let memory = |handle: u32, length: usize| Rng(u64::from(handle)).noise(length);
    let frame = marked(frame.clone());
    let before = rng.noise(frame.length());
    let mut tally = Tally::new(&frame.bytes(), &before);
    for entry in sorted(&frame.header.reads) {
        assert_eq!(tally.piece(&memory(entry.target.handle, entry.target.length as usize)), 0);
    }
    let (number, message) = tally.ask();
    assert_eq!(number, 0, "all are in");
    check.received(&frame.bytes(), &before, memory, &message)
}

/// Whole lists of calls: any wire order of the same segments, and any cut of it.
pub fn orders<C: Calls>(check: &mut Checker<C>, rng: &mut Rng, cases: u64) -> Outcome {
    check.family("messages of every order");
    for chunks in (1..=4).flat_map(|count| digits(count, 4)) {
        let kind = KINDS[usize::from(chunks.contains(&0))];
        let frame = rng.of_chunks(kind, &chunks);
        let (bytes, before) = (rng.noise(frame.pulled()), rng.noise(frame.length()));
        let steps = rng.list(&bytes, bytes.len());
        check.way(&frame.bytes(), &before, &steps)?;
        check.tallied(&frame.bytes(), &rng.cut(&frame).bytes(), &before, &steps)?;
        receives(check, rng, &frame)?;
    }
    check.family("pulled as listed");
    for at in 0..cases / 8 {
        let kind = KINDS[rng.below(2)];
        let frame = if at % 2 == 0 { rng.call(kind) } else { rng.dense(kind) };
        receives(check, rng, &frame)?;
    }
    check.family("two wire orders");
    for at in 0..cases / 8 {
        let kind = KINDS[rng.below(2)];
        let frame = if at % 2 == 0 { rng.call(kind) } else { rng.dense(kind) };
        let (one, two) = (rng.wire(&frame), rng.wire(&frame));
        let (bytes, behind) = (rng.noise(frame.pulled()), rng.below(5));
        let before = rng.noise(frame.length() + behind);
        check.two_orders([&one.bytes(), &two.bytes()], &before)?;
        let [first, second] = [0, 1].map(|_| rng.list(&bytes, bytes.len()));
        let [one, two] = [one, two].map(|wire| rng.cut(&wire).bytes());
        check.two_cuts([&one, &two], &before, [&first, &second])?;
        check.tallied(&frame.bytes(), &one, &before, &first)?;
        // Also segments of one position exchanged: the bytes come as they do, wherever from.
        let mut any = frame.clone();
        rng.reorder(&mut any.header.reads);
        check.tallied(&frame.bytes(), &rng.cut(&any).bytes(), &before, &second)?;
        check.way(&any.bytes(), &before, &second)?;
    }
    Ok(())
}

/// States whose list is in any order.
pub fn states<C: Calls>(check: &mut Checker<C>, rng: &mut Rng, cases: u64) -> Outcome {
    check.family("states of every order");
    for chunks in (1..=4).flat_map(|count| digits(count, 4)) {
        let kind = KINDS[usize::from(chunks.contains(&0))];
        let frame = rng.of_chunks(kind, &chunks);
        state_calls(check, rng, &frame)?;
    }
    check.family("states of two positions");
    for chunks in digits(10, 2) {
        let chunks = chunks.iter().map(|chunk| chunk + 1).collect::<Vec<_>>();
        let frame = rng.of_chunks(Kind::Msg, &chunks);
        let (room, stays) = (frame.length(), is_sorted(&frame.header.reads));
        let state = rng.noisy_state(&frame.wire_state(room, frame.pulled()));
        check.arises(&state, room, stays)?;
        check.ask(&state, room)?;
    }
    check.family("states of any order");
    for _ in 0..cases / 8 {
        let kind = KINDS[rng.below(2)];
        let frame = [rng.call(kind), rng.dense(kind)][rng.below(2)].clone();
        state_calls(check, rng, &frame)?;
    }
    Ok(())
}

/// A frame's list in a state, as it lies and sorted, with all sorts of places behind.
fn state_calls<C: Calls>(check: &mut Checker<C>, rng: &mut Rng, frame: &Frame) -> Outcome {
    let (room, to_pull) = (frame.length(), frame.pulled());
    let taken = [0, to_pull, rng.below(to_pull + 1)][rng.below(3)];
    let stays = is_sorted(&frame.header.reads);
    for (state, arises) in [(frame.wire_state(room, taken), stays), (frame.state(room, taken), true)] {
        let mut flat = rng.noisy_state(&state);
        if rng.below(2) == 0 {
            let behind = BEHIND[rng.below(BEHIND.len())];
            let unused = flat.reads[state.reads.len()..].iter_mut();
            unused.enumerate().for_each(|(at, entry)| entry.position = behind(at as u32));
        }
        check.arises(&flat, room, arises)?;
        let piece = [0, to_pull - taken, rng.below(to_pull - taken + 1)][rng.below(3)];
        check.take(&flat, &rng.noise(piece), room)?;
        check.ask(&flat, room)?;
    }
    Ok(())
}

pub fn run<C: Calls>(check: &mut Checker<C>, rng: &mut Rng, cases: u64) -> Outcome {
    by_hand(check)?;
    kept(check, rng, cases)?;
    sorting(check, rng)?;
    orders(check, rng, cases)?;
    states(check, rng, cases)
}
