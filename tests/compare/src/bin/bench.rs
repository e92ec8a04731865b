//! Time of the library's calls beside the plain ones and, where bytes are moved, beside the bare
//! copies. `bench --one CALL INPUT N` just makes N calls, for callgrind; CALL is a row's call
//! behind lib-, plain- or copy-, INPUT the row's input. A fill is all pieces of a 1 MiB message; the
//! 16 segments of fall16 are those of reads16 with falling positions. An input of send and reply ends
//! with the number of calls in flight, their xids rising, across the wrap or, fall31, falling; pass31 and
//! fall31 pass all of them over, spent8 and unknown8 are refused. Each call is made on a fresh copy of the ledger, and the
//! copying is counted whoever makes the call: `plain-copied` makes none.
//! `bench --quadratic` compares, for send and reply, the plain calls with those that look for an xid
//! twice pair by pair even where the xids rise: plain-send-quadratic and plain-reply-quadratic.

#[cfg(not(library))]
compile_error!("set EOS_LIB_DIR to the folder that holds libeoswynnor.a");

use compare::calls::{AssemblyCalls, Calls};
use compare::cases::assembly::Frame;
use compare::cases::goes::{chunked, parted, Laid};
use compare::cases::header::{c2, full, reads16, turned};
use compare::cases::ledger::{rising, sent};
use compare::cases::returned::{full_pair, write1};
use compare::cases::setup::C10;
use compare::convert::flatten;
use compare::library::Library;
use compare::plain::ledger::{reply_quadratic, send_quadratic};
use compare::plain::Plain;
use compare::reference::header::{encode, Kind, MAX_HEADER};
use compare::rng::Rng;
use compare::words::Words;
use eoswynnor::ffi::{Agreement, Header, Landed, Ledger, Setup, State};
use std::hint::black_box;
use std::ops::Range;
use std::time::Instant;

const RUNS: usize = 21;

const ROWS: [(&str, &str); 45] = [
    ("read", "c2"),
    ("read", "reads16"),
    ("read", "fall16"),
    ("read", "full"),
    ("write", "c2"),
    ("write", "reads16"),
    ("write", "fall16"),
    ("write", "full"),
    ("read-setup", "c10"),
    ("write-setup", "c10"),
    ("agree", "c10"),
    ("grant", "c12"),
    ("error-reply", "version"),
    ("error-reply", "chunk"),
    ("error-reply", "none"),
    ("start", "inline"),
    ("start", "reads1"),
    ("start", "reads16"),
    ("start", "fall16"),
    ("start", "inline4k"),
    ("take", "empty"),
    ("take", "empty16"),
    ("take", "byte"),
    ("take", "4k"),
    ("take", "4k16"),
    ("take", "4k31"),
    ("message", "chunks1"),
    ("message", "chunks16"),
    ("fill", "chunks1"),
    ("fill", "chunks16"),
    ("fill", "runs31"),
    ("returned", "write1"),
    ("returned", "full"),
    ("send", "flight0"),
    ("send", "flight8"),
    ("send", "flight31"),
    ("send", "wrap31"),
    ("send", "pass31"),
    ("send", "fall31"),
    ("send", "spent8"),
    ("reply", "flight1"),
    ("reply", "flight8"),
    ("reply", "flight31"),
    ("reply", "wrap31"),
    ("reply", "unknown8"),
];

const MESSAGE: usize = 1 << 20;
const PIECE: usize = 32 << 10;

/// C10's values, and a server's.
const CLIENT: Setup = Setup { remote_invalidation: 1, send: 4096, receive: 8192 };
const SERVER: Setup = Setup { remote_invalidation: 1, send: 262_144, receive: 3072 };

/// A frame, its header where it has one, the number for an error reply, for the reassembly a frame
/// to be started and a message to be filled with the length of a piece, a header sent with its reply,
/// and a ledger with the xid of a reply.
struct Input {
    frame: Vec<u8>,
    flat: Header,
    number: u32,
    start: Vec<u8>,
    filling: Filling,
    piece: usize,
    pair: [Header; 2],
    ledger: Ledger,
    xid: u32,
}

fn input(name: &str) -> Input {
    let header = match name {
        "reads16" => reads16(),
        "fall16" => turned(reads16()),
        "full" => full(),
        _ => c2(),
    };
    let mut frame = encode(&header);
    let number = match name {
        "version" => {
            frame[7] = 2; // C3
            2
        }
        "chunk" => {
            frame[19] = 2; // C5
            6
        }
        _ => 0,
    };
    let spread: Vec<(u32, u32)> = (0..16).map(|i| (4 + 12 * i, 5)).collect();
    let falling: Vec<(u32, u32)> = spread.iter().rev().copied().collect();
    let (segments, inline) = match name {
        "reads1" => (&spread[..1], 64),
        "reads16" => (&spread[..], 64),
        "fall16" => (&falling[..], 64),
        "inline4k" => (&[][..], 4096),
        _ => (&[][..], 12),
    };
    let start = Frame::new(Kind::Msg, segments, &Rng(5).noise(inline)).bytes();
    let filling = filling(match name {
        name if name.ends_with("31") => parted(MESSAGE),
        name if name.ends_with("16") => chunked(MESSAGE, 16),
        _ => chunked(MESSAGE, 1),
    });
    let piece = match name {
        "byte" => 1,
        "4k" | "4k16" | "4k31" => 4096,
        _ => 0,
    };
    let pair = if name == "full" { full_pair() } else { write1() };
    let in_flight = match (name, name.strip_prefix("flight")) {
        ("wrap31", _) => rising(u32::MAX - 14, 31),
        ("pass31", _) => rising(1000, 31),
        ("fall31", _) => rising(1000, 31).into_iter().rev().collect(),
        ("spent8" | "unknown8", _) => rising(1000, 8),
        (_, Some(count)) => rising(1000, count.parse().expect("a count")),
        _ => vec![],
    };
    let mut ledger = sent(&in_flight);
    match name {
        "pass31" | "fall31" => ledger.last = 999,
        "spent8" => ledger.grant = 8,
        _ => {}
    }
    // The middle one, or one that is not in flight.
    let xid = if name == "unknown8" { 1 } else { ledger.xids[ledger.count as usize / 2] };
    Input { frame, flat: flatten(&header), number, start, filling, piece, pair, ledger, xid }
}

/// A message of 1 MiB, started, with the bytes to be pulled.
struct Filling {
    state: State,
    pulled: Vec<u8>,
    out: Vec<u8>,
    /// Where each run of a piece goes, in order: what bare copying has to do.
    runs: Vec<(Range<usize>, Range<usize>)>,
}

fn filling((frame, places): Laid) -> Filling {
    let mut out = vec![0; MESSAGE];
    let mut state = State::ZERO;
    assert_eq!(Library.start(&mut frame.bytes(), &mut out, &mut state), 0);
    let pulled = Rng(4).noise(frame.pulled());
    let mut runs = Vec::new();
    let mut taken = 0;
    for Range { start: mut place, end } in places {
        while place < end {
            let length = (end - place).min(PIECE - taken % PIECE);
            runs.push((place..place + length, taken..taken + length));
            place += length;
            taken += length;
        }
    }
    Filling { state, pulled, out, runs }
}

fn fill_by<C: Calls>(maker: &C, filling: &mut Filling) {
    let (mut state, mut goes) = (filling.state, 0);
    for piece in filling.pulled.chunks_mut(PIECE) {
        let answer = maker.take_piece(&mut state, black_box(piece), black_box(&mut filling.out));
        assert_eq!(answer.number, 0);
        goes += answer.goes as usize;
    }
    // As many as there are bare copies.
    assert_eq!((state.taken, goes), (filling.pulled.len(), filling.runs.len()));
}

fn fill_by_copies(filling: &mut Filling) {
    for (place, piece) in &filling.runs {
        let out = black_box(&mut filling.out[place.clone()]);
        out.copy_from_slice(black_box(&filling.pulled[piece.clone()]));
    }
}

/// Within the message, so that a run has to be looked for.
const TAKEN: usize = 40_000;

fn repeat<T>(count: u64, mut call: impl FnMut() -> T) {
    for _ in 0..count {
        let _ = black_box(&call());
    }
}

/// Each maker is lent the same.
fn calls_of<C: Calls>(maker: &C, call: &str, input: &mut Input, count: u64) {
    let Input { frame, flat, number, pair: [sent, reply], ledger, xid, .. } = input;
    let (mut out, mut length, mut header) = ([0; MAX_HEADER], 0, Header::ZERO);
    let (mut data, mut setup, mut present) = (C10, Setup::default(), 0);
    let (mut client, mut server) = (CLIENT, SERVER);
    let (mut agreement, mut credit, mut landed) = (Agreement::default(), 0, Landed::ZERO);
    match call {
        "read" => repeat(count, || maker.read_header(black_box(frame), black_box(&mut header))),
        "write" => repeat(count, || {
            maker.write_header(black_box(&mut *flat), black_box(&mut out), black_box(&mut length))
        }),
        "read-setup" => repeat(count, || {
            maker.read_setup(black_box(&mut data), black_box(&mut setup), black_box(&mut present))
        }),
        "write-setup" => repeat(count, || {
            maker.write_setup(black_box(&mut client), black_box(&mut out), black_box(&mut length))
        }),
        "agree" => repeat(count, || {
            maker.agree(black_box(&mut client), black_box(&mut server), black_box(&mut agreement))
        }),
        "grant" => repeat(count, || maker.grant(black_box(100), black_box(32), black_box(&mut credit))),
        "error-reply" => repeat(count, || {
            let (number, limit) = (black_box(*number), black_box(32));
            maker.error_reply(black_box(frame), number, limit, black_box(&mut out), black_box(&mut length))
        }),
        "returned" => repeat(count, || {
            maker.returned(black_box(&mut *sent), black_box(&mut *reply), black_box(&mut landed))
        }),
        "send" => ledger_calls(ledger, count, |ledger| maker.ledger_send(ledger)),
        "reply" => {
            ledger_calls(ledger, count, |ledger| maker.ledger_reply(ledger, black_box(*xid), black_box(32)))
        }
        _ => assembly_calls_of(maker, call, input, count),
    }
}

/// Each call gets a copy of the ledger.
fn ledger_calls<T>(ledger: &Ledger, count: u64, mut call: impl FnMut(&mut Ledger) -> T) {
    let mut copy = *ledger;
    repeat(count, || {
        copy = *black_box(ledger);
        call(black_box(&mut copy))
    })
}

fn assembly_calls_of<C: Calls>(maker: &C, call: &str, input: &mut Input, count: u64) {
    let Input { start, filling, piece, .. } = input;
    let Filling { state, pulled, out, .. } = filling;
    let (mut started, mut length) = (State::ZERO, 0);
    let mut half = State { taken: TAKEN, ..*state };
    let mut whole = State { taken: pulled.len(), ..*state };
    let piece = &mut pulled[TAKEN..TAKEN + *piece];
    match call {
        "start" => repeat(count, || maker.start(black_box(start), black_box(out), black_box(&mut started))),
        "take" => repeat(count, || {
            half.taken = TAKEN;
            maker.take_piece(black_box(&mut half), black_box(&mut *piece), black_box(out))
        }),
        "message" => {
            repeat(count, || maker.message(black_box(&mut whole), black_box(out), black_box(&mut length)))
        }
        "fill" => repeat(count, || fill_by(maker, filling)),
        _ => panic!("call is a row's, behind lib-, plain- or copy-"),
    }
}

fn copies(call: &str, input: &mut Input, count: u64) {
    let Input { filling, piece, .. } = input;
    if call == "fill" {
        return repeat(count, || fill_by_copies(filling));
    }
    let place = TAKEN..TAKEN + *piece;
    let Filling { pulled, out, .. } = filling;
    let piece = &pulled[place.clone()];
    repeat(count, || black_box(&mut out[place.clone()]).copy_from_slice(black_box(piece)))
}

fn calls(call: &str, input: &mut Input, count: u64) {
    let ledger = &input.ledger;
    match call.split_once('-') {
        Some(("plain", "copied")) => ledger_calls(ledger, count, |_| ()),
        Some(("plain", "send-quadratic")) => ledger_calls(ledger, count, |ledger| send_quadratic(ledger)),
        Some(("plain", "reply-quadratic")) => {
            ledger_calls(ledger, count, |ledger| reply_quadratic(ledger, black_box(input.xid), black_box(32)))
        }
        Some(("lib", call)) => calls_of(&Library, call, input, count),
        Some(("plain", call)) => calls_of(&Plain, call, input, count),
        Some(("copy", call)) => copies(call, input, count),
        _ => panic!("call is a row's, behind lib-, plain- or copy-"),
    }
}

fn nanoseconds(call: &str, input: &mut Input, count: u64) -> f64 {
    let start = Instant::now();
    calls(call, input, count);
    start.elapsed().as_nanos() as f64 / count as f64
}

/// The times of each call, about 10 ms a run, all in turn, so that they meet the same disturbances.
fn times(calls: &[String], input: &mut Input, few: u64) -> Vec<Vec<f64>> {
    let mut count = |call: &String| (1e7 / nanoseconds(call, input, few)) as u64 + 1;
    let counts: Vec<u64> = calls.iter().map(&mut count).collect();
    let mut times = vec![vec![]; calls.len()];
    for which in (0..calls.len() * RUNS).map(|run| run % calls.len()) {
        times[which].push(nanoseconds(&calls[which], input, counts[which]));
    }
    times
}

fn median(list: &[f64]) -> f64 {
    let mut list = list.to_vec();
    list.sort_by(f64::total_cmp);
    list[RUNS / 2]
}

/// Of each round's two, which the same disturbances have met.
fn ratio(one: &[f64], to: &[f64]) -> f64 {
    median(&one.iter().zip(to).map(|(one, to)| one / to).collect::<Vec<_>>())
}

fn table() {
    println!(
        "{:<11} {:<8} {:>9} {:>9} {:>7} {:>9} {:>7}",
        "call", "input", "lib ns", "plain ns", "ratio", "copy ns", "ratio"
    );
    for (call, name) in ROWS {
        let mut input = input(name);
        // Bare copies where bytes are moved.
        let copied = call == "fill" || call == "take" && input.piece > 0;
        let makers = if copied { &["lib", "plain", "copy"][..] } else { &["lib", "plain"] };
        let calls: Vec<String> = makers.iter().map(|maker| format!("{maker}-{call}")).collect();
        let times = times(&calls, &mut input, if call == "fill" { 20 } else { 1000 });
        let (lib, plain) = (median(&times[0]), median(&times[1]));
        print!("{call:<11} {name:<8} {lib:>9.1} {plain:>9.1} {:>7.2}", ratio(&times[0], &times[1]));
        match times.get(2) {
            Some(copy) => println!(" {:>9.1} {:>7.3}", median(copy), ratio(&times[0], copy)),
            None => println!(" {:>9} {:>7}", "-", "-"),
        }
    }
}

fn quadratic_table() {
    println!("{:<11} {:<8} {:>9} {:>9} {:>7}", "call", "input", "quadr ns", "plain ns", "ratio");
    for (call, name) in ROWS.into_iter().filter(|(call, _)| ["send", "reply"].contains(call)) {
        let calls = [format!("plain-{call}-quadratic"), format!("plain-{call}")];
        let times = times(&calls, &mut input(name), 1000);
        let (quadratic, plain) = (median(&times[0]), median(&times[1]));
        println!("{call:<11} {name:<8} {quadratic:>9.1} {plain:>9.1} {:>7.2}", ratio(&times[0], &times[1]));
    }
}

fn main() {
    let arguments: Vec<String> = std::env::args().skip(1).collect();
    match &arguments[..] {
        [] => table(),
        [quadratic] if quadratic == "--quadratic" => quadratic_table(),
        [one, call, name, count] if one == "--one" => {
            calls(call, &mut input(name), count.parse().expect("a count"))
        }
        _ => panic!("usage: bench [--quadratic | --one CALL INPUT N]"),
    }
}
