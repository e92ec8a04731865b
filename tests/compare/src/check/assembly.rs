//! The checks of start, piece and message: call by call beside the reference, list by list
//! beside the tally, one cut beside another, and beside bytes that document 01 names and goes counted
//! by hand.

use super::lent::{Buffer, Place};
use super::seen::{Call, Form, MOST_GOES};
use super::{hex, same_list, same_number, Checker, Outcome};
use crate::calls::Calls;
use crate::convert::{flatten_state, unflatten_state};
use crate::reference::assembly::{self, is_sorted, sorted, MAX_MESSAGE};
use crate::reference::header::{self, ReadSegment, MAX_READS};
use crate::tally::Tally;
use crate::words::Words;
use eoswynnor::ffi::{self, PieceAnswer, State, NOMSG};
use std::fmt;

/// One of the calls behind a start.
#[derive(Clone, PartialEq)]
pub enum Step {
    Piece(Vec<u8>),
    Ask,
}

impl fmt::Debug for Step {
    fn fmt(&self, f: &mut fmt::Formatter) -> fmt::Result {
        match self {
            Step::Piece(piece) => write!(f, "piece ({} bytes) {}", piece.len(), short(piece)),
            Step::Ask => write!(f, "ask"),
        }
    }
}

/// A message of 1 MiB would bury its difference.
fn short(bytes: &[u8]) -> String {
    const MOST: usize = 2048;
    let dots = if bytes.len() > MOST { "..." } else { "" };
    hex(&bytes[..bytes.len().min(MOST)]) + dots
}

/// What an implementation made of a start and a list of calls, but for the goes: demand 3 leaves them
/// out.
#[derive(Clone, Debug, PartialEq)]
struct Trace {
    start: u32,
    /// Each number; beside that of a message asked for, its bytes.
    answers: Vec<(u32, Vec<u8>)>,
    count: usize,
    buffer: Vec<u8>,
}

fn same_goes(got: u32, want: u32) -> Outcome {
    if got != want || got > MOST_GOES {
        return Err(format!("goes: got {got}, want {want}, at most {MOST_GOES}"));
    }
    Ok(())
}

/// Whether a list that is not sorted is all that this state is refused for.
fn unsorted(state: &State, room: usize) -> bool {
    unflatten_state(state).is_ok_and(|state| {
        let reads = sorted(&state.reads);
        reads != state.reads && assembly::ask(&assembly::State { reads, ..state }, room) != Err(17)
    })
}

/// Whether segments of one position lie apart.
fn apart(wire: &[ReadSegment]) -> bool {
    let runs = wire.chunk_by(|one, two| one.position == two.position).count();
    let chunks = sorted(wire);
    runs > chunks.chunk_by(|one, two| one.position == two.position).count()
}

impl<C: Calls> Checker<C> {
    /// The start of the first `length` bytes, with the others lying behind.
    pub fn start_part(&mut self, bytes: &[u8], length: usize, room: usize) -> Outcome {
        self.count();
        self.memory.noise(room, &mut self.noise);
        self.begin(bytes, length).map(drop).map_err(|what| {
            let (frame, buffer) = (short(&bytes[..length]), short(self.memory.before()));
            format!("{what}\nframe ({length} bytes): {frame}\nbuffer before ({room} bytes): {buffer}")
        })
    }

    pub fn start(&mut self, frame: &[u8], room: usize) -> Outcome {
        self.start_part(frame, frame.len(), room)
    }

    /// The implementation's start over the memory, beside the reference's; its number and the state
    /// as it leaves it.
    fn begin(&mut self, bytes: &[u8], length: usize) -> Result<(u32, State), String> {
        self.input.hold(bytes, length, &mut self.noise);
        let mut state = Place::noise(&mut self.noise);
        let number = self.calls.start(&mut self.input, self.memory.lent(), &mut state)?;
        self.seen.number(Call::Start, number);
        let right = assembly::start(&bytes[..length], self.memory.want());
        state.judge(number, right.map(|state| flatten_state(&state)))?;
        self.memory.judge()?;
        Ok((number, state.now.value))
    }

    /// Any state and a piece, over a buffer of any length that holds noise.
    pub fn take(&mut self, state: &State, piece: &[u8], room: usize) -> Outcome {
        self.count();
        self.memory.noise(room, &mut self.noise);
        self.take_over(state, piece).map(drop).map_err(|what| {
            let (length, piece, buffer) = (piece.len(), short(piece), short(self.memory.before()));
            format!("{what}\n{state:?}\npiece ({length} bytes): {piece}\nbuffer ({room} bytes): {buffer}")
        })
    }

    fn take_over(&mut self, state: &State, piece: &[u8]) -> Result<(PieceAnswer, State), String> {
        self.input.hold(piece, piece.len(), &mut self.noise);
        let mut place = Place::holding(*state, &mut self.noise);
        let answer = self.calls.take_piece(&mut place, &mut self.input, self.memory.lent())?;
        self.seen.piece(answer);
        // Only the count may change; unused places, reserved words and all else stay as handed in.
        let right = unflatten_state(state).and_then(|mut natural| {
            let goes = assembly::take(&mut natural, piece, self.memory.want())?;
            Ok((State { taken: natural.taken, ..*state }, goes))
        });
        place.judge(answer.number, right.map(|(state, _)| state))?;
        same_goes(answer.goes, right.map_or(0, |(_, goes)| goes))?;
        self.memory.judge()?;
        if answer.number == 17 && unsorted(state, self.memory.bytes().len()) {
            self.seen.form(Form::UnsortedPiece);
        }
        Ok((answer, place.now.value))
    }

    /// Asking for the message, with any state and a buffer of any length.
    pub fn ask(&mut self, state: &State, room: usize) -> Outcome {
        self.count();
        self.memory.noise(room, &mut self.noise);
        self.ask_over(state).map(drop).map_err(|what| format!("{what}\n{state:?}\nbuffer of {room} bytes"))
    }

    fn ask_over(&mut self, state: &State) -> Result<u32, String> {
        let mut length = Place::noise(&mut self.noise);
        let mut place = Place::holding(*state, &mut self.noise.aside());
        let number = self.calls.message(&mut place, &mut self.memory, &mut length)?;
        self.seen.number(Call::Message, number);
        let room = self.memory.bytes().len();
        let right = unflatten_state(state).and_then(|state| assembly::ask(&state, room));
        length.judge(number, right).map_err(|what| format!("message: {what}"))?;
        if number == 17 && unsorted(state, room) {
            self.seen.form(Form::UnsortedAsking);
        }
        Ok(number)
    }

    /// A start and a list of calls, each with the state last given back and the buffer as last
    /// left; beside the reference after each call.
    pub fn way(&mut self, frame: &[u8], before: &[u8], steps: &[Step]) -> Outcome {
        self.count();
        self.memory.noise(before.len(), &mut self.noise);
        self.memory.set(before);
        self.walk(frame, steps).map_err(|what| told(what, &[frame], before, &[steps]))
    }

    fn walk(&mut self, frame: &[u8], steps: &[Step]) -> Outcome {
        let (number, mut state) = self.begin(frame, frame.len())?;
        // Behind a refused start any state may be handed on: the noise, or as often zeros.
        if number != 0 && self.noise.below(2) == 0 {
            state = State::ZERO;
        }
        // Reserved words are ignored; every piece must keep them.
        if self.noise.below(2) == 0 {
            state.reads.iter_mut().for_each(|entry| entry.reserved = self.noise.any());
        }
        let (mut finished, mut refused) = (false, false);
        for (at, step) in steps.iter().enumerate() {
            let number = match step {
                Step::Piece(piece) => {
                    let (answer, next) =
                        self.take_over(&state, piece).map_err(|what| format!("call {at}: {what}"))?;
                    state = next;
                    if finished && piece.is_empty() {
                        self.seen.form(Form::EmptyPieceAtEnd);
                    }
                    answer.number
                }
                Step::Ask => {
                    let number = self.ask_over(&state).map_err(|what| format!("call {at}: {what}"))?;
                    finished |= number == 0;
                    number
                }
            };
            refused |= number != 0;
        }
        if finished {
            self.finished(frame, &state, refused);
        }
        Ok(())
    }

    fn finished(&mut self, frame: &[u8], state: &State, refused: bool) {
        // Behind a refused start zeros may be finished.
        let wire = &header::read(frame).map_or(vec![], |(header, _)| header.reads)[..];
        let last_at_zero = wire.last().is_some_and(|entry| entry.position == 0);
        let falls = wire.is_sorted_by(|one, two| one.position > two.position);
        let natural = unflatten_state(state).expect("a finished state");
        let length = assembly::ask(&natural, state.buffer).expect("a finished state");
        let inline = if state.kind == NOMSG { 0 } else { state.base };
        let chunks = natural.reads.chunk_by(|one, two| one.position == two.position).count();
        self.seen.forms(&[
            (if state.kind == NOMSG { Form::NomsgFinished } else { Form::MsgFinished }, true),
            (Form::PaddedFinished, length > inline + state.taken),
            (Form::SixteenChunksFinished, chunks == MAX_READS),
            (Form::LargestFinished, length as u128 == MAX_MESSAGE),
            (Form::RefusalBetween, refused),
            (Form::UnsortedFinished, !is_sorted(wire)),
            (Form::ApartFinished, apart(wire)),
            (Form::BaseLastFinished, last_at_zero && wire[0].position > 0),
            (Form::FallingFinished, falls && wire.len() == MAX_READS),
        ]);
    }

    /// The implementation alone, with no look at the reference; beside its trace the goes of each piece.
    fn trace(&mut self, frame: &[u8], before: &[u8], steps: &[Step]) -> Result<(Trace, Vec<u32>), String> {
        self.memory.noise(before.len(), &mut self.noise);
        self.memory.set(before);
        let mut state = Place::noise(&mut self.noise);
        let aside = &mut self.noise.aside();
        let start = self.calls.start(&mut Buffer::holding(frame, aside), self.memory.lent(), &mut state)?;
        if start != 0 {
            state.kept()?;
        }
        let (mut answers, mut goes) = (Vec::new(), Vec::new());
        for step in steps {
            answers.push(match step {
                Step::Piece(piece) => {
                    let mut piece = Buffer::holding(piece, aside);
                    let answer = self.calls.take_piece(&mut state, &mut piece, self.memory.lent())?;
                    goes.push(answer.goes);
                    (answer.number, Vec::new())
                }
                Step::Ask => self.asked(&mut state)?,
            });
        }
        // What the state holds is for the caller to judge; beside it nothing may have changed.
        state.holds(state.now.value)?;
        self.memory.judge_outside()?;
        let (count, buffer) = (state.now.value.taken, self.memory.bytes().to_vec());
        Ok((Trace { start, answers, count, buffer }, goes))
    }

    /// The number and the message.
    fn asked(&mut self, state: &mut Place<State>) -> Result<(u32, Vec<u8>), String> {
        let mut length = Place::noise(&mut self.noise);
        let number = self.calls.message(state, &mut self.memory, &mut length)?;
        if number != 0 {
            length.kept()?;
        }
        let length = if number == 0 { length.now.value } else { 0 };
        let bytes = self.memory.bytes().get(..length);
        Ok((number, bytes.ok_or(format!("{length} bytes lie outside the buffer"))?.to_vec()))
    }

    /// Demand 3: any cut of an accepted start and any list, beside the tally, which sees no cut.
    pub fn tallied(&mut self, uncut: &[u8], cut: &[u8], before: &[u8], steps: &[Step]) -> Outcome {
        self.count();
        let mut tally = Tally::new(uncut, before);
        let answers = steps.iter().map(|step| match step {
            Step::Piece(piece) => (tally.piece(piece), Vec::new()),
            Step::Ask => tally.ask(),
        });
        let answers = answers.collect();
        let want = Trace { start: 0, answers, count: tally.count(), buffer: tally.buffer() };
        self.trace(cut, before, steps)
            .and_then(|(got, _)| same_trace(&got, &want))
            .map_err(|what| told(what, &[uncut, cut], before, &[steps]))
    }

    /// Two cuts of one start and two lists that take the same bytes: the same count, whole buffer
    /// and answer to an asking.
    pub fn two_cuts(&mut self, cuts: [&[u8]; 2], before: &[u8], lists: [&[Step]; 2]) -> Outcome {
        self.count();
        let mut run = |which: usize| -> Result<Trace, String> {
            let steps = [lists[which], &[Step::Ask]].concat();
            let (mut trace, _) = self.trace(cuts[which], before, &steps)?;
            // Of the answers only the last one is the same in both.
            trace.answers.drain(..lists[which].len());
            Ok(trace)
        };
        let outcome = run(0).and_then(|one| same_trace(&one, &run(1)?));
        if cuts[0] != cuts[1] {
            self.seen.form(Form::CutsCompared);
        }
        outcome.map_err(|what| told(what, &cuts, before, &lists))
    }

    /// Two wire orders of the same segments, those of one position in the same order: the same number,
    /// state and whole buffer.
    pub fn two_orders(&mut self, orders: [&[u8]; 2], before: &[u8]) -> Outcome {
        self.count();
        let mut run = |frame: &[u8]| -> Result<(u32, State, Vec<u8>), String> {
            self.memory.noise(before.len(), &mut self.noise);
            self.memory.set(before);
            let mut state = Place::holding(State::ZERO, &mut self.noise);
            let mut frame = Buffer::holding(frame, &mut self.noise.aside());
            let number = self.calls.start(&mut frame, self.memory.lent(), &mut state)?;
            Ok((number, state.now.value, self.memory.bytes().to_vec()))
        };
        let outcome = run(orders[0]).and_then(|one| {
            let two = run(orders[1])?;
            if one != two {
                return Err(format!("one: {} {:?}\nother: {} {:?}", one.0, one.1, two.0, two.1));
            }
            Ok(())
        });
        if orders[0] != orders[1] {
            self.seen.form(Form::OrdersCompared);
        }
        outcome.map_err(|what| told(what, &orders, before, &[]))
    }

    /// The positions and handles of the list that a start leaves, which are the caller's and not the
    /// reference's.
    pub fn listed(&mut self, frame: &[u8], room: usize, want: &[(u32, u32)]) -> Outcome {
        self.count();
        self.memory.noise(room, &mut self.noise);
        let mut state = Place::noise(&mut self.noise);
        let mut lent = Buffer::holding(frame, &mut self.noise.aside());
        self.calls
            .start(&mut lent, self.memory.lent(), &mut state)
            .and_then(|number| {
                same_number(number, 0)?;
                same_list(&state.now.value.reads, state.now.value.read_count, want)
            })
            .map_err(|what| format!("{what}\nframe: {}", short(frame)))
    }

    /// The way of a receiver: it pulls segment by segment what the list names that its start left. What
    /// each handle's memory holds and the message are the caller's and not the reference's.
    pub fn received(
        &mut self,
        frame: &[u8],
        before: &[u8],
        memory: impl Fn(u32, usize) -> Vec<u8>,
        want: &[u8],
    ) -> Outcome {
        self.count();
        self.memory.noise(before.len(), &mut self.noise);
        self.memory.set(before);
        let mut state = Place::noise(&mut self.noise);
        let aside = &mut self.noise.aside();
        let mut run = || {
            let mut lent = Buffer::holding(frame, aside);
            same_number(self.calls.start(&mut lent, self.memory.lent(), &mut state)?, 0)?;
            let ffi::State { reads, read_count, .. } = state.now.value;
            for entry in reads.iter().take(read_count as usize) {
                let length = entry.target.length as usize;
                // A mistake may name more than there is.
                if length > want.len() {
                    return Err(format!("{entry:?} is longer than the message"));
                }
                let mut piece = Buffer::holding(&memory(entry.target.handle, length), aside);
                let answer = self.calls.take_piece(&mut state, &mut piece, self.memory.lent())?;
                same_number(answer.number, 0).map_err(|what| format!("piece of {entry:?}: {what}"))?;
            }
            let (number, message) = self.asked(&mut state)?;
            same_number(number, 0).map_err(|what| format!("message: {what}"))?;
            if message != want {
                return Err(format!("message: got {}\nwant {}", short(&message), short(want)));
            }
            Ok(())
        };
        run().map_err(|what: String| told(what, &[frame], before, &[]))
    }

    /// Whether a state can arise, which is the caller's to say and not the reference's: each call with it
    /// is given 17, or none is.
    pub fn arises(&mut self, state: &State, room: usize, want: bool) -> Outcome {
        self.count();
        self.memory.noise(room, &mut self.noise);
        let mut place = Place::holding(*state, &mut self.noise);
        let mut length = Place::noise(&mut self.noise);
        let mut nothing = Buffer::holding(&[], &mut self.noise.aside());
        let mut run = || {
            let piece = self.calls.take_piece(&mut place, &mut nothing, self.memory.lent())?.number;
            let asking = self.calls.message(&mut place, &mut self.memory, &mut length)?;
            place.kept()?;
            let good =
                if want { piece == 0 && [0, 19].contains(&asking) } else { [piece, asking] == [17; 2] };
            if !good {
                return Err(format!("piece {piece}, asking {asking}; the state can arise: {want}"));
            }
            Ok(())
        };
        run().map_err(|what| format!("{what}\n{state:?}\nbuffer of {room} bytes"))
    }

    /// A frame and its pulled bytes, the message or number being that of document 01 itself; beside
    /// the message the goes of one piece of all bytes.
    pub fn worked(
        &mut self,
        frame: &[u8],
        pulled: &[u8],
        held: u8,
        want: Result<(&[u8], u32), u32>,
    ) -> Outcome {
        self.count();
        let room = want.map_or(64, |(message, _)| message.len()) + 3;
        let before = vec![held; room];
        let steps = [Step::Piece(pulled.to_vec()), Step::Ask];
        let (got, goes) =
            self.trace(frame, &before, &steps).map_err(|what| told(what, &[frame], &before, &[&steps]))?;
        let right = match want {
            Ok((message, _)) => {
                let buffer = [message, &before[message.len()..]].concat();
                let answers = vec![(0, vec![]), (0, message.to_vec())];
                Trace { start: 0, answers, count: pulled.len(), buffer }
            }
            Err(number) => Trace { start: number, answers: vec![], count: 0, buffer: before.clone() },
        };
        let got = if want.is_err() { Trace { answers: vec![], count: 0, ..got } } else { got };
        same_trace(&got, &right)
            // Behind a refused start the piece is refused too, since the state is noise.
            .and_then(|()| same_goes(goes[0], want.map_or(0, |(_, goes)| goes)))
            .map_err(|what| told(what, &[frame], &before, &[&steps]))
    }

    /// Pieces and the goes of each, which are the caller's and not the reference's.
    pub fn goes(&mut self, frame: &[u8], before: &[u8], pieces: &[Step], want: &[u32]) -> Outcome {
        self.count();
        self.trace(frame, before, pieces)
            .and_then(|(_, goes)| {
                assert_eq!(goes.len(), want.len(), "pieces alone");
                goes.iter().zip(want).try_for_each(|(&got, &want)| same_goes(got, want))
            })
            .map_err(|what| told(what, &[frame], before, &[pieces]))
    }
}

fn same_trace(got: &Trace, want: &Trace) -> Outcome {
    if got.start != want.start {
        return Err(format!("number of the start: got {}, want {}", got.start, want.start));
    }
    if let Some(at) = (0..want.answers.len()).find(|&at| got.answers[at] != want.answers[at]) {
        let [got, want] = [got, want].map(|trace| {
            let (number, part) = &trace.answers[at];
            format!("{number} and {}", short(part))
        });
        return Err(format!("answer {at}: got {got}\nwant {want}"));
    }
    if got.count != want.count {
        return Err(format!("count: got {}, want {}", got.count, want.count));
    }
    if got.buffer != want.buffer {
        return Err(format!("buffer: got {}\nwant {}", short(&got.buffer), short(&want.buffer)));
    }
    Ok(())
}

fn told(what: String, frames: &[&[u8]], before: &[u8], lists: &[&[Step]]) -> String {
    let frames: Vec<String> = frames.iter().map(|frame| format!("frame: {}", short(frame))).collect();
    let lists: Vec<String> = lists.iter().map(|steps| format!("calls: {steps:?}")).collect();
    let buffer = format!("buffer before ({} bytes): {}", before.len(), short(before));
    format!("{what}\n{}\n{buffer}\n{}", frames.join("\n"), lists.join("\n"))
}
