//! Families for the ledger of credits: document 02, orders 5 and 6.

use super::edges;
use crate::calls::Calls;
use crate::check::{Checker, Operation, Outcome, Start};
use crate::convert::{flatten_ledger, unflatten_ledger};
use crate::reference::ledger::{self as reference, Sent, ROOM};
use crate::rng::Rng;
use crate::words::{bytes, bytes_mut, Words};
use eoswynnor::ffi::Ledger;
use Operation::{Reply, Send};

const MAX: u32 = u32::MAX;

/// Calls in flight, zeros behind them.
pub fn flat(in_flight: &[u32], grant: u32, last: u32) -> Ledger {
    flatten_ledger(&reference::Ledger { in_flight: in_flight.to_vec(), grant, last })
}

/// So many xids, each one more than the one before it.
pub fn rising(first: u32, count: usize) -> Vec<u32> {
    (0..count as u32).map(|at| first.wrapping_add(at)).collect()
}

/// As many in flight as there are xids, the last of them given last.
pub fn sent(xids: &[u32]) -> Ledger {
    flat(xids, ROOM as u32, xids.last().copied().unwrap_or(41))
}

/// The place of the first that is ignored.
fn end(ledger: &Ledger) -> usize {
    ROOM.min(ledger.count as usize)
}

/// The ways in which ignored places are filled.
const WAYS: usize = 5;

impl Rng {
    /// The same ledger to every call: the ignored places hold zeros, noise, copies of those in flight, the
    /// next xids that are not in flight, or all the same.
    fn filled_behind(&mut self, ledger: &Ledger, way: usize) -> Ledger {
        let (mut ledger, end) = (*ledger, end(ledger));
        let (in_flight, behind) = ledger.xids.split_at_mut(end);
        let next = (1..).map(|step| ledger.last.wrapping_add(step)).filter(|xid| !in_flight.contains(xid));
        for (xid, next) in behind.iter_mut().zip(next) {
            *xid = match way {
                0 => 0,
                1 => self.any(),
                2 if end > 0 => in_flight[self.below(end)],
                3 => next,
                _ => ledger.last,
            };
        }
        ledger
    }

    /// Any of them.
    fn noisy_ledger(&mut self, ledger: &Ledger) -> Ledger {
        let way = self.below(WAYS);
        self.filled_behind(ledger, way)
    }

    /// Often near the wrap.
    fn last(&mut self) -> u32 {
        match self.below(4) {
            0 => MAX.wrapping_add(self.below(40) as u32),
            1 => MAX - self.below(40) as u32,
            _ => self.word(),
        }
    }

    /// Often about as many as are in flight, or about as many as there is room for.
    fn grant_near(&mut self, count: usize) -> u32 {
        match self.below(4) {
            0 => (count + self.below(3)).saturating_sub(1).max(1) as u32,
            1 => (ROOM - 1 + self.below(3)) as u32,
            2 => 1 + self.below(40) as u32,
            _ => self.word().max(1),
        }
    }

    /// So many xids, none twice: a run behind the last one given or before it, close to it, round and round
    /// in steps below half of all, or any.
    fn in_flight(&mut self, count: usize, last: u32) -> Vec<u32> {
        let way = self.below(6);
        let mut xids: Vec<u32> = Vec::new();
        while xids.len() < count {
            let step = xids.len() as u32;
            let xid = match way {
                0 => last.wrapping_add(1 + step),
                1 => last.wrapping_sub(count as u32).wrapping_add(1 + step),
                2 => last.wrapping_add(self.below(40) as u32),
                3 => last.wrapping_add(self.below(80) as u32).wrapping_sub(40),
                4 => last.wrapping_add(step.wrapping_mul(0x6000_0001)),
                _ => self.any(),
            };
            if !xids.contains(&xid) {
                xids.push(xid);
            }
        }
        if self.below(2) == 0 {
            self.reorder(&mut xids);
        }
        xids
    }

    /// One that does not get 17.
    pub fn ledger(&mut self) -> Ledger {
        let (last, count) = (self.last(), [self.below(ROOM + 1), self.below(4), ROOM - self.below(4)]);
        let count = count[self.below(3)];
        let ledger = flat(&self.in_flight(count, last), self.grant_near(count), last);
        self.noisy_ledger(&ledger)
    }

    /// So many xids, none twice: unbroken stretches and gaps between them, often from right behind the last
    /// one given on.
    fn in_stretches(&mut self, count: usize, last: u32) -> Vec<u32> {
        let mut next = match self.below(8) {
            0..=4 => last.wrapping_add(1),
            5 => last.wrapping_sub(self.below(4) as u32),
            6 => last.wrapping_add(2),
            _ => last.wrapping_sub(self.below(40) as u32),
        };
        let mut xids: Vec<u32> = Vec::new();
        while xids.len() < count {
            let (left, gap) = (count - xids.len(), [1, 1 + self.below(3)][self.below(2)]);
            let length = left.min([1 + self.below(3), 1 + self.below(12), left][self.below(3)]);
            xids.extend(rising(next, length));
            next = next.wrapping_add((length + gap) as u32);
        }
        if self.below(2) == 0 {
            self.reorder(&mut xids);
        }
        xids
    }

    /// One that does not get 17, in stretches; mostly a call may be sent.
    pub fn ledger_of_stretches(&mut self) -> Ledger {
        let (last, count) = (self.last(), [self.below(ROOM + 1), self.below(6), ROOM - self.below(4)]);
        let count = count[self.below(3)];
        let grant = [count as u32 + 1, count as u32 + 1, self.grant_near(count)][self.below(3)];
        let ledger = flat(&self.in_stretches(count, last), grant, last);
        self.noisy_ledger(&ledger)
    }

    /// A send, or a reply to one in flight, behind those in flight, near the last or any.
    fn operation(&mut self, ledger: &Ledger) -> Operation {
        let (end, place) = (end(ledger), self.below(ROOM));
        let xid = match self.below(8) {
            0..=2 => return Send,
            3..=5 => ledger.xids[place % end.max(1)],
            6 => ledger.xids[place],
            _ => [ledger.last.wrapping_add(self.below(4) as u32), self.word()][self.below(2)],
        };
        Reply { xid, grant: if self.below(8) == 0 { 0 } else { self.grant_near(end) } }
    }

    /// One word, or one bit of it, made another; often one of the last three, or a copy of another word.
    fn spoil_ledger(&mut self, ledger: &mut Ledger) {
        let at = [self.below(WORDS), ROOM + self.below(3)][self.below(2)];
        let (old, other) = (word(ledger, at), word(ledger, self.below(WORDS)));
        let near = old.wrapping_add_signed(self.below(5) as i32 - 2);
        put(ledger, at, [self.word(), other, old ^ 1 << self.below(32), near][self.below(4)]);
    }

    /// Operations of all sorts behind each other. What is in flight is known from the reference.
    fn operations(&mut self, start: &reference::Ledger, length: usize) -> Vec<Operation> {
        // Few different grants, and more or fewer sends.
        let mut grants: Vec<u32> =
            (0..1 + self.below(3)).map(|_| self.grant_near(start.in_flight.len())).collect();
        grants.extend([&[][..], &[0], &[1], &[MAX], &[ROOM as u32 + 8]][self.below(5)]);
        let sends = 1 + self.below(7);
        let (mut ledger, mut answered) = (start.clone(), vec![start.last]);
        let mut operations = Vec::new();
        for _ in 0..length {
            let open = ledger.in_flight.len();
            let xid = match self.below(16) {
                0 => answered[self.below(answered.len())],
                1 => ledger.last.wrapping_add(1 + self.below(40) as u32),
                2 => self.word(),
                // In any order, or the oldest.
                _ if open > 0 => ledger.in_flight[[0, self.below(open)][self.below(2)]],
                _ => ledger.last,
            };
            let grant = if self.below(40) == 0 { 0 } else { grants[self.below(grants.len())] };
            let operation = if self.below(8) < sends { Send } else { Reply { xid, grant } };
            if let Ok((_, after)) = operation.right(&ledger) {
                ledger = after;
                answered.extend(if operation == Send { None } else { Some(xid) });
            }
            operations.push(operation);
        }
        operations
    }
}

/// Words of a ledger.
const WORDS: usize = size_of::<Ledger>() / 4;

fn word(ledger: &Ledger, at: usize) -> u32 {
    u32::from_ne_bytes(bytes(ledger)[4 * at..][..4].try_into().expect("4 bytes"))
}

fn put(ledger: &mut Ledger, at: usize, value: u32) {
    bytes_mut(ledger)[4 * at..][..4].copy_from_slice(&value.to_ne_bytes());
}

/// An operation worked by hand: what it gives, for a reply no xid and none passed over, and the ledger
/// afterwards, or the number.
pub struct Worked {
    pub name: &'static str,
    pub before: Ledger,
    pub operation: Operation,
    pub want: Result<(Sent, Ledger), u32>,
}

impl Worked {
    /// Whatever the ignored places hold.
    pub fn run<C: Calls>(&self, check: &mut Checker<C>, rng: &mut Rng) -> Outcome {
        for way in 0..WAYS {
            let before = rng.filled_behind(&self.before, way);
            check
                .operated(&before, self.operation, self.want)
                .map_err(|what| format!("{}: {what}", self.name))?;
        }
        Ok(())
    }
}

/// A send: the xid and how many are passed over, or the number. It joins at the end and is the last.
fn send(
    name: &'static str,
    in_flight: &[u32],
    grant: u32,
    last: u32,
    want: Result<(u32, u32), u32>,
) -> Worked {
    let after = |xid| flat(&[in_flight, &[xid]].concat(), grant, xid);
    let want = want.map(|(xid, passed)| (Sent { xid, passed }, after(xid)));
    Worked { name, before: flat(in_flight, grant, last), operation: Send, want }
}

pub fn sends() -> Vec<Worked> {
    let run = |first: u32| rising(first, 31);
    let full = rising(100, 32);
    let backwards: Vec<u32> = run(8).into_iter().rev().collect();
    let mut broken = run(8);
    broken[20] = 5;
    vec![
        // The next xid.
        send("first", &[], 1, 41, Ok((42, 0))),
        send("first, behind 0", &[], 1, 0, Ok((1, 0))),
        send("the largest xid", &[], 1, MAX - 1, Ok((MAX, 0))),
        send("wrapping to 0", &[], 1, MAX, Ok((0, 0))),
        send("the last in flight", &[7], 2, 7, Ok((8, 0))),
        send("the last not in flight", &[5, 6], 3, 9, Ok((10, 0))),
        send("others far behind", &[3_000_000_000, 9], 3, 41, Ok((42, 0))),
        send("behind the last and not the greatest", &[7, 900, 8], 4, 8, Ok((9, 0))),
        send("behind the last and not the newest", &[7, 8, 3], 4, 8, Ok((9, 0))),
        send("0 free below the last", &[1, 2], 3, 2, Ok((3, 0))),
        send("beyond 16 bits", &[0x2_0008], 2, 0x1_0007, Ok((0x1_0008, 0))),
        // Passing over.
        send("the next in flight", &[8], 2, 7, Ok((9, 1))),
        send("two passed over", &[8, 9], 3, 7, Ok((10, 2))),
        send("two passed over, turned round", &[9, 8], 3, 7, Ok((10, 2))),
        send("three passed over, mixed", &[10, 8, 9], 4, 7, Ok((11, 3))),
        send("a run that is broken", &[8, 10], 3, 7, Ok((9, 1))),
        send("a second run behind the first", &[8, 9, 11, 12], 5, 7, Ok((10, 2))),
        send("a run not right behind the last", &[9, 10], 3, 7, Ok((8, 0))),
        send("the last and the next in flight", &[7, 8], 3, 7, Ok((9, 1))),
        send("31 passed over", &run(8), 32, 7, Ok((39, 31))),
        send("31 passed over, turned round", &backwards, 32, 7, Ok((39, 31))),
        send("20 passed over", &broken, 32, 7, Ok((28, 20))),
        send("the largest passed over", &[MAX], 2, MAX - 1, Ok((0, 1))),
        send("0 passed over", &[0], 2, MAX, Ok((1, 1))),
        send("0 and 1 passed over", &[0, 1], 3, MAX, Ok((2, 2))),
        send("passing over the wrap", &[MAX, 0, 1], 4, MAX - 1, Ok((2, 3))),
        send("passing over the wrap, turned round", &[1, 0, MAX], 4, MAX - 1, Ok((2, 3))),
        send("a run broken at 0", &[MAX, 1], 3, MAX - 1, Ok((0, 1))),
        send("a run broken behind 0", &[MAX, 0, 2], 4, MAX - 1, Ok((1, 2))),
        send("31 passed over across the wrap", &run(MAX - 9), 32, MAX - 10, Ok((21, 31))),
        send("31 passed over behind the wrap", &run(0), 32, MAX, Ok((31, 31))),
        send("31 passed over before the wrap", &run(MAX - 30), 32, MAX - 31, Ok((0, 31))),
        // How many may be in flight.
        send("one below the grant", &[5, 6], 3, 6, Ok((7, 0))),
        send("at the grant", &[5, 6], 2, 6, Err(23)),
        send("at a grant of 1", &[7], 1, 7, Err(23)),
        send("above the grant", &[5, 6, 7], 1, 7, Err(23)),
        send("far above the grant", &full, 1, 131, Err(23)),
        send("the 31st", &full[..30], 31, 129, Ok((130, 0))),
        send("31 at the grant", &full[..31], 31, 130, Err(23)),
        send("the 32nd", &full[..31], 32, 130, Ok((131, 0))),
        send("the 32nd below a grant of 40", &full[..31], 40, 130, Ok((131, 0))),
        send("32 in flight", &full, 32, 131, Err(23)),
        send("32 in flight below a grant of 33", &full, 33, 131, Err(23)),
        send("32 in flight below a grant of 40", &full, 40, 131, Err(23)),
        send("32 in flight below the largest grant", &full, MAX, 131, Err(23)),
        send("the largest grant", &[7], MAX, 7, Ok((8, 0))),
        send("a grant of 2^31", &[7], 1 << 31, 7, Ok((8, 0))),
        send("a grant of 2^16", &[7], 1 << 16, 7, Ok((8, 0))),
        send("a grant of 256", &[7], 256, 7, Ok((8, 0))),
        send("more in flight than the low byte of the grant", &[5, 6, 7], 0x101, 7, Ok((8, 0))),
        // 17, before 23.
        send("a ledger of grant 0", &[], 0, 7, Err(17)),
        send("a ledger of grant 0, one in flight", &[7], 0, 7, Err(17)),
        send("a ledger of grant 0, 32 in flight", &full, 0, 7, Err(17)),
        send("one twice", &[7, 7], 3, 7, Err(17)),
        send("one twice, apart", &[7, 8, 7], 4, 8, Err(17)),
        send("one twice, at the grant", &[7, 7], 2, 7, Err(17)),
        send("one twice, above the grant", &[7, 7], 1, 7, Err(17)),
        send("one twice, first", &[7, 7, 8, 9], 8, 9, Err(17)),
        send("one twice, within", &[6, 7, 7, 9], 8, 9, Err(17)),
        send("one twice, last", &[6, 7, 9, 9], 8, 9, Err(17)),
        send("0 twice", &[0, 0], 3, 7, Err(17)),
        send("0 twice, apart", &[0, 5, 0], 4, 7, Err(17)),
        send("the largest twice", &[MAX, 3, MAX], 4, 7, Err(17)),
        send("three times", &[7, 7, 7], 4, 7, Err(17)),
        send("two twice", &[7, 8, 7, 8], 5, 8, Err(17)),
        send("one twice, once round all xids", &[7, 0x6000_0000, 0xc000_0000, 7], 5, 8, Err(17)),
        send("first and 32nd the same", &[&full[..31], &full[..1]].concat(), 40, 131, Err(17)),
        send("31st and 32nd the same", &[&full[..31], &full[30..31]].concat(), 40, 131, Err(17)),
        send("equal low halves", &[0x1_0007, 0x2_0007], 3, 7, Ok((8, 0))),
        send("equal high halves", &[0x1_0007, 0x1_0008], 3, 7, Ok((8, 0))),
        // Nothing else gets 17.
        send("falling", &[9, 8, 7], 4, 9, Ok((10, 0))),
        send("greater than the last", &[50, 60], 3, 7, Ok((8, 0))),
        send("0 in flight", &[0], 2, 0, Ok((1, 0))),
    ]
}

/// Order 6: how many are passed over, and where a refused send reports 0.
pub fn passing() -> Vec<Worked> {
    let run = |count| rising(8, count);
    let mixed = |xids: Vec<u32>| (0..31).map(|at| xids[7 * at % 31]).collect::<Vec<_>>();
    let full = run(32);
    let without = |xid: u32| full.iter().copied().filter(|other| *other != xid).collect::<Vec<_>>();
    let twice = [&full[..31], &[8]].concat();
    let wrapping = rising(MAX - 9, 32);
    vec![
        // Where the run begins: behind the last one given, in flight or not.
        send("a run behind a last in flight", &[6, 7, 8, 9], 5, 7, Ok((10, 2))),
        send("a run behind a last answered", &[6, 8, 9], 4, 7, Ok((10, 2))),
        send("a run up to the last", &[4, 5, 6, 7], 5, 7, Ok((8, 0))),
        send("a run up to a last answered", &[4, 5, 6], 4, 7, Ok((8, 0))),
        send("a longer run before the last", &[3, 4, 5, 6, 8], 6, 7, Ok((9, 1))),
        send("a run behind the newest", &[8, 21, 22, 20], 5, 7, Ok((9, 1))),
        send("a run behind the oldest", &[20, 8, 21, 22], 5, 7, Ok((9, 1))),
        send("a run from 0 on", &[0, 1, 2, 8], 5, 7, Ok((9, 1))),
        send("a run up to the largest", &[MAX - 1, MAX, 8], 4, 7, Ok((9, 1))),
        // Where it ends: before the first that is not in flight.
        send("a longer run behind a gap", &[8, 10, 11, 12], 5, 7, Ok((9, 1))),
        send("a shorter run behind a gap", &[8, 9, 10, 12], 5, 7, Ok((11, 3))),
        send("a gap of two", &[8, 9, 12, 13], 5, 7, Ok((10, 2))),
        send("three stretches", &[8, 9, 11, 13, 14, 15], 7, 7, Ok((10, 2))),
        send("three stretches, mixed", &[15, 9, 13, 8, 14, 11], 7, 7, Ok((10, 2))),
        send("all behind a gap", &rising(9, 31), 32, 7, Ok((8, 0))),
        send("the second of 32 free", &without(9), 32, 7, Ok((9, 1))),
        send("the 16th of 32 free", &without(23), 32, 7, Ok((23, 15))),
        send("the 17th of 32 free", &without(24), 32, 7, Ok((24, 16))),
        send("the 31st of 32 free", &without(38), 32, 7, Ok((38, 30))),
        send("the 31st of 32 free, mixed", &mixed(without(38)), 32, 7, Ok((38, 30))),
        send("equal low halves in a run", &[8, 0x1_0009], 3, 7, Ok((9, 1))),
        // All in flight passed over.
        send("15 in flight passed over", &run(15), 16, 7, Ok((23, 15))),
        send("16 in flight passed over", &run(16), 17, 7, Ok((24, 16))),
        send("17 in flight passed over", &run(17), 18, 7, Ok((25, 17))),
        send("30 in flight passed over", &run(30), 31, 7, Ok((38, 30))),
        send("31 in flight passed over, mixed", &mixed(run(31)), 32, 7, Ok((39, 31))),
        send("31 in flight passed over, grant 33", &run(31), 33, 7, Ok((39, 31))),
        send("two passed over, the largest grant", &[8, 9], MAX, 7, Ok((10, 2))),
        // In any order, others between them.
        send("five passed over, mixed", &[12, 9, 11, 8, 10], 6, 7, Ok((13, 5))),
        send("others between those of a run", &[8, 500, 9, 3, 10], 6, 7, Ok((11, 3))),
        send("the rest of a run first", &[9, 10, 500, 8], 5, 7, Ok((11, 3))),
        send("a run in two parts, exchanged", &[10, 11, 8, 9], 5, 7, Ok((12, 4))),
        // Across the wrap.
        send("a wrapping run, mixed", &[0, MAX - 1, 2, MAX, 1], 6, MAX - 2, Ok((3, 5))),
        send("a wrapping run that is broken", &[MAX - 1, MAX, 0, 1, 3], 6, MAX - 2, Ok((2, 4))),
        send("a wrapping run behind a last in flight", &[MAX - 2, MAX - 1, MAX, 0], 5, MAX - 2, Ok((1, 3))),
        send("a wrapping run, 0 free", &[MAX - 1, MAX, 1, 2], 5, MAX - 2, Ok((0, 2))),
        send("a wrapping run, the largest free", &[MAX - 1, 0, 1], 4, MAX - 2, Ok((MAX, 1))),
        send("a run behind the largest, broken", &[0, 2], 3, MAX, Ok((1, 1))),
        send("a run through a last that is the largest", &[MAX - 1, MAX, 0], 4, MAX, Ok((1, 1))),
        send("a run behind 0", &[1, 2], 3, 0, Ok((3, 2))),
        send("30 passed over across the wrap", &rising(MAX - 9, 30), 31, MAX - 10, Ok((20, 30))),
        // Where halves of all xids and of a word meet.
        send("a run across 2^31", &rising(0x7fff_ffff, 3), 4, 0x7fff_fffe, Ok((0x8000_0002, 3))),
        send("a run behind 2^31", &[0x8000_0001, 0x8000_0000], 3, 0x7fff_ffff, Ok((0x8000_0002, 2))),
        send("a run across 2^16", &[0xffff, 0x1_0000], 3, 0xfffe, Ok((0x1_0001, 2))),
        // 23.
        send("at the grant before a run", &[8, 9], 2, 7, Err(23)),
        send("at a grant of 1 before a run", &[8], 1, 7, Err(23)),
        send("above the grant before a run", &[9, 10, 8], 1, 7, Err(23)),
        send("at the grant before a wrapping run", &[MAX, 0], 2, MAX - 1, Err(23)),
        send("31 at the grant before a run", &run(31), 31, 7, Err(23)),
        send("31 at the grant before a broken run", &without(10), 31, 7, Err(23)),
        send("a run of 32", &full, 32, 7, Err(23)),
        send("a run of 32 below a grant of 40", &full, 40, 7, Err(23)),
        send("a wrapping run of 32 below the largest grant", &wrapping, MAX, MAX - 10, Err(23)),
        // 17.
        send("a ledger of grant 0 before a run", &[8, 9], 0, 7, Err(17)),
        send("a ledger of grant 0 before a run of 32", &full, 0, 7, Err(17)),
        send("one of a run twice", &[8, 9, 8], 4, 7, Err(17)),
        send("one twice before a run", &[5, 5, 8, 9], 5, 7, Err(17)),
        send("one twice before a run, at the grant", &[5, 5, 8, 9], 4, 7, Err(17)),
        send("one of a run twice among 32", &twice, 40, 7, Err(17)),
    ]
}

pub fn replies() -> Vec<Worked> {
    // The xid and grant of the reply; those in flight afterwards, or the number. The last stays.
    type Asked = (u32, u32);
    let reply = |name, in_flight: &[u32], grant, last, (xid, new): Asked, want: Result<&[u32], u32>| Worked {
        name,
        before: flat(in_flight, grant, last),
        operation: Reply { xid, grant: new },
        want: want.map(|in_flight| (Sent::default(), flat(in_flight, new, last))),
    };
    let full = rising(100, 32);
    let without = |at: usize| [&full[..at], &full[at + 1..]].concat();
    vec![
        // Who leaves.
        reply("the only one", &[7], 1, 7, (7, 1), Ok(&[])),
        reply("the first of three", &[5, 6, 7], 3, 7, (5, 3), Ok(&[6, 7])),
        reply("the second of three", &[5, 6, 7], 3, 7, (6, 3), Ok(&[5, 7])),
        reply("the third of three", &[5, 6, 7], 3, 7, (7, 3), Ok(&[5, 6])),
        reply("the second of five", &[5, 6, 7, 8, 9], 8, 9, (6, 8), Ok(&[5, 7, 8, 9])),
        reply("the first of 32", &full, 32, 131, (100, 32), Ok(&full[1..])),
        reply("the 17th of 32", &full, 32, 131, (116, 32), Ok(&without(16))),
        reply("the 31st of 32", &full, 32, 131, (130, 32), Ok(&without(30))),
        reply("the last of 32", &full, 32, 131, (131, 32), Ok(&full[..31])),
        reply("xids in any order", &[9, 3, 7, 5], 4, 9, (3, 4), Ok(&[9, 7, 5])),
        reply("xids across the wrap", &[MAX, 0, 1], 4, 1, (0, 4), Ok(&[MAX, 1])),
        reply("0", &[0, 1], 2, 1, (0, 2), Ok(&[1])),
        reply("0 stays", &[0, 1], 2, 1, (1, 2), Ok(&[0])),
        reply("0 stays between others", &[MAX, 0, 1, 2], 4, 2, (1, 4), Ok(&[MAX, 0, 2])),
        reply("the largest", &[MAX - 1, MAX], 2, MAX, (MAX, 2), Ok(&[MAX - 1])),
        reply("the last one given", &[7], 1, 7, (7, 2), Ok(&[])),
        reply("one above the last", &[50, 60], 2, 7, (50, 2), Ok(&[60])),
        // The grant.
        reply("a grant of 32", &[7], 1, 7, (7, 32), Ok(&[])),
        reply("a grant of 33", &[7], 1, 7, (7, 33), Ok(&[])),
        reply("a grant of 40", &[7, 8], 2, 8, (7, 40), Ok(&[8])),
        reply("a grant of 256", &[7, 8], 2, 8, (7, 256), Ok(&[8])),
        reply("a grant of 2^16", &[7, 8], 2, 8, (7, 1 << 16), Ok(&[8])),
        reply("a grant of 2^31", &[7, 8], 2, 8, (7, 1 << 31), Ok(&[8])),
        reply("the largest grant", &[7, 8], 2, 8, (7, MAX), Ok(&[8])),
        reply("the largest grant, made 1", &[7, 8], MAX, 8, (7, 1), Ok(&[8])),
        reply("the same grant", &[7, 8], 5, 8, (7, 5), Ok(&[8])),
        reply("a higher grant", &[7, 8], 2, 8, (7, 5), Ok(&[8])),
        reply("a lower grant", &[7, 8], 5, 8, (7, 3), Ok(&[8])),
        reply("a grant lower than in flight", &[5, 6, 7, 8], 4, 8, (6, 1), Ok(&[5, 7, 8])),
        reply("more in flight than the grant", &[5, 6, 7], 1, 7, (6, 1), Ok(&[5, 7])),
        reply("32 in flight and a grant of 1", &full, 1, 131, (131, 1), Ok(&full[..31])),
        reply("32 in flight and a grant of 40", &full, 40, 131, (131, 40), Ok(&full[..31])),
        // 24.
        reply("none in flight", &[], 1, 7, (7, 1), Err(24)),
        reply("none in flight, 0 answered", &[], 1, 7, (0, 1), Err(24)),
        reply("not in flight", &[5, 6], 2, 6, (7, 2), Err(24)),
        reply("not in flight, higher grant", &[5, 6], 2, 6, (7, 9), Err(24)),
        reply("0 not in flight", &[5, 6], 2, 6, (0, 2), Err(24)),
        reply("the last not in flight", &[5, 6], 2, 9, (9, 2), Err(24)),
        reply("the next", &[5, 6], 2, 6, (7, 2), Err(24)),
        reply("a place and no xid", &[5, 6], 2, 6, (1, 2), Err(24)),
        reply("equal low half", &[0x1_0007, 5], 2, 5, (7, 2), Err(24)),
        reply("equal low byte", &[0x107, 5], 2, 5, (7, 2), Err(24)),
        reply("none of 32", &full, 32, 131, (99, 32), Err(24)),
        // 25, before 24.
        reply("grant 0", &[7], 1, 7, (7, 0), Err(25)),
        reply("grant 0, the last of 32", &full, 32, 131, (131, 0), Err(25)),
        reply("grant 0, not in flight", &[5, 6], 2, 6, (7, 0), Err(25)),
        reply("grant 0, none in flight", &[], 1, 7, (7, 0), Err(25)),
        // 17, before both.
        reply("a ledger of grant 0", &[7], 0, 7, (7, 1), Err(17)),
        reply("a ledger of grant 0, not in flight", &[7], 0, 7, (8, 1), Err(17)),
        reply("a ledger of grant 0, grant 0", &[7], 0, 7, (7, 0), Err(17)),
        reply("a ledger of grant 0, grant 0, not in flight", &[], 0, 7, (7, 0), Err(17)),
        reply("one twice, and answered", &[7, 7], 3, 7, (7, 3), Err(17)),
        reply("one twice, another answered", &[7, 7, 8], 3, 8, (8, 3), Err(17)),
        reply("one twice, apart, another answered", &[7, 8, 7], 4, 8, (8, 3), Err(17)),
        reply("one twice, not in flight", &[7, 8, 7], 4, 8, (9, 3), Err(17)),
        reply("one twice, grant 0", &[7, 8, 7], 4, 8, (7, 0), Err(17)),
        reply("one twice, grant 0, not in flight", &[7, 8, 7], 4, 8, (9, 0), Err(17)),
        reply("0 twice", &[0, 5, 0], 4, 5, (5, 3), Err(17)),
        reply("first and 32nd the same", &[&full[..31], &full[..1]].concat(), 40, 131, (101, 3), Err(17)),
    ]
}

/// More in flight than there is room for: every place is in use.
pub fn overfull() -> Vec<Worked> {
    let full = flat(&rising(100, 32), 40, 131);
    let counts = [33, 34, 64, 256, 256 + 3, 1 << 16, (1 << 16) + 3, 1 << 31, (1 << 31) + 3, MAX - 1, MAX];
    let mut list = Vec::new();
    for count in counts {
        let ledgers = [
            Ledger { count, ..full },
            Ledger { count, grant: 1, ..full },
            Ledger { count, grant: MAX, ..full },
            Ledger { count, grant: 0, ..full },
            Ledger { count, ..flat(&[], 40, 7) },
            // Before a run.
            Ledger { count, last: 99, ..full },
        ];
        for before in ledgers {
            let asked = [(100, 1), (131, 1), (0, 1), (7, 1), (100, 0), (7, 0)];
            let replies = asked.map(|(xid, grant)| Reply { xid, grant });
            for operation in [Send].into_iter().chain(replies) {
                list.push(Worked { name: "more than 32 in flight", before, operation, want: Err(17) });
            }
        }
    }
    list
}

/// A history by hand: where it begins, each operation with what it gives or its number, and the ledger
/// afterwards.
pub struct Told {
    pub name: &'static str,
    pub start: Start,
    pub steps: Vec<(Operation, Result<Sent, u32>)>,
    pub after: Ledger,
}

impl Told {
    pub fn run<C: Calls>(&self, check: &mut Checker<C>) -> Outcome {
        let (operations, answers): (Vec<_>, Vec<_>) = self.steps.iter().copied().unzip();
        check
            .worked_history(self.start, &operations, &answers, &self.after)
            .and_then(|()| check.history(self.start, &operations))
            .and_then(|()| check.accounted(self.start, &operations))
            .map_err(|what| format!("{}: {what}", self.name))
    }
}

pub fn histories() -> Vec<Told> {
    type Step = (Operation, Result<Sent, u32>);
    let passing = |xid, passed| (Send, Ok(Sent { xid, passed }));
    let sent = |xid| passing(xid, 0);
    let full: Step = (Send, Err(23));
    let reply = |xid, grant| (Reply { xid, grant }, Ok(Sent::default()));
    let refused = |xid, grant, number| (Reply { xid, grant }, Err(number));
    let told = |name, start, steps: &[Step], after| Told { name, start, steps: steps.to_vec(), after };
    // From an opening none is passed over before all xids have been given.
    let case = |name, last, steps: &[Step], after| told(name, Start::Open(last), steps, after);
    let given = |name, before, steps: &[Step], after| told(name, Start::Given(before), steps, after);
    let many = |xids: Vec<u32>| xids.into_iter().map(sent).collect::<Vec<_>>();
    let to_full = [&[sent(1), reply(1, 40)], &many(rising(2, 32))[..], &[full]].concat();
    vec![
        case("nothing", 41, &[], flat(&[], 1, 41)),
        case("one call", 41, &[sent(42)], flat(&[42], 1, 42)),
        case("one call and its reply", 41, &[sent(42), reply(42, 1)], flat(&[], 1, 42)),
        case("the grant starts at 1", 41, &[sent(42), full, full], flat(&[42], 1, 42)),
        case(
            "a call for each reply",
            41,
            &[sent(42), reply(42, 1), sent(43), full, reply(43, 1), sent(44)],
            flat(&[44], 1, 44),
        ),
        case("a reply before any call", 41, &[refused(41, 5, 24), sent(42)], flat(&[42], 1, 42)),
        case("grant 0 before any call", 41, &[refused(41, 0, 25), sent(42)], flat(&[42], 1, 42)),
        case(
            "answered twice",
            41,
            &[sent(42), reply(42, 3), refused(42, 9, 24), sent(43), refused(42, 9, 24)],
            flat(&[43], 3, 43),
        ),
        case(
            "grant 0, then answered",
            41,
            &[sent(42), refused(42, 0, 25), full, reply(42, 2), sent(43), sent(44), full],
            flat(&[43, 44], 2, 44),
        ),
        case(
            "across the wrap",
            MAX - 2,
            &[
                sent(MAX - 1),
                full,
                reply(MAX - 1, 4),
                sent(MAX),
                sent(0),
                sent(1),
                reply(0, 4),
                sent(2),
                sent(3),
                full,
                reply(MAX, 1),
                full,
            ],
            flat(&[1, 2, 3], 1, 3),
        ),
        case("from the largest", MAX, &[sent(0), full, reply(0, 1), sent(1)], flat(&[1], 1, 1)),
        case(
            "from the largest but one",
            MAX - 1,
            &[sent(MAX), reply(MAX, 3), sent(0), sent(1), sent(2)],
            flat(&[0, 1, 2], 3, 2),
        ),
        case(
            "a lower grant takes no call back",
            0,
            &[
                sent(1),
                reply(1, 4),
                sent(2),
                sent(3),
                sent(4),
                sent(5),
                reply(3, 1),
                full,
                reply(5, 1),
                full,
                reply(2, 1),
                full,
                reply(4, 2),
                sent(6),
                sent(7),
                full,
            ],
            flat(&[6, 7], 2, 7),
        ),
        case(
            "a lower grant, raised again",
            0,
            &[
                sent(1),
                reply(1, 3),
                sent(2),
                sent(3),
                sent(4),
                reply(2, 1),
                full,
                reply(4, 3),
                sent(5),
                sent(6),
            ],
            flat(&[3, 5, 6], 3, 6),
        ),
        case("32 in flight, grant 40", 0, &to_full, flat(&rising(2, 32), 40, 33)),
        case(
            "32 in flight, one answered",
            0,
            &[&to_full[..], &[reply(9, MAX), sent(34), full, refused(9, 1, 24), reply(2, 32), sent(35)]]
                .concat(),
            flat(&[&rising(3, 6)[..], &rising(10, 26)].concat(), 32, 35),
        ),
        case(
            "32 in flight, all answered backwards",
            0,
            &[&to_full[..], &rising(2, 32).into_iter().rev().map(|xid| reply(xid, 1)).collect::<Vec<_>>()]
                .concat(),
            flat(&[], 1, 33),
        ),
        case(
            "calls of any order leave",
            9,
            &[
                sent(10),
                reply(10, 5),
                sent(11),
                sent(12),
                sent(13),
                sent(14),
                reply(13, 5),
                reply(11, 5),
                sent(15),
                reply(14, 5),
                sent(16),
            ],
            flat(&[12, 15, 16], 5, 16),
        ),
        given(
            "a run passed over",
            flat(&[8, 10, 9], 5, 7),
            &[passing(11, 3), sent(12), full, reply(11, 5), sent(13)],
            flat(&[8, 10, 9, 12, 13], 5, 13),
        ),
        given(
            "gaps filled one after the other",
            flat(&[14, 9, 8, 13, 11], 10, 7),
            &[passing(10, 2), passing(12, 1), passing(15, 2), sent(16), sent(17), full],
            flat(&[14, 9, 8, 13, 11, 10, 12, 15, 16, 17], 10, 17),
        ),
        given(
            "a run that a reply breaks",
            flat(&[8, 9, 10, 11], 8, 7),
            &[reply(9, 8), passing(9, 1), passing(12, 2)],
            flat(&[8, 10, 11, 9, 12], 8, 12),
        ),
        given(
            "a run whose first leaves",
            flat(&[8, 9, 10], 8, 7),
            &[reply(8, 8), sent(8), passing(11, 2)],
            flat(&[9, 10, 8, 11], 8, 11),
        ),
        given(
            "a run that is answered",
            flat(&[8, 9], 4, 7),
            &[reply(9, 4), reply(8, 4), sent(8), sent(9)],
            flat(&[8, 9], 4, 9),
        ),
        given(
            "refused before a run",
            flat(&[8, 9, 10], 3, 7),
            &[
                full,
                full,
                reply(10, 3),
                passing(10, 2),
                full,
                reply(8, 1),
                full,
                reply(9, 1),
                full,
                reply(10, 2),
                sent(11),
            ],
            flat(&[11], 2, 11),
        ),
        given(
            "runs across the wrap",
            flat(&[1, MAX, 0, 3], 8, MAX - 1),
            &[passing(2, 3), passing(4, 1), sent(5)],
            flat(&[1, MAX, 0, 3, 2, 4, 5], 8, 5),
        ),
        given(
            "every other one across the wrap",
            flat(&[MAX, 1, 3], 9, MAX - 2),
            &[sent(MAX - 1), passing(0, 1), passing(2, 1), passing(4, 1), sent(5)],
            flat(&[MAX, 1, 3, MAX - 1, 0, 2, 4, 5], 9, 5),
        ),
        given(
            "31 passed over, then one answered",
            flat(&rising(8, 31), 32, 7),
            &[passing(39, 31), full, reply(8, 32), sent(40)],
            flat(&rising(9, 32), 32, 40),
        ),
    ]
}

pub fn by_hand<C: Calls>(check: &mut Checker<C>, rng: &mut Rng) -> Outcome {
    check.family("ledger by hand");
    let cases = [sends(), passing(), replies(), overfull()];
    cases.iter().flatten().try_for_each(|case| case.run(check, rng))?;
    check.family("ledger histories by hand");
    histories().iter().try_for_each(|case| case.run(check))
}

pub fn openings<C: Calls>(check: &mut Checker<C>, rng: &mut Rng, cases: u64) -> Outcome {
    check.family("ledger opened");
    edges().into_iter().try_for_each(|last| check.open(last))?;
    (0..cases).try_for_each(|_| check.open(rng.last()))
}

/// Lists of so many xids: rising, across the wrap, falling, and any.
fn lists(rng: &mut Rng, count: usize) -> [Vec<u32>; 4] {
    let falling = rising(1000, count).into_iter().rev().collect();
    [
        rising(1000, count),
        rising(0u32.wrapping_sub(count as u32 / 2), count),
        falling,
        rng.in_flight(count, 7),
    ]
}

/// Every count and grants around it; the reply names one in flight, one behind those or neither.
pub fn counts<C: Calls>(check: &mut Checker<C>, rng: &mut Rng) -> Outcome {
    check.family("ledger every count");
    for count in 0..=ROOM + 1 {
        for list in lists(rng, count.min(ROOM)) {
            let last = [list.last().copied().unwrap_or(MAX), 7, MAX][rng.below(3)];
            let around = [count.saturating_sub(1), count, count + 1, count + 2].map(|near| near as u32);
            for grant in [0, 1, 2, 31, 32, 33, 40, 256, 1 << 16, 1 << 31, MAX].into_iter().chain(around) {
                for way in 0..WAYS {
                    let before = Ledger { count: count as u32, ..flat(&list, grant, last) };
                    let before = rng.filled_behind(&before, way);
                    check.operate(&before, Send)?;
                    let places = [0, count / 2, count.saturating_sub(1), count, ROOM - 1];
                    let xids = places.map(|place| before.xids[place.min(ROOM - 1)]);
                    for xid in xids.into_iter().chain([last, 555]) {
                        let grant = [0, 1, 33, grant][rng.below(4)];
                        check.operate(&before, Reply { xid, grant })?;
                    }
                }
            }
        }
    }
    check.family("ledger any counts");
    for count in edges() {
        for list in lists(rng, ROOM) {
            let before = Ledger { count, ..flat(&list, rng.grant_near(ROOM), rng.last()) };
            check.operate(&before, Send)?;
            for xid in [list[0], list[3], list[ROOM - 1], 555] {
                check.operate(&before, Reply { xid, grant: rng.below(3) as u32 })?;
            }
        }
    }
    Ok(())
}

/// Every two places hold the same xid: twice in flight, or one or both of them ignored.
pub fn pairs<C: Calls>(check: &mut Checker<C>, rng: &mut Rng) -> Outcome {
    check.family("ledger every two places");
    for count in 0..=ROOM + 1 {
        for (one, two) in (0..ROOM).flat_map(|two| (0..two).map(move |one| (one, two))) {
            let last = rng.last();
            let mut before = flat(&rng.in_flight(ROOM, last), rng.grant_near(count), last);
            before.count = count as u32;
            before.xids[one] = [0, MAX, before.xids[one]][rng.below(3)];
            before.xids[two] = before.xids[one];
            let other = before.xids[rng.below(ROOM)];
            let grant = rng.grant_near(count);
            check.operate(&before, Send)?;
            check.operate(&before, Reply { xid: before.xids[two], grant })?;
            check.operate(&before, Reply { xid: other, grant })?;
            check.operate(&before, Reply { xid: last.wrapping_add(100), grant: rng.below(2) as u32 })?;
        }
    }
    Ok(())
}

/// Every place of every count leaves; places behind those in flight do not.
pub fn leavings<C: Calls>(check: &mut Checker<C>, rng: &mut Rng) -> Outcome {
    check.family("ledger every leaving call");
    for (count, place) in (0..=ROOM).flat_map(|count| (0..ROOM).map(move |place| (count, place))) {
        for list in lists(rng, ROOM) {
            let full = flat(&list, rng.grant_near(count), rng.last());
            let before = Ledger { count: count as u32, ..full };
            let reply = Reply { xid: list[place], grant: rng.grant_near(count) };
            // The others lie behind; then anything does.
            check.operate(&before, reply)?;
            check.operate(&rng.noisy_ledger(&before), reply)?;
        }
    }
    Ok(())
}

/// Runs of every length behind the last one given, whole or broken at every place, and across the wrap at
/// every place.
pub fn runs<C: Calls>(check: &mut Checker<C>, rng: &mut Rng) -> Outcome {
    check.family("ledger runs passed over");
    for length in 0..ROOM {
        let before_wrap = (0..=length as u32 + 1).map(|back| MAX - back);
        for last in before_wrap.chain([0, 41, rng.any()]) {
            // Behind the last place: whole.
            for broken in 0..=length {
                let mut xids = rising(last.wrapping_add(1), length);
                let far = last.wrapping_sub(100 + rng.below(100) as u32);
                xids.get_mut(broken).into_iter().for_each(|xid| *xid = far);
                match rng.below(3) {
                    0 => {}
                    1 => xids.reverse(),
                    _ => rng.reorder(&mut xids),
                }
                // Others before or behind them, far away or up to the last.
                let others = rng.below(ROOM - length);
                let first = last.wrapping_sub([others as u32, 300][rng.below(2)]).wrapping_add(1);
                let mut list = [xids, rising(first, others)];
                list.rotate_left(rng.below(2));
                let list = list.concat();
                let ledger = flat(&list, list.len() as u32 + 1, last);
                check.operate(&rng.noisy_ledger(&ledger), Send)?;
                // One of them is ignored.
                let ledger = Ledger { count: ledger.count.saturating_sub(1), ..ledger };
                check.operate(&ledger, Send)?;
            }
        }
    }
    Ok(())
}

/// Every set of so many xids in a row, in any order, that begin with the one before the last one given: the
/// wrap at each of their places, 2^16 or 2^31 among them, or neither. One more call may be sent.
fn sets(rng: &mut Rng, nearby: u32) -> Vec<Ledger> {
    let mut ledgers = Vec::new();
    for last in (0..nearby).map(|back| 1u32.wrapping_sub(back)).chain([41, 0xfffd, 0x7fff_fffd]) {
        for set in 0..1u32 << nearby {
            let near = (0..nearby).filter(|at| set >> at & 1 == 1);
            let mut xids: Vec<u32> = near.map(|at| last.wrapping_add(at).wrapping_sub(1)).collect();
            rng.reorder(&mut xids);
            ledgers.push(rng.noisy_ledger(&flat(&xids, xids.len() as u32 + 1, last)));
        }
    }
    ledgers
}

/// Every set around the last one given; then stretches of any length.
pub fn stretches<C: Calls>(check: &mut Checker<C>, rng: &mut Rng, cases: u64) -> Outcome {
    check.family("ledger every set nearby");
    for ledger in sets(rng, 10) {
        // Below the grant, at it, and with none.
        for grant in [ledger.grant, ledger.count, 0] {
            check.operate(&Ledger { grant, ..ledger }, Send)?;
        }
    }
    check.family("ledger random stretches");
    for _ in 0..cases {
        let mut ledger = rng.ledger_of_stretches();
        if rng.below(8) == 0 {
            rng.spoil_ledger(&mut ledger);
        }
        check.operate(&ledger, Send)?;
    }
    Ok(())
}

/// Each of the conditions that are checked, and all of them together.
pub fn conditions<C: Calls>(check: &mut Checker<C>, rng: &mut Rng) -> Outcome {
    check.family("ledger conditions");
    for (count, twice) in [0, 1, 2, 3, 5, 31, 32, 33].into_iter().flat_map(|n| [(n, false), (n, true)]) {
        for grant in [0, 1, 2, 3, 4, 5, 6, 31, 32, 33, MAX] {
            for list in lists(rng, ROOM) {
                let mut before = Ledger { count, ..flat(&list, grant, list[0].wrapping_sub(1)) };
                if twice {
                    // The last two in flight; with fewer than two, only one of them is.
                    let last = (count as usize).clamp(2, ROOM) - 1;
                    before.xids[last] = before.xids[last - 1];
                }
                check.operate(&before, Send)?;
                for (xid, grant) in [before.xids[0], before.xids[ROOM - 1], before.xids[1], 555]
                    .into_iter()
                    .flat_map(|xid| [0, 1, 40].map(|grant| (xid, grant)))
                {
                    check.operate(&before, Reply { xid, grant })?;
                }
            }
        }
    }
    Ok(())
}

/// Some dozens of ledgers that do not get 17.
fn bases(rng: &mut Rng) -> Vec<Ledger> {
    let mut bases = vec![sent(&[]), sent(&[7]), sent(&rising(7, 8)), sent(&rising(7, 32))];
    bases.extend([
        flat(&rising(MAX - 14, 31), 32, 16),
        flat(&rising(8, 31), 32, 7),
        Ledger { grant: 1, ..Ledger::ZERO },
    ]);
    bases = bases.iter().flat_map(|base| [rng.filled_behind(base, 1), rng.filled_behind(base, 2)]).collect();
    bases.extend((0..10).map(|_| rng.ledger()));
    bases
}

pub fn damage<C: Calls>(check: &mut Checker<C>, rng: &mut Rng, cases: u64) -> Outcome {
    check.family("ledger one damaged word");
    for (base, at) in bases(rng).iter().flat_map(|base| (0..WORDS).map(move |at| (base, at))) {
        let (old, neighbour) = (word(base, at), word(base, (at + 1) % WORDS));
        let near = [-1, 1].map(|step| old.wrapping_add_signed(step));
        let flips = (0..32).map(|bit| old ^ 1 << bit);
        for value in [0, 1, 33, MAX, neighbour, base.last].into_iter().chain(near).chain(flips) {
            let mut ledger = *base;
            put(&mut ledger, at, value);
            check.operate(&ledger, Send)?;
            for xid in [base.xids[0], value] {
                check.operate(&ledger, Reply { xid, grant: 1 + rng.below(3) as u32 })?;
            }
        }
    }
    check.family("ledger random damage");
    for _ in 0..cases {
        let mut ledger = rng.ledger();
        (0..1 + rng.below(3)).for_each(|_| rng.spoil_ledger(&mut ledger));
        let operation = rng.operation(&ledger);
        check.operate(&ledger, operation)?;
    }
    Ok(())
}

pub fn random<C: Calls>(check: &mut Checker<C>, rng: &mut Rng, cases: u64) -> Outcome {
    check.family("ledger random");
    for _ in 0..cases {
        let ledger = rng.ledger();
        check.operate(&ledger, Send)?;
        let operation = rng.operation(&ledger);
        check.operate(&ledger, operation)?;
    }
    // Few different words, so that some are there twice, and the last and the grant among them.
    check.family("ledger few words");
    for _ in 0..cases {
        let few = 1 + [rng.below(4), rng.below(40), rng.below(2000)][rng.below(3)];
        let (first, step) = (rng.last(), [1, 1, 1, 0x5000_0000][rng.below(4)]);
        let mut ledger = Ledger::ZERO;
        for xid in &mut ledger.xids {
            *xid = first.wrapping_add((rng.below(few) as u32).wrapping_mul(step));
        }
        ledger.count = [rng.below(6), rng.below(ROOM + 3)][rng.below(2)] as u32;
        ledger.grant = rng.below(ROOM + 3) as u32;
        ledger.last = first.wrapping_add(rng.below(few + 2) as u32).wrapping_sub(1);
        let operation = rng.operation(&ledger);
        check.operate(&ledger, operation)?;
    }
    check.family("ledger any bytes");
    for _ in 0..cases {
        let mut ledger: Ledger = rng.any();
        if rng.below(8) > 0 {
            ledger.count = rng.below(ROOM + 2) as u32;
        }
        if rng.below(2) == 0 {
            ledger.grant = rng.below(ROOM + 2) as u32;
        }
        let operation = rng.operation(&ledger);
        check.operate(&ledger, operation)?;
    }
    Ok(())
}

/// All ways on from a ledger that are so many operations long: sends, replies to each call in flight, and
/// replies that are refused.
fn ways_on(ledger: &reference::Ledger, length: usize) -> Vec<Vec<Operation>> {
    if length == 0 {
        return vec![vec![]];
    }
    let xids = ledger.in_flight.iter();
    let taken = xids.flat_map(|&xid| [1, 2, 40].map(|grant| Reply { xid, grant }));
    let refused =
        [Reply { xid: ledger.last, grant: 0 }, Reply { xid: ledger.last.wrapping_add(1), grant: 2 }];
    let mut ways = Vec::new();
    for operation in [Send].into_iter().chain(taken).chain(refused) {
        let after = operation.right(ledger).map_or(ledger.clone(), |(_, after)| after);
        ways.extend(ways_on(&after, length - 1).into_iter().map(|way| [vec![operation], way].concat()));
    }
    ways
}

pub fn short_lives<C: Calls>(check: &mut Checker<C>) -> Outcome {
    check.family("ledger short histories");
    for last in [41, MAX - 1, MAX] {
        for operations in ways_on(&reference::open(last), 7) {
            check.history(Start::Open(last), &operations)?;
        }
    }
    Ok(())
}

/// From openings, and from any ledger on: there xids are passed over too, and again behind those given since.
pub fn lives<C: Calls>(check: &mut Checker<C>, rng: &mut Rng, cases: u64) -> Outcome {
    check.family("ledger histories");
    for _ in 0..cases / 40 {
        let last = rng.last();
        let length = [rng.below(20), 100 + rng.below(300)][rng.below(2)];
        let operations = rng.operations(&reference::open(last), length);
        check.history(Start::Open(last), &operations)?;
    }
    check.family("ledger histories from any");
    for _ in 0..cases / 40 {
        let ledger = rng.ledger();
        let length = [rng.below(20), 100 + rng.below(300)][rng.below(2)];
        let operations = rng.operations(&unflatten_ledger(&ledger), length);
        check.history(Start::Given(ledger), &operations)?;
    }
    // Short ones: runs are soon passed over.
    check.family("ledger histories over runs");
    for _ in 0..cases / 10 {
        let (ledger, length) = (rng.ledger_of_stretches(), 1 + rng.below(40));
        let operations = rng.operations(&unflatten_ledger(&ledger), length);
        check.history(Start::Given(ledger), &operations)?;
    }
    // Sends until all gaps are filled, behind a reply that makes one, and one more than may be sent.
    check.family("ledger histories from sets");
    for ledger in sets(rng, 7) {
        let start = Start::Given(Ledger { grant: ledger.count + 7, ..ledger });
        check.history(start, &[Send; 8])?;
        for &xid in &ledger.xids[..end(&ledger)] {
            let reply = Reply { xid, grant: ledger.count + 6 };
            check.history(start, &[&[reply], &[Send; 8][..]].concat())?;
        }
    }
    Ok(())
}

pub fn run<C: Calls>(check: &mut Checker<C>, rng: &mut Rng, cases: u64) -> Outcome {
    by_hand(check, rng)?;
    openings(check, rng, cases)?;
    counts(check, rng)?;
    pairs(check, rng)?;
    leavings(check, rng)?;
    runs(check, rng)?;
    stretches(check, &mut rng.aside(), cases)?;
    conditions(check, rng)?;
    damage(check, rng, cases)?;
    random(check, rng, cases)?;
    short_lives(check)?;
    lives(check, rng, cases)
}
