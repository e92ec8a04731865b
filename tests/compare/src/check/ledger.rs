//! The checks of the ledger: operation by operation beside the reference, and whole histories beside an
//! account of what was accepted, which is taken from the answers alone.

use super::lent::Place;
use super::seen::{Call, Form, MOST_PASSED};
use super::{same_number, Checker, Outcome};
use crate::calls::Calls;
use crate::convert::{flatten_ledger, unflatten_ledger};
use crate::reference::ledger::{self as reference, Sent, ROOM};
use eoswynnor::ffi::{Ledger, SendAnswer};
use std::collections::BTreeMap;

/// One of the operations on a ledger that is open.
#[derive(Clone, Copy, Debug, PartialEq)]
pub enum Operation {
    Send,
    Reply { xid: u32, grant: u32 },
}

impl Operation {
    /// What is given, for a reply no xid and none passed over, and the ledger afterwards, or the number.
    pub fn right(self, ledger: &reference::Ledger) -> Result<(Sent, reference::Ledger), u32> {
        match self {
            Operation::Send => reference::send(ledger),
            Operation::Reply { xid, grant } => {
                reference::reply(ledger, xid, grant).map(|after| (Sent::default(), after))
            }
        }
    }
}

/// Where a history begins.
#[derive(Clone, Copy, Debug)]
pub enum Start {
    /// An opening that names the last xid.
    Open(u32),
    /// Any ledger that does not get 17; its calls in flight count as sent.
    Given(Ledger),
}

impl Start {
    /// The ledger that a history begins with.
    pub fn right(self) -> reference::Ledger {
        match self {
            Start::Open(last) => reference::open(last),
            Start::Given(ledger) => unflatten_ledger(&ledger),
        }
    }
}

/// What an operation was answered with, and the ledger as it left it.
type Lived = (SendAnswer, Ledger);

/// The xid and how many were passed over.
fn same_sent(answer: SendAnswer, want: Sent) -> Outcome {
    let got = Sent { xid: answer.xid, passed: answer.passed };
    if got != want {
        return Err(format!("got {got:?}, want {want:?}"));
    }
    Ok(())
}

/// Those in flight, none where there is no room for so many, and the places behind them.
fn parted(ledger: &Ledger) -> (&[u32], &[u32]) {
    ledger.xids.split_at_checked(ledger.count as usize).unwrap_or_default()
}

/// The xids that a send passes over, were it taken.
fn run(in_flight: &[u32], last: u32) -> Vec<u32> {
    (1..).map(|step| last.wrapping_add(step)).take_while(|xid| in_flight.contains(xid)).collect()
}

#[derive(Default)]
struct Sendings {
    sent: usize,
    answered: usize,
    /// Which of all sendings its last one was.
    last: usize,
}

/// The history: xids of accepted operations, taken from the answers alone.
#[derive(Default)]
struct Account {
    sent: usize,
    answered: usize,
    xids: BTreeMap<u32, Sendings>,
    /// The last xid given, or what the start names so.
    last: u32,
}

impl Account {
    fn new(start: Start) -> Self {
        match start {
            Start::Open(last) => Account { last, ..Account::default() },
            Start::Given(ledger) => {
                let mut account = Account::default();
                parted(&ledger).0.iter().for_each(|&xid| account.sent(xid));
                Account { last: ledger.last, ..account }
            }
        }
    }

    fn sent(&mut self, xid: u32) {
        self.sent += 1;
        let sendings = self.xids.entry(xid).or_default();
        sendings.sent += 1;
        sendings.last = self.sent;
        self.last = xid;
    }

    fn answered(&mut self, xid: u32) {
        self.answered += 1;
        self.xids.entry(xid).or_default().answered += 1;
    }

    /// Of a send that was taken and is not among those sent yet: how many were passed over "equals the length
    /// of the unbroken run of xids in flight that begins right behind the last one given, and is at most the
    /// number in flight, so at most 31". In flight are those sent and not answered.
    fn passes_over(&self, SendAnswer { xid, passed, .. }: SendAnswer) -> Outcome {
        let &Account { sent, answered, last, .. } = self;
        let most = (MOST_PASSED as usize).min(sent - answered);
        if passed as usize > most {
            return Err(format!("{passed} passed over, but at most {most}"));
        }
        let step = |steps: u32| last.wrapping_add(steps);
        let in_flight = |xid| self.xids.get(&xid).is_some_and(|known| known.sent > known.answered);
        if let Some(free) = (1..=passed).map(step).find(|xid| !in_flight(*xid)) {
            return Err(format!("{passed} passed over behind {last}, but {free} is not in flight"));
        }
        let end = step(passed + 1);
        if in_flight(end) {
            return Err(format!("{passed} passed over behind {last}, but {end} is in flight too"));
        }
        if xid != end {
            return Err(format!("{xid} given, but {passed} passed over behind {last}"));
        }
        Ok(())
    }

    /// "The calls accepted for sending are those answered plus those in flight, taken from the history, and
    /// no xid is in flight twice"; "xids stand in sending order".
    fn agrees(&self, ledger: &Ledger) -> Outcome {
        let in_flight = ledger.xids.get(..ledger.count as usize);
        let in_flight = in_flight.ok_or(format!("{} calls in flight", ledger.count))?;
        let &Account { sent, answered, .. } = self;
        if sent != answered + in_flight.len() {
            return Err(format!("{sent} sent and {answered} answered, but in flight {in_flight:?}"));
        }
        let times = |xid: u32| in_flight.iter().filter(|other| **other == xid).count();
        for (&xid, &Sendings { sent, answered, .. }) in &self.xids {
            if sent != answered + times(xid) {
                return Err(format!(
                    "{xid}: {sent} times sent, {answered} answered; in flight {in_flight:?}"
                ));
            }
        }
        if in_flight.iter().any(|xid| !self.xids.contains_key(xid) || times(*xid) > 1) {
            return Err(format!("one never sent or twice in flight: {in_flight:?}"));
        }
        if !in_flight.is_sorted_by_key(|xid| self.xids[xid].last) {
            return Err(format!("not in sending order: {in_flight:?}"));
        }
        Ok(())
    }
}

impl<C: Calls> Checker<C> {
    pub fn open(&mut self, last: u32) -> Outcome {
        self.count();
        self.open_place(last)
            .and_then(|place| place.judge(0, Ok(flatten_ledger(&reference::open(last)))))
            .map_err(|what| format!("{what}\nopened with {last}"))
    }

    fn open_place(&mut self, last: u32) -> Result<Place<Ledger>, String> {
        let mut place = Place::noise(&mut self.noise);
        let number = self.calls.ledger_open(last, &mut place);
        self.seen.number(Call::LedgerOpen, number);
        same_number(number, 0)?;
        // What it holds is for the caller to judge; beside it nothing may have changed.
        place.holds(place.now.value).map(|()| place)
    }

    /// Any ledger and an operation.
    pub fn operate(&mut self, ledger: &Ledger, operation: Operation) -> Outcome {
        let right = operation.right(&unflatten_ledger(ledger));
        self.operated(ledger, operation, right.map(|(sent, after)| (sent, flatten_ledger(&after))))
    }

    /// The answer is the caller's and not the reference's.
    pub fn operated(
        &mut self,
        ledger: &Ledger,
        operation: Operation,
        want: Result<(Sent, Ledger), u32>,
    ) -> Outcome {
        self.count();
        let mut place = Place::holding(*ledger, &mut self.noise);
        let answer = self.made(&mut place, operation);
        place
            .judge(answer.number, want.map(|(_, after)| after))
            .and_then(|()| same_sent(answer, want.map(|(sent, _)| sent).unwrap_or_default()))
            .map_err(|what| format!("{what}\n{operation:?}\n{ledger:?}"))
    }

    /// The implementation's answer; a reply has no xid and passes none over.
    fn made(&mut self, place: &mut Place<Ledger>, operation: Operation) -> SendAnswer {
        let before = place.now.value;
        match operation {
            Operation::Send => {
                let answer = self.calls.ledger_send(place);
                self.seen.sent(answer);
                self.forms_sent(&before, answer);
                answer
            }
            Operation::Reply { xid, grant } => {
                let number = self.calls.ledger_reply(place, xid, grant);
                self.seen.number(Call::LedgerReply, number);
                self.forms_replied(&before, xid, grant, number);
                SendAnswer { number, xid: 0, passed: 0 }
            }
        }
    }

    /// Operations one after the other, each with the ledger as it was last left; beside the reference and
    /// the account after each.
    pub fn history(&mut self, start: Start, operations: &[Operation]) -> Outcome {
        self.count();
        self.lived(start, operations)
            .and_then(|(first, lived)| {
                beside_reference(start, &first, operations, &lived)?;
                accounted(start, &first, operations, &lived)?;
                self.forms_lived(start, &lived);
                Ok(())
            })
            .map_err(|what| told(what, start, operations))
    }

    /// Beside the account alone, with no look at the reference.
    pub fn accounted(&mut self, start: Start, operations: &[Operation]) -> Outcome {
        self.count();
        self.lived(start, operations)
            .and_then(|(first, lived)| accounted(start, &first, operations, &lived))
            .map_err(|what| told(what, start, operations))
    }

    /// What each operation gives, or its number, and the ledger behind the last are the caller's and not the
    /// reference's; a reply that is taken gives no xid and passes none over.
    pub fn worked_history(
        &mut self,
        start: Start,
        operations: &[Operation],
        answers: &[Result<Sent, u32>],
        want: &Ledger,
    ) -> Outcome {
        self.count();
        let mut run = || {
            let (first, lived) = self.lived(start, operations)?;
            assert_eq!(lived.len(), answers.len(), "an answer for each");
            for (at, ((got, _), want)) in lived.iter().zip(answers).enumerate() {
                same_number(got.number, want.err().unwrap_or(0))
                    .and_then(|()| same_sent(*got, want.unwrap_or_default()))
                    .map_err(|what| format!("operation {at}: {what}"))?;
            }
            let after = lived.last().map_or(first, |(_, ledger)| *ledger);
            if after != *want {
                return Err(format!("at the end: got {after:?}\nwant {want:?}"));
            }
            Ok(())
        };
        run().map_err(|what| told(what, start, operations))
    }

    /// The implementation alone: the ledger at the start, and what each operation gave and left. Nobody
    /// else writes the ledger.
    fn lived(&mut self, start: Start, operations: &[Operation]) -> Result<(Ledger, Vec<Lived>), String> {
        let mut place = match start {
            Start::Open(last) => self.open_place(last)?,
            Start::Given(ledger) => Place::holding(ledger, &mut self.noise),
        };
        let first = place.now.value;
        let mut lived = Vec::new();
        for (at, &operation) in operations.iter().enumerate() {
            let before = place.now.value;
            let answer = self.made(&mut place, operation);
            // Beside the ledger nothing may have changed, and nothing in it by a refusal.
            let after = if answer.number == 0 { place.now.value } else { before };
            place.holds(after).map_err(|what| format!("operation {at}: {what}"))?;
            lived.push((answer, after));
        }
        Ok((first, lived))
    }

    fn forms_sent(&mut self, before: &Ledger, answer: SendAnswer) {
        let ((in_flight, behind), taken) = (parted(before), answer.number == 0);
        let garbage = behind.iter().any(|&xid| xid != 0);
        self.seen.forms(&[
            (Form::XidAcrossWrap, taken && answer.xid < before.last),
            (Form::LastPlaceTaken, taken && in_flight.len() == ROOM - 1),
            (Form::RoomFullBelowGrant, answer.number == 23 && before.count < before.grant),
            (Form::SendClears, taken && garbage),
            (Form::SendRefusedClearsNot, !taken && garbage),
            (Form::AgainBehind, taken && in_flight.iter().any(|xid| behind.contains(xid))),
        ]);
        self.forms_of_run(before, answer);
    }

    /// The run behind the last one given, passed over or met by a send that is refused.
    fn forms_of_run(&mut self, before: &Ledger, answer: SendAnswer) {
        let ((in_flight, behind), last) = (parted(before), before.last);
        let overfull = before.count > ROOM as u32;
        let run = run(if overfull { &before.xids } else { in_flight }, last);
        let [taken, refused17, refused23] = [0, 17, 23].map(|number| answer.number == number);
        let (met, grant0) = (!run.is_empty(), before.grant == 0);
        let passed = taken && met;
        // The first that is not in flight, and whether the one behind it is.
        let end = last.wrapping_add(1 + run.len() as u32);
        let goes_on = in_flight.contains(&end.wrapping_add(1));
        let places = run.iter().map(|xid| in_flight.iter().position(|other| other == xid));
        self.seen.forms(&[
            (Form::PassedAcrossWrap, passed && answer.xid < last),
            (Form::RunAcrossWrap, passed && run.contains(&u32::MAX) && run.contains(&0)),
            (Form::RunBroken, passed && goes_on),
            (Form::RunOutOfOrder, passed && !places.is_sorted()),
            (Form::RunBehindLast, passed && in_flight.contains(&last)),
            (Form::RunLastAnswered, passed && !in_flight.contains(&last)),
            (Form::RunOnBehind, passed && behind.contains(&end)),
            (Form::AllPassedOver, passed && run.len() == in_flight.len() && run.len() < ROOM - 1),
            (Form::NonePassedOver, taken && !met && !in_flight.is_empty()),
            (Form::NoneButRunBehind, taken && !met && goes_on),
            (Form::RunAtGrant, refused23 && met && before.count >= before.grant),
            (Form::RunOf32, refused23 && run.len() == ROOM),
            (Form::RunWithGrant0, refused17 && met && !overfull && grant0),
            (Form::RunWithOneTwice, refused17 && met && !overfull && !grant0),
            (Form::RunOverfull, refused17 && met && overfull),
        ]);
    }

    fn forms_replied(&mut self, before: &Ledger, xid: u32, grant: u32, number: u32) {
        let ((in_flight, behind), taken) = (parted(before), number == 0);
        let garbage = behind.iter().any(|&xid| xid != 0);
        let unknown = !in_flight.contains(&xid);
        self.seen.forms(&[
            (Form::GrantAbove32, taken && grant > ROOM as u32),
            (Form::GrantBelowInFlight, taken && grant < before.count.saturating_sub(1)),
            (Form::AnsweredAboveGrant, taken && before.count > before.grant),
            (Form::AnsweredOf32, taken && in_flight.len() == ROOM),
            (Form::ReplyClears, taken && garbage),
            (Form::ReplyRefusedClearsNot, !taken && garbage),
            (Form::UnknownButBehind, number == 24 && behind.contains(&xid)),
            (Form::Grant0AndUnknown, number == 25 && unknown),
        ]);
    }

    fn forms_lived(&mut self, start: Start, lived: &[Lived]) {
        let answers = lived.iter().map(|(answer, _)| answer);
        let passing: Vec<&SendAnswer> = answers.filter(|answer| answer.passed > 0).collect();
        self.seen.forms(&[
            (Form::HistoryPassedOver, !passing.is_empty()),
            (Form::HistoryPassedAgain, passing.len() > 1),
            // 0 was passed over, and not as the first.
            (
                Form::HistoryRunAcrossWrap,
                passing.iter().any(|answer| (1..answer.passed).contains(&answer.xid)),
            ),
        ]);
        // Given ledgers hold what they like.
        let Start::Open(last) = start else { return };
        let any = |fits: &dyn Fn(&Ledger) -> bool| lived.iter().any(|(_, ledger)| fits(ledger));
        let emptied = lived.last().is_some_and(|(_, ledger)| ledger.count == 0 && ledger.last != last);
        self.seen.forms(&[
            (Form::HistoryFull, any(&|ledger| ledger.count == ROOM as u32)),
            (Form::HistoryAcrossWrap, any(&|ledger| ledger.last < last)),
            (Form::HistoryAboveGrant, any(&|ledger| ledger.count > ledger.grant)),
            (Form::HistoryEmptied, emptied),
        ]);
    }
}

/// Each number, xid, count of those passed over and whole ledger. The reference keeps a ledger of its own.
fn beside_reference(start: Start, first: &Ledger, operations: &[Operation], lived: &[Lived]) -> Outcome {
    let mut ledger = start.right();
    if matches!(start, Start::Open(_)) && *first != flatten_ledger(&ledger) {
        return Err(format!("opened: got {first:?}"));
    }
    for (at, (operation, (answer, after))) in operations.iter().zip(lived).enumerate() {
        let right = operation.right(&ledger);
        let sent = right.as_ref().map(|(sent, _)| *sent).unwrap_or_default();
        same_number(answer.number, right.as_ref().err().copied().unwrap_or(0))
            .and_then(|()| same_sent(*answer, sent))
            .map_err(|what| format!("operation {at}: {what}"))?;
        if let Ok((_, right)) = right {
            ledger = right;
            let want = flatten_ledger(&ledger);
            if *after != want {
                return Err(format!("operation {at}: left {after:?}\nwant {want:?}"));
            }
        }
    }
    Ok(())
}

fn accounted(start: Start, first: &Ledger, operations: &[Operation], lived: &[Lived]) -> Outcome {
    let mut account = Account::new(start);
    account.agrees(first).map_err(|what| format!("at the start: {what}"))?;
    for (at, (operation, (answer, after))) in operations.iter().zip(lived).enumerate() {
        let judged = match (operation, answer.number) {
            // Only operations wrote the ledger.
            (_, 17) => Err("17".to_string()),
            (Operation::Send, 0) => account.passes_over(*answer).map(|()| account.sent(answer.xid)),
            (Operation::Reply { xid, .. }, 0) => {
                account.answered(*xid);
                Ok(())
            }
            // "A refused send reports 0."
            _ => same_sent(*answer, Sent::default()),
        };
        judged.and_then(|()| account.agrees(after)).map_err(|what| format!("operation {at}: {what}"))?;
    }
    Ok(())
}

fn told(what: String, start: Start, operations: &[Operation]) -> String {
    format!("{what}\n{start:?}\noperations: {operations:?}")
}

#[cfg(test)]
mod tests {
    use super::*;
    use crate::cases::ledger::{flat, rising};
    use crate::plain::Plain;

    #[test]
    fn the_account_tells_what_is_in_flight() {
        let mut account = Account::default();
        [5, 6, 7].into_iter().for_each(|xid| account.sent(xid));
        account.answered(6);
        let agrees = |account: &Account, xids: &[u32]| account.agrees(&flat(xids, 1, 7)).is_ok();
        assert!(agrees(&account, &[5, 7]));
        let others: [&[u32]; 9] =
            [&[], &[5], &[7, 5], &[5, 6, 7], &[5, 5], &[5, 6], &[5, 8], &[6, 8], &[5, 7, 7]];
        assert!(!others.into_iter().any(|xids| agrees(&account, xids)));
        for count in [0, 1, 3, 33, u32::MAX] {
            assert!(account.agrees(&Ledger { count, ..flat(&[5, 7], 1, 7) }).is_err());
        }
        // Sent again, it stands behind.
        account.answered(5);
        account.sent(5);
        assert!(agrees(&account, &[7, 5]) && !agrees(&account, &[5, 7]));
        // Answered, but never sent.
        account.answered(9);
        assert!(!agrees(&account, &[7, 5]) && !agrees(&account, &[7]));
        account.sent(8);
        assert!(!agrees(&account, &[7, 5]) && !agrees(&account, &[7, 5, 8]));
    }

    #[test]
    fn the_account_tells_what_is_passed_over() {
        // The only xid and count that it agrees to.
        let told = |account: &Account, xid: u32, passed: u32| {
            let agrees = |xid, passed| account.passes_over(SendAnswer { number: 0, xid, passed }).is_ok();
            let counts = (0..40).chain([u32::MAX - 1, u32::MAX]);
            let others = counts.flat_map(|passed| {
                let near = (0..45).map(move |step| account.last.wrapping_sub(5).wrapping_add(step));
                near.map(move |xid| (xid, passed))
            });
            let agreed: Vec<(u32, u32)> = others.filter(|&(xid, passed)| agrees(xid, passed)).collect();
            assert_eq!(agreed, [(xid, passed)]);
        };
        let given = |in_flight: &[u32], last| Account::new(Start::Given(flat(in_flight, 40, last)));
        told(&Account::new(Start::Open(7)), 8, 0);
        told(&Account::new(Start::Open(u32::MAX)), 0, 0);
        told(&given(&[7], 7), 8, 0);
        told(&given(&[8], 7), 9, 1);
        told(&given(&[10, 7, 8, 11, 5], 7), 9, 1);
        told(&given(&[0, u32::MAX, 2, 1], u32::MAX - 1), 3, 4);
        told(&given(&rising(8, 31), 7), 39, 31);
        // What was sent since and what was answered; the last is the one sent, in flight or not.
        let mut account = given(&[8, 9, 11, 13], 7);
        told(&account, 10, 2);
        account.answered(9);
        told(&account, 9, 1);
        account.sent(9);
        told(&account, 10, 0);
        account.sent(10);
        told(&account, 12, 1);
        account.answered(10);
        told(&account, 12, 1);
        account.sent(12);
        account.answered(12);
        told(&account, 14, 1);
    }

    /// The forms that one check sees.
    fn seen(run: impl FnOnce(&mut Checker<Plain>) -> Outcome) -> Vec<String> {
        let mut check = Checker::new(Plain, 1);
        let before = check.unseen();
        check.family("one check alone");
        run(&mut check).unwrap();
        let after = check.unseen();
        before.into_iter().filter(|what| !after.contains(what) && what.ends_with(" never seen")).collect()
    }

    #[test]
    fn forms_of_operations() {
        let told = |ledger: &Ledger, operation, want: &[&str]| {
            let seen = seen(|check| check.operate(ledger, operation));
            let want: Vec<String> = want.iter().map(|form| format!("{form} never seen")).collect();
            assert_eq!(seen, want, "{operation:?} {ledger:?}");
        };
        let filled = |in_flight: &[u32], grant, last, behind| {
            let mut ledger = flat(in_flight, grant, last);
            ledger.xids[in_flight.len()..].fill(behind);
            ledger
        };
        let noisy = |in_flight: &[u32], grant, last| filled(in_flight, grant, last, 77);
        let reply = |xid, grant| Operation::Reply { xid, grant };
        use Operation::Send;
        let largest = u32::MAX;
        told(&flat(&[], 1, 7), Send, &[]);
        told(&flat(&[7], 1, 7), Send, &[]);
        told(&flat(&[], 1, largest), Send, &["xid given across the wrap"]);
        told(&flat(&rising(8, 32), 32, 39), Send, &[]);
        told(&flat(&rising(8, 32), 33, 39), Send, &["32 in flight below the grant"]);
        let in_flight = "none passed over with calls in flight";
        told(&noisy(&[7], 2, 7), Send, &[in_flight, "send with garbage behind"]);
        told(&noisy(&[7], 1, 7), Send, &["send refused with garbage behind"]);
        told(
            &noisy(&[77], 2, 7),
            Send,
            &[in_flight, "send with garbage behind", "xid in flight and again behind"],
        );
        // Runs.
        let answered = "run passed over behind a last answered";
        let [all, on] = ["all in flight passed over, below 31", "run passed over that goes on behind a gap"];
        let wrap = ["xid given across the wrap", "xids passed over across the wrap"];
        told(&flat(&[7], 2, 7), Send, &[in_flight]);
        told(&flat(&[10], 2, 7), Send, &[in_flight]);
        told(&flat(&[9], 2, 7), Send, &[in_flight, "none passed over before a run"]);
        told(&flat(&[8], 2, 7), Send, &[answered, all]);
        told(&flat(&[7, 8], 3, 7), Send, &["run passed over behind a last in flight"]);
        told(&flat(&[6, 8], 3, 7), Send, &[answered]);
        told(&flat(&[8, 11], 3, 7), Send, &[answered]);
        told(&flat(&[8, 10], 3, 7), Send, &[on, answered]);
        told(&flat(&[8, 50, 9], 4, 7), Send, &[answered]);
        told(&flat(&[9, 8], 3, 7), Send, &["run passed over in another order", answered, all]);
        told(&flat(&rising(8, 30), 32, 7), Send, &[answered, all]);
        told(&flat(&rising(8, 31), 32, 7), Send, &[answered, "32nd call sent"]);
        let behind = "run that would go on in places behind";
        // Zeros behind, and the xid 0.
        let again = "xid in flight and again behind";
        told(&flat(&[0], 2, largest), Send, &[wrap[0], wrap[1], answered, all, again]);
        told(&flat(&[largest], 2, largest - 1), Send, &[wrap[0], wrap[1], answered, behind, all]);
        told(
            &flat(&[largest, 0], 3, largest - 1),
            Send,
            &[wrap[0], wrap[1], "run that wraps passed over", answered, all, again],
        );
        told(&filled(&[8, 9], 3, 7, 10), Send, &[answered, behind, all, "send with garbage behind"]);
        told(&filled(&[8, 9], 3, 7, 11), Send, &[answered, all, "send with garbage behind"]);
        // Runs that a refused send meets.
        let full = flat(&rising(8, 32), 40, 7);
        told(&flat(&[8], 1, 7), Send, &["23 at the grant before a run"]);
        told(&full, Send, &["23 for 32 in flight before a run", "32 in flight below the grant"]);
        told(
            &Ledger { grant: 32, ..full },
            Send,
            &["23 at the grant before a run", "23 for 32 in flight before a run"],
        );
        told(&Ledger { grant: 0, ..full }, Send, &["17 for grant 0 before a run"]);
        told(&flat(&[8, 8], 0, 7), Send, &["17 for grant 0 before a run"]);
        told(&flat(&[8, 8], 3, 7), Send, &["17 for one twice before a run"]);
        told(&flat(&[5, 5], 3, 7), Send, &[]);
        told(&Ledger { count: 33, ..full }, Send, &["17 for more than 32 before a run"]);
        told(&Ledger { count: 33, grant: 0, ..full }, Send, &["17 for more than 32 before a run"]);
        told(&Ledger { count: 33, last: 39, ..full }, Send, &[]);
        // Replies.
        told(&flat(&[5, 6, 7], 3, 7), reply(6, 2), &[]);
        told(&flat(&[5, 6, 7], 3, 7), reply(6, 33), &["grant above 32 set"]);
        told(&flat(&[5, 6, 7], 3, 7), reply(6, 1), &["grant below those in flight set"]);
        told(&flat(&[5, 6, 7], 2, 7), reply(6, 2), &["reply with more in flight than the grant"]);
        told(&flat(&rising(8, 32), 32, 39), reply(9, 32), &["reply with 32 in flight"]);
        told(&noisy(&[7], 1, 7), reply(7, 1), &["reply with garbage behind"]);
        told(&noisy(&[7], 1, 7), reply(8, 1), &["reply refused with garbage behind"]);
        told(
            &noisy(&[7], 1, 7),
            reply(77, 1),
            &["reply refused with garbage behind", "reply to an xid behind those in flight"],
        );
        told(&flat(&[7], 1, 7), reply(7, 0), &[]);
        told(&flat(&[7], 1, 7), reply(8, 0), &["grant 0 and an xid not in flight"]);
    }

    #[test]
    fn forms_of_histories_over_runs() {
        let told = |in_flight: &[u32], last, operations: &[Operation], want: &[&str]| {
            let seen = seen(|check| check.history(Start::Given(flat(in_flight, 40, last)), operations));
            let histories = seen.into_iter().filter(|form| form.starts_with("history"));
            let want: Vec<String> = want.iter().map(|form| format!("{form} never seen")).collect();
            assert_eq!(histories.collect::<Vec<_>>(), want, "{in_flight:?} {operations:?}");
        };
        use Operation::Send;
        let [once, again] = ["history with xids passed over", "history with xids passed over again"];
        let wraps = "history with a run that wraps passed over";
        let largest = u32::MAX;
        told(&[7], 7, &[Send, Send], &[]);
        told(&[8, 7], 7, &[Operation::Reply { xid: 8, grant: 40 }, Send], &[]);
        told(&[8, 7], 7, &[Send, Send], &[once]);
        told(&[8, 10], 7, &[Send, Send], &[once, again]);
        told(&[largest], largest - 1, &[Send], &[once]);
        told(&[0], largest, &[Send], &[once]);
        told(&[0, 1], largest, &[Send], &[once]);
        told(&[largest, 0], largest - 1, &[Send], &[once, wraps]);
    }
}
