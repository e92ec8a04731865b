//! The ledger of credits: document 02, orders 5 and 6.

/// "Room for 32 calls in flight".
pub const ROOM: usize = 32;

#[derive(Clone, Debug, PartialEq, Eq)]
pub struct Ledger {
    /// "Xids stand in sending order".
    pub in_flight: Vec<u32>,
    pub grant: u32,
    /// The last xid given.
    pub last: u32,
}

/// What an accepted send gives: its xid and "the number of xids passed over".
#[derive(Clone, Copy, Debug, Default, PartialEq, Eq)]
pub struct Sent {
    pub xid: u32,
    pub passed: u32,
}

/// "The grant starts at 1, and the opener names the last xid." No call is in flight.
pub fn open(last: u32) -> Ledger {
    Ledger { in_flight: vec![], grant: 1, last }
}

/// "A ledger with more in flight, one xid twice or grant 0 gets 17 first."
fn judge(ledger: &Ledger) -> Result<(), u32> {
    let times = |xid: u32| ledger.in_flight.iter().filter(|other| **other == xid).count();
    let more = ledger.in_flight.len() > ROOM;
    let twice = ledger.in_flight.iter().any(|&xid| times(xid) > 1);
    if more || twice || ledger.grant == 0 {
        return Err(17);
    }
    Ok(())
}

/// "One more than the last, wrapping to 0 behind the largest".
fn behind(xid: u32) -> u32 {
    if xid == u32::MAX {
        0
    } else {
        xid + 1
    }
}

/// "The length of the unbroken run of xids in flight that begins right behind the last one given": how far
/// behind its beginning each of them stands, the nearest first. None is there twice, so the run is unbroken
/// up to the first that stands farther than there are nearer ones.
fn run(ledger: &Ledger) -> u32 {
    let beginning = behind(ledger.last);
    let mut steps: Vec<u32> = ledger.in_flight.iter().map(|xid| xid.wrapping_sub(beginning)).collect();
    steps.sort();
    steps.iter().zip(0..).take_while(|(steps, nearer)| *steps == nearer).count() as u32
}

/// What is given and the ledger afterwards, or the number of the refusal; "a refused send reports 0".
pub fn send(ledger: &Ledger) -> Result<(Sent, Ledger), u32> {
    judge(ledger)?;
    // "It is refused with 23 exactly if the calls in flight reach or pass the grant or 32."
    let in_flight = ledger.in_flight.len();
    if in_flight as u64 >= u64::from(ledger.grant) || in_flight >= ROOM {
        return Err(23);
    }
    // "Sending takes the next xid, [...] passing over xids still in flight".
    let mut xid = behind(ledger.last);
    while ledger.in_flight.contains(&xid) {
        xid = behind(xid);
    }
    let mut after = ledger.clone();
    after.in_flight.push(xid);
    after.last = xid;
    // Not counted in the search: the two check each other.
    Ok((Sent { xid, passed: run(ledger) }, after))
}

/// The ledger afterwards, or the number of the refusal. "A reply names an xid and a grant".
pub fn reply(ledger: &Ledger, xid: u32, grant: u32) -> Result<Ledger, u32> {
    judge(ledger)?;
    // "25 if the grant is 0, then 24 if the xid is not in flight".
    if grant == 0 {
        return Err(25);
    }
    if !ledger.in_flight.contains(&xid) {
        return Err(24);
    }
    // "Else the call leaves and the grant is set, above 32 too." It "closes its gap"; "a lower grant takes
    // no call back".
    let mut after = ledger.clone();
    after.in_flight.retain(|other| *other != xid);
    after.grant = grant;
    Ok(after)
}

#[cfg(test)]
mod tests {
    use super::*;
    use crate::cases::ledger::{histories, overfull, passing, replies, sends};
    use crate::convert::{flatten_ledger, unflatten_ledger};
    use crate::rng::Rng;

    #[test]
    fn worked_examples() {
        for case in [sends(), passing(), replies(), overfull()].iter().flatten() {
            let answer = case.operation.right(&unflatten_ledger(&case.before));
            let answer = answer.map(|(sent, after)| (sent, flatten_ledger(&after)));
            assert_eq!(answer, case.want, "{}", case.name);
        }
    }

    #[test]
    fn worked_histories() {
        for case in histories() {
            let mut ledger = case.start.right();
            for (operation, want) in case.steps {
                let answer = operation.right(&ledger);
                assert_eq!(answer.as_ref().map(|(sent, _)| *sent), want.as_ref().copied(), "{}", case.name);
                ledger = answer.map_or(ledger, |(_, after)| after);
            }
            assert_eq!(flatten_ledger(&ledger), case.after, "{}", case.name);
        }
    }

    /// The search ends right behind the run, and it "is at most the number in flight, so at most 31". The run
    /// is also the most xids right behind the last one given that are all in flight.
    #[test]
    fn the_search_passes_over_the_run() {
        let (rng, mut counts) = (&mut Rng(17), [0; ROOM]);
        for _ in 0..20_000 {
            let ledger = unflatten_ledger(&rng.ledger_of_stretches());
            let in_flight = |step| ledger.in_flight.contains(&ledger.last.wrapping_add(step));
            let most = (0..=ROOM as u32).rev().find(|&most| (1..=most).all(in_flight));
            assert_eq!(most, Some(run(&ledger)), "{ledger:?}");
            let Ok((Sent { xid, passed }, _)) = send(&ledger) else { continue };
            assert_eq!(xid, ledger.last.wrapping_add(1).wrapping_add(passed), "{ledger:?}");
            assert!(passed as usize <= ledger.in_flight.len(), "{ledger:?}");
            counts[passed as usize] += 1;
        }
        assert!(!counts.contains(&0), "{counts:?}");
    }
}
