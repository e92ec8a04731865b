//! The ledger of credits.

use super::Plain;
use crate::calls::LedgerCalls;
use eoswynnor::ffi::{Ledger, SendAnswer};

/// Whether an xid is there twice: each is looked for among those before it.
pub fn twice_quadratic(xids: &[u32]) -> bool {
    xids.iter().enumerate().any(|(at, xid)| xids[..at].contains(xid))
}

/// The same answer. Where each is greater than the one before it, as mostly in flight, none is there
/// twice.
pub fn twice_quick(xids: &[u32]) -> bool {
    // To the end in any case, so that several are compared at once.
    let rising = xids.iter().zip(xids.iter().skip(1)).fold(true, |rising, (one, two)| rising & (one < two));
    !rising && twice_quadratic(xids)
}

/// The xid and how many were passed over, or the number.
#[inline(always)]
fn send(ledger: &mut Ledger, twice: impl Fn(&[u32]) -> bool) -> Result<(u32, u32), u32> {
    let (in_flight, free) = ledger.xids.split_at_mut_checked(ledger.count as usize).ok_or(17u32)?;
    if ledger.grant == 0 || twice(in_flight) {
        return Err(17);
    }
    let (place, behind) = free.split_first_mut().filter(|_| ledger.count < ledger.grant).ok_or(23u32)?;
    let (mut xid, mut passed) = (ledger.last.wrapping_add(1), 0);
    while in_flight.contains(&xid) {
        xid = xid.wrapping_add(1);
        passed += 1;
    }
    *place = xid;
    behind.fill(0);
    ledger.count += 1;
    ledger.last = xid;
    Ok((xid, passed))
}

#[inline(always)]
fn reply(ledger: &mut Ledger, xid: u32, grant: u32, twice: impl Fn(&[u32]) -> bool) -> Result<(), u32> {
    let count = ledger.count as usize;
    let in_flight = ledger.xids.get(..count).ok_or(17u32)?;
    if ledger.grant == 0 || twice(in_flight) {
        return Err(17);
    }
    if grant == 0 {
        return Err(25);
    }
    let place = in_flight.iter().position(|other| *other == xid).ok_or(24u32)?;
    ledger.xids.copy_within(place + 1..count, place);
    ledger.xids[count - 1..].fill(0);
    ledger.count -= 1;
    ledger.grant = grant;
    Ok(())
}

#[inline(always)]
fn answer(sent: Result<(u32, u32), u32>) -> SendAnswer {
    match sent {
        Ok((xid, passed)) => SendAnswer { number: 0, xid, passed },
        Err(number) => SendAnswer { number, xid: 0, passed: 0 },
    }
}

#[inline(never)]
fn plain_open(last: u32, ledger: &mut Ledger) -> u32 {
    *ledger = Ledger { grant: 1, last, ..Ledger::default() };
    0
}

#[inline(never)]
fn plain_send(ledger: &mut Ledger) -> SendAnswer {
    answer(send(ledger, twice_quick))
}

#[inline(never)]
fn plain_reply(ledger: &mut Ledger, xid: u32, grant: u32) -> u32 {
    super::number(reply(ledger, xid, grant, twice_quick))
}

/// A send without the quick look: what that look saves is compared in the benchmark.
#[inline(never)]
pub fn send_quadratic(ledger: &mut Ledger) -> SendAnswer {
    answer(send(ledger, twice_quadratic))
}

/// A reply without the quick look.
#[inline(never)]
pub fn reply_quadratic(ledger: &mut Ledger, xid: u32, grant: u32) -> u32 {
    super::number(reply(ledger, xid, grant, twice_quadratic))
}

impl LedgerCalls for Plain {
    #[inline(always)]
    fn ledger_open(&self, last: u32, ledger: &mut Ledger) -> u32 {
        plain_open(last, ledger)
    }

    #[inline(always)]
    fn ledger_send(&self, ledger: &mut Ledger) -> SendAnswer {
        plain_send(ledger)
    }

    #[inline(always)]
    fn ledger_reply(&self, ledger: &mut Ledger, xid: u32, grant: u32) -> u32 {
        plain_reply(ledger, xid, grant)
    }
}

#[cfg(test)]
mod tests {
    use super::*;
    use crate::rng::Rng;

    #[test]
    fn quick_or_not_the_same() {
        let rng = &mut Rng(3);
        for _ in 0..20_000 {
            let mut ledger = rng.ledger();
            let count = ledger.count as usize;
            if count > 0 && rng.below(2) == 0 {
                ledger.xids[rng.below(count)] = ledger.xids[rng.below(count)];
            }
            let in_flight = &ledger.xids[..count];
            assert_eq!(twice_quick(in_flight), twice_quadratic(in_flight), "{in_flight:?}");
            let (mut one, mut two) = (ledger, ledger);
            assert_eq!((plain_send(&mut one), one), (send_quadratic(&mut two), two));
            let (xid, grant) = (ledger.xids[rng.below(32)], rng.below(3) as u32);
            let (mut one, mut two) = (ledger, ledger);
            assert_eq!(plain_reply(&mut one, xid, grant), reply_quadratic(&mut two, xid, grant));
            assert_eq!(one, two);
        }
    }
}
