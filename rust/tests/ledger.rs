//! The calls in flight of a client.

use eoswynnor::{Ledger, Refusal, Sent, MAX_IN_FLIGHT};

const SPENT: Result<Sent, Refusal> = Err(Refusal(23));
const UNKNOWN: Result<(), Refusal> = Err(Refusal(24));
const NO_GRANT: Result<(), Refusal> = Err(Refusal(25));

/// A send for which no xid was passed over.
fn sent(xid: u32) -> Result<Sent, Refusal> {
    Ok(Sent { xid, passed: 0 })
}

/// A ledger with these calls in flight, sent one after the other.
fn with_calls(first: u32, count: u32, grant: u32) -> Ledger {
    let mut ledger = Ledger::open(first.wrapping_sub(2));
    let before = ledger.send().unwrap().xid;
    ledger.reply(before, u32::MAX).unwrap();
    for k in 0..count {
        assert_eq!(ledger.send(), sent(first.wrapping_add(k)));
    }
    // The grant comes with a reply, so one more call goes and comes back.
    if grant != u32::MAX {
        let extra = ledger.send().unwrap().xid;
        ledger.reply(extra, grant).unwrap();
    }
    ledger
}

#[test]
fn opens_with_one_credit() {
    let mut ledger = Ledger::open(41);
    assert_eq!((ledger.in_flight(), ledger.grant(), ledger.last()), (&[][..], 1, 41));
    assert_eq!(ledger.send(), sent(42));
    assert_eq!(ledger.send(), SPENT);
    assert_eq!((ledger.in_flight(), ledger.last()), (&[42][..], 42));
    assert_eq!(ledger.reply(42, 3), Ok(()));
    assert_eq!((ledger.in_flight(), ledger.grant(), ledger.last()), (&[][..], 3, 42));
}

#[test]
fn wraps_behind_the_largest_xid() {
    let mut ledger = Ledger::open(u32::MAX - 2);
    assert_eq!(ledger.send(), sent(u32::MAX - 1));
    assert_eq!(ledger.reply(u32::MAX - 1, 8), Ok(()));
    assert_eq!([ledger.send(), ledger.send(), ledger.send()], [sent(u32::MAX), sent(0), sent(1)]);
    assert_eq!(ledger.in_flight(), [u32::MAX, 0, 1]);
    assert_eq!(ledger.reply(0, 8), Ok(()));
    assert_eq!(ledger.in_flight(), [u32::MAX, 1]);
}

#[test]
fn room_for_32_whatever_the_grant() {
    let mut ledger = with_calls(100, MAX_IN_FLIGHT as u32, u32::MAX);
    let before = ledger.clone();
    assert_eq!(ledger.send(), SPENT);
    assert_eq!(ledger, before);
    assert_eq!(ledger.reply(100, 40), Ok(()));
    assert_eq!(ledger.send(), sent(132));
    assert_eq!(ledger.send(), SPENT);
}

#[test]
fn a_lower_grant_takes_no_call_back() {
    let mut ledger = with_calls(5, 4, 1);
    assert_eq!(ledger.in_flight(), [5, 6, 7, 8]);
    assert_eq!(ledger.send(), SPENT);
    assert_eq!(ledger.reply(6, 1), Ok(()));
    assert_eq!(ledger.in_flight(), [5, 7, 8]);
    assert_eq!(ledger.reply(8, 3), Ok(()));
    assert_eq!(ledger.in_flight(), [5, 7]);
    assert_eq!(ledger.send(), sent(10));
    assert_eq!(ledger.in_flight(), [5, 7, 10]);
}

#[test]
fn refused_replies_change_nothing() {
    let mut ledger = with_calls(5, 2, 9);
    let before = ledger.clone();
    assert_eq!(ledger.reply(7, 0), NO_GRANT);
    assert_eq!(ledger.reply(5, 0), NO_GRANT);
    assert_eq!(ledger.reply(7, 9), UNKNOWN);
    // Places behind those in flight are zero, and still no call has xid 0.
    assert_eq!(ledger.reply(0, 9), UNKNOWN);
    assert_eq!(ledger, before);
    assert_eq!(ledger.reply(5, u32::MAX), Ok(()));
    assert_eq!(ledger.grant(), u32::MAX);
}
