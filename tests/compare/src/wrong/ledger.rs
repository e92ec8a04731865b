//! A third ledger, into which one mistake at a time is put.

use super::{can_fail, is_found, mistakes, store_behind, Wrong};
use crate::calls::LedgerCalls;
use crate::cases::ledger as families;
use crate::check::{Checker, Operation, Outcome, Start};
use crate::reference::ledger::Sent;
use crate::rng::Rng;
use crate::words::Words;
use eoswynnor::ffi::{self, SendAnswer};
use Mistake::*;
use Wrong::Ledger;

mistakes! {
    // Opening.
    OpenGrant0 OpenGrant32 OpenGrantKept OpenCountKept OpenOneInFlight OpenPlacesKept OpenLastPlaceKept
    OpenLastOneMore OpenLastOneLess OpenLastKept OpenLast0 OpenLastInPlace OpenLargestRefused Open0Refused
    OpenStoresBehind
    // 17: how many are in flight.
    CountUnchecked SendCountUnchecked ReplyCountUnchecked Count33Taken Count32Refused CountByLastByte
    CountIn16Bits SignedCount
    // 17: one xid twice.
    TwiceUnchecked SendTwiceUnchecked ReplyTwiceUnchecked TwiceByNeighbours TwiceNotByNeighbours TwiceOfFirst
    TwiceOfLast TwiceWithoutFirst TwiceWithoutLast TwiceOf16 TwiceOf31 TwiceLooksBehind TwiceLooksOneBehind
    TwiceIn16Bits TwiceByHighHalf Twice0Taken TwiceLargestTaken Only0Twice
    // 17: the quick look before it.
    RisingNotStrictly RisingByEnds RisingByFirstTwo RisingWithoutLast RisingRoundWrap RisingRequired
    // 17: the grant.
    Grant0Taken SendGrant0Taken ReplyGrant0Taken GrantAbove32Refused
    // 17: what nobody asks.
    AboveGrantRefused BehindRefused LastNotInFlightRefused LastNotNewestRefused NextInFlightRefused
    AboveLastRefused Xid0Refused NoneInFlightRefused
    // The order of the checks.
    TwentyThreeBefore17 RoomBefore17 TwentyThreeBeforeTwice TwentyFourBefore17 TwentyFourBeforeTwice
    TwentyFiveBefore17 TwentyFiveBeforeTwice TwentyFourBefore25 LedgersGrant0As25
    // Another number.
    RoomAs17 SeventeenAs20 TwentyThreeAs24 UnknownAs17 Grant0As20
    // 23.
    AboveGrantOnly AtGrantOnly OneBelowGrant GrantIgnored RoomIgnored RoomOf31 SignedGrant GrantByLastByte
    GrantIn16Bits GrantAbove32As23
    // The next xid.
    Saturates WrapsTo1 WrapAs23 WrapAs17 LargestNeverGiven StartsAtLast StartsTwoBehind StartsBehindGreatest
    StartsBehindNewest StartsAt0 NextIn16Bits
    // Passing over.
    NotPassedOver PassedOnce PassedInListOrder PassedByCount PassedBeyondGreatest PassedAtMost16
    PassedAtMost30 PassedInTwos PassingSaturates PassingWrapsTo1 PassingWithoutFirst PassingWithoutLast
    PassingLooksBehind PassingLooksOneBehind PassingIn16Bits PassedAs23
    // How many are passed over: where the run begins.
    RunFromLast RunThroughLast RunAroundLast RunBeforeLast RunFromTwoBehind RunFromNewest RunFromOldest
    RunFromGreatest RunFromLeast RunFrom0 RunFromGiven RunOnlyBehindInFlight RunOnlyBehindAnswered
    // How many are passed over: where the run ends.
    RunAfterSend RunOverOneGap RunOfAllNear RunOfAllGreater RunLongest RunLastStretch RunStopsAtWrap
    RunStopsBeforeLargest RunStopsBehind0 RunWrapsTo1 RunSaturates RunNotBehindLargest RunWithout0
    RunWithoutLargest RunStopsAt2To31 RunWrapsAt2To16
    // How many are passed over: which are looked at.
    RunInListOrder RunByFirstPlaces RunByNeighbours RunByRounds RunOnlyRising RunLooksBehind
    RunLooksOneBehind RunWithoutFirst RunWithoutNewest RunIn16Bits RunOnlyWithinRoom
    // What is reported of them.
    ReportsGivenToo ReportsGivenTooBehindRun ReportsOneLess ReportsOneMoreOf31 ReportsOneLessOf31
    ReportsAtMost30 ReportsAtMost16 ReportsAtMost15 ReportsAtMost1 ReportsIn4Bits Reports31As0
    ReportsBelowInFlight Reports0 Reports1 ReportsTwofold ReportsInFlight ReportsInFlightIfAny
    ReportsInFlightAfter ReportsOthers ReportsXid ReportsNext ReportsLast ReportsExchanged ReportsPlace
    ReportsCreditsLeft ReportsSaturated ReportsDifference ReportsFromNewest PassedLeftBehind
    // What a send leaves.
    JoinsInFront JoinsSorted JoinsInLastPlace NotJoined SendCountKept SendCountTwo LastKept LastOneMore
    LastFirstTried SendTakesGrant SendClampsGrant SendKeepsBehind SendKeepsNext SendKeepsLastPlace
    SendStoresBehind AnswersLast AnswersNext AnswersPlace Answers0
    // What a refused send leaves.
    RefusedGivesXid RefusedGivesLast RefusedTakesLast RefusedClears RefusedSendStoresBehind
    Refused17GivesXid Refused17Clears Refused17MendsGrant Refused17Reopens Refused17MendsCount
    // What a refused send reports.
    RefusedReportsNumber RefusedReportsRun RefusedAtGrantReportsRun RefusedOfRoomReportsRun
    RefusedReportsInFlight RefusedReports1 RefusedReportsLargest Refused17ReportsRun Grant0ReportsRun
    OneTwiceReportsRun OverfullReportsRun Refused17ReportsInFlight Refused17Reports1
    // Who leaves.
    UnknownTaken UnknownTakesFirst UnknownLastTaken BehindTaken OneBehindTaken OnlyFirstAnswered
    OnlyNewestAnswered ReplyWithoutFirst ReplyWithoutLast XidIn16Bits XidByLastByte Xid0Unknown
    AboveLastUnknown AboveGrantUnknown AboveGrantAs23 XidAsPlace
    // The grant of a reply.
    Grant0OfReplyTaken Grant0As1 Grant0Keeps GrantAbove32As25 GrantBelowInFlightAs25 LowerGrantAs25
    GrantClamped GrantAdded GrantOneMore GrantKept GrantRaisedOnly GrantLoweredOnly GrantSetIn16Bits
    GrantSetByLastByte GrantAtLeastInFlight GrantSetBelow2To31
    // What a reply leaves.
    LowerGrantTakesNewestBack LowerGrantTakesOldestBack NewestFillsGap OldestFillsGap GapLeftOpen GapOneClosed
    RestReversed FirstLeaves NewestLeaves AllBeforeLeave AllLeave LeftSorted ZerosLeave ReplyKeepsFreed
    ReplyKeepsBehind ReplyKeepsLastPlace ReplyCountKept LastSetToAnswered LastTakenBack LastOfThoseLeft
    LastResetWhenEmpty ReplyStoresBehind
    // What a refused reply leaves.
    UnknownSetsGrant UnknownClears Grant0Clears Grant0Set Grant0Leaves Refused17SetsGrant Refused17ReplyClears
    RefusedReplyStoresBehind
}

const ROOM: usize = 32;
const MAX: u32 = u32::MAX;

impl Wrong {
    fn errs(&self, mistake: Mistake) -> bool {
        *self == Ledger(mistake)
    }

    /// How many are in flight, at most as many as there are places; or 17.
    fn counted(&self, ledger: &ffi::Ledger, sends: bool) -> Result<usize, u32> {
        let count = match *self {
            Ledger(CountByLastByte) => ledger.count & 0xff,
            Ledger(CountIn16Bits) => ledger.count & 0xffff,
            _ => ledger.count,
        };
        let most = match *self {
            Ledger(CountUnchecked) => MAX,
            Ledger(SendCountUnchecked) if sends => MAX,
            Ledger(ReplyCountUnchecked) if !sends => MAX,
            Ledger(Count33Taken) => 33,
            Ledger(Count32Refused) => 31,
            Ledger(SignedCount) if (count as i32) < 0 => MAX,
            _ => 32,
        };
        if count > most {
            return Err(17);
        }
        Ok(ROOM.min(count as usize))
    }

    fn twice(&self, ledger: &ffi::Ledger, count: usize, sends: bool) -> bool {
        let looked = match *self {
            Ledger(TwiceLooksBehind) => &ledger.xids[..],
            Ledger(TwiceLooksOneBehind) => &ledger.xids[..ROOM.min(count + 1)],
            Ledger(TwiceWithoutFirst) => &ledger.xids[count.min(1)..count],
            Ledger(TwiceWithoutLast) => &ledger.xids[..count.saturating_sub(1)],
            Ledger(TwiceOf16) => &ledger.xids[..count.min(16)],
            Ledger(TwiceOf31) => &ledger.xids[..count.min(31)],
            _ => &ledger.xids[..count],
        };
        let same = |one: u32, two: u32| match *self {
            Ledger(TwiceIn16Bits) => one as u16 == two as u16,
            Ledger(TwiceByHighHalf) => one >> 16 == two >> 16,
            Ledger(Twice0Taken) => one == two && one != 0,
            Ledger(TwiceLargestTaken) => one == two && one != MAX,
            Ledger(Only0Twice) => one == two && one == 0,
            _ => one == two,
        };
        let rising = |xids: &[u32]| xids.windows(2).all(|two| two[0] < two[1]);
        let ends = looked.first().zip(looked.last());
        match *self {
            Ledger(TwiceUnchecked) => return false,
            Ledger(SendTwiceUnchecked) if sends => return false,
            Ledger(ReplyTwiceUnchecked) if !sends => return false,
            Ledger(RisingNotStrictly) if looked.is_sorted() => return false,
            Ledger(RisingByEnds) if ends.is_some_and(|(first, last)| first < last) => return false,
            Ledger(RisingByFirstTwo) if looked.len() > 1 && looked[0] < looked[1] => return false,
            Ledger(RisingWithoutLast) if rising(&looked[..looked.len().saturating_sub(1)]) => return false,
            // Each comes soon behind the one before it, wrapping or not.
            Ledger(RisingRoundWrap)
                if looked.windows(2).all(|two| (two[1].wrapping_sub(two[0]) as i32) > 0) =>
            {
                return false
            }
            Ledger(RisingRequired) if !rising(looked) => return true,
            _ => {}
        }
        let mut pairs = (0..looked.len()).flat_map(|two| (0..two).map(move |one| (one, two)));
        pairs.any(|(one, two)| {
            let compared = match *self {
                Ledger(TwiceByNeighbours) => two == one + 1,
                Ledger(TwiceNotByNeighbours) => two > one + 1,
                Ledger(TwiceOfFirst) => one == 0,
                Ledger(TwiceOfLast) => two + 1 == looked.len(),
                _ => true,
            };
            compared && same(looked[one], looked[two])
        })
    }

    fn wrong_grant(&self, ledger: &ffi::Ledger, sends: bool) -> bool {
        let taken = match *self {
            Ledger(Grant0Taken) => true,
            Ledger(SendGrant0Taken) => sends,
            Ledger(ReplyGrant0Taken) => !sends,
            _ => false,
        };
        ledger.grant == 0 && !taken || ledger.grant > 32 && self.errs(GrantAbove32Refused)
    }

    /// Refused for what may well be.
    fn disliked(&self, ledger: &ffi::Ledger, count: usize) -> bool {
        let (in_flight, behind) = ledger.xids.split_at(count);
        let &ffi::Ledger { grant, last, .. } = ledger;
        match *self {
            Ledger(AboveGrantRefused) => count as u32 > grant,
            Ledger(BehindRefused) => behind.iter().any(|xid| *xid != 0),
            Ledger(LastNotInFlightRefused) => count > 0 && !in_flight.contains(&last),
            Ledger(LastNotNewestRefused) => in_flight.last().is_some_and(|xid| *xid != last),
            Ledger(NextInFlightRefused) => in_flight.contains(&last.wrapping_add(1)),
            Ledger(AboveLastRefused) => in_flight.iter().any(|xid| *xid > last),
            Ledger(Xid0Refused) => in_flight.contains(&0),
            Ledger(NoneInFlightRefused) => count == 0,
            _ => false,
        }
    }

    /// How many are in flight, or 17.
    fn judged(&self, ledger: &ffi::Ledger, sends: bool) -> Result<usize, u32> {
        let count = self.counted(ledger, sends)?;
        if self.wrong_grant(ledger, sends) || self.twice(ledger, count, sends) || self.disliked(ledger, count)
        {
            return Err(17);
        }
        Ok(count)
    }

    /// Whether no call may be sent.
    fn full(&self, count: u32, grant: u32) -> bool {
        let at_grant = match *self {
            Ledger(AboveGrantOnly) => count > grant,
            Ledger(AtGrantOnly) => count == grant,
            Ledger(OneBelowGrant) => count >= grant.saturating_sub(1),
            Ledger(GrantIgnored) => false,
            Ledger(SignedGrant) => count as i32 >= grant as i32,
            Ledger(GrantByLastByte) => count >= grant & 0xff,
            Ledger(GrantIn16Bits) => count >= grant & 0xffff,
            _ => count >= grant,
        };
        let no_room = match *self {
            Ledger(RoomIgnored) => false,
            Ledger(RoomOf31) => count >= 31,
            _ => count >= 32,
        };
        at_grant || no_room
    }

    /// The xid behind one.
    fn behind(&self, xid: u32, passing: bool) -> u32 {
        match (*self, xid) {
            (Ledger(Saturates), MAX) => MAX,
            (Ledger(PassingSaturates), MAX) if passing => MAX,
            (Ledger(WrapsTo1), MAX) => 1,
            (Ledger(PassingWrapsTo1), MAX) if passing => 1,
            (Ledger(LargestNeverGiven), _) if xid == MAX - 1 => 0,
            (Ledger(NextIn16Bits), _) => xid & 0xffff_0000 | xid.wrapping_add(1) & 0xffff,
            (Ledger(PassedInTwos), _) if passing => xid.wrapping_add(2),
            _ => xid.wrapping_add(1),
        }
    }

    fn next(&self, ledger: &ffi::Ledger, count: usize) -> Result<u32, u32> {
        let in_flight = &ledger.xids[..count];
        let looked = match *self {
            Ledger(PassingLooksBehind) => &ledger.xids[..],
            Ledger(PassingLooksOneBehind) => &ledger.xids[..ROOM.min(count + 1)],
            Ledger(PassingWithoutFirst) => &in_flight[count.min(1)..],
            Ledger(PassingWithoutLast) => &in_flight[..count.saturating_sub(1)],
            _ => in_flight,
        };
        let greatest = in_flight.iter().copied().max();
        let first = match *self {
            Ledger(StartsAtLast) => ledger.last,
            Ledger(StartsTwoBehind) => ledger.last.wrapping_add(2),
            Ledger(StartsBehindGreatest) => greatest.unwrap_or(ledger.last).wrapping_add(1),
            Ledger(StartsBehindNewest) => in_flight.last().unwrap_or(&ledger.last).wrapping_add(1),
            Ledger(StartsAt0) => 0,
            Ledger(WrapAs23) if ledger.last == MAX => return Err(23),
            Ledger(WrapAs17) if ledger.last == MAX => return Err(17),
            _ => self.behind(ledger.last, false),
        };
        let met = match *self {
            Ledger(PassingIn16Bits) => looked.iter().any(|xid| *xid as u16 == first as u16),
            _ => looked.contains(&first),
        };
        match *self {
            _ if !met => return Ok(first),
            Ledger(NotPassedOver) => return Ok(first),
            Ledger(PassedOnce) => return Ok(first.wrapping_add(1)),
            Ledger(PassedByCount) => return Ok(first.wrapping_add(count as u32)),
            Ledger(PassedBeyondGreatest) => return Ok(greatest.unwrap_or(first).wrapping_add(1)),
            Ledger(PassedAs23) => return Err(23),
            Ledger(PassedInListOrder) => {
                return Ok(looked.iter().fold(first, |xid, other| xid.wrapping_add((*other == xid).into())))
            }
            _ => {}
        }
        let most = match *self {
            Ledger(PassedAtMost16) => 16,
            Ledger(PassedAtMost30) => 30,
            _ => 2 * ROOM,
        };
        let mut xid = first;
        // A mistake may never come to an end.
        for _ in 0..most {
            xid = self.behind(xid, true);
            if !looked.contains(&xid) {
                return Ok(xid);
            }
        }
        Err(23)
    }

    /// How many xids of a list stand right behind each other from one on.
    fn run_from(&self, xids: &[u32], first: u32) -> u32 {
        let met = |xid: u32| match *self {
            Ledger(RunIn16Bits) => xids.iter().any(|other| *other as u16 == xid as u16),
            _ => xids.contains(&xid),
        };
        let (mut xid, mut run) = (first, 0);
        // A mistake may never come to an end.
        while run < 2 * ROOM as u32 && met(xid) {
            match (*self, xid) {
                (Ledger(RunStopsBeforeLargest), MAX) => break,
                (Ledger(RunWithout0), 0) | (Ledger(RunWithoutLargest), MAX) => {}
                _ => run += 1,
            }
            xid = match (*self, xid) {
                (Ledger(RunStopsAtWrap), MAX) | (Ledger(RunStopsBehind0), 0) => break,
                (Ledger(RunStopsAt2To31), 0x7fff_ffff) => break,
                (Ledger(RunWrapsAt2To16), _) => xid & 0xffff_0000 | xid.wrapping_add(1) & 0xffff,
                (Ledger(RunWrapsTo1), MAX) => 1,
                (Ledger(RunSaturates), MAX) => MAX,
                _ => xid.wrapping_add(1),
            };
        }
        run
    }

    /// How many xids are passed over to the one that is given.
    fn passed(&self, ledger: &ffi::Ledger, count: usize, given: u32) -> u32 {
        let (in_flight, last) = (&ledger.xids[..count], ledger.last);
        let looked = match *self {
            Ledger(RunLooksBehind) => &ledger.xids[..],
            Ledger(RunLooksOneBehind) => &ledger.xids[..ROOM.min(count + 1)],
            Ledger(RunWithoutFirst) => &in_flight[count.min(1)..],
            Ledger(RunWithoutNewest) => &in_flight[..count.saturating_sub(1)],
            _ => in_flight,
        };
        let (next, least) = (last.wrapping_add(1), in_flight.iter().copied().min());
        let behind = |xid: Option<&u32>| xid.unwrap_or(&last).wrapping_add(1);
        let run = self.run_from(looked, next);
        // The length of the run that ends with one.
        let up_to =
            |xid: u32| (0..32).take_while(|&back| in_flight.contains(&xid.wrapping_sub(back))).count();
        // Whether each of the 40 from the next one on is in flight.
        let near = (0..40).map(|step| in_flight.contains(&next.wrapping_add(step))).collect::<Vec<_>>();
        let in_list_order =
            |xid: u32| in_flight.iter().fold(xid, |xid, other| xid.wrapping_add((*other == xid).into()));
        let in_a_row = |xids: &[u32]| {
            let steps = xids.iter().zip(0..);
            steps.take_while(|(xid, step)| **xid == next.wrapping_add(*step)).count() as u32
        };
        match *self {
            Ledger(RunFromLast) => self.run_from(in_flight, last),
            Ledger(RunThroughLast) => run + u32::from(in_flight.contains(&last)),
            Ledger(RunAroundLast) => run + up_to(last) as u32,
            Ledger(RunBeforeLast) => up_to(last.wrapping_sub(1)) as u32,
            Ledger(RunFromTwoBehind) => self.run_from(in_flight, last.wrapping_add(2)),
            Ledger(RunFromNewest) => self.run_from(in_flight, behind(in_flight.last())),
            Ledger(RunFromOldest) => self.run_from(in_flight, behind(in_flight.first())),
            Ledger(RunFromGreatest) => self.run_from(in_flight, behind(in_flight.iter().max())),
            Ledger(RunFromLeast) => self.run_from(in_flight, least.unwrap_or(next)),
            Ledger(RunFrom0) => self.run_from(in_flight, 0),
            Ledger(RunFromGiven) => self.run_from(in_flight, given.wrapping_add(1)),
            Ledger(RunOnlyBehindInFlight) if !in_flight.contains(&last) => 0,
            Ledger(RunOnlyBehindAnswered) if in_flight.contains(&last) => 0,
            Ledger(RunAfterSend) => self.run_from(&[in_flight, &[given]].concat(), next),
            Ledger(RunOverOneGap) => {
                let end = near.windows(2).position(|two| !two[0] && !two[1]).unwrap_or(40);
                near[..end].iter().filter(|met| **met).count() as u32
            }
            Ledger(RunOfAllNear) => near.iter().filter(|met| **met).count() as u32,
            Ledger(RunOfAllGreater) => in_flight.iter().filter(|xid| **xid > last).count() as u32,
            Ledger(RunLongest) => in_flight.iter().map(|xid| up_to(*xid)).max().unwrap_or(0) as u32,
            Ledger(RunLastStretch) => {
                let to_last = near.iter().rev().skip_while(|met| !**met);
                to_last.take_while(|met| **met).count() as u32
            }
            Ledger(RunNotBehindLargest) if last == MAX => 0,
            Ledger(RunInListOrder) => in_list_order(next).wrapping_sub(next),
            Ledger(RunByFirstPlaces) => in_a_row(in_flight),
            Ledger(RunByNeighbours) => {
                let place = in_flight.iter().position(|xid| *xid == next);
                in_a_row(&in_flight[place.unwrap_or(count)..])
            }
            Ledger(RunByRounds) => {
                let mut ends = vec![next];
                while in_list_order(ends[ends.len() - 1]) != ends[ends.len() - 1] {
                    ends.push(in_list_order(ends[ends.len() - 1]));
                }
                ends.len() as u32 - 1
            }
            Ledger(RunOnlyRising) if !in_flight.is_sorted() => 0,
            Ledger(RunOnlyWithinRoom) if ledger.grant > 32 => 0,
            _ => run,
        }
    }

    /// What is reported of so many passed over.
    fn reported(&self, ledger: &ffi::Ledger, count: usize, given: u32, passed: u32) -> u32 {
        let (in_flight, last) = (&ledger.xids[..count], ledger.last);
        let newest = in_flight.last().copied().unwrap_or(last);
        match *self {
            Ledger(ReportsGivenToo) => passed + 1,
            Ledger(ReportsGivenTooBehindRun) if passed > 0 => passed + 1,
            Ledger(ReportsOneLess) => passed.saturating_sub(1),
            Ledger(ReportsOneMoreOf31) if count == 31 => passed + 1,
            Ledger(ReportsOneLessOf31) if count == 31 => passed.saturating_sub(1),
            Ledger(ReportsAtMost30) => passed.min(30),
            Ledger(ReportsAtMost16) => passed.min(16),
            Ledger(ReportsAtMost15) => passed.min(15),
            Ledger(ReportsAtMost1) => passed.min(1),
            Ledger(ReportsIn4Bits) => passed & 0xf,
            Ledger(Reports31As0) if passed == 31 => 0,
            Ledger(ReportsBelowInFlight) => passed.min((count as u32).saturating_sub(1)),
            Ledger(Reports0) => 0,
            Ledger(Reports1) => 1,
            Ledger(ReportsTwofold) => 2 * passed,
            Ledger(ReportsInFlight) => count as u32,
            Ledger(ReportsInFlightIfAny) if passed > 0 => count as u32,
            Ledger(ReportsInFlightAfter) => count as u32 + 1,
            Ledger(ReportsOthers) => count as u32 - passed,
            Ledger(ReportsXid) => given,
            Ledger(ReportsNext) => last.wrapping_add(1),
            Ledger(ReportsLast) => last,
            // The place of the last of them, from 1 on.
            Ledger(ReportsPlace) if passed > 0 => {
                let place = in_flight.iter().position(|xid| *xid == given.wrapping_sub(1));
                place.map_or(0, |place| place as u32 + 1)
            }
            Ledger(ReportsCreditsLeft) => ledger.grant - count as u32,
            Ledger(ReportsSaturated) => given.saturating_sub(last).saturating_sub(1),
            Ledger(ReportsDifference) => given.abs_diff(last).saturating_sub(1),
            Ledger(ReportsFromNewest) => given.wrapping_sub(newest).wrapping_sub(1),
            _ => passed,
        }
    }

    /// What is answered and the ledger afterwards, or the number.
    fn send(&self, ledger: &ffi::Ledger) -> Result<(SendAnswer, ffi::Ledger), u32> {
        let full = self.full(ledger.count, ledger.grant);
        let early = match *self {
            Ledger(TwentyThreeBefore17) => full,
            Ledger(RoomBefore17) => ledger.count >= 32,
            Ledger(TwentyThreeBeforeTwice) => full && ledger.count <= 32 && ledger.grant > 0,
            _ => false,
        };
        if early {
            return Err(23);
        }
        let count = self.judged(ledger, true)?;
        match *self {
            Ledger(RoomAs17) if count == ROOM => return Err(17),
            Ledger(GrantAbove32As23) if ledger.grant > 32 => return Err(23),
            _ if full => return Err(23),
            _ => {}
        }
        let xid = self.next(ledger, count)?;
        let (mut after, place) = (*ledger, count.min(ROOM - 1));
        match *self {
            Ledger(JoinsInFront) => {
                after.xids.copy_within(..place, 1);
                after.xids[0] = xid;
            }
            Ledger(JoinsSorted) => {
                after.xids[place] = xid;
                after.xids[..=place].sort();
            }
            Ledger(NotJoined) => after.xids[place] = 0,
            _ => after.xids[place] = xid,
        }
        match *self {
            Ledger(SendKeepsBehind) => {}
            Ledger(SendKeepsNext) => after.xids[ROOM.min(place + 2)..].fill(0),
            Ledger(SendKeepsLastPlace) => {
                after.xids[place + 1..].iter_mut().rev().skip(1).for_each(|xid| *xid = 0)
            }
            _ => after.xids[place + 1..].fill(0),
        }
        if self.errs(JoinsInLastPlace) {
            after.xids.swap(place, ROOM - 1);
        }
        after.count = match *self {
            Ledger(SendCountKept) => ledger.count,
            Ledger(SendCountTwo) => count as u32 + 2,
            _ => count as u32 + 1,
        };
        after.last = match *self {
            Ledger(LastKept) => ledger.last,
            Ledger(LastOneMore) => xid.wrapping_add(1),
            Ledger(LastFirstTried) => ledger.last.wrapping_add(1),
            _ => xid,
        };
        after.grant = match *self {
            Ledger(SendTakesGrant) => ledger.grant - 1,
            Ledger(SendClampsGrant) => ledger.grant.min(32),
            _ => ledger.grant,
        };
        let passed = self.reported(ledger, count, xid, self.passed(ledger, count, xid));
        if self.errs(PassedLeftBehind) {
            after.xids[ROOM - 1] = passed;
        }
        let answered = match *self {
            Ledger(AnswersLast) => ledger.last,
            Ledger(AnswersNext) => xid.wrapping_add(1),
            Ledger(AnswersPlace) => place as u32,
            Ledger(Answers0) => 0,
            _ => xid,
        };
        let answer = match *self {
            Ledger(ReportsExchanged) => SendAnswer { number: 0, xid: passed, passed: xid },
            _ => SendAnswer { number: 0, xid: answered, passed },
        };
        Ok((answer, after))
    }

    /// The place of the call that is answered.
    fn leaving(&self, ledger: &ffi::Ledger, count: usize, xid: u32) -> Option<usize> {
        let places = match *self {
            Ledger(BehindTaken) => 0..ROOM,
            Ledger(OneBehindTaken) => 0..ROOM.min(count + 1),
            Ledger(OnlyFirstAnswered) => 0..count.min(1),
            Ledger(OnlyNewestAnswered) => count.saturating_sub(1)..count,
            Ledger(ReplyWithoutFirst) => count.min(1)..count,
            Ledger(ReplyWithoutLast) => 0..count.saturating_sub(1),
            Ledger(Xid0Unknown) if xid == 0 => 0..0,
            Ledger(AboveLastUnknown) if xid > ledger.last => 0..0,
            Ledger(AboveGrantUnknown) if count as u32 > ledger.grant => 0..0,
            Ledger(XidAsPlace) if (xid as usize) < count => return Some(xid as usize),
            _ => 0..count,
        };
        let found = places.into_iter().find(|&place| match *self {
            Ledger(XidIn16Bits) => ledger.xids[place] as u16 == xid as u16,
            Ledger(XidByLastByte) => ledger.xids[place] as u8 == xid as u8,
            _ => ledger.xids[place] == xid,
        });
        match *self {
            Ledger(UnknownTakesFirst) if count > 0 => found.or(Some(0)),
            _ => found,
        }
    }

    fn granted(&self, ledger: &ffi::Ledger, count: usize, grant: u32) -> u32 {
        match *self {
            Ledger(Grant0As1) => grant.max(1),
            Ledger(Grant0Keeps) if grant == 0 => ledger.grant,
            Ledger(GrantClamped) => grant.min(32),
            Ledger(GrantAdded) => ledger.grant.wrapping_add(grant),
            Ledger(GrantOneMore) => ledger.grant.wrapping_add(1),
            Ledger(GrantKept) => ledger.grant,
            Ledger(GrantRaisedOnly) => grant.max(ledger.grant),
            Ledger(GrantLoweredOnly) => grant.min(ledger.grant),
            Ledger(GrantSetIn16Bits) => grant & 0xffff,
            Ledger(GrantSetByLastByte) => grant & 0xff,
            Ledger(GrantSetBelow2To31) => grant & 0x7fff_ffff,
            Ledger(GrantAtLeastInFlight) => grant.max(count as u32 - 1),
            _ => grant,
        }
    }

    /// Those in flight without the one at a place.
    fn left(&self, ledger: &ffi::Ledger, count: usize, place: usize, grant: u32) -> Vec<u32> {
        let mut left = ledger.xids[..count.max(place + 1)].to_vec();
        match *self {
            Ledger(NewestFillsGap) => drop(left.swap_remove(place)),
            Ledger(OldestFillsGap) => {
                left.swap(0, place);
                left.remove(0);
            }
            Ledger(GapLeftOpen) => {
                left[place] = 0;
                left.pop();
            }
            Ledger(GapOneClosed) => {
                left[place] = left.get(place + 1).copied().unwrap_or(0);
                left.pop();
            }
            Ledger(RestReversed) => {
                left.remove(place);
                left[place..].reverse();
            }
            Ledger(FirstLeaves) => drop(left.remove(0)),
            Ledger(NewestLeaves) => drop(left.pop()),
            Ledger(AllBeforeLeave) => drop(left.drain(..=place)),
            Ledger(AllLeave) => left.clear(),
            _ => drop(left.remove(place)),
        }
        match *self {
            Ledger(LowerGrantTakesNewestBack) => left.truncate(grant as usize),
            Ledger(LowerGrantTakesOldestBack) => {
                drop(left.drain(..left.len().saturating_sub(grant as usize)))
            }
            Ledger(LeftSorted) => left.sort(),
            Ledger(ZerosLeave) => left.retain(|xid| *xid != 0),
            _ => {}
        }
        left
    }

    /// The ledger afterwards, or the number.
    fn reply(&self, ledger: &ffi::Ledger, xid: u32, grant: u32) -> Result<ffi::Ledger, u32> {
        let looked = ROOM.min(ledger.count as usize);
        let unknown = !ledger.xids[..looked].contains(&xid);
        let countable = ledger.count <= 32 && ledger.grant > 0;
        match *self {
            Ledger(TwentyFiveBefore17) if grant == 0 => return Err(25),
            Ledger(TwentyFiveBeforeTwice) if grant == 0 && countable => return Err(25),
            Ledger(LedgersGrant0As25) if ledger.grant == 0 && ledger.count <= 32 => return Err(25),
            Ledger(TwentyFourBefore17) if unknown && grant > 0 => return Err(24),
            Ledger(TwentyFourBeforeTwice) if unknown && grant > 0 && countable => return Err(24),
            _ => {}
        }
        let count = self.judged(ledger, false)?;
        let (place, in_flight) = (self.leaving(ledger, count, xid), count as u32);
        match *self {
            Ledger(TwentyFourBefore25) if place.is_none() => return Err(24),
            Ledger(Grant0OfReplyTaken | Grant0As1 | Grant0Keeps) => {}
            Ledger(GrantAbove32As25) if grant > 32 => return Err(25),
            Ledger(GrantBelowInFlightAs25) if place.is_some() && grant < in_flight - 1 => return Err(25),
            Ledger(LowerGrantAs25) if place.is_some() && grant < ledger.grant => return Err(25),
            Ledger(AboveGrantAs23) if grant > 0 && in_flight > ledger.grant => return Err(23),
            _ if grant == 0 => return Err(25),
            _ => {}
        }
        let taken = match *self {
            Ledger(UnknownTaken) => true,
            Ledger(UnknownLastTaken) => xid == ledger.last,
            _ => false,
        };
        let Some(place) = place else {
            return if taken { Ok(ffi::Ledger { grant, ..*ledger }) } else { Err(24) };
        };
        let grant = self.granted(ledger, count, grant);
        let left = self.left(ledger, count, place, grant);
        let mut after = ffi::Ledger { grant, count: left.len() as u32, ..*ledger };
        after.xids[..left.len()].copy_from_slice(&left);
        let behind = &mut after.xids[left.len()..];
        match *self {
            Ledger(ReplyKeepsFreed) => behind[1..].fill(0),
            Ledger(ReplyKeepsBehind) => behind[0] = 0,
            Ledger(ReplyKeepsLastPlace) => behind.iter_mut().rev().skip(1).for_each(|xid| *xid = 0),
            _ => behind.fill(0),
        }
        match *self {
            Ledger(ReplyCountKept) => after.count = ledger.count,
            Ledger(LastSetToAnswered) => after.last = xid,
            Ledger(LastTakenBack) if xid == ledger.last => after.last = xid.wrapping_sub(1),
            Ledger(LastOfThoseLeft) => after.last = left.last().copied().unwrap_or(ledger.last),
            Ledger(LastResetWhenEmpty) if left.is_empty() => after.last = 0,
            _ => {}
        }
        Ok(after)
    }

    /// What a refused send hands out, and what it leaves.
    fn refused_send(&self, ledger: &mut ffi::Ledger, number: u32) -> SendAnswer {
        let (count, mut xid) = (ROOM.min(ledger.count as usize), 0);
        let run = self.run_from(&ledger.xids[..count], ledger.last.wrapping_add(1));
        let (overfull, grant0) = (ledger.count > 32, ledger.grant == 0);
        let passed = match (*self, number) {
            (Ledger(RefusedReportsNumber), _) => number,
            (Ledger(RefusedReportsRun), 23) => run,
            (Ledger(RefusedAtGrantReportsRun), 23) if count < ROOM => run,
            (Ledger(RefusedOfRoomReportsRun), 23) if count == ROOM => run,
            (Ledger(RefusedReportsInFlight), 23) => count as u32,
            (Ledger(RefusedReports1), 23) => 1,
            (Ledger(RefusedReportsLargest), 23) => MAX,
            (Ledger(Refused17ReportsRun), 17) => run,
            (Ledger(Grant0ReportsRun), 17) if grant0 => run,
            (Ledger(OneTwiceReportsRun), 17) if !grant0 && !overfull => run,
            (Ledger(OverfullReportsRun), 17) if overfull => run,
            (Ledger(Refused17ReportsInFlight), 17) => ledger.count,
            (Ledger(Refused17Reports1), 17) => 1,
            _ => 0,
        };
        match (*self, number) {
            (Ledger(RefusedGivesXid), 23) => xid = ledger.last.wrapping_add(1),
            (Ledger(RefusedGivesLast), 23) => xid = ledger.last,
            (Ledger(Refused17GivesXid), 17) => xid = ledger.last.wrapping_add(1),
            (Ledger(RefusedTakesLast), 23) => ledger.last = ledger.last.wrapping_add(1),
            (Ledger(RefusedClears), 23) => ledger.xids[count..].fill(0),
            (Ledger(Refused17Clears), 17) => ledger.xids[count..].fill(0),
            (Ledger(Refused17MendsCount), 17) => ledger.count = count as u32,
            (Ledger(Refused17MendsGrant), 17) => ledger.grant = ledger.grant.max(1),
            (Ledger(Refused17Reopens), 17) => {
                *ledger = ffi::Ledger { grant: 1, last: ledger.last, ..ffi::Ledger::ZERO }
            }
            (Ledger(RefusedSendStoresBehind), _) => store_behind(ledger, number),
            _ => {}
        }
        let number = match (*self, number) {
            (Ledger(SeventeenAs20), 17) => 20,
            (Ledger(TwentyThreeAs24), 23) => 24,
            _ => number,
        };
        SendAnswer { number, xid, passed }
    }

    fn refused_reply(&self, ledger: &mut ffi::Ledger, xid: u32, grant: u32, number: u32) -> u32 {
        let count = ROOM.min(ledger.count as usize);
        match (*self, number) {
            (Ledger(UnknownSetsGrant), 24) => ledger.grant = grant,
            (Ledger(UnknownClears), 24) => ledger.xids[count..].fill(0),
            (Ledger(Grant0Clears), 25) => ledger.xids[count..].fill(0),
            (Ledger(Grant0Set), 25) => ledger.grant = 0,
            (Ledger(Grant0Leaves), 25) => {
                let kept = ledger.grant;
                if let Ok(after) = self.reply(ledger, xid, 1) {
                    *ledger = ffi::Ledger { grant: kept, ..after };
                }
            }
            (Ledger(Refused17SetsGrant), 17) => ledger.grant = grant,
            (Ledger(Refused17ReplyClears), 17) => ledger.xids[count..].fill(0),
            (Ledger(RefusedReplyStoresBehind), _) => store_behind(ledger, number),
            _ => {}
        }
        match (*self, number) {
            (Ledger(SeventeenAs20), 17) => 20,
            (Ledger(UnknownAs17), 24) => 17,
            (Ledger(Grant0As20), 25) => 20,
            _ => number,
        }
    }
}

impl LedgerCalls for Wrong {
    fn ledger_open(&self, last: u32, ledger: &mut ffi::Ledger) -> u32 {
        let before = *ledger;
        *ledger = ffi::Ledger { grant: 1, last, ..ffi::Ledger::ZERO };
        match *self {
            Ledger(OpenGrant0) => ledger.grant = 0,
            Ledger(OpenGrant32) => ledger.grant = 32,
            Ledger(OpenGrantKept) => ledger.grant = before.grant,
            Ledger(OpenCountKept) => ledger.count = before.count,
            Ledger(OpenOneInFlight) => (ledger.xids[0], ledger.count) = (last, 1),
            Ledger(OpenPlacesKept) => ledger.xids = before.xids,
            Ledger(OpenLastPlaceKept) => ledger.xids[ROOM - 1] = before.xids[ROOM - 1],
            Ledger(OpenLastOneMore) => ledger.last = last.wrapping_add(1),
            Ledger(OpenLastOneLess) => ledger.last = last.wrapping_sub(1),
            Ledger(OpenLastKept) => ledger.last = before.last,
            Ledger(OpenLast0) => ledger.last = 0,
            Ledger(OpenLastInPlace) => ledger.xids[0] = last,
            Ledger(OpenStoresBehind) => store_behind(ledger, last),
            Ledger(OpenLargestRefused) if last == MAX => return 20,
            Ledger(Open0Refused) if last == 0 => return 20,
            _ => {}
        }
        0
    }

    fn ledger_send(&self, ledger: &mut ffi::Ledger) -> SendAnswer {
        match self.send(ledger) {
            Ok((answer, after)) => {
                *ledger = after;
                if self.errs(SendStoresBehind) {
                    store_behind(ledger, answer.xid);
                }
                answer
            }
            Err(number) => self.refused_send(ledger, number),
        }
    }

    fn ledger_reply(&self, ledger: &mut ffi::Ledger, xid: u32, grant: u32) -> u32 {
        match self.reply(ledger, xid, grant) {
            Ok(after) => {
                *ledger = after;
                if self.errs(ReplyStoresBehind) {
                    store_behind(ledger, grant);
                }
                0
            }
            Err(number) => self.refused_reply(ledger, xid, grant, number),
        }
    }
}

#[test]
fn each_is_found() {
    for &mistake in MISTAKES {
        is_found(Ledger(mistake), 5, |check| families::run(check, &mut Rng(5), 2_000));
    }
}

/// From the first named to the last.
fn those(first: Mistake, last: Mistake) -> Vec<Mistake> {
    MISTAKES[first as usize..=last as usize].to_vec()
}

fn all_but(unseen: &[Mistake]) -> Vec<Mistake> {
    MISTAKES.iter().copied().filter(|mistake| !unseen.contains(mistake)).collect()
}

/// Each group of families alone: in a run the cases by hand find the fault before it.
#[test]
fn each_group_can_fail() {
    type Group = fn(&mut Checker<Wrong>, &mut Rng) -> Outcome;
    let openings = those(OpenGrant0, OpenStoresBehind);
    let twice = those(TwiceUnchecked, RisingRequired);
    let before_twice = [TwentyThreeBeforeTwice, TwentyFourBeforeTwice, TwentyFiveBeforeTwice];
    let sending = [those(LastNotInFlightRefused, Xid0Refused), those(Saturates, Answers0)].concat();
    let unseen_by_runs =
        [SendClampsGrant, PassingIn16Bits, RunIn16Bits, RunOnlyWithinRoom, RunStopsAt2To31, RunWrapsAt2To16];
    let passed = those(RunFromLast, PassedLeftBehind);
    let of_31 = [ReportsAtMost30, Reports31As0];
    let passed_by_lives = passed.iter().copied().filter(|mistake| !of_31.contains(mistake)).collect();
    let halves = [RunStopsAt2To31, RunWrapsAt2To16];
    let largest = [RunStopsAtWrap, RunStopsBeforeLargest, RunWrapsTo1, RunSaturates, RunWithoutLargest];
    let groups: [(Group, Vec<Mistake>); 12] = [
        (|check, rng| families::by_hand(check, rng), MISTAKES.to_vec()),
        (|check, rng| families::openings(check, rng, 2_000), openings.clone()),
        (
            |check, rng| families::counts(check, rng),
            all_but(
                &[
                    &openings[..],
                    &twice,
                    &before_twice,
                    &[LargestNeverGiven, PassedAtMost30, PassingSaturates, PassingWrapsTo1, PassingIn16Bits],
                    &largest,
                    &halves,
                    &of_31,
                    &[ReportsOneLessOf31, OneTwiceReportsRun],
                ]
                .concat(),
            ),
        ),
        (
            |check, rng| families::pairs(check, rng),
            [&twice[..], &before_twice, &[OneTwiceReportsRun]].concat(),
        ),
        (
            |check, rng| families::leavings(check, rng),
            [
                those(UnknownTaken, ReplyWithoutLast),
                those(XidByLastByte, XidAsPlace),
                those(GrantAbove32As25, ReplyStoresBehind),
                vec![UnknownSetsGrant, UnknownClears, RefusedReplyStoresBehind],
            ]
            .concat(),
        ),
        (
            |check, rng| families::runs(check, rng),
            sending.into_iter().filter(|mistake| !unseen_by_runs.contains(mistake)).collect(),
        ),
        (
            |check, rng| families::stretches(check, rng, 2_000),
            [&passed[..], &those(RefusedReportsNumber, Refused17Reports1)].concat(),
        ),
        (
            |check, rng| families::conditions(check, rng),
            [
                those(Grant0Taken, AboveGrantRefused),
                those(TwentyThreeBefore17, SignedGrant),
                those(Refused17GivesXid, Refused17Reports1),
                those(Grant0OfReplyTaken, GrantLoweredOnly),
                those(UnknownSetsGrant, RefusedReplyStoresBehind),
            ]
            .concat(),
        ),
        (
            |check, rng| families::damage(check, rng, 2_000),
            all_but(&[&openings[..], &[PassingWrapsTo1], &halves].concat()),
        ),
        (
            |check, rng| families::random(check, rng, 2_000),
            all_but(&[&openings[..], &[CountIn16Bits, TwiceOf31, RisingRoundWrap], &halves].concat()),
        ),
        (
            |check, _| families::short_lives(check),
            [
                those(OpenGrant0, OpenLargestRefused),
                those(LastNotInFlightRefused, LastNotNewestRefused),
                those(AboveGrantOnly, AtGrantOnly),
                those(Saturates, StartsBehindGreatest),
                those(SendCountKept, LastOneMore),
                those(AnswersLast, RefusedTakesLast),
                those(RunFromLast, RunBeforeLast),
                vec![RunAfterSend, ReportsGivenToo, Reports1, ReportsInFlight, ReportsInFlightAfter],
                vec![RefusedReportsNumber, RefusedReportsInFlight, RefusedReports1, RefusedReportsLargest],
                those(UnknownTaken, UnknownTakesFirst),
                those(Grant0OfReplyTaken, GrantLoweredOnly),
                those(LowerGrantTakesNewestBack, NewestFillsGap),
                those(GapLeftOpen, AllLeave),
                those(ReplyCountKept, ReplyStoresBehind),
                vec![UnknownSetsGrant, Grant0Set, Grant0Leaves],
            ]
            .concat(),
        ),
        (
            |check, rng| families::lives(check, rng, 2_000),
            [
                those(OpenGrant0, OpenLastInPlace),
                those(AboveGrantOnly, PassedByCount),
                passed_by_lives,
                those(JoinsInFront, Answers0),
                those(RefusedReportsNumber, RefusedReportsLargest),
                those(UnknownTaken, Grant0Leaves),
            ]
            .concat(),
        ),
    ];
    for (at, (run, found)) in groups.into_iter().enumerate() {
        for mistake in found {
            let outcome = run(&mut Checker::new(Ledger(mistake), 8), &mut Rng(8));
            assert!(outcome.is_err(), "group {at} does not find {mistake:?}");
        }
    }
}

/// Each named case alone finds what it is there for.
#[test]
fn named_cases_find() {
    let sends: [(&str, &[Mistake]); 26] = [
        ("first", &[LastKept, SendCountKept, NotJoined, SendKeepsBehind, NoneInFlightRefused, Reports1]),
        ("the largest xid", &[LargestNeverGiven]),
        ("wrapping to 0", &[Saturates, WrapsTo1, WrapAs23, WrapAs17]),
        ("the last not in flight", &[StartsAtLast, StartsBehindNewest, LastNotInFlightRefused]),
        ("behind the last and not the greatest", &[StartsBehindGreatest, JoinsSorted]),
        ("behind the last and not the newest", &[StartsBehindNewest, LastNotNewestRefused]),
        (
            "the next in flight",
            &[NotPassedOver, NextInFlightRefused, LastFirstTried, PassedAs23, PassedInTwos],
        ),
        (
            "two passed over",
            &[
                PassedOnce,
                PassingWithoutLast,
                RunLooksBehind,
                RunLooksOneBehind,
                RunWithoutFirst,
                RunWithoutNewest,
                ReportsGivenToo,
                ReportsGivenTooBehindRun,
                ReportsOneLess,
                ReportsAtMost1,
                ReportsTwofold,
                ReportsOthers,
                ReportsExchanged,
            ],
        ),
        ("two passed over, turned round", &[PassedInListOrder, RisingRequired]),
        ("a run that is broken", &[PassedByCount, PassedBeyondGreatest]),
        ("31 passed over", &[PassedAtMost16, PassedAtMost30]),
        ("the largest passed over", &[PassingSaturates, PassingWrapsTo1]),
        ("a run broken at 0", &[PassingWrapsTo1]),
        ("at the grant", &[AboveGrantOnly, RefusedGivesXid, RefusedClears, RefusedTakesLast]),
        ("above the grant", &[AtGrantOnly, AboveGrantRefused]),
        ("the 32nd", &[RoomOf31, OneBelowGrant]),
        ("32 in flight below a grant of 40", &[RoomIgnored, RoomAs17, Count32Refused]),
        ("a grant of 2^31", &[SignedGrant, GrantAbove32As23]),
        ("more in flight than the low byte of the grant", &[GrantByLastByte]),
        ("a ledger of grant 0", &[Grant0Taken, SendGrant0Taken, Refused17MendsGrant]),
        ("one twice, apart", &[TwiceByNeighbours, RisingByFirstTwo]),
        ("one twice, at the grant", &[TwentyThreeBeforeTwice, TwentyThreeBefore17]),
        ("one twice, within", &[RisingNotStrictly, RisingByEnds, TwiceOfFirst, TwiceOfLast]),
        ("one twice, once round all xids", &[RisingRoundWrap]),
        ("0 twice", &[Twice0Taken]),
        ("first and 32nd the same", &[TwiceWithoutFirst, TwiceWithoutLast, TwiceOf31]),
    ];
    let passing: [(&str, &[Mistake]); 28] = [
        (
            "a run behind a last in flight",
            &[RunFromLast, RunThroughLast, RunAroundLast, RunOnlyBehindAnswered, ReportsFromNewest],
        ),
        (
            "a run behind a last answered",
            &[RunFromLast, RunBeforeLast, RunFromTwoBehind, RunOnlyBehindInFlight],
        ),
        ("a run up to the last", &[RunFromLast, RunAroundLast, RunBeforeLast, RunFromLeast]),
        ("a run up to a last answered", &[RunBeforeLast, RunFromOldest, RunLongest]),
        ("a run behind the newest", &[RunFromNewest]),
        ("a run behind the oldest", &[RunFromOldest]),
        ("a run from 0 on", &[RunFrom0]),
        ("a run up to the largest", &[RunFromGreatest]),
        ("a longer run behind a gap", &[RunFromGiven, RunAfterSend, RunOverOneGap, RunLongest]),
        ("a shorter run behind a gap", &[RunLastStretch, ReportsInFlight, ReportsInFlightIfAny]),
        ("a gap of two", &[RunOfAllNear, RunOfAllGreater]),
        ("the 31st of 32 free", &[ReportsOneMoreOf31, ReportsOneLessOf31, RunOfAllNear, RunAfterSend]),
        ("equal low halves in a run", &[RunIn16Bits]),
        ("16 in flight passed over", &[ReportsAtMost15, ReportsIn4Bits, ReportsBelowInFlight]),
        ("17 in flight passed over", &[ReportsAtMost16, ReportsBelowInFlight]),
        ("31 in flight passed over, mixed", &[ReportsAtMost30, Reports31As0, ReportsOneMoreOf31]),
        ("31 in flight passed over, grant 33", &[RunOnlyWithinRoom, PassedLeftBehind]),
        ("five passed over, mixed", &[RunInListOrder, RunByRounds, RunOnlyRising, ReportsPlace]),
        ("others between those of a run", &[RunByFirstPlaces, RunByNeighbours, ReportsPlace]),
        (
            "a wrapping run, mixed",
            &[RunStopsAtWrap, RunStopsBeforeLargest, RunStopsBehind0, RunWithout0, ReportsSaturated],
        ),
        ("a wrapping run, 0 free", &[RunWrapsTo1, RunSaturates, RunWithoutLargest, ReportsDifference]),
        ("a run behind the largest, broken", &[RunNotBehindLargest]),
        ("a run across 2^31", &[RunStopsAt2To31]),
        ("a run across 2^16", &[RunWrapsAt2To16]),
        (
            "at the grant before a run",
            &[RefusedReportsRun, RefusedAtGrantReportsRun, RefusedReportsInFlight, RefusedReportsNumber],
        ),
        ("a run of 32 below a grant of 40", &[RefusedOfRoomReportsRun, RefusedReportsLargest]),
        ("a ledger of grant 0 before a run", &[Refused17ReportsRun, Grant0ReportsRun, RefusedReportsNumber]),
        ("one twice before a run", &[OneTwiceReportsRun, Refused17ReportsInFlight]),
    ];
    let replies: [(&str, &[Mistake]); 21] = [
        ("the only one", &[ReplyKeepsFreed, LastTakenBack, LastResetWhenEmpty]),
        ("the second of five", &[NewestFillsGap, GapLeftOpen, GapOneClosed, RestReversed]),
        ("the second of three", &[FirstLeaves, NewestLeaves, AllBeforeLeave, OnlyFirstAnswered]),
        ("the 17th of 32", &[OldestFillsGap, OnlyNewestAnswered]),
        ("the last of 32", &[ReplyWithoutLast, OnlyFirstAnswered]),
        ("xids in any order", &[LeftSorted, RisingRequired]),
        ("0", &[Xid0Unknown]),
        ("0 stays between others", &[ZerosLeave, Xid0Refused]),
        ("one above the last", &[AboveLastUnknown, AboveLastRefused]),
        ("a grant of 40", &[GrantClamped, GrantAbove32As25, GrantAdded, GrantKept, GrantLoweredOnly]),
        ("a lower grant", &[GrantRaisedOnly, LowerGrantAs25]),
        (
            "a grant lower than in flight",
            &[LowerGrantTakesNewestBack, LowerGrantTakesOldestBack, GrantAtLeastInFlight],
        ),
        ("more in flight than the grant", &[AboveGrantUnknown, AboveGrantAs23, AboveGrantRefused]),
        ("none in flight, 0 answered", &[BehindTaken, OneBehindTaken, UnknownTaken]),
        ("not in flight, higher grant", &[UnknownSetsGrant, UnknownTakesFirst, UnknownClears]),
        ("a place and no xid", &[XidAsPlace]),
        ("grant 0", &[Grant0OfReplyTaken, Grant0As1, Grant0Keeps, Grant0Leaves, Grant0Set, Grant0Clears]),
        ("grant 0, not in flight", &[TwentyFourBefore25]),
        ("a ledger of grant 0, grant 0, not in flight", &[TwentyFiveBefore17, LedgersGrant0As25]),
        ("a ledger of grant 0, not in flight", &[TwentyFourBefore17, Refused17SetsGrant]),
        ("one twice, not in flight", &[TwentyFourBeforeTwice, ReplyTwiceUnchecked]),
    ];
    let of_sends = sends.into_iter().map(|found| (families::sends(), found));
    let of_passing = passing.into_iter().map(|found| (families::passing(), found));
    let of_replies = replies.into_iter().map(|found| (families::replies(), found));
    for (cases, (name, mistakes)) in of_sends.chain(of_passing).chain(of_replies) {
        let case = cases.iter().find(|case| case.name == name).expect(name);
        mistakes.iter().for_each(|&mistake| can_fail(Ledger(mistake), |check| case.run(check, &mut Rng(1))));
    }
}

/// Each wrong count of xids passed over is told by one of them.
fn before_runs() -> Vec<ffi::Ledger> {
    vec![
        families::flat(&[7, 8, 6, 10], 40, 7),
        families::flat(&[11, 9, 8, 0x1_000a], 5, 7),
        families::flat(&[0, MAX, 2, 1, 4], 6, MAX - 1),
        families::flat(&[MAX, 1], 3, MAX - 1),
        families::flat(&[0], 2, MAX),
        families::flat(&[0x8000_0000, 0x7fff_ffff], 3, 0x7fff_fffe),
        families::flat(&[0xffff, 0x1_0000], 3, 0xfffe),
        families::flat(&families::rising(8, 31), 32, 7),
    ]
}

/// Of an opening, a send and a reply, taken and refused: the number, the xid, how many are passed over, each
/// part of the ledger and what lies behind it.
#[test]
fn each_check_of_an_operation_can_fail() {
    for mistake in those(OpenGrant0, OpenLastInPlace).into_iter().chain([OpenStoresBehind]) {
        can_fail(Ledger(mistake), |check| check.open(41));
    }
    let noisy = |in_flight: &[u32], grant| {
        let mut ledger = families::flat(in_flight, grant, 7);
        ledger.xids[in_flight.len()..].fill(9);
        ledger
    };
    let operate = |mistake, ledger: ffi::Ledger, operation| {
        can_fail(Ledger(mistake), |check| check.operate(&ledger, operation));
    };
    for mistake in those(JoinsInFront, Answers0) {
        let ledger = match mistake {
            LastFirstTried => noisy(&[8], 4),
            JoinsSorted => noisy(&[50, 60], 4),
            _ => noisy(&[5, 6, 7], 40),
        };
        operate(mistake, ledger, Operation::Send);
    }
    for mistake in those(RunFromLast, PassedLeftBehind) {
        can_fail(Ledger(mistake), |check| {
            let mut ledgers = before_runs().into_iter();
            ledgers.try_for_each(|ledger| check.operate(&ledger, Operation::Send))
        });
    }
    let run = noisy(&[5, 9, 8], 3);
    for mistake in those(RefusedReportsNumber, Refused17Reports1) {
        let ledger = match mistake {
            RefusedOfRoomReportsRun => families::flat(&families::rising(8, 32), 32, 7),
            Refused17ReportsRun | Grant0ReportsRun | Refused17ReportsInFlight | Refused17Reports1 => {
                ffi::Ledger { grant: 0, ..run }
            }
            OneTwiceReportsRun => noisy(&[8, 9, 8], 4),
            OverfullReportsRun => ffi::Ledger { count: 33, ..run },
            _ => run,
        };
        operate(mistake, ledger, Operation::Send);
    }
    for mistake in those(RefusedGivesXid, RefusedSendStoresBehind) {
        operate(mistake, noisy(&[5, 6, 7], 3), Operation::Send);
    }
    for mistake in those(Refused17GivesXid, Refused17Reopens) {
        operate(mistake, noisy(&[5, 6, 7], 0), Operation::Send);
    }
    let overfull = ffi::Ledger { count: 33, ..noisy(&[5, 6, 7], 40) };
    operate(Refused17MendsCount, overfull, Operation::Send);
    for mistake in those(LowerGrantTakesNewestBack, ReplyStoresBehind) {
        let (in_flight, xid): (&[u32], u32) = match mistake {
            LastTakenBack | LastResetWhenEmpty => (&[7], 7),
            _ => (&[5, 0, 4, 3, 9], 4),
        };
        operate(mistake, noisy(in_flight, 3), Operation::Reply { xid, grant: 1 });
    }
    for (mistake, xid, grant) in [
        (UnknownSetsGrant, 9, 5),
        (UnknownClears, 9, 5),
        (Grant0Clears, 5, 0),
        (Grant0Set, 5, 0),
        (Grant0Leaves, 5, 0),
        (RefusedReplyStoresBehind, 9, 5),
    ] {
        operate(mistake, noisy(&[5, 6, 7], 3), Operation::Reply { xid, grant });
    }
    for mistake in [Refused17SetsGrant, Refused17ReplyClears] {
        operate(mistake, noisy(&[5, 6, 7], 0), Operation::Reply { xid: 5, grant: 5 });
    }
}

/// The checks of histories alone: by hand, beside the reference, and beside the account.
#[test]
fn each_check_of_a_history_can_fail() {
    use Operation::{Reply, Send};
    let reply = |xid| Reply { xid, grant: 3 };
    let operations = [
        Send,
        Send,
        reply(8),
        Send,
        Send,
        Send,
        reply(2),
        Reply { xid: 10, grant: 0 },
        Reply { xid: 10, grant: 1 },
        reply(10),
        reply(11),
        reply(9),
    ];
    let answers = [8, 23, 0, 9, 10, 11, 24, 25, 0, 24, 0, 0];
    let sent = |xid| Sent { xid, passed: 0 };
    let answers = answers.map(|answer| if answer > 11 { Err(answer) } else { Ok(sent(answer)) });
    let worked = |check: &mut Checker<Wrong>| {
        check.worked_history(Start::Open(7), &operations, &answers, &families::flat(&[], 3, 11))
    };
    for mistake in [
        OpenGrant32,
        OpenLastOneMore,
        AboveGrantOnly,
        TwentyThreeAs24,
        RefusedGivesXid,
        AnswersNext,
        UnknownAs17,
        Grant0As20,
        AboveGrantAs23,
        LastSetToAnswered,
        ReplyKeepsFreed,
        GrantKept,
    ] {
        can_fail(Ledger(mistake), worked);
        can_fail(Ledger(mistake), |check| check.history(Start::Open(7), &operations));
    }
    // What the accepted operations and those in flight tell, whatever else is wrong.
    for mistake in [
        OpenGrant0,
        OpenCountKept,
        OpenOneInFlight,
        OpenStoresBehind,
        AboveGrantRefused,
        NoneInFlightRefused,
        JoinsInFront,
        JoinsInLastPlace,
        NotJoined,
        SendCountKept,
        SendCountTwo,
        SendStoresBehind,
        AnswersLast,
        AnswersNext,
        Answers0,
        RefusedTakesLast,
        RefusedSendStoresBehind,
        UnknownTaken,
        UnknownTakesFirst,
        LowerGrantTakesNewestBack,
        LowerGrantTakesOldestBack,
        NewestFillsGap,
        OldestFillsGap,
        GapLeftOpen,
        GapOneClosed,
        RestReversed,
        FirstLeaves,
        NewestLeaves,
        AllBeforeLeave,
        AllLeave,
        ReplyCountKept,
        ReplyStoresBehind,
        UnknownSetsGrant,
        Grant0Set,
        Grant0Leaves,
        RefusedReplyStoresBehind,
    ] {
        let five = [&[Send, Reply { xid: 8, grant: 6 }][..], &[Send; 5], &[reply(11)]].concat();
        can_fail(Ledger(mistake), |check| {
            check.accounted(Start::Open(7), &operations)?;
            check.accounted(Start::Open(7), &five)
        });
    }
    // From a ledger on that was not opened here.
    let given = Start::Given(families::flat(&[8, 10, 9], 5, 7));
    for mistake in [NotPassedOver, PassedOnce, PassingWithoutLast, NewestFillsGap, UnknownTakesFirst] {
        can_fail(Ledger(mistake), |check| check.accounted(given, &[Send, reply(8), reply(8)]));
    }
    // How many are passed over: each wrong count, and those of refused sends.
    for mistake in those(RunFromLast, PassedLeftBehind) {
        type History = fn(&mut Checker<Wrong>, Start, &[Operation]) -> Outcome;
        let histories: [History; 2] = [
            |check, start, operations| check.accounted(start, operations),
            |check, start, operations| check.history(start, operations),
        ];
        for history in histories {
            can_fail(Ledger(mistake), |check| {
                let mut starts = before_runs().into_iter().map(Start::Given);
                starts.try_for_each(|start| history(check, start, &[Send, Send]))
            });
        }
    }
    let worked = [Err(23), Ok(sent(0)), Ok(Sent { xid: 9, passed: 1 }), Err(23)];
    let operations = [Send, reply(9), Send, Send];
    let given = families::flat(&[8, 10, 9], 3, 7);
    let after = families::flat(&[8, 10, 9], 3, 9);
    for mistake in [Reports0, ReportsGivenToo, RunOverOneGap, RunAfterSend, ReportsInFlight]
        .into_iter()
        .chain(those(RefusedReportsNumber, RefusedAtGrantReportsRun))
        .chain(those(RefusedReportsInFlight, RefusedReportsLargest))
    {
        let start = Start::Given(given);
        can_fail(Ledger(mistake), |check| check.worked_history(start, &operations, &worked, &after));
        can_fail(Ledger(mistake), |check| check.history(start, &operations));
        can_fail(Ledger(mistake), |check| check.accounted(start, &operations));
    }
}
