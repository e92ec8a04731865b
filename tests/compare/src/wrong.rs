//! Wrong variants: the plain calls, or for the reassembly, its order, its goes, what was landed, the
//! ledger and the program `replay` third ones, with one mistake put in. The families must find each.

mod assembly;
mod goes;
mod header;
mod ledger;
mod order;
mod replay;
mod reply;
mod returned;
mod setup;

use crate::cases;
use crate::check::{Checker, Outcome};
use crate::rng::Rng;

/// A subject's mistakes, each under a name that says what is wrong.
macro_rules! mistakes {
    ($($name:ident)*) => {
        #[derive(Clone, Copy, Debug, PartialEq)]
        pub enum Mistake { $($name),* }
        const MISTAKES: &[Mistake] = &[$(Mistake::$name),*];
    };
}

use mistakes;

/// An implementation with one mistake, or with none.
#[derive(Clone, Copy, Debug, PartialEq)]
enum Wrong {
    Nowhere,
    Header(header::Mistake),
    Setup(setup::Mistake),
    Reply(reply::Mistake),
    Assembly(assembly::Mistake),
    /// Made by pieces alone.
    Piece(assembly::Mistake),
    /// Made by the asking for the message alone.
    Message(assembly::Mistake),
    Goes(goes::Mistake),
    Order(order::Mistake),
    /// Made by pieces alone.
    PieceOrder(order::Mistake),
    /// Made by the asking for the message alone.
    MessageOrder(order::Mistake),
    Returned(returned::Mistake),
    Ledger(ledger::Mistake),
    Replay(replay::Mistake),
}

/// Stores a word behind what was lent; the guard is there.
fn store_behind<T>(lent: &mut T, word: u32) {
    unsafe { std::ptr::from_mut(lent).add(1).cast::<u32>().write_unaligned(word) }
}

fn outcome(wrong: Wrong, seed: u64, run: impl Fn(&mut Checker<Wrong>) -> Outcome) -> Outcome {
    let mut check = Checker::new(wrong, seed);
    check.family("one check alone");
    run(&mut check)
}

#[track_caller]
fn is_found(wrong: Wrong, seed: u64, run: impl Fn(&mut Checker<Wrong>) -> Outcome) {
    assert!(outcome(wrong, seed, run).is_err(), "{wrong:?} went unseen");
}

/// A check that finds the mistake, and nothing without it.
#[track_caller]
fn can_fail(wrong: Wrong, run: impl Fn(&mut Checker<Wrong>) -> Outcome) {
    assert_eq!(outcome(Wrong::Nowhere, 1, &run), Ok(()), "{wrong:?}");
    is_found(wrong, 1, run);
}

/// With no mistake put in all agree, so each is found for what it is.
#[test]
fn without_a_mistake_all_agree() {
    let (mut check, rng) = (Checker::new(Wrong::Nowhere, 5), &mut Rng(5));
    cases::header::run(&mut check, rng, 2_000).unwrap();
    cases::setup::run(&mut check, rng, 2_000).unwrap();
    cases::reply::run(&mut check, rng, 2_000).unwrap();
    cases::assembly::run(&mut check, &mut Rng(6), 2_000).unwrap();
    cases::goes::run(&mut check, &mut Rng(6), 2_000).unwrap();
    cases::order::run(&mut check, &mut Rng(6), 2_000).unwrap();
    cases::returned::run(&mut check, rng, 2_000).unwrap();
    cases::ledger::run(&mut check, rng, 2_000).unwrap();
    cases::replay::lines(&mut check, rng, 2_000).unwrap();
}
