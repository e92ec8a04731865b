//! The calls of libeoswynnor.a for safe Rust: slices in, slices and `Result`s out. `Ok` is answer number 0; each call's
//! other numbers, and the order of its checks, are those of the C header.
//!
//! Borrowing keeps what the C header asks of a caller: slices are valid and never null, lent slices do not overlap, and
//! an [`Assembly`] holds its buffer and its state, and a [`Ledger`] its record, so that nobody else changes them between
//! two calls.
//!
//! The crate needs no `std`. With the feature `alloc` there are headers that hold their lists ([`Header`]); without it a
//! header is the struct of the C header, [`ffi::Header`], which has the same calls.

#![no_std]

#[cfg(all(feature = "link", feature = "alloc"))]
extern crate alloc;

pub mod ffi;

mod answer;
#[cfg(feature = "link")]
mod assembly;
#[cfg(feature = "link")]
mod header;
#[cfg(feature = "link")]
mod ledger;
mod limits;
#[cfg(all(feature = "link", feature = "alloc"))]
mod lists;
#[cfg(feature = "link")]
mod reply;
#[cfg(feature = "link")]
mod setup;

pub use {answer::Refusal, limits::*};

#[cfg(feature = "link")]
pub use {
    assembly::Assembly,
    header::{payload, ReadSegment, Segment},
    ledger::{Ledger, Sent},
    reply::{error_reply, grant},
    setup::{Agreement, Setup},
};

#[cfg(all(feature = "link", feature = "alloc"))]
pub use lists::{Header, Kind, Landed};

/// The version of this crate, which is that of the library and of the C header beside it.
pub const VERSION: &str = env!("CARGO_PKG_VERSION");
