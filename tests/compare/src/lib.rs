//! A second implementation of the calls on headers, setup data, credits and error replies, the
//! reassembly, what replies say was landed and the ledger, and of the program `replay`, and the means to
//! compare. Each folder has a file for each of these subjects; the goes of pieces and the order of read
//! lists have cases and mistakes of their own.

pub mod calls;
pub mod cases;
pub mod check;
pub mod convert;
#[cfg(library)]
pub mod library;
pub mod plain;
pub mod program;
pub mod reference;
pub mod rng;
pub mod tally;
pub mod vectors;
pub mod words;

#[cfg(test)]
mod wrong;
