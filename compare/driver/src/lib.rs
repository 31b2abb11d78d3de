//! The driver: calls of liblotamife.a held against document 01 and the oracle.

pub mod call;
pub mod certificates;
pub mod entries;
pub mod expect;
pub mod library;
pub mod limits;
pub mod runs;
pub mod tally;
