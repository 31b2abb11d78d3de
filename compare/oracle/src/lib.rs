//! The oracle: the Rust source of the pairing, built unchanged, and its traced twin, with makers of problems
//! and the fixed list of answers.

pub mod brute;
pub mod certificate;
#[cfg(feature = "planted")]
pub mod choice;
pub mod climb;
pub mod coverage;
pub mod dictmap;
pub mod known;
pub mod list;
pub mod makers;
#[cfg(feature = "planted")]
pub mod planted;
pub mod problem;
pub mod random;
pub mod run;
pub mod sweep;
pub mod trace;

// as published: no formatter may touch it
#[rustfmt::skip]
#[allow(warnings)]
#[path = "../../../docs/src/rustworkx-core/src/max_weight_matching.rs"]
pub mod source;

#[allow(warnings)]
mod generated {
    include!(concat!(env!("OUT_DIR"), "/twin.rs"));
}
pub use generated::twin;
