//! The oracle's library: the original Rust of the threshold rows, taken verbatim
//! when this is built, with document 01's stand-ins and draining order around it.

// The original calls its algebra crate by this name; here both are one crate.
extern crate self as zetesis_algebra;

pub mod buffers;
pub mod cover;
pub mod job;
pub mod listing;
pub mod region;
pub mod regions;
mod standins;
mod theory;
pub mod words;

pub use standins::{Failure, Quota, Stop};
pub use theory::{NodeView, RawThreshold, Theory, Threshold};

// Document 01: the reference build has 32 bytes for this pair (4 visits a term).
const _: () = assert!(size_of::<(usize, i128)>() == 32);
