//! The original's regions.rs as far as the rows need it: steps, masks, queues and
//! the row functions verbatim, everything round them as inert stand-ins.
#![allow(dead_code)]

mod drain;
mod inert;

pub use drain::{Answer, Event, Moved, Planner, RowView};

use crate::Stop;
use crate::words::Words;
use inert::{
    AnswerSetsSought, Chain, Count, Counters, Meter, Narrower, ReadingClass, adjacency, extrema,
    founded, support, witnesses,
};

// `Step`, `learn`, `bit`, `sure`, `never`, the queues and their owners.
include!(concat!(env!("OUT_DIR"), "/core/regions.rs"));
// `mod thresholds`, the original file with its modules.
include!(concat!(env!("OUT_DIR"), "/core/modules.rs"));
