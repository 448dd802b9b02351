//! The edit relay in ordinary Rust: what the proved engine is measured against.
//!
//! It gives the answers of document 01 with the same checks and the same frames, over state that is changed in place. No part of it is proved;
//! `tests/check-peer` compares it with the model.

pub mod air_logs;
pub mod bodies;
pub mod bulletins;
pub mod by_value;
pub mod forecast;
pub mod frames;
pub mod group;
pub mod labels;
pub mod listing;
pub mod load;
pub mod measured;
pub mod merge;
pub mod questions;
pub mod queues;
pub mod recorded;
pub mod refusals;
pub mod script;
pub mod station;

mod hearing;
mod turns;
