//! A port and a board that are handed frames in a caller's memory, for the measure of speed in `bench/`.
#![tactic(auto)]

pub mod serve;
pub mod slot;
