//! How long it is since a time.
use std::time::{Clock, Duration, Instant};

/// How long it is since then, where the clock tells both.
pub fn since<R: Clock>(rt: &R, start: Option<Instant>) -> Option<Duration> {
    match start {
        Some(start) => start.elapsed(rt).ok(),
        None => None,
    }
}
