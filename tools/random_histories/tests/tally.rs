//! How often what happened in the runs.
use super::expected::{events_of, parts_of, place_of, seat_at};
use super::sharing::Told;
use bmc_ports::{End, History, Link};
use std::process::Abort;

/// Counts of runs and of their events.
#[derive(Clone, Copy, Debug)]
pub(super) struct Tally {
    pub runs: u64,
    pub events: u64,
    pub first: u64,
    pub second: u64,
    pub scanner: u64,
    pub no_event: u64,
    pub full: u64,
    pub second_first: u64,
    pub first_first: u64,
    pub mixed: u64,
    pub set_in_parts: u64,
    pub later_parts: u64,
    pub own: u64,
}

/// How often an event is of another seat than the one before it.
fn changes(history: &History) -> u64 {
    let mut many = 0u64;
    for place in 1..history.len() {
        if seat_at(history, place - 1) != seat_at(history, place) {
            many = many.wrapping_add(1);
        }
    }
    many
}

/// How many seats have events.
fn seats(history: &History) -> u64 {
    let mut many = 0u64;
    for seat in 0..3u8 {
        if events_of(history, seat) > 0 {
            many = many.wrapping_add(1);
        }
    }
    many
}

impl Tally {
    /// No run was made.
    pub const NOTHING: Tally = Tally {
        runs: 0,
        events: 0,
        first: 0,
        second: 0,
        scanner: 0,
        no_event: 0,
        full: 0,
        second_first: 0,
        first_first: 0,
        mixed: 0,
        set_in_parts: 0,
        later_parts: 0,
        own: 0,
    };

    /// Counts a run.
    pub fn count(&mut self, told: &Told) {
        let history = &told.history;
        let first = events_of(history, 0);
        let second = events_of(history, 1);
        let heard = told.first.counts().heard + told.second.counts().heard;
        self.runs += 1;
        self.events += history.len() as u64;
        self.first += first;
        self.second += second;
        self.scanner += events_of(history, 2);
        self.no_event += heard.saturating_sub(first + second);
        self.full += u64::from(told.ends.contains(&End::Full));
        let places = (place_of(history, 0, 0), place_of(history, 1, 0));
        if let (Some(of_first), Some(of_second)) = places {
            self.second_first += u64::from(of_second < of_first);
            self.first_first += u64::from(of_first < of_second);
        }
        self.mixed += u64::from(changes(history) >= seats(history).max(1));
        let (sets, gets) = parts_of(history);
        self.set_in_parts += sets;
        self.later_parts += gets;
    }

    /// Adds what others counted.
    pub fn add(&mut self, other: &Tally) {
        self.runs += other.runs;
        self.events += other.events;
        self.first += other.first;
        self.second += other.second;
        self.scanner += other.scanner;
        self.no_event += other.no_event;
        self.full += other.full;
        self.second_first += other.second_first;
        self.first_first += other.first_first;
        self.mixed += other.mixed;
        self.set_in_parts += other.set_in_parts;
        self.later_parts += other.later_parts;
        self.own += other.own;
    }

    /// What is counted, how often it was shown, and how often a thousand runs show it at least.
    pub fn counts(&self) -> [(&'static str, u64, u64); 13] {
        [
            ("runs", self.runs, 1_000),
            ("events", self.events, 8_000),
            ("requests carried out at port 0", self.first, 3_000),
            ("requests carried out at port 1", self.second, 3_000),
            ("events of the scanner", self.scanner, 1_000),
            ("frames heard that made no event", self.no_event, 1_000),
            ("runs that ended full", self.full, 100),
            ("runs with port 1 before port 0", self.second_first, 80),
            ("runs with port 0 before port 1", self.first_first, 80),
            ("runs in which one seat came amid another's events", self.mixed, 100),
            ("Sets in parts that were carried out", self.set_in_parts, 60),
            ("later parts that were got", self.later_parts, 40),
            ("runs over ports of their own", self.own, 100),
        ]
    }
}

/// So many runs at least show each of what they are to show.
const ENOUGH: u64 = 1_000;

/// Each of what so many runs are to show was shown often enough.
pub(super) fn expect_often(rt: &impl Abort, tally: &Tally) {
    if tally.runs < ENOUGH {
        return;
    }
    for (name, count, least) in tally.counts() {
        assert!(rt; count >= tally.runs / ENOUGH * least, "{name}: {count}");
    }
}
