//! Rounds, of which the fastest counts.
use crate::alone::time_alone;
use crate::asked::Asked;
use crate::held::time_held;
use crate::workers::{Run, Way, time_workers};
use std::alloc::Global;
use std::io;
use std::process::ExitCode;
use std::sync::Wait;
use std::thread::Threads;
use std::time::{Clock, Duration};

/// How long a round took in each way, at the least.
#[derive(Clone, Copy)]
struct Measured {
    /// Two workers, each in a thread of its own.
    two: Run,
    /// The same in one thread, one after the other.
    in_turn: Duration,
    /// With a history and no lock.
    held: Duration,
    /// With neither.
    alone: Duration,
}

impl Measured {
    /// The least of both, way by way.
    fn or_less(self, other: Measured) -> Measured {
        Measured {
            two: Run {
                events: self.two.events.min(other.two.events),
                took: self.two.took.min(other.two.took),
            },
            in_turn: self.in_turn.min(other.in_turn),
            held: self.held.min(other.held),
            alone: self.alone.min(other.alone),
        }
    }
}

/// A round in each way.
fn make_round<R: Threads + Wait + Clock + Sync>(
    rt: &R,
    alloc: Global,
    asked: &Asked,
) -> Option<Measured> {
    let two = time_workers(rt, alloc, asked, Way::Together)?;
    let in_turn = time_workers(rt, alloc, asked, Way::InTurn)?.took;
    let held = time_held(rt, alloc, asked)?;
    let alone = time_alone(rt, alloc, asked)?;
    Some(Measured {
        two,
        in_turn,
        held,
        alone,
    })
}

/// The least of all rounds, and of one more.
fn fastest<R: Threads + Wait + Clock + Sync>(
    rt: &R,
    alloc: Global,
    asked: &Asked,
) -> Option<Measured> {
    let mut least = make_round(rt, alloc, asked)?;
    for _ in 0..asked.rounds {
        least = least.or_less(make_round(rt, alloc, asked)?);
    }
    Some(least)
}

/// Writes how long a round took in the way of this name.
fn write_time<W: io::Write>(out: &mut W, way: &str, took: Duration) -> io::Result<()> {
    writeln!(out, "{way} {}", took.as_nanos())
}

/// Writes what the rounds came to, with their times where these are wanted.
fn write_report<W: io::Write>(out: &mut W, least: Measured, is_timed: bool) -> io::Result<()> {
    writeln!(out, "events {}", least.two.events)?;
    if is_timed {
        write_time(out, "two", least.two.took)?;
        write_time(out, "in-turn", least.in_turn)?;
        write_time(out, "held", least.held)?;
        write_time(out, "alone", least.alone)?;
    }
    Ok(())
}

/// Measures, and writes what came of it.
pub fn report<R: Threads + Wait + Clock + AllocGlobal + Sync, W: io::Write>(
    rt: &R,
    asked: &Asked,
    out: &mut W,
) -> ExitCode {
    let Some(least) = fastest(rt, rt.alloc(), asked) else {
        return ExitCode::FAILURE;
    };
    match write_report(out, least, asked.rounds > 0) {
        Ok(()) => ExitCode::SUCCESS,
        Err(_) => ExitCode::FAILURE,
    }
}
