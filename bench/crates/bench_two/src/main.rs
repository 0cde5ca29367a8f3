//! The program `bench_two IPMB SMBUS TIMES ROUNDS`: two workers on one board, timed beside the same frames served one after another.
//!
//! IPMB and SMBUS are files, each a frame in hexadecimal digits on a line. In a round each port gets the frames of its file TIMES times over,
//! which may be 4,096 requests together. It prints how many events a round has, and how many nanoseconds it takes at the least of ROUNDS and
//! one more: by two workers at once (`two`), over frames in memory; by the same in one thread, one after the other
//! (`in-turn`); in a loop over both ports with a history and no lock (`held`); and in one with neither (`alone`). With 0 rounds it prints no
//! time.
#![tactic(auto)]

mod alone;
mod asked;
mod frames;
mod held;
mod measure;
mod since;
mod workers;

use asked::read_asked;
use measure::report;
use std::process::ExitCode;

fn main(rt: HostRuntime) -> ExitCode {
    match read_asked(&rt) {
        Some(asked) => report(&rt, &asked, &mut rt.stdout()),
        None => ExitCode::FAILURE,
    }
}
