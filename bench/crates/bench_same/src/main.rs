//! The program `bench_same STORE BUS BOARD FRAMES`: what a controller sends, for the comparison in `bench/`.
//!
//! STORE is `packed` or `list`, BUS is `ipmb` or `smbus`, BOARD is a board file, and FRAMES is a file with a frame in hexadecimal digits on each
//! line. A fresh controller at 20h (EID 0Ah) is handed the frames in turn. The program writes a line for each: the frames that were sent, in
//! hexadecimal digits, with a space between them.
#![tactic(auto)]

mod asked;
mod serve;

use asked::read_asked;
use serve::serve_asked;
use std::process::ExitCode;

fn main(rt: HostRuntime) -> ExitCode {
    let Some(asked) = read_asked(&rt) else {
        return ExitCode::FAILURE;
    };
    match serve_asked(rt.alloc(), asked, &mut rt.stdout()) {
        Some(()) => ExitCode::SUCCESS,
        None => ExitCode::FAILURE,
    }
}
