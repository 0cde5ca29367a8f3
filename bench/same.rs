//! Compares what the controller sends with what one in plain Rust does, frame by frame: `bench/run same`.

mod agree;
mod attributes;
mod boards;
mod frames;
mod plain;
mod program;
#[allow(dead_code, reason = "bench/run uses more of it")]
mod serve;
mod slots;
mod smbus;
mod windows;

use agree::Controller;
use std::io;
use std::process::ExitCode;

/// How many frames that look random all controllers get, of each kind.
const RANDOM: usize = 2000;

/// The controller over both stores, and the plain ones.
const CONTROLLERS: [Controller; 4] = [
    ("the controller", program::over_image),
    ("the controller over a list", program::over_list),
    ("plain, windows as options", serve::sent_by_options),
    ("plain, windows as words", serve::sent_by_words),
];

fn run() -> io::Result<bool> {
    let (measured, refused) = (frames::works(), frames::refused_works());
    agree::all_agree(&CONTROLLERS, measured.iter().chain(&refused), RANDOM)
}

fn main() -> ExitCode {
    match run() {
        Ok(true) => {
            println!("the controllers send the same bytes");
            ExitCode::SUCCESS
        }
        Ok(false) => {
            eprintln!("bench: the controllers differ");
            ExitCode::FAILURE
        }
        Err(why) => {
            eprintln!("bench: {why}");
            ExitCode::FAILURE
        }
    }
}
