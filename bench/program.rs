//! The controller as the program `bench_same` serves it, which `bench/compile-same` keeps.

use crate::agree::Sent;
use crate::slots::{Bus, Kind, Slot};
use std::fmt::Write;
use std::fs;
use std::io;
use std::process::Command;

const PROGRAM: &str = "out/bench_same";

/// The files that the program is handed.
const BOARD: &str = "out/same_board.toml";
const FRAMES: &str = "out/same_frames.txt";

/// The frames, each in hexadecimal digits on a line.
fn text_of(frames: &[Slot]) -> String {
    let mut text = String::new();
    for frame in frames {
        for byte in frame.as_slice() {
            write!(text, "{byte:02X}").expect("memory");
        }
        text.push('\n');
    }
    text
}

/// The frame of these digits.
fn frame_of(digits: &str) -> io::Result<Slot> {
    let bytes: Result<Vec<u8>, _> = (0..digits.len() / 2)
        .map(|place| u8::from_str_radix(&digits[2 * place..2 * place + 2], 16))
        .collect();
    Ok(Slot::new(&bytes.map_err(io::Error::other)?))
}

/// What the program sends to the frames, which are handed over twice, with its records in such a store.
fn sent_by(store: &str, kind: Kind, frames: &[Slot]) -> io::Result<Vec<Sent>> {
    let bus = match kind.bus {
        Bus::Ipmb => "ipmb",
        Bus::Smbus => "smbus",
    };
    fs::write(BOARD, kind.board.text())?;
    fs::write(FRAMES, text_of(&[frames, frames].concat()))?;
    let words = [store, bus, BOARD, FRAMES];
    let said = Command::new(PROGRAM).args(words).output()?;
    if !said.status.success() {
        let why = String::from_utf8_lossy(&said.stderr);
        return Err(io::Error::other(format!(
            "{PROGRAM} ended with {}: {why}",
            said.status
        )));
    }
    (String::from_utf8_lossy(&said.stdout).lines())
        .map(|line| {
            line.split(' ')
                .filter(|it| !it.is_empty())
                .map(frame_of)
                .collect()
        })
        .collect()
}

/// A controller as the programs have it: its board keeps its records in one image of bytes.
pub fn over_image(kind: Kind, frames: &[Slot]) -> io::Result<Vec<Sent>> {
    sent_by("packed", kind, frames)
}

/// A controller whose board has its records in a list of values.
pub fn over_list(kind: Kind, frames: &[Slot]) -> io::Result<Vec<Sent>> {
    sent_by("list", kind, frames)
}
