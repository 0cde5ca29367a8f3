//! The plain controller, handed frames as the proved one is.

use crate::agree::Sent;
use crate::attributes::{Attributes, LONGEST_TEXT, SAMPLE_TEXT};
use crate::boards::Board;
use crate::slots::{Bus, Kind, Out, Slot};
use crate::windows::{Options, Windows, Words};
use crate::{plain, smbus};
use std::io;

/// Hands the frames in turn, so many times over and once more, and leaves what was sent at last to each, by its place.
#[inline(always)]
fn serve(
    mut on_frame: impl FnMut(&[u8], &mut Out),
    frames: &[Slot],
    rounds: u64,
    mut leave: impl FnMut(usize, &Out),
) {
    let mut out = Out::new();
    for _ in 0..rounds {
        for frame in frames {
            on_frame(frame.as_slice(), &mut out);
            std::hint::black_box(&out);
        }
    }
    for (place, frame) in frames.iter().enumerate() {
        on_frame(frame.as_slice(), &mut out);
        leave(place, &out);
    }
}

#[inline(always)]
fn serve_with<I: Windows, P: Windows>(
    kind: Kind,
    frames: &[Slot],
    rounds: u64,
    leave: impl FnMut(usize, &Out),
) {
    match kind.bus {
        Bus::Ipmb => {
            // Of the largest board it has the sensors.
            let mut board = match kind.board {
                Board::Sample | Board::LongText => plain::Board::sample(),
                Board::Of32 | Board::Largest => plain::Board::of_32(),
            };
            let mut port = plain::Port::<I>::new();
            let on_frame = |frame: &[u8], out: &mut Out| port.on_frame(&mut board, frame, out);
            serve(on_frame, frames, rounds, leave);
        }
        // Of any board it has the first three attributes.
        Bus::Smbus => {
            let mut attributes = Attributes::new(match kind.board {
                Board::Sample | Board::Of32 | Board::Largest => SAMPLE_TEXT,
                Board::LongText => LONGEST_TEXT,
            });
            let mut port = smbus::Port::<P>::new();
            let on_frame = |frame: &[u8], out: &mut Out| port.on_frame(&mut attributes, frame, out);
            serve(on_frame, frames, rounds, leave);
        }
    }
}

/// Leaves the first frame that was sent.
fn leave_first(replies: &mut [Slot]) -> impl FnMut(usize, &Out) {
    |place, out| replies[place] = out.sent().first().copied().unwrap_or(Slot::new(&[]))
}

/// A fresh controller whose windows are options. It leaves the first frame that it sent at last to each.
#[inline(never)]
pub fn by_options(kind: Kind, frames: &[Slot], rounds: u64, replies: &mut [Slot]) {
    let leave = leave_first(replies);
    serve_with::<Options<64, 32>, Options<32, 256>>(kind, frames, rounds, leave);
}

/// A fresh controller whose windows are one word and an array each. It leaves the same.
#[inline(never)]
pub fn by_words(kind: Kind, frames: &[Slot], rounds: u64, replies: &mut [Slot]) {
    let leave = leave_first(replies);
    serve_with::<Words<64, 32>, Words<32, 256>>(kind, frames, rounds, leave);
}

/// All that is sent to the frames, which are handed over twice.
fn sent_twice<I: Windows, P: Windows>(kind: Kind, frames: &[Slot]) -> io::Result<Vec<Sent>> {
    let mut sent = Vec::new();
    let leave = |_, out: &Out| sent.push(out.sent().to_vec());
    serve_with::<I, P>(kind, &[frames, frames].concat(), 0, leave);
    Ok(sent)
}

/// All that a fresh controller sends whose windows are options.
pub fn sent_by_options(kind: Kind, frames: &[Slot]) -> io::Result<Vec<Sent>> {
    sent_twice::<Options<64, 32>, Options<32, 256>>(kind, frames)
}

/// All that a fresh controller sends whose windows are one word and an array each.
pub fn sent_by_words(kind: Kind, frames: &[Slot]) -> io::Result<Vec<Sent>> {
    sent_twice::<Words<64, 32>, Words<32, 256>>(kind, frames)
}
