//! The proved controllers, which `bench/crates/bench_port` and `bench/crates/bench_list` put into a static library each.

use crate::slots::{Bus, Kind, Slot};

/// Hands the frames in turn, so many times over and once more, to a fresh controller of the board, and leaves what it sent at last to each.
/// The parameter `alloc: Global` of the libraries' functions takes no bytes.
type ServeBoard = unsafe extern "C" fn(
    bus: u8,
    board: *const u8,
    board_length: usize,
    frames: *const Slot,
    frame_count: usize,
    rounds: u64,
    replies: *mut Slot,
    reply_count: usize,
) -> bool;

unsafe extern "C" {
    fn bench_port_serve(
        bus: u8,
        board: *const u8,
        board_length: usize,
        frames: *const Slot,
        frame_count: usize,
        rounds: u64,
        replies: *mut Slot,
        reply_count: usize,
    ) -> bool;

    fn bench_list_serve(
        bus: u8,
        board: *const u8,
        board_length: usize,
        frames: *const Slot,
        frame_count: usize,
        rounds: u64,
        replies: *mut Slot,
        reply_count: usize,
    ) -> bool;
}

fn serve_by(
    serve_board: ServeBoard,
    kind: Kind,
    frames: &[Slot],
    rounds: u64,
    replies: &mut [Slot],
) {
    let bus = match kind.bus {
        Bus::Ipmb => 0,
        Bus::Smbus => 1,
    };
    let board = kind.board.text();
    // SAFETY: the declarations fit the functions'; pointers and lengths are those of slices that are borrowed for the call.
    let done = unsafe {
        serve_board(
            bus,
            board.as_ptr(),
            board.len(),
            frames.as_ptr(),
            frames.len(),
            rounds,
            replies.as_mut_ptr(),
            replies.len(),
        )
    };
    assert!(done, "the board's file has a fault, or memory was refused");
}

/// A controller as the programs have it: its board keeps its records in one image of bytes.
pub fn serve(kind: Kind, frames: &[Slot], rounds: u64, replies: &mut [Slot]) {
    serve_by(bench_port_serve, kind, frames, rounds, replies);
}

/// A controller whose board has its records in a list of values.
pub fn over_list(kind: Kind, frames: &[Slot], rounds: u64, replies: &mut [Slot]) {
    serve_by(bench_list_serve, kind, frames, rounds, replies);
}
