//! A controller whose board has its records in a list of values, as no program has it, behind a C function, for the measure of speed in
//! `bench/`.
#![tactic(auto)]

use bench_serve::serve::{file_of, serve};
use bench_serve::slot::Slot;
use bmc_board::Board;
use cfg_records::{BoardFile, PlainStore};
use std::alloc::{AllocError, Global};

/// The board of the file, over a list.
fn board_of(alloc: Global, file: BoardFile) -> Result<Board<PlainStore>, AllocError> {
    match PlainStore::of_file(alloc, &file) {
        Ok(store) => Board::open(alloc, file, store),
        Err(AllocError) => Err(AllocError),
    }
}

/// Hands the frames in turn, so many times over and once more, to a fresh controller, and leaves the first frame that it sent at last to
/// each. The bus is 0 for IPMB and 1 for the System Management Bus, and the board is the text of a board file. Returns whether that is one
/// and memory was given.
#[unsafe(no_mangle)]
pub extern "C" fn bench_list_serve(
    alloc: Global,
    bus: u8,
    board: &[u8],
    frames: &[Slot],
    rounds: u64,
    replies: &mut [Slot],
) -> bool {
    let Some(file) = file_of(alloc, board) else {
        return false;
    };
    match board_of(alloc, file) {
        Ok(board) => serve(alloc, bus, board, frames, rounds, replies).is_ok(),
        Err(_) => false,
    }
}
