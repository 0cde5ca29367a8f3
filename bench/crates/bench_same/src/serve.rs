//! A controller that is handed frames, and what it sends.
use crate::asked::{Asked, Kept};
use bmc_board::Board;
use bmc_core::{At, Out, Port};
use cfg_records::{PlainStore, Store};
use mctp_net::EndpointId;
use std::alloc::Global;
use std::io;
use two_wire::places::{CONTROLLER_EID, CONTROLLER_WIRE};
use two_wire::{Address, Bus};

/// Writes the frames that were sent in a line.
fn write_sent<W: io::Write>(alloc: Global, out: &Out, to: &mut W) -> Option<()> {
    let mut between = "";
    for frame in out.frames.as_slice() {
        let digits = hex::encode_upper(alloc, frame.as_slice()).ok()?;
        write!(to, "{between}{}", digits.as_str()).ok()?;
        between = " ";
    }
    writeln!(to).ok()
}

/// Hands the frame of each line to the port, and writes what it sent.
fn serve_lines<S: Store, W: io::Write>(
    alloc: Global,
    port: &mut Port,
    board: &mut Board<S>,
    frames: &str,
    to: &mut W,
) -> Option<()> {
    let mut out = Out::new();
    for line in frames.lines() {
        let frame = hex::decode(alloc, line).ok()?;
        port.on_frame(board, frame.as_slice(), &mut out);
        write_sent(alloc, &out, to)?;
    }
    Some(())
}

/// The controller's port on the bus, which has heard nothing yet.
fn open_port(alloc: Global, bus: Bus) -> Option<Port> {
    let at = At {
        wire: Address::new(CONTROLLER_WIRE).unwrap(),
        eid: EndpointId::new(CONTROLLER_EID).unwrap(),
    };
    Port::new(alloc, bus, at).ok()
}

/// Hands the frames to a fresh port of the board, and writes what it sent.
fn serve_board<S: Store, W: io::Write>(
    alloc: Global,
    mut board: Board<S>,
    bus: Bus,
    frames: &str,
    to: &mut W,
) -> Option<()> {
    let mut port = open_port(alloc, bus)?;
    serve_lines(alloc, &mut port, &mut board, frames, to)
}

/// Serves what is asked for.
pub fn serve_asked<W: io::Write>(alloc: Global, asked: Asked, to: &mut W) -> Option<()> {
    let Asked {
        kept,
        bus,
        board,
        frames,
    } = asked;
    match kept {
        Kept::Packed => {
            let board = Board::of_file(alloc, board).ok()?;
            serve_board(alloc, board, bus, frames.as_str(), to)
        }
        Kept::List => {
            let store = PlainStore::of_file(alloc, &board).ok()?;
            let board = Board::open(alloc, board, store).ok()?;
            serve_board(alloc, board, bus, frames.as_str(), to)
        }
    }
}
