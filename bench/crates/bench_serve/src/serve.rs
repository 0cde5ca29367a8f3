//! Requests to a controller, over either bus.
ghost use Rattle.std.specs.Prelude.{◌≡◌};
ghost use Rattle.bmc_core.specs.Outs.{sent};
ghost use Rattle.bmc_core.specs.Port.{PortStep};
ghost use Rattle.bmc_board.specs.State.{state_of};
ghost use Rattle.bench_serve.specs.Serve.{frame_of, first};

use crate::slot::Slot;
use bmc_board::Board;
use bmc_core::{At, Out, Port};
use cfg_records::{BoardFile, Store};
use mctp_net::EndpointId;
use std::alloc::{AllocError, Global};
use text_board::read_board;
use two_wire::places::{CONTROLLER_EID, CONTROLLER_WIRE};
use two_wire::{Address, Bus};

/// The board of a file's text.
pub fn file_of(alloc: Global, text: &[u8]) -> Option<BoardFile> {
    match str::from_utf8(text) {
        Ok(text) => read_board(alloc, text).ok(),
        Err(_) => None,
    }
}

/// 1 is the System Management Bus, and any other number is IPMB.
fn bus_of(number: u8) -> Bus {
    match number {
        1 => Bus::Smbus,
        _ => Bus::Ipmb,
    }
}

/// Hands a frame to the port, which fills in what it sends.
fn serve_one<S: Store>(port: &mut Port, board: &mut Board<S>, frame: &Slot, out: &mut Out)
    ensures { PortStep board.old.setup port.old (state_of board.old) (frame_of frame.now)
        out.new port.new (state_of board.new) }
{
    port.on_frame(board, frame.as_slice(), out);
}

/// Hands each frame to the port.
fn serve_round<S: Store>(port: &mut Port, board: &mut Board<S>, frames: &[Slot], out: &mut Out) {
    for frame in frames {
        serve_one(port, board, frame, out);
    }
}

/// Hands each frame to the port, and leaves what it sent in the place that stands beside the frame.
fn leave_round<S: Store>(
    port: &mut Port,
    board: &mut Board<S>,
    frames: &[Slot],
    replies: &mut [Slot],
    out: &mut Out,
) {
    for (frame, reply) in frames.iter().zip(replies.iter_mut()) {
        serve_one(port, board, frame, out);
        leave(out, reply);
    }
}

/// Leaves the first frame that was sent.
fn leave(out: &Out, reply: &mut Slot)
    ensures { frame_of reply.new ≡ first (sent out.now) }
{
    match out.frames.as_slice() {
        [frame, ..] => reply.fill(frame.as_slice()),
        [] => reply.fill(&[]),
    }
}

/// Hands the frames in turn, so many times over and once more, and leaves the first frame that was sent at last to each.
fn serve_rounds<S: Store>(
    port: &mut Port,
    board: &mut Board<S>,
    frames: &[Slot],
    rounds: u64,
    replies: &mut [Slot],
) {
    let mut out = Out::new();
    for _ in 0..rounds {
        serve_round(port, board, frames, &mut out);
    }
    leave_round(port, board, frames, replies, &mut out);
}

/// Hands the frames in turn, so many times over and once more, to a fresh port of the board at 20h (EID 0Ah), with one `Out` for all of
/// them, and leaves the first frame that it sent at last to each. The bus is 0 for IPMB and 1 for the System Management Bus.
pub fn serve<S: Store>(
    alloc: Global,
    bus: u8,
    mut board: Board<S>,
    frames: &[Slot],
    rounds: u64,
    replies: &mut [Slot],
) -> Result<(), AllocError> {
    let at = At {
        wire: Address::new(CONTROLLER_WIRE).unwrap(),
        eid: EndpointId::new(CONTROLLER_EID).unwrap(),
    };
    let mut port = Port::new(alloc, bus_of(bus), at)?;
    serve_rounds(&mut port, &mut board, frames, rounds, replies);
    Ok(())
}
