//! Frames that are served one after another, with no lock and no history.
use crate::asked::Asked;
use crate::since::since;
use bmc_board::{Board, Records};
use bmc_core::{At, Out, Port};
use cfg_records::sample_board;
use mctp_net::EndpointId;
use std::alloc::{AllocError, Global};
use std::time::{Clock, Duration, Instant};
use two_wire::places::{CONTROLLER_EID, CONTROLLER_WIRE};
use two_wire::{Address, Bus};

/// Hands each frame to the port.
fn serve_round(port: &mut Port, board: &mut Board<Records>, frames: &[Vec<u8>], out: &mut Out) {
    for frame in frames {
        port.on_frame(board, frame.as_slice(), out);
    }
}

/// Hands the frames to the port, so many times over.
fn serve_all(mut port: Port, board: &mut Board<Records>, frames: &[Vec<u8>], times: u32) {
    let mut out = Out::new();
    for _ in 0..times {
        serve_round(&mut port, board, frames, &mut out);
    }
}

/// The controller's ports on both buses, which have heard nothing yet.
pub fn open_ports(alloc: Global) -> Result<[Port; 2], AllocError> {
    let at = At {
        wire: Address::new(CONTROLLER_WIRE).unwrap(),
        eid: EndpointId::new(CONTROLLER_EID).unwrap(),
    };
    Ok([
        Port::new(alloc, Bus::Ipmb, at)?,
        Port::new(alloc, Bus::Smbus, at)?,
    ])
}

/// The sample board.
pub fn open_sample(alloc: Global) -> Option<Board<Records>> {
    match sample_board(alloc) {
        Ok(file) => Board::of_file(alloc, file).ok(),
        Err(_) => None,
    }
}

/// How long the frames of both ports take on this board.
fn time_ports<R: Clock>(
    rt: &R,
    board: &mut Board<Records>,
    ports: [Port; 2],
    asked: &Asked,
) -> Option<Duration> {
    let [ipmb, smbus] = ports;
    let start = Instant::now(rt).ok();
    serve_all(ipmb, board, asked.ipmb.as_slice(), asked.times);
    serve_all(smbus, board, asked.smbus.as_slice(), asked.times);
    since(rt, start)
}

/// How long the frames of both ports take on the sample board.
pub fn time_alone<R: Clock>(rt: &R, alloc: Global, asked: &Asked) -> Option<Duration> {
    let Ok(ports) = open_ports(alloc) else {
        return None;
    };
    match open_sample(alloc) {
        Some(mut board) => time_ports(rt, &mut board, ports, asked),
        None => None,
    }
}
