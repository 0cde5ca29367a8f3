//! Frames that are served one after another, with a history and no lock.
ghost use Rattle.std.specs.Prelude.{◌≡◌};
ghost use Rattle.bmc_board.specs.State.{state_of};

use crate::alone::{open_ports, open_sample};
use crate::asked::Asked;
use crate::since::since;
use bmc_board::{AskedRef, Board, Carrier, Records, Reply};
use bmc_core::{Out, Port};
use bmc_ports::{Held, MOST_EVENTS, Opening, PeriodFull};
use std::alloc::Global;
use std::marker::{Brand, PhantomData};
use std::time::{Clock, Duration, Instant};
use two_wire::Code;

/// A seat at a board that nobody shares: the board's history gains what the seat asks.
#[derive(Drop)]
struct Recorder<J> {
    seat: u8,
    of: PhantomData<J>,
}

impl<J: Opening> Carrier for Recorder<J> {
    ghost use Rattle.std.specs.Prelude.{◌≡◌};
    ghost use Rattle.bmc_shared.specs.declared.event.Call.TheVariants.{Exchanged};
    ghost use Rattle.bmc_shared.specs.Calls.{GainsEvent};

    type Kept = Held<J, Records>;

    type Refusal = PeriodFull;

    ghost carries = { λ recorder before asked answered after.
        GainsEvent before.history.items after.history.items
        recorder.seat (Exchanged asked answered) };

    ghost refuses = { λ recorder before why after. after ≡ before };

    #[inline(always)]
    fn carry<B: Reply>(
        &self,
        held: &mut Held<J, Records>,
        asked: &AskedRef<'_>,
        reply: &mut B,
    ) -> Result<Result<(), Code>, PeriodFull> {
        held.exchange_into(self.seat, asked, reply)
    }
}

/// Hands each frame to the port. A request that finds no room is dropped.
fn serve_round<J: Opening>(
    held: &mut Held<J, Records>,
    recorder: &Recorder<J>,
    port: &mut Port,
    frames: &[Vec<u8>],
    out: &mut Out,
) {
    for frame in frames {
        let _ = port.serve(recorder, held, frame.as_slice(), out);
    }
}

/// Hands the frames to the port, so many times over.
fn serve_all<J: Opening>(
    held: &mut Held<J, Records>,
    seat: u8,
    mut port: Port,
    frames: &[Vec<u8>],
    times: u32,
) {
    let recorder = Recorder {
        seat,
        of: PhantomData,
    };
    let mut out = Out::new();
    for _ in 0..times {
        serve_round(held, &recorder, &mut port, frames, &mut out);
    }
}

/// How long the frames of both ports take.
fn time_ports<J: Opening, R: Clock>(
    rt: &R,
    held: &mut Held<J, Records>,
    ports: [Port; 2],
    asked: &Asked,
) -> Option<Duration> {
    let [ipmb, smbus] = ports;
    let start = Instant::now(rt).ok();
    serve_all(held, 0, ipmb, asked.ipmb.as_slice(), asked.times);
    serve_all(held, 1, smbus, asked.smbus.as_slice(), asked.times);
    since(rt, start)
}

/// How long the frames of both ports take at a board that keeps its history.
fn time_keeping<J: Opening, R: Clock>(
    rt: &R,
    alloc: Global,
    mut held: Held<J, Records>,
    asked: &Asked,
) -> Option<Duration> {
    match open_ports(alloc) {
        Ok(ports) => time_ports(rt, &mut held, ports, asked),
        Err(_) => None,
    }
}

/// How long they take on a board with room for so many events.
fn time_opened<J: Opening, R: Clock>(
    rt: &R,
    alloc: Global,
    board: Board<Records>,
    room: usize,
    asked: &Asked,
) -> Option<Duration>
    requires setup { board.setup ≡ J.setup }
    requires opening { state_of board ≡ J.opening }
    requires room { room ≡ J.room }
{
    match Held::<J, Records>::open(alloc, board, room) {
        Ok(held) => time_keeping(rt, alloc, held, asked),
        Err(_) => None,
    }
}

/// How long they take on this board.
fn time_board<R: Clock>(
    rt: &R,
    alloc: Global,
    board: Board<Records>,
    asked: &Asked,
) -> Option<Duration> {
    time_opened::<Brand, R>(rt, alloc, board, MOST_EVENTS, asked)
}

/// How long the frames of both ports take on the sample board, which keeps its history.
pub fn time_held<R: Clock>(rt: &R, alloc: Global, asked: &Asked) -> Option<Duration> {
    match open_sample(alloc) {
        Some(board) => time_board(rt, alloc, board, asked),
        None => None,
    }
}
