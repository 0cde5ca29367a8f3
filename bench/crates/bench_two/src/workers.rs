//! Two workers on one board under a lock, with its history: both at once, or one after the other in this thread.
ghost use Rattle.std.specs.Prelude.{◌≡◌};
ghost use Rattle.bmc_board.specs.State.{state_of};

use crate::alone::{open_ports, open_sample};
use crate::asked::Asked;
use crate::frames::link_of;
use crate::since::since;
use bmc_board::{Board, Records};
use bmc_core::Port;
use bmc_ports::{
    Gate, MOST_EVENTS, MemLink, NoThread, Opening, Seat, Seats, Shared, run_two, serve_port,
};
use std::alloc::Global;
use std::marker::Brand;
use std::sync::Wait;
use std::sync::ledger::Blank;
use std::thread::Threads;
use std::time::{Clock, Duration, Instant};

/// How the workers serve.
#[derive(Clone, Copy)]
pub enum Way {
    Together,
    /// The second once the first has ended.
    InTurn,
}

/// A gate that holds nobody.
struct Open;

impl Gate for Open {
    fn pass(&self, _port: u8, _n: u64) {}
}

/// What one run of the workers came to.
#[derive(Clone, Copy)]
pub struct Run {
    pub events: usize,
    pub took: Duration,
}

/// Both ports' links, and how often each worker listens.
#[derive(Drop)]
struct Sides {
    ports: [Port; 2],
    ipmb: MemLink,
    smbus: MemLink,
    turns: u32,
}

/// How often each worker listens.
fn turns_of(asked: &Asked) -> Option<u32> {
    let frames = u32::try_from(asked.ipmb.len().max(asked.smbus.len())).ok()?;
    Some(frames.saturating_mul(asked.times))
}

/// Both links, which hear the frames that are asked for.
fn links_of(alloc: Global, asked: &Asked) -> Option<(MemLink, MemLink)> {
    let ipmb = link_of(alloc, asked.ipmb.as_slice(), asked.times)?;
    match link_of(alloc, asked.smbus.as_slice(), asked.times) {
        Some(smbus) => Some((ipmb, smbus)),
        None => None,
    }
}

/// Both ports, which hear the frames that are asked for.
fn sides_of(alloc: Global, asked: &Asked) -> Option<Sides> {
    let turns = turns_of(asked)?;
    let (ipmb, smbus) = links_of(alloc, asked)?;
    match open_ports(alloc) {
        Ok(ports) => Some(Sides {
            ports,
            ipmb,
            smbus,
            turns,
        }),
        Err(_) => None,
    }
}

/// Serves a port in this thread.
fn serve_one<J: Opening, R: Wait>(
    rt: &R,
    shared: &Shared<J, Records>,
    seat: &mut Seat<J>,
    mut port: Port,
    mut link: MemLink,
    turns: u32,
)
    ensures { seat.new.number ≡ seat.old.number }
{
    serve_port(rt, shared, seat, &mut port, &mut link, &Open, turns);
}

/// Serves the one port and then the other.
fn serve_in_turn<J: Opening, R: Wait>(
    rt: &R,
    shared: &Shared<J, Records>,
    mut seats: Seats<J>,
    sides: Sides,
) -> Seats<J> {
    let Sides {
        ports,
        ipmb,
        smbus,
        turns,
    } = sides;
    let [first, second] = ports;
    serve_one(rt, shared, &mut seats.first, first, ipmb, turns);
    serve_one(rt, shared, &mut seats.second, second, smbus, turns);
    seats
}

/// Serves both ports at once.
fn serve_together<J: Opening + Send + Sync, R: Threads + Wait + Sync>(
    rt: &R,
    shared: &Shared<J, Records>,
    seats: Seats<J>,
    sides: Sides,
) -> Option<Seats<J>> {
    let Sides {
        ports,
        mut ipmb,
        mut smbus,
        turns,
    } = sides;
    match run_two(
        rt,
        shared,
        seats,
        ports,
        &mut ipmb,
        &mut smbus,
        &[],
        &Open,
        turns,
    ) {
        Ok((seats, _)) => Some(seats),
        Err(NoThread) => None,
    }
}

/// The workers' seats and how long they worked.
fn time_work<J: Opening + Send + Sync, R: Threads + Wait + Clock + Sync>(
    rt: &R,
    shared: &Shared<J, Records>,
    seats: Seats<J>,
    sides: Sides,
    way: Way,
) -> Option<(Seats<J>, Duration)> {
    let start = Instant::now(rt).ok();
    let seats = match way {
        Way::Together => serve_together(rt, shared, seats, sides),
        Way::InTurn => Some(serve_in_turn(rt, shared, seats, sides)),
    };
    let took = since(rt, start);
    match (seats, took) {
        (Some(seats), Some(took)) => Some((seats, took)),
        _ => None,
    }
}

/// What the workers' run came to.
fn run_of<J: Opening>(shared: Shared<J, Records>, seats: Seats<J>, took: Duration) -> Option<Run>
    requires three { J.parts ≡ 3 }
{
    match shared.close(seats) {
        Ok((board, history)) => {
            drop(board);
            let events = history.len();
            drop(history);
            Some(Run { events, took })
        }
        Err(_) => None,
    }
}

/// Has the workers serve a board that they share.
fn time_sharing<J: Opening + Send + Sync, R: Threads + Wait + Clock + Sync>(
    rt: &R,
    shared: Shared<J, Records>,
    seats: Seats<J>,
    sides: Sides,
    way: Way,
) -> Option<Run>
    requires three { J.parts ≡ 3 }
{
    match time_work(rt, &shared, seats, sides, way) {
        Some((seats, took)) => run_of(shared, seats, took),
        None => None,
    }
}

/// Has the workers serve a board, with room for so many events.
fn time_opened<J: Opening + Send + Sync, R: Threads + Wait + Clock + Sync>(
    rt: &R,
    alloc: Global,
    blank: Blank,
    board: Board<Records>,
    room: usize,
    sides: Sides,
    way: Way,
) -> Option<Run>
    requires name { blank.name ≡ J.name }
    requires parts { blank.parts ≡ J.parts }
    requires three { blank.parts ≡ 3 }
    requires setup { board.setup ≡ J.setup }
    requires opening { state_of board ≡ J.opening }
    requires room { room ≡ J.room }
{
    match Shared::<J, Records>::open(alloc, blank, board, room) {
        Ok((shared, seats)) => time_sharing(rt, shared, seats, sides, way),
        Err(_) => None,
    }
}

/// Has the workers serve this board.
fn time_shared<R: Threads + Wait + Clock + Sync>(
    rt: &R,
    alloc: Global,
    board: Board<Records>,
    sides: Sides,
    way: Way,
) -> Option<Run> {
    time_opened::<Brand, R>(rt, alloc, Blank::new(3), board, MOST_EVENTS, sides, way)
}

/// How long the workers take on the sample board, and how many events there are then.
pub fn time_workers<R: Threads + Wait + Clock + Sync>(
    rt: &R,
    alloc: Global,
    asked: &Asked,
    way: Way,
) -> Option<Run> {
    let sides = sides_of(alloc, asked)?;
    match open_sample(alloc) {
        Some(board) => time_shared(rt, alloc, board, sides, way),
        None => None,
    }
}
