//! Workers that serve a board which they share, and take no memory.
use super::asked::{ON_IPMB, ON_SMBUS};
use super::called::{Unwell, some};
use super::codes::{Codes, open_board};
use super::controller::place;
use super::shared::OpenGate;
use bmc_board::{Bench, Records};
use bmc_core::Port;
use bmc_ports::{Link, MemLink, Opening, Seats, Shared, serve_port};
use std::alloc::Global;
use std::io::Print;
use std::marker::Brand;
use std::sync::Wait;
use std::sync::ledger::Blank;
use two_wire::Bus;

/// How often each port listens: for each frame that comes, and once more.
const TURNS: u32 = 64;

/// Both ports, with links that hear what is asked.
#[derive(Drop)]
struct Sides {
    ports: [Port; 2],
    ipmb: MemLink,
    smbus: MemLink,
}

fn open_sides(alloc: Global) -> Result<Sides, Unwell> {
    let at = place()?;
    Ok(Sides {
        ports: [
            Port::new(alloc, Bus::Ipmb, at)?,
            Port::new(alloc, Bus::Smbus, at)?,
        ],
        ipmb: some(MemLink::new(alloc, ON_IPMB).ok())?,
        smbus: some(MemLink::new(alloc, ON_SMBUS).ok())?,
    })
}

/// Each port is served in its turn, and then a tick happens.
fn serve_all<J: Opening, R: Wait>(
    rt: &R,
    shared: &Shared<J, Records>,
    seats: &mut Seats<J>,
    sides: &mut Sides,
) -> bool {
    let [first, second] = &mut sides.ports;
    serve_port(rt, shared, &mut seats.first, first, &mut sides.ipmb, &OpenGate, TURNS);
    serve_port(rt, shared, &mut seats.second, second, &mut sides.smbus, &OpenGate, TURNS);
    shared.bench(rt, &mut seats.scanner, Bench::Tick).is_ok()
}

fn serve_opened<J: Opening, R: Print + Wait>(rt: &R, alloc: Global) -> Result<(), Unwell> {
    let mut sides = open_sides(alloc)?;
    let mut codes = Codes::new(alloc)?;
    let opened = Shared::<J, Records>::open(alloc, Blank::new(3), open_board(alloc)?, 256);
    let (shared, mut seats) = some(opened.ok())?;
    println!(rt; "ready")?;
    let ticked = serve_all(rt, &shared, &mut seats, &mut sides);
    codes.note(Bus::Ipmb, sides.ipmb.sent());
    codes.note(Bus::Smbus, sides.smbus.sent());
    let calls = [sides.ipmb.counts().calls, sides.smbus.counts().calls];
    let closed = shared.close(seats);
    println!(rt; "called")?;
    let (_, history) = some(closed.ok())?;
    let events = history.len();
    print!(rt; "came calls {calls:?} {ticked} events {events} codes ")?;
    codes.print(rt)
}

pub fn serve<R: Print + Wait>(rt: &R, alloc: Global) -> Result<(), Unwell> {
    serve_opened::<Brand, R>(rt, alloc)
}
