//! One run: two workers and a scanner share a board, which is closed then.
use super::fault::NotMade;
use super::gate::Mixed;
use super::long_asset::put_long_asset;
use super::scripts::{ENDPOINT, REQUESTER, Script};
use bmc_board::{Bench, Board, Records};
use bmc_core::{At, Port};
use bmc_ports::{End, History, MemLink, Opening, PeriodFull, Seat, Seats, Shared, run_two, serve_port};
use cfg_records::sample_board;
use mctp_net::EndpointId;
use std::alloc::{AllocError, Global};
use std::marker::Brand;
use std::sync::Wait;
use std::sync::ledger::Blank;
use std::thread;
use std::thread::Threads;
use two_wire::{Address, Bus, Frame};

/// Both links, why the three ended, and the board with its history.
#[derive(Drop)]
pub(super) struct Told {
    pub first: MemLink,
    pub second: MemLink,
    pub ends: [End; 3],
    pub board: Board<Records>,
    pub history: History,
}

/// The sample board, whose text may be longer.
pub(super) fn open_sample(alloc: Global) -> Result<Board<Records>, AllocError> {
    let mut file = sample_board(alloc)?;
    put_long_asset(alloc, &mut file.attributes)?;
    Board::of_file(alloc, file)
}

/// A port of the controller at its address on this bus.
fn port_on(alloc: Global, bus: Bus) -> Result<Port, NotMade> {
    let at = At {
        wire: Address::new(0x20).ok_or("address")?,
        eid: EndpointId::new(0x0A).ok_or("endpoint")?,
    };
    Ok(Port::new(alloc, bus, at)?)
}

/// Both ports of a controller. To open them takes longer than all else of a run, so most runs have the same.
#[derive(Drop)]
pub(super) struct Ports {
    pub first: Port,
    pub second: Port,
}

impl Ports {
    /// Ports that heard nothing yet.
    pub fn new(alloc: Global) -> Result<Ports, NotMade> {
        Ok(Ports {
            first: port_on(alloc, Bus::Ipmb)?,
            second: port_on(alloc, Bus::Smbus)?,
        })
    }

    /// Forgets what both requesters of the scripts asked: the ports keep nothing then, as those that heard nothing yet.
    pub fn forget(&mut self) {
        let _ = self.first.idle(REQUESTER);
        let _ = self.second.idle(ENDPOINT);
    }
}

/// A link that hears these frames.
fn link_of(alloc: Global, frames: &[Frame]) -> Result<MemLink, NotMade> {
    let mut script: Vec<&[u8]> = Vec::new(alloc);
    for frame in frames {
        script.push(frame.as_slice())?;
    }
    Ok(MemLink::new(alloc, script.as_slice()).ok().ok_or("link")?)
}

/// Serves a port, and gives its seat back.
fn serve<J: Opening, R: Wait>(
    rt: &R,
    shared: &Shared<J, Records>,
    mut seat: Seat<J>,
    port: &mut Port,
    link: &mut MemLink,
    gate: &Mixed,
    turns: u32,
) -> (Seat<J>, End) {
    let end = serve_port(rt, shared, &mut seat, port, link, gate, turns);
    (seat, end)
}

/// Has events happen, one a turn, and gives the scanner's seat back.
fn happen<J: Opening, R: Wait>(
    rt: &R,
    shared: &Shared<J, Records>,
    mut seat: Seat<J>,
    bench: &[Bench],
    turns: u32,
) -> (Seat<J>, End) {
    for event in bench.iter().take(turns as usize) {
        if let Err(PeriodFull) = shared.bench(rt, &mut seat, *event) {
            return (seat, End::Full);
        }
    }
    (seat, End::Turns)
}

/// Does what `run_two` does, over ports that are lent.
fn run_lent<J: Opening + Send + Sync, R: Threads + Wait + Sync>(
    rt: &R,
    shared: &Shared<J, Records>,
    seats: Seats<J>,
    ports: &mut Ports,
    links: (&mut MemLink, &mut MemLink),
    script: &Script,
    gate: &Mixed,
) -> Option<(Seats<J>, [End; 3])> {
    let Seats {
        first: first_seat,
        second: second_seat,
        scanner,
    } = seats;
    let Ports {
        first: first_port,
        second: second_port,
    } = ports;
    let (first_link, second_link) = links;
    let (bench, turns) = (script.bench.as_slice(), script.turns);
    thread::scope(
        thread::scope_env(),
        rt,
        |scope| -> Option<(Seats<J>, [End; 3])> {
            let first = scope
                .spawn(move || serve(rt, shared, first_seat, first_port, first_link, gate, turns))
                .ok()?;
            let second = scope
                .spawn(move || serve(rt, shared, second_seat, second_port, second_link, gate, turns))
                .ok()?;
            let scanner = scope
                .spawn(move || happen(rt, shared, scanner, bench, turns))
                .ok()?;
            let (first, first_end) = first.join(rt);
            let (second, second_end) = second.join(rt);
            let (scanner, scanner_end) = scanner.join(rt);
            let seats = Seats {
                first,
                second,
                scanner,
            };
            Some((seats, [first_end, second_end, scanner_end]))
        },
    )
}

/// Has two workers and a scanner share a board, past the gate of this seed: by `run_two` over ports of its own, or over those that are lent.
fn share<J: Opening + Send + Sync, R: Threads + Wait + Sync>(
    rt: &R,
    alloc: Global,
    board: Board<Records>,
    ports: Option<&mut Ports>,
    script: &Script,
    seed: u64,
) -> Result<Told, NotMade> {
    let mut first = link_of(alloc, script.first.as_slice())?;
    let mut second = link_of(alloc, script.second.as_slice())?;
    let Ok((shared, seats)) =
        Shared::<J, Records>::open(alloc, Blank::new(3), board, script.room)
    else {
        return Err("not opened".into());
    };
    let gate = Mixed::new(seed);
    let run = match ports {
        Some(ports) => {
            let links = (&mut first, &mut second);
            run_lent(rt, &shared, seats, ports, links, script, &gate)
        }
        None => {
            let own = Ports::new(alloc)?;
            run_two(
                rt,
                &shared,
                seats,
                [own.first, own.second],
                &mut first,
                &mut second,
                script.bench.as_slice(),
                &gate,
                script.turns,
            )
            .ok()
        }
    };
    let (seats, ends) = run.ok_or("no thread")?;
    let (board, history) = shared.close(seats).ok().ok_or("not closed")?;
    Ok(Told {
        first,
        second,
        ends,
        board,
        history,
    })
}

/// The same, of the sample board, with a ledger of its own.
pub(super) fn share_sample<R: Threads + Wait + Sync>(
    rt: &R,
    alloc: Global,
    ports: Option<&mut Ports>,
    script: &Script,
    seed: u64,
) -> Result<Told, NotMade> {
    let board = open_sample(alloc)?;
    share::<Brand, R>(rt, alloc, board, ports, script, seed)
}
