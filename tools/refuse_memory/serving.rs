//! Serving, running and undoing, which take no memory.
use super::asked::{ON_IPMB, ON_SMBUS};
use super::called::{Unwell, some};
use super::codes::{Codes, open_board};
use super::controller::{GET_DEVICE_ID, GET_TID, place};
use super::manager::file_plan;
use bmc_board::{Bench, Board, Records};
use bmc_core::{Out, Port, Step};
use bmc_ports::{Heard, Held, Link, MemLink, Opening};
use lab_run::lab_names;
use std::alloc::Global;
use std::io::Print;
use std::marker::Brand;
use two_wire::Bus;
use undo_core::{Manager, Phase, Sent};

/// How many frames a manager sends at most.
const MOST: usize = 20;

/// A board with its history, its ports, a link that hears what others ask, a manager, and room for the codes of replies: all that is opened
/// before.
#[derive(Drop)]
struct Opened<J: Opening> {
    held: Held<J, Records>,
    ipmb: Port,
    smbus: Port,
    link: MemLink,
    out: Out,
    manager: Manager,
    codes: Codes,
}

fn open<J: Opening>(alloc: Global) -> Result<Opened<J>, Unwell> {
    let at = place()?;
    Ok(Opened {
        held: some(Held::open(alloc, open_board(alloc)?, 256).ok())?,
        ipmb: Port::new(alloc, Bus::Ipmb, at)?,
        smbus: Port::new(alloc, Bus::Smbus, at)?,
        link: some(MemLink::new(alloc, &[GET_DEVICE_ID, GET_DEVICE_ID, &[0x20], &[]]).ok())?,
        out: Out::new(),
        manager: some(Manager::open(alloc, file_plan(alloc)?, lab_names(), 3).ok())?,
        codes: Codes::new(alloc)?,
    })
}

impl<J: Opening> Opened<J> {
    /// The port of the bus hears the bytes, and the board, with its history, answers.
    fn hear(&mut self, bus: Bus, bytes: &[u8]) {
        let port = match bus {
            Bus::Ipmb => &mut self.ipmb,
            Bus::Smbus => &mut self.smbus,
        };
        if let Step::Ask(pending) = port.hear(bytes, &mut self.out) {
            if let Ok(answered) = self.held.exchange(bus as u8, &pending.asked()) {
                port.answer(pending, &answered, &mut self.out);
            }
        }
    }

    /// The board is asked for all that it can be asked to set, over both buses.
    fn hear_commands(&mut self) {
        for (bus, frames) in [(Bus::Ipmb, ON_IPMB), (Bus::Smbus, ON_SMBUS)] {
            for frame in frames {
                self.hear(bus, frame);
                self.codes.note(bus, self.out.frames.as_slice());
            }
        }
    }

    /// What the manager sends is heard, and it hears the reply, until it sends nothing more.
    fn run(&mut self, first: Option<Sent>) -> Phase {
        let mut sent = first;
        for _ in 0..MOST {
            let Some(now) = sent else {
                break;
            };
            sent = self.turn(&now);
        }
        self.manager.phase()
    }

    /// One request of the manager, with what it sends behind the reply.
    fn turn(&mut self, now: &Sent) -> Option<Sent> {
        for frame in now.frames.as_slice() {
            self.hear(now.bus, frame.as_slice());
        }
        let mut next = None;
        for reply in self.out.frames.as_slice() {
            next = self.manager.on_frame(now.bus, reply.as_slice());
        }
        next
    }

    /// The port hears what others ask over the link, and sends its replies there.
    fn serve(&mut self) -> usize {
        for _ in 0..4 {
            if let Ok(Heard::Frame(frame)) = self.link.next() {
                self.hear(Bus::Ipmb, frame.as_slice());
                for reply in self.out.frames.as_slice() {
                    let _ = self.link.send(reply);
                }
            }
        }
        self.hear(Bus::Smbus, GET_TID);
        self.link.sent().len()
    }
}

/// Opens all, and between `ready` and `called` has others ask, a plan run, and taken back.
fn serve_opened<J: Opening, R: Print>(rt: &R, alloc: Global) -> Result<(), Unwell> {
    let mut opened = open::<J>(alloc)?;
    println!(rt; "ready")?;
    let served = opened.serve();
    let begun = some(opened.manager.start().ok())?;
    let done = opened.run(begun);
    let ticked = opened.held.bench(2, Bench::Tick).is_ok();
    let undone = some(opened.manager.undo().ok())?;
    let undone = opened.run(undone);
    let again = opened.serve();
    opened.hear_commands();
    println!(rt; "called")?;
    let events = opened.held.len();
    print!(rt; "came served {served} {done:?} {ticked} {undone:?} served {again} events {events} codes ")?;
    opened.codes.print(rt)
}

pub fn serve<R: Print>(rt: &R, alloc: Global) -> Result<(), Unwell> {
    serve_opened::<Brand, R>(rt, alloc)
}
