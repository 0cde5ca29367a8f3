//! Boards with a history, links in memory, and workers.
use super::called::{Unwell, call_twice, digits, some};
use super::controller::{GET_DEVICE_ID, GET_TID, answer_of, open_sample, place};
use bmc_board::{Bench, Board, Records};
use bmc_core::Port;
use bmc_ports::{End, Gate, Heard, Held, Link, MemLink, NoThread, OpenFault, Opening, Shared, run_two};
use std::alloc::Global;
use std::io::Print;
use std::marker::Brand;
use std::sync::Wait;
use std::sync::ledger::Blank;
use std::thread::Threads;
use two_wire::Bus;

pub fn link<R: Print>(rt: &R, alloc: Global) -> Result<(), Unwell> {
    call_twice(
        rt,
        || MemLink::new(alloc, &[GET_DEVICE_ID]),
        |mut link| match link.next() {
            Ok(Heard::Frame(frame)) => digits(alloc, frame.as_slice()),
            _ => Err(Unwell::Input),
        },
    )
}

/// Opens the board with a history. It is kept where it isn't opened.
fn hold<J: Opening>(
    alloc: Global,
    boards: &mut Vec<Board<Records>>,
) -> Result<Board<Records>, OpenFault> {
    let Some(board) = boards.pop() else {
        return Err(OpenFault::Room);
    };
    match Held::<J, Records>::open(alloc, board, 4_096) {
        Ok(held) => Ok(held.into_parts().0),
        Err((fault, board)) => {
            boards.push_reserved(board);
            Err(fault)
        }
    }
}

/// One board, and room for it.
fn one_board(alloc: Global) -> Result<Vec<Board<Records>>, Unwell> {
    let mut boards = some(Vec::with_capacity(alloc, 2).ok())?;
    boards.push_reserved(open_sample(alloc)?);
    Ok(boards)
}

/// The board that a refused call hands back is opened by the next; where none is refused, the next has another.
pub fn held<R: Print>(rt: &R, alloc: Global) -> Result<(), Unwell> {
    let mut boards = one_board(alloc)?;
    let mut spare = one_board(alloc)?;
    call_twice(
        rt,
        || {
            if boards.is_empty() {
                std::mem::swap(&mut boards, &mut spare);
            }
            hold::<Brand>(alloc, &mut boards)
        },
        |mut board| answer_of(alloc, &mut board),
    )
}

/// Opens the board for threads. It is kept, with the ledger's blank, where it isn't opened.
fn share<J: Opening>(
    alloc: Global,
    boards: &mut Vec<Board<Records>>,
    blanks: &mut Vec<Blank>,
) -> Result<Board<Records>, OpenFault> {
    let (Some(board), Some(blank)) = (boards.pop(), blanks.pop()) else {
        return Err(OpenFault::Room);
    };
    match Shared::<J, Records>::open(alloc, blank, board, 4_096) {
        Ok((shared, seats)) => match shared.close(seats) {
            Ok((board, _)) => Ok(board),
            Err(_) => Err(OpenFault::Room),
        },
        Err((fault, blank, board)) => {
            boards.push_reserved(board);
            blanks.push_reserved(blank);
            Err(fault)
        }
    }
}

pub fn shared<R: Print>(rt: &R, alloc: Global) -> Result<(), Unwell> {
    let mut boards = one_board(alloc)?;
    let mut spare = one_board(alloc)?;
    let mut blanks = some(Vec::with_capacity(alloc, 2).ok())?;
    blanks.push_reserved(Blank::new(3));
    call_twice(
        rt,
        || {
            if boards.is_empty() {
                std::mem::swap(&mut boards, &mut spare);
                blanks.push_reserved(Blank::new(3));
            }
            share::<Brand>(alloc, &mut boards, &mut blanks)
        },
        |mut board| answer_of(alloc, &mut board),
    )
}

/// A gate that holds nobody.
pub struct OpenGate;

impl Gate for OpenGate {
    fn pass(&self, _port: u8, _n: u64) {}
}

/// What two workers are given.
#[derive(Drop)]
struct Given {
    board: Board<Records>,
    ports: [Port; 2],
    first: MemLink,
    second: MemLink,
}

fn given(alloc: Global) -> Result<Given, Unwell> {
    let at = place()?;
    Ok(Given {
        board: open_sample(alloc)?,
        ports: [
            Port::new(alloc, Bus::Ipmb, at)?,
            Port::new(alloc, Bus::Smbus, at)?,
        ],
        first: some(MemLink::new(alloc, &[GET_DEVICE_ID]).ok())?,
        second: some(MemLink::new(alloc, &[GET_TID]).ok())?,
    })
}

/// Has two workers serve the board and a tick happen on it, between `ready` and `called`, and gives the length of the history.
fn serve<J: Opening + Send + Sync, R: Print + Threads + Wait + Sync>(
    rt: &R,
    alloc: Global,
    given: Given,
) -> Result<Result<usize, NoThread>, Unwell> {
    let Given {
        board,
        ports,
        mut first,
        mut second,
    } = given;
    let Ok((shared, seats)) = Shared::<J, Records>::open(alloc, Blank::new(3), board, 8) else {
        return Err(Unwell::Input);
    };
    let bench = [Bench::Tick];
    println!(rt; "ready")?;
    let ran = run_two(rt, &shared, seats, ports, &mut first, &mut second, &bench, &OpenGate, 2);
    println!(rt; "called")?;
    match ran {
        Ok((seats, ends)) => {
            let [one, other, _] = ends;
            if one != End::Turns || other != End::Turns {
                return Err(Unwell::Input);
            }
            let (_, history) = some(shared.close(seats).ok())?;
            Ok(Ok(history.len()))
        }
        Err(fault) => Ok(Err(fault)),
    }
}

/// Two workers are begun twice, each time for a board of their own.
pub fn two<R: Print + Threads + Wait + Sync>(rt: &R, alloc: Global) -> Result<(), Unwell> {
    for _ in 0..2 {
        let ran = serve::<Brand, R>(rt, alloc, given(alloc)?)?;
        match ran {
            Ok(events) => println!(rt; "came events {events}")?,
            Err(fault) => println!(rt; "came {fault:?}")?,
        }
    }
    Ok(())
}
