//! Managers, and a plan that is played.
use super::called::{Unwell, call_twice, digits, some};
use super::files::{PLAN, SCHEDULE};
use super::texts::UNDO;
use cfg_records::{BoardFile, sample_board};
use lab_play::{LabFault, play};
use lab_run::lab_names;
use plan_file::read_plan;
use std::alloc::{AllocError, Global};
use std::io::Print;
use text_lines::{read_schedule, read_undo};
use undo_core::{Manager, OpenFault, ResumeFault, Sent};
use undo_plans::{Plan, UndoList};

/// The plan of the file.
pub fn file_plan(alloc: Global) -> Result<Plan, Unwell> {
    some(read_plan(alloc, PLAN).ok())
}

/// The list of the undo text.
pub fn list(alloc: Global) -> Result<UndoList, Unwell> {
    some(read_undo(alloc, UNDO).ok())
}

/// The frame that was sent.
fn show_sent(alloc: Global, sent: Option<Sent>) -> Result<String, Unwell> {
    let sent = some(sent)?;
    match sent.frames.as_slice() {
        [frame] => digits(alloc, frame.as_slice()),
        _ => Err(Unwell::Input),
    }
}

pub fn opened<R: Print>(rt: &R, alloc: Global) -> Result<(), Unwell> {
    let mut plans = Vec::new(alloc);
    for _ in 0..2 {
        plans.push(file_plan(alloc)?).map_err(AllocError::from)?;
    }
    call_twice(
        rt,
        || match plans.pop() {
            Some(plan) => Manager::open(alloc, plan, lab_names(), 3),
            None => Err(OpenFault::Retries),
        },
        |mut manager| show_sent(alloc, some(manager.start().ok())?),
    )
}

pub fn resumed<R: Print>(rt: &R, alloc: Global) -> Result<(), Unwell> {
    let mut lists = Vec::new(alloc);
    for _ in 0..2 {
        lists.push(list(alloc)?).map_err(AllocError::from)?;
    }
    call_twice(
        rt,
        || match lists.pop() {
            Some(list) => Manager::resume(alloc, list, lab_names(), 3),
            None => Err(ResumeFault::Retries),
        },
        |mut manager| show_sent(alloc, some(manager.undo().ok())?),
    )
}

/// Why a play isn't told, without the play.
fn fault_name(fault: LabFault) -> &'static str {
    match fault {
        LabFault::Memory => "Memory",
        LabFault::Event { .. } => "Event",
    }
}

pub fn played<R: Print>(rt: &R, alloc: Global) -> Result<(), Unwell> {
    let events = some(read_schedule(alloc, SCHEDULE).ok())?;
    let mut made: Vec<(BoardFile, Plan)> = Vec::new(alloc);
    for _ in 0..2 {
        made.push((sample_board(alloc)?, file_plan(alloc)?)).map_err(AllocError::from)?;
    }
    call_twice(
        rt,
        || match made.pop() {
            Some((file, plan)) => play(alloc, file, plan, events.as_slice()).map_err(fault_name),
            None => Err("no input"),
        },
        |played| {
            let phase = played.phase();
            Ok(format!(in alloc; "{phase:?} frames {}", played.frames().len())?)
        },
    )
}
